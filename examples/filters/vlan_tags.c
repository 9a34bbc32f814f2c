/* Networks of VLAN: reads two tags at most, and counts by the inner network. */
#include "filters.h"

struct {
    __uint(type, BPF_MAP_TYPE_HASH);
    __type(key, u16);
    __type(value, u64);
    __uint(max_entries, 256);
} networks SEC(".maps");

u64 untagged, twice;

SEC("socket") int count_networks(struct __sk_buff *skb)
{
    u16 type, tag = 0;
    u32 at = 12, tags = 0;
    for (int turn = 0; turn < 2; turn++) {
        if (load_half(skb, at, &type))
            return 0;
        if (type != ETH_P_8021Q && type != ETH_P_8021AD)
            break;
        if (load_half(skb, at + 2, &tag))
            return 0;
        tags += 1;
        at += 4;
    }
    if (!tags) {
        __sync_fetch_and_add(&untagged, 1);
        return 0;
    }
    if (tags == 2)
        __sync_fetch_and_add(&twice, 1);
    tag &= 0xfff;
    count(&networks, &tag);
    return at + 2;
}
