/* The most frequent half of a byte in the first 16 bytes of IPv4: counts of each on the stack, with an index that the packet gives. */
#include "../filters.h"

struct {
    __uint(type, BPF_MAP_TYPE_ARRAY);
    __type(key, u32);
    __type(value, u64);
    __uint(max_entries, 16);
} most SEC(".maps");

SEC("socket") int count_nibbles(struct __sk_buff *skb)
{
    u8 bytes[8], counts[16] = {};
    u32 best = 0;
    if (bpf_skb_load_bytes(skb, ETH_HLEN, bytes, sizeof bytes))
        return 0;
    for (int i = 0; i < 8; i++) {
        counts[bytes[i] >> 4] += 1;
        counts[bytes[i] & 15] += 1;
    }
    for (u32 i = 1; i < 16; i++)
        if (counts[i] > counts[best & 15])
            best = i;
    count_at(&most, best & 15);
    return counts[0] > 4 ? -1 : 0;
}
