/* Packets by the type in the Ethernet header, in a hash map without memory of its own before it is needed. */
#include "filters.h"

struct {
    __uint(type, BPF_MAP_TYPE_HASH);
    __type(key, u16);
    __type(value, u64);
    __uint(max_entries, 64);
    __uint(map_flags, BPF_F_NO_PREALLOC);
} types SEC(".maps");

SEC("socket") int count_types(struct __sk_buff *skb)
{
    u16 type;
    if (load_half(skb, 12, &type))
        return 0;
    count(&types, &type);
    return ETH_HLEN;
}
