/* Scans: by source a bit for each of 64 groups of ports that it has tried. */
#include "filters.h"

struct {
    __uint(type, BPF_MAP_TYPE_HASH);
    __type(key, u32);
    __type(value, u64);
    __uint(max_entries, 256);
} tried SEC(".maps");

static __noinline u32 ones(u64 bits)
{
    u32 found = 0;
#pragma clang loop unroll(disable)
    for (int at = 0; at < 64; at++)
        found += bits >> at & 1;
    return found;
}

SEC("socket") int watch_ports(struct __sk_buff *skb)
{
    u8 words;
    u16 port;
    u32 source;
    if (skb->protocol != bpf_htons(ETH_P_IP) || load_byte(skb, ETH_HLEN, &words))
        return 0;
    if (load_half(skb, ETH_HLEN + (words & 15) * 4 + 2, &port) || bpf_skb_load_bytes(skb, ETH_HLEN + 12, &source, sizeof source))
        return 0;
    u64 bit = 1ul << (port & 63), *bits = bpf_map_lookup_elem(&tried, &source);
    if (!bits) {
        bpf_map_update_elem(&tried, &source, &bit, BPF_ANY);
        return 1;
    }
    *bits |= bit;
    return ones(*bits);
}
