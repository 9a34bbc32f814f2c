/* Packets to the 64 ports from 5000 on and from 40000 on: numbers of 16 bits, each compared in one register and used in another. */
#include "../filters.h"

u64 low[64], high[64];

static __always_inline int count_from(u64 *counts, u16 port, u16 first)
{
    u16 at = port - first;
    if (at >= 64)
        return 0;
    counts[at] += 1;
    return 1;
}

SEC("socket") int count_windows(struct __sk_buff *skb)
{
    struct ports ports;
    if (bpf_skb_load_bytes(skb, ETH_HLEN + sizeof(struct ipv4), &ports, sizeof ports))
        return 0;
    return count_from(low, bpf_ntohs(ports.source), 5000) | count_from(high, bpf_ntohs(ports.source), 40000) ? -1 : 0;
}
