/* Keeps packets to one of the ports of a table, which a loader may fill; some are in it from the start. */
#include "filters.h"

struct {
    __uint(type, BPF_MAP_TYPE_HASH);
    __type(key, u16);
    __type(value, u64);
    __uint(max_entries, 64);
} hits SEC(".maps");

static const u16 wanted[8] = { 22, 53, 80, 123, 443, 853, 5060, 8080 };

static __noinline int is_wanted(u16 port)
{
#pragma clang loop unroll(disable)
    for (int at = 0; at < 8; at++)
        if (wanted[at] == port)
            return 1;
    return 0;
}

SEC("socket") int keep_ports(struct __sk_buff *skb)
{
    u8 first, protocol;
    u16 port;
    if (skb->protocol != bpf_htons(ETH_P_IP) || load_byte(skb, ETH_HLEN, &first) || load_byte(skb, ETH_HLEN + 9, &protocol))
        return 0;
    if (protocol != IPPROTO_TCP && protocol != IPPROTO_UDP)
        return 0;
    if (load_half(skb, ETH_HLEN + (first & 15) * 4 + 2, &port) || !is_wanted(port))
        return 0;
    count(&hits, &port);
    return -1;
}
