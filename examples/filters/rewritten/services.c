/* Services by their port: a table of eight numbers on the stack that a loop fills, and that the port's lowest bits look up. */
#include "../filters.h"

u64 sums[64];

SEC("socket") int sum_services(struct __sk_buff *skb)
{
    struct ports ports;
    u32 weights[8], kind, weight = skb->ifindex + 1;
    if (bpf_skb_load_bytes(skb, ETH_HLEN + sizeof(struct ipv4), &ports, sizeof ports))
        return 0;
    for (int i = 0; i < 8; i++) {
        weights[i] = weight;
        weight = weight * 3 + skb->pkt_type;
    }
    kind = bpf_ntohs(ports.destination) & 7;
    sums[kind] += weights[kind];
    return weights[kind] & 8 ? -1 : 0;
}
