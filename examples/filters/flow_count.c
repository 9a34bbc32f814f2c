/* Packets and bytes of each flow of TCP or UDP over IPv4. */
#include "filters.h"

struct flow {
    u32 source, destination;
    struct ports ports;
    u32 protocol;
};

struct counts {
    u64 packets, bytes;
};

struct {
    __uint(type, BPF_MAP_TYPE_HASH);
    __type(key, struct flow);
    __type(value, struct counts);
    __uint(max_entries, 1024);
} flows SEC(".maps");

SEC("socket") int count_flows(struct __sk_buff *skb)
{
    struct ipv4 ip;
    struct flow flow = {};
    if (skb->protocol != bpf_htons(ETH_P_IP) || bpf_skb_load_bytes(skb, ETH_HLEN, &ip, sizeof ip))
        return 0;
    if (ip.protocol != IPPROTO_TCP && ip.protocol != IPPROTO_UDP)
        return 0;
    if (ip.fragment & bpf_htons(0x1fff))
        return 0;
    if (bpf_skb_load_bytes(skb, ETH_HLEN + (ip.version_and_words & 15) * 4, &flow.ports, sizeof flow.ports))
        return 0;
    flow.source = ip.source;
    flow.destination = ip.destination;
    flow.protocol = ip.protocol;
    struct counts first = { 1, skb->len }, *counted = bpf_map_lookup_elem(&flows, &flow);
    if (counted) {
        counted->packets += 1;
        counted->bytes += skb->len;
    } else {
        bpf_map_update_elem(&flows, &flow, &first, BPF_NOEXIST);
    }
    return skb->len;
}
