/* Flows of IPv6: packets by both addresses and the next header. */
#include "filters.h"

struct flow6 {
    u8 source[16], destination[16];
    u32 next_header;
};

struct {
    __uint(type, BPF_MAP_TYPE_PERCPU_HASH);
    __type(key, struct flow6);
    __type(value, u64);
    __uint(max_entries, 256);
} flows SEC(".maps");

SEC("socket") int count_flows6(struct __sk_buff *skb)
{
    struct flow6 flow = {};
    u8 next;
    if (skb->protocol != bpf_htons(ETH_P_IPV6) || load_byte(skb, ETH_HLEN + 6, &next))
        return 0;
    if (bpf_skb_load_bytes(skb, ETH_HLEN + 8, &flow, 32))
        return 0;
    flow.next_header = next;
    count(&flows, &flow);
    return ETH_HLEN + 40;
}
