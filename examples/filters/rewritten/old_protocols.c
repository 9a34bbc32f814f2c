/* Bytes of what this host sends, by the protocol of IPv4: one load of the packet at a constant place, as the first samples of the kernel
 * have it. */
#include "../filters.h"
#include "old_loads.h"

#define PACKET_OUTGOING 4

struct {
    __uint(type, BPF_MAP_TYPE_ARRAY);
    __type(key, u32);
    __type(value, u64);
    __uint(max_entries, 256);
} bytes SEC(".maps");

SEC("socket") int count_protocols(struct __sk_buff *skb)
{
    u32 protocol = packet_byte(skb, ETH_HLEN + __builtin_offsetof(struct ipv4, protocol));
    u64 *sum;
    if (skb->pkt_type != PACKET_OUTGOING)
        return 0;
    sum = bpf_map_lookup_elem(&bytes, &protocol);
    if (sum)
        __sync_fetch_and_add(sum, skb->len);
    return protocol == IPPROTO_TCP ? -1 : 64;
}
