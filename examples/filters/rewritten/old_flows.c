/* Flows of TCP and UDP by addresses and ports, in IPv4, IPv6, VLANs and tunnels of GRE: loads of the packet at places that are computed,
 * as the second of the kernel's samples has them. */
#include "../filters.h"
#include "old_loads.h"

struct flow {
    u32 source, destination;
    u32 ports;
    u32 protocol;
};

struct counted {
    u64 packets, bytes;
};

struct {
    __uint(type, BPF_MAP_TYPE_HASH);
    __type(key, struct flow);
    __type(value, struct counted);
    __uint(max_entries, 512);
} flows SEC(".maps");

/* The addresses and the protocol of IPv4; returns the place of its content. */
static __always_inline u64 read_ipv4(struct __sk_buff *skb, u64 at, struct flow *flow)
{
    u64 fragment = packet_half(skb, at + __builtin_offsetof(struct ipv4, fragment)) & 0x3fff;
    flow->protocol = fragment ? 0 : packet_byte(skb, at + __builtin_offsetof(struct ipv4, protocol));
    flow->source = packet_word(skb, at + __builtin_offsetof(struct ipv4, source));
    flow->destination = packet_word(skb, at + __builtin_offsetof(struct ipv4, destination));
    return at + (packet_byte(skb, at) & 15) * 4;
}

/* Those of IPv6: of each address the words are taken together. */
static __always_inline u64 read_ipv6(struct __sk_buff *skb, u64 at, struct flow *flow)
{
    flow->protocol = packet_byte(skb, at + 6);
    flow->source = packet_word(skb, at + 8) ^ packet_word(skb, at + 12) ^ packet_word(skb, at + 16) ^ packet_word(skb, at + 20);
    flow->destination = packet_word(skb, at + 24) ^ packet_word(skb, at + 28) ^ packet_word(skb, at + 32) ^ packet_word(skb, at + 36);
    return at + 40;
}

SEC("socket") int count_flows(struct __sk_buff *skb)
{
    struct flow flow = {};
    struct counted first = { 1, skb->len }, *found;
    u64 type = packet_half(skb, 12), at = ETH_HLEN;
    if (type == ETH_P_8021Q || type == ETH_P_8021AD) {
        type = packet_half(skb, at + 2);
        at += 4;
    }
    if (type == ETH_P_IP)
        at = read_ipv4(skb, at, &flow);
    else if (type == ETH_P_IPV6)
        at = read_ipv6(skb, at, &flow);
    else
        return 0;
    if (flow.protocol == IPPROTO_GRE && packet_half(skb, at) == 0 && packet_half(skb, at + 2) == ETH_P_IP)
        at = read_ipv4(skb, at + 4, &flow);
    if (flow.protocol == IPPROTO_TCP || flow.protocol == IPPROTO_UDP)
        flow.ports = packet_word(skb, at);
    found = bpf_map_lookup_elem(&flows, &flow);
    if (found) {
        __sync_fetch_and_add(&found->packets, 1);
        __sync_fetch_and_add(&found->bytes, skb->len);
    } else {
        bpf_map_update_elem(&flows, &flow, &first, BPF_ANY);
    }
    return flow.protocol == IPPROTO_TCP ? 128 : 0;
}
