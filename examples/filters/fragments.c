/* Fragments of IPv4 by source and identification: how many, and whether the first and the last one came. */
#include "filters.h"

struct key {
    u32 source;
    u32 identification;
};

struct parts {
    u32 count, bytes;
    u8 has_first, has_last, padding[6];
};

struct {
    __uint(type, BPF_MAP_TYPE_HASH);
    __type(key, struct key);
    __type(value, struct parts);
    __uint(max_entries, 128);
} fragments SEC(".maps");

SEC("socket") int watch_fragments(struct __sk_buff *skb)
{
    struct ipv4 ip;
    if (skb->protocol != bpf_htons(ETH_P_IP) || bpf_skb_load_bytes(skb, ETH_HLEN, &ip, sizeof ip))
        return 0;
    u16 place = bpf_ntohs(ip.fragment), more = place & 0x2000;
    place &= 0x1fff;
    if (!place && !more)
        return 0;
    struct key key = { ip.source, ip.identification };
    struct parts first = { 1, bpf_ntohs(ip.length), place == 0, more == 0 }, *parts = bpf_map_lookup_elem(&fragments, &key);
    if (!parts) {
        bpf_map_update_elem(&fragments, &key, &first, BPF_ANY);
        return -1;
    }
    parts->count += 1;
    parts->bytes += bpf_ntohs(ip.length);
    if (!place)
        parts->has_first = 1;
    if (!more)
        parts->has_last = 1;
    return -1;
}
