/* Watches ARP: which station claims an address, and how often the claim has changed to another station. */
#include "filters.h"

struct station {
    u8 mac[6];
    u16 changes;
};

struct {
    __uint(type, BPF_MAP_TYPE_HASH);
    __type(key, u32);
    __type(value, struct station);
    __uint(max_entries, 256);
} stations SEC(".maps");

u64 changed;

SEC("socket") int watch_arp(struct __sk_buff *skb)
{
    struct station now = {};
    u32 address;
    if (skb->protocol != bpf_htons(ETH_P_ARP))
        return 0;
    if (bpf_skb_load_bytes(skb, ETH_HLEN + 8, now.mac, 6) || bpf_skb_load_bytes(skb, ETH_HLEN + 14, &address, 4))
        return 0;
    struct station *before = bpf_map_lookup_elem(&stations, &address);
    if (!before) {
        bpf_map_update_elem(&stations, &address, &now, BPF_ANY);
        return 0;
    }
    int same = 1;
    for (int at = 0; at < 6; at++)
        if (before->mac[at] != now.mac[at])
            same = 0;
    if (same)
        return 0;
    __sync_fetch_and_add(&changed, 1);
    for (int at = 0; at < 6; at++)
        before->mac[at] = now.mac[at];
    before->changes += 1;
    return -1;
}
