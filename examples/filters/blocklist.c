/* Drops what comes from an address of a list or goes to one: a global function looks it up, for both. */
#include "filters.h"

struct {
    __uint(type, BPF_MAP_TYPE_HASH);
    __type(key, u32);
    __type(value, u64);
    __uint(max_entries, 256);
} blocked SEC(".maps");

u64 learned;

__noinline int is_blocked(u32 address)
{
    u64 *hits = bpf_map_lookup_elem(&blocked, &address);
    if (!hits)
        return 0;
    __sync_fetch_and_add(hits, 1);
    return 1;
}

/* A packet with the lowest bit of its service field set puts its source on the list. */
__noinline int learn(struct __sk_buff *skb, u32 address)
{
    u8 service;
    u64 none = 0;
    if (load_byte(skb, ETH_HLEN + 1, &service) || !(service & 1))
        return 0;
    __sync_fetch_and_add(&learned, 1);
    return bpf_map_update_elem(&blocked, &address, &none, BPF_NOEXIST) == 0;
}

SEC("socket") int drop_blocked(struct __sk_buff *skb)
{
    u32 addresses[2];
    if (skb->protocol != bpf_htons(ETH_P_IP) || bpf_skb_load_bytes(skb, ETH_HLEN + 12, addresses, sizeof addresses))
        return -1;
    if (is_blocked(addresses[0]) || is_blocked(addresses[1]))
        return 0;
    learn(skb, addresses[0]);
    return -1;
}
