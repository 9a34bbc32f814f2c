/* Turns of senders: an array keeps the last source for each of 16 groups of destinations, and an atomic exchange shows a change. */
#include "../filters.h"

struct {
    __uint(type, BPF_MAP_TYPE_ARRAY);
    __type(key, u32);
    __type(value, u32);
    __uint(max_entries, 16);
} senders SEC(".maps");

u32 changes[16];

SEC("socket") int count_turns(struct __sk_buff *skb)
{
    struct ipv4 ip;
    u32 group, before, *sender;
    if (bpf_skb_load_bytes(skb, ETH_HLEN, &ip, sizeof ip) || ip.version_and_words >> 4 != 4)
        return 0;
    group = bpf_ntohl(ip.destination) & 15;
    sender = bpf_map_lookup_elem(&senders, &group);
    if (!sender)
        return 0;
    before = __sync_lock_test_and_set(sender, ip.source);
    if (before == ip.source)
        return 0;
    changes[group & 15] += 1;
    return before ? -1 : 40;
}
