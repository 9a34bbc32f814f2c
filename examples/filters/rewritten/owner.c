/* A lock for each port: the first source that uses it owns it, by an atomic compare-and-exchange with 0, and only its packets are kept. */
#include "../filters.h"

struct {
    __uint(type, BPF_MAP_TYPE_ARRAY);
    __type(key, u32);
    __type(value, u32);
    __uint(max_entries, 256);
} owners SEC(".maps");

u32 refused;

SEC("socket") int keep_the_owners(struct __sk_buff *skb)
{
    struct ipv4 ip;
    struct ports ports;
    u32 key, before, *owner;
    if (bpf_skb_load_bytes(skb, ETH_HLEN, &ip, sizeof ip) || ip.version_and_words != 0x45)
        return 0;
    if (ip.protocol != IPPROTO_TCP && ip.protocol != IPPROTO_UDP)
        return 0;
    if (bpf_skb_load_bytes(skb, ETH_HLEN + sizeof ip, &ports, sizeof ports))
        return 0;
    key = bpf_ntohs(ports.destination) & 255;
    owner = bpf_map_lookup_elem(&owners, &key);
    if (!owner)
        return 0;
    before = __sync_val_compare_and_swap(owner, 0, ip.source);
    if (before == 0 || before == ip.source)
        return -1;
    __sync_fetch_and_add(&refused, 1);
    return 0;
}
