/* Packets and bytes by protocol, with a value for each processor. */
#include "filters.h"

struct counts {
    u64 packets, bytes;
};

struct {
    __uint(type, BPF_MAP_TYPE_PERCPU_ARRAY);
    __type(key, u32);
    __type(value, struct counts);
    __uint(max_entries, 256);
} protocols SEC(".maps");

SEC("socket") int count_bytes(struct __sk_buff *skb)
{
    u8 protocol;
    u32 key;
    if (skb->protocol != bpf_htons(ETH_P_IP) || load_byte(skb, ETH_HLEN + 9, &protocol))
        return 0;
    key = protocol;
    struct counts *counted = bpf_map_lookup_elem(&protocols, &key);
    if (!counted)
        return 0;
    counted->packets += 1;
    counted->bytes += skb->len;
    return 64;
}
