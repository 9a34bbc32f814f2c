/* A flow in both directions has one entry: the lower address goes first, which a function sorts. */
#include "filters.h"

struct pair {
    u32 low, high;
    u16 low_port, high_port;
    u32 protocol;
};

struct sides {
    u64 to_high, to_low;
};

struct {
    __uint(type, BPF_MAP_TYPE_HASH);
    __type(key, struct pair);
    __type(value, struct sides);
    __uint(max_entries, 256);
} pairs SEC(".maps");

static __noinline int sort(struct pair *pair)
{
    if (pair->low < pair->high || (pair->low == pair->high && pair->low_port <= pair->high_port))
        return 0;
    u32 address = pair->low;
    u16 port = pair->low_port;
    pair->low = pair->high;
    pair->high = address;
    pair->low_port = pair->high_port;
    pair->high_port = port;
    return 1;
}

SEC("socket") int count_both_ways(struct __sk_buff *skb)
{
    struct pair pair = {};
    u8 words, protocol;
    if (skb->protocol != bpf_htons(ETH_P_IP) || load_byte(skb, ETH_HLEN, &words) || load_byte(skb, ETH_HLEN + 9, &protocol))
        return 0;
    if (protocol != IPPROTO_TCP && protocol != IPPROTO_UDP)
        return 0;
    if (bpf_skb_load_bytes(skb, ETH_HLEN + 12, &pair.low, 8) || bpf_skb_load_bytes(skb, ETH_HLEN + (words & 15) * 4, &pair.low_port, 4))
        return 0;
    pair.protocol = protocol;
    int is_turned = sort(&pair);
    struct sides first = { !is_turned, is_turned }, *sides = bpf_map_lookup_elem(&pairs, &pair);
    if (!sides)
        bpf_map_update_elem(&pairs, &pair, &first, BPF_ANY);
    else if (is_turned)
        sides->to_low += 1;
    else
        sides->to_high += 1;
    return -1;
}
