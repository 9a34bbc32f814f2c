/* Walks over the extension headers of IPv6, eight at most, and counts the last protocol and how many headers there were. */
#include "filters.h"

struct {
    __uint(type, BPF_MAP_TYPE_ARRAY);
    __type(key, u32);
    __type(value, u64);
    __uint(max_entries, 256);
} protocols SEC(".maps");

u64 depths[9], too_deep;

SEC("socket") int walk(struct __sk_buff *skb)
{
    u8 next, head[2];
    u32 at = ETH_HLEN + 40;
    if (skb->protocol != bpf_htons(ETH_P_IPV6) || load_byte(skb, ETH_HLEN + 6, &next))
        return 0;
#pragma clang loop unroll(disable)
    for (int depth = 0; depth < 8; depth++) {
        if (next != IPPROTO_HOPOPTS && next != IPPROTO_ROUTING && next != IPPROTO_FRAGMENT && next != IPPROTO_DSTOPTS
            && next != IPPROTO_AH) {
            depths[depth] += 1;
            count_at(&protocols, next);
            return at;
        }
        if (bpf_skb_load_bytes(skb, at, head, sizeof head))
            return 0;
        if (next == IPPROTO_FRAGMENT)
            at += 8;
        else if (next == IPPROTO_AH)
            at += (head[1] + 2) * 4;
        else
            at += (head[1] + 1) * 8;
        next = head[0];
    }
    __sync_fetch_and_add(&too_deep, 1);
    return 0;
}
