/* Segments of TCP by each of their flags. */
#include "filters.h"

u64 flags[8], segments;

SEC("socket") int count_flags(struct __sk_buff *skb)
{
    u8 words, protocol, bits;
    if (skb->protocol != bpf_htons(ETH_P_IP) || load_byte(skb, ETH_HLEN, &words) || load_byte(skb, ETH_HLEN + 9, &protocol))
        return 0;
    if (protocol != IPPROTO_TCP || load_byte(skb, ETH_HLEN + (words & 15) * 4 + 13, &bits))
        return 0;
    __sync_fetch_and_add(&segments, 1);
#pragma clang loop unroll(disable)
    for (int bit = 0; bit < 8; bit++)
        if (bits & 1 << bit)
            flags[bit] += 1;
    return bits;
}
