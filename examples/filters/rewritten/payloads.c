/* Segments of TCP with data, by their flags: a function leaves what it finds in the context, in which all words are 0 at first. */
#include "../filters.h"
#include "scratch.h"

u64 segments[64];

static __noinline void read_network(struct __sk_buff *skb)
{
    struct ipv4 ip;
    if (bpf_skb_load_bytes(skb, ETH_HLEN, &ip, sizeof ip) || ip.version_and_words >> 4 != 4 || ip.protocol != IPPROTO_TCP)
        return;
    scratch(skb, 1) = ETH_HLEN + (ip.version_and_words & 15) * 4;
    scratch(skb, 2) = ETH_HLEN + bpf_ntohs(ip.length);
}

SEC("socket") int count_data(struct __sk_buff *skb)
{
    u8 words, flags;
    u32 at;
    read_network(skb);
    at = scratch(skb, 1);
    if (!at || load_byte(skb, at + 12, &words) || load_byte(skb, at + 13, &flags))
        return 0;
    if (at + (words >> 4) * 4 >= scratch(skb, 2))
        return 0;
    segments[flags & 63] += 1;
    return flags + scratch(skb, 4);
}
