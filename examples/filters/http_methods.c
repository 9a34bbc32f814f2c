/* Requests of HTTP by their method, which a function compares letter by letter. */
#include "filters.h"

enum method { NONE, GET, PUT, POST, HEAD, DELETE };
u64 methods[6];

static __noinline int begins(const u8 *text, const char *word, u32 size)
{
#pragma clang loop unroll(disable)
    for (u32 at = 0; at < 6; at++) {
        if (at >= size)
            return 1;
        if (text[at] != word[at])
            return 0;
    }
    return 1;
}

static __always_inline enum method method_of(const u8 *text)
{
    const char get[] = "GET ", put[] = "PUT ", post[] = "POST ", head[] = "HEAD ", deletes[] = "DELETE";
    if (begins(text, get, 4))
        return GET;
    if (begins(text, put, 4))
        return PUT;
    if (begins(text, post, 5))
        return POST;
    if (begins(text, head, 5))
        return HEAD;
    return begins(text, deletes, 6) ? DELETE : NONE;
}

SEC("socket") int count_methods(struct __sk_buff *skb)
{
    u8 words, protocol, offset, text[6];
    u16 port;
    if (skb->protocol != bpf_htons(ETH_P_IP) || load_byte(skb, ETH_HLEN, &words) || load_byte(skb, ETH_HLEN + 9, &protocol))
        return 0;
    u32 tcp = ETH_HLEN + (words & 15) * 4;
    if (protocol != IPPROTO_TCP || load_half(skb, tcp + 2, &port) || port != 80 || load_byte(skb, tcp + 12, &offset))
        return 0;
    if (bpf_skb_load_bytes(skb, tcp + (offset >> 4) * 4, text, sizeof text))
        return 0;
    enum method method = method_of(text);
    methods[method] += 1;
    return method ? -1 : 0;
}
