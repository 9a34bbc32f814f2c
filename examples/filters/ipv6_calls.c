/* The same walk by a function that reads one header, called in a loop of four turns. */
#include "filters.h"

struct header {
    u32 at;
    u8 next;
};

u64 headers, ended;

static __noinline int read_header(struct __sk_buff *skb, struct header *header)
{
    u8 head[2];
    if (header->next != IPPROTO_HOPOPTS && header->next != IPPROTO_ROUTING && header->next != IPPROTO_DSTOPTS)
        return 1;
    if (bpf_skb_load_bytes(skb, header->at, head, sizeof head))
        return -1;
    header->next = head[0];
    header->at += (head[1] + 1) * 8;
    __sync_fetch_and_add(&headers, 1);
    return 0;
}

SEC("socket") int walk_by_calls(struct __sk_buff *skb)
{
    struct header header = { .at = ETH_HLEN + 40 };
    if (skb->protocol != bpf_htons(ETH_P_IPV6) || load_byte(skb, ETH_HLEN + 6, &header.next))
        return 0;
#pragma clang loop unroll(disable)
    for (int turn = 0; turn < 4; turn++) {
        int is_last = read_header(skb, &header);
        if (is_last < 0)
            return 0;
        if (is_last) {
            __sync_fetch_and_add(&ended, 1);
            return header.at;
        }
    }
    return 0;
}
