/* Checks the sum of each header of IPv4, by a loop over its ten words, and keeps what is wrong. */
#include "filters.h"

u64 right, wrong;

static __noinline u32 sum_of(struct __sk_buff *skb)
{
    u32 sum = 0;
    u16 word;
#pragma clang loop unroll(disable)
    for (int at = 0; at < 10; at++) {
        if (load_half(skb, ETH_HLEN + 2 * at, &word))
            return 0;
        sum += word;
    }
    sum = (sum & 0xffff) + (sum >> 16);
    return (sum & 0xffff) + (sum >> 16);
}

SEC("socket") int check_sum(struct __sk_buff *skb)
{
    u8 first;
    if (skb->protocol != bpf_htons(ETH_P_IP) || load_byte(skb, ETH_HLEN, &first) || first != 0x45)
        return 0;
    if (sum_of(skb) == 0xffff) {
        __sync_fetch_and_add(&right, 1);
        return 0;
    }
    __sync_fetch_and_add(&wrong, 1);
    return -1;
}
