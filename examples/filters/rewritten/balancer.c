/* A number for each pair of hosts, by which packets are spread over eight threads: the place of the network header is kept in the context. */
#include "../filters.h"
#include "old_loads.h"
#include "scratch.h"

u64 threads[8];

static __always_inline u32 of_ipv4(struct __sk_buff *skb)
{
    u32 at = scratch(skb, 0);
    return packet_word(skb, at + 12) + packet_word(skb, at + 16);
}

static __always_inline u32 of_ipv6(struct __sk_buff *skb)
{
    u32 at = scratch(skb, 0), sum = 0;
    for (u32 word = 0; word < 8; word++)
        sum += packet_word(skb, at + 8 + 4 * word);
    return sum;
}

SEC("socket") int balance(struct __sk_buff *skb)
{
    u64 at = ETH_HLEN, type = packet_half(skb, 12);
    u32 sum = 0;
    if (type == ETH_P_8021Q || type == ETH_P_8021AD) {
        type = packet_half(skb, at + 2);
        at += 4;
    }
    scratch(skb, 0) = at;
    if (type == ETH_P_IP)
        sum = of_ipv4(skb);
    else if (type == ETH_P_IPV6)
        sum = of_ipv6(skb);
    threads[sum & 7] += 1;
    return sum;
}
