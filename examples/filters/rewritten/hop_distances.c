/* Hops since the sender, if it began with 64: a number of 8 bits, of which a compiler compares one copy and uses another as an index. */
#include "../filters.h"

u64 packets[32];
u32 longest[32];

SEC("socket") int count_distances(struct __sk_buff *skb)
{
    struct ipv4 ip;
    u8 distance;
    if (bpf_skb_load_bytes(skb, ETH_HLEN, &ip, sizeof ip) || ip.version_and_words >> 4 != 4)
        return 0;
    distance = 64 - ip.hops;
    if (distance >= 32)
        return 0;
    packets[distance] += 1;
    if (skb->len > longest[distance])
        longest[distance] = skb->len;
    return packets[distance] < 100 ? -1 : 0;
}
