/* Messages of ICMP and ICMPv6 by their type, in two maps that one statement counts in. */
#include "filters.h"

struct {
    __uint(type, BPF_MAP_TYPE_ARRAY);
    __type(key, u32);
    __type(value, u64);
    __uint(max_entries, 256);
} icmp SEC(".maps"), icmp6 SEC(".maps");

SEC("socket") int count_types(struct __sk_buff *skb)
{
    u8 words, protocol, type;
    if (skb->protocol == bpf_htons(ETH_P_IP)) {
        if (load_byte(skb, ETH_HLEN + 9, &protocol) || protocol != IPPROTO_ICMP || load_byte(skb, ETH_HLEN, &words))
            return 0;
        if (load_byte(skb, ETH_HLEN + (words & 15) * 4, &type))
            return 0;
        count_at(&icmp, type);
        return -1;
    }
    if (skb->protocol != bpf_htons(ETH_P_IPV6) || load_byte(skb, ETH_HLEN + 6, &protocol) || protocol != IPPROTO_ICMPV6)
        return 0;
    if (load_byte(skb, ETH_HLEN + 40, &type))
        return 0;
    count_at(&icmp6, type);
    return -1;
}
