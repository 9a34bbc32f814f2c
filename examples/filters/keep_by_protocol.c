/* How many bytes of a packet are kept, by its protocol: a switch with many cases. */
#include "filters.h"

u64 unknown;

SEC("socket") int keep(struct __sk_buff *skb)
{
    u8 protocol;
    if (skb->protocol != bpf_htons(ETH_P_IP) || load_byte(skb, ETH_HLEN + 9, &protocol))
        return 0;
    switch (protocol) {
    case IPPROTO_ICMP:
        return 64;
    case 2:
        return 48;
    case IPPROTO_IPIP:
        return 96;
    case IPPROTO_TCP:
        return 128;
    case 8:
        return 60;
    case IPPROTO_UDP:
        return 256;
    case IPPROTO_IPV6:
        return 110;
    case IPPROTO_GRE:
        return 90;
    case IPPROTO_ESP:
        return 50;
    case IPPROTO_AH:
        return 70;
    case 89:
        return 82;
    case 112:
        return 36;
    case IPPROTO_SCTP:
        return 140;
    }
    __sync_fetch_and_add(&unknown, 1);
    return 34;
}
