/* NTP: packets by mode and version, and what may serve an attack, the private mode, is kept. */
#include "filters.h"

u64 modes[8], versions[8];

SEC("socket") int watch_ntp(struct __sk_buff *skb)
{
    u8 words, protocol, first;
    u16 source, destination;
    if (skb->protocol != bpf_htons(ETH_P_IP) || load_byte(skb, ETH_HLEN, &words) || load_byte(skb, ETH_HLEN + 9, &protocol))
        return 0;
    u32 udp = ETH_HLEN + (words & 15) * 4;
    if (protocol != IPPROTO_UDP || load_half(skb, udp, &source) || load_half(skb, udp + 2, &destination))
        return 0;
    if (source != 123 && destination != 123)
        return 0;
    if (load_byte(skb, udp + 8, &first))
        return 0;
    modes[first & 7] += 1;
    versions[first >> 3 & 7] += 1;
    return (first & 7) == 7 ? -1 : 0;
}
