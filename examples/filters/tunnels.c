/* Packets in tunnels of IP in IP and of GRE: what is inside, by its protocol. */
#include "filters.h"

struct {
    __uint(type, BPF_MAP_TYPE_ARRAY);
    __type(key, u32);
    __type(value, u64);
    __uint(max_entries, 256);
} inside SEC(".maps");

u64 by_gre, by_ip;

SEC("socket") int look_inside(struct __sk_buff *skb)
{
    u8 words, protocol, flags, inner;
    u16 type;
    if (skb->protocol != bpf_htons(ETH_P_IP) || load_byte(skb, ETH_HLEN, &words) || load_byte(skb, ETH_HLEN + 9, &protocol))
        return 0;
    u32 at = ETH_HLEN + (words & 15) * 4;
    if (protocol == IPPROTO_GRE) {
        if (load_byte(skb, at, &flags) || load_half(skb, at + 2, &type) || type != ETH_P_IP)
            return 0;
        at += 4 + (flags & 0x80 ? 4 : 0) + (flags & 0x20 ? 4 : 0) + (flags & 0x10 ? 4 : 0);
        __sync_fetch_and_add(&by_gre, 1);
    } else if (protocol == IPPROTO_IPIP) {
        __sync_fetch_and_add(&by_ip, 1);
    } else {
        return 0;
    }
    if (load_byte(skb, at + 9, &inner))
        return 0;
    count_at(&inside, inner);
    return at;
}
