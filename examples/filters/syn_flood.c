/* Floods of SYN: for each destination, how many more were opened than answered; one with more than a few is kept. */
#include "filters.h"

#define SYN 2
#define ACK 16
const volatile long most = 3;

struct {
    __uint(type, BPF_MAP_TYPE_HASH);
    __type(key, u32);
    __type(value, long);
    __uint(max_entries, 256);
} open SEC(".maps");

SEC("socket") int watch_syn(struct __sk_buff *skb)
{
    u8 words, protocol, flags;
    u32 destination;
    long one = 1;
    if (skb->protocol != bpf_htons(ETH_P_IP) || load_byte(skb, ETH_HLEN, &words) || load_byte(skb, ETH_HLEN + 9, &protocol))
        return 0;
    if (protocol != IPPROTO_TCP || load_byte(skb, ETH_HLEN + (words & 15) * 4 + 13, &flags))
        return 0;
    if (bpf_skb_load_bytes(skb, ETH_HLEN + 16, &destination, sizeof destination))
        return 0;
    long *opened = bpf_map_lookup_elem(&open, &destination);
    if ((flags & (SYN | ACK)) == SYN) {
        if (opened)
            *opened += 1;
        else
            bpf_map_update_elem(&open, &destination, &one, BPF_ANY);
    } else if (opened && flags & ACK && *opened > 0) {
        *opened -= 1;
    }
    return opened && *opened > most ? -1 : 0;
}
