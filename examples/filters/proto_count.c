/* Packets by their protocol in IP, in an array, and totals in global variables. */
#include "filters.h"

struct {
    __uint(type, BPF_MAP_TYPE_ARRAY);
    __type(key, u32);
    __type(value, u64);
    __uint(max_entries, 256);
} protocols SEC(".maps");

u64 packets, bytes, others;

SEC("socket") int count_protocols(struct __sk_buff *skb)
{
    u8 protocol = 0;
    __sync_fetch_and_add(&packets, 1);
    __sync_fetch_and_add(&bytes, skb->len);
    if (skb->protocol == bpf_htons(ETH_P_IP)) {
        if (load_byte(skb, ETH_HLEN + 9, &protocol))
            return 0;
    } else if (skb->protocol == bpf_htons(ETH_P_IPV6)) {
        if (load_byte(skb, ETH_HLEN + 6, &protocol))
            return 0;
    } else {
        __sync_fetch_and_add(&others, 1);
        return 0;
    }
    count_at(&protocols, protocol);
    return -1;
}
