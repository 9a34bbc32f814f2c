/* Suffixes of DNS names: the last bytes before the end of the question, whose length a mask bounds. */
#include "filters.h"

struct tail {
    char text[16];
};

struct {
    __uint(type, BPF_MAP_TYPE_HASH);
    __type(key, struct tail);
    __type(value, u64);
    __uint(max_entries, 256);
} tails SEC(".maps");

SEC("socket") int count_tails(struct __sk_buff *skb)
{
    struct tail tail = {};
    u8 first, protocol, size;
    u16 port;
    if (skb->protocol != bpf_htons(ETH_P_IP) || load_byte(skb, ETH_HLEN, &first) || load_byte(skb, ETH_HLEN + 9, &protocol))
        return 0;
    u32 udp = ETH_HLEN + (first & 15) * 4;
    if (protocol != IPPROTO_UDP || load_half(skb, udp + 2, &port) || port != 53 || load_byte(skb, udp + 20, &size))
        return 0;
    u64 length = ((size - 1) & 15) + 1;
    if (bpf_skb_load_bytes(skb, udp + 21, &tail, length))
        return 0;
    count(&tails, &tail);
    return length;
}
