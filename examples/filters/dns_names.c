/* Names that are asked for by DNS over UDP: the first 32 bytes of the question, with a dot for each length, counted. */
#include "filters.h"

struct name {
    char text[32];
};

struct {
    __uint(type, BPF_MAP_TYPE_HASH);
    __type(key, struct name);
    __type(value, u64);
    __uint(max_entries, 256);
} names SEC(".maps");

u64 questions;

SEC("socket") int count_names(struct __sk_buff *skb)
{
    struct name name = {};
    u8 first, protocol, left, letter;
    u16 port;
    if (skb->protocol != bpf_htons(ETH_P_IP) || load_byte(skb, ETH_HLEN, &first) || load_byte(skb, ETH_HLEN + 9, &protocol))
        return 0;
    u32 udp = ETH_HLEN + (first & 15) * 4;
    if (protocol != IPPROTO_UDP || load_half(skb, udp + 2, &port) || port != 53)
        return 0;
    u32 at = udp + 8 + 12;
    if (load_byte(skb, at, &left) || left == 0)
        return 0;
    __sync_fetch_and_add(&questions, 1);
#pragma unroll
    for (int to = 0; to < 31; to++) {
        at += 1;
        if (load_byte(skb, at, &letter))
            return 0;
        if (left == 0) {
            if (letter == 0)
                break;
            left = letter;
            letter = '.';
        } else {
            left -= 1;
        }
        name.text[to] = letter;
    }
    count(&names, &name);
    return -1;
}
