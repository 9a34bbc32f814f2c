/* Server names of TLS: walks over the extensions of a ClientHello, sixteen at most, and counts the first 32 bytes of the name,
 * whose length a mask bounds. */
#include "filters.h"

struct name {
    char text[32];
};

struct {
    __uint(type, BPF_MAP_TYPE_HASH);
    __type(key, struct name);
    __type(value, u64);
    __uint(max_entries, 512);
} names SEC(".maps");

u64 hellos, nameless;

SEC("socket") int count_server_names(struct __sk_buff *skb)
{
    struct name name = {};
    u8 byte, words, offset;
    u16 half, type, length, size;
    if (skb->protocol != bpf_htons(ETH_P_IP) || load_byte(skb, ETH_HLEN, &words) || load_byte(skb, ETH_HLEN + 9, &byte))
        return 0;
    u32 tcp = ETH_HLEN + (words & 15) * 4;
    if (byte != IPPROTO_TCP || load_half(skb, tcp + 2, &half) || half != 443 || load_byte(skb, tcp + 12, &offset))
        return 0;
    u32 at = tcp + (offset >> 4) * 4;
    if (load_byte(skb, at, &byte) || byte != 22 || load_byte(skb, at + 5, &byte) || byte != 1)
        return 0;
    __sync_fetch_and_add(&hellos, 1);
    at += 5 + 4 + 2 + 32;
    if (load_byte(skb, at, &byte))
        return 0;
    at += 1 + byte;
    if (load_half(skb, at, &half))
        return 0;
    at += 2 + half;
    if (load_byte(skb, at, &byte))
        return 0;
    at += 1 + byte + 2;
#pragma unroll
    for (int turn = 0; turn < 16; turn++) {
        if (load_half(skb, at, &type) || load_half(skb, at + 2, &length))
            break;
        if (type == 0) {
            if (load_half(skb, at + 7, &size) || size == 0)
                break;
            u64 taken = ((size < 32 ? size : 32) - 1) & 31;
            if (bpf_skb_load_bytes(skb, at + 9, &name, taken + 1))
                break;
            count(&names, &name);
            return -1;
        }
        at += 4 + length;
    }
    __sync_fetch_and_add(&nameless, 1);
    return 0;
}
