/* Watches DHCP: walks over the options of a message, sixteen at most, to its type, and counts by type. */
#include "filters.h"

struct {
    __uint(type, BPF_MAP_TYPE_ARRAY);
    __type(key, u32);
    __type(value, u64);
    __uint(max_entries, 9);
} messages SEC(".maps");

u64 without_type;

SEC("socket") int watch_dhcp(struct __sk_buff *skb)
{
    u8 first, protocol, option, length, type;
    u16 source, destination;
    if (skb->protocol != bpf_htons(ETH_P_IP) || load_byte(skb, ETH_HLEN, &first) || load_byte(skb, ETH_HLEN + 9, &protocol))
        return 0;
    u32 udp = ETH_HLEN + (first & 15) * 4;
    if (protocol != IPPROTO_UDP || load_half(skb, udp, &source) || load_half(skb, udp + 2, &destination))
        return 0;
    if (!(source == 68 && destination == 67) && !(source == 67 && destination == 68))
        return 0;
    u32 at = udp + 8 + 240;
#pragma clang loop unroll(disable)
    for (int turn = 0; turn < 16; turn++) {
        if (load_byte(skb, at, &option) || option == 255)
            break;
        if (option == 0) {
            at += 1;
            continue;
        }
        if (load_byte(skb, at + 1, &length))
            break;
        if (option == 53) {
            if (load_byte(skb, at + 2, &type))
                break;
            count_at(&messages, type <= 8 ? type : 0);
            return -1;
        }
        at += 2 + length;
    }
    __sync_fetch_and_add(&without_type, 1);
    return 0;
}
