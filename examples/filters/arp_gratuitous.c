/* Counts ARP by its operation, and gratuitous requests, in which a station asks for its own address, by the station. */
#include "filters.h"

struct arp {
    u16 hardware, protocol;
    u8 hardware_size, protocol_size;
    u16 operation;
    u8 sender[6], sender_address[4], target[6], target_address[4];
};

struct {
    __uint(type, BPF_MAP_TYPE_HASH);
    __uint(key_size, 6);
    __type(value, u64);
    __uint(max_entries, 128);
} gratuitous SEC(".maps");

u64 operations[4];

SEC("socket") int watch_gratuitous(struct __sk_buff *skb)
{
    struct arp arp;
    if (skb->protocol != bpf_htons(ETH_P_ARP) || bpf_skb_load_bytes(skb, ETH_HLEN, &arp, sizeof arp))
        return 0;
    u16 operation = bpf_ntohs(arp.operation);
    operations[operation < 3 ? operation : 3] += 1;
    for (int at = 0; at < 4; at++)
        if (arp.sender_address[at] != arp.target_address[at])
            return 0;
    count(&gratuitous, arp.sender);
    return -1;
}
