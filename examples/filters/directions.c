/* Packets to this host and from it, by the length modulo 4: the same statement in both branches, which a compiler merges. */
#include "filters.h"

#define PACKET_OUTGOING 4

struct {
    __uint(type, BPF_MAP_TYPE_ARRAY);
    __type(key, u32);
    __type(value, u64);
    __uint(max_entries, 4);
} received SEC(".maps"), sent SEC(".maps");

SEC("socket") int count_directions(struct __sk_buff *skb)
{
    u32 key = skb->len & 3;
    if (skb->pkt_type == PACKET_OUTGOING)
        count_at(&sent, key);
    else
        count_at(&received, key);
    return -1;
}
