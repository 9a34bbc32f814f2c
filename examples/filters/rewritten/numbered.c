/* Numbers packets: an atomic addition returns the number that a counter had before, and one packet of sixteen is kept with its length. */
#include "../filters.h"

u64 packets;
u32 kept;

struct {
    __uint(type, BPF_MAP_TYPE_ARRAY);
    __type(key, u32);
    __type(value, u64);
    __uint(max_entries, 64);
} lengths SEC(".maps");

SEC("socket") int number_packets(struct __sk_buff *skb)
{
    u64 number = __sync_fetch_and_add(&packets, 1), length = skb->len;
    u32 place;
    if (number % 16)
        return 0;
    place = __sync_fetch_and_add(&kept, 1) % 64;
    bpf_map_update_elem(&lengths, &place, &length, BPF_ANY);
    return -1;
}
