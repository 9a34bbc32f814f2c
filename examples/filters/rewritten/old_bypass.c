/* Leaves out what a list of addresses says, and packets of VLANs that nobody asked for: loads of the packet in functions, as filters of
 * intrusion detection have them. A list's entry counts what it has left out. */
#include "../filters.h"
#include "old_loads.h"

struct {
    __uint(type, BPF_MAP_TYPE_HASH);
    __type(key, u32);
    __type(value, u64);
    __uint(max_entries, 64);
} left_out SEC(".maps");

static const u16 vlans[] = { 10, 20, 100 };

/* Whether an address is left out: those of 10.0.0.0/8 whose last byte is a multiple of 8 are learned. */
static __noinline int is_left_out(u32 address)
{
    u64 one = 1, *count = bpf_map_lookup_elem(&left_out, &address);
    if (count) {
        __sync_fetch_and_add(count, 1);
        return 1;
    }
    if ((address >> 24) == 10 && (address & 7) == 0)
        bpf_map_update_elem(&left_out, &address, &one, BPF_NOEXIST);
    return 0;
}

/* Whether a packet with a VLAN's tag is of none of the list. It returns 0 for one that is too short. */
static __noinline int is_of_no_vlan(struct __sk_buff *skb)
{
    u32 vlan = packet_half(skb, ETH_HLEN) & 0xfff;
    return vlan != vlans[0] && vlan != vlans[1] && vlan != vlans[2];
}

SEC("filter") int keep_others(struct __sk_buff *skb)
{
    u32 at = ETH_HLEN, type = packet_half(skb, 12);
    if (type == ETH_P_8021Q) {
        if (is_of_no_vlan(skb))
            return 0;
        type = packet_half(skb, 16);
        at += 4;
    }
    if (type != ETH_P_IP)
        return -1;
    if (is_left_out(packet_word(skb, at + 12)) || is_left_out(packet_word(skb, at + 16)))
        return 0;
    return -1;
}
