/* Learns the sender of each frame: its address of Ethernet, with what it sent and the length of its last frame. */
#include "filters.h"

struct mac {
    u8 bytes[6];
};

struct seen {
    u64 frames;
    u32 last_length, type;
};

struct {
    __uint(type, BPF_MAP_TYPE_HASH);
    __type(key, struct mac);
    __type(value, struct seen);
    __uint(max_entries, 512);
    __uint(pinning, LIBBPF_PIN_BY_NAME);
} table SEC(".maps");

SEC("socket") int learn(struct __sk_buff *skb)
{
    struct mac mac;
    if (bpf_skb_load_bytes(skb, 6, &mac, sizeof mac))
        return 0;
    struct seen first = { 1, skb->len, skb->protocol }, *seen = bpf_map_lookup_elem(&table, &mac);
    if (!seen) {
        bpf_map_update_elem(&table, &mac, &first, BPF_ANY);
        return 1;
    }
    seen->frames++;
    seen->last_length = skb->len;
    seen->type = skb->protocol;
    return seen->frames;
}
