/* Bytes by the lowest bits of the destination's first byte, and the longest packet of each kind: the key of a map, which the compiler loads
 * from the stack again after the call, is an index too. */
#include "../filters.h"

struct {
    __uint(type, BPF_MAP_TYPE_ARRAY);
    __type(key, u32);
    __type(value, u64);
    __uint(max_entries, 8);
} bytes SEC(".maps");

u32 longest[8];

SEC("socket") int count_kinds(struct __sk_buff *skb)
{
    u8 first;
    u32 kind;
    u64 *counted;
    if (load_byte(skb, 0, &first))
        return 0;
    kind = first & 7;
    counted = bpf_map_lookup_elem(&bytes, &kind);
    if (!counted)
        return 0;
    *counted += skb->len;
    if (skb->len > longest[kind])
        longest[kind] = skb->len;
    return longest[kind];
}
