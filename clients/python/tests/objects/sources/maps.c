/* Maps by BTF: with types, with sizes, static, in both ways, and one that no program names. */

#include "bpf.h"

struct flow {
    __u32 source, destination;
    __u16 ports[2];
    __u8 protocol, zeros[3];
};

struct {
    __uint(type, BPF_MAP_TYPE_HASH);
    __uint(max_entries, 64);
    __type(key, struct flow);
    __type(value, __u64);
} flows SEC(".maps");

static struct {
    __uint(type, BPF_MAP_TYPE_ARRAY);
    __uint(key_size, 4);
    __uint(value_size, 24);
    __uint(max_entries, 3);
} sized SEC(".maps");

struct {
    __uint(type, BPF_MAP_TYPE_HASH);
    __type(key, __u32);
    __uint(key_size, sizeof(__u32));
    __type(value, struct { __u32 a; __u64 b; });
    __uint(max_entries, 1);
    __uint(map_flags, 0);
} unused SEC(".maps");

SEC("socket") int count(struct __sk_buff *skb)
{
    struct flow flow = { .source = skb->mark };
    __u64 one = 1, *found = bpf_map_lookup_elem(&flows, &flow);
    __u32 index = 2, result = 0;
    if (found)
        result = *found += 1;
    else
        bpf_map_update_elem(&flows, &flow, &one, 1);
    __u64 *sum = bpf_map_lookup_elem(&sized, &index);
    if (sum)
        sum[2] += skb->len;
    return result;
}
