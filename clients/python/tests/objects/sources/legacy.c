/* Maps by struct bpf_map_def. */

#include "bpf.h"

struct bpf_map_def SEC("maps") kept = { .type = BPF_MAP_TYPE_HASH, .key_size = 8, .value_size = 16, .max_entries = 5 };
static struct bpf_map_def SEC("maps") sums = { .type = BPF_MAP_TYPE_ARRAY, .key_size = 4, .value_size = 8, .max_entries = 7 };

SEC("socket") int sum(struct __sk_buff *skb)
{
    __u64 value[2] = { skb->len, 9 }, key = skb->mark;
    __u32 index = 6;
    bpf_map_update_elem(&kept, &key, value, 0);
    __u64 *found = bpf_map_lookup_elem(&sums, &index);
    if (!found)
        return 0;
    *found += skb->len;
    return *found;
}
