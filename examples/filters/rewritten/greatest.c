/* The greatest length and the least: each is raised or lowered by an atomic compare-and-exchange, in at most four tries. */
#include "../filters.h"

u64 greatest, least = 1 << 20;

SEC("socket") int find_the_greatest(struct __sk_buff *skb)
{
    u64 length = skb->len, before = greatest, found;
    for (int tries = 0; tries < 4 && before < length; tries++) {
        found = __sync_val_compare_and_swap(&greatest, before, length);
        if (found == before)
            return -1;
        before = found;
    }
    before = least;
    if (length < before && __sync_bool_compare_and_swap(&least, before, length))
        return 60;
    return 0;
}
