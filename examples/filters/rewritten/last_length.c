/* Lengths that repeat: an atomic exchange leaves the length of this packet and returns that of the one before. */
#include "../filters.h"

u64 last;
u64 same, longer;

SEC("socket") int compare_lengths(struct __sk_buff *skb)
{
    u64 length = skb->len, before = __sync_lock_test_and_set(&last, length);
    if (before == length)
        same += 1;
    else if (before < length)
        longer += 1;
    return before == length ? -1 : before < length ? 64 : 0;
}
