/* Keeps the first packet of each protocol: atomic operations on a set of bits say whether it was in the set before. */
#include "../filters.h"

u64 seen[4];
u32 toggled;
u64 both = -1;

SEC("socket") int keep_the_first(struct __sk_buff *skb)
{
    u8 protocol;
    u64 bit, before, *word;
    if (load_byte(skb, ETH_HLEN + __builtin_offsetof(struct ipv4, protocol), &protocol))
        return 0;
    bit = 1ul << (protocol & 63);
    word = &seen[protocol >> 6];
    before = __sync_fetch_and_or(word, bit);
    if (!(__sync_fetch_and_xor(&toggled, 1u << (protocol & 31)) & 1))
        before &= __sync_fetch_and_and(&both, ~bit | before);
    return before & bit ? 0 : -1;
}
