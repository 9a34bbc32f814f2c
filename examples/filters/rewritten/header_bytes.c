/* Flags of TCP: the header is copied with that of IPv4 before it, and its flags are at an index that the length of the first header gives. */
#include "../filters.h"

u64 flags_seen[8];

SEC("socket") int count_flags(struct __sk_buff *skb)
{
    u8 bytes[48];
    u32 words, at;
    if (bpf_skb_load_bytes(skb, ETH_HLEN, bytes, sizeof bytes))
        return 0;
    if (bytes[0] >> 4 != 4 || bytes[9] != IPPROTO_TCP)
        return 0;
    words = bytes[0] & 15;
    if (words < 5 || words > 8)
        return 0;
    at = bytes[words * 4 + 13];
    for (int bit = 0; bit < 8; bit++)
        if (at & 1 << bit)
            flags_seen[bit] += 1;
    return at & 2 ? -1 : 40;
}
