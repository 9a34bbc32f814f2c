/* A bucket of bytes for all packets: each takes its length, and each brings a part of what a burst may have. */
#include "filters.h"

const volatile u64 rate = 200, burst = 2000;
u64 level = 2000, over;

SEC("socket") int limit_bytes(struct __sk_buff *skb)
{
    u64 length = skb->len, most = burst, has = level + rate;
    if (has > most)
        has = most;
    if (length > has) {
        level = has;
        over += length - has;
        return 0;
    }
    level = has - length;
    return length;
}
