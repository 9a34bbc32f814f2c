/* Counts packets and bytes in global variables by atomic additions, notes the longest packet, and keeps the first bytes
 * of each. */

#include <bpfhost/filter.h>

/* So many bytes are kept of a packet. A loader may write another number here before the filter runs. */
const volatile unsigned int kept = 64;

unsigned long packets, bytes;
unsigned int longest;

SEC("socket") unsigned int keep_first_bytes(struct __sk_buff *skb)
{
    unsigned int length = skb->len;
    __sync_fetch_and_add(&packets, 1);
    __sync_fetch_and_add(&bytes, length);
    if (length > longest)
        longest = length;
    return length < kept ? length : kept;
}
