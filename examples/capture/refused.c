/* Is refused: `class` is a byte of the packet, so it may be above 15, and table[class] is not in the map's value then.
 * With `if (class < 16)` before it the filter is accepted. */

#include <bpfhost/filter.h>

unsigned int table[16];

SEC("socket") unsigned int keep_class(struct __sk_buff *skb)
{
    unsigned char class;
    if (bpf_skb_load_bytes(skb, 15, &class, sizeof class))
        return 0;
    return table[class];
}
