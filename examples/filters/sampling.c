/* Keeps one packet of ten. */
#include "filters.h"

const volatile u64 each = 10;
u64 seen;

SEC("socket") int sample(struct __sk_buff *skb)
{
    u64 number = seen++;
    return each && number % each == 0 ? -1 : 0;
}
