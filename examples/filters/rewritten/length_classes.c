/* Lengths in classes of 32 bytes: a copy of the number is compared, which an assembler's line keeps apart from the number that is the index. */
#include "../filters.h"

u64 packets[48];
u64 longer;

SEC("socket") int count_classes(struct __sk_buff *skb)
{
    u64 class = skb->len >> 5, compared;
    __asm__ volatile("%0 = %1" : "=r"(compared) : "r"(class));
    if ((u32)compared >= 48) {
        longer += 1;
        return 0;
    }
    packets[class] += 1;
    return packets[class] & 1 ? -1 : 64;
}
