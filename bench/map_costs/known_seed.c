/* getentropy(3) for a program that is to get a known seed, by LD_PRELOAD: it returns the bytes of BENCH_SEED, which is two hexadecimal
 * words. The first call prints a line to standard error: without that line the program takes its seed from elsewhere. */
#include <errno.h>
#include <stdint.h>
#include <stdio.h>
#include <stdlib.h>
#include <string.h>

int getentropy(void *buffer, size_t length)
{
    static size_t given;
    unsigned long long state, factor;
    const char *words = getenv("BENCH_SEED");
    if (!words || sscanf(words, "%llx %llx", &state, &factor) != 2) {
        errno = EIO;
        return -1;
    }
    if (!given)
        fputs("the seed is known\n", stderr);
    uint64_t seed[2] = {state, factor};
    for (size_t i = 0; i < length; i++, given++)
        ((uint8_t *)buffer)[i] = ((const uint8_t *)seed)[given % sizeof seed];
    return 0;
}
