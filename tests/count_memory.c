/*
 * Counts the calls for memory of a program that is started with this library in LD_PRELOAD: at each write to standard output, the calls
 * since the write before are added as a number of eight bytes to the file that COUNTED_FILE names. getentropy(3) gives zero bytes, so that
 * the hash of each key is known.
 */
#include <fcntl.h>
#include <stdint.h>
#include <stdlib.h>
#include <string.h>
#include <unistd.h>

void *__libc_malloc(size_t size);
void *__libc_calloc(size_t count, size_t size);
void *__libc_realloc(void *block, size_t size);
void *__libc_memalign(size_t alignment, size_t size);
ssize_t __write(int file, const void *bytes, size_t count);

static uint64_t calls;
static int counted = -1;

__attribute__((constructor)) static void begin(void)
{
    const char *file = getenv("COUNTED_FILE");
    counted = file ? open(file, O_CREAT | O_TRUNC | O_WRONLY, 0600) : -1;
}

void *malloc(size_t size)
{
    calls++;
    return __libc_malloc(size);
}

void *calloc(size_t count, size_t size)
{
    calls++;
    return __libc_calloc(count, size);
}

void *realloc(void *block, size_t size)
{
    calls++;
    return __libc_realloc(block, size);
}

void *aligned_alloc(size_t alignment, size_t size)
{
    calls++;
    return __libc_memalign(alignment, size);
}

int posix_memalign(void **block, size_t alignment, size_t size)
{
    void *found = aligned_alloc(alignment, size);
    if (!found)
        return 12; /* ENOMEM */
    *block = found;
    return 0;
}

ssize_t write(int file, const void *bytes, size_t count)
{
    if (file == STDOUT_FILENO && counted >= 0) {
        if (__write(counted, &calls, sizeof calls) != sizeof calls)
            abort();
        calls = 0;
    }
    return __write(file, bytes, count);
}

int getentropy(void *bytes, size_t count)
{
    memset(bytes, 0, count);
    return 0;
}
