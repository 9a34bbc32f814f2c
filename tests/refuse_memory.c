/*
 * Refuses memory once to a program that is started with this library in LD_PRELOAD: the call of malloc or realloc whose number,
 * counted from 1, is in REFUSED_CALL returns null. Then it creates the file that REFUSED_FILE names, to report that it did.
 *
 * A list that grows requests more than it needs, and if that is refused, only what it needs. Both are one growth: the call that follows
 * the refused one, for the same block and for no more, is refused too, if nothing was freed or written between them.
 */
#include <fcntl.h>
#include <stdlib.h>
#include <unistd.h>

void *__libc_malloc(size_t size);
void *__libc_realloc(void *block, size_t size);
void __libc_free(void *block);
ssize_t __write(int file, const void *bytes, size_t count);

static unsigned long calls, refused;
/* What was refused last, while nothing else has been asked for, given back or written. */
static int is_last;
static void *last_block;
static size_t last_size;

__attribute__((constructor)) static void begin(void)
{
    const char *number = getenv("REFUSED_CALL");
    refused = number ? strtoul(number, NULL, 10) : 0;
}

static void tell(void)
{
    const char *file = getenv("REFUSED_FILE");
    int made = file ? open(file, O_CREAT | O_WRONLY, 0600) : -1;
    if (made >= 0)
        close(made);
}

static int refuses(void *block, size_t size)
{
    if (!refused)
        return 0;
    if (!(is_last && block == last_block && size <= last_size)) {
        is_last = 0;
        if (++calls != refused)
            return 0;
        tell();
    }
    is_last = 1;
    last_block = block;
    last_size = size;
    return 1;
}

void *malloc(size_t size)
{
    return refuses(NULL, size) ? NULL : __libc_malloc(size);
}

void *realloc(void *block, size_t size)
{
    return refuses(block, size) ? NULL : __libc_realloc(block, size);
}

void free(void *block)
{
    is_last = 0;
    __libc_free(block);
}

ssize_t write(int file, const void *bytes, size_t count)
{
    is_last = 0;
    return __write(file, bytes, count);
}
