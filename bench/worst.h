/* What worst.c and worst_memory.c share: frames to a host of the library. */
#ifndef WORST_H
#define WORST_H

#include <bpfhost.h>

static inline void must(bool holds, const char *what)
{
    if (holds)
        return;
    fprintf(stderr, "worst: %s\n", what);
    exit(1);
}

/* The status of a frame's reply. */
static inline int32_t status_of(bpfhost *host, const uint8_t *frame, size_t length)
{
    bpfhost_bytes reply;
    must(bpfhost_handle_lent(host, frame, length, &reply) == BPFHOST_DONE, "no reply");
    return (int32_t)bpfhost_get32(reply.at + 8);
}

/* The bytes of a file. */
static inline uint8_t *whole_file(const char *name, size_t *length)
{
    FILE *file = fopen(name, "rb");
    must(file != NULL && fseek(file, 0, SEEK_END) == 0, "a file can't be read");
    *length = (size_t)ftell(file);
    rewind(file);
    uint8_t *bytes = (uint8_t *)malloc(*length + 1);
    must(bytes != NULL && fread(bytes, 1, *length, file) == *length, "a file can't be read");
    (void)fclose(file);
    return bytes;
}

#endif
