/* The kernel's hash map by bpf(2). If the kernel does not create a map, the process prints why and exits with status 3. */
#include "frames.h"
#include <errno.h>
#include <linux/bpf.h>
#include <stdio.h>
#include <stdlib.h>
#include <string.h>
#include <sys/syscall.h>
#include <unistd.h>

static int fd;

static uint64_t address(const void *at)
{
    return (uint64_t)(uintptr_t)at;
}

static int ask(enum bpf_cmd command, const uint8_t *key, const void *value)
{
    union bpf_attr attr;
    memset(&attr, 0, sizeof attr);
    attr.map_fd = (uint32_t)fd;
    attr.key = address(key);
    attr.value = address(value); /* of the next key, too: the two are one field */
    return syscall(SYS_bpf, command, &attr, sizeof attr) < 0 ? -errno : 0;
}

int map_create(struct shape shape)
{
    union bpf_attr attr;
    memset(&attr, 0, sizeof attr);
    attr.map_type = BPF_MAP_TYPE_HASH;
    attr.key_size = shape.key_size;
    attr.value_size = shape.value_size;
    attr.max_entries = shape.max_entries;
    fd = (int)syscall(SYS_bpf, BPF_MAP_CREATE, &attr, sizeof attr);
    if (fd < 0) {
        fprintf(stderr, "bpf(2): %s\n", strerror(errno));
        exit(3);
    }
    return 3;
}

void map_close(void)
{
    close(fd);
}

int map_look_up(const uint8_t *key, uint8_t *value)
{
    return ask(BPF_MAP_LOOKUP_ELEM, key, value);
}

int map_update(const uint8_t *key, const uint8_t *value)
{
    return ask(BPF_MAP_UPDATE_ELEM, key, value);
}

int map_delete(const uint8_t *key)
{
    return ask(BPF_MAP_DELETE_ELEM, key, NULL);
}

int map_next_key(const uint8_t *key, uint8_t *next)
{
    return ask(BPF_MAP_GET_NEXT_KEY, key, next);
}
