/* Commands on one hash map at a time, as frames.c reads them from standard input. Each of these returns a status: 0, a descriptor,
 * or a negative error number. */
#ifndef FRAMES_H
#define FRAMES_H

#include <stdint.h>

struct shape {
    uint32_t key_size, value_size, max_entries;
};

int map_create(struct shape shape);
void map_close(void);
int map_look_up(const uint8_t *key, uint8_t *value);
int map_update(const uint8_t *key, const uint8_t *value);
int map_delete(const uint8_t *key);
/* The key after a key, or the first without one. */
int map_next_key(const uint8_t *key, uint8_t *next);

#endif
