/* Reads command frames on one hash map at a time and writes replies, as `bpfhost serve` does (docs/PROTOCOL.md). Nothing of a frame
 * is checked but its command. Each reply is sent on before the next frame is read. */
#include "frames.h"
#include <errno.h>
#include <stdio.h>
#include <stdlib.h>
#include <string.h>

enum { CREATE, LOOK_UP, UPDATE, DELETE, NEXT_KEY, CLOSE = 256 };
enum { HEAD = 8, REPLY_HEAD = 12, LONGEST = 1 << 17, LONGEST_PAYLOAD = 4096, DESCRIPTOR = 4, FLAGS = 8 };

static uint32_t word(const uint8_t *at)
{
    uint32_t found;
    memcpy(&found, at, sizeof found);
    return found;
}

int main(void)
{
    static uint8_t head[HEAD], body[LONGEST], reply[REPLY_HEAD + LONGEST_PAYLOAD];
    struct shape shape = {0, 0, 0};
    while (fread(head, 1, HEAD, stdin) == HEAD) {
        uint32_t length = word(head) - 4, command = head[6] | (uint32_t)head[7] << 8, payload = 0;
        const uint8_t *key = body + DESCRIPTOR;
        int status;
        if (fread(body, 1, length, stdin) != length)
            return 1;
        switch (command) {
        case CREATE:
            shape = (struct shape){word(body + 4), word(body + 8), word(body + 12)};
            status = map_create(shape);
            break;
        case LOOK_UP:
            status = map_look_up(key, reply + REPLY_HEAD);
            payload = shape.value_size;
            break;
        case UPDATE:
            status = map_update(key + FLAGS, key + FLAGS + shape.key_size);
            break;
        case DELETE:
            status = map_delete(key);
            break;
        case NEXT_KEY:
            status = map_next_key(length == DESCRIPTOR ? NULL : key, reply + REPLY_HEAD);
            payload = shape.key_size;
            break;
        case CLOSE:
            map_close();
            status = 0;
            break;
        default:
            status = -EINVAL;
        }
        uint32_t told = 8 + (status < 0 ? 0 : payload);
        memcpy(reply, &told, 4);
        memcpy(reply + 4, head + 4, 4);
        memcpy(reply + 8, &status, 4);
        fwrite(reply, 1, 4 + told, stdout);
        fflush(stdout);
    }
    return 0;
}
