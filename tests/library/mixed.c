/* One unit with BPFHOST_DEBUG and one without (IS_OTHER): the memory of a host has one layout, and each unit's hosts serve in the other. */
#include "common.h"

/* Of the other unit. */
size_t other_size(void);
bpfhost *other_new(void);
uint32_t other_count(bpfhost *host);
void other_free(bpfhost *host);

#ifdef IS_OTHER
size_t other_size(void)
{
    return sizeof(bpfhost_memory);
}

bpfhost *other_new(void)
{
    bpfhost *host = NULL;
    CHECK(bpfhost_new(&host, 1, &test_seed) == BPFHOST_DONE);
    return host;
}

uint32_t other_count(bpfhost *host)
{
    return count_once(host, 0);
}

void other_free(bpfhost *host)
{
    bpfhost_free(host);
}
#else
int main(void)
{
    bpfhost *own = NULL, *other = other_new();
    uint8_t frame[8];
    size_t length = bpfhost_frame_close(frame, sizeof frame, 0, 3), written = 0;
    static uint8_t room[BPFHOST_LONGEST_REPLY];
    CHECK(other_size() == sizeof(bpfhost_memory));
    CHECK(bpfhost_new(&own, 1, &test_seed) == BPFHOST_DONE);
    open_counter(own, 0);
    open_counter(other, 0);
    CHECK(other_count(own) == 1 && count_once(own, 0) == 2);
    CHECK(other_count(other) == 1 && count_once(other, 0) == 2);
    /* A lent reply of one unit is no frame of the other. */
    CHECK(bpfhost_handle(own, bpfhost_memory_of(own)->replies, 8, room, sizeof room, &written) == BPFHOST_ERR_LENT);
    CHECK(bpfhost_handle(own, frame, length, room, sizeof room, &written) == BPFHOST_DONE && written == 12);
    bpfhost_free(other);
    other_free(own);
    puts("mixed: hosts of a unit with BPFHOST_DEBUG and of one without");
    return 0;
}
#endif
