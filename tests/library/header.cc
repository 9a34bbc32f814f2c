// The header in C++: a host, a map and a filter, by the same names.
#include "common.h"

int main()
{
    bpfhost *host = NULL;
    CHECK(bpfhost_new(&host, 1, &test_seed) == BPFHOST_DONE);
    open_counter(host, 0);
    CHECK(count_once(host, 0) == 1 && count_once(host, 0) == 2);
    uint8_t frame[64];
    const uint32_t key = 0;
    const size_t length = bpfhost_frame_map_lookup(frame, sizeof frame, 0, 3, &key, sizeof key);
    const bpfhost_reply reply = ask(host, frame, length);
    CHECK(reply.payload_length == 8 && bpfhost_get32(reply.payload) == 2);
    bpfhost_free(host);
    CHECK(strcmp(bpfhost_version(), BPFHOST_VERSION) == 0);
    puts("C++: the header compiles, and a host runs");
}
