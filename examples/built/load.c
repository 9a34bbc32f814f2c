/* Loads a program that `python3 -m bpfhost build` wrote, with its maps, and runs it on packets: no Python is needed here.
 * usage: load FILE. README.md of clients/python has the format ("Built programs"); keys that are not needed are passed over. */
#include <bpfhost.h>
#include <stdio.h>
#include <stdlib.h>

#define MOST_SLOTS 4096
#define MOST_MAPS 16
#define LONGEST_VALUE 4096
#define LONGEST_KEY 512
#define LONGEST_FILE (8 * 1024 * 1024)
#define DEEPEST 32

struct map {
    uint32_t type, key_size, value_size, max_entries, initial_size;
    uint32_t *slots; /* those that name the map */
    size_t count;
    uint8_t *initial; /* the bytes of element 0, or null */
};

struct program {
    uint8_t slots[8 * MOST_SLOTS];
    size_t count, maps_count;
    struct map maps[MOST_MAPS];
};

static bpfhost *host;

static void fail(const char *what)
{
    fprintf(stderr, "load: %s\n", what);
    exit(1);
}

/* ---- JSON: `at` is the reader's position in a text that ends with a zero byte. */

static const char *at;

static void space(void)
{
    while (*at == ' ' || *at == '\t' || *at == '\n' || *at == '\r')
        at++;
}

static bool takes(char sign)
{
    space();
    if (*at != sign)
        return false;
    at++;
    return true;
}

static void demand(char sign)
{
    if (!takes(sign))
        fail("the file is no JSON, or has another type of value than it should");
}

/* Reads a string into `to` of `room` bytes; what is longer is cut, and an escape is two bytes: no name that is asked for has one. */
static void string(char *to, size_t room)
{
    size_t length = 0;
    demand('"');
    for (; *at != '"'; at++) {
        if (*at == '\0' || (*at == '\\' && at[1] == '\0'))
            fail("a string does not end");
        if (length + 1 < room)
            to[length++] = *at;
        if (*at == '\\') {
            at++;
            if (length + 1 < room)
                to[length++] = *at;
        }
    }
    at++;
    to[length] = '\0';
}

static uint32_t number(void)
{
    uint64_t found = 0;
    space();
    if (*at < '0' || *at > '9')
        fail("a number is missing");
    for (; *at >= '0' && *at <= '9'; at++) {
        found = 10 * found + (uint64_t)(*at - '0');
        if (found > UINT32_MAX)
            fail("a number is above 2^32 - 1");
    }
    return (uint32_t)found;
}

/* Passes over a value. */
static void skip(int depth)
{
    char text[2], close;
    space();
    if (depth == 0)
        fail("the values are nested too deep");
    if (*at == '"') {
        string(text, sizeof text);
    } else if (*at == '{' || *at == '[') {
        close = *at++ == '{' ? '}' : ']';
        if (takes(close))
            return;
        do {
            if (close == '}') {
                string(text, sizeof text);
                demand(':');
            }
            skip(depth - 1);
        } while (takes(','));
        demand(close);
    } else {
        const char *begin = at;
        while (*at && !strchr(",]} \t\r\n", *at))
            at++;
        if (at == begin)
            fail("a value is missing");
    }
}

static int digit(char sign)
{
    const char *digits = "0123456789abcdef", *found = sign ? strchr(digits, sign) : NULL;
    if (!found)
        fail("a byte is not two hexadecimal digits");
    return (int)(found - digits);
}

/* The bytes of a string of hexadecimal digits, at most `room`. */
static size_t bytes(uint8_t *to, size_t room)
{
    size_t count = 0;
    demand('"');
    for (; *at != '"'; at += 2) {
        if (count == room)
            fail("there are too many bytes");
        int high = digit(at[0]);
        to[count++] = (uint8_t)(16 * high + digit(at[1]));
    }
    at++;
    return count;
}

/* ---- the file */

static void read_slots(struct program *program)
{
    demand('[');
    do {
        if (program->count == MOST_SLOTS)
            fail("there are more than 4,096 slots");
        if (bytes(program->slots + 8 * program->count++, 8) != 8)
            fail("a slot has less than eight bytes");
    } while (takes(','));
    demand(']');
}

static void read_named(struct map *map)
{
    map->slots = calloc(MOST_SLOTS, sizeof *map->slots);
    if (!map->slots)
        fail("there is no memory");
    demand('[');
    if (takes(']'))
        return;
    do {
        if (map->count == MOST_SLOTS)
            fail("a map is named too often");
        map->slots[map->count++] = number();
    } while (takes(','));
    demand(']');
}

static void read_initial(struct map *map)
{
    space();
    if (*at == 'n') {
        skip(1);
        return;
    }
    map->initial = malloc(LONGEST_VALUE);
    if (!map->initial)
        fail("there is no memory");
    map->initial_size = (uint32_t)bytes(map->initial, LONGEST_VALUE);
}

static void read_map(struct map *map)
{
    char key[32], type[8];
    demand('{');
    do {
        string(key, sizeof key);
        demand(':');
        if (strcmp(key, "type") == 0) {
            string(type, sizeof type);
            map->type = strcmp(type, "hash") == 0 ? BPFHOST_HASH : BPFHOST_ARRAY;
        } else if (strcmp(key, "key_size") == 0) {
            map->key_size = number();
        } else if (strcmp(key, "value_size") == 0) {
            map->value_size = number();
        } else if (strcmp(key, "max_entries") == 0) {
            map->max_entries = number();
        } else if (strcmp(key, "slots") == 0) {
            read_named(map);
        } else if (strcmp(key, "initial") == 0) {
            read_initial(map);
        } else {
            skip(DEEPEST);
        }
    } while (takes(','));
    demand('}');
}

static void read_maps(struct program *program)
{
    demand('[');
    if (takes(']'))
        return;
    do {
        if (program->maps_count == MOST_MAPS)
            fail("there are more than 16 maps");
        read_map(&program->maps[program->maps_count++]);
    } while (takes(','));
    demand(']');
}

static void read_program(struct program *program)
{
    char key[32], format[32] = "";
    uint32_t version = 0;
    demand('{');
    do {
        string(key, sizeof key);
        demand(':');
        if (strcmp(key, "format") == 0)
            string(format, sizeof format);
        else if (strcmp(key, "version") == 0)
            version = number();
        else if (strcmp(key, "slots") == 0)
            read_slots(program);
        else if (strcmp(key, "maps") == 0)
            read_maps(program);
        else
            skip(DEEPEST);
    } while (takes(','));
    demand('}');
    if (strcmp(format, "bpfhost program") != 0 || version != 1)
        fail("the file is of another format or version");
}

static char *text_of(const char *path)
{
    FILE *file = fopen(path, "rb");
    char *text = malloc(LONGEST_FILE + 1);
    if (!file || !text)
        fail("the file can't be read");
    text[fread(text, 1, LONGEST_FILE, file)] = '\0';
    fclose(file);
    return text;
}

/* ---- the host */

static uint8_t frame[BPFHOST_LONGEST_FRAME + 4];

/* Sends a command to the host, and returns a descriptor or the result of a test run. */
static uint32_t done(size_t length)
{
    bpfhost_reply reply;
    if (length == 0 || bpfhost_ask(host, frame, length, &reply) != BPFHOST_DONE)
        fail("there is no reply");
    if (reply.status < 0) {
        fprintf(stderr, "load: refused with status %d\n", (int)reply.status);
        exit(1);
    }
    return reply.command == BPFHOST_PROG_TEST_RUN ? reply.result : (uint32_t)reply.status;
}

/* Makes a map, and writes its descriptor into the slots that name it. */
static uint32_t make_map(struct program *program, const struct map *map)
{
    static const uint8_t zero[LONGEST_KEY];
    uint32_t fd = done(bpfhost_frame_map_create(frame, sizeof frame, 0, map->type, map->key_size, map->value_size, map->max_entries, 0));
    if (map->initial)
        done(bpfhost_frame_map_update(frame, sizeof frame, 0, fd, BPFHOST_ANY, zero, map->key_size, map->initial, map->initial_size));
    for (size_t each = 0; each < map->count; each++) {
        if (map->slots[each] >= program->count)
            fail("a map is named at a slot that there is not");
        bpfhost_put32(program->slots + 8 * map->slots[each] + 4, fd);
    }
    return fd;
}

static void run(uint32_t fd, const char *packet)
{
    static const bpfhost_context context;
    uint32_t kept = done(bpfhost_frame_prog_test_run(frame, sizeof frame, 0, fd, &context, packet, strlen(packet)));
    printf("of \"%s\" it keeps %u bytes\n", packet, (unsigned)kept);
}

int main(int count, char **words)
{
    static struct program program;
    bpfhost_seed seed;
    if (count != 2)
        fail("usage: load FILE");
    char *text = text_of(words[1]);
    at = text;
    read_program(&program);
    if (!bpfhost_random_seed(&seed) || bpfhost_new(&host, 1, &seed) != BPFHOST_DONE)
        fail("there is no host");
    for (size_t map = 0; map < program.maps_count; map++)
        printf("map %zu is descriptor %u\n", map, (unsigned)make_map(&program, &program.maps[map]));
    uint32_t fd = done(bpfhost_frame_prog_load(frame, sizeof frame, 0, BPFHOST_SOCKET_FILTER, program.slots, program.count));
    printf("the program of %zu slots is descriptor %u\n", program.count, (unsigned)fd);
    run(fd, "a packet");
    run(fd, "b packet");
    run(fd, "");
    bpfhost_free(host);
    for (size_t map = 0; map < program.maps_count; map++) {
        free(program.maps[map].slots);
        free(program.maps[map].initial);
    }
    free(text);
    return 0;
}
