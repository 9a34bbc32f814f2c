/* A map's value of all kinds of types. */

#include "bpf.h"

enum color { RED, GREEN = 5, BLUE = 200 };
typedef __u16 port_t;
struct node;

struct node {
    struct node *next;
    int number;
};

struct value {
    __s8 tiny;
    char letter;
    _Bool yes;
    __s16 small;
    __s32 negative;
    const volatile port_t port;
    enum color color;
    __u64 large;
    char name[8];
    __u8 address[6];
    int grid[2][3];
    unsigned int low : 3, middle : 7;
    int signed_bits : 5;
    unsigned int : 4;
    unsigned int high : 13;
    union {
        __u32 word;
        __u8 bytes[4];
    } either;
    struct {
        __u16 first, second;
    };
    struct node node;
    void *nothing;
    int (*function)(int, char *);
    double ratio;
    float part;
};

struct {
    __uint(type, BPF_MAP_TYPE_ARRAY);
    __uint(max_entries, 1);
    __type(key, __u32);
    __type(value, struct value);
} values SEC(".maps");

SEC("socket") int none(struct __sk_buff *skb)
{
    return 0;
}
