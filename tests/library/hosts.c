/* Hosts are made and freed, used and not, and at the end the leak sanitizer looks for what is left. usage: hosts [COUNT] */
#include "common.h"

int main(int argc, char **argv)
{
    long count = argc > 1 ? atol(argv[1]) : 100000;
    for (long i = 0; i < count; i++)
        make_and_free(i % 16 == 0);
    printf("hosts: %ld made and freed\n", count);
    return 0;
}
