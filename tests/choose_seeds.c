/*
 * Lets a program serve its input with each of many seeds, if it is started with this library in LD_PRELOAD. Its first call of
 * getentropy(3) forks a process for each sixteen bytes of the file that SEEDS names, one after the other. In such a process, the input,
 * which has to be a file, is at its start, and this call and the next ones return the sixteen bytes in order, and EIO when none is
 * left. The status is 0 if it is in all of them.
 */
#include <errno.h>
#include <fcntl.h>
#include <stdlib.h>
#include <string.h>
#include <sys/wait.h>
#include <unistd.h>

enum { SEED_BYTES = 16 };

static unsigned char seed[SEED_BYTES];
static size_t left;

/* A process with a seed of its own begins here: valgrind counts from this call on. */
__attribute__((noinline)) void seed_is_chosen(void)
{
    left = SEED_BYTES;
}

/* Returns only in the forked processes. */
static void fork_for_each_seed(void)
{
    const char *file = getenv("SEEDS");
    int seeds = file ? open(file, O_RDONLY) : -1;
    while (read(seeds, seed, SEED_BYTES) == SEED_BYTES) {
        int status;
        pid_t process;
        if (lseek(STDIN_FILENO, 0, SEEK_SET) != 0)
            _exit(1);
        process = fork();
        if (process == 0) {
            seed_is_chosen();
            return;
        }
        if (process < 0 || waitpid(process, &status, 0) != process || status != 0)
            _exit(1);
    }
    _exit(0);
}

int getentropy(void *bytes, size_t count)
{
    static int is_chosen;
    if (!is_chosen) {
        is_chosen = 1;
        fork_for_each_seed();
    }
    if (count > left) {
        errno = EIO;
        return -1;
    }
    memcpy(bytes, seed + SEED_BYTES - left, count);
    left -= count;
    return 0;
}
