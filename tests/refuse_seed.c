/*
 * Refuses random bytes once to a program that is started with this library in LD_PRELOAD: the call of getentropy(3) whose number,
 * counted from 1, is in REFUSED_CALL fails with EIO. Then it makes the file that REFUSED_FILE names, so that one sees that it did.
 * The other calls give zero bytes.
 */
#include <errno.h>
#include <fcntl.h>
#include <stdlib.h>
#include <string.h>
#include <unistd.h>

static unsigned long calls;

static void tell(void)
{
    const char *file = getenv("REFUSED_FILE");
    int made = file ? open(file, O_CREAT | O_WRONLY, 0600) : -1;
    if (made >= 0)
        close(made);
}

int getentropy(void *bytes, size_t count)
{
    const char *number = getenv("REFUSED_CALL");
    if (++calls == (number ? strtoul(number, NULL, 10) : 0)) {
        tell();
        errno = EIO;
        return -1;
    }
    memset(bytes, 0, count);
    return 0;
}
