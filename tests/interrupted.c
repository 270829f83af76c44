/* Loaded before the C library: every other read is interrupted before it moves a byte, and then the next one reads. */
#define _DEFAULT_SOURCE
#include <errno.h>
#include <sys/syscall.h>
#include <unistd.h>

ssize_t read(int from, void *to, size_t count)
{
    static unsigned calls;
    if (calls++ % 2 == 0) {
        errno = EINTR;
        return -1;
    }
    return syscall(SYS_read, from, to, count);
}
