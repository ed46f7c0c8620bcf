// Preloaded, it moves one octet for each read of standard input and at most five for each write to standard output, as a slow pipe may do,
// and lets a signal interrupt each third of these calls before it has moved any. A write of N octets gives up after N calls, so one
// octet for each write would not do.
#include <errno.h>
#include <sys/syscall.h>
#include <unistd.h>

static long calls;

static int is_interrupted(void) {
    errno = EINTR;
    return ++calls % 3 == 0;
}

ssize_t read(int file, void *octets, size_t count) {
    if (file != 0) return syscall(SYS_read, file, octets, count);
    return is_interrupted() ? -1 : syscall(SYS_read, file, octets, count > 1 ? 1 : count);
}

ssize_t write(int file, const void *octets, size_t count) {
    if (file != 1) return syscall(SYS_write, file, octets, count);
    return is_interrupted() ? -1 : syscall(SYS_write, file, octets, count > 5 ? 5 : count);
}
