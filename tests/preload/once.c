// Preloaded, it lets the read of standard input or the write to standard output fail that READ_FAILS or WRITE_FAILS counts from 1.
// All others do their work.
#include <errno.h>
#include <stdlib.h>
#include <sys/syscall.h>
#include <unistd.h>

static long reads, writes;

static int fails(const char *name, long count) {
    const char *place = getenv(name);
    errno = EIO;
    return place && atol(place) == count;
}

ssize_t read(int file, void *octets, size_t count) {
    if (file == 0 && fails("READ_FAILS", ++reads)) return -1;
    return syscall(SYS_read, file, octets, count);
}

ssize_t write(int file, const void *octets, size_t count) {
    if (file == 1 && fails("WRITE_FAILS", ++writes)) return -1;
    return syscall(SYS_write, file, octets, count);
}
