/* An allocator to be loaded before the C library's: it counts the requests for memory of a program, from its first own
   step on, and refuses one of them. REFUSE_AT is the number of the request that is refused, from 1; 0 or nothing refuses
   none. REFUSE_TALLY names a file of 16 octets, to which it writes two numbers of 64 bits: how many requests there were,
   and how many were refused. */
#define _GNU_SOURCE
#include <errno.h>
#include <fcntl.h>
#include <stdatomic.h>
#include <stddef.h>
#include <stdint.h>
#include <stdlib.h>
#include <sys/mman.h>
#include <unistd.h>

extern void *__libc_malloc(size_t size);
extern void *__libc_calloc(size_t count, size_t size);
extern void *__libc_realloc(void *old, size_t size);
extern void *__libc_memalign(size_t alignment, size_t size);

struct tally {
    _Atomic uint64_t requests;
    _Atomic uint64_t refused;
};

static struct tally own;
static struct tally *tally = &own;
static uint64_t refused_one;
static int counts;

/* The tally lies in a shared page, so that it stands whatever way the program ends. */
__attribute__((constructor)) static void begin(void) {
    const char *at = getenv("REFUSE_AT");
    const char *file = getenv("REFUSE_TALLY");
    if (at) refused_one = strtoull(at, NULL, 10);
    if (file) {
        int open_file = open(file, O_RDWR | O_CREAT | O_TRUNC, 0600);
        if (open_file >= 0 && ftruncate(open_file, sizeof *tally) == 0) {
            void *page = mmap(NULL, sizeof *tally, PROT_READ | PROT_WRITE, MAP_SHARED, open_file, 0);
            if (page != MAP_FAILED) tally = page;
        }
        if (open_file >= 0) close(open_file);
    }
    counts = 1;
}

/* Counts a request, and tells whether it is the one that is refused. */
static int is_refused(void) {
    if (!counts) return 0;
    if (atomic_fetch_add(&tally->requests, 1) + 1 != refused_one) return 0;
    atomic_fetch_add(&tally->refused, 1);
    errno = ENOMEM;
    return 1;
}

void *malloc(size_t size) { return is_refused() ? NULL : __libc_malloc(size); }

void *calloc(size_t count, size_t size) { return is_refused() ? NULL : __libc_calloc(count, size); }

void *realloc(void *old, size_t size) { return is_refused() ? NULL : __libc_realloc(old, size); }

void *memalign(size_t alignment, size_t size) { return is_refused() ? NULL : __libc_memalign(alignment, size); }

void *aligned_alloc(size_t alignment, size_t size) { return memalign(alignment, size); }

int posix_memalign(void **to, size_t alignment, size_t size) {
    void *made = memalign(alignment, size);
    if (!made) return ENOMEM;
    *to = made;
    return 0;
}
