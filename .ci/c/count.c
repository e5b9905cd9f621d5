/* Counts the requests for memory that come between two writes to the standard output. A write that
   begins with " -> " has the answer to a call, which the write before it named: the file COUNTS gets
   a line with how many requests there were between the two, and what the write before wrote. Each
   request of a call whose name begins with "without memory: " is refused. */
#define _GNU_SOURCE
#include <dlfcn.h>
#include <errno.h>
#include <fcntl.h>
#include <stdarg.h>
#include <stdatomic.h>
#include <stddef.h>
#include <stdio.h>
#include <stdlib.h>
#include <string.h>
#include <sys/mman.h>
#include <sys/syscall.h>
#include <sys/uio.h>
#include <unistd.h>

void *__libc_malloc(size_t size);
void *__libc_calloc(size_t count, size_t size);
void *__libc_realloc(void *block, size_t size);
void *__libc_memalign(size_t alignment, size_t size);
void *__libc_valloc(size_t size);
void *__libc_pvalloc(size_t size);

static atomic_long requests;
static long before;
static char name[256];
static size_t named;
static atomic_int refusing;

/* Counts a request. Returns whether it fails. */
static int refused(void) {
    atomic_fetch_add(&requests, 1);
    if (!refusing)
        return 0;
    errno = ENOMEM;
    return 1;
}

void *malloc(size_t size) { return refused() ? NULL : __libc_malloc(size); }
void *calloc(size_t count, size_t size) { return refused() ? NULL : __libc_calloc(count, size); }
void *realloc(void *block, size_t size) { return refused() ? NULL : __libc_realloc(block, size); }
void *memalign(size_t alignment, size_t size) { return refused() ? NULL : __libc_memalign(alignment, size); }
void *aligned_alloc(size_t alignment, size_t size) { return memalign(alignment, size); }
void *valloc(size_t size) { return refused() ? NULL : __libc_valloc(size); }
void *pvalloc(size_t size) { return refused() ? NULL : __libc_pvalloc(size); }

void *reallocarray(void *block, size_t count, size_t size) {
    size_t bytes;
    if (__builtin_mul_overflow(count, size, &bytes)) {
        refused();
        errno = ENOMEM;
        return NULL;
    }
    return realloc(block, bytes);
}

int posix_memalign(void **block, size_t alignment, size_t size) {
    *block = memalign(alignment, size);
    return *block ? 0 : ENOMEM;
}

/* What asks the system itself is counted, and handed on. */

/* Asks the system, as `syscall` does. */
static long ask(long number, long a, long b, long c, long d, long e, long f) {
    register long fourth __asm__("r10") = d;
    register long fifth __asm__("r8") = e;
    register long sixth __asm__("r9") = f;
    long answer;
    __asm__ volatile("syscall"
                     : "=a"(answer)
                     : "a"(number), "D"(a), "S"(b), "d"(c), "r"(fourth), "r"(fifth), "r"(sixth)
                     : "rcx", "r11", "memory");
    if (answer < 0 && answer > -4096) {
        errno = (int)-answer;
        return -1;
    }
    return answer;
}

/* A lock waits by it, and it could ask for memory. */
long syscall(long number, ...) {
    va_list more;
    va_start(more, number);
    long a = va_arg(more, long), b = va_arg(more, long), c = va_arg(more, long);
    long d = va_arg(more, long), e = va_arg(more, long), f = va_arg(more, long);
    va_end(more);
    if ((number == SYS_mmap || number == SYS_mremap || number == SYS_brk) && refused())
        return -1;
    return ask(number, a, b, c, d, e, f);
}

void *mmap(void *at, size_t size, int rights, int flags, int file, off_t from) {
    if (refused())
        return MAP_FAILED;
    return (void *)ask(SYS_mmap, (long)at, (long)size, rights, flags, file, from);
}

void *mmap64(void *at, size_t size, int rights, int flags, int file, off_t from) {
    return mmap(at, size, rights, flags, file, from);
}

void *mremap(void *block, size_t old, size_t size, int flags, ...) {
    va_list more;
    va_start(more, flags);
    void *at = flags & MREMAP_FIXED ? va_arg(more, void *) : NULL;
    va_end(more);
    if (refused())
        return MAP_FAILED;
    return (void *)ask(SYS_mremap, (long)block, (long)old, (long)size, flags, (long)at, 0);
}

void *sbrk(intptr_t bytes) {
    void *(*next)(intptr_t) = (void *(*)(intptr_t))dlsym(RTLD_NEXT, "sbrk");
    return refused() ? (void *)-1 : next(bytes);
}

int brk(void *end) {
    int (*next)(void *) = (int (*)(void *))dlsym(RTLD_NEXT, "brk");
    return refused() ? -1 : next(end);
}

/* How a call is named that gets no memory. */
static const char SHORT[] = "without memory: ";

/* The file of the counts, once it is open. */
static int counts = -1;

/* Looks at what is written to the standard output, before it is. */
static void see(const char *bytes, size_t len) {
    if (len >= 4 && memcmp(bytes, " -> ", 4) == 0) {
        char line[320];
        int size = snprintf(line, sizeof line, "%ld %.*s\n", requests - before, (int)named, name);
        if (counts < 0)
            counts = open(getenv("COUNTS"), O_WRONLY | O_CREAT | O_TRUNC, 0600);
        ssize_t written = ask(SYS_write, counts, (long)line, size, 0, 0, 0);
        (void)written;
    }
    named = len < sizeof name ? len : sizeof name;
    memcpy(name, bytes, named);
    refusing = named >= sizeof SHORT - 1 && memcmp(name, SHORT, sizeof SHORT - 1) == 0;
    before = requests;
}

ssize_t write(int file, const void *bytes, size_t len) {
    if (file == 1)
        see(bytes, len);
    return ask(SYS_write, file, (long)bytes, (long)len, 0, 0, 0);
}

ssize_t writev(int file, const struct iovec *parts, int count) {
    if (file == 1 && count > 0)
        see(parts[0].iov_base, parts[0].iov_len);
    return ask(SYS_writev, file, (long)parts, count, 0, 0, 0);
}
