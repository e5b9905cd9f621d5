/* Asks for memory once in each way, each between the two writes that the counter looks at, and once
   not at all. Then it asks once more in each way, as a call that gets no memory. */
#define _GNU_SOURCE
#include <errno.h>
#include <malloc.h>
#include <stdlib.h>
#include <string.h>
#include <sys/mman.h>
#include <sys/syscall.h>
#include <unistd.h>

static void say(const char *text) {
    ssize_t written = write(1, text, strlen(text));
    (void)written;
}

/* Kept: else the compiler leaves requests out. */
static void *volatile kept;

#define ASK(NAME, REQUEST) (say(NAME), kept = (void *)(REQUEST), say(" -> asked\n"))

/* Whether the request came to what it comes to where it fails. */
#define REFUSE(NAME, REQUEST, FAILED) \
    (say("without memory: " NAME), kept = (void *)(long)(REQUEST), \
     say(kept == (void *)(long)(FAILED) ? " -> refused\n" : " -> given\n"))

int main(void) {
    void *block;
    ASK("none", NULL);
    ASK("malloc", malloc(10));
    ASK("realloc", realloc(kept, 100));
    ASK("reallocarray", reallocarray(kept, 10, 20));
    ASK("calloc", calloc(1, 10));
    ASK("aligned_alloc", aligned_alloc(64, 64));
    ASK("memalign", memalign(64, 64));
    ASK("posix_memalign", (long)posix_memalign(&block, 64, 64));
    ASK("valloc", valloc(10));
    ASK("pvalloc", pvalloc(10));
    ASK("strdup", strdup("text"));
    ASK("mmap", mmap(NULL, 4096, PROT_READ, MAP_PRIVATE | MAP_ANONYMOUS, -1, 0));
    ASK("mremap", mremap(kept, 4096, 8192, MREMAP_MAYMOVE));
    ASK("sbrk", sbrk(4096));
    ASK("brk", (long)brk(sbrk(0)));
    ASK("syscall", syscall(SYS_mmap, NULL, 4096, PROT_READ, MAP_PRIVATE | MAP_ANONYMOUS, -1, 0));
    void *map = mmap(NULL, 4096, PROT_READ, MAP_PRIVATE | MAP_ANONYMOUS, -1, 0);
    void *end = sbrk(0);
    block = malloc(10);
    REFUSE("malloc", malloc(10), NULL);
    REFUSE("realloc", realloc(block, 100), NULL);
    REFUSE("reallocarray", reallocarray(block, 10, 20), NULL);
    REFUSE("calloc", calloc(1, 10), NULL);
    REFUSE("aligned_alloc", aligned_alloc(64, 64), NULL);
    REFUSE("memalign", memalign(64, 64), NULL);
    REFUSE("posix_memalign", posix_memalign(&block, 64, 64), ENOMEM);
    REFUSE("valloc", valloc(10), NULL);
    REFUSE("pvalloc", pvalloc(10), NULL);
    REFUSE("strdup", strdup("text"), NULL);
    REFUSE("mmap", mmap(NULL, 4096, PROT_READ, MAP_PRIVATE | MAP_ANONYMOUS, -1, 0), MAP_FAILED);
    REFUSE("mremap", mremap(map, 4096, 8192, MREMAP_MAYMOVE), MAP_FAILED);
    REFUSE("sbrk", sbrk(4096), -1);
    REFUSE("brk", brk(end), -1);
    REFUSE("syscall", syscall(SYS_mmap, NULL, 4096, PROT_READ, MAP_PRIVATE | MAP_ANONYMOUS, -1, 0), -1);
    return 0;
}
