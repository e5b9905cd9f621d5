/* Refuses one request for memory: the one whose number is in REFUSE, counted from 1 over all threads.
   Then it makes the file REFUSED. */
#include <fcntl.h>
#include <stdatomic.h>
#include <stddef.h>
#include <stdlib.h>
#include <unistd.h>

void *__libc_malloc(size_t size);
void *__libc_realloc(void *block, size_t size);

static atomic_long requests;
/* Read once, or by several threads to the same number. */
static atomic_long refused = -1;

static int refuses(void) {
    if (refused < 0) {
        const char *number = getenv("REFUSE");
        refused = number ? atol(number) : 0;
    }
    if (atomic_fetch_add(&requests, 1) + 1 != refused)
        return 0;
    const char *file = getenv("REFUSED");
    if (file)
        close(open(file, O_WRONLY | O_CREAT, 0600));
    return 1;
}

void *malloc(size_t size) {
    return refuses() ? NULL : __libc_malloc(size);
}

void *realloc(void *block, size_t size) {
    return refuses() ? NULL : __libc_realloc(block, size);
}
