/* libfentdolmen: the lines of am-dispatch in process. docs/library.md teaches it. */
#ifndef FENTDOLMEN_H
#define FENTDOLMEN_H

#include <stddef.h>
#include <stdint.h>

#ifdef __cplusplus
extern "C" {
#endif

/* A handle: a board, and its answer to the last line. {0} is a closed one. Only these functions write it. It may be moved while no call
   has it; the old place isn't used again. A copy is no second handle.

   What callers owe, besides:
   - A handle is in one call at a time, from the thread that opened it. Handles share nothing.
   - A buffer overlaps no other one and no handle, and nobody else reads or writes it during a call. Its length is that of real memory.
   - The thread has 1 MiB of stack or more.
   - No call comes from a signal handler, or from the forked child of a process with threads.
   - malloc, realloc and free are the program's, belong together, and give memory that is aligned to 16 bytes. */
typedef struct {
    uint64_t is_open;
    void *at;
} fentdolmen;

/* What open and close return. */
enum { FENTDOLMEN_DONE = 0, FENTDOLMEN_NO_MEMORY = 1, FENTDOLMEN_NOT_SO = 2 };

/* The version of this interface: 1. */
uint32_t fentdolmen_version(void);

/* Opens a closed handle. Hashes start from the seed: draw it, and tell it to nobody who writes labels.
   FENTDOLMEN_NO_MEMORY: out of memory. FENTDOLMEN_NOT_SO: it is open already, or NULL. Then nothing has changed. */
int32_t fentdolmen_open(fentdolmen *f, uint64_t seed);

/* Answers the line of `length` bytes, without its line feed. Copies as much of the answer as fits into the `room` bytes at `into`,
   and returns the length of all of it. The answer ends with a line feed; no zero byte follows it. A remark is answered by its own bytes.
   Each line has an answer, also where there is no memory. A handle that is closed, or NULL, returns 0, and copies nothing.
   A NULL line is an empty one; a NULL `into` has no room. */
size_t fentdolmen_call(fentdolmen *f, const uint8_t *line, size_t length, uint8_t *into, size_t room);

/* Copies as much of the last answer, from byte `from` on, as fits, and returns the length of all of it. 0 before the first call, and if
   the handle is closed, or NULL. */
size_t fentdolmen_read(fentdolmen *f, size_t from, uint8_t *into, size_t room);

/* Closes a handle, and frees what it owns. FENTDOLMEN_NOT_SO: it isn't open, or NULL. */
int32_t fentdolmen_close(fentdolmen *f);

#ifdef __cplusplus
}
#endif

#endif
