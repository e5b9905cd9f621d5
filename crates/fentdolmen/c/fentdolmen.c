/* What comes of NULL, and of lengths that no buffer has. The functions of src/lib.rt do the rest; they take neither. */
#include "fentdolmen.h"

int32_t fentdolmen_open_at(fentdolmen *f, uint64_t seed);
size_t fentdolmen_call_at(fentdolmen *f, const uint8_t *line, size_t length, uint8_t *into, size_t room);
size_t fentdolmen_read_at(fentdolmen *f, size_t from, uint8_t *into, size_t room);
int32_t fentdolmen_close_at(fentdolmen *f);

/* Where a buffer of no bytes is. */
static const uint8_t no_line[1];
static uint8_t no_room[1];

static size_t within(const void *buffer, size_t length) {
    return !buffer ? 0 : length > PTRDIFF_MAX ? PTRDIFF_MAX : length;
}

int32_t fentdolmen_open(fentdolmen *f, uint64_t seed) {
    return f ? fentdolmen_open_at(f, seed) : FENTDOLMEN_NOT_SO;
}

size_t fentdolmen_call(fentdolmen *f, const uint8_t *line, size_t length, uint8_t *into, size_t room) {
    return f ? fentdolmen_call_at(f, line ? line : no_line, within(line, length), into ? into : no_room, within(into, room)) : 0;
}

size_t fentdolmen_read(fentdolmen *f, size_t from, uint8_t *into, size_t room) {
    return f ? fentdolmen_read_at(f, from, into ? into : no_room, within(into, room)) : 0;
}

int32_t fentdolmen_close(fentdolmen *f) {
    return f ? fentdolmen_close_at(f) : FENTDOLMEN_NOT_SO;
}
