/* Answers lines as am-dispatch does, in process: cc play.c -I LIBRARY LIBRARY/libfentdolmen.a -o play */
#define _POSIX_C_SOURCE 200809L
#include <stdio.h>
#include <stdlib.h>
#include <string.h>
#include <sys/random.h>
#include <sys/types.h>

#include "fentdolmen.h"

/* The answer to a line, in memory that is kept from call to call and grows as need be. NULL: no memory for it. */
struct answer {
    uint8_t *text;
    size_t room, length;
};

static const uint8_t *ask(fentdolmen *board, const char *line, size_t length, struct answer *answer) {
    answer->length = fentdolmen_call(board, (const uint8_t *)line, length, answer->text, answer->room);
    if (answer->length > answer->room) {
        uint8_t *more = realloc(answer->text, answer->length);
        if (!more)
            return NULL;
        answer->text = more;
        answer->room = answer->length;
        fentdolmen_read(board, 0, answer->text, answer->room);
    }
    return answer->text;
}

int main(void) {
    uint64_t seed;
    if (getrandom(&seed, sizeof seed, 0) != sizeof seed)
        return 1;
    fentdolmen board = {0};
    struct answer answer = {0};
    if (fentdolmen_open(&board, seed) != FENTDOLMEN_DONE)
        return 1;
    char *line = NULL;
    size_t room = 0;
    ssize_t length;
    int status = 0;
    while (!status && (length = getline(&line, &room, stdin)) >= 0) {
        if (line[length - 1] == '\n')
            length--;
        const uint8_t *text = ask(&board, line, (size_t)length, &answer);
        status = !text || fwrite(text, 1, answer.length, stdout) != answer.length;
    }
    fentdolmen_close(&board);
    free(answer.text);
    free(line);
    return fflush(stdout) || status;
}
