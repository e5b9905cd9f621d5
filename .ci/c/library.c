/* What C may do wrong with libfentdolmen, and what is defined all the same. Prints nothing if all is as fentdolmen.h says.
   With a word: opens a board and answers two lines, for runs in which a request for memory is refused. */
#include <pthread.h>
#include <stdint.h>
#include <stdio.h>
#include <stdlib.h>
#include <string.h>

#include "fentdolmen.h"

static _Atomic int failed;

static void check(int holds, int line, const char *what) {
    if (!holds) {
        failed = 1;
        fprintf(stderr, "line %d: %s\n", line, what);
    }
}

#define CHECK(holds) check(holds, __LINE__, #holds)

static const char CONFIG[] = "{\"config\":{\"receivers\":[{\"name\":\"a\",\"integrations\":[{\"kind\":\"k\"}]}],\"route\":{\"receiver\":\"a\"}}}";
static const char OPENED[] = "{\"opened\":{\"ignored\":[],\"routes\":[\"root\"]}}\n";
static const char INSERT[] = "{\"insert\":{\"now\":0,\"labels\":{\"a\":\"b\"}}}";
static const char MEMORY[] = "\"kind\":\"memory\"";

static size_t ask(fentdolmen *f, const char *line, uint8_t *into, size_t room) {
    return fentdolmen_call(f, (const uint8_t *)line, strlen(line), into, room);
}

static int is_closed(const fentdolmen *f) {
    return !f->is_open && !f->at;
}

static void closed_and_null(void) {
    fentdolmen f = {0};
    uint8_t into[4] = "abcd";
    CHECK(fentdolmen_version() == 1);
    CHECK(fentdolmen_close(&f) == FENTDOLMEN_NOT_SO && fentdolmen_close(NULL) == FENTDOLMEN_NOT_SO);
    CHECK(ask(&f, CONFIG, into, 4) == 0 && fentdolmen_read(&f, 0, into, 4) == 0 && !memcmp(into, "abcd", 4));
    CHECK(ask(NULL, CONFIG, into, 4) == 0 && fentdolmen_read(NULL, 0, into, 4) == 0 && !memcmp(into, "abcd", 4));
    CHECK(fentdolmen_open(NULL, 1) == FENTDOLMEN_NOT_SO && is_closed(&f));
}

static void twice(void) {
    fentdolmen f = {0};
    CHECK(fentdolmen_open(&f, 1) == FENTDOLMEN_DONE && f.is_open == 1);
    fentdolmen before = f;
    CHECK(fentdolmen_open(&f, 2) == FENTDOLMEN_NOT_SO && !memcmp(&before, &f, sizeof f));
    CHECK(fentdolmen_close(&f) == FENTDOLMEN_DONE && is_closed(&f));
    CHECK(fentdolmen_close(&f) == FENTDOLMEN_NOT_SO && is_closed(&f));
    CHECK(fentdolmen_open(&f, 2) == FENTDOLMEN_DONE && fentdolmen_close(&f) == FENTDOLMEN_DONE);
}

static void lengths(void) {
    fentdolmen f = {0};
    uint8_t into[sizeof OPENED + 8];
    size_t whole = sizeof OPENED - 1;
    CHECK(fentdolmen_open(&f, 1) == FENTDOLMEN_DONE);
    CHECK(fentdolmen_read(&f, 0, into, sizeof into) == 0);
    CHECK(fentdolmen_call(&f, NULL, 0, into, 1) == 1 && into[0] == '\n');
    CHECK(fentdolmen_call(&f, NULL, 7, into, 1) == 1 && into[0] == '\n');
    CHECK(fentdolmen_call(&f, (const uint8_t *)"", 0, NULL, 0) == 1 && fentdolmen_call(&f, NULL, 0, NULL, 9) == 1);
    for (size_t room = 0; room <= sizeof into; room++) {
        memset(into, 'x', sizeof into);
        size_t fits = room < whole ? room : whole;
        CHECK(ask(&f, CONFIG, into, room) == whole && !memcmp(into, OPENED, fits));
        for (size_t at = fits; at < sizeof into; at++)
            CHECK(into[at] == 'x');
        memset(into, 'x', sizeof into);
        fits = room < whole ? whole - room : 0;
        CHECK(fentdolmen_read(&f, room, into, sizeof into) == whole && !memcmp(into, OPENED + (whole - fits), fits) && into[fits] == 'x');
    }
    CHECK(fentdolmen_read(&f, SIZE_MAX, into, 1) == whole && fentdolmen_read(&f, 0, NULL, 0) == whole);
    CHECK(fentdolmen_close(&f) == FENTDOLMEN_DONE);
}

static void too_long(void) {
    fentdolmen f = {0};
    size_t length = (64u << 20) + 1;
    char *line = malloc(length), into[256] = "";
    if (!line)
        exit(3);
    memset(line, '#', length);
    CHECK(fentdolmen_open(&f, 1) == FENTDOLMEN_DONE);
    CHECK(fentdolmen_call(&f, (uint8_t *)line, length, (uint8_t *)into, 255) < 255 && strstr(into, "\"kind\":\"length\""));
    CHECK(fentdolmen_call(&f, (uint8_t *)line, length - 1, (uint8_t *)into, 255) == length && into[254] == '#');
    CHECK(fentdolmen_close(&f) == FENTDOLMEN_DONE);
    free(line);
}

/* What takes the most stack: a pattern that is nested as deep as can be. */
static void nested(fentdolmen *f) {
    enum { DEPTH = 200 };
    static const char FRONT[] = "{\"check\":{\"matchers\":[\"x=~\\\"", END[] = "\\\"\"]}}";
    char line[sizeof FRONT + 2 * DEPTH + 1 + sizeof END], into[4096] = "";
    size_t at = sizeof FRONT - 1;
    memcpy(line, FRONT, at);
    memset(line + at, '(', DEPTH);
    line[at + DEPTH] = 'a';
    memset(line + at + DEPTH + 1, ')', DEPTH);
    strcpy(line + at + 2 * DEPTH + 1, END);
    CHECK(ask(f, line, (uint8_t *)into, sizeof into - 1) < sizeof into && !strncmp(into, "{\"checked\"", 10));
}

static void *in_thread(void *unused) {
    fentdolmen f = {0};
    uint8_t into[4096];
    CHECK(fentdolmen_open(&f, 1) == FENTDOLMEN_DONE);
    for (int i = 0; i < 20; i++) {
        CHECK(ask(&f, CONFIG, into, sizeof into) == sizeof OPENED - 1);
        for (int k = 0; k < 50; k++)
            CHECK(ask(&f, INSERT, into, sizeof into) > 0 && !memcmp(into, "{\"inserted\"", 11));
    }
    nested(&f);
    CHECK(fentdolmen_close(&f) == FENTDOLMEN_DONE);
    return unused;
}

/* As large a stack as the header asks for. */
enum { STACK = 1 << 20 };

static void threads(void) {
    pthread_t made[4];
    pthread_attr_t small;
    if (pthread_attr_init(&small) || pthread_attr_setstacksize(&small, STACK))
        exit(3);
    for (int i = 0; i < 4; i++)
        if (pthread_create(&made[i], &small, in_thread, NULL))
            exit(3);
    pthread_attr_destroy(&small);
    for (int i = 0; i < 4; i++)
        pthread_join(made[i], NULL);
}

/* Opens, configures and inserts. A request that is refused is answered so, and a second try succeeds: what one call lacks the next has. */
static void refused(void) {
    fentdolmen f = {0};
    char into[4096] = "";
    int status = fentdolmen_open(&f, 1);
    CHECK(status == FENTDOLMEN_DONE || (status == FENTDOLMEN_NO_MEMORY && is_closed(&f) && !fentdolmen_open(&f, 1)));
    const char *lines[] = {"# remark", CONFIG, INSERT}, *begin[] = {"# remark\n", "{\"opened\"", "{\"inserted\""};
    for (int i = 0; i < 3; i++) {
        memset(into, 0, sizeof into);
        CHECK(ask(&f, lines[i], (uint8_t *)into, sizeof into - 1) < sizeof into);
        if (strstr(into, MEMORY)) {
            memset(into, 0, sizeof into);
            CHECK(ask(&f, lines[i], (uint8_t *)into, sizeof into - 1) < sizeof into);
        }
        CHECK(!strncmp(into, begin[i], strlen(begin[i])) || strstr(into, "\"kind\":\"untold\""));
    }
    CHECK(fentdolmen_close(&f) == FENTDOLMEN_DONE);
}

int main(int count, char **words) {
    if (count > 1 && words[1]) {
        refused();
        return failed;
    }
    closed_and_null();
    twice();
    lengths();
    too_long();
    threads();
    return failed;
}
