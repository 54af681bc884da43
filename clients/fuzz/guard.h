/* Bytes that end at a page that can't be read or written. */
#ifndef BIVDRAZO_FUZZ_GUARD_H
#define BIVDRAZO_FUZZ_GUARD_H

#include <stdint.h>
#include <stdio.h>
#include <stdlib.h>
#include <string.h>
#include <sys/mman.h>
#include <unistd.h>

struct guarded {
    uint8_t *pages;
    size_t size;
    uint8_t *bytes;
};

/* This number of bytes, each with this value. */
static inline struct guarded guard_room(size_t length, uint8_t value) {
    const size_t page = (size_t)sysconf(_SC_PAGESIZE);
    const size_t room = (length + page) / page * page;
    struct guarded guarded = {NULL, room + page, NULL};
    guarded.pages =
        mmap(NULL, guarded.size, PROT_READ | PROT_WRITE, MAP_PRIVATE | MAP_ANONYMOUS, -1, 0);
    if (guarded.pages == MAP_FAILED || mprotect(guarded.pages + room, page, PROT_NONE) != 0)
        abort();
    guarded.bytes = memset(guarded.pages + room - length, value, length);
    return guarded;
}

/* A copy of some bytes there. */
static inline struct guarded guard(const uint8_t *bytes, size_t length) {
    const struct guarded guarded = guard_room(length, 0);
    memcpy(guarded.bytes, bytes, length);
    return guarded;
}

static inline void unguard(struct guarded guarded) {
    munmap(guarded.pages, guarded.size);
}

/* Ends the program, and libFuzzer keeps the input. */
static inline void fail(const char *what, size_t where) {
    fprintf(stderr, "fuzz: %s at %zu\n", what, where);
    abort();
}

#endif
