/*
 * Tests of memory.c: which requests it passes on, what it answers, alignments, sizes of 0, and an
 * allocator that refuses. The linker redirects its requests to this file (--wrap).
 */
#include "memory.h"

#include <stdint.h>
#include <stdio.h>
#include <stdlib.h>
#include <string.h>

#define CHECK(condition) check((condition), #condition, __LINE__)

static int failures;
static int is_refusing; /* whether the allocator refuses */
static size_t asked;    /* the size of the last request */
static size_t blocks;   /* how many blocks are live */

static void check(int holds, const char *condition, int line) {
    if (!holds) {
        printf("c/memory_test.c:%d: %s\n", line, condition);
        failures++;
    }
}

void *__real_malloc(size_t size);
void *__real_realloc(void *block, size_t size);
void __real_free(void *block);

void *__wrap_malloc(size_t size) {
    void *const block = is_refusing ? NULL : __real_malloc(size);
    asked = size;
    blocks += block != NULL;
    return block;
}

void *__wrap_realloc(void *block, size_t size) {
    asked = size;
    return is_refusing ? NULL : __real_realloc(block, size);
}

void __wrap_free(void *block) {
    blocks--;
    __real_free(block);
}

/* Each size and alignment: the block is aligned, can be written whole, and is distinct. */
static void test_blocks(void) {
    for (size_t align = 1; align <= 16; align *= 2) {
        for (size_t size = 0; size <= 4096; size += align) {
            const rattle_tried first = rattle_alloc(size, align);
            CHECK(first.is_found == 1 && asked == (size == 0 ? align : size));
            const rattle_tried second = rattle_alloc(size, align);
            CHECK(second.is_found == 1 && first.block != second.block);
            CHECK((uintptr_t)first.block % align == 0 && (uintptr_t)second.block % align == 0);
            memset(first.block, 1, size);
            memset(second.block, 2, size);
            CHECK(size == 0 || (((char *)first.block)[size - 1] == 1));
            rattle_dealloc(first.block);
            rattle_dealloc(second.block);
        }
    }
    CHECK(blocks == 0);
}

/* A block that grows, shrinks and becomes empty keeps its bytes and its alignment. */
static void test_resized(void) {
    for (size_t align = 1; align <= 16; align *= 2) {
        rattle_tried block = rattle_alloc(0, align);
        size_t kept = 0;
        for (size_t size = align; size <= (size_t)1 << 20; size *= 2) {
            block = rattle_realloc(block.block, kept, size, align);
            CHECK(block.is_found == 1 && asked == size && (uintptr_t)block.block % align == 0);
            memset((char *)block.block + kept, (int)align, size - kept);
            kept = size;
        }
        for (size_t at = 0; at < kept; at++)
            CHECK(((char *)block.block)[at] == (char)align);
        block = rattle_realloc(block.block, align, align, align);
        CHECK(block.is_found == 1 && ((char *)block.block)[align - 1] == (char)align);
        block = rattle_realloc(block.block, 0, 0, align);
        CHECK(block.is_found == 1 && asked == align && blocks == 1);
        rattle_dealloc(block.block);
    }
    CHECK(blocks == 0);
}

/* Without memory the first word is 0, the second isn't null, and the block is as it was. */
static void test_refused(void) {
    const rattle_tried kept = rattle_alloc(4, 4);
    memcpy(kept.block, "abc", 4);
    is_refusing = 1;
    rattle_tried answer = rattle_alloc(8, 8);
    CHECK(answer.is_found == 0 && answer.block != NULL && answer.block != kept.block);
    answer = rattle_alloc(0, 2);
    CHECK(answer.is_found == 0 && answer.block != NULL && asked == 2);
    answer = rattle_realloc(kept.block, 4, 1 << 20, 4);
    CHECK(answer.is_found == 0 && answer.block != NULL && answer.block != kept.block);
    answer = rattle_realloc(kept.block, 0, 0, 4);
    CHECK(answer.is_found == 0 && asked == 4);
    is_refusing = 0;
    CHECK(memcmp(kept.block, "abc", 4) == 0 && blocks == 1);
    rattle_dealloc(kept.block);
    CHECK(blocks == 0);
}

/* A size that no allocator has: the greatest one that the library requests. */
static void test_greatest(void) {
    const rattle_tried answer = rattle_alloc((size_t)PTRDIFF_MAX, 1);
    CHECK(answer.is_found == 0 && answer.block != NULL && blocks == 0);
}

int main(void) {
    test_blocks();
    test_resized();
    test_refused();
    test_greatest();
    printf("memory of C: %s\n", failures == 0 ? "passed" : "failed");
    return failures == 0 ? 0 : 1;
}
