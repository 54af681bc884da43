/*
 * The three functions by which the library gets and frees memory, over those of the process.
 *
 * The compiled library calls them and nothing else for memory: it has no C of its own.
 * clients/build compiles this file for the processor of the library, and links both into one
 * object, in which these names are local. What the library requires of them, and what is assumed of
 * them where it is proved:
 *  - The answer is two words in registers: 1 and the block's address, or 0 and the address of a
 *    byte that nobody owns. It is never null.
 *  - Each `align` is a power of two up to 16, as malloc() aligns on every 64-bit Linux for a block
 *    of that size.
 *  - A block of size 0 has `align` bytes, so that its address differs from that of each other.
 *  - A block that can't be resized stays as it was.
 */
#include <stddef.h>
#include <stdlib.h>

#include "memory.h"

_Static_assert(sizeof(size_t) == 8 && sizeof(void *) == 8, "the library is for 64 bits");

/* What is answered where there is no memory. */
static char nothing;

/* The answer for what malloc() or realloc() returned. */
static rattle_tried tried(void *block) {
    const rattle_tried found = {1, block};
    const rattle_tried none = {0, &nothing};
    return block == NULL ? none : found;
}

/* The number of bytes to request for a block of this size. */
static size_t requested(size_t size, size_t align) {
    return size == 0 ? align : size;
}

rattle_tried rattle_alloc(size_t size, size_t align) {
    return tried(malloc(requested(size, align)));
}

rattle_tried rattle_realloc(void *block, size_t kept, size_t size, size_t align) {
    (void)kept; /* realloc() knows the block's size */
    return tried(realloc(block, requested(size, align)));
}

void rattle_dealloc(void *block) {
    free(block);
}
