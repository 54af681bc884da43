/* The library's functions for memory (memory.c), for the file that defines them and its test. */
#ifndef BIVDRAZO_MEMORY_H
#define BIVDRAZO_MEMORY_H

#include <stddef.h>

/* Whether there is a block, in a whole word: 1 or 0; and where it is. */
typedef struct rattle_tried {
    size_t is_found;
    void *block;
} rattle_tried;

/* A new block of this size and alignment. */
rattle_tried rattle_alloc(size_t size, size_t align);

/* The block with this size, of whose bytes the first `kept` are used: it may move. */
rattle_tried rattle_realloc(void *block, size_t kept, size_t size, size_t align);

/* Frees a block. */
void rattle_dealloc(void *block);

#endif
