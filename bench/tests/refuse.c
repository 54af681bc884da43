/* Refuses one request of a program for memory. Loaded before the C library (LD_PRELOAD), it counts
   the calls of malloc, calloc and realloc, and refuses the one whose number REFUSE has (0: none;
   "all": each). At the end it writes the number of requests to the file that COUNT names. */
#define _GNU_SOURCE
#include <errno.h>
#include <stdio.h>
#include <stdlib.h>
#include <string.h>

extern void *__libc_malloc(size_t);
extern void *__libc_calloc(size_t, size_t);
extern void *__libc_realloc(void *, size_t);

static int counts;
static int refuses_all;
static unsigned long refused;
static unsigned long asked;

__attribute__((constructor)) static void begin(void) {
    const char *number = getenv("REFUSE");
    if (number != NULL) {
        refuses_all = strcmp(number, "all") == 0;
        refused = strtoul(number, NULL, 10);
    }
    counts = 1;
}

__attribute__((destructor)) static void end(void) {
    counts = 0;
    const char *name = getenv("COUNT");
    FILE *file = name == NULL ? NULL : fopen(name, "w");
    if (file != NULL) {
        fprintf(file, "%lu\n", asked);
        fclose(file);
    }
}

static int is_refused(void) {
    if (!counts) return 0;
    asked += 1;
    if (!refuses_all && asked != refused) return 0;
    errno = ENOMEM;
    return 1;
}

void *malloc(size_t size) { return is_refused() ? NULL : __libc_malloc(size); }

void *calloc(size_t count, size_t size) { return is_refused() ? NULL : __libc_calloc(count, size); }

void *realloc(void *block, size_t size) {
    return is_refused() ? NULL : __libc_realloc(block, size);
}
