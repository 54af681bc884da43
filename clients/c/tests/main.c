/*
 * Tests of the C interface: each function of bivdrazo.h, each status, and calls from many threads.
 * Prints a line for each check that fails, and ends with status 1 then.
 */
#include "test.h"

int failures = 0;

void check(int holds, const char *condition, const char *file, int line) {
    if (!holds) {
        printf("%s:%d: %s\n", file, line, condition);
        failures++;
    }
}

int main(void) {
    test_compiling();
    test_words();
    test_options();
    test_attributes();
    test_unnested();
    test_safe();
    test_cleaning();
    test_limits();
    test_memory();
    test_threads();
    printf("C: %s\n", failures == 0 ? "passed" : "failed");
    return failures == 0 ? 0 : 1;
}
