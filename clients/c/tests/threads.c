/* Tests of calls from many threads. */
#include "test.h"

#include <pthread.h>

#define THREADS 8
#define CALLS 500

/* Compiles the same events many times; the argument counts the answers that are wrong. */
static void *work(void *argument) {
    size_t *wrong = argument;
    bivdrazo_event events[4];
    paragraph(events, 6);
    for (int call = 0; call < CALLS; call++)
        *wrong += !gives(events, 4, "Hi <b>", NULL, "<p>Hi &lt;b&gt;</p>");
    return NULL;
}

static void test_calls_at_once(void) {
    pthread_t threads[THREADS];
    size_t wrong[THREADS] = {0};
    for (size_t at = 0; at < THREADS; at++)
        CHECK(pthread_create(&threads[at], NULL, work, &wrong[at]) == 0);
    for (size_t at = 0; at < THREADS; at++)
        CHECK(pthread_join(threads[at], NULL) == 0 && wrong[at] == 0);
}

void test_threads(void) {
    test_calls_at_once();
}
