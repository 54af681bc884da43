/* The calls that the linker redirects to this file (--wrap): for memory, and for texts. */
#include "test.h"

/* The number of further requests for memory before one is refused. The linker redirects the
   library's requests to this file (--wrap).
 */
size_t calls_left = SIZE_MAX;

void *__real_malloc(size_t size);
void *__real_realloc(void *old, size_t size);

void *__wrap_malloc(size_t size) {
    return calls_left != SIZE_MAX && calls_left-- == 0 ? NULL : __real_malloc(size);
}

void *__wrap_realloc(void *old, size_t size) {
    return calls_left != SIZE_MAX && calls_left-- == 0 ? NULL : __real_realloc(old, size);
}

/* The number of calls for a text: the linker redirects the calls of these files too. */
_Atomic size_t calls = 0;

bivdrazo_answer __real_bivdrazo_compile(const bivdrazo_event *events, size_t events_length,
                                        const uint8_t *bytes, size_t bytes_length,
                                        const bivdrazo_options *options,
                                        const bivdrazo_reference *names, size_t names_length,
                                        uint8_t *buffer, size_t buffer_length);
bivdrazo_answer __real_bivdrazo_compile_within(const bivdrazo_event *events, size_t events_length,
                                               const uint8_t *bytes, size_t bytes_length,
                                               const bivdrazo_options *options,
                                               const bivdrazo_reference *names, size_t names_length,
                                               const bivdrazo_limits *limits, uint8_t *buffer,
                                               size_t buffer_length);
bivdrazo_answer __real_bivdrazo_run(const uint8_t *script, size_t script_length, uint8_t *buffer,
                                    size_t buffer_length);

bivdrazo_answer __wrap_bivdrazo_compile(const bivdrazo_event *events, size_t events_length,
                                        const uint8_t *bytes, size_t bytes_length,
                                        const bivdrazo_options *options,
                                        const bivdrazo_reference *names, size_t names_length,
                                        uint8_t *buffer, size_t buffer_length) {
    calls++;
    return __real_bivdrazo_compile(events, events_length, bytes, bytes_length, options, names,
                                   names_length, buffer, buffer_length);
}

bivdrazo_answer __wrap_bivdrazo_compile_within(const bivdrazo_event *events, size_t events_length,
                                               const uint8_t *bytes, size_t bytes_length,
                                               const bivdrazo_options *options,
                                               const bivdrazo_reference *names, size_t names_length,
                                               const bivdrazo_limits *limits, uint8_t *buffer,
                                               size_t buffer_length) {
    calls++;
    return __real_bivdrazo_compile_within(events, events_length, bytes, bytes_length, options,
                                          names, names_length, limits, buffer, buffer_length);
}

bivdrazo_answer __wrap_bivdrazo_run(const uint8_t *script, size_t script_length, uint8_t *buffer,
                                    size_t buffer_length) {
    calls++;
    return __real_bivdrazo_run(script, script_length, buffer, buffer_length);
}
