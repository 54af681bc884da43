/* The calls that allocate the text: bivdrazo.h includes this. */
#ifndef BIVDRAZO_ALLOC_H
#define BIVDRAZO_ALLOC_H

#include <stdlib.h>

#include "bivdrazo.h"

#ifdef __cplusplus
extern "C" {
#endif

/* The answer for a call that is out of memory. */
static inline bivdrazo_answer bivdrazo_answer_memory(void) {
    bivdrazo_answer answer = {BIVDRAZO_MEMORY, 0, 0, 0};
    return answer;
}

/* Whether this number of elements of that size exceeds the size of an object. */
static inline int bivdrazo_is_too_long(size_t length, size_t size) {
    return length > (size_t)PTRDIFF_MAX / size;
}

/*
 * A first size for the text's buffer: most texts fit into two bytes for each byte of the document
 * and eight for each event. If that overflows, it is the greatest size, which malloc refuses.
 */
static inline size_t bivdrazo_first_size(size_t events_length, size_t bytes_length) {
    if (events_length > (size_t)PTRDIFF_MAX / 32 || bytes_length > (size_t)PTRDIFF_MAX / 8)
        return PTRDIFF_MAX;
    return 8 * events_length + 2 * bytes_length + 64;
}

/* Makes the buffer of a text one byte longer than the length in `answer`, which becomes an error
   if there is no memory. */
static inline void bivdrazo_grow(bivdrazo_answer *answer, uint8_t **text) {
    uint8_t *grown =
        answer->length < (size_t)PTRDIFF_MAX ? (uint8_t *)realloc(*text, answer->length + 1) : NULL;
    if (grown == NULL)
        *answer = bivdrazo_answer_memory();
    else
        *text = grown;
}

/* Ends the text with a NUL, or frees the buffer if the call failed. */
static inline void bivdrazo_settle(const bivdrazo_answer *answer, uint8_t **text) {
    if (answer->status == BIVDRAZO_OK) {
        (*text)[answer->length] = 0;
    } else {
        free(*text);
        *text = NULL;
    }
}

/*
 * As bivdrazo_compile(), with an allocated text: with BIVDRAZO_OK `*text` is the text, `length`
 * bytes and a NUL that isn't counted, for the caller to free(); otherwise `*text` is null. If the
 * first buffer is too short, the events are compiled twice. A pointer may be null if its length is
 * 0; null options are the default ones.
 */
static inline bivdrazo_answer bivdrazo_compile_alloc(const bivdrazo_event *events,
                                                     size_t events_length, const uint8_t *bytes,
                                                     size_t bytes_length,
                                                     const bivdrazo_options *options,
                                                     const bivdrazo_reference *names,
                                                     size_t names_length, uint8_t **text) {
    static const bivdrazo_event no_event = {0, 0, 0, 0, 0};
    static const bivdrazo_reference no_name = {(const uint8_t *)"", 0, (const uint8_t *)"", 0};
    const bivdrazo_options defaults = bivdrazo_options_default();
    bivdrazo_answer answer = {BIVDRAZO_TOO_SHORT, 0, 0,
                              bivdrazo_first_size(events_length, bytes_length)};
    *text = NULL;
    if (bivdrazo_is_too_long(events_length, sizeof *events) ||
        bivdrazo_is_too_long(bytes_length, 1) || bivdrazo_is_too_long(names_length, sizeof *names))
        return bivdrazo_answer_memory();
    for (int tries = 0; tries < 2 && answer.status == BIVDRAZO_TOO_SHORT; tries++) {
        const size_t room = answer.length;
        bivdrazo_grow(&answer, text);
        if (answer.status == BIVDRAZO_TOO_SHORT)
            answer = bivdrazo_compile(events_length ? events : &no_event, events_length,
                                      bytes_length ? bytes : (const uint8_t *)"", bytes_length,
                                      options ? options : &defaults,
                                      names_length ? names : &no_name, names_length, *text, room);
    }
    bivdrazo_settle(&answer, text);
    return answer;
}

/*
 * As bivdrazo_compile_within(), with an allocated text as in bivdrazo_compile_alloc(). The buffer
 * is at most one byte longer than the limit on the text. Null limits are no limits.
 */
static inline bivdrazo_answer bivdrazo_compile_within_alloc(
    const bivdrazo_event *events, size_t events_length, const uint8_t *bytes, size_t bytes_length,
    const bivdrazo_options *options, const bivdrazo_reference *names, size_t names_length,
    const bivdrazo_limits *limits, uint8_t **text) {
    static const bivdrazo_event no_event = {0, 0, 0, 0, 0};
    static const bivdrazo_reference no_name = {(const uint8_t *)"", 0, (const uint8_t *)"", 0};
    const bivdrazo_options defaults = bivdrazo_options_default();
    const bivdrazo_limits within = limits ? *limits : bivdrazo_limits_none();
    bivdrazo_answer answer = {BIVDRAZO_TOO_SHORT, 0, 0,
                              bivdrazo_first_size(events_length, bytes_length)};
    *text = NULL;
    if (bivdrazo_is_too_long(events_length, sizeof *events) ||
        bivdrazo_is_too_long(bytes_length, 1) || bivdrazo_is_too_long(names_length, sizeof *names))
        return bivdrazo_answer_memory();
    if (answer.length > within.text)
        answer.length = within.text;
    for (int tries = 0; tries < 2 && answer.status == BIVDRAZO_TOO_SHORT; tries++) {
        const size_t room = answer.length;
        bivdrazo_grow(&answer, text);
        if (answer.status == BIVDRAZO_TOO_SHORT)
            answer = bivdrazo_compile_within(events_length ? events : &no_event, events_length,
                                             bytes_length ? bytes : (const uint8_t *)"",
                                             bytes_length, options ? options : &defaults,
                                             names_length ? names : &no_name, names_length, &within,
                                             *text, room);
    }
    bivdrazo_settle(&answer, text);
    return answer;
}

/*
 * As bivdrazo_compile_attributed(), with an allocated text as in bivdrazo_compile_alloc(): a NUL
 * follows the text's `index` bytes, and begins the list or ends the buffer. Null attributes are
 * no attributes.
 */
static inline bivdrazo_answer bivdrazo_compile_attributed_alloc(
    const bivdrazo_event *events, size_t events_length, const uint8_t *bytes, size_t bytes_length,
    const bivdrazo_options *options, const bivdrazo_reference *names, size_t names_length,
    const bivdrazo_attributes *attributes, uint8_t **text) {
    static const bivdrazo_event no_event = {0, 0, 0, 0, 0};
    static const bivdrazo_reference no_name = {(const uint8_t *)"", 0, (const uint8_t *)"", 0};
    const bivdrazo_options defaults = bivdrazo_options_default();
    const bivdrazo_attributes none = bivdrazo_attributes_none();
    bivdrazo_answer answer = {BIVDRAZO_TOO_SHORT, 0, 0,
                              bivdrazo_first_size(events_length, bytes_length)};
    *text = NULL;
    if (bivdrazo_is_too_long(events_length, sizeof *events) ||
        bivdrazo_is_too_long(bytes_length, 1) || bivdrazo_is_too_long(names_length, sizeof *names))
        return bivdrazo_answer_memory();
    for (int tries = 0; tries < 2 && answer.status == BIVDRAZO_TOO_SHORT; tries++) {
        const size_t room = answer.length;
        bivdrazo_grow(&answer, text);
        if (answer.status == BIVDRAZO_TOO_SHORT)
            answer = bivdrazo_compile_attributed(events_length ? events : &no_event, events_length,
                                                 bytes_length ? bytes : (const uint8_t *)"",
                                                 bytes_length, options ? options : &defaults,
                                                 names_length ? names : &no_name, names_length,
                                                 attributes ? attributes : &none, *text, room);
    }
    bivdrazo_settle(&answer, text);
    return answer;
}

/* As bivdrazo_compile_unnested(), with an allocated text as in bivdrazo_compile_alloc(). */
static inline bivdrazo_answer bivdrazo_compile_unnested_alloc(
    const bivdrazo_event *events, size_t events_length, const uint8_t *bytes, size_t bytes_length,
    const bivdrazo_options *options, const bivdrazo_reference *names, size_t names_length,
    uint8_t **text) {
    static const bivdrazo_event no_event = {0, 0, 0, 0, 0};
    static const bivdrazo_reference no_name = {(const uint8_t *)"", 0, (const uint8_t *)"", 0};
    const bivdrazo_options defaults = bivdrazo_options_default();
    bivdrazo_answer answer = {BIVDRAZO_TOO_SHORT, 0, 0,
                              bivdrazo_first_size(events_length, bytes_length)};
    *text = NULL;
    if (bivdrazo_is_too_long(events_length, sizeof *events) ||
        bivdrazo_is_too_long(bytes_length, 1) || bivdrazo_is_too_long(names_length, sizeof *names))
        return bivdrazo_answer_memory();
    for (int tries = 0; tries < 2 && answer.status == BIVDRAZO_TOO_SHORT; tries++) {
        const size_t room = answer.length;
        bivdrazo_grow(&answer, text);
        if (answer.status == BIVDRAZO_TOO_SHORT)
            answer = bivdrazo_compile_unnested(events_length ? events : &no_event, events_length,
                                               bytes_length ? bytes : (const uint8_t *)"",
                                               bytes_length, options ? options : &defaults,
                                               names_length ? names : &no_name, names_length, *text,
                                               room);
    }
    bivdrazo_settle(&answer, text);
    return answer;
}

/* As bivdrazo_run(), with an allocated text as in bivdrazo_compile_alloc(). */
static inline bivdrazo_answer bivdrazo_run_alloc(const uint8_t *script, size_t script_length,
                                                 uint8_t **text) {
    bivdrazo_answer answer = {BIVDRAZO_TOO_SHORT, 0, 0, bivdrazo_first_size(0, script_length)};
    *text = NULL;
    if (bivdrazo_is_too_long(script_length, 1))
        return bivdrazo_answer_memory();
    for (int tries = 0; tries < 2 && answer.status == BIVDRAZO_TOO_SHORT; tries++) {
        const size_t room = answer.length;
        bivdrazo_grow(&answer, text);
        if (answer.status == BIVDRAZO_TOO_SHORT)
            answer = bivdrazo_run(script_length ? script : (const uint8_t *)"", script_length,
                                  *text, room);
    }
    bivdrazo_settle(&answer, text);
    return answer;
}

#ifdef __cplusplus
}
#endif

#endif
