/*
 * What the tests of the C interface share. Each file beside this one has the tests of one thing,
 * and a function that runs them.
 */
#ifndef BIVDRAZO_TEST_H
#define BIVDRAZO_TEST_H

#include "bivdrazo.h"

#include <stdio.h>
#include <string.h>

/* Counts a failed check, and prints its place. */
#define CHECK(condition) check((condition), #condition, __FILE__, __LINE__)
void check(int holds, const char *condition, const char *file, int line);

/* How many checks failed. */
extern int failures;

/* How many more calls for memory are met before one is refused: SIZE_MAX for all. */
extern size_t calls_left;

/* How often the library was asked for a text. */
extern _Atomic size_t calls;

/* An event at an index. */
bivdrazo_event event(uint8_t kind, uint16_t name, size_t index);

/* The events of a paragraph over this number of bytes. */
void paragraph(bivdrazo_event events[4], size_t length);

/*
 * The events of a link or an image with a resource: its label is the byte after `open`, and its
 * destination reaches from the third byte after that to the last byte but one.
 */
void medium(bivdrazo_event events[14], uint16_t name, size_t open, size_t length);

/* The events of a heading of level 1 whose text is the document from its third byte on. */
void heading(bivdrazo_event events[8], size_t length);

/* Whether events over a document give that text. */
int gives(const bivdrazo_event *events, size_t events_length, const char *document,
          const bivdrazo_options *options, const char *text);

/* Whether events are answered with a status, an index and a rule, no text, and an
   untouched buffer. */
int answers(const bivdrazo_event *events, size_t length, const bivdrazo_options *options,
            const bivdrazo_reference *names, size_t names_length, bivdrazo_answer wanted);

void test_compiling(void);
void test_words(void);
void test_options(void);
void test_attributes(void);
void test_unnested(void);
void test_safe(void);
void test_cleaning(void);
void test_limits(void);
void test_memory(void);
void test_threads(void);

#endif
