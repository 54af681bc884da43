/*
 * Bivdrazo for C: compiles the events of a Markdown parser to HTML.
 *
 * A parser reports a document as a flat list of events: a paragraph begins at byte 0, a text runs
 * from there to byte 5, the paragraph ends. bivdrazo_compile() makes HTML from such a list. Nothing
 * is assumed about the events: they are refused, or give a text that, under the default options,
 * has one reading as HTML, with the elements and attributes of a short list, in which links and
 * images have no protocol or a permitted one. This is proved.
 *
 *     static const uint8_t document[] = "Hi <b>";
 *     const bivdrazo_event events[] = {
 *         {.index = 0, .name = BIVDRAZO_NAME_PARAGRAPH, .kind = BIVDRAZO_ENTER},
 *         {.index = 0, .name = BIVDRAZO_NAME_DATA, .kind = BIVDRAZO_ENTER},
 *         {.index = 6, .name = BIVDRAZO_NAME_DATA, .kind = BIVDRAZO_EXIT},
 *         {.index = 6, .name = BIVDRAZO_NAME_PARAGRAPH, .kind = BIVDRAZO_EXIT},
 *     };
 *     uint8_t *text;
 *     bivdrazo_answer answer =
 *         bivdrazo_compile_alloc(events, 4, document, 6, NULL, NULL, 0, &text);
 *     if (answer.status == BIVDRAZO_OK)
 *         fwrite(text, 1, answer.length, stdout);          (prints <p>Hi &lt;b&gt;</p>)
 *     free(text);
 *
 * Link with libbivdrazo.a, which clients/build makes. docs/use/CALLS.md says more.
 *
 * Nothing checks these requirements on the arguments of bivdrazo_compile(),
 * bivdrazo_compile_within(), bivdrazo_compile_attributed(), bivdrazo_compile_unnested() and
 * bivdrazo_run():
 *  - No pointer is null, even if the length that belongs to it is 0: then pass the address of any
 *    live object that is aligned for the type. Each pointer points to as many readable elements as
 *    its length says; `buffer` points to writable bytes. The same holds for the pointers in
 *    options, names and attributes, even in a text whose `is_set` is 0.
 *  - The buffer doesn't overlap any other argument, and nobody writes to the arguments during the
 *    call.
 *  - No length in bytes exceeds PTRDIFF_MAX.
 *  - malloc, realloc and free are the C library's. No call is made from a signal handler.
 * The functions named .._alloc accept null for events, bytes, names and a script with length 0, and
 * for options, attributes and limits, and check these lengths; they don't check pointers in
 * options, names and attributes. A script sets its own options: its text is safe only if these
 * are.
 *
 * There is no state between calls: any number of threads may call at once, also over the same
 * events and bytes.
 */
#ifndef BIVDRAZO_H
#define BIVDRAZO_H

#include <stddef.h>
#include <stdint.h>
#include <stdlib.h>

#include "bivdrazo_types.h"

#ifdef __cplusplus
extern "C" {
#endif

/*
 * Writes the HTML of a list of events over a document's bytes into the buffer. `names` are the
 * named character references that a document may use; there may be none. The bytes must be UTF-8
 * only where events refer to them as text. Any status but BIVDRAZO_OK leaves the buffer unchanged;
 * BIVDRAZO_OK leaves the rest of the buffer, after the text, unchanged.
 */
bivdrazo_answer bivdrazo_compile(const bivdrazo_event *events, size_t events_length,
                                 const uint8_t *bytes, size_t bytes_length,
                                 const bivdrazo_options *options, const bivdrazo_reference *names,
                                 size_t names_length, uint8_t *buffer, size_t buffer_length);

/*
 * As bivdrazo_compile(), within limits. An invalid event, name or option is reported first. Then
 * the status is BIVDRAZO_TOO_DEEP if the events nest deeper than `limits->depth`, and otherwise
 * BIVDRAZO_TOO_MUCH if there is more to read and to print than `limits->work`; both even if the
 * events aren't a document. For a document it is also BIVDRAZO_TOO_MUCH if more than that is used
 * again, and otherwise BIVDRAZO_TOO_LONG if the text exceeds `limits->text` bytes. With
 * BIVDRAZO_TOO_SHORT `length` doesn't exceed `limits->text`: a buffer of that size is never too
 * short.
 */
bivdrazo_answer bivdrazo_compile_within(const bivdrazo_event *events, size_t events_length,
                                        const uint8_t *bytes, size_t bytes_length,
                                        const bivdrazo_options *options,
                                        const bivdrazo_reference *names, size_t names_length,
                                        const bivdrazo_limits *limits, uint8_t *buffer,
                                        size_t buffer_length);

/*
 * As bivdrazo_compile(), with attributes, under safe options: otherwise the status is
 * BIVDRAZO_UNSAFE. With BIVDRAZO_OK the text is the buffer's first `index` bytes. The bytes from
 * there up to `length` are the list of the headings that got an id, which bivdrazo_next_heading()
 * reads. With BIVDRAZO_TOO_SHORT `length` is the size that both need, and `index` the length of the
 * text. BIVDRAZO_NO_ATTRIBUTE reports an invalid attribute.
 */
bivdrazo_answer bivdrazo_compile_attributed(const bivdrazo_event *events, size_t events_length,
                                            const uint8_t *bytes, size_t bytes_length,
                                            const bivdrazo_options *options,
                                            const bivdrazo_reference *names, size_t names_length,
                                            const bivdrazo_attributes *attributes, uint8_t *buffer,
                                            size_t buffer_length);

/*
 * As bivdrazo_compile(), under safe options and without a link in a link: then the HTML Standard's
 * tree construction builds the tree of the text's reading. Otherwise the status is
 * BIVDRAZO_UNSAFE or BIVDRAZO_NESTED. Autolinks, except literal ones, and calls of footnotes are
 * links too; a link in an image counts as none.
 */
bivdrazo_answer bivdrazo_compile_unnested(const bivdrazo_event *events, size_t events_length,
                                          const uint8_t *bytes, size_t bytes_length,
                                          const bivdrazo_options *options,
                                          const bivdrazo_reference *names, size_t names_length,
                                          uint8_t *buffer, size_t buffer_length);

/*
 * Whether the events of a document have a link in a link: BIVDRAZO_NESTED if so, BIVDRAZO_OK if
 * not; or BIVDRAZO_NO_EVENT or BIVDRAZO_MEMORY. Nothing is compiled. Links are those that
 * bivdrazo_compile_unnested() counts. `events` isn't null.
 */
bivdrazo_answer bivdrazo_has_nested_link(const bivdrazo_event *events, size_t events_length);

/*
 * Whether a text is safe HTML, whoever wrote it: 1 if it is, else 0. So a text that comes back from
 * a database can be inserted into a page again without escaping it. It is safe exactly if it has a
 * reading as HTML with the elements and attributes of a short list, in which no link stands in a
 * link, links and images have no protocol or a permitted one, and elements nest at most 485 deep:
 * then it has no other reading. Under safe options the text of each call but bivdrazo_run() is, if
 * no link stands in a link. The text needn't be UTF-8. No memory is requested. `text` isn't null.
 */
uint32_t bivdrazo_is_safe_html(const uint8_t *text, size_t text_length);

/*
 * Writes the HTML of an event script (lines of options and events, a line `--`, the document)
 * likewise. Its statuses are BIVDRAZO_OK, BIVDRAZO_TOO_SHORT, BIVDRAZO_REFUSED, BIVDRAZO_NO_LINE
 * and BIVDRAZO_MEMORY.
 */
bivdrazo_answer bivdrazo_run(const uint8_t *script, size_t script_length, uint8_t *buffer,
                             size_t buffer_length);

/* The number of the library's interface, which must be BIVDRAZO_VERSION. */
uint32_t bivdrazo_version(void);

/*
 * Reads the first heading of a list that ends at `end`, and moves `*at` past it; returns 0 at the
 * end of the list. bivdrazo_compile_attributed() writes the list from the text's end up to
 * `length`.
 */
static inline int bivdrazo_next_heading(const uint8_t **at, const uint8_t *end,
                                        bivdrazo_heading *heading) {
    const uint8_t *next = *at;
    if (next == end || next[1] == '#') /* the ids of bivdrazo_markdown_slugs_into() follow */
        return 0;
    heading->level = (uint8_t)(next[1] - '0'); /* a NUL, the level, a space, the number, a
                                                  space, the text */
    heading->number = 0;
    for (next += 3; *next != ' '; next++)
        heading->number = 10 * heading->number + (size_t)(*next - '0');
    next++;
    heading->text = (const char *)next;
    while (next != end && *next != 0)
        next++;
    heading->text_length = (size_t)((const char *)next - heading->text);
    *at = next;
    return 1;
}

/*
 * Reads the first id of the list of ids that ends at `end`, and moves `*at` past it; returns 0 at
 * the end of the list. bivdrazo_markdown_slugs_into() writes that list after the headings. The id
 * is escaped, and has no NUL at its end.
 */
static inline int bivdrazo_next_id(const uint8_t **at, const uint8_t *end, const char **id,
                                   size_t *id_length) {
    const uint8_t *next = *at;
    if (next == end || next[1] != '#')
        return 0;
    next += 2;
    *id = (const char *)next;
    while (next != end && *next != 0)
        next++;
    *id_length = (size_t)((const char *)next - *id);
    *at = next;
    return 1;
}

/* The meaning of a status, in English. */
static inline const char *bivdrazo_status_text(uint32_t status) {
    switch (status) {
    case BIVDRAZO_OK:
        return "there is a text";
    case BIVDRAZO_TOO_SHORT:
        return "the buffer is too short";
    case BIVDRAZO_REFUSED:
        return "an event is refused";
    case BIVDRAZO_NO_EVENT:
        return "an event has no such kind or name";
    case BIVDRAZO_NO_NAME:
        return "a character reference isn't UTF-8";
    case BIVDRAZO_NO_OPTION:
        return "an option has no such value";
    case BIVDRAZO_NO_LINE:
        return "a line of the script can't be read";
    case BIVDRAZO_MEMORY:
        return "out of memory";
    case BIVDRAZO_UNSAFE:
        return "the options aren't safe";
    case BIVDRAZO_NO_ATTRIBUTE:
        return "an attribute has no such value";
    case BIVDRAZO_TOO_LONG:
        return "the text is too long";
    case BIVDRAZO_TOO_MUCH:
        return "there is too much work";
    case BIVDRAZO_NESTED:
        return "a link is in a link";
    case BIVDRAZO_TOO_DEEP:
        return "the events nest too deep";
    default:
        return "an unknown status";
    }
}

#ifdef __cplusplus
}
#endif

#include "bivdrazo_alloc.h"

#endif
