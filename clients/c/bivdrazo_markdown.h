/*
 * Bivdrazo for C: renders Markdown as safe HTML, and cleans HTML.
 *
 *     char *html;
 *     bivdrazo_answer answer = bivdrazo_markdown((const uint8_t *)"**a** <b>", 9, NULL, &html);
 *     if (answer.status == BIVDRAZO_OK)
 *         fputs(html, stdout);          (prints <p><strong>a</strong> &lt;b&gt;</p>)
 *     bivdrazo_markdown_free(html);
 *
 * Link with libbivdrazo, which needs only the C library. Markdown is CommonMark with tables,
 * strikethrough, tasks, footnotes and bare links, and optionally math and front matter. It is
 * proved that the parser ends for every document and refuses none, and that the text is safe: it
 * has one reading as HTML, in which links and images have no protocol or a permitted one, and the
 * HTML Standard's tree construction builds the tree of that reading, wherever flow content is
 * allowed. That the parser reads Markdown as CommonMark and GFM say is only tested.
 *
 * Nothing checks these requirements:
 *  - `text` points to `length` bytes. It may be null if `length` is 0, except for
 *    bivdrazo_markdown_into(), bivdrazo_clean_into() and bivdrazo_front_matter(), for which no
 *    pointer is null.
 *  - Begin with bivdrazo_markdown_options_default() or bivdrazo_clean_options_default(), or pass
 *    NULL. A set text points to as many bytes as its length says; the pointer of an unset text
 *    isn't null either.
 *  - `html` and `headings` aren't null, and the texts that are stored there are freed once, by
 *    bivdrazo_markdown_free().
 *  - No length exceeds PTRDIFF_MAX, and nobody writes to the arguments during the call.
 *
 * There is no state between calls: any number of threads may call at once.
 */
#ifndef BIVDRAZO_MARKDOWN_H
#define BIVDRAZO_MARKDOWN_H

#include <stdlib.h>

#include "bivdrazo.h"
#include "bivdrazo_markdown_numbers.h"

#ifdef __cplusplus
extern "C" {
#endif

/* The default of max_work, which depends on the length of the Markdown: 2^20, and 64 for each
   byte. */
#define BIVDRAZO_MARKDOWN_WORK_BY_LENGTH (SIZE_MAX - 1)

/*
 * The options. The text is safe under all of them. Each text may be any UTF-8.
 *
 * The ids of headings are distinct from one another, and from all others if no other begins with
 * heading_ids. The others are those of footnotes: `footnote-label`, and those that begin with
 * footnote_prefix and `fn`; they are distinct from one another if number_ids is 1.
 *
 * The work has a limit by default; the lengths of the Markdown and of the text have none. Set all
 * three limits when you render untrusted documents.
 */
typedef struct bivdrazo_markdown_options {
    uint32_t version;                  /* BIVDRAZO_MARKDOWN_VERSION */
    uint8_t number_ids;                /* 1: footnotes' ids have their numbers, so that no two
                                          ids are equal */
    uint8_t hard_breaks;               /* 1: a soft break is a <br /> */
    uint8_t bare_links;                /* 1, the default: bare URLs and addresses are links */
    uint8_t html;                      /* how to treat HTML in the document:
                                          BIVDRAZO_MARKDOWN_HTML_TEXT, .. */
    uint8_t math;                      /* 1: `$a$`, and blocks between lines of `$$`, are math */
    uint8_t front_matter;              /* 1: text between lines of `---` at the beginning is left
                                          out; bivdrazo_front_matter() finds it */
    uint8_t footnotes;                 /* 1, the default: footnotes are read */
    uint8_t tables;                    /* 1, the default: tables are read */
    uint8_t unused[4];                 /* 0 */
    bivdrazo_text footnote_prefix;     /* the prefix of footnotes' ids; unset: user-content- */
    bivdrazo_text footnote_label;      /* the heading of the footnotes; unset: Footnotes */
    bivdrazo_text footnote_back_label; /* aria-label of the link back; unset: Back to content */
    bivdrazo_text base;                /* the base URL of relative URLs in links and images;
                                          unset: none */
    bivdrazo_text rel;                 /* the `rel` of each link whose URL isn't empty and
                                          doesn't begin with # */
    bivdrazo_text heading_ids;         /* the prefix of the ids of headings; their numbers follow;
                                          unset: no ids */
    size_t max_input;                  /* the limit on the Markdown's length in bytes; SIZE_MAX:
                                          none */
    size_t max_output;                 /* the limit on the text's length in bytes; SIZE_MAX: none */
    size_t max_work;                   /* the limit on the work, as bivdrazo_limits counts it;
                                          SIZE_MAX: none; the default is
                                          BIVDRAZO_MARKDOWN_WORK_BY_LENGTH */
    size_t max_depth;                  /* the limit on the number of open nodes: a document that
                                          nests deeper is shown as it is written, as one
                                          paragraph; 0, the default: none */
} bivdrazo_markdown_options;

BIVDRAZO_ASSERT(sizeof(bivdrazo_markdown_options) == 192, "the options' size");
BIVDRAZO_ASSERT(offsetof(bivdrazo_markdown_options, html) == 7, "how to treat HTML");
BIVDRAZO_ASSERT(offsetof(bivdrazo_markdown_options, tables) == 11, "the last flag");
BIVDRAZO_ASSERT(offsetof(bivdrazo_markdown_options, footnote_prefix) == 16, "the first text");
BIVDRAZO_ASSERT(offsetof(bivdrazo_markdown_options, heading_ids) == 136, "the last text");
BIVDRAZO_ASSERT(offsetof(bivdrazo_markdown_options, max_work) == 176, "the limit on work");
BIVDRAZO_ASSERT(offsetof(bivdrazo_markdown_options, max_depth) == 184, "the last limit");

/*
 * Writes the HTML of a Markdown document into the buffer. With BIVDRAZO_OK it is the buffer's first
 * `index` bytes, none of which is NUL. The bytes from there up to `length` are the list of the
 * headings that got an id, which bivdrazo_next_heading() reads. With BIVDRAZO_TOO_SHORT `length` is
 * the size that both need, and `index` the length of the HTML. Any status but BIVDRAZO_OK leaves
 * the buffer unchanged; BIVDRAZO_OK leaves the rest of the buffer, after the list, unchanged.
 *
 * The other statuses, of which the first applicable one in this order is returned:
 * BIVDRAZO_MARKDOWN_NO_VERSION, BIVDRAZO_NO_OPTION (`index` is BIVDRAZO_MARKDOWN_OPTION_..),
 * BIVDRAZO_MARKDOWN_INPUT_TOO_LONG, .._NOT_UTF8, .._TOO_MUCH_WORK, .._OUTPUT_TOO_LONG; and
 * BIVDRAZO_MEMORY.
 */
bivdrazo_answer bivdrazo_markdown_into(const uint8_t *text, size_t text_length,
                                       const bivdrazo_markdown_options *options, uint8_t *buffer,
                                       size_t buffer_length);

/*
 * As bivdrazo_markdown_into(), and each heading has an id made from its text, nearly as GitHub
 * makes it: in lower case, with a hyphen for each space, and only of letters, marks, numbers,
 * connectors and hyphens. If heading_ids is set, each id begins with that text. An id that exists
 * already gets a hyphen and a number, from 1: so no two ids are equal if no two of the text's other
 * ids are, as with number_ids. The list of the headings' ids follows the list of headings;
 * bivdrazo_next_id() reads it.
 */
bivdrazo_answer bivdrazo_markdown_slugs_into(const uint8_t *text, size_t text_length,
                                             const bivdrazo_markdown_options *options,
                                             uint8_t *buffer, size_t buffer_length);

/*
 * The options of bivdrazo_clean(). The text is safe under all of them; neither length has a limit
 * by default.
 *
 * `tags` are the names of the elements that stay, in lower case and with a space between two;
 * unset: all that bivdrazo_clean() may keep. `table` brings the elements that a table needs, `ul`
 * and `ol` bring `li`, and `pre` brings `code`. An empty text keeps no element. `protocols` are
 * those that URLs may have, written likewise: some of http, https, irc, ircs, mailto and xmpp;
 * unset: all of them. Images have http and https at most. A URL without a protocol stays.
 */
typedef struct bivdrazo_clean_options {
    uint32_t version;        /* BIVDRAZO_MARKDOWN_VERSION */
    uint8_t unused[4];       /* 0 */
    bivdrazo_text tags;      /* the elements that stay; unset: all */
    bivdrazo_text protocols; /* the protocols that URLs may have; unset: all */
    size_t max_input;        /* the limit on the input's length in bytes; SIZE_MAX: none */
    size_t max_output;       /* the limit on the text's length in bytes; SIZE_MAX: none */
} bivdrazo_clean_options;

BIVDRAZO_ASSERT(sizeof(bivdrazo_clean_options) == 72, "the options' size");
BIVDRAZO_ASSERT(offsetof(bivdrazo_clean_options, tags) == 8, "the first text");
BIVDRAZO_ASSERT(offsetof(bivdrazo_clean_options, max_output) == 64, "the last limit");

/*
 * Cleans HTML that anyone wrote: writes into the buffer safe HTML, of which
 * bivdrazo_is_safe_html() says 1, with the elements and attributes of the input that are listed.
 * Text in other elements stays, except for that of script, style and others. With BIVDRAZO_OK the
 * text is the buffer's first `length` bytes; with BIVDRAZO_TOO_SHORT that is the size that it
 * needs. Any status but BIVDRAZO_OK leaves the buffer unchanged.
 *
 * The other statuses: BIVDRAZO_MARKDOWN_NO_VERSION, BIVDRAZO_NO_OPTION (`index` is 0 for a name in
 * `tags` that isn't known, 1 for one in `protocols`), BIVDRAZO_MARKDOWN_INPUT_TOO_LONG,
 * .._NOT_UTF8, .._OUTPUT_TOO_LONG; and BIVDRAZO_MEMORY.
 */
bivdrazo_answer bivdrazo_clean_into(const uint8_t *text, size_t text_length,
                                    const bivdrazo_clean_options *options, uint8_t *buffer,
                                    size_t buffer_length);

/*
 * Finds the front matter of a Markdown document: the text between lines of `---` at its beginning,
 * without these lines. With BIVDRAZO_OK it is `length` bytes from the byte `index` of the text on;
 * without front matter both are 0. The other status is BIVDRAZO_MARKDOWN_NOT_UTF8.
 */
bivdrazo_answer bivdrazo_front_matter(const uint8_t *text, size_t text_length);

/* The number of the library's interface for Markdown, which must be
   BIVDRAZO_MARKDOWN_VERSION. */
uint32_t bivdrazo_markdown_version(void);

/* The default options. */
static inline bivdrazo_markdown_options bivdrazo_markdown_options_default(void) {
    bivdrazo_markdown_options options = {BIVDRAZO_MARKDOWN_VERSION,
                                         0,
                                         0,
                                         1,
                                         BIVDRAZO_MARKDOWN_HTML_TEXT,
                                         0,
                                         0,
                                         1,
                                         1,
                                         {0, 0, 0, 0},
                                         {0, 0, 0},
                                         {0, 0, 0},
                                         {0, 0, 0},
                                         {0, 0, 0},
                                         {0, 0, 0},
                                         {0, 0, 0},
                                         SIZE_MAX,
                                         SIZE_MAX,
                                         BIVDRAZO_MARKDOWN_WORK_BY_LENGTH,
                                         0};
    options.footnote_prefix = bivdrazo_text_unset();
    options.footnote_label = bivdrazo_text_unset();
    options.footnote_back_label = bivdrazo_text_unset();
    options.base = bivdrazo_text_unset();
    options.rel = bivdrazo_text_unset();
    options.heading_ids = bivdrazo_text_unset();
    return options;
}

/* A first size for the buffer. If a text doesn't fit, the Markdown is rendered twice: of 20,242
   documents and paragraphs none was, and with a `rel` one. */
static inline size_t bivdrazo_markdown_first_size(size_t length) {
    return length > (size_t)PTRDIFF_MAX / 4 ? (size_t)PTRDIFF_MAX : 2 * length + 1024;
}

/* As bivdrazo_markdown_slugs_into() if `slugs` is 1, and otherwise as bivdrazo_markdown_into(),
   with an allocated buffer: with BIVDRAZO_OK `*made` is the result, and a NUL; otherwise it is
   null. */
static inline bivdrazo_answer bivdrazo_markdown_alloc_by(int slugs, const uint8_t *text,
                                                         size_t length,
                                                         const bivdrazo_markdown_options *options,
                                                         uint8_t **made) {
    const bivdrazo_markdown_options defaults = bivdrazo_markdown_options_default();
    bivdrazo_answer answer = {BIVDRAZO_TOO_SHORT, 0, 0, bivdrazo_markdown_first_size(length)};
    *made = NULL;
    for (int tries = 0; tries < 2 && answer.status == BIVDRAZO_TOO_SHORT; tries++) {
        const size_t room = answer.length;
        bivdrazo_grow(&answer, made);
        if (answer.status == BIVDRAZO_TOO_SHORT)
            answer = (slugs ? bivdrazo_markdown_slugs_into
                            : bivdrazo_markdown_into)(length ? text : (const uint8_t *)"", length,
                                                      options ? options : &defaults, *made, room);
    }
    bivdrazo_settle(&answer, made);
    return answer;
}

/* The same as bivdrazo_markdown_into(). */
static inline bivdrazo_answer bivdrazo_markdown_alloc(const uint8_t *text, size_t length,
                                                      const bivdrazo_markdown_options *options,
                                                      uint8_t **made) {
    return bivdrazo_markdown_alloc_by(0, text, length, options, made);
}

/*
 * Renders a Markdown document. With BIVDRAZO_OK `*html` is the HTML, `length` bytes of which none
 * is NUL, and a NUL that isn't counted; otherwise `*html` is null. Null options are the default
 * ones. The statuses are those of bivdrazo_markdown_into() without BIVDRAZO_TOO_SHORT.
 */
static inline bivdrazo_answer bivdrazo_markdown(const uint8_t *text, size_t length,
                                                const bivdrazo_markdown_options *options,
                                                char **html) {
    uint8_t *made;
    bivdrazo_answer answer = bivdrazo_markdown_alloc(text, length, options, &made);
    *html = (char *)made;
    if (answer.status == BIVDRAZO_OK) {
        answer.length = answer.index;
        answer.index = 0;
    }
    return answer;
}

/* A list of headings as lines; null if it runs out of memory. */
static inline char *bivdrazo_markdown_lines(const uint8_t *list, size_t length) {
    char *lines = (char *)malloc(length + 1);
    if (lines == NULL)
        return NULL;
    for (size_t at = 1; at < length; at++)
        lines[at - 1] = list[at] == 0 ? '\n' : list[at] == '\n' ? ' ' : (char)list[at];
    if (length > 0)
        lines[length - 1] = '\n';
    lines[length] = 0;
    return lines;
}

/* A text with its headings, with ids from their texts if `slugs` is 1. */
static inline bivdrazo_answer bivdrazo_markdown_texts(int slugs, const uint8_t *text, size_t length,
                                                      const bivdrazo_markdown_options *options,
                                                      char **html, char **headings) {
    uint8_t *made;
    bivdrazo_answer answer = bivdrazo_markdown_alloc_by(slugs, text, length, options, &made);
    *html = NULL;
    *headings = NULL;
    if (answer.status != BIVDRAZO_OK)
        return answer;
    *headings = bivdrazo_markdown_lines(made + answer.index, answer.length - answer.index);
    if (*headings == NULL) {
        free(made);
        return bivdrazo_answer_memory();
    }
    *html = (char *)made;
    answer.length = answer.index;
    answer.index = 0;
    return answer;
}

/*
 * As bivdrazo_markdown(), with the headings that got an id, for a table of contents. `*headings`
 * has a line for each: its level, a space, its number, a space, and its text, without tags and
 * escaped, with a space for each line feed; each line ends with a line feed. Free it like `*html`;
 * it is null if that is null.
 */
static inline bivdrazo_answer bivdrazo_markdown_headings(const uint8_t *text, size_t length,
                                                         const bivdrazo_markdown_options *options,
                                                         char **html, char **headings) {
    return bivdrazo_markdown_texts(0, text, length, options, html, headings);
}

/*
 * The same with ids made from the headings' texts, as by bivdrazo_markdown_slugs_into(). After the
 * lines of the headings `*headings` has a line for each of their ids, in the same order: `#` and
 * the id, escaped.
 */
static inline bivdrazo_answer bivdrazo_markdown_slugs(const uint8_t *text, size_t length,
                                                      const bivdrazo_markdown_options *options,
                                                      char **html, char **headings) {
    return bivdrazo_markdown_texts(1, text, length, options, html, headings);
}

/* The default options. */
static inline bivdrazo_clean_options bivdrazo_clean_options_default(void) {
    bivdrazo_clean_options options = {
        BIVDRAZO_MARKDOWN_VERSION, {0, 0, 0, 0}, {0, 0, 0}, {0, 0, 0}, SIZE_MAX, SIZE_MAX};
    options.tags = bivdrazo_text_unset();
    options.protocols = bivdrazo_text_unset();
    return options;
}

/*
 * Cleans HTML as bivdrazo_clean_into() does. With BIVDRAZO_OK `*html` is the text, `length` bytes
 * of which none is NUL, and a NUL that isn't counted; otherwise `*html` is null. Null options are
 * the default ones. The statuses are those of bivdrazo_clean_into() without BIVDRAZO_TOO_SHORT.
 */
static inline bivdrazo_answer bivdrazo_clean(const uint8_t *text, size_t length,
                                             const bivdrazo_clean_options *options, char **html) {
    const bivdrazo_clean_options defaults = bivdrazo_clean_options_default();
    bivdrazo_answer answer = {BIVDRAZO_TOO_SHORT, 0, 0, bivdrazo_markdown_first_size(length)};
    uint8_t *made = NULL;
    for (int tries = 0; tries < 2 && answer.status == BIVDRAZO_TOO_SHORT; tries++) {
        const size_t room = answer.length;
        bivdrazo_grow(&answer, &made);
        if (answer.status == BIVDRAZO_TOO_SHORT)
            answer = bivdrazo_clean_into(length ? text : (const uint8_t *)"", length,
                                         options ? options : &defaults, made, room);
    }
    bivdrazo_settle(&answer, &made);
    *html = (char *)made;
    return answer;
}

/* Frees a text of bivdrazo_markdown(), bivdrazo_markdown_headings(), bivdrazo_markdown_slugs() or
   bivdrazo_clean(); null is allowed. */
static inline void bivdrazo_markdown_free(char *html) {
    free(html);
}

/* The meaning of a status, in English. */
static inline const char *bivdrazo_markdown_status_text(uint32_t status) {
    switch (status) {
    case BIVDRAZO_MARKDOWN_INPUT_TOO_LONG:
        return "the input is too long";
    case BIVDRAZO_MARKDOWN_OUTPUT_TOO_LONG:
        return "the text is too long";
    case BIVDRAZO_MARKDOWN_NOT_UTF8:
        return "the input isn't UTF-8";
    case BIVDRAZO_MARKDOWN_NO_VERSION:
        return "the options are of an unknown version";
    case BIVDRAZO_MARKDOWN_TOO_MUCH_WORK:
        return "there is too much work";
    default:
        return bivdrazo_status_text(status);
    }
}

#ifdef __cplusplus
}
#endif

#endif
