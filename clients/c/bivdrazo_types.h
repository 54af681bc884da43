/* The types of the interface: bivdrazo.h includes this. */
#ifndef BIVDRAZO_TYPES_H
#define BIVDRAZO_TYPES_H

#include <stddef.h>
#include <stdint.h>

#include "bivdrazo_numbers.h"

#ifdef __cplusplus
#define BIVDRAZO_ASSERT(condition, text) static_assert(condition, text)
#else
#define BIVDRAZO_ASSERT(condition, text) _Static_assert(condition, text)
#endif

/* The result of a call. A field that the status doesn't use is 0. */
typedef struct bivdrazo_answer {
    uint32_t status; /* BIVDRAZO_OK, .. */
    uint32_t rule;   /* BIVDRAZO_RULE_.., if the status is BIVDRAZO_REFUSED */
    size_t index;    /* of an event or of a name, the number of an option, or a script's line, as
                        the status says */
    size_t length;   /* of the text in bytes, if the status is BIVDRAZO_OK or
                        BIVDRAZO_TOO_SHORT */
} bivdrazo_answer;

/* An event: at the byte `index` of the document the node `name` begins or ends. */
typedef struct bivdrazo_event {
    size_t index;    /* the number of the document's bytes before it */
    uint16_t name;   /* BIVDRAZO_NAME_.. */
    uint16_t other;  /* read only if the name is BIVDRAZO_NAME_OTHER */
    uint8_t kind;    /* BIVDRAZO_ENTER or BIVDRAZO_EXIT */
    uint8_t columns; /* how many columns of a tab at `index`, 0 to 4, are already used; 0 without a
                        tab */
} bivdrazo_event;    /* two bytes that are never read follow */

/* A text that may be unset. `bytes` isn't null, even if the text is unset or empty; a set text is
   UTF-8. */
typedef struct bivdrazo_text {
    const uint8_t *bytes;
    size_t length;
    uint8_t is_set; /* 0: the bytes aren't read; 1: they are */
} bivdrazo_text;    /* seven bytes that are never read follow */

/* A named character reference: `name` is written between `&` and `;`, `text` is its meaning. Both
   are UTF-8. */
typedef struct bivdrazo_reference {
    const uint8_t *name;
    size_t name_length;
    const uint8_t *text;
    size_t text_length;
} bivdrazo_reference;

/*
 * The options. Begin with bivdrazo_options_default(): a struct of zeros has null pointers.
 *
 * The text is safe if allow_any_img_src, allow_dangerous_html and allow_dangerous_protocol are 0,
 * and gfm_footnote_label_attributes and gfm_footnote_label_tag_name are unset, as in the default;
 * the other options may have any value.
 */
typedef struct bivdrazo_options {
    uint8_t allow_any_img_src;            /* 1: images may have any source */
    uint8_t allow_dangerous_html;         /* 1: HTML of the document is left as it is */
    uint8_t allow_dangerous_protocol;     /* 1: links and images may have any protocol */
    uint8_t gfm_task_list_item_checkable; /* 1: tasks are printed without `disabled` */
    uint8_t gfm_tagfilter;                /* 1: some tags of HTML that is left as it
                                             is are disarmed */
    uint8_t default_line_ending; /* the line ending if the document has none:
                                    BIVDRAZO_LINE_FEED, .. */
    uint8_t gfm_footnote_number_ids; /* 1: footnotes' ids have their numbers in place of their
                                        identifiers, and each call's ends in which one it is */
    bivdrazo_text gfm_footnote_back_label;       /* aria-label of the link back; unset:
                                                    Back to content */
    bivdrazo_text gfm_footnote_clobber_prefix;   /* the prefix of footnotes' ids; unset:
                                                    user-content- */
    bivdrazo_text gfm_footnote_label;            /* the heading of the footnotes;
                                                    unset: Footnotes */
    bivdrazo_text gfm_footnote_label_attributes; /* that heading's attributes, not escaped; unset:
                                                    class="sr-only" */
    bivdrazo_text gfm_footnote_label_tag_name;   /* that heading's tag name; unset: h2 */
} bivdrazo_options;

/*
 * Attributes that are added to the tags of a text, unless they are unset. Begin with
 * bivdrazo_attributes_none(). Each text may be any UTF-8: it is escaped.
 *
 * The ids of headings are distinct from one another, and from all others if no other begins with
 * this text. The others are those of footnotes: `footnote-label`, and those that begin with
 * gfm_footnote_clobber_prefix and `fn`; they are distinct from one another if
 * gfm_footnote_number_ids is 1.
 */
typedef struct bivdrazo_attributes {
    bivdrazo_text rel;         /* the `rel` of each link whose URL isn't empty and
                                  doesn't begin with # */
    bivdrazo_text heading_ids; /* the prefix of the `id` of each heading without one; its
                                  number, from 1, follows */
} bivdrazo_attributes;

/*
 * Limits on the length of a text, on the work for it, and on the nesting of its events; SIZE_MAX is
 * no limit, and for `depth` 0 is none either. The cost of a call depends on the first two, the
 * number of events, and the lengths of the document, of options' texts and of names; that isn't
 * proved.
 *
 * `work` limits two sums, each by itself. The first is how much there is to read and to print,
 * which is counted from the events alone, before the document is read: the lengths of texts and
 * labels, by the places of the events (with a parser's events at most the document's length, and
 * that of its labels once more), and for each row of a table's body five for each of its columns.
 * The second is how much is used again, which is counted before anything is printed: for each link
 * and image that refers to a definition, the length of what is read in the definition, and one for
 * each of its events; for each footnote call, five times its length, four times that of the prefix
 * of ids, and that of the label of the link back.
 *
 * `depth` limits the number of open nodes; it is checked first.
 */
typedef struct bivdrazo_limits {
    size_t text;  /* the limit on the text's length in bytes */
    size_t work;  /* the limit on what is read and printed, and on what is used again */
    size_t depth; /* the limit on the number of open nodes; 0: none */
} bivdrazo_limits;

/* A heading that got an id. Its text has no tags and is escaped: it can be inserted into HTML as it
   is. */
typedef struct bivdrazo_heading {
    size_t number;      /* from 1: its id is the prefix and this number */
    const char *text;   /* in the list that was read */
    size_t text_length;
    uint8_t level; /* from 1 to 6 */
} bivdrazo_heading;

BIVDRAZO_ASSERT(sizeof(size_t) == 8, "the library is for 64 bits");
BIVDRAZO_ASSERT(sizeof(bivdrazo_answer) == 24, "an answer's size");
BIVDRAZO_ASSERT(sizeof(bivdrazo_event) == 16, "an event's size");
BIVDRAZO_ASSERT(sizeof(bivdrazo_text) == 24, "a text's size");
BIVDRAZO_ASSERT(sizeof(bivdrazo_reference) == 32, "a reference's size");
BIVDRAZO_ASSERT(sizeof(bivdrazo_options) == 128, "the options' size");
BIVDRAZO_ASSERT(sizeof(bivdrazo_attributes) == 48, "the attributes' size");
BIVDRAZO_ASSERT(sizeof(bivdrazo_limits) == 24, "the limits' size");
BIVDRAZO_ASSERT(offsetof(bivdrazo_answer, rule) == 4, "an answer's rule");
BIVDRAZO_ASSERT(offsetof(bivdrazo_answer, index) == 8, "an answer's index");
BIVDRAZO_ASSERT(offsetof(bivdrazo_answer, length) == 16, "an answer's length");
BIVDRAZO_ASSERT(offsetof(bivdrazo_event, name) == 8, "an event's name");
BIVDRAZO_ASSERT(offsetof(bivdrazo_event, other) == 10, "an event's own number");
BIVDRAZO_ASSERT(offsetof(bivdrazo_event, kind) == 12, "an event's kind");
BIVDRAZO_ASSERT(offsetof(bivdrazo_event, columns) == 13, "an event's columns");
BIVDRAZO_ASSERT(offsetof(bivdrazo_text, is_set) == 16, "whether a text is set");
BIVDRAZO_ASSERT(offsetof(bivdrazo_options, default_line_ending) == 5, "the sixth option");
BIVDRAZO_ASSERT(offsetof(bivdrazo_options, gfm_footnote_number_ids) == 6,
                "the last option by its number");
BIVDRAZO_ASSERT(offsetof(bivdrazo_options, gfm_footnote_back_label) == 8, "the first text");
BIVDRAZO_ASSERT(offsetof(bivdrazo_options, gfm_footnote_label_tag_name) == 104, "the last text");
BIVDRAZO_ASSERT(offsetof(bivdrazo_attributes, heading_ids) == 24, "the last attribute");
BIVDRAZO_ASSERT(offsetof(bivdrazo_limits, depth) == 16, "the last limit");

/* A set text: `bytes` isn't null. */
static inline bivdrazo_text bivdrazo_text_of(const uint8_t *bytes, size_t length) {
    bivdrazo_text text = {bytes, length, 1};
    return text;
}

/* An unset text. */
static inline bivdrazo_text bivdrazo_text_unset(void) {
    bivdrazo_text text = {(const uint8_t *)"", 0, 0};
    return text;
}

/* The default options, which are safe. */
static inline bivdrazo_options bivdrazo_options_default(void) {
    bivdrazo_options options = {0, 0,         0,         0,         0,         BIVDRAZO_LINE_FEED,
                                0, {0, 0, 0}, {0, 0, 0}, {0, 0, 0}, {0, 0, 0}, {0, 0, 0}};
    options.gfm_footnote_back_label = bivdrazo_text_unset();
    options.gfm_footnote_clobber_prefix = bivdrazo_text_unset();
    options.gfm_footnote_label = bivdrazo_text_unset();
    options.gfm_footnote_label_attributes = bivdrazo_text_unset();
    options.gfm_footnote_label_tag_name = bivdrazo_text_unset();
    return options;
}

/* No attributes. */
static inline bivdrazo_attributes bivdrazo_attributes_none(void) {
    bivdrazo_attributes attributes = {{0, 0, 0}, {0, 0, 0}};
    attributes.rel = bivdrazo_text_unset();
    attributes.heading_ids = bivdrazo_text_unset();
    return attributes;
}

/* No limits. */
static inline bivdrazo_limits bivdrazo_limits_none(void) {
    bivdrazo_limits limits = {SIZE_MAX, SIZE_MAX, 0};
    return limits;
}

#endif
