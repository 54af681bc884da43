#include "html.h"

#include <ctype.h>
#include <stdbool.h>
#include <stdlib.h>
#include <string.h>
#include <strings.h>

/* An element: its name, and the attributes that it may have. A void one has no end tag. */
struct element {
    const char *name;
    bool is_void;
    const char *attributes[9];
};

static const struct element ELEMENTS[] = {
    {"blockquote", false, {NULL}},
    {"pre", false, {NULL}},
    {"p", false, {NULL}},
    {"ul", false, {NULL}},
    {"em", false, {NULL}},
    {"strong", false, {NULL}},
    {"del", false, {NULL}},
    {"sup", false, {NULL}},
    {"table", false, {NULL}},
    {"thead", false, {NULL}},
    {"tbody", false, {NULL}},
    {"tr", false, {NULL}},
    {"h1", false, {NULL}},
    {"h3", false, {NULL}},
    {"h4", false, {NULL}},
    {"h5", false, {NULL}},
    {"h6", false, {NULL}},
    {"code", false, {"class", NULL}},
    {"ol", false, {"start", NULL}},
    {"li", false, {"id", NULL}},
    {"h2", false, {"id", "class", NULL}},
    {"th", false, {"align", NULL}},
    {"td", false, {"align", NULL}},
    {"section", false, {"data-footnotes", "class", NULL}},
    {"a",
     false,
     {"href", "title", "id", "class", "data-footnote-ref", "data-footnote-backref",
      "aria-describedby", "aria-label", NULL}},
    {"br", true, {NULL}},
    {"hr", true, {NULL}},
    {"img", true, {"src", "alt", "title", NULL}},
    {"input", true, {"type", "disabled", "checked", NULL}},
};
#define ELEMENTS_LENGTH (sizeof ELEMENTS / sizeof *ELEMENTS)

static const char *const REFERENCES[] = {"&amp;", "&quot;", "&lt;", "&gt;"};
static const char *const LINKS[] = {"http", "https", "irc", "ircs", "mailto", "xmpp", NULL};
static const char *const IMAGES[] = {"http", "https", NULL};

/* The reader: its place in the text, and the open elements. */
struct reader {
    const char *text;
    size_t length;
    size_t at;
    unsigned char *open;
    size_t depth;
};

static bool begins(const struct reader *reader, const char *with) {
    const size_t length = strlen(with);
    return reader->length - reader->at >= length &&
           memcmp(reader->text + reader->at, with, length) == 0;
}

static bool skip(struct reader *reader, const char *with) {
    const bool found = begins(reader, with);
    if (found)
        reader->at += strlen(with);
    return found;
}

/* Skips one character of a text or a value that is escaped; whether it is one. */
static bool skip_escaped(struct reader *reader) {
    for (size_t at = 0; at < sizeof REFERENCES / sizeof *REFERENCES; at++) {
        if (skip(reader, REFERENCES[at]))
            return true;
    }
    return strchr("<>\"&", reader->text[reader->at++]) == NULL; /* NUL too, which ends that list */
}

/* How many bytes the longest name at the place has, of letters, digits and dashes. */
static size_t name_length(const struct reader *reader) {
    size_t length = 0;
    while (reader->at + length < reader->length &&
           (isalnum((unsigned char)reader->text[reader->at + length]) ||
            reader->text[reader->at + length] == '-'))
        length++;
    return length;
}

static bool is_name(const struct reader *reader, size_t length, const char *name) {
    return strlen(name) == length && memcmp(reader->text + reader->at, name, length) == 0;
}

/* Whether what stands before a URL's colon, where no character of `?#/` comes before that,
   is in the list. */
static bool is_permitted(const char *url, size_t length, const char *const *protocols) {
    size_t end = 0;
    while (end < length && strchr(":?#/", url[end]) == NULL)
        end++;
    if (end == length || url[end] != ':')
        return true;
    for (; *protocols != NULL; protocols++) {
        if (strlen(*protocols) == end && strncasecmp(*protocols, url, end) == 0)
            return true;
    }
    return false;
}

/* Reads a value with its quotes. References in a protocol would hide it; it has none, since they
   end with no colon. */
static const char *read_value(struct reader *reader, const char *attribute) {
    const size_t start = reader->at;
    while (reader->at < reader->length && reader->text[reader->at] != '"') {
        if (!skip_escaped(reader))
            return "a value that isn't escaped";
    }
    const char *value = reader->text + start;
    const size_t length = reader->at - start;
    if (!skip(reader, "\""))
        return "a value that isn't ended";
    if (strcmp(attribute, "href") == 0 && !is_permitted(value, length, LINKS))
        return "a link's protocol";
    if (strcmp(attribute, "src") == 0 && !is_permitted(value, length, IMAGES))
        return "an image's protocol";
    return NULL;
}

/* Reads the attributes of a start tag. */
static const char *read_attributes(struct reader *reader, const struct element *element) {
    unsigned seen = 0;
    while (begins(reader, " ") && !begins(reader, " />")) {
        reader->at++;
        const size_t length = name_length(reader);
        size_t at = 0;
        while (element->attributes[at] != NULL && !is_name(reader, length, element->attributes[at]))
            at++;
        if (element->attributes[at] == NULL)
            return "an attribute that isn't permitted";
        if (seen >> at & 1)
            return "a duplicate attribute";
        seen |= 1u << at;
        reader->at += length;
        if (!skip(reader, "=\""))
            return "an attribute without a value";
        const char *fault = read_value(reader, element->attributes[at]);
        if (fault != NULL)
            return fault;
    }
    return NULL;
}

/* Reads a tag. */
static const char *read_tag(struct reader *reader) {
    const bool is_end = skip(reader, "</");
    reader->at += is_end ? 0 : 1;
    const size_t length = name_length(reader);
    size_t number = 0;
    while (number < ELEMENTS_LENGTH && !is_name(reader, length, ELEMENTS[number].name))
        number++;
    if (number == ELEMENTS_LENGTH)
        return "an element that isn't permitted";
    reader->at += length;
    if (is_end) {
        if (reader->depth == 0 || reader->open[--reader->depth] != number)
            return "an end tag of another element";
        return skip(reader, ">") ? NULL : "an end tag that isn't ended";
    }
    const char *fault = read_attributes(reader, &ELEMENTS[number]);
    if (fault != NULL)
        return fault;
    if (!skip(reader, ELEMENTS[number].is_void ? " />" : ">"))
        return "a start tag that isn't ended";
    if (!ELEMENTS[number].is_void)
        reader->open[reader->depth++] = (unsigned char)number;
    return NULL;
}

const char *html_fault(const char *text, size_t length, size_t *where) {
    struct reader reader = {text, length, 0, malloc(length + 1), 0};
    const char *fault = reader.open == NULL ? "no memory" : NULL;
    while (fault == NULL && reader.at < length) {
        if (text[reader.at] == '<')
            fault = read_tag(&reader);
        else if (!skip_escaped(&reader))
            fault = "a text that isn't escaped";
    }
    if (fault == NULL && reader.depth > 0)
        fault = "an element that isn't ended";
    *where = reader.at;
    free(reader.open);
    return fault;
}
