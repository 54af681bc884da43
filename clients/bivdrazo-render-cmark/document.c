#include "document.h"

#include <string.h>

struct document document_new(void) {
    struct document document = {NULL, 0, 0, NULL, 0, 0, false};
    return document;
}

void document_free(struct document *document) {
    free(document->bytes);
    free(document->events);
    *document = document_new();
}

/* Makes room for `more` elements after `length`, at least doubling; whether there is room. */
static bool make_room(void **elements, size_t *room, size_t length, size_t more, size_t size) {
    const size_t most = (size_t)PTRDIFF_MAX / size;
    if (more <= *room - length)
        return true;
    if (more > most - length)
        return false;
    size_t wanted = *room > most / 2 ? most : 2 * *room;
    if (wanted < length + more)
        wanted = length + more;
    void *grown = realloc(*elements, wanted * size);
    if (grown == NULL)
        return false;
    *elements = grown;
    *room = wanted;
    return true;
}

void document_bytes(struct document *document, const void *bytes, size_t length) {
    void *room = document->bytes;
    if (document->is_full || length == 0)
        return;
    document->is_full = !make_room(&room, &document->bytes_room, document->bytes_length, length, 1);
    document->bytes = room;
    if (document->is_full)
        return;
    memcpy(document->bytes + document->bytes_length, bytes, length);
    document->bytes_length += length;
}

/* How many of the bytes are one character of UTF-8 at their beginning, or 0; there is a
   byte at least. */
static size_t character_length(const uint8_t *bytes, size_t length) {
    static const uint8_t leads[] = {0xC2, 0xE0, 0xE1, 0xED, 0xEE, 0xF0, 0xF1, 0xF4, 0xF5};
    static const uint8_t lengths[] = {2, 3, 3, 3, 3, 4, 4, 4};
    static const uint8_t least[] = {0x80, 0xA0, 0x80, 0x80, 0x80, 0x90, 0x80, 0x80};
    static const uint8_t most[] = {0xBF, 0xBF, 0xBF, 0x9F, 0xBF, 0xBF, 0xBF, 0x8F};
    size_t row = 0;
    if (bytes[0] < 0x80)
        return 1;
    if (bytes[0] < leads[0] || bytes[0] >= leads[8])
        return 0;
    while (bytes[0] >= leads[row + 1])
        row++;
    if (length < lengths[row] || bytes[1] < least[row] || bytes[1] > most[row])
        return 0;
    const bool third = lengths[row] < 3 || (bytes[2] & 0xC0) == 0x80;
    const bool fourth = lengths[row] < 4 || (bytes[3] & 0xC0) == 0x80;
    return third && fourth ? lengths[row] : 0;
}

/* How many bytes at the beginning are UTF-8. */
static size_t text_length(const uint8_t *bytes, size_t length) {
    size_t at = 0;
    while (at < length) {
        const size_t character = character_length(bytes + at, length - at);
        if (character == 0)
            return at;
        at += character;
    }
    return at;
}

void document_utf8(struct document *document, const void *text, size_t length) {
    const uint8_t *bytes = text;
    while (length > 0) {
        const size_t part = text_length(bytes, length);
        document_bytes(document, bytes, part);
        if (part == length)
            return;
        document_bytes(document, "\xEF\xBF\xBD", 3);
        bytes += part + 1;
        length -= part + 1;
    }
}

/* Adds an event after the bytes so far. */
static void add_event(struct document *document, uint8_t kind, uint16_t name) {
    void *room = document->events;
    const bivdrazo_event event = {document->bytes_length, name, 0, kind, 0};
    if (document->is_full)
        return;
    document->is_full =
        !make_room(&room, &document->events_room, document->events_length, 1, sizeof event);
    document->events = room;
    if (!document->is_full)
        document->events[document->events_length++] = event;
}

void document_enter(struct document *document, uint16_t name) {
    add_event(document, BIVDRAZO_ENTER, name);
}

void document_exit(struct document *document, uint16_t name) {
    add_event(document, BIVDRAZO_EXIT, name);
}

void document_empty(struct document *document, uint16_t name) {
    document_enter(document, name);
    document_exit(document, name);
}

void document_text(struct document *document, uint16_t name, const void *bytes, size_t length) {
    document_enter(document, name);
    document_utf8(document, bytes, length);
    document_exit(document, name);
}
