/* A document for the library: bytes, and events over them. */
#ifndef BIVDRAZO_RENDER_DOCUMENT_H
#define BIVDRAZO_RENDER_DOCUMENT_H

#include "bivdrazo.h"

#include <stdbool.h>

/* Bytes and events that grow at their ends. Once memory ran out, `is_full` stays set and
   nothing is added. */
struct document {
    uint8_t *bytes;
    size_t bytes_length;
    size_t bytes_room;
    bivdrazo_event *events;
    size_t events_length;
    size_t events_room;
    bool is_full;
};

/* An empty document. */
struct document document_new(void);

/* Frees the document. */
void document_free(struct document *document);

/* Adds bytes. */
void document_bytes(struct document *document, const void *bytes, size_t length);

/* Adds a text of so many bytes: each byte that isn't part of a character of UTF-8
   becomes U+FFFD. */
void document_utf8(struct document *document, const void *text, size_t length);

/* Begins a node after the bytes so far. */
void document_enter(struct document *document, uint16_t name);

/* Ends a node after the bytes so far. */
void document_exit(struct document *document, uint16_t name);

/* Adds a node without bytes or children. */
void document_empty(struct document *document, uint16_t name);

/* Adds a node over a text of its own, of so many bytes, as document_utf8() adds it. */
void document_text(struct document *document, uint16_t name, const void *bytes, size_t length);

#endif
