/* A strict reader of the HTML grammar of docs/review/DEFINITIONS.md, with its safe links and
   images, apart from the library. */
#ifndef BIVDRAZO_FUZZ_HTML_H
#define BIVDRAZO_FUZZ_HTML_H

#include <stddef.h>

/* The fault of a text, and its place; NULL if the text has a reading with safe links and images. */
const char *html_fault(const char *text, size_t length, size_t *where);

#endif
