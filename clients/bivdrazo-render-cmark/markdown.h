/* Converts Markdown into events, with cmark-gfm's parser. */
#ifndef BIVDRAZO_RENDER_MARKDOWN_H
#define BIVDRAZO_RENDER_MARKDOWN_H

#include "document.h"

#include <cmark-gfm.h>

/* A parser with tables, strikethrough, autolinks, tasks and footnotes; NULL where the extensions
   aren't there. */
cmark_parser *markdown_parser(void);

/* The document of a tree that such a parser made: its texts, and the events over them. */
struct document markdown_document(cmark_node *root);

#endif
