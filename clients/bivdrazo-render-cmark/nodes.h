/* Converts the nodes of cmark-gfm's tree into events. */
#ifndef BIVDRAZO_RENDER_NODES_H
#define BIVDRAZO_RENDER_NODES_H

#include "document.h"

#include <cmark-gfm.h>

/*
 * The state of the walk over a tree: the document so far, and the surroundings of the node.
 *
 * The parser's texts are UTF-8, except some that it cuts in the middle of a character (in brackets
 * that begin with a caret); so each text is checked when it is added.
 */
struct walk {
    struct document document;
    size_t images; /* the number of images around the node */
    size_t tables; /* the number of tables around the node */
};

/* Adds a step of the walk over a tree. */
void add_step(struct walk *walk, cmark_event_type step, cmark_node *node);

/* Whether the parser has this name for a node, as for the nodes of extensions. */
bool is_called(cmark_node *node, const char *name);

/* A text of the tree; the empty one for a null pointer. */
const char *text_or_empty(const char *text);

/* Adds a node over a text. */
void add_text(struct walk *walk, uint16_t name, const char *text);

/* Adds a node with one text in it, each with its name. */
void add_text_in(struct walk *walk, uint16_t outer, uint16_t inner, const char *text,
                 size_t length);

/* Blocks and footnotes. */
void enter_paragraph(struct walk *walk, cmark_node *node);
void exit_paragraph(struct walk *walk, cmark_node *node);
uint16_t list_name(cmark_node *list);
void enter_item(struct walk *walk, cmark_node *node);
void exit_item(struct walk *walk, cmark_node *node);
void enter_heading(struct walk *walk, cmark_node *node);
void exit_heading(struct walk *walk);
void add_code_block(struct walk *walk, cmark_node *node);
void add_html_block(struct walk *walk, cmark_node *node);
void enter_footnote(struct walk *walk, cmark_node *node);
void add_footnote_call(struct walk *walk, cmark_node *node);

/* Nodes of extensions: tables, and struck text. */
void enter_extension(struct walk *walk, cmark_node *node);
void exit_extension(struct walk *walk, cmark_node *node);

#endif
