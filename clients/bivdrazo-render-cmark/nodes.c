#include "nodes.h"

#include <string.h>

bool is_called(cmark_node *node, const char *name) {
    return strcmp(cmark_node_get_type_string(node), name) == 0;
}

const char *text_or_empty(const char *text) {
    return text == NULL ? "" : text;
}

void add_text(struct walk *walk, uint16_t name, const char *text) {
    document_text(&walk->document, name, text, strlen(text));
}

void add_text_in(struct walk *walk, uint16_t outer, uint16_t inner, const char *text,
                 size_t length) {
    document_enter(&walk->document, outer);
    document_text(&walk->document, inner, text, length);
    document_exit(&walk->document, outer);
}

/* Code as it is printed in a table, where a backslash before a pipe goes: one more stands
   there for it. */
static void add_code_in_table(struct walk *walk, const char *code) {
    const char *pipe = strstr(code, "\\|");
    while (pipe != NULL) {
        document_utf8(&walk->document, code, (size_t)(pipe - code));
        document_bytes(&walk->document, "\\\\|", 3);
        code = pipe + 2;
        pipe = strstr(code, "\\|");
    }
    document_utf8(&walk->document, code, strlen(code));
}

/* The parser took a space off each end of the code, and so does the compiler: where one is left,
   two more are needed.
 */
static void add_code(struct walk *walk, cmark_node *node) {
    const char *code = text_or_empty(cmark_node_get_literal(node));
    const size_t length = strlen(code);
    const bool is_padded =
        length > 0 && code[0] == ' ' && code[length - 1] == ' ' && strspn(code, " ") < length;
    document_enter(&walk->document, BIVDRAZO_NAME_CODE_TEXT);
    document_enter(&walk->document, BIVDRAZO_NAME_CODE_TEXT_DATA);
    document_bytes(&walk->document, " ", is_padded);
    if (walk->tables > 0)
        add_code_in_table(walk, code);
    else
        document_utf8(&walk->document, code, length);
    document_bytes(&walk->document, " ", is_padded);
    document_exit(&walk->document, BIVDRAZO_NAME_CODE_TEXT_DATA);
    document_exit(&walk->document, BIVDRAZO_NAME_CODE_TEXT);
}

/* A break is a newline, and a space in an image's alternative text. */
static void add_break(struct walk *walk, bool is_hard) {
    if (is_hard && walk->images == 0)
        document_empty(&walk->document, BIVDRAZO_NAME_HARD_BREAK_ESCAPE);
    add_text(walk, BIVDRAZO_NAME_DATA, walk->images > 0 ? " " : "\n");
}

static void enter_media(struct walk *walk, uint16_t name) {
    document_enter(&walk->document, name);
    document_enter(&walk->document, BIVDRAZO_NAME_LABEL);
    document_enter(&walk->document, BIVDRAZO_NAME_LABEL_TEXT);
}

static void exit_media(struct walk *walk, uint16_t name, cmark_node *node) {
    const char *url = text_or_empty(cmark_node_get_url(node));
    const char *title = text_or_empty(cmark_node_get_title(node));
    document_exit(&walk->document, BIVDRAZO_NAME_LABEL_TEXT);
    document_exit(&walk->document, BIVDRAZO_NAME_LABEL);
    document_enter(&walk->document, BIVDRAZO_NAME_RESOURCE);
    add_text_in(walk, BIVDRAZO_NAME_RESOURCE_DESTINATION_STRING, BIVDRAZO_NAME_DATA, url,
                strlen(url));
    if (*title != 0)
        add_text_in(walk, BIVDRAZO_NAME_RESOURCE_TITLE_STRING, BIVDRAZO_NAME_DATA, title,
                    strlen(title));
    document_exit(&walk->document, BIVDRAZO_NAME_RESOURCE);
    document_exit(&walk->document, name);
}

/* Adds a node that has no children; whether it is one. */
static bool add_leaf(struct walk *walk, cmark_node *node) {
    const cmark_node_type type = cmark_node_get_type(node);
    const char *text = text_or_empty(cmark_node_get_literal(node));
    if (type == CMARK_NODE_TEXT)
        add_text(walk, BIVDRAZO_NAME_DATA, text);
    else if (type == CMARK_NODE_SOFTBREAK || type == CMARK_NODE_LINEBREAK)
        add_break(walk, type == CMARK_NODE_LINEBREAK);
    else if (type == CMARK_NODE_CODE)
        add_code(walk, node);
    else if (type == CMARK_NODE_HTML_INLINE)
        add_text_in(walk, BIVDRAZO_NAME_HTML_TEXT, BIVDRAZO_NAME_HTML_TEXT_DATA, text,
                    strlen(text));
    else if (type == CMARK_NODE_FOOTNOTE_REFERENCE)
        add_footnote_call(walk, node);
    else if (type == CMARK_NODE_CODE_BLOCK)
        add_code_block(walk, node);
    else if (type == CMARK_NODE_HTML_BLOCK)
        add_html_block(walk, node);
    else if (type == CMARK_NODE_THEMATIC_BREAK)
        document_empty(&walk->document, BIVDRAZO_NAME_THEMATIC_BREAK);
    else
        return false;
    return true;
}

static void enter_node(struct walk *walk, cmark_node *node) {
    const cmark_node_type type = cmark_node_get_type(node);
    if (type == CMARK_NODE_BLOCK_QUOTE)
        document_enter(&walk->document, BIVDRAZO_NAME_BLOCK_QUOTE);
    else if (type == CMARK_NODE_LIST)
        document_enter(&walk->document, list_name(node));
    else if (type == CMARK_NODE_ITEM)
        enter_item(walk, node);
    else if (type == CMARK_NODE_PARAGRAPH)
        enter_paragraph(walk, node);
    else if (type == CMARK_NODE_HEADING)
        enter_heading(walk, node);
    else if (type == CMARK_NODE_FOOTNOTE_DEFINITION)
        enter_footnote(walk, node);
    else if (type == CMARK_NODE_EMPH)
        document_enter(&walk->document, BIVDRAZO_NAME_EMPHASIS);
    else if (type == CMARK_NODE_STRONG)
        document_enter(&walk->document, BIVDRAZO_NAME_STRONG);
    else if (type == CMARK_NODE_LINK)
        enter_media(walk, BIVDRAZO_NAME_LINK);
    else if (type == CMARK_NODE_IMAGE)
        enter_media(walk, BIVDRAZO_NAME_IMAGE);
    else
        enter_extension(walk, node);
}

static void exit_node(struct walk *walk, cmark_node *node) {
    const cmark_node_type type = cmark_node_get_type(node);
    if (type == CMARK_NODE_BLOCK_QUOTE)
        document_exit(&walk->document, BIVDRAZO_NAME_BLOCK_QUOTE);
    else if (type == CMARK_NODE_LIST)
        document_exit(&walk->document, list_name(node));
    else if (type == CMARK_NODE_ITEM)
        exit_item(walk, node);
    else if (type == CMARK_NODE_PARAGRAPH)
        exit_paragraph(walk, node);
    else if (type == CMARK_NODE_HEADING)
        exit_heading(walk);
    else if (type == CMARK_NODE_FOOTNOTE_DEFINITION)
        document_exit(&walk->document, BIVDRAZO_NAME_GFM_FOOTNOTE_DEFINITION);
    else if (type == CMARK_NODE_EMPH)
        document_exit(&walk->document, BIVDRAZO_NAME_EMPHASIS);
    else if (type == CMARK_NODE_STRONG)
        document_exit(&walk->document, BIVDRAZO_NAME_STRONG);
    else if (type == CMARK_NODE_LINK)
        exit_media(walk, BIVDRAZO_NAME_LINK, node);
    else if (type == CMARK_NODE_IMAGE)
        exit_media(walk, BIVDRAZO_NAME_IMAGE, node);
    else
        exit_extension(walk, node);
}

void add_step(struct walk *walk, cmark_event_type step, cmark_node *node) {
    const bool is_image = cmark_node_get_type(node) == CMARK_NODE_IMAGE;
    if (step == CMARK_EVENT_ENTER && !add_leaf(walk, node))
        enter_node(walk, node);
    else if (step == CMARK_EVENT_EXIT)
        exit_node(walk, node);
    if (is_image)
        walk->images += step == CMARK_EVENT_ENTER ? 1 : (size_t)-1;
}
