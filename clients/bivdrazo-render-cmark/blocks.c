#include "nodes.h"

#include <cmark-gfm-core-extensions.h>
#include <cmark-gfm/node.h>

#include <stdio.h>
#include <string.h>

/* Whether a paragraph is in an item of a tight list, where it prints no tags. */
static bool is_tight(cmark_node *paragraph) {
    cmark_node *parent = cmark_node_parent(paragraph);
    cmark_node *list = parent == NULL ? NULL : cmark_node_parent(parent);
    return list != NULL && cmark_node_get_type(list) == CMARK_NODE_LIST &&
           cmark_node_get_list_tight(list);
}

void enter_paragraph(struct walk *walk, cmark_node *node) {
    cmark_node *before = cmark_node_previous(node);
    if (is_tight(node) && before != NULL && cmark_node_get_type(before) != CMARK_NODE_PARAGRAPH)
        add_text(walk, BIVDRAZO_NAME_DATA, "\n");
    document_enter(&walk->document, BIVDRAZO_NAME_PARAGRAPH);
}

/* After a tight paragraph the next line ending isn't printed: it is this one, so that no
   later one is lost. */
void exit_paragraph(struct walk *walk, cmark_node *node) {
    document_exit(&walk->document, BIVDRAZO_NAME_PARAGRAPH);
    if (is_tight(node))
        add_text(walk, BIVDRAZO_NAME_LINE_ENDING, "\n");
}

/* The name of a list, ordered or not. */
uint16_t list_name(cmark_node *list) {
    const bool is_ordered = cmark_node_get_list_type(list) == CMARK_ORDERED_LIST;
    return is_ordered ? BIVDRAZO_NAME_LIST_ORDERED : BIVDRAZO_NAME_LIST_UNORDERED;
}

/* The number of an ordered list is in its first item. */
static void add_list_value(struct walk *walk, cmark_node *list) {
    char digits[16];
    snprintf(digits, sizeof digits, "%d", cmark_node_get_list_start(list));
    add_text(walk, BIVDRAZO_NAME_LIST_ITEM_VALUE, digits);
}

/*
 * The box of a task, and a space after it. They are in a quote's prefix, which prints nothing
 * itself and isn't part of an item's content: so an item with only its box ends on the same line.
 */
static void add_task(struct walk *walk, cmark_node *item) {
    document_enter(&walk->document, BIVDRAZO_NAME_BLOCK_QUOTE_PREFIX);
    document_enter(&walk->document, BIVDRAZO_NAME_GFM_TASK_LIST_ITEM_CHECK);
    if (cmark_gfm_extensions_get_tasklist_item_checked(item))
        document_empty(&walk->document, BIVDRAZO_NAME_GFM_TASK_LIST_ITEM_VALUE_CHECKED);
    document_exit(&walk->document, BIVDRAZO_NAME_GFM_TASK_LIST_ITEM_CHECK);
    add_text(walk, BIVDRAZO_NAME_DATA, " ");
    document_exit(&walk->document, BIVDRAZO_NAME_BLOCK_QUOTE_PREFIX);
}

void enter_item(struct walk *walk, cmark_node *node) {
    cmark_node *list = cmark_node_parent(node);
    document_enter(&walk->document, BIVDRAZO_NAME_LIST_ITEM);
    document_enter(&walk->document, BIVDRAZO_NAME_LIST_ITEM_PREFIX);
    if (list_name(list) == BIVDRAZO_NAME_LIST_ORDERED && cmark_node_previous(node) == NULL)
        add_list_value(walk, list);
    document_empty(&walk->document, BIVDRAZO_NAME_LIST_ITEM_MARKER);
    document_exit(&walk->document, BIVDRAZO_NAME_LIST_ITEM_PREFIX);
    if (is_called(node, "tasklist"))
        add_task(walk, node);
}

/* Two blank line endings after the first item make a list loose; one alone is excused where that
   item is empty. */
void exit_item(struct walk *walk, cmark_node *node) {
    document_exit(&walk->document, BIVDRAZO_NAME_LIST_ITEM);
    if (cmark_node_previous(node) == NULL && !cmark_node_get_list_tight(cmark_node_parent(node))) {
        add_text(walk, BIVDRAZO_NAME_BLANK_LINE_ENDING, "\n");
        add_text(walk, BIVDRAZO_NAME_BLANK_LINE_ENDING, "\n");
    }
}

/* A heading's rank is the length of its mark. */
void enter_heading(struct walk *walk, cmark_node *node) {
    document_enter(&walk->document, BIVDRAZO_NAME_HEADING_ATX);
    document_text(&walk->document, BIVDRAZO_NAME_HEADING_ATX_SEQUENCE, "######",
                  (size_t)cmark_node_get_heading_level(node));
    document_enter(&walk->document, BIVDRAZO_NAME_HEADING_ATX_TEXT);
}

/* A block of code becomes fenced, however it was written; the language is the
   info's first word. */
void add_code_block(struct walk *walk, cmark_node *node) {
    const char *info = text_or_empty(cmark_node_get_fence_info(node));
    const char *code = text_or_empty(cmark_node_get_literal(node));
    document_enter(&walk->document, BIVDRAZO_NAME_CODE_FENCED);
    document_enter(&walk->document, BIVDRAZO_NAME_CODE_FENCED_FENCE);
    if (*info != 0)
        add_text_in(walk, BIVDRAZO_NAME_CODE_FENCED_FENCE_INFO, BIVDRAZO_NAME_DATA, info,
                    strcspn(info, " \t\n\v\f\r"));
    document_exit(&walk->document, BIVDRAZO_NAME_CODE_FENCED_FENCE);
    if (*code != 0)
        add_text(walk, BIVDRAZO_NAME_CODE_FLOW_CHUNK, code);
    document_empty(&walk->document, BIVDRAZO_NAME_CODE_FENCED_FENCE);
    document_exit(&walk->document, BIVDRAZO_NAME_CODE_FENCED);
}

/* HTML, without the line endings at its end. */
void add_html_block(struct walk *walk, cmark_node *node) {
    const char *html = text_or_empty(cmark_node_get_literal(node));
    size_t length = strlen(html);
    while (length > 0 && (html[length - 1] == '\n' || html[length - 1] == '\r'))
        length--;
    add_text_in(walk, BIVDRAZO_NAME_HTML_FLOW, BIVDRAZO_NAME_HTML_FLOW_DATA, html, length);
}

void exit_heading(struct walk *walk) {
    document_exit(&walk->document, BIVDRAZO_NAME_HEADING_ATX_TEXT);
    document_exit(&walk->document, BIVDRAZO_NAME_HEADING_ATX);
}

/* The label of a footnote's definition, under a name. */
static void add_footnote_label(struct walk *walk, uint16_t name, cmark_node *definition) {
    document_text(&walk->document, name, definition->as.literal.data,
                  (size_t)definition->as.literal.len);
}

void enter_footnote(struct walk *walk, cmark_node *node) {
    document_enter(&walk->document, BIVDRAZO_NAME_GFM_FOOTNOTE_DEFINITION);
    document_enter(&walk->document, BIVDRAZO_NAME_GFM_FOOTNOTE_DEFINITION_PREFIX);
    add_footnote_label(walk, BIVDRAZO_NAME_GFM_FOOTNOTE_DEFINITION_LABEL_STRING, node);
    document_exit(&walk->document, BIVDRAZO_NAME_GFM_FOOTNOTE_DEFINITION_PREFIX);
}

void add_footnote_call(struct walk *walk, cmark_node *node) {
    if (node->parent_footnote_def == NULL)
        return;
    document_enter(&walk->document, BIVDRAZO_NAME_GFM_FOOTNOTE_CALL);
    document_enter(&walk->document, BIVDRAZO_NAME_LABEL);
    add_footnote_label(walk, BIVDRAZO_NAME_LABEL_TEXT, node->parent_footnote_def);
    document_exit(&walk->document, BIVDRAZO_NAME_LABEL);
    document_exit(&walk->document, BIVDRAZO_NAME_GFM_FOOTNOTE_CALL);
}
