#include "nodes.h"

#include <cmark-gfm-core-extensions.h>

/* How a column is aligned: by markers at the first and at the last place of the
   delimiter's cell. */
static void add_alignment(struct walk *walk, uint8_t alignment) {
    document_enter(&walk->document, BIVDRAZO_NAME_GFM_TABLE_DELIMITER_CELL_VALUE);
    if (alignment == 'r')
        document_empty(&walk->document, BIVDRAZO_NAME_OTHER);
    if (alignment != 0)
        document_empty(&walk->document, BIVDRAZO_NAME_GFM_TABLE_DELIMITER_MARKER);
    if (alignment == 'l')
        document_empty(&walk->document, BIVDRAZO_NAME_OTHER);
    document_exit(&walk->document, BIVDRAZO_NAME_GFM_TABLE_DELIMITER_CELL_VALUE);
}

static void add_delimiter_row(struct walk *walk, cmark_node *table) {
    const uint16_t columns = cmark_gfm_extensions_get_table_columns(table);
    const uint8_t *alignments = cmark_gfm_extensions_get_table_alignments(table);
    document_enter(&walk->document, BIVDRAZO_NAME_GFM_TABLE_DELIMITER_ROW);
    for (uint16_t column = 0; column < columns; column++)
        add_alignment(walk, alignments[column]);
    document_exit(&walk->document, BIVDRAZO_NAME_GFM_TABLE_DELIMITER_ROW);
}

static void enter_row(struct walk *walk, cmark_node *node) {
    if (cmark_gfm_extensions_get_table_row_is_header(node))
        document_enter(&walk->document, BIVDRAZO_NAME_GFM_TABLE_HEAD);
    document_enter(&walk->document, BIVDRAZO_NAME_GFM_TABLE_ROW);
}

/* After the head comes the body, if there are rows for it. */
static void exit_row(struct walk *walk, cmark_node *node) {
    document_exit(&walk->document, BIVDRAZO_NAME_GFM_TABLE_ROW);
    if (!cmark_gfm_extensions_get_table_row_is_header(node))
        return;
    add_delimiter_row(walk, cmark_node_parent(node));
    document_exit(&walk->document, BIVDRAZO_NAME_GFM_TABLE_HEAD);
    if (cmark_node_next(node) != NULL) {
        add_text(walk, BIVDRAZO_NAME_LINE_ENDING, "\n");
        document_enter(&walk->document, BIVDRAZO_NAME_GFM_TABLE_BODY);
    }
}

static void enter_table(struct walk *walk) {
    walk->tables++;
    document_enter(&walk->document, BIVDRAZO_NAME_GFM_TABLE);
}

static void exit_table(struct walk *walk, cmark_node *node) {
    cmark_node *head = cmark_node_first_child(node);
    if (head != NULL && cmark_node_next(head) != NULL)
        document_exit(&walk->document, BIVDRAZO_NAME_GFM_TABLE_BODY);
    document_exit(&walk->document, BIVDRAZO_NAME_GFM_TABLE);
    walk->tables--;
}

/* Enters a node of an extension. */
void enter_extension(struct walk *walk, cmark_node *node) {
    if (is_called(node, "table"))
        enter_table(walk);
    else if (is_called(node, "table_header") || is_called(node, "table_row"))
        enter_row(walk, node);
    else if (is_called(node, "table_cell"))
        document_enter(&walk->document, BIVDRAZO_NAME_GFM_TABLE_CELL);
    else if (is_called(node, "strikethrough"))
        document_enter(&walk->document, BIVDRAZO_NAME_GFM_STRIKETHROUGH);
}

/* Exits a node of an extension. */
void exit_extension(struct walk *walk, cmark_node *node) {
    if (is_called(node, "table"))
        exit_table(walk, node);
    else if (is_called(node, "table_header") || is_called(node, "table_row"))
        exit_row(walk, node);
    else if (is_called(node, "table_cell"))
        document_exit(&walk->document, BIVDRAZO_NAME_GFM_TABLE_CELL);
    else if (is_called(node, "strikethrough"))
        document_exit(&walk->document, BIVDRAZO_NAME_GFM_STRIKETHROUGH);
}
