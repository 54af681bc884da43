#include "markdown.h"
#include "nodes.h"

#include <cmark-gfm-core-extensions.h>
#include <cmark-gfm-extension_api.h>

cmark_parser *markdown_parser(void) {
    static const char *const extensions[] = {"table", "strikethrough", "autolink", "tasklist"};
    cmark_gfm_core_extensions_ensure_registered();
    cmark_parser *parser = cmark_parser_new(CMARK_OPT_FOOTNOTES | CMARK_OPT_VALIDATE_UTF8);
    for (size_t at = 0; at < sizeof extensions / sizeof *extensions; at++) {
        cmark_syntax_extension *extension = cmark_find_syntax_extension(extensions[at]);
        if (extension == NULL || !cmark_parser_attach_syntax_extension(parser, extension)) {
            cmark_parser_free(parser);
            return NULL;
        }
    }
    return parser;
}

static bool is_definition(cmark_node *node) {
    return cmark_node_get_type(node) == CMARK_NODE_FOOTNOTE_DEFINITION;
}

/* Which of two definitions comes first in the document. */
static int compare_places(const void *left, const void *right) {
    cmark_node *const one = *(cmark_node *const *)left;
    cmark_node *const other = *(cmark_node *const *)right;
    const int lines = cmark_node_get_start_line(one) - cmark_node_get_start_line(other);
    return lines != 0 ? lines
                      : cmark_node_get_start_column(one) - cmark_node_get_start_column(other);
}

/* A tree that is walked: its step is the next one to add. */
struct tree {
    cmark_iter *walker;
    cmark_event_type step;
};

/*
 * The parser moves the definitions of footnotes to the end of the tree. This moves them back before
 * the block that followed them, since footnotes are numbered in the order of the document: so a
 * definition is walked during the walk of another tree. `trees` are those that are being walked,
 * the last one first; each definition is walked once.
 */
struct places {
    cmark_node **definitions; /* by their lines */
    struct tree *trees;
    size_t definitions_length;
    size_t definitions_done;
    size_t trees_length;
};

/* The number of definitions. */
static size_t count_definitions(cmark_node *root) {
    size_t count = 0;
    for (cmark_node *node = cmark_node_first_child(root); node != NULL;
         node = cmark_node_next(node))
        count += is_definition(node);
    return count;
}

/* The places of a tree's definitions; where memory ran out, none, and `trees` is NULL. */
static struct places find_places(cmark_node *root) {
    const size_t most = count_definitions(root) + 1;
    struct places places = {calloc(most, sizeof(cmark_node *)), calloc(most, sizeof(struct tree)),
                            0, 0, 0};
    if (places.definitions == NULL || places.trees == NULL) {
        free(places.trees);
        places.trees = NULL;
        return places;
    }
    for (cmark_node *node = cmark_node_first_child(root); node != NULL;
         node = cmark_node_next(node)) {
        if (is_definition(node))
            places.definitions[places.definitions_length++] = node;
    }
    qsort(places.definitions, places.definitions_length, sizeof *places.definitions,
          compare_places);
    return places;
}

/* Begins the walk of a tree: there is room, since the document and each definition are walked
   once. */
static void begin_tree(struct places *places, cmark_node *node) {
    struct tree *tree = &places->trees[places->trees_length++];
    tree->walker = cmark_iter_new(node);
    tree->step = cmark_iter_next(tree->walker);
}

/* Whether the next definition was before this step: before a block that begins on a later line, or
   in the document.
 */
static bool is_after_definition(const struct places *places, cmark_event_type step,
                                cmark_node *node) {
    cmark_node *parent = cmark_node_parent(node);
    if (places->definitions_done == places->definitions_length)
        return false;
    if (parent == NULL)
        return step == CMARK_EVENT_EXIT;
    const cmark_node_type type = cmark_node_get_type(parent);
    const bool is_flow = type == CMARK_NODE_DOCUMENT || type == CMARK_NODE_BLOCK_QUOTE ||
                         type == CMARK_NODE_ITEM || type == CMARK_NODE_FOOTNOTE_DEFINITION;
    cmark_node *definition = places->definitions[places->definitions_done];
    return step == CMARK_EVENT_ENTER && is_flow && !is_definition(node) &&
           cmark_node_get_start_line(definition) < cmark_node_get_start_line(node);
}

/* Adds the next step of the last tree, or begins a definition that was before it. */
static void add_next(struct walk *walk, struct places *places) {
    struct tree *tree = &places->trees[places->trees_length - 1];
    cmark_node *node = cmark_iter_get_node(tree->walker);
    if (tree->step == CMARK_EVENT_DONE) {
        cmark_iter_free(tree->walker);
        places->trees_length--;
    } else if (is_after_definition(places, tree->step, node)) {
        begin_tree(places, places->definitions[places->definitions_done++]);
    } else if (places->trees_length == 1 && is_definition(node)) {
        cmark_iter_reset(tree->walker, node, CMARK_EVENT_EXIT);
        tree->step = cmark_iter_next(tree->walker);
    } else {
        add_step(walk, tree->step, node);
        tree->step = cmark_iter_next(tree->walker);
    }
}

struct document markdown_document(cmark_node *root) {
    struct walk walk = {document_new(), 0, 0};
    struct places places = find_places(root);
    if (places.trees == NULL)
        walk.document.is_full = true;
    else
        begin_tree(&places, root);
    while (places.trees_length > 0)
        add_next(&walk, &places);
    free(places.definitions);
    free(places.trees);
    add_text(&walk, BIVDRAZO_NAME_BLANK_LINE_ENDING, "\n");
    return walk.document;
}
