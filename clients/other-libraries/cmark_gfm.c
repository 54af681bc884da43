/*
 * Renders documents with cmark-gfm and its tag filter, as GitHub does before it sanitizes them:
 *
 *     cmark_gfm < DOCUMENTS > HTML
 *
 * DOCUMENTS are frames: a count of bytes in decimal digits, a line feed, the document.
 */
#include <cmark-gfm-core-extensions.h>
#include <cmark-gfm.h>
#include <stdio.h>
#include <stdlib.h>

static const char *const NAMES[] = {"table", "strikethrough", "autolink", "tasklist", "tagfilter"};
static const int OPTIONS = CMARK_OPT_UNSAFE | CMARK_OPT_FOOTNOTES | CMARK_OPT_VALIDATE_UTF8;

/* The HTML of a document; the caller frees it. */
static char *render(const char *document, size_t length) {
    cmark_parser *parser = cmark_parser_new(OPTIONS);
    for (size_t i = 0; i < sizeof NAMES / sizeof *NAMES; i++)
        cmark_parser_attach_syntax_extension(parser, cmark_find_syntax_extension(NAMES[i]));
    cmark_parser_feed(parser, document, length);
    cmark_node *root = cmark_parser_finish(parser);
    char *html = cmark_render_html(root, OPTIONS, cmark_parser_get_syntax_extensions(parser));
    cmark_node_free(root);
    cmark_parser_free(parser);
    return html;
}

int main(void) {
    cmark_gfm_core_extensions_ensure_registered();
    size_t length;
    while (scanf("%zu", &length) == 1) {
        char *document = malloc(length + 1);
        getchar();
        if (document == NULL || fread(document, 1, length, stdin) != length)
            return 1;
        char *html = render(document, length);
        fputs(html, stdout);
        free(html);
        free(document);
    }
    return ferror(stdout) || fflush(stdout) != 0;
}
