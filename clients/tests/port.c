/*
 * Renders documents from standard input, for ports_test.py, which compares what libraries for
 * different processors and C libraries write.
 *
 * A document is a line with its kind, a space and its length, and then its bytes. Kind M is
 * Markdown, which is rendered with default options; kind S is Markdown whose headings get ids made
 * of their texts; kind E is an event script. For each it writes a line with the answer's status,
 * rule, index and length, and then the text, if there is one, and a line feed.
 */
#include <stdio.h>
#include <stdlib.h>

#include "bivdrazo_markdown.h"

/* What the library makes of a document. */
static bivdrazo_answer render(char kind, const uint8_t *document, size_t length, uint8_t **text) {
    bivdrazo_markdown_options options = bivdrazo_markdown_options_default();
    if (kind == 'E')
        return bivdrazo_run_alloc(document, length, text);
    if (kind == 'M')
        return bivdrazo_markdown_alloc(document, length, &options, text);
    options.heading_ids = bivdrazo_text_of((const uint8_t *)"h-", 2);
    options.math = 1;
    options.front_matter = 1;
    options.number_ids = 1;
    return bivdrazo_markdown_alloc_by(1, document, length, &options, text);
}

int main(void) {
    char kind;
    size_t length;
    while (scanf("%c %zu", &kind, &length) == 2 && getchar() == '\n') {
        uint8_t *const document = malloc(length + 1);
        uint8_t *text = NULL;
        if (document == NULL || fread(document, 1, length, stdin) != length)
            return 1;
        const bivdrazo_answer answer = render(kind, document, length, &text);
        printf("%u %u %zu %zu\n", answer.status, answer.rule, answer.index, answer.length);
        if (text != NULL)
            fwrite(text, 1, answer.length, stdout);
        putchar('\n');
        free(text);
        free(document);
    }
    return feof(stdin) && fflush(stdout) == 0 ? 0 : 1;
}
