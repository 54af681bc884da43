/*
 * Renders documents by md4c with GitHub's extensions, with HTML unchanged:
 *
 *     md4c < DOCUMENTS > HTML
 *
 * DOCUMENTS are frames: a count of bytes in decimal digits, a line feed, the document.
 */
#include <md4c-html.h>
#include <stdio.h>
#include <stdlib.h>

static void write(const MD_CHAR *text, MD_SIZE length, void *file) {
    fwrite(text, 1, length, file);
}

int main(void) {
    size_t length;
    while (scanf("%zu", &length) == 1) {
        char *document = malloc(length + 1);
        getchar();
        if (document == NULL || fread(document, 1, length, stdin) != length)
            return 1;
        if (md_html(document, (MD_SIZE)length, write, stdout, MD_DIALECT_GITHUB, 0) != 0)
            return 2;
        free(document);
    }
    return ferror(stdout) || fflush(stdout) != 0;
}
