/* Writes what bivdrazo_markdown() makes of the document on standard input; ends with the status
   of its answer. */
#include <stdio.h>
#include <stdlib.h>
#include <sys/stat.h>

#include "bivdrazo_markdown.h"

int main(void) {
    struct stat found;
    if (fstat(0, &found) != 0)
        return 64;
    uint8_t *document = malloc((size_t)found.st_size + 1);
    size_t length = document == NULL ? 0 : fread(document, 1, (size_t)found.st_size, stdin);
    char *html;
    bivdrazo_answer answer = bivdrazo_markdown(document, length, NULL, &html);
    if (answer.status == BIVDRAZO_OK && fwrite(html, 1, answer.length, stdout) != answer.length)
        return 65;
    bivdrazo_markdown_free(html);
    free(document);
    return (int)answer.status;
}
