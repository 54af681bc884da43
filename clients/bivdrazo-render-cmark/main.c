/* bivdrazo-render-cmark: renders Markdown as safe HTML with cmark-gfm's parser. */
#include "markdown.h"

#include <stdio.h>
#include <string.h>

static const char USAGE[] =
    "Usage: bivdrazo-render-cmark [--page TITLE | --events] [FILE]\n"
    "\n"
    "Reads Markdown from FILE or from standard input, and writes safe HTML to standard output.\n"
    "Tables, strikethrough, tasks, autolinks and footnotes are on, as in GFM. HTML in the\n"
    "document is printed as text, and a link or an image whose protocol isn't permitted gets an\n"
    "empty URL.\n"
    "\n"
    "  --page TITLE   write a complete page with this title\n"
    "  --events       write the parser's events, as an event script, instead of HTML; the library\n"
    "                 isn't called\n"
    "  --help         print this text\n"
    "\n"
    "The exit status is 0 if the HTML was written, 1 if the library refused the events or the\n"
    "title (one that isn't UTF-8), 3 if memory ran out, 4 if reading or writing failed, and 64\n"
    "for invalid arguments.\n";

/* The exit statuses. */
enum status {
    DONE = 0,
    REFUSED = 1,
    NO_MEMORY = 3,
    NO_INPUT_OUTPUT = 4,
    NO_SUCH_USAGE = 64,
};

/* The arguments. */
struct request {
    const char *title; /* of the page, or NULL */
    const char *path;  /* of the file, or NULL for standard input */
    bool is_events;
    bool is_help;
    bool is_readable;
};

static struct request read_arguments(int count, char **arguments) {
    struct request request = {NULL, NULL, false, false, true};
    for (int at = 1; at < count && request.is_readable; at++) {
        const char *argument = arguments[at];
        if (strcmp(argument, "--help") == 0)
            request.is_help = true;
        else if (strcmp(argument, "--events") == 0)
            request.is_events = true;
        else if (strcmp(argument, "--page") == 0 && at + 1 < count && request.title == NULL)
            request.title = arguments[++at];
        else if (request.path == NULL && (argument[0] != '-' || argument[1] == 0))
            request.path = argument;
        else
            request.is_readable = false;
    }
    if (request.is_events && request.title != NULL)
        request.is_readable = false;
    if (request.path != NULL && strcmp(request.path, "-") == 0)
        request.path = NULL;
    return request;
}

/* Feeds a parser with a file up to its end; whether reading went well. */
static bool feed(cmark_parser *parser, FILE *file) {
    char buffer[65536];
    size_t length = fread(buffer, 1, sizeof buffer, file);
    while (length > 0) {
        cmark_parser_feed(parser, buffer, length);
        length = fread(buffer, 1, sizeof buffer, file);
    }
    return !ferror(file);
}

/* The document of a Markdown file. */
static enum status read_document(const char *path, struct document *document) {
    FILE *file = path == NULL ? stdin : fopen(path, "rb");
    cmark_parser *parser = file == NULL ? NULL : markdown_parser();
    enum status status = NO_INPUT_OUTPUT;
    if (parser != NULL && feed(parser, file)) {
        cmark_node *root = cmark_parser_finish(parser);
        *document = markdown_document(root);
        cmark_node_free(root);
        status = document->is_full ? NO_MEMORY : DONE;
    }
    if (parser != NULL)
        cmark_parser_free(parser);
    if (file != NULL && file != stdin)
        fclose(file);
    return status;
}

/* The HTML of a document, in allocated memory. */
static enum status compile(const struct document *document, uint8_t **text, size_t *length) {
    const bivdrazo_answer answer =
        bivdrazo_compile_alloc(document->events, document->events_length, document->bytes,
                               document->bytes_length, NULL, NULL, 0, text);
    *length = answer.length;
    if (answer.status == BIVDRAZO_OK)
        return DONE;
    if (answer.status == BIVDRAZO_MEMORY)
        return NO_MEMORY;
    fprintf(stderr, "bivdrazo-render-cmark: %s: event %zu, rule %u\n",
            bivdrazo_status_text(answer.status), answer.index, answer.rule);
    return REFUSED;
}

/* A text that a call made. */
struct text {
    uint8_t *bytes;
    size_t length;
};

/* The title of a page as the text of an element: the library escapes it, and refuses
   what isn't UTF-8. */
static enum status compile_title(const char *title, struct text *text) {
    struct document document = document_new();
    document_enter(&document, BIVDRAZO_NAME_DATA);
    document_bytes(&document, title, strlen(title));
    document_exit(&document, BIVDRAZO_NAME_DATA);
    enum status status =
        document.is_full ? NO_MEMORY : compile(&document, &text->bytes, &text->length);
    document_free(&document);
    return status;
}

/* Ends the output. */
static enum status end_output(void) {
    return fflush(stdout) != 0 || ferror(stdout) ? NO_INPUT_OUTPUT : DONE;
}

/* Writes a text, alone or in a page with a title. */
static enum status write_text(bool is_page, const struct text *title, const struct text *text) {
    if (is_page) {
        fputs("<!doctype html>\n<html><head><meta charset=\"utf-8\" /><title>", stdout);
        fwrite(title->bytes, 1, title->length, stdout);
        fputs("</title></head><body>", stdout);
    }
    fwrite(text->bytes, 1, text->length, stdout);
    if (is_page)
        fputs("</body></html>\n", stdout);
    return end_output();
}

/* Writes an event as a line of an event script. */
static void write_event(const bivdrazo_event *event) {
    putchar(event->kind == BIVDRAZO_ENTER ? '+' : '-');
    if (event->name == BIVDRAZO_NAME_OTHER)
        printf("Other%u", event->other);
    else
        fputs(bivdrazo_name_text(event->name), stdout);
    printf(" %zu\n", event->index);
}

/* Writes a document as an event script: a line for each event, the line `--`, the bytes. */
static enum status write_script(const struct document *document) {
    for (size_t at = 0; at < document->events_length; at++)
        write_event(&document->events[at]);
    fputs("--\n", stdout);
    if (document->bytes_length > 0)
        fwrite(document->bytes, 1, document->bytes_length, stdout);
    return end_output();
}

/* Writes the events of a Markdown file. */
static enum status write_events(const char *path) {
    struct document document = document_new();
    enum status status = read_document(path, &document);
    if (status == DONE)
        status = write_script(&document);
    document_free(&document);
    return status;
}

static enum status render(const struct request *request) {
    struct document document = document_new();
    struct text text = {NULL, 0};
    struct text title = {NULL, 0};
    enum status status = read_document(request->path, &document);
    if (status == DONE)
        status = compile(&document, &text.bytes, &text.length);
    if (status == DONE && request->title != NULL)
        status = compile_title(request->title, &title);
    if (status == DONE)
        status = write_text(request->title != NULL, &title, &text);
    document_free(&document);
    free(text.bytes);
    free(title.bytes);
    return status;
}

int main(int count, char **arguments) {
    const struct request request = read_arguments(count, arguments);
    if (!request.is_readable) {
        fputs(USAGE, stderr);
        return NO_SUCH_USAGE;
    }
    if (request.is_help)
        return fputs(USAGE, stdout) < 0 || fflush(stdout) != 0 ? NO_INPUT_OUTPUT : DONE;
    const enum status status = request.is_events ? write_events(request.path) : render(&request);
    if (status == NO_MEMORY)
        fputs("bivdrazo-render-cmark: out of memory\n", stderr);
    if (status == NO_INPUT_OUTPUT)
        fputs("bivdrazo-render-cmark: input or output failed\n", stderr);
    return status;
}
