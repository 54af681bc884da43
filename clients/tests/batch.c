/*
 * Renders many documents in one process, and tests the library with event lists that no parser
 * makes.
 *
 * Reads frames from standard input, each a line with a length in decimal and then that many bytes
 * of Markdown. Writes a frame for each, `STATUS LENGTH`, a newline, and the text, with the
 * functions of bivdrazo-render-cmark.
 *
 *     batch              only the documents
 *     batch SEED TIMES   then, for each document, TIMES lists made from its events by random
 *                        changes, under random options that are safe: a frame for each
 *
 * Ends with status 1 if an answer contradicts bivdrazo.h.
 */
#include "markdown.h"

#include <stdio.h>
#include <string.h>

#define GUARD 32

/* A generator of numbers, the same on each machine. */
static uint64_t next_number(uint64_t *state) {
    *state += 0x9E3779B97F4A7C15u;
    uint64_t mixed = *state;
    mixed = (mixed ^ (mixed >> 30)) * 0xBF58476D1CE4E5B9u;
    mixed = (mixed ^ (mixed >> 27)) * 0x94D049BB133111EBu;
    return mixed ^ (mixed >> 31);
}

/* A number under `bound`. */
static size_t next_under(uint64_t *state, size_t bound) {
    return bound == 0 ? 0 : (size_t)(next_number(state) % bound);
}

static void stop(const char *why) {
    fprintf(stderr, "batch: %s\n", why);
    exit(1);
}

/* Memory for this number of bytes, at least one. */
static void *memory(size_t length) {
    void *made = malloc(length + 1);
    if (made == NULL)
        stop("out of memory");
    return made;
}

/* The next frame of the input, or NULL at its end. */
static uint8_t *read_frame(size_t *length) {
    char line[32];
    if (fgets(line, sizeof line, stdin) == NULL)
        return NULL;
    *length = strtoul(line, NULL, 10);
    uint8_t *frame = memory(*length);
    if (fread(frame, 1, *length, stdin) != *length)
        stop("a frame is cut off");
    return frame;
}

static void write_frame(const bivdrazo_answer *answer, const uint8_t *text) {
    const size_t length = answer->status == BIVDRAZO_OK ? answer->length : 0;
    printf("%u %zu\n", answer->status, length);
    fwrite(text, 1, length, stdout);
}

/* The document of a Markdown text. */
static struct document parse(const uint8_t *markdown, size_t length) {
    cmark_parser *parser = markdown_parser();
    if (parser == NULL)
        stop("no extensions");
    cmark_parser_feed(parser, (const char *)markdown, length);
    cmark_node *root = cmark_parser_finish(parser);
    struct document document = markdown_document(root);
    cmark_node_free(root);
    cmark_parser_free(parser);
    return document;
}

static void write_document(const struct document *document) {
    uint8_t *text;
    const bivdrazo_answer answer =
        bivdrazo_compile_alloc(document->events, document->events_length, document->bytes,
                               document->bytes_length, NULL, NULL, 0, &text);
    write_frame(&answer, text);
    free(text);
}

/* A random text of the document's bytes, mostly set, mostly UTF-8. */
static bivdrazo_text random_text(const struct document *document, uint64_t *state) {
    const size_t start = next_under(state, document->bytes_length);
    bivdrazo_text text = bivdrazo_text_unset();
    if (next_under(state, 4) == 0)
        text = bivdrazo_text_of(document->bytes + start,
                                next_under(state, document->bytes_length - start));
    return text;
}

/* Safe options, of which some are invalid now and then. */
static bivdrazo_options random_options(const struct document *document, uint64_t *state) {
    bivdrazo_options options = bivdrazo_options_default();
    options.gfm_task_list_item_checkable = (uint8_t)next_under(state, 2);
    options.gfm_tagfilter = (uint8_t)next_under(state, 2);
    options.default_line_ending = (uint8_t)next_under(state, 3);
    options.gfm_footnote_number_ids = (uint8_t)next_under(state, 2);
    options.gfm_footnote_back_label = random_text(document, state);
    options.gfm_footnote_clobber_prefix = random_text(document, state);
    options.gfm_footnote_label = random_text(document, state);
    if (next_under(state, 50) == 0)
        options.gfm_tagfilter = (uint8_t)next_number(state);
    return options;
}

/* One random change of a list of events, of at least one. */
static void change_event(bivdrazo_event *events, size_t length, size_t bytes_length,
                         uint64_t *state) {
    bivdrazo_event *event = &events[next_under(state, length)];
    const bivdrazo_event *other = &events[next_under(state, length)];
    switch (next_under(state, 8)) {
    case 0:
        event->index = next_under(state, bytes_length + 2);
        break;
    case 1:
        event->name = (uint16_t)next_under(state, 88);
        break;
    case 2:
        event->kind = (uint8_t)next_under(state, 4);
        break;
    case 3:
        event->columns = (uint8_t)next_under(state, 6);
        break;
    case 4:
        event->index = (size_t)next_number(state);
        break;
    case 5:
        event->name = BIVDRAZO_NAME_OTHER;
        break;
    default:
        *event = *other;
    }
}

/* Changes the places of events alone, so that the list often is still one of the grammar. */
static void move_events(bivdrazo_event *events, size_t length, size_t bytes_length,
                        uint64_t *state) {
    for (size_t at = 0; at < length; at++) {
        if (next_under(state, 4) == 0)
            events[at].index = next_under(state, bytes_length + 1);
    }
}

/* Gives another name to each node that has one of two names. */
static void rename_nodes(bivdrazo_event *events, size_t length, uint64_t *state) {
    const uint16_t from = events[next_under(state, length)].name;
    const uint16_t to = (uint16_t)(1 + next_under(state, 86));
    for (size_t at = 0; at < length; at++) {
        if (events[at].name == from)
            events[at].name = to;
    }
}

/* The document with other events. */
static void change_document(struct document *document, uint64_t *state) {
    const size_t choice = next_under(state, 4);
    if (document->events_length == 0)
        return;
    if (choice == 0)
        move_events(document->events, document->events_length, document->bytes_length, state);
    else if (choice == 1)
        rename_nodes(document->events, document->events_length, state);
    else
        change_event(document->events, document->events_length, document->bytes_length, state);
    if (choice == 3)
        document->events_length = next_under(state, document->events_length + 1);
}

/* Fills a buffer with bytes that tell whether one of them was written. */
static void fill(uint8_t *bytes, size_t length) {
    for (size_t at = 0; at < length; at++)
        bytes[at] = (uint8_t)(at * 7 + 129);
}

/* Whether the bytes from `start` to `end` are as `fill` left them. */
static bool is_untouched(const uint8_t *bytes, size_t start, size_t end) {
    for (size_t at = start; at < end; at++) {
        if (bytes[at] != (uint8_t)(at * 7 + 129))
            return false;
    }
    return true;
}

/* Whether the answer's fields are those that its status speaks of. */
static bool has_right_fields(const bivdrazo_answer *answer, const struct document *document,
                             size_t room) {
    switch (answer->status) {
    case BIVDRAZO_OK:
        return answer->length <= room && answer->index == 0 && answer->rule == 0;
    case BIVDRAZO_TOO_SHORT:
        return answer->length > room && answer->index == 0 && answer->rule == 0;
    case BIVDRAZO_REFUSED:
        return answer->index <= document->events_length && answer->rule >= 1 &&
               answer->rule <= 10 && answer->length == 0;
    case BIVDRAZO_NO_EVENT:
        return answer->index < document->events_length && answer->rule == 0 && answer->length == 0;
    case BIVDRAZO_NO_OPTION:
        return answer->index <= 11 && answer->rule == 0 && answer->length == 0;
    default:
        return false;
    }
}

/* Compiles into a buffer of a random size, and looks at what became of the buffer. */
static bivdrazo_answer compile_guarded(const struct document *document,
                                       const bivdrazo_options *options, size_t room,
                                       uint8_t *buffer) {
    static const bivdrazo_reference name = {(const uint8_t *)"amp", 3, (const uint8_t *)"&", 1};
    const bivdrazo_event none = {0, 0, 0, 0, 0};
    fill(buffer, room + GUARD);
    const bivdrazo_answer answer = bivdrazo_compile(
        document->events_length ? document->events : &none, document->events_length,
        document->bytes, document->bytes_length, options, &name, 1, buffer, room);
    if (!has_right_fields(&answer, document, room))
        stop("an answer's fields don't fit");
    if (!is_untouched(buffer, answer.status == BIVDRAZO_OK ? answer.length : 0, room + GUARD))
        stop("a buffer was written where it isn't to be");
    return answer;
}

/* Compiles changed events, first into a random room, then into the one that is needed. */
static void write_changed(const struct document *document, uint64_t *state) {
    const bivdrazo_options options = random_options(document, state);
    size_t room = next_under(state, 2 * document->bytes_length + 64);
    uint8_t *buffer = memory(room + GUARD);
    bivdrazo_answer answer = compile_guarded(document, &options, room, buffer);
    if (answer.status == BIVDRAZO_TOO_SHORT) {
        const size_t wanted = answer.length;
        free(buffer);
        buffer = memory(wanted + GUARD);
        answer = compile_guarded(document, &options, wanted, buffer);
        if (answer.status != BIVDRAZO_OK || answer.length != wanted)
            stop("a reported length isn't the text's");
    }
    write_frame(&answer, buffer);
    free(buffer);
}

/* So many lists that come of a document's events by one to eight changes each. */
static void write_lists(const struct document *document, size_t times, uint64_t *state) {
    const size_t size = document->events_length * sizeof *document->events;
    for (size_t time = 0; time < times; time++) {
        struct document changed = *document;
        changed.events = memory(size);
        memcpy(changed.events, document->events, size);
        const size_t changes = 1 + next_under(state, 8) / 5;
        for (size_t change = 0; change < changes; change++)
            change_document(&changed, state);
        write_changed(&changed, state);
        free(changed.events);
    }
}

int main(int count, char **arguments) {
    uint64_t state = count > 1 ? strtoul(arguments[1], NULL, 10) : 0;
    const size_t times = count > 2 ? strtoul(arguments[2], NULL, 10) : 0;
    size_t length;
    uint8_t *markdown = read_frame(&length);
    while (markdown != NULL) {
        struct document document = parse(markdown, length);
        write_document(&document);
        write_lists(&document, times, &state);
        document_free(&document);
        free(markdown);
        markdown = read_frame(&length);
    }
    return fflush(stdout) != 0 || ferror(stdout);
}
