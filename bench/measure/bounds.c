/* Measures a text within limits: one call of bivdrazo_compile_within for events that give much to
   read or to print.

   usage: bounds SHAPE DOCUMENT COUNT TEXT WORK

   DOCUMENT bytes, some COUNT nodes, the limits TEXT and WORK. The bytes are `"`, in shapes whose
   labels are folded U+0390, which becomes three letters, and in that of names of references numbers
   of eight digits, each of them a name. Prints the status, the text's length,
   the seconds of a processor, the most memory of the process in kB, before the call and after it,
   and how many events there were. */
#include "bivdrazo.h"
#include <stdint.h>
#include <stdio.h>
#include <stdlib.h>
#include <string.h>
#include <time.h>

#define NAME(name) BIVDRAZO_NAME_##name

static bivdrazo_event *events;
static size_t count, room;

static void put(int kind, int name, size_t at) {
    if (count == room) {
        room = room * 2 + 64;
        events = realloc(events, room * sizeof *events);
        if (events == NULL) exit(2);
    }
    bivdrazo_event event = {at, (uint16_t)name, 0, (uint8_t)kind, 0};
    events[count++] = event;
}

static void in(int name) { put(1, name, 0); }
static void out(int name) { put(2, name, 0); }

static void leaf(int name, size_t start, size_t end) {
    put(1, name, start);
    put(2, name, end);
}

/* Texts, each of which is the whole document. */
static void texts(size_t nodes, size_t length) {
    for (size_t i = 0; i < nodes; i++) leaf(NAME(DATA), 0, length);
}

static void label(size_t start, size_t end) {
    in(NAME(LABEL));
    leaf(NAME(LABEL_TEXT), start, end);
    out(NAME(LABEL));
}

static void definition(size_t start, size_t end, size_t length) {
    in(NAME(DEFINITION));
    leaf(NAME(DEFINITION_LABEL_STRING), start, end);
    in(NAME(DEFINITION_DESTINATION_STRING));
    texts(1, length);
    out(NAME(DEFINITION_DESTINATION_STRING));
    out(NAME(DEFINITION));
}

static void reference(int name, size_t start, size_t end) {
    in(name);
    label(start, end);
    out(name);
}

static void references(size_t nodes) {
    for (size_t i = 0; i < nodes; i++) reference(NAME(LINK), 0, 1);
}

static void begin_footnote(size_t start, size_t end) {
    in(NAME(GFM_FOOTNOTE_DEFINITION));
    in(NAME(GFM_FOOTNOTE_DEFINITION_PREFIX));
    leaf(NAME(GFM_FOOTNOTE_DEFINITION_LABEL_STRING), start, end);
    out(NAME(GFM_FOOTNOTE_DEFINITION_PREFIX));
}

static void row(size_t cells) {
    in(NAME(GFM_TABLE_ROW));
    for (size_t i = 0; i < cells; i++) {
        in(NAME(GFM_TABLE_CELL));
        out(NAME(GFM_TABLE_CELL));
    }
    out(NAME(GFM_TABLE_ROW));
}

/* A column whose cells are centred, or have no alignment. */
static void column(int centred) {
    in(NAME(GFM_TABLE_DELIMITER_CELL_VALUE));
    if (centred) {
        leaf(NAME(GFM_TABLE_DELIMITER_MARKER), 0, 0);
        leaf(NAME(GFM_TABLE_DELIMITER_MARKER), 0, 0);
    }
    out(NAME(GFM_TABLE_DELIMITER_CELL_VALUE));
}

/* The head of a table, up to its body. */
static void begin_table(size_t columns, int centred) {
    in(NAME(GFM_TABLE));
    in(NAME(GFM_TABLE_HEAD));
    row(0);
    in(NAME(GFM_TABLE_DELIMITER_ROW));
    for (size_t i = 0; i < columns; i++) column(centred);
    out(NAME(GFM_TABLE_DELIMITER_ROW));
    out(NAME(GFM_TABLE_HEAD));
    in(NAME(GFM_TABLE_BODY));
}

static void end_table(void) {
    out(NAME(GFM_TABLE_BODY));
    out(NAME(GFM_TABLE));
}

static void table(size_t columns, size_t rows, int centred) {
    begin_table(columns, centred);
    for (size_t i = 0; i < rows; i++) row(0);
    end_table();
}

/* A row whose second cell is beyond the only column, up to that cell. */
static void begin_dropped(void) {
    begin_table(1, 0);
    in(NAME(GFM_TABLE_ROW));
    in(NAME(GFM_TABLE_CELL));
    out(NAME(GFM_TABLE_CELL));
    in(NAME(GFM_TABLE_CELL));
}

static void end_dropped(void) {
    out(NAME(GFM_TABLE_CELL));
    out(NAME(GFM_TABLE_ROW));
    end_table();
}

/* Footnote calls, each with a label of this length. */
static void calls(size_t nodes, size_t length) {
    for (size_t i = 0; i < nodes; i++) {
        put(1, NAME(GFM_FOOTNOTE_CALL), 0);
        label(0, length);
        put(2, NAME(GFM_FOOTNOTE_CALL), length);
    }
}

/* References to names of eight bytes each. */
static void named(size_t nodes, size_t length) {
    for (size_t i = 0; i < nodes && 8 * i + 8 <= length; i++) {
        leaf(NAME(CHARACTER_REFERENCE_MARKER), 0, 0);
        leaf(NAME(CHARACTER_REFERENCE_VALUE), 8 * i, 8 * i + 8);
    }
}

/* Writes numbers of eight digits, out of order, over a document, and lists each as a name. */
static size_t list_names(bivdrazo_reference *names, uint8_t *document, size_t length) {
    size_t names_count = length / 8;
    for (size_t i = 0; i < names_count; i++) {
        char digits[9];
        snprintf(digits, sizeof digits, "%08zu", i * 7919 % names_count % 100000000);
        memcpy(document + 8 * i, digits, 8);
        bivdrazo_reference name = {document + 8 * i, 8, document + 8 * i, 1};
        names[i] = name;
    }
    return names_count;
}

/* Whether a shape has labels that grow when they are folded. */
static int folded(const char *shape) { return strstr(shape, "folded") != NULL; }

static int make(const char *shape, size_t length, size_t nodes) {
    if (!strcmp(shape, "texts")) {
        texts(nodes, length);
    } else if (!strcmp(shape, "title")) {
        in(NAME(DEFINITION));
        leaf(NAME(DEFINITION_LABEL_STRING), 0, 1);
        in(NAME(DEFINITION_TITLE_STRING));
        texts(nodes, length);
        out(NAME(DEFINITION_TITLE_STRING));
        out(NAME(DEFINITION));
    } else if (!strcmp(shape, "dropped-texts")) {
        begin_dropped();
        texts(nodes, length);
        end_dropped();
    } else if (!strcmp(shape, "dropped-links")) {
        definition(0, 1, length);
        begin_dropped();
        references(nodes);
        end_dropped();
    } else if (!strcmp(shape, "footnote-texts")) {
        begin_footnote(0, 1);
        texts(nodes, length);
        out(NAME(GFM_FOOTNOTE_DEFINITION));
    } else if (!strcmp(shape, "footnote-links")) {
        definition(0, 1, length);
        begin_footnote(0, 1);
        references(nodes);
        out(NAME(GFM_FOOTNOTE_DEFINITION));
    } else if (!strcmp(shape, "footnote-table")) {
        begin_footnote(0, 1);
        table(nodes / 2, nodes / 2, 0);
        out(NAME(GFM_FOOTNOTE_DEFINITION));
    } else if (!strcmp(shape, "footnote-centred")) {
        begin_footnote(0, 1);
        table(nodes / 2, nodes / 2, 1);
        out(NAME(GFM_FOOTNOTE_DEFINITION));
    } else if (!strcmp(shape, "links")) {
        definition(0, 1, length);
        references(nodes);
    } else if (!strcmp(shape, "label-images")) {
        definition(0, 1, length);
        in(NAME(LINK));
        in(NAME(LABEL));
        put(1, NAME(LABEL_TEXT), 0);
        for (size_t i = 0; i < nodes; i++) reference(NAME(IMAGE), 0, 1);
        put(2, NAME(LABEL_TEXT), 1);
        out(NAME(LABEL));
        out(NAME(LINK));
    } else if (!strcmp(shape, "table")) {
        table(nodes / 2, nodes / 2, 0);
    } else if (!strcmp(shape, "centred-table")) {
        table(nodes / 2, nodes / 2, 1);
    } else if (!strcmp(shape, "calls") || !strcmp(shape, "folded-calls")) {
        begin_footnote(0, length);
        out(NAME(GFM_FOOTNOTE_DEFINITION));
        calls(nodes, length);
    } else if (!strcmp(shape, "dropped-folded-calls") || !strcmp(shape, "dropped-prefixes")) {
        begin_footnote(0, folded(shape) ? length : 1);
        calls(nodes, folded(shape) ? length : 1);
        out(NAME(GFM_FOOTNOTE_DEFINITION));
    } else if (!strcmp(shape, "short-calls")) {
        begin_footnote(0, 1);
        out(NAME(GFM_FOOTNOTE_DEFINITION));
        calls(nodes, 1);
    } else if (!strcmp(shape, "labels") || !strcmp(shape, "folded-labels")) {
        size_t step = folded(shape) ? 2 : 1;
        for (size_t i = 0; i < nodes / 2; i++) definition(i * step, length, 0);
        for (size_t i = 0; i < nodes / 2; i++) reference(NAME(LINK), i * step, length);
    } else if (!strcmp(shape, "images")) {
        definition(0, 1, 0);
        for (size_t i = 0; i < nodes; i++) {
            in(NAME(IMAGE));
            in(NAME(LABEL));
            put(1, NAME(LABEL_TEXT), 0);
        }
        for (size_t i = 0; i < nodes; i++) {
            put(2, NAME(LABEL_TEXT), 1);
            out(NAME(LABEL));
            in(NAME(REFERENCE_STRING));
            texts(1, length);
            put(2, NAME(REFERENCE_STRING), 1);
            out(NAME(IMAGE));
        }
    } else if (!strcmp(shape, "names")) {
        named(nodes / 2, length);
    } else if (!strcmp(shape, "code")) {
        in(NAME(CODE_FENCED));
        in(NAME(CODE_FENCED_FENCE));
        in(NAME(CODE_FENCED_FENCE_META));
        texts(nodes, length);
        out(NAME(CODE_FENCED_FENCE_META));
        out(NAME(CODE_FENCED_FENCE));
        out(NAME(CODE_FENCED));
    } else {
        return 0;
    }
    return 1;
}

/* The peak memory of this program in kB, without that of the program that started it. */
static long peak(void) {
    FILE *status = fopen("/proc/self/status", "r");
    char line[256];
    long most = 0;
    while (status != NULL && fgets(line, sizeof line, status) != NULL)
        sscanf(line, "VmHWM: %ld", &most);
    if (status != NULL) fclose(status);
    return most;
}

int main(int given, char **words) {
    if (given != 6) return 2;
    size_t length = strtoull(words[2], NULL, 10) / 2 * 2;
    if (!make(words[1], length, strtoull(words[3], NULL, 10))) return 2;
    uint8_t *document = malloc(length + 1), *text = NULL;
    if (document == NULL) return 2;
    memset(document, '"', length);
    for (size_t i = 0; folded(words[1]) && i < length; i++) document[i] = i % 2 ? 0x90 : 0xCE;
    bivdrazo_options options = bivdrazo_options_default();
    if (!strcmp(words[1], "dropped-prefixes")) {
        bivdrazo_text prefix = {document, length, 1};
        options.gfm_footnote_clobber_prefix = prefix;
    }
    bivdrazo_reference *names = NULL;
    size_t names_count = 0;
    if (!strcmp(words[1], "names")) {
        names = malloc((length / 8 + 1) * sizeof *names);
        if (names == NULL) return 2;
        names_count = list_names(names, document, length);
    }
    bivdrazo_limits limits = {strtoull(words[4], NULL, 10), strtoull(words[5], NULL, 10), 0};
    long before = peak();
    clock_t began = clock();
    bivdrazo_answer answer = bivdrazo_compile_within_alloc(events, count, document, length,
                                                           &options, names, names_count,
                                                           &limits, &text);
    double seconds = (double)(clock() - began) / CLOCKS_PER_SEC;
    printf("%u %zu %.6f %ld %ld %zu\n", answer.status, answer.length, seconds, before, peak(),
           count);
    free(text);
    free(names);
    return 0;
}
