/* Tests of calls for memory: the number of calls for a text, and each request refused. */
#include "test.h"

#include "bivdrazo_markdown.h"

/* A text that fits into the first size takes one call. */
static void test_first_size(void) {
    bivdrazo_event events[4];
    const char letters[] = "abcdefghijklmnopqrstuvwxyzabcdefghijklmnopqrstuvwxyzabcdefghijkl";
    const char script[] = "+ThematicBreak 0\n-ThematicBreak 3\n--\n***";
    uint8_t *text;
    CHECK(bivdrazo_first_size(0, 0) == 64 && bivdrazo_first_size(0, 100) == 264 &&
          bivdrazo_first_size(10, 0) == 144);
    paragraph(events, 64);
    calls = 0;
    bivdrazo_answer answer =
        bivdrazo_compile_alloc(events, 4, (const uint8_t *)letters, 64, NULL, NULL, 0, &text);
    CHECK(answer.status == BIVDRAZO_OK && answer.length == 71 && calls == 1);
    free(text);
    calls = 0;
    answer = bivdrazo_run_alloc((const uint8_t *)script, strlen(script), &text);
    CHECK(answer.status == BIVDRAZO_OK && answer.length == 6 && calls == 1);
    free(text);
}

/* A text that needs more than the first size takes two. */
static void test_second_size(void) {
    bivdrazo_event events[4];
    const char quotes[] =
        "\"\"\"\"\"\"\"\"\"\"\"\"\"\"\"\"\"\"\"\"\"\"\"\"\"\"\"\"\"\"\"\"\"\"\"\"\"\"\"\"";
    uint8_t *text;
    paragraph(events, 40);
    calls = 0;
    bivdrazo_answer answer =
        bivdrazo_compile_alloc(events, 4, (const uint8_t *)quotes, 40, NULL, NULL, 0, &text);
    CHECK(answer.status == BIVDRAZO_OK && answer.length == 247 &&
          answer.length > bivdrazo_first_size(4, 40));
    CHECK(calls == 2);
    CHECK(text != NULL && strncmp((char *)text, "<p>&quot;", 9) == 0 &&
          strcmp((char *)text + 237, "&quot;</p>") == 0);
    free(text);
}

/* Each request for memory is refused, one per run: the answer reports it, and the buffer is
   unchanged; the last run returns a text.
 */
static void test_refused_memory(void) {
    static const char script[] =
        "!gfm_footnote_back_label=x\n+Paragraph 0\n+GfmFootnoteCall 0\n+Label 0\n+LabelText 0\n"
        "-LabelText 1\n-Label 1\n-GfmFootnoteCall 1\n-Paragraph 1\n+GfmFootnoteDefinition 1\n"
        "+GfmFootnoteDefinitionPrefix 1\n+GfmFootnoteDefinitionLabelString 1\n"
        "-GfmFootnoteDefinitionLabelString 2\n-GfmFootnoteDefinitionPrefix 2\n"
        "-GfmFootnoteDefinition 2\n--\naA";
    bivdrazo_answer answer = {BIVDRAZO_MEMORY, 0, 0, 0};
    size_t refused = 0;
    while (answer.status == BIVDRAZO_MEMORY && refused < 10000) {
        uint8_t buffer[1024] = {7};
        calls_left = refused++;
        answer = bivdrazo_run((const uint8_t *)script, sizeof script - 1, buffer, sizeof buffer);
        calls_left = SIZE_MAX;
        CHECK(answer.status == BIVDRAZO_OK ||
              (answer.status == BIVDRAZO_MEMORY && buffer[0] == 7 && buffer[1] == 0));
    }
    CHECK(answer.status == BIVDRAZO_OK && answer.index == 0 && refused > 10);
}

/* The same of Markdown whose headings get ids that are made of their texts. */
static void test_refused_memory_of_slugs(void) {
    static const char document[] = "# A *b*\n\n# a b\n\n# a b\n\n[c](d)[^e]\n\n[^e]: f\n";
    bivdrazo_markdown_options options = bivdrazo_markdown_options_default();
    bivdrazo_answer answer = {BIVDRAZO_MEMORY, 0, 0, 0};
    size_t refused = 0;
    uint8_t buffer[2048];
    options.rel = bivdrazo_text_of((const uint8_t *)"ugc", 3);
    options.heading_ids = bivdrazo_text_of((const uint8_t *)"g", 1);
    while (answer.status == BIVDRAZO_MEMORY && refused < 10000) {
        buffer[0] = 7;
        calls_left = refused++;
        answer = bivdrazo_markdown_slugs_into((const uint8_t *)document, sizeof document - 1,
                                              &options, buffer, sizeof buffer);
        calls_left = SIZE_MAX;
        CHECK(answer.status == BIVDRAZO_OK || (answer.status == BIVDRAZO_MEMORY && buffer[0] == 7));
    }
    CHECK(answer.status == BIVDRAZO_OK && refused > 20);
    const uint8_t *at = buffer + answer.index;
    const uint8_t *const end = buffer + answer.length;
    bivdrazo_heading heading;
    const char *id = NULL;
    size_t length = 0;
    for (size_t number = 1; number <= 3; number++)
        CHECK(bivdrazo_next_heading(&at, end, &heading) && heading.number == number);
    CHECK(!bivdrazo_next_heading(&at, end, &heading));
    CHECK(bivdrazo_next_id(&at, end, &id, &length) && length == 4 && memcmp(id, "ga-b", 4) == 0);
    CHECK(bivdrazo_next_id(&at, end, &id, &length) && length == 6 && memcmp(id, "ga-b-1", 6) == 0);
    CHECK(bivdrazo_next_id(&at, end, &id, &length) && length == 6 && memcmp(id, "ga-b-2", 6) == 0);
    CHECK(!bivdrazo_next_id(&at, end, &id, &length));
}

/* The wrappers answer out of memory too, and keep nothing. */
static void test_memory_of_wrappers(void) {
    bivdrazo_event events[4];
    bivdrazo_answer answer = {BIVDRAZO_MEMORY, 0, 0, 0};
    size_t refused = 0;
    uint8_t *text = NULL;
    paragraph(events, 1);
    while (answer.status == BIVDRAZO_MEMORY && refused < 10000) {
        calls_left = refused++;
        answer = bivdrazo_compile_alloc(events, 4, (const uint8_t *)"a", 1, NULL, NULL, 0, &text);
        calls_left = SIZE_MAX;
        CHECK((text == NULL) == (answer.status != BIVDRAZO_OK));
    }
    CHECK(answer.status == BIVDRAZO_OK && strcmp((char *)text, "<p>a</p>") == 0 && refused > 5);
    free(text);
}

void test_memory(void) {
    test_first_size();
    test_second_size();
    test_refused_memory();
    test_refused_memory_of_slugs();
    test_memory_of_wrappers();
}
