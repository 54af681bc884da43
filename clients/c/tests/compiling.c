/* Tests of texts, buffers, refusals and scripts. */
#include "test.h"

static void test_text(void) {
    bivdrazo_event events[4];
    paragraph(events, 6);
    CHECK(gives(events, 4, "Hi <b>", NULL, "<p>Hi &lt;b&gt;</p>"));
    CHECK(gives(NULL, 0, "", NULL, ""));
    CHECK(bivdrazo_version() == BIVDRAZO_VERSION);
}

static void test_buffer(void) {
    bivdrazo_event events[4];
    uint8_t buffer[32];
    const uint8_t *bytes = (const uint8_t *)"Hi <b>";
    const bivdrazo_options options = bivdrazo_options_default();
    const bivdrazo_reference name = {bytes, 0, bytes, 0};
    paragraph(events, 6);
    memset(buffer, 7, sizeof buffer);
    bivdrazo_answer answer = bivdrazo_compile(events, 4, bytes, 6, &options, &name, 0, buffer, 18);
    CHECK(answer.status == BIVDRAZO_TOO_SHORT && answer.length == 19 && answer.rule == 0 &&
          answer.index == 0);
    CHECK(buffer[0] == 7 && memcmp(buffer, buffer + 1, sizeof buffer - 1) == 0);
    answer = bivdrazo_compile(events, 4, bytes, 6, &options, &name, 0, buffer, 19);
    CHECK(answer.status == BIVDRAZO_OK && answer.length == 19 &&
          memcmp(buffer, "<p>Hi &lt;b&gt;</p>", 19) == 0);
    CHECK(buffer[19] == 7 && memcmp(buffer + 19, buffer + 20, sizeof buffer - 20) == 0);
}

static void test_refusals(void) {
    const bivdrazo_reference none = {(const uint8_t *)"", 0, (const uint8_t *)"", 0};
    const bivdrazo_reference names[2] = {none,
                                         {(const uint8_t *)"x", 1, (const uint8_t *)"\xff", 1}};
    const bivdrazo_options options = bivdrazo_options_default();
    bivdrazo_event events[4];
    paragraph(events, 1);
    CHECK(answers(events, 3, &options, &none, 0,
                  (bivdrazo_answer){BIVDRAZO_REFUSED, BIVDRAZO_RULE_ORDER, 3, 0}));
    CHECK(answers(events, 4, &options, names, 2, (bivdrazo_answer){BIVDRAZO_NO_NAME, 0, 1, 0}));
    events[2].index = 2;
    CHECK(answers(events, 4, &options, &none, 0,
                  (bivdrazo_answer){BIVDRAZO_REFUSED, BIVDRAZO_RULE_PLACE, 2, 0}));
    events[3].kind = 3;
    CHECK(answers(events, 4, &options, &none, 0, (bivdrazo_answer){BIVDRAZO_NO_EVENT, 0, 3, 0}));
    events[1].name = 87;
    CHECK(answers(events, 4, &options, &none, 0, (bivdrazo_answer){BIVDRAZO_NO_EVENT, 0, 1, 0}));
    events[0].name = 0;
    CHECK(answers(events, 4, &options, &none, 0, (bivdrazo_answer){BIVDRAZO_NO_EVENT, 0, 0, 0}));
}

static void test_lengths(void) {
    uint8_t *text;
    const uint8_t *bytes = (const uint8_t *)"";
    CHECK(bivdrazo_compile_alloc(NULL, 0, bytes, SIZE_MAX, NULL, NULL, 0, &text).status ==
              BIVDRAZO_MEMORY &&
          !text);
    CHECK(bivdrazo_compile_alloc(NULL, 0, bytes, PTRDIFF_MAX, NULL, NULL, 0, &text).status ==
              BIVDRAZO_MEMORY &&
          !text);
    CHECK(bivdrazo_run_alloc(bytes, SIZE_MAX, &text).status == BIVDRAZO_MEMORY && !text);
}

static void test_scripts(void) {
    const char *script = "+ThematicBreak 0\n-ThematicBreak 3\n--\n***";
    uint8_t *text;
    bivdrazo_answer answer = bivdrazo_run_alloc((const uint8_t *)script, strlen(script), &text);
    CHECK(answer.status == BIVDRAZO_OK && strcmp((char *)text, "<hr />") == 0);
    free(text);
    answer = bivdrazo_run_alloc(NULL, 0, &text);
    CHECK(answer.status == BIVDRAZO_NO_LINE && answer.index == 1 && text == NULL);
    answer = bivdrazo_run_alloc((const uint8_t *)"+Paragraph 0\n--", 15, &text);
    CHECK(answer.status == BIVDRAZO_REFUSED && answer.index == 1 &&
          answer.rule == BIVDRAZO_RULE_ORDER && text == NULL);
}

void test_compiling(void) {
    test_text();
    test_buffer();
    test_refusals();
    test_lengths();
    test_scripts();
}
