/* Tests of limits of the text, of the work and of the nesting. */
#include "test.h"

/*
 * Whether a paragraph of `Hi <b>` within limits has this answer, in a buffer of `room` bytes, and
 * with an allocated text after this number of calls.
 */
static int answers_within(size_t text_limit, size_t work_limit, size_t room, bivdrazo_answer wanted,
                          size_t wanted_calls) {
    const bivdrazo_limits limits = {text_limit, work_limit, 2};
    const uint8_t *bytes = (const uint8_t *)"Hi <b>";
    const bivdrazo_options options = bivdrazo_options_default();
    const bivdrazo_reference none = {bytes, 0, bytes, 0};
    uint8_t buffer[32];
    uint8_t *made;
    bivdrazo_event events[4];
    paragraph(events, 6);
    memset(buffer, 7, sizeof buffer);
    bivdrazo_answer answer =
        bivdrazo_compile_within(events, 4, bytes, 6, &options, &none, 0, &limits, buffer, room);
    const size_t done = answer.status == BIVDRAZO_OK ? answer.length : 0;
    int is_right = memcmp(&answer, &wanted, sizeof answer) == 0 &&
                   memcmp(buffer, "<p>Hi &lt;b&gt;</p>", done) == 0 && buffer[done] == 7 &&
                   memcmp(buffer + done, buffer + done + 1, sizeof buffer - done - 1) == 0;
    calls = 0;
    answer = bivdrazo_compile_within_alloc(events, 4, bytes, 6, NULL, NULL, 0, &limits, &made);
    is_right = is_right && calls == wanted_calls &&
               (answer.status == BIVDRAZO_OK
                    ? answer.length == 19 && strcmp((char *)made, "<p>Hi &lt;b&gt;</p>") == 0
                    : answer.status == wanted.status && made == NULL);
    free(made);
    return is_right;
}

/* A text and work at their exact amounts, and one less; limits 0 and the greatest. */
static void test_met_limits(void) {
    const bivdrazo_limits none = bivdrazo_limits_none();
    const bivdrazo_answer text = {BIVDRAZO_OK, 0, 0, 19};
    const bivdrazo_answer too_long = {BIVDRAZO_TOO_LONG, 0, 0, 0};
    const bivdrazo_answer too_much = {BIVDRAZO_TOO_MUCH, 0, 0, 0};
    CHECK(none.text == SIZE_MAX && none.work == SIZE_MAX && none.depth == 0);
    CHECK(answers_within(SIZE_MAX, SIZE_MAX, 32, text, 1));
    CHECK(answers_within(19, 6, 19, text, 1));
    CHECK(answers_within(18, 6, 32, too_long, 1));
    CHECK(answers_within(0, SIZE_MAX, 32, too_long, 1));
    CHECK(answers_within(SIZE_MAX, 5, 32, too_much, 1));
    CHECK(answers_within(0, 0, 32, too_much, 1));
    CHECK(answers_within(19, 6, 18, (bivdrazo_answer){BIVDRAZO_TOO_SHORT, 0, 0, 19}, 1));
}

/* Limits for no events, for refused ones, for invalid ones, and null limits. */
static void test_limits_refused(void) {
    const bivdrazo_limits least = {0, 0, 1};
    const bivdrazo_limits few = {SIZE_MAX, 5, 2};
    bivdrazo_event events[4];
    uint8_t *text;
    paragraph(events, 6);
    bivdrazo_answer answer =
        bivdrazo_compile_within_alloc(NULL, 0, NULL, 0, NULL, NULL, 0, &least, &text);
    CHECK(answer.status == BIVDRAZO_OK && answer.length == 0 && text != NULL && text[0] == 0);
    free(text);
    answer = bivdrazo_compile_within_alloc(events, 4, (const uint8_t *)"Hi <b>", 6, NULL, NULL, 0,
                                           NULL, &text);
    CHECK(answer.status == BIVDRAZO_OK && answer.length == 19);
    free(text);
    answer = bivdrazo_compile_within_alloc(events, 3, (const uint8_t *)"Hi <b>", 6, NULL, NULL, 0,
                                           NULL, &text);
    CHECK(answer.status == BIVDRAZO_REFUSED && answer.index == 3 &&
          answer.rule == BIVDRAZO_RULE_ORDER && !text);
    answer = bivdrazo_compile_within_alloc(events, 3, (const uint8_t *)"Hi <b>", 6, NULL, NULL, 0,
                                           &few, &text);
    CHECK(answer.status == BIVDRAZO_TOO_MUCH && answer.index == 0 && answer.rule == 0 && !text);
    events[3].kind = 3;
    answer = bivdrazo_compile_within_alloc(events, 4, (const uint8_t *)"Hi <b>", 6, NULL, NULL, 0,
                                           &few, &text);
    CHECK(answer.status == BIVDRAZO_NO_EVENT && answer.index == 3 && !text);
}

/* Adds the events of a node over no bytes to a list, around its events from `start` on. */
static void wrap(bivdrazo_event *events, size_t *length, size_t start, uint16_t name) {
    memmove(events + start + 1, events + start, (*length - start) * sizeof *events);
    events[start] = event(BIVDRAZO_ENTER, name, 0);
    events[*length + 1] = event(BIVDRAZO_EXIT, name, 0);
    *length += 2;
}

/* A row of a table's body is five times as much work as the table has columns. */
static void test_work(void) {
    bivdrazo_limits limits = {SIZE_MAX, 30, 0};
    bivdrazo_event events[64];
    size_t length = 0;
    uint8_t *text;
    wrap(events, &length, 0, BIVDRAZO_NAME_GFM_TABLE_ROW);
    const size_t head = length;
    for (int column = 0; column < 3; column++)
        wrap(events, &length, length, BIVDRAZO_NAME_GFM_TABLE_DELIMITER_CELL_VALUE);
    wrap(events, &length, head, BIVDRAZO_NAME_GFM_TABLE_DELIMITER_ROW);
    wrap(events, &length, 0, BIVDRAZO_NAME_GFM_TABLE_HEAD);
    const size_t body = length;
    wrap(events, &length, length, BIVDRAZO_NAME_GFM_TABLE_ROW);
    wrap(events, &length, length, BIVDRAZO_NAME_GFM_TABLE_ROW);
    wrap(events, &length, body, BIVDRAZO_NAME_GFM_TABLE_BODY);
    wrap(events, &length, 0, BIVDRAZO_NAME_GFM_TABLE);
    bivdrazo_answer answer =
        bivdrazo_compile_within_alloc(events, length, NULL, 0, NULL, NULL, 0, &limits, &text);
    CHECK(answer.status == BIVDRAZO_OK);
    free(text);
    limits.work = 29;
    answer = bivdrazo_compile_within_alloc(events, length, NULL, 0, NULL, NULL, 0, &limits, &text);
    CHECK(answer.status == BIVDRAZO_TOO_MUCH && text == NULL);
}

/* Events that nest at the limit and deeper, also ones that are no document's. */
static void test_depth(void) {
    bivdrazo_limits limits = {0, 0, 9};
    bivdrazo_event events[40];
    size_t length = 0;
    uint8_t *text;
    for (int level = 0; level < 9; level++)
        wrap(events, &length, 0, BIVDRAZO_NAME_BLOCK_QUOTE);
    bivdrazo_answer answer =
        bivdrazo_compile_within_alloc(events, length, NULL, 0, NULL, NULL, 0, &limits, &text);
    CHECK(answer.status == BIVDRAZO_TOO_LONG && text == NULL);
    limits.depth = 0;
    answer = bivdrazo_compile_within_alloc(events, length, NULL, 0, NULL, NULL, 0, &limits, &text);
    CHECK(answer.status == BIVDRAZO_TOO_LONG && text == NULL);
    limits.depth = 8;
    for (size_t few = 9; few <= length; few += 9) {
        answer = bivdrazo_compile_within_alloc(events, few, NULL, 0, NULL, NULL, 0, &limits, &text);
        CHECK(answer.status == BIVDRAZO_TOO_DEEP && answer.index == 0 && answer.rule == 0 && !text);
    }
    answer = bivdrazo_compile_within_alloc(events, 8, NULL, 0, NULL, NULL, 0, &limits, &text);
    CHECK(answer.status == BIVDRAZO_REFUSED && answer.index == 8 && !text);
}

/* The call within limits is out of memory too, at limits that the text has exactly. */
static void test_memory_of_limits(void) {
    const bivdrazo_limits limits = {8, 1, 0};
    bivdrazo_event events[4];
    bivdrazo_answer answer = {BIVDRAZO_MEMORY, 0, 0, 0};
    size_t refused = 0;
    uint8_t *text = NULL;
    paragraph(events, 1);
    while (answer.status == BIVDRAZO_MEMORY && refused < 10000) {
        calls_left = refused++;
        answer = bivdrazo_compile_within_alloc(events, 4, (const uint8_t *)"a", 1, NULL, NULL, 0,
                                               &limits, &text);
        calls_left = SIZE_MAX;
        CHECK((text == NULL) == (answer.status != BIVDRAZO_OK));
    }
    CHECK(answer.status == BIVDRAZO_OK && strcmp((char *)text, "<p>a</p>") == 0 && refused > 5);
    free(text);
}

void test_limits(void) {
    test_met_limits();
    test_limits_refused();
    test_work();
    test_depth();
    test_memory_of_limits();
}
