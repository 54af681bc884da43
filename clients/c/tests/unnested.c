/* Tests of texts without a link in a link. */
#include "test.h"

/* The status of events over a document. */
static uint32_t status_of(const bivdrazo_event *events, size_t events_length, const char *document,
                          const bivdrazo_options *options, const char *wanted) {
    uint8_t *made;
    const bivdrazo_answer answer =
        bivdrazo_compile_unnested_alloc(events, events_length, (const uint8_t *)document,
                                        strlen(document), options, NULL, 0, &made);
    CHECK(answer.rule == 0 && answer.index == 0);
    CHECK(wanted == NULL ? made == NULL && answer.length == 0
                         : made != NULL && strcmp((char *)made, wanted) == 0);
    free(made);
    return answer.status;
}

/* Events with an automatic link in a link. */
static void test_has_nested_link(bivdrazo_event *events) {
    bivdrazo_answer answer = bivdrazo_has_nested_link(events, 14);
    CHECK(answer.status == BIVDRAZO_NESTED && answer.index == 0 && answer.length == 0);
    events[3].name = events[4].name = BIVDRAZO_NAME_DATA;
    answer = bivdrazo_has_nested_link(events, 14);
    CHECK(answer.status == BIVDRAZO_OK && answer.index == 0 && answer.length == 0);
    CHECK(bivdrazo_has_nested_link(events, 0).status == BIVDRAZO_OK);
    events[5].kind = 3;
    answer = bivdrazo_has_nested_link(events, 14);
    CHECK(answer.status == BIVDRAZO_NO_EVENT && answer.index == 5);
}

void test_unnested(void) {
    bivdrazo_event plain[14];
    bivdrazo_options options = bivdrazo_options_default();
    medium(plain, BIVDRAZO_NAME_LINK, 1, 6);
    CHECK(status_of(plain, 14, "[a](b)", NULL, "<a href=\"b\">a</a>") == BIVDRAZO_OK);
    options.allow_dangerous_html = 1;
    CHECK(status_of(plain, 14, "[a](b)", &options, NULL) == BIVDRAZO_UNSAFE);
    uint8_t buffer[20] = {7};
    const bivdrazo_reference none = {buffer, 0, buffer, 0};
    options = bivdrazo_options_default();
    const bivdrazo_answer answer = bivdrazo_compile_unnested(
        plain, 14, (const uint8_t *)"[a](b)", 6, &options, &none, 0, buffer, 16);
    CHECK(answer.status == BIVDRAZO_TOO_SHORT && answer.length == 17 && buffer[0] == 7);
    plain[3].name = plain[4].name = BIVDRAZO_NAME_AUTOLINK_PROTOCOL;
    CHECK(status_of(plain, 14, "[a](b)", NULL, NULL) == BIVDRAZO_NESTED);
    test_has_nested_link(plain);
}
