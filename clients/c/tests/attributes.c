/* Tests of a `rel` on links and of ids on headings. */
#include "test.h"

/* Whether events have that text with those attributes, and one heading of that text or none. */
static int has_attributes(const bivdrazo_event *events, size_t events_length, const char *document,
                          const bivdrazo_attributes *attributes, const char *text,
                          const char *wanted) {
    uint8_t *made;
    bivdrazo_heading found = {0, "", 0, 0};
    const bivdrazo_answer answer =
        bivdrazo_compile_attributed_alloc(events, events_length, (const uint8_t *)document,
                                          strlen(document), NULL, NULL, 0, attributes, &made);
    if (answer.status != BIVDRAZO_OK)
        return 0;
    const uint8_t *at = made + answer.index;
    int is_right = answer.index == strlen(text) && strcmp((char *)made, text) == 0;
    if (wanted != NULL)
        is_right = is_right && bivdrazo_next_heading(&at, made + answer.length, &found) &&
                   found.level == 1 && found.number == 1 && found.text_length == strlen(wanted) &&
                   memcmp(found.text, wanted, found.text_length) == 0;
    is_right = is_right && !bivdrazo_next_heading(&at, made + answer.length, &found);
    free(made);
    return is_right;
}

/* A `rel` on links, ids on headings, both, and neither. */
static void test_added_attributes(void) {
    bivdrazo_event link[14];
    bivdrazo_event title[8];
    bivdrazo_attributes attributes = bivdrazo_attributes_none();
    medium(link, BIVDRAZO_NAME_LINK, 1, 6);
    heading(title, 5);
    CHECK(has_attributes(link, 14, "[a](b)", NULL, "<a href=\"b\">a</a>", NULL));
    CHECK(has_attributes(title, 8, "# a<b", &attributes, "<h1>a&lt;b</h1>", NULL));
    attributes.rel = bivdrazo_text_of((const uint8_t *)"ugc\"", 4);
    CHECK(has_attributes(link, 14, "[a](b)", &attributes, "<a href=\"b\" rel=\"ugc&quot;\">a</a>",
                         NULL));
    CHECK(has_attributes(link, 14, "[a](#)", &attributes, "<a href=\"#\">a</a>", NULL));
    attributes.heading_ids = bivdrazo_text_of((const uint8_t *)"", 0);
    CHECK(has_attributes(title, 8, "# a<b", &attributes, "<h1 id=\"1\">a&lt;b</h1>", "a&lt;b"));
    CHECK(has_attributes(link, 14, "[a](b)", &attributes, "<a href=\"b\" rel=\"ugc&quot;\">a</a>",
                         NULL));
}

/* What is answered where there is no text with attributes; a buffer that is too short. */
static void test_attributes_refused(void) {
    static const uint8_t document[] = "# a";
    const bivdrazo_reference none = {document, 0, document, 0};
    bivdrazo_event events[8];
    uint8_t buffer[32] = {7};
    bivdrazo_options options = bivdrazo_options_default();
    bivdrazo_attributes attributes = bivdrazo_attributes_none();
    heading(events, 3);
    attributes.heading_ids = bivdrazo_text_of((const uint8_t *)"b", 1);
    bivdrazo_answer answer = bivdrazo_compile_attributed(events, 8, document, 3, &options, &none, 0,
                                                         &attributes, buffer, 22);
    CHECK(answer.status == BIVDRAZO_TOO_SHORT && answer.index == 18 && answer.length == 24 &&
          buffer[0] == 7);
    answer = bivdrazo_compile_attributed(events, 8, document, 3, &options, &none, 0, &attributes,
                                         buffer, 24);
    CHECK(answer.status == BIVDRAZO_OK && answer.index == 18 && answer.length == 24);
    CHECK(memcmp(buffer, "<h1 id=\"b1\">a</h1>\0001 1 a", 24) == 0 && buffer[24] == 0);
    options.allow_dangerous_protocol = 1;
    answer = bivdrazo_compile_attributed(events, 8, document, 3, &options, &none, 0, &attributes,
                                         buffer, 32);
    CHECK(answer.status == BIVDRAZO_UNSAFE && answer.index == 0 && answer.length == 0 &&
          answer.rule == 0);
    options.allow_dangerous_protocol = 0;
    attributes.heading_ids = bivdrazo_text_of((const uint8_t *)"\xff", 1);
    answer = bivdrazo_compile_attributed(events, 8, document, 3, &options, &none, 0, &attributes,
                                         buffer, 32);
    CHECK(answer.status == BIVDRAZO_NO_ATTRIBUTE && answer.index == BIVDRAZO_ATTRIBUTE_HEADING_IDS);
    attributes.rel.is_set = 2;
    attributes.heading_ids = bivdrazo_text_unset();
    answer = bivdrazo_compile_attributed(events, 8, document, 3, &options, &none, 0, &attributes,
                                         buffer, 32);
    CHECK(answer.status == BIVDRAZO_NO_ATTRIBUTE && answer.index == BIVDRAZO_ATTRIBUTE_REL);
    attributes.rel = bivdrazo_text_unset();
    answer = bivdrazo_compile_attributed(events, 7, document, 3, &options, &none, 0, &attributes,
                                         buffer, 32);
    CHECK(answer.status == BIVDRAZO_REFUSED && answer.index == 7 &&
          answer.rule == BIVDRAZO_RULE_ORDER);
}

/* The call with attributes is out of memory too, or finds a text without the refused request. */
static void test_memory_of_attributes(void) {
    bivdrazo_event events[8];
    bivdrazo_attributes attributes = bivdrazo_attributes_none();
    size_t told = 0;
    heading(events, 3);
    attributes.rel = bivdrazo_text_of((const uint8_t *)"c", 1);
    attributes.heading_ids = bivdrazo_text_of((const uint8_t *)"b", 1);
    for (size_t refused = 0; refused < 100; refused++) {
        uint8_t *text = NULL;
        calls_left = refused;
        const bivdrazo_answer answer = bivdrazo_compile_attributed_alloc(
            events, 8, (const uint8_t *)"# a", 3, NULL, NULL, 0, &attributes, &text);
        calls_left = SIZE_MAX;
        CHECK(answer.status == BIVDRAZO_OK ? strcmp((char *)text, "<h1 id=\"b1\">a</h1>") == 0
                                           : text == NULL);
        CHECK(answer.status == BIVDRAZO_OK || answer.status == BIVDRAZO_MEMORY);
        told += answer.status == BIVDRAZO_MEMORY;
        free(text);
    }
    CHECK(told > 10 && told < 50);
}

void test_attributes(void) {
    test_added_attributes();
    test_attributes_refused();
    test_memory_of_attributes();
}
