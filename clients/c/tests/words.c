/* Tests of what statuses, rules and names are called, and of the names of references. */
#include "test.h"
#include "bivdrazo_references.h"

/* What each status means. */
static void test_status_texts(void) {
    static const struct {
        uint32_t status;
        const char *text;
    } texts[] = {{BIVDRAZO_OK, "there is a text"},
                 {BIVDRAZO_TOO_SHORT, "the buffer is too short"},
                 {BIVDRAZO_REFUSED, "an event is refused"},
                 {BIVDRAZO_NO_EVENT, "an event has no such kind or name"},
                 {BIVDRAZO_NO_NAME, "a character reference isn't UTF-8"},
                 {BIVDRAZO_NO_OPTION, "an option has no such value"},
                 {BIVDRAZO_NO_LINE, "a line of the script can't be read"},
                 {BIVDRAZO_MEMORY, "out of memory"},
                 {BIVDRAZO_UNSAFE, "the options aren't safe"},
                 {BIVDRAZO_NO_ATTRIBUTE, "an attribute has no such value"},
                 {BIVDRAZO_TOO_LONG, "the text is too long"},
                 {BIVDRAZO_TOO_MUCH, "there is too much work"},
                 {BIVDRAZO_NESTED, "a link is in a link"},
                 {BIVDRAZO_TOO_DEEP, "the events nest too deep"},
                 {BIVDRAZO_TOO_DEEP + 1, "an unknown status"},
                 {UINT32_MAX, "an unknown status"}};
    for (size_t at = 0; at < sizeof texts / sizeof *texts; at++)
        CHECK(strcmp(bivdrazo_status_text(texts[at].status), texts[at].text) == 0);
}

static void test_rule_and_name_texts(void) {
    CHECK(strcmp(bivdrazo_rule_text(BIVDRAZO_RULE_MDX), "a name of MDX") == 0);
    CHECK(strcmp(bivdrazo_rule_text(BIVDRAZO_RULE_TARGET), "a link or an image has no target") ==
          0);
    for (uint32_t rule = BIVDRAZO_RULE_ORDER; rule <= BIVDRAZO_RULE_TARGET; rule++)
        CHECK(strcmp(bivdrazo_rule_text(rule), "an unknown rule") != 0);
    CHECK(strcmp(bivdrazo_rule_text(0), "an unknown rule") == 0);
    CHECK(strcmp(bivdrazo_name_text(BIVDRAZO_NAME_MDX_JSX_TEXT_TAG), "MdxJsxTextTag") == 0);
    CHECK(bivdrazo_name_text(0) == NULL && bivdrazo_name_text(BIVDRAZO_NAME_OTHER) == NULL);
}

/* Some of HTML's names, each in its own document. */
static void test_references(void) {
    for (size_t at = 0; at < BIVDRAZO_REFERENCES_LENGTH; at += 17) {
        const bivdrazo_reference *reference = &BIVDRAZO_REFERENCES[at];
        const bivdrazo_event events[] = {
            {.index = 0, .name = BIVDRAZO_NAME_CHARACTER_REFERENCE_MARKER, .kind = BIVDRAZO_ENTER},
            {.index = 0, .name = BIVDRAZO_NAME_CHARACTER_REFERENCE_MARKER, .kind = BIVDRAZO_EXIT},
            {.index = 0, .name = BIVDRAZO_NAME_CHARACTER_REFERENCE_VALUE, .kind = BIVDRAZO_ENTER},
            {.index = reference->name_length,
             .name = BIVDRAZO_NAME_CHARACTER_REFERENCE_VALUE,
             .kind = BIVDRAZO_EXIT}};
        uint8_t *text;
        const bivdrazo_answer answer =
            bivdrazo_compile_alloc(events, 4, reference->name, reference->name_length, NULL,
                                   BIVDRAZO_REFERENCES, BIVDRAZO_REFERENCES_LENGTH, &text);
        const int is_escaped = strchr("&<>\"", reference->text[0]) != NULL;
        CHECK(answer.status == BIVDRAZO_OK);
        CHECK(is_escaped || (answer.length == reference->text_length &&
                             memcmp(text, reference->text, reference->text_length) == 0));
        free(text);
    }
}

void test_words(void) {
    test_status_texts();
    test_rule_and_name_texts();
    test_references();
}
