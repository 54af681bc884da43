/* Events, and what they give, for the other tests. */
#include "test.h"

bivdrazo_event event(uint8_t kind, uint16_t name, size_t index) {
    bivdrazo_event event = {index, name, 0, kind, 0};
    return event;
}

void paragraph(bivdrazo_event events[4], size_t length) {
    events[0] = event(BIVDRAZO_ENTER, BIVDRAZO_NAME_PARAGRAPH, 0);
    events[1] = event(BIVDRAZO_ENTER, BIVDRAZO_NAME_DATA, 0);
    events[2] = event(BIVDRAZO_EXIT, BIVDRAZO_NAME_DATA, length);
    events[3] = event(BIVDRAZO_EXIT, BIVDRAZO_NAME_PARAGRAPH, length);
}

void medium(bivdrazo_event events[14], uint16_t name, size_t open, size_t length) {
    events[0] = event(BIVDRAZO_ENTER, name, 0);
    events[1] = event(BIVDRAZO_ENTER, BIVDRAZO_NAME_LABEL, 0);
    events[2] = event(BIVDRAZO_ENTER, BIVDRAZO_NAME_LABEL_TEXT, open);
    events[3] = event(BIVDRAZO_ENTER, BIVDRAZO_NAME_DATA, open);
    events[4] = event(BIVDRAZO_EXIT, BIVDRAZO_NAME_DATA, open + 1);
    events[5] = event(BIVDRAZO_EXIT, BIVDRAZO_NAME_LABEL_TEXT, open + 1);
    events[6] = event(BIVDRAZO_EXIT, BIVDRAZO_NAME_LABEL, open + 2);
    events[7] = event(BIVDRAZO_ENTER, BIVDRAZO_NAME_RESOURCE, open + 2);
    events[8] = event(BIVDRAZO_ENTER, BIVDRAZO_NAME_RESOURCE_DESTINATION_STRING, open + 3);
    events[9] = event(BIVDRAZO_ENTER, BIVDRAZO_NAME_DATA, open + 3);
    events[10] = event(BIVDRAZO_EXIT, BIVDRAZO_NAME_DATA, length - 1);
    events[11] = event(BIVDRAZO_EXIT, BIVDRAZO_NAME_RESOURCE_DESTINATION_STRING, length - 1);
    events[12] = event(BIVDRAZO_EXIT, BIVDRAZO_NAME_RESOURCE, length);
    events[13] = event(BIVDRAZO_EXIT, name, length);
}

void heading(bivdrazo_event events[8], size_t length) {
    events[0] = event(BIVDRAZO_ENTER, BIVDRAZO_NAME_HEADING_ATX, 0);
    events[1] = event(BIVDRAZO_ENTER, BIVDRAZO_NAME_HEADING_ATX_SEQUENCE, 0);
    events[2] = event(BIVDRAZO_EXIT, BIVDRAZO_NAME_HEADING_ATX_SEQUENCE, 1);
    events[3] = event(BIVDRAZO_ENTER, BIVDRAZO_NAME_HEADING_ATX_TEXT, 2);
    events[4] = event(BIVDRAZO_ENTER, BIVDRAZO_NAME_DATA, 2);
    events[5] = event(BIVDRAZO_EXIT, BIVDRAZO_NAME_DATA, length);
    events[6] = event(BIVDRAZO_EXIT, BIVDRAZO_NAME_HEADING_ATX_TEXT, length);
    events[7] = event(BIVDRAZO_EXIT, BIVDRAZO_NAME_HEADING_ATX, length);
}

int gives(const bivdrazo_event *events, size_t events_length, const char *document,
          const bivdrazo_options *options, const char *text) {
    uint8_t *made;
    bivdrazo_answer answer =
        bivdrazo_compile_alloc(events, events_length, (const uint8_t *)document, strlen(document),
                               options, NULL, 0, &made);
    const int same = answer.status == BIVDRAZO_OK && answer.length == strlen(text) &&
                     strcmp((char *)made, text) == 0;
    free(made);
    return same;
}

int answers(const bivdrazo_event *events, size_t length, const bivdrazo_options *options,
            const bivdrazo_reference *names, size_t names_length, bivdrazo_answer wanted) {
    uint8_t buffer[8] = {7, 7, 7, 7, 7, 7, 7, 7};
    uint8_t *text;
    const uint8_t *bytes = (const uint8_t *)"a";
    bivdrazo_answer answer = bivdrazo_compile(events, length, bytes, 1, options, names,
                                              names_length, buffer, sizeof buffer);
    bivdrazo_answer again =
        bivdrazo_compile_alloc(events, length, bytes, 1, options, names, names_length, &text);
    return memcmp(&answer, &wanted, sizeof answer) == 0 &&
           memcmp(&again, &wanted, sizeof again) == 0 && text == NULL &&
           memcmp(buffer, "\7\7\7\7\7\7\7\7", sizeof buffer) == 0;
}
