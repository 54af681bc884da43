/* Tests of options: their defaults, those that are null, and those that are set. */
#include "test.h"

/* Each field of the default options: seven numbers, of which a line ending is BIVDRAZO_LINE_FEED,
   and five texts. */
static void test_defaults(void) {
    const bivdrazo_options options = bivdrazo_options_default();
    unsigned char numbers[7];
    bivdrazo_text texts[5];
    memcpy(numbers, &options, sizeof numbers);
    memcpy(texts, (const unsigned char *)&options + 8, sizeof texts);
    for (size_t at = 0; at < sizeof numbers; at++)
        CHECK(numbers[at] == 0);
    for (size_t at = 0; at < sizeof texts / sizeof *texts; at++)
        CHECK(texts[at].is_set == 0 && texts[at].bytes != NULL && texts[at].length == 0);
}

/* Null options and the default ones give that text, and others another one. */
static void gives_by_default(const bivdrazo_event *events, size_t length, const char *document,
                             const char *text, const bivdrazo_options *others,
                             const char *other_text) {
    const bivdrazo_options options = bivdrazo_options_default();
    CHECK(gives(events, length, document, NULL, text));
    CHECK(gives(events, length, document, &options, text));
    CHECK(gives(events, length, document, others, other_text));
}

/* What the default options leave out, and what it is where an option lets it in. */
static void test_null_options(void) {
    const bivdrazo_event breaks[4] = {event(BIVDRAZO_ENTER, BIVDRAZO_NAME_THEMATIC_BREAK, 0),
                                      event(BIVDRAZO_EXIT, BIVDRAZO_NAME_THEMATIC_BREAK, 3),
                                      event(BIVDRAZO_ENTER, BIVDRAZO_NAME_THEMATIC_BREAK, 3),
                                      event(BIVDRAZO_EXIT, BIVDRAZO_NAME_THEMATIC_BREAK, 6)};
    const bivdrazo_event html[4] = {event(BIVDRAZO_ENTER, BIVDRAZO_NAME_HTML_FLOW, 0),
                                    event(BIVDRAZO_ENTER, BIVDRAZO_NAME_HTML_FLOW_DATA, 0),
                                    event(BIVDRAZO_EXIT, BIVDRAZO_NAME_HTML_FLOW_DATA, 5),
                                    event(BIVDRAZO_EXIT, BIVDRAZO_NAME_HTML_FLOW, 5)};
    bivdrazo_event events[14];
    bivdrazo_options options = bivdrazo_options_default();
    options.allow_dangerous_protocol = 1;
    medium(events, BIVDRAZO_NAME_LINK, 1, 17);
    gives_by_default(events, 14, "[a](javascript:b)", "<a href=\"\">a</a>", &options,
                     "<a href=\"javascript:b\">a</a>");
    medium(events, BIVDRAZO_NAME_LINK, 1, 13);
    gives_by_default(events, 14, "[a](mailto:b)", "<a href=\"mailto:b\">a</a>", &options,
                     "<a href=\"mailto:b\">a</a>");
    options.allow_dangerous_protocol = 0;
    options.allow_any_img_src = 1;
    medium(events, BIVDRAZO_NAME_IMAGE, 2, 12);
    gives_by_default(events, 14, "![a](data:b)", "<img src=\"\" alt=\"a\" />", &options,
                     "<img src=\"data:b\" alt=\"a\" />");
    options.allow_any_img_src = 0;
    options.default_line_ending = BIVDRAZO_CARRIAGE_RETURN;
    gives_by_default(breaks, 4, "******", "<hr />\n<hr />", &options, "<hr />\r<hr />");
    options.default_line_ending = BIVDRAZO_CARRIAGE_RETURN_LINE_FEED;
    gives_by_default(breaks, 4, "******", "<hr />\n<hr />", &options, "<hr />\r\n<hr />");
    options.allow_dangerous_html = 1;
    gives_by_default(html, 4, "<xmp>", "&lt;xmp&gt;", &options, "<xmp>");
    options.gfm_tagfilter = 1;
    gives_by_default(html, 4, "<xmp>", "&lt;xmp&gt;", &options, "&lt;xmp>");
}

static void test_set_options(void) {
    const bivdrazo_reference none = {(const uint8_t *)"", 0, (const uint8_t *)"", 0};
    const bivdrazo_event html[4] = {event(BIVDRAZO_ENTER, BIVDRAZO_NAME_HTML_FLOW, 0),
                                    event(BIVDRAZO_ENTER, BIVDRAZO_NAME_HTML_FLOW_DATA, 0),
                                    event(BIVDRAZO_EXIT, BIVDRAZO_NAME_HTML_FLOW_DATA, 3),
                                    event(BIVDRAZO_EXIT, BIVDRAZO_NAME_HTML_FLOW, 3)};
    bivdrazo_options options = bivdrazo_options_default();
    CHECK(gives(html, 4, "<i>", &options, "&lt;i&gt;"));
    options.allow_dangerous_html = 1;
    CHECK(gives(html, 4, "<i>", &options, "<i>"));
    options.default_line_ending = 3;
    CHECK(answers(html, 0, &options, &none, 0, (bivdrazo_answer){BIVDRAZO_NO_OPTION, 0, 5, 0}));
    options.default_line_ending = BIVDRAZO_CARRIAGE_RETURN;
    options.gfm_footnote_label = bivdrazo_text_of((const uint8_t *)"\xc3", 1);
    CHECK(answers(html, 0, &options, &none, 0,
                  (bivdrazo_answer){BIVDRAZO_NO_OPTION, 0, BIVDRAZO_OPTION_GFM_FOOTNOTE_LABEL, 0}));
    options.gfm_footnote_label = bivdrazo_text_unset();
    options.gfm_tagfilter = 2;
    CHECK(answers(html, 0, &options, &none, 0, (bivdrazo_answer){BIVDRAZO_NO_OPTION, 0, 4, 0}));
    options.gfm_tagfilter = 1;
    options.gfm_footnote_number_ids = 2;
    CHECK(answers(html, 0, &options, &none, 0, (bivdrazo_answer){BIVDRAZO_NO_OPTION, 0, 11, 0}));
}

void test_options(void) {
    test_defaults();
    test_null_options();
    test_set_options();
}
