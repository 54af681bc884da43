/* Tests of the calls with Markdown: each option by itself, each status, buffers of each size, and
   calls from many threads. */
#include "bivdrazo_markdown.h"

#include <pthread.h>
#include <stdio.h>
#include <string.h>

static int failures;

static void check(int is_right, const char *what) {
    if (!is_right) {
        printf("c/markdown_test: %s\n", what);
        failures++;
    }
}

static bivdrazo_text text_of(const char *text) {
    return bivdrazo_text_of((const uint8_t *)text, strlen(text));
}

/* Whether a document has this text under these options. */
static int renders(const char *text, const bivdrazo_markdown_options *options, const char *wanted) {
    char *html;
    const bivdrazo_answer answer =
        bivdrazo_markdown((const uint8_t *)text, strlen(text), options, &html);
    const int is_right = answer.status == BIVDRAZO_OK && answer.length == strlen(wanted) &&
                         strcmp(html, wanted) == 0;
    if (!is_right)
        printf("status %u: %s\n", answer.status, html == NULL ? "null" : html);
    bivdrazo_markdown_free(html);
    return is_right;
}

/* Whether a document's text holds a part under these options. */
static int holds(const char *text, const bivdrazo_markdown_options *options, const char *part) {
    char *html;
    const bivdrazo_answer answer =
        bivdrazo_markdown((const uint8_t *)text, strlen(text), options, &html);
    const int is_right = answer.status == BIVDRAZO_OK && strstr(html, part) != NULL;
    bivdrazo_markdown_free(html);
    return is_right;
}

/* Whether there is no text, for this cause. */
static int fails(const void *text, size_t length, const bivdrazo_markdown_options *options,
                 uint32_t status, size_t index) {
    char *html = (char *)&failures;
    const bivdrazo_answer answer = bivdrazo_markdown(text, length, options, &html);
    const size_t told = status == BIVDRAZO_MARKDOWN_INPUT_TOO_LONG ? length : 0;
    return html == NULL && answer.status == status && answer.index == index && answer.rule == 0 &&
           answer.length == told;
}

static void test_texts(void) {
    const bivdrazo_markdown_options defaults = bivdrazo_markdown_options_default();
    check(bivdrazo_markdown_version() == BIVDRAZO_MARKDOWN_VERSION, "the version");
    check(renders("**a** <b>", NULL, "<p><strong>a</strong> &lt;b&gt;</p>\n"), "no options");
    check(renders("**a** <b>", &defaults, "<p><strong>a</strong> &lt;b&gt;</p>\n"),
          "default options");
    check(renders("[a](javascript:b)", NULL, "<p><a href=\"\">a</a></p>\n"), "a protocol");
    check(renders("", NULL, ""), "no Markdown");
    char *html;
    check(bivdrazo_markdown(NULL, 0, NULL, &html).status == BIVDRAZO_OK && html != NULL &&
              *html == 0,
          "null");
    bivdrazo_markdown_free(html);
    check(bivdrazo_markdown((const uint8_t *)"a\0b", 3, NULL, &html).length == 13, "NUL");
    check(html != NULL && strcmp(html, "<p>a\xEF\xBF\xBD" "b</p>\n") == 0, "NUL in a text");
    bivdrazo_markdown_free(html);
    bivdrazo_markdown_free(NULL);
}

static void test_options(void) {
    bivdrazo_markdown_options options = bivdrazo_markdown_options_default();
    options.hard_breaks = 1;
    check(renders("a\nb", &options, "<p>a<br />\nb</p>\n"), "hard breaks");
    options = bivdrazo_markdown_options_default();
    options.bare_links = 0;
    check(renders("www.a.org", &options, "<p>www.a.org</p>\n"), "no bare links");
    options = bivdrazo_markdown_options_default();
    options.html = BIVDRAZO_MARKDOWN_HTML_LEFT_OUT;
    check(renders("<b>a</b>", &options, "<p>a</p>\n"), "HTML left out");
    options.html = BIVDRAZO_MARKDOWN_HTML_WITHOUT_COMMENTS;
    check(renders("<b>a<!-- c -->", &options, "<p>&lt;b&gt;a</p>\n"), "no comments");
    options = bivdrazo_markdown_options_default();
    options.base = text_of("https://a.b/c/");
    check(renders("[d](e)", &options, "<p><a href=\"https://a.b/c/e\">d</a></p>\n"), "a base");
}

/* HTML of authors: kept tags, and what is done with the rest. */
static void test_kept(void) {
    static const char *const cases[][3] = {
        {"H<sub>2</sub>O", "<p>H<sub>2</sub>O</p>\n", "<p>H<sub>2</sub>O</p>\n"},
        {"a <font>b</font>", "<p>a b</p>\n", "<p>a &lt;font&gt;b&lt;/font&gt;</p>\n"},
        {"<b>a <i>b</b> c</i>", "<p><b>a b</b> c</p>\n",
         "<p><b>a &lt;i&gt;b</b> c&lt;/i&gt;</p>\n"},
        {"a<!-- b -->", "<p>a</p>\n", "<p>a</p>\n"},
        {"a <script>b</script>", "<p>a b</p>\n", "<p>a &lt;script&gt;b&lt;/script&gt;</p>\n"},
        {"<a href=\"javascript:b\" onclick=\"c\">d</a>", "<p><a>d</a></p>\n",
         "<p><a>d</a></p>\n"},
        {"a < b", "<p>a &lt; b</p>\n", "<p>a &lt; b</p>\n"}};
    bivdrazo_markdown_options options = bivdrazo_markdown_options_default();
    for (size_t at = 0; at < sizeof cases / sizeof *cases; at++) {
        options.html = BIVDRAZO_MARKDOWN_HTML_KEPT;
        check(renders(cases[at][0], &options, cases[at][1]), "kept HTML");
        options.html = BIVDRAZO_MARKDOWN_HTML_KEPT_OR_TEXT;
        check(renders(cases[at][0], &options, cases[at][2]), "kept HTML, the rest as text");
    }
    options.html = BIVDRAZO_MARKDOWN_HTML_KEPT;
    options.rel = text_of("ugc");
    check(renders("<a href=\"b\">a</a>", &options, "<p><a href=\"b\" rel=\"ugc\">a</a></p>\n"),
          "a link of an author");
    options.heading_ids = text_of("p");
    check(renders("<h2>a</h2>", &options, "<h2 id=\"p1\">a</h2>\n"), "a heading of an author");
    options = bivdrazo_markdown_options_default();
    options.html = BIVDRAZO_MARKDOWN_HTML_KEPT;
    options.max_input = 9;
    options.max_output = 17;
    check(renders("<b>a</b>b", &options, "<p><b>a</b>b</p>\n"), "a text within its bound");
    check(fails("<b>a</b>bc", 10, &options, BIVDRAZO_MARKDOWN_INPUT_TOO_LONG, 0),
          "an input past its bound");
    options.max_output = 16;
    check(fails("<b>a</b>b", 9, &options, BIVDRAZO_MARKDOWN_OUTPUT_TOO_LONG, 0),
          "a text past its bound");
    options.max_output = SIZE_MAX;
    options.max_work = 1;
    check(fails("<b>a</b>b", 9, &options, BIVDRAZO_MARKDOWN_TOO_MUCH_WORK, 0), "too much work");
}

/* What is read besides CommonMark. */
static void test_readings(void) {
    static const char table[] = "|a|\n|-|\n";
    static const char note[] = "a[^b]\n\n[^b]: c\n";
    static const char front[] = "---\na: b\n---\nc\n";
    bivdrazo_markdown_options options = bivdrazo_markdown_options_default();
    check(renders("$a$", NULL, "<p>$a$</p>\n"), "no math");
    options.math = 1;
    check(holds("$a$", &options, "<code class=\"language-math math-inline\">a</code>"), "math");
    options = bivdrazo_markdown_options_default();
    check(holds(front, NULL, "<h2>a: b</h2>"), "no front matter");
    options.front_matter = 1;
    check(renders(front, &options, "<p>c</p>\n"), "front matter");
    options = bivdrazo_markdown_options_default();
    check(holds(table, NULL, "<table>"), "a table");
    options.tables = 0;
    check(renders(table, &options, "<p>|a|\n|-|</p>\n"), "no tables");
    options = bivdrazo_markdown_options_default();
    options.footnotes = 0;
    check(renders(note, &options, "<p>a<a href=\"c\">^b</a></p>\n"), "no footnotes");
}

/* The place of front matter. */
static void test_front_matter(void) {
    const struct {
        const char *text;
        size_t index, length;
    } cases[] = {
        {"", 0, 0},
        {"a\n", 0, 0},
        {"---\na: b\n---\nc\n", 4, 5},
        {"---\na: b\n", 0, 0},
        {"---\r\na\r\n---\r\n", 5, 3},
        {"\xEF\xBB\xBF---\na\n---\n", 7, 2},
        {"a\n---\nb\n---\n", 0, 0},
    };
    for (size_t at = 0; at < sizeof cases / sizeof *cases; at++) {
        const char *text = cases[at].text;
        const bivdrazo_answer answer = bivdrazo_front_matter((const uint8_t *)text, strlen(text));
        check(answer.status == BIVDRAZO_OK && answer.index == cases[at].index &&
                  answer.length == cases[at].length,
              text);
    }
    const bivdrazo_answer answer = bivdrazo_front_matter((const uint8_t *)"ab\xFF", 3);
    check(answer.status == BIVDRAZO_MARKDOWN_NOT_UTF8 && answer.index == 2 && answer.length == 0,
          "front matter that isn't UTF-8");
}

/* Whether a buffer of that size is handed what it has room for, and else nothing. */
static int fills(const char *text, const bivdrazo_markdown_options *options, size_t room) {
    static const char wanted[] = "<h1 id=\"x1\">a &lt;</h1>\n<p>b</p>\n\0"
                                 "1 1 a &lt;";
    const size_t length = sizeof wanted - 1;
    const size_t start = strlen(wanted);
    uint8_t buffer[100];
    uint8_t before[100];
    memset(before, 7, sizeof before);
    memcpy(buffer, before, sizeof buffer);
    const bivdrazo_answer answer =
        bivdrazo_markdown_into((const uint8_t *)text, strlen(text), options, buffer, room);
    const size_t filled = room < length ? 0 : length;
    return answer.status == (filled ? BIVDRAZO_OK : BIVDRAZO_TOO_SHORT) && answer.rule == 0 &&
           answer.index == start && answer.length == length &&
           memcmp(buffer, wanted, filled) == 0 &&
           memcmp(buffer + filled, before, sizeof buffer - filled) == 0;
}

static void test_buffers(void) {
    bivdrazo_markdown_options options = bivdrazo_markdown_options_default();
    options.heading_ids = text_of("x");
    for (size_t room = 0; room <= 100; room++)
        check(fills("# a <\nb\n", &options, room), "a buffer");
    const uint8_t *at = (const uint8_t *)"\0"
                                         "2 12 a\nb\0"
                                         "3 13 ";
    const uint8_t *end = at + 15;
    bivdrazo_heading heading;
    check(bivdrazo_next_heading(&at, end, &heading) && heading.level == 2 && heading.number == 12 &&
              heading.text_length == 3,
          "a heading of a list");
    check(bivdrazo_next_heading(&at, end, &heading) && heading.level == 3 && heading.number == 13 &&
              heading.text_length == 0,
          "its last heading");
    check(!bivdrazo_next_heading(&at, end, &heading), "the end of a list");
    uint8_t buffer[4] = {7, 7, 7, 7};
    options.version = 3;
    const bivdrazo_answer answer =
        bivdrazo_markdown_into((const uint8_t *)"a", 1, &options, buffer, 4);
    check(answer.status == BIVDRAZO_MARKDOWN_NO_VERSION && memcmp(buffer, "\7\7\7\7", 4) == 0,
          "a buffer without a text");
}

static void test_attributes(void) {
    bivdrazo_markdown_options options = bivdrazo_markdown_options_default();
    options.rel = text_of("nofollow ugc");
    check(renders("[a](b) [c](#d)", &options,
                  "<p><a href=\"b\" rel=\"nofollow ugc\">a</a> <a href=\"#d\">c</a></p>\n"),
          "a rel");
    options = bivdrazo_markdown_options_default();
    options.heading_ids = text_of("p\"");
    check(renders("# a", &options, "<h1 id=\"p&quot;1\">a</h1>\n"), "ids of headings");
    char *html;
    char *headings;
    static const char text[] = "a\nb <\n---\n\n# *c*\n";
    bivdrazo_answer answer = bivdrazo_markdown_headings((const uint8_t *)text, sizeof text - 1,
                                                        &options, &html, &headings);
    check(answer.status == BIVDRAZO_OK && answer.length == strlen(html), "a text with headings");
    check(headings != NULL && strcmp(headings, "2 1 a b &lt;\n1 2 c\n") == 0, "headings");
    bivdrazo_markdown_free(html);
    bivdrazo_markdown_free(headings);
    answer =
        bivdrazo_markdown_headings((const uint8_t *)text, sizeof text - 1, NULL, &html, &headings);
    check(answer.status == BIVDRAZO_OK && headings != NULL && *headings == 0, "no headings");
    bivdrazo_markdown_free(html);
    bivdrazo_markdown_free(headings);
    static const char equal[] = "# A *b*\n\n# a b\n\n# a b-1\n\n# ?\n";
    options = bivdrazo_markdown_options_default();
    answer = bivdrazo_markdown_slugs((const uint8_t *)equal, sizeof equal - 1, &options, &html,
                                     &headings);
    check(answer.status == BIVDRAZO_OK &&
              strcmp(html, "<h1 id=\"a-b\">A <em>b</em></h1>\n<h1 id=\"a-b-1\">a b</h1>\n"
                           "<h1 id=\"a-b-1-1\">a b-1</h1>\n<h1 id=\"section\">?</h1>\n") == 0,
          "ids of texts");
    check(headings != NULL && strcmp(headings, "1 1 A b\n1 2 a b\n1 3 a b-1\n1 4 ?\n"
                                               "#a-b\n#a-b-1\n#a-b-1-1\n#section\n") == 0,
          "headings and ids of texts");
    bivdrazo_markdown_free(html);
    bivdrazo_markdown_free(headings);
    answer = bivdrazo_markdown_headings((const uint8_t *)"\xFF", 1, NULL, &html, &headings);
    check(answer.status == BIVDRAZO_MARKDOWN_NOT_UTF8 && html == NULL && headings == NULL,
          "no text, no headings");
}

static void test_footnotes(void) {
    static const char note[] = "a[^b]\n\n[^b]: c\n";
    bivdrazo_markdown_options options = bivdrazo_markdown_options_default();
    check(holds(note, NULL, "<li id=\"user-content-fn-b\">"), "a footnote");
    options.number_ids = 1;
    check(holds(note, &options, "<li id=\"user-content-fn-1\">"), "ids by number");
    options = bivdrazo_markdown_options_default();
    options.footnote_prefix = text_of("x-");
    check(holds(note, &options, "<li id=\"x-fn-b\">"), "a prefix");
    options.footnote_label = text_of("Notes");
    check(holds(note, &options, ">Notes</h2>"), "a label");
    options.footnote_back_label = text_of("Up");
    check(holds(note, &options, "aria-label=\"Up\""), "a back label");
}

static void test_bounds(void) {
    bivdrazo_markdown_options options = bivdrazo_markdown_options_default();
    char *html;
    options.max_input = 2;
    check(fails("abc", 3, &options, BIVDRAZO_MARKDOWN_INPUT_TOO_LONG, 0), "a bound on the input");
    check(bivdrazo_markdown((const uint8_t *)"abc", 3, &options, &html).length == 3,
          "the input's length");
    check(renders("ab", &options, "<p>ab</p>\n"), "an input within its bound");
    options = bivdrazo_markdown_options_default();
    options.max_output = 9;
    check(fails("abc", 3, &options, BIVDRAZO_MARKDOWN_OUTPUT_TOO_LONG, 0), "a bound on the text");
    check(renders("a", &options, "<p>a</p>\n"), "a text within its bound");
}

/* Bounds on work: one that is given, none, and the default one. */
static void test_work(void) {
    bivdrazo_markdown_options options = bivdrazo_markdown_options_default();
    check(options.max_work == BIVDRAZO_MARKDOWN_WORK_BY_LENGTH, "the default limit on work");
    options.max_work = 4;
    check(renders("abc", &options, "<p>abc</p>\n"), "work within its limit");
    for (size_t work = 0; work < 4; work++) {
        options.max_work = work;
        check(fails("abc", 3, &options, BIVDRAZO_MARKDOWN_TOO_MUCH_WORK, 0), "too much work");
    }
    options.heading_ids = text_of("a");
    check(fails("abc", 3, &options, BIVDRAZO_MARKDOWN_TOO_MUCH_WORK, 0), "work, with ids");
    options.max_work = SIZE_MAX;
    check(renders("abc", &options, "<p>abc</p>\n"), "any amount of work");
}

/* The default limit on work depends on the length: a long destination that is used often exceeds
   it. */
static void test_default_work(void) {
    enum { LONG = 10000, USES = 1000, LENGTH = 5 + LONG + 2 + 4 * USES };
    static char text[LENGTH + 1] = "[a]: ";
    memset(text + 5, 'b', LONG);
    memcpy(text + 5 + LONG, "\n\n", 2);
    for (size_t use = 0; use < USES; use++)
        memcpy(text + 7 + LONG + 4 * use, "[a] ", 4);
    char *html;
    bivdrazo_answer answer = bivdrazo_markdown((const uint8_t *)text, LENGTH, NULL, &html);
    check(answer.status == BIVDRAZO_MARKDOWN_TOO_MUCH_WORK && html == NULL, "a default bound");
    bivdrazo_markdown_options bounded = bivdrazo_markdown_options_default();
    bounded.max_work = ((size_t)1 << 20) + 64 * LENGTH;
    check(fails(text, LENGTH, &bounded, BIVDRAZO_MARKDOWN_TOO_MUCH_WORK, 0), "that bound");
    bivdrazo_markdown_options options = bivdrazo_markdown_options_default();
    check(fails(text, LENGTH, &options, BIVDRAZO_MARKDOWN_TOO_MUCH_WORK, 0), "default options");
    options.max_work = SIZE_MAX;
    answer = bivdrazo_markdown((const uint8_t *)text, LENGTH, &options, &html);
    check(answer.status == BIVDRAZO_OK && answer.length > LONG * USES, "no bound on work");
    bivdrazo_markdown_free(html);
}

/* What would nest deeper than its bound is shown as it is written. */
static void test_depth(void) {
    static const char quotes[] = "> > > > a";
    static const char shown[] = "<p>&gt; &gt; &gt; &gt; a</p>";
    bivdrazo_markdown_options options = bivdrazo_markdown_options_default();
    check(options.max_depth == 0, "the default bound on nesting");
    check(holds(quotes, &options, "<blockquote>\n<p>a</p>\n</blockquote>"), "nodes that nest");
    options.max_depth = 40;
    check(holds(quotes, &options, "<blockquote>\n<p>a</p>\n</blockquote>"), "nesting in its bound");
    options.max_depth = SIZE_MAX;
    check(holds(quotes, &options, "<blockquote>\n<p>a</p>\n</blockquote>"), "any nesting");
    for (size_t depth = 1; depth < 5; depth++) {
        options.max_depth = depth;
        check(renders(quotes, &options, shown), "deeper nesting");
    }
    options.max_output = sizeof shown - 1;
    check(renders(quotes, &options, shown), "deeper nesting, within a limit on the text");
    options.max_output--;
    check(fails(quotes, sizeof quotes - 1, &options, BIVDRAZO_MARKDOWN_OUTPUT_TOO_LONG, 0),
          "deeper nesting, with a text that is too long");
}

/* Each flag is 0 or 1; another value is reported with the flag's number. */
static void test_flags(void) {
    const struct {
        size_t offset, number;
    } flags[] = {
        {offsetof(bivdrazo_markdown_options, number_ids), BIVDRAZO_MARKDOWN_OPTION_NUMBER_IDS},
        {offsetof(bivdrazo_markdown_options, hard_breaks), BIVDRAZO_MARKDOWN_OPTION_HARD_BREAKS},
        {offsetof(bivdrazo_markdown_options, bare_links), BIVDRAZO_MARKDOWN_OPTION_BARE_LINKS},
        {offsetof(bivdrazo_markdown_options, math), BIVDRAZO_MARKDOWN_OPTION_MATH},
        {offsetof(bivdrazo_markdown_options, front_matter), BIVDRAZO_MARKDOWN_OPTION_FRONT_MATTER},
        {offsetof(bivdrazo_markdown_options, footnotes), BIVDRAZO_MARKDOWN_OPTION_FOOTNOTES},
        {offsetof(bivdrazo_markdown_options, tables), BIVDRAZO_MARKDOWN_OPTION_TABLES},
    };
    for (size_t at = 0; at < sizeof flags / sizeof *flags; at++) {
        bivdrazo_markdown_options options = bivdrazo_markdown_options_default();
        for (int value = 0; value < 4; value++) {
            ((uint8_t *)&options)[flags[at].offset] = (uint8_t)value;
            if (value > 1)
                check(fails("a", 1, &options, BIVDRAZO_NO_OPTION, flags[at].number), "a flag");
            else
                check(renders("a", &options, "<p>a</p>\n"), "a flag that is off or on");
        }
    }
}

static void test_failures(void) {
    bivdrazo_markdown_options options = bivdrazo_markdown_options_default();
    check(fails("ab\xFF", 3, NULL, BIVDRAZO_MARKDOWN_NOT_UTF8, 2), "what isn't UTF-8");
    options.version++;
    check(fails("a", 1, &options, BIVDRAZO_MARKDOWN_NO_VERSION, 0), "another version");
    options = bivdrazo_markdown_options_default();
    options.html = BIVDRAZO_MARKDOWN_HTML_KEPT_OR_TEXT + 1;
    check(fails("a", 1, &options, BIVDRAZO_NO_OPTION, BIVDRAZO_MARKDOWN_OPTION_HTML),
          "a number for HTML");
    test_flags();
    options = bivdrazo_markdown_options_default();
    options.rel = text_of("\xFF");
    check(fails("a", 1, &options, BIVDRAZO_NO_OPTION, BIVDRAZO_MARKDOWN_OPTION_REL),
          "a rel that isn't UTF-8");
    options = bivdrazo_markdown_options_default();
    options.base = text_of("\xFF");
    check(fails("a", 1, &options, BIVDRAZO_NO_OPTION, BIVDRAZO_MARKDOWN_OPTION_BASE),
          "a text that isn't UTF-8");
    check(strcmp(bivdrazo_markdown_status_text(BIVDRAZO_MARKDOWN_NO_VERSION),
                 "the options are of an unknown version") == 0,
          "a status");
    check(strcmp(bivdrazo_markdown_status_text(BIVDRAZO_MEMORY), "out of memory") == 0,
          "a status of the library");
}

static void *work(void *unused) {
    for (int turn = 0; turn < 100; turn++)
        check(
            renders("- a\n- **b**", NULL, "<ul>\n<li>a</li>\n<li><strong>b</strong></li>\n</ul>\n"),
            "a thread");
    return unused;
}

static void test_threads(void) {
    pthread_t threads[8];
    for (size_t at = 0; at < 8; at++)
        check(pthread_create(&threads[at], NULL, work, NULL) == 0, "a thread begins");
    for (size_t at = 0; at < 8; at++)
        pthread_join(threads[at], NULL);
}

int main(void) {
    test_texts();
    test_options();
    test_kept();
    test_readings();
    test_front_matter();
    test_buffers();
    test_attributes();
    test_footnotes();
    test_bounds();
    test_work();
    test_default_work();
    test_depth();
    test_failures();
    test_threads();
    if (failures == 0)
        puts("C, Markdown: passed");
    return failures != 0;
}
