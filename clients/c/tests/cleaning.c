/* Tests of cleaning HTML. */
#include "test.h"

#include "bivdrazo_markdown.h"

/* Texts that anyone wrote, and what is kept of them. */
static const char *const cleaned[][2] = {
    {"", ""},
    {"a & b < c", "a &amp; b &lt; c"},
    {"<p onclick=f()>one<script>f()</script><p>two", "<p>one</p><p>two</p>"},
    {"<b>1<p>2</b>3", "<b>1</b><p><b>2</b>3</p>"},
    {"<IMG SRC='a' ALT=b ONERROR=alert(1)>", "<img src=\"a\" alt=\"b\" />"},
    {"<a href=' javascript:alert(1)'>a</a>", "<a>a</a>"},
    {"<a href=\"java&#115;cript:alert(1)\">a</a>", "<a>a</a>"},
    {"<a href=http://a.b>c<a href=d>e", "<a href=\"http://a.b\">c</a><a href=\"d\">e</a>"},
    {"<table><tr><td>1<td>2", "<table><tbody><tr><td>1</td><td>2</td></tr></tbody></table>"},
    {"<svg><style><img title=\"</style><img src=x onerror=alert(1)>\">", NULL},
    {"<noscript><p title=\"</noscript><img src=x onerror=alert(1)>\">", NULL},
    {"<math><mtext></form><form><mglyph><style></math><img src onerror=alert(1)>", NULL},
    {"a<!--b-->c<![CDATA[<script>alert(1)</script>]]>", NULL},
    {"<font color=red>a</font>", "a"},
};

/* Checks what options keep of a text. */
static void keeps(const char *text, const char *tags, const char *protocols, const char *wanted) {
    bivdrazo_clean_options options = bivdrazo_clean_options_default();
    char *html;
    if (tags != NULL)
        options.tags = bivdrazo_text_of((const uint8_t *)tags, strlen(tags));
    if (protocols != NULL)
        options.protocols = bivdrazo_text_of((const uint8_t *)protocols, strlen(protocols));
    const bivdrazo_answer answer =
        bivdrazo_clean((const uint8_t *)text, strlen(text), &options, &html);
    CHECK(answer.status == BIVDRAZO_OK && answer.length == strlen(html) && answer.index == 0);
    if (html != NULL && wanted != NULL && strcmp(html, wanted) != 0)
        printf("%s: %s\n", text, html);
    CHECK(html != NULL && (wanted == NULL || strcmp(html, wanted) == 0));
    CHECK(html != NULL && bivdrazo_is_safe_html((const uint8_t *)html, answer.length) == 1);
    bivdrazo_markdown_free(html);
}

/* The answer of options that are refused. */
static bivdrazo_answer refused(const uint8_t *text, size_t length,
                               const bivdrazo_clean_options *options) {
    char *html;
    const bivdrazo_answer answer = bivdrazo_clean(text, length, options, &html);
    CHECK(html == NULL);
    return answer;
}

/* Elements and protocols that a caller chooses. */
static void test_choices(void) {
    keeps("<p>a <b>b</b><h1>c</h1>d", "p", NULL, "<p>a b</p>c\nd");
    keeps("<p>a <b>b</b>", "", NULL, "a b");
    keeps("<table><tr><td>a", "table", NULL, "<table><tbody><tr><td>a</td></tr></tbody></table>");
    keeps("<ul><li>a</ul><ol><li>b", "ol", NULL, "a<ol><li>b</li></ol>");
    keeps("<pre>a", "pre", NULL, "<pre><code>a</code></pre>");
    keeps("a<script>b</script>", "p br", NULL, "a");
    keeps("<a href=http://a>b</a><a href=https://c>d</a><a href=/e>f</a>", NULL, "https mailto",
          "<a>b</a><a href=\"https://c\">d</a><a href=\"/e\">f</a>");
    keeps("<img src=https://a><img src=mailto:b><img src=c>", NULL, "mailto",
          "<img /><img /><img src=\"c\" />");
}

/* Options that are refused, and limits. */
static void test_refused(void) {
    bivdrazo_clean_options options = bivdrazo_clean_options_default();
    const uint8_t *const text = (const uint8_t *)"<p>a";
    options.tags = bivdrazo_text_of((const uint8_t *)"p font", 6);
    bivdrazo_answer answer = refused(text, 4, &options);
    CHECK(answer.status == BIVDRAZO_NO_OPTION && answer.index == 0);
    options.tags = bivdrazo_text_unset();
    options.protocols = bivdrazo_text_of((const uint8_t *)"javascript", 10);
    answer = refused(text, 4, &options);
    CHECK(answer.status == BIVDRAZO_NO_OPTION && answer.index == 1);
    options = bivdrazo_clean_options_default();
    options.version = 0;
    CHECK(refused(text, 4, &options).status == BIVDRAZO_MARKDOWN_NO_VERSION);
    options = bivdrazo_clean_options_default();
    options.max_input = 3;
    answer = refused(text, 4, &options);
    CHECK(answer.status == BIVDRAZO_MARKDOWN_INPUT_TOO_LONG && answer.length == 4);
    options.max_input = 4;
    options.max_output = 7;
    CHECK(refused(text, 4, &options).status == BIVDRAZO_MARKDOWN_OUTPUT_TOO_LONG);
    answer = refused((const uint8_t *)"ab\xFF", 3, NULL);
    CHECK(answer.status == BIVDRAZO_MARKDOWN_NOT_UTF8 && answer.index == 2);
}

/* A buffer of each size: one that is too short is unchanged. */
static void test_buffers(void) {
    static const char text[] = "<p>a<p>\"", wanted[] = "<p>a</p><p>&quot;</p>";
    const bivdrazo_clean_options options = bivdrazo_clean_options_default();
    for (size_t size = 0; size <= sizeof wanted; size++) {
        uint8_t buffer[sizeof wanted + 1];
        memset(buffer, 'x', sizeof buffer);
        const bivdrazo_answer answer =
            bivdrazo_clean_into((const uint8_t *)text, sizeof text - 1, &options, buffer, size);
        const int fits = size >= sizeof wanted - 1;
        CHECK(answer.status == (fits ? BIVDRAZO_OK : BIVDRAZO_TOO_SHORT));
        CHECK(answer.length == sizeof wanted - 1);
        CHECK(fits ? memcmp(buffer, wanted, answer.length) == 0 : buffer[0] == 'x');
        CHECK(buffer[sizeof wanted - 1] == 'x');
    }
}

void test_cleaning(void) {
    char *html;
    for (size_t each = 0; each < sizeof cleaned / sizeof *cleaned; each++)
        keeps(cleaned[each][0], NULL, NULL, cleaned[each][1]);
    CHECK(bivdrazo_clean(NULL, 0, NULL, &html).status == BIVDRAZO_OK && *html == 0);
    bivdrazo_markdown_free(html);
    test_choices();
    test_refused();
    test_buffers();
}
