/* Tests of whether a text is safe HTML. */
#include "test.h"

#include "bivdrazo_markdown.h"

/* Whether a text that ends with a NUL is safe. */
static int is_safe(const char *text) {
    return bivdrazo_is_safe_html((const uint8_t *)text, strlen(text)) == 1;
}

/* What people attack pages with. */
static const char *const attacks[] = {
    "<script>alert(1)</script>",
    "<ScRiPt>alert(1)</sCrIpT>",
    "<p onclick=\"alert(1)\">a</p>",
    "<img src=\"a\" onerror=\"alert(1)\" />",
    "<img src=a onerror=alert(1)>",
    "<a href=\"javascript:alert(1)\">a</a>",
    "<a href=\"JaVaScRiPt:alert(1)\">a</a>",
    "<a href=\"java&#115;cript:alert(1)\">a</a>",
    "<a href=\"javascript&colon;alert(1)\">a</a>",
    "<a href=\" javascript:alert(1)\">a</a>",
    "<a href=\"data:text/html,a\">a</a>",
    "<img src=\"data:image/svg+xml,a\" alt=\"b\" />",
    "<a href=\"a\" href=\"javascript:alert(1)\">a</a>",
    "<svg onload=\"alert(1)\"></svg>",
    "<math><style><img src=\"a\" onerror=\"alert(1)\" /></style></math>",
    "<iframe src=\"https://a.b\"></iframe>",
    "<form action=\"https://a.b\"><input name=\"c\" /></form>",
    "<style>body { display: none }</style>",
    "<p style=\"position: fixed\">a</p>",
    "</div></div><p>a</p>",
    "<p>a",
    "a <!-- b",
    "<![CDATA[<script>alert(1)</script>]]>",
    "<a href=\"a\"><a href=\"b\">c</a></a>",
    "<p title='</p><script>alert(1)</script>'>a</p>",
    "<p>&#x3C;script></p>",
    "<plaintext>a",
    "<noscript><p title=\"</noscript><script>alert(1)</script>\"></p></noscript>",
};

/* A text of blockquotes in one another. */
static int is_safe_nested(size_t depth) {
    static const char open[] = "<blockquote>", close[] = "</blockquote>";
    char *const text = malloc(depth * (sizeof open + sizeof close) + 1), *at = text;
    for (size_t each = 0; each < depth; each++)
        at = (char *)memcpy(at, open, sizeof open - 1) + sizeof open - 1;
    for (size_t each = 0; each < depth; each++)
        at = (char *)memcpy(at, close, sizeof close - 1) + sizeof close - 1;
    const int safe = bivdrazo_is_safe_html((const uint8_t *)text, (size_t)(at - text)) == 1;
    free(text);
    return safe;
}

/* Texts with bytes that no string in C can have, and of every length of a few blocks. */
static void test_bytes(void) {
    uint8_t text[100];
    CHECK(bivdrazo_is_safe_html((const uint8_t *)"a\0b", 3) == 0);
    CHECK(bivdrazo_is_safe_html((const uint8_t *)"<p>\0</p>", 8) == 0);
    CHECK(bivdrazo_is_safe_html((const uint8_t *)"<p>\xFF</p>", 8) == 1);
    CHECK(bivdrazo_is_safe_html((const uint8_t *)"<p>\xE2</p>", 8) == 1);
    CHECK(bivdrazo_is_safe_html((const uint8_t *)"\xFF<p>", 4) == 0);
    memset(text, 'a', sizeof text);
    for (size_t length = 0; length <= sizeof text; length++)
        CHECK(bivdrazo_is_safe_html(text, length) == 1);
    for (size_t at = 0; at < sizeof text; at++) {
        text[at] = '<';
        CHECK(bivdrazo_is_safe_html(text, sizeof text) == 0);
        CHECK(bivdrazo_is_safe_html(text, at) == 1);
        text[at] = 'a';
    }
}

/* What the compiler makes of a document is accepted, and without its last byte but one it isn't. */
static void test_compiled(void) {
    static const char document[] =
        "# a <b>\n\n- [x] *b* **c** ~d~ [e](f \"g\") ![h](i)\n- `j`\n\n| k | l |\n|:-:|---|\n| m |"
        " n[^o] |\n\n```p\nq\n```\n\n> r  \n> s\n\n1. t\n2. u\n\n***\n\n[^o]: v\n";
    bivdrazo_markdown_options options = bivdrazo_markdown_options_default();
    options.rel = bivdrazo_text_of((const uint8_t *)"nofollow ugc", 12);
    options.heading_ids = bivdrazo_text_of((const uint8_t *)"w-", 2);
    char *html;
    const bivdrazo_answer answer = bivdrazo_markdown((const uint8_t *)document,
                                                     sizeof document - 1, &options, &html);
    CHECK(answer.status == BIVDRAZO_OK && is_safe(html));
    CHECK(strstr(html, " rel=\"nofollow ugc\"") != NULL && strstr(html, " id=\"w-") != NULL);
    CHECK(bivdrazo_is_safe_html((const uint8_t *)html, answer.length - 2) == 0);
    bivdrazo_markdown_free(html);
}

void test_safe(void) {
    CHECK(is_safe("") && is_safe("a") && is_safe("<p>a &amp; <em>b</em></p>\n"));
    CHECK(is_safe("<a href=\"https://a.b/?c=d&amp;e=f\" title=\"&quot;\">g</a>"));
    CHECK(is_safe("<img alt=\"b\" src=\"a\" />") && is_safe("<p>a<br />\nb</p>"));
    for (size_t each = 0; each < sizeof attacks / sizeof *attacks; each++) {
        if (is_safe(attacks[each]))
            printf("accepted: %s\n", attacks[each]);
        CHECK(!is_safe(attacks[each]));
    }
    CHECK(is_safe_nested(485) && !is_safe_nested(486) && !is_safe_nested(1000000));
    test_bytes();
    test_compiled();
}
