/*
 * Calls bivdrazo_markdown() under options, for libFuzzer. The first two bytes of an input are the
 * options, the rest is the document, which ends at a page that can't be read. The call must return
 * a text, unless the document isn't UTF-8 or exceeds a limit, and the text must be in the HTML
 * grammar, or with kept HTML be safe.
 */
#include "bivdrazo.h"
#include "bivdrazo_markdown.h"
#include "guard.h"
#include "html.h"

int LLVMFuzzerTestOneInput(const uint8_t *data, size_t size);

/* The options in two bytes. */
static bivdrazo_markdown_options options_of(uint8_t flags, uint8_t bounds) {
    bivdrazo_markdown_options options = bivdrazo_markdown_options_default();
    options.number_ids = flags & 1;
    options.hard_breaks = flags >> 1 & 1;
    options.bare_links = flags >> 2 & 1;
    options.html = (uint8_t)((flags >> 3 & 3) + (bounds & 1));
    options.math = bounds >> 4 & 1;
    options.front_matter = bounds >> 5 & 1;
    options.footnotes = !(bounds >> 6 & 1);
    options.tables = !(bounds >> 7 & 1);
    if (flags >> 5 & 1)
        options.base = bivdrazo_text_of((const uint8_t *)"https://a.b/c/", 14);
    if (flags >> 6 & 1)
        options.footnote_prefix = bivdrazo_text_of((const uint8_t *)"\"<x>&", 5);
    if (flags >> 7 & 1) {
        options.max_output = 8u * bounds;
        if (bounds & 1)
            options.max_work = 4u * bounds;
        options.max_depth = bounds >> 1 & 7;
    }
    return options;
}

static void check_text(const char *html, size_t length, const bivdrazo_markdown_options *options) {
    size_t where = 0;
    const char *fault = NULL;
    if (options->html < BIVDRAZO_MARKDOWN_HTML_KEPT)
        fault = html_fault(html, length, &where);
    else if (!bivdrazo_is_safe_html((const uint8_t *)html, length))
        fault = "HTML that isn't safe";
    if (fault != NULL)
        fail(fault, where);
    if (strlen(html) != length || length > options->max_output)
        fail("a length", length);
}

int LLVMFuzzerTestOneInput(const uint8_t *data, size_t size) {
    if (size < 2)
        return 0;
    const bivdrazo_markdown_options options = options_of(data[0], data[1]);
    const struct guarded document = guard(data + 2, size - 2);
    char *html = NULL;
    const bivdrazo_answer answer = bivdrazo_markdown(document.bytes, size - 2, &options, &html);
    const int may_fail =
        answer.status == BIVDRAZO_MARKDOWN_NOT_UTF8 ||
        answer.status == BIVDRAZO_MARKDOWN_TOO_MUCH_WORK ||
        (answer.status == BIVDRAZO_MARKDOWN_OUTPUT_TOO_LONG && options.max_output != SIZE_MAX);
    if (answer.status == BIVDRAZO_OK)
        check_text(html, answer.length, &options);
    else if (!may_fail || html != NULL)
        fail(bivdrazo_markdown_status_text(answer.status), answer.index);
    bivdrazo_markdown_free(html);
    unguard(document);
    return 0;
}
