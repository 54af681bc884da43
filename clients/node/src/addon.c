/*
 * The library for Node, over Node-API: what index.js calls.
 *
 * render() and renderLater() take the arguments of `enum argument`; the latter returns a promise,
 * and renders in a thread of Node's pool. Both answer an array: two strings, the HTML and the list
 * of its headings; or an error: its code, an index, and the limit that was exceeded. index.js
 * checks the types of all arguments.
 *
 * clean() and cleanLater() take a text, the names of tags and of protocols, and two limits, and
 * answer likewise; there are no headings.
 *
 * frontMatter(text) answers a string, null, or an error; isSafeHtml(text) a boolean, or an error.
 *
 * There is no state: any number of workers may load this file.
 */
#include <stdlib.h>
#include <string.h>

#define NAPI_VERSION 8
#include <node_api.h>

#include "bivdrazo_markdown.h"

/* The arguments of render(). */
enum argument {
    TEXT,
    HAS_SLUGS,
    NUMBER_IDS,
    HARD_BREAKS,
    BARE_LINKS,
    HTML,
    MATH,
    FRONT_MATTER,
    FOOTNOTES,
    TABLES,
    FOOTNOTE_PREFIX,
    FOOTNOTE_LABEL,
    FOOTNOTE_BACK_LABEL,
    BASE,
    REL,
    HEADING_IDS,
    MAX_INPUT,
    MAX_OUTPUT,
    MAX_WORK,
    MAX_DEPTH,
    ARGUMENTS
};
/* The arguments of clean(). */
enum clean_argument { CLEAN_TEXT, TAGS, PROTOCOLS, CLEAN_MAX_INPUT, CLEAN_MAX_OUTPUT };
enum { TEXTS = HEADING_IDS - FOOTNOTE_PREFIX + 1 };

/* The status for a lone surrogate; the library has no such number. */
enum { LONE_SURROGATE = 1000 };

/* A UTF-8 text of this file's own. */
struct text {
    uint8_t *bytes;
    size_t length;
};

/* A call: its input, its answer, and, if it is made in another thread, what Node knows it by. */
struct job {
    struct text document;
    struct text texts[TEXTS];
    bivdrazo_markdown_options options;
    bivdrazo_clean_options clean_options;
    int has_slugs;
    int cleans;
    bivdrazo_answer answer;
    uint8_t *made;
    napi_deferred deferred;
    napi_async_work work;
};

/* An answer of this file. */
static bivdrazo_answer failure(uint32_t status, size_t index) {
    const bivdrazo_answer answer = {status, 0, index, 0};
    return answer;
}

/* The index of the first lone surrogate among these code units, or their number. */
static size_t lone_surrogate(const char16_t *units, size_t length) {
    for (size_t at = 0; at < length; at++) {
        if (units[at] < 0xD800 || units[at] > 0xDFFF)
            continue;
        if (units[at] > 0xDBFF || at + 1 == length || units[at + 1] < 0xDC00 ||
            units[at + 1] > 0xDFFF)
            return at;
        at++;
    }
    return length;
}

/* Whether a text has U+FFFD, which Node also writes for a lone surrogate. */
static int has_replacement(const struct text *text) {
    const uint8_t *at = text->bytes, *const end = text->bytes + text->length;
    while (end - at >= 3 && (at = memchr(at, 0xEF, (size_t)(end - at) - 2)) != NULL) {
        if (at[1] == 0xBF && at[2] == 0xBD)
            return 1;
        at++;
    }
    return 0;
}

/* Finds a lone surrogate in a string of so many code units. */
static bivdrazo_answer check_surrogates(napi_env env, napi_value value, size_t units) {
    char16_t *const read = malloc((units + 1) * sizeof *read);
    if (read == NULL)
        return failure(BIVDRAZO_MEMORY, 0);
    napi_get_value_string_utf16(env, value, read, units + 1, &units);
    const size_t at = lone_surrogate(read, units);
    free(read);
    return at < units ? failure(LONE_SURROGATE, at) : failure(BIVDRAZO_OK, 0);
}

/* Copies a string: a code unit takes at most three bytes, and a byte follows that Node sets. */
static bivdrazo_answer read_string(napi_env env, napi_value value, struct text *text) {
    size_t units;
    if (napi_get_value_string_utf16(env, value, NULL, 0, &units) != napi_ok)
        return failure(BIVDRAZO_MEMORY, 0);
    text->bytes = malloc(3 * units + 1);
    if (text->bytes == NULL)
        return failure(BIVDRAZO_MEMORY, 0);
    napi_get_value_string_utf8(env, value, (char *)text->bytes, 3 * units + 1, &text->length);
    return has_replacement(text) ? check_surrogates(env, value, units) : failure(BIVDRAZO_OK, 0);
}

/* Copies the bytes of a Uint8Array, which another thread may change later. */
static bivdrazo_answer read_bytes(napi_env env, napi_value value, struct text *text) {
    void *bytes;
    if (napi_get_typedarray_info(env, value, NULL, &text->length, &bytes, NULL, NULL) != napi_ok)
        return failure(BIVDRAZO_MEMORY, 0);
    text->bytes = malloc(text->length + 1);
    if (text->bytes == NULL)
        return failure(BIVDRAZO_MEMORY, 0);
    if (text->length > 0)
        memcpy(text->bytes, bytes, text->length);
    return failure(BIVDRAZO_OK, 0);
}

/* Copies a string or a Uint8Array. */
static bivdrazo_answer read_text(napi_env env, napi_value value, struct text *text) {
    napi_valuetype type;
    napi_typeof(env, value, &type);
    return type == napi_string ? read_string(env, value, text) : read_bytes(env, value, text);
}

/* A limit: each number from 2^64 on is none. */
static size_t limit_of(napi_env env, napi_value value) {
    double number = 0;
    napi_get_value_double(env, value, &number);
    return number < 18446744073709551616.0 ? (size_t)number : SIZE_MAX;
}

/* A small number. */
static uint8_t number_of(napi_env env, napi_value value) {
    uint32_t number = 0;
    napi_get_value_uint32(env, value, &number);
    return (uint8_t)number;
}

/* Reads the options that are texts; null is unset. */
static bivdrazo_answer read_texts(napi_env env, const napi_value *given, struct job *job) {
    bivdrazo_text *const fields[TEXTS] = {&job->options.footnote_prefix,
                                          &job->options.footnote_label,
                                          &job->options.footnote_back_label,
                                          &job->options.base,
                                          &job->options.rel,
                                          &job->options.heading_ids};
    for (size_t at = 0; at < TEXTS; at++) {
        napi_valuetype type;
        napi_typeof(env, given[FOOTNOTE_PREFIX + at], &type);
        if (type != napi_string)
            continue;
        bivdrazo_answer answer = read_string(env, given[FOOTNOTE_PREFIX + at], &job->texts[at]);
        if (answer.status != BIVDRAZO_OK) {
            answer.length = at + 1; /* which text: index.js names it */
            return answer;
        }
        *fields[at] = bivdrazo_text_of(job->texts[at].bytes, job->texts[at].length);
    }
    return failure(BIVDRAZO_OK, 0);
}

/* Reads all arguments; the status is BIVDRAZO_OK, BIVDRAZO_MEMORY or LONE_SURROGATE. */
static bivdrazo_answer read_job(napi_env env, const napi_value *given, struct job *job) {
    bivdrazo_markdown_options *const options = &job->options;
    *options = bivdrazo_markdown_options_default();
    job->has_slugs = number_of(env, given[HAS_SLUGS]);
    options->number_ids = number_of(env, given[NUMBER_IDS]);
    options->hard_breaks = number_of(env, given[HARD_BREAKS]);
    options->bare_links = number_of(env, given[BARE_LINKS]);
    options->html = number_of(env, given[HTML]);
    options->math = number_of(env, given[MATH]);
    options->front_matter = number_of(env, given[FRONT_MATTER]);
    options->footnotes = number_of(env, given[FOOTNOTES]);
    options->tables = number_of(env, given[TABLES]);
    options->max_input = limit_of(env, given[MAX_INPUT]);
    options->max_output = limit_of(env, given[MAX_OUTPUT]);
    napi_valuetype type;
    napi_typeof(env, given[MAX_WORK], &type);
    if (type == napi_number)
        options->max_work = limit_of(env, given[MAX_WORK]);
    options->max_depth = limit_of(env, given[MAX_DEPTH]);
    const bivdrazo_answer answer = read_texts(env, given, job);
    return answer.status == BIVDRAZO_OK ? read_text(env, given[TEXT], &job->document) : answer;
}

/* The limit on work: the library's default depends on the length. */
static size_t work_limit(const struct job *job) {
    const size_t given = job->options.max_work;
    return given == BIVDRAZO_MARKDOWN_WORK_BY_LENGTH ? ((size_t)1 << 20) + 64 * job->document.length
                                                     : given;
}

/* Reads all arguments of clean(), as read_job() does. */
static bivdrazo_answer read_clean_job(napi_env env, const napi_value *given, struct job *job) {
    bivdrazo_clean_options *const options = &job->clean_options;
    *options = bivdrazo_clean_options_default();
    bivdrazo_text *const fields[] = {&options->tags, &options->protocols};
    job->cleans = 1;
    options->max_input = limit_of(env, given[CLEAN_MAX_INPUT]);
    options->max_output = limit_of(env, given[CLEAN_MAX_OUTPUT]);
    for (size_t at = 0; at < 2; at++) {
        napi_valuetype type;
        napi_typeof(env, given[TAGS + at], &type);
        if (type != napi_string)
            continue;
        const bivdrazo_answer answer = read_string(env, given[TAGS + at], &job->texts[at]);
        if (answer.status != BIVDRAZO_OK)
            return answer;
        *fields[at] = bivdrazo_text_of(job->texts[at].bytes, job->texts[at].length);
    }
    return read_text(env, given[CLEAN_TEXT], &job->document);
}

/* Cleans the text; the length of an error's answer is the limit that was exceeded. */
static void clean_job(struct job *job) {
    bivdrazo_answer *const answer = &job->answer;
    char *html;
    *answer = bivdrazo_clean(job->document.bytes, job->document.length, &job->clean_options, &html);
    job->made = (uint8_t *)html;
    if (answer->status == BIVDRAZO_OK)
        answer->index = answer->length;
    else if (answer->status == BIVDRAZO_MARKDOWN_INPUT_TOO_LONG)
        answer->length = job->clean_options.max_input;
    else if (answer->status == BIVDRAZO_MARKDOWN_OUTPUT_TOO_LONG)
        answer->length = job->clean_options.max_output;
}

/* Renders the document; the length of an error's answer is the limit that was exceeded. */
static void render_job(struct job *job) {
    if (job->cleans) {
        clean_job(job);
        return;
    }
    bivdrazo_answer *const answer = &job->answer;
    *answer = bivdrazo_markdown_alloc_by(job->has_slugs, job->document.bytes, job->document.length,
                                         &job->options, &job->made);
    if (answer->status == BIVDRAZO_MARKDOWN_INPUT_TOO_LONG)
        answer->length = job->options.max_input;
    else if (answer->status == BIVDRAZO_MARKDOWN_OUTPUT_TOO_LONG)
        answer->length = job->options.max_output;
    else if (answer->status == BIVDRAZO_MARKDOWN_TOO_MUCH_WORK)
        answer->length = work_limit(job);
}

/* Frees what a call holds. */
static void end_job(struct job *job) {
    free(job->document.bytes);
    for (size_t at = 0; at < TEXTS; at++)
        free(job->texts[at].bytes);
    free(job->made);
}

/* Whether all bytes are ASCII, of which Node makes a string faster. */
static int is_ascii(const uint8_t *bytes, size_t length) {
    size_t at = 0;
    for (; at + 8 <= length; at += 8) {
        uint64_t word;
        memcpy(&word, bytes + at, 8);
        if (word & UINT64_C(0x8080808080808080))
            return 0;
    }
    for (; at < length; at++)
        if (bytes[at] & 0x80)
            return 0;
    return 1;
}

/* A string; the status is Node's, which refuses one that is too long. */
static napi_status string_of(napi_env env, const uint8_t *bytes, size_t length,
                             napi_value *string) {
    return is_ascii(bytes, length)
               ? napi_create_string_latin1(env, (const char *)bytes, length, string)
               : napi_create_string_utf8(env, (const char *)bytes, length, string);
}

/* The end of the code of an error. */
static const char *code_of(uint32_t status) {
    switch (status) {
    case BIVDRAZO_MARKDOWN_INPUT_TOO_LONG:
        return "INPUT_TOO_LONG";
    case BIVDRAZO_MARKDOWN_OUTPUT_TOO_LONG:
        return "OUTPUT_TOO_LONG";
    case BIVDRAZO_MARKDOWN_TOO_MUCH_WORK:
        return "TOO_MUCH_WORK";
    case BIVDRAZO_MARKDOWN_NOT_UTF8:
        return "NOT_UTF8";
    case BIVDRAZO_MEMORY:
        return "MEMORY";
    case LONE_SURROGATE:
        return "LONE_SURROGATE";
    default:
        return "FAILED";
    }
}

/* An error: its code, an index, and a limit. */
static napi_value failure_value(napi_env env, const bivdrazo_answer *answer) {
    napi_value values, code, index, limit;
    napi_create_array_with_length(env, 3, &values);
    napi_create_string_utf8(env, code_of(answer->status), NAPI_AUTO_LENGTH, &code);
    napi_create_double(env, (double)answer->index, &index);
    napi_create_double(env, (double)answer->length, &limit);
    napi_set_element(env, values, 0, code);
    napi_set_element(env, values, 1, index);
    napi_set_element(env, values, 2, limit);
    return values;
}

/* What index.js gets for a call that ended. For a string that Node refuses, since it is too long,
   that is an error of memory. */
static napi_value value_of(napi_env env, const struct job *job) {
    if (job->answer.status != BIVDRAZO_OK)
        return failure_value(env, &job->answer);
    const size_t end = job->answer.index;
    napi_value values, html, headings;
    if (string_of(env, job->made, end, &html) != napi_ok ||
        string_of(env, job->made + end, job->answer.length - end, &headings) != napi_ok) {
        const bivdrazo_answer answer = failure(BIVDRAZO_MEMORY, 0);
        napi_value ignored;
        napi_get_and_clear_last_exception(env, &ignored);
        return failure_value(env, &answer);
    }
    napi_create_array_with_length(env, 2, &values);
    napi_set_element(env, values, 0, html);
    napi_set_element(env, values, 1, headings);
    return values;
}

/* What reads the arguments of a call. */
typedef bivdrazo_answer reads(napi_env env, const napi_value *given, struct job *job);

/* A call at once, in this thread. */
static napi_value call_now(napi_env env, napi_callback_info info, reads *read) {
    napi_value given[ARGUMENTS];
    size_t count = ARGUMENTS;
    struct job job = {0};
    napi_get_cb_info(env, info, &count, given, NULL, NULL);
    job.answer = read(env, given, &job);
    if (job.answer.status == BIVDRAZO_OK)
        render_job(&job);
    const napi_value made = value_of(env, &job);
    end_job(&job);
    return made;
}

/* render(), clean(). */
static napi_value render(napi_env env, napi_callback_info info) {
    return call_now(env, info, read_job);
}

static napi_value clean(napi_env env, napi_callback_info info) {
    return call_now(env, info, read_clean_job);
}

/* In another thread: renders. */
static void execute(napi_env env, void *data) {
    (void)env;
    render_job(data);
}

/* In Node's thread: answers, and frees the call. */
static void complete(napi_env env, napi_status status, void *data) {
    struct job *const job = data;
    napi_value undefined;
    if (status != napi_ok) { /* cancelled, as Node ends: nothing was rendered */
        napi_get_undefined(env, &undefined);
        napi_reject_deferred(env, job->deferred, undefined);
    } else {
        napi_resolve_deferred(env, job->deferred, value_of(env, job));
    }
    napi_delete_async_work(env, job->work);
    end_job(job);
    free(job);
}

/* Hands a call to Node's threads; returns whether that worked. */
static int queue_job(napi_env env, struct job *job, napi_value *promise) {
    napi_value name;
    if (napi_create_promise(env, &job->deferred, promise) != napi_ok)
        return 0;
    napi_create_string_utf8(env, "bivdrazo", NAPI_AUTO_LENGTH, &name);
    if (napi_create_async_work(env, NULL, name, execute, complete, job, &job->work) != napi_ok)
        return 0;
    if (napi_queue_async_work(env, job->work) == napi_ok)
        return 1;
    napi_delete_async_work(env, job->work);
    return 0;
}

/* A promise, or an array at once if the arguments have an error. */
static napi_value call_later(napi_env env, napi_callback_info info, reads *read) {
    napi_value given[ARGUMENTS], promise;
    size_t count = ARGUMENTS;
    bivdrazo_answer answer = failure(BIVDRAZO_MEMORY, 0);
    napi_get_cb_info(env, info, &count, given, NULL, NULL);
    struct job *const job = calloc(1, sizeof *job);
    if (job != NULL) {
        answer = read(env, given, job);
        if (answer.status == BIVDRAZO_OK && queue_job(env, job, &promise))
            return promise;
        end_job(job);
        free(job);
    }
    return failure_value(env, &answer);
}

/* renderLater(), cleanLater(). */
static napi_value render_later(napi_env env, napi_callback_info info) {
    return call_later(env, info, read_job);
}

static napi_value clean_later(napi_env env, napi_callback_info info) {
    return call_later(env, info, read_clean_job);
}

/* frontMatter(): the text between lines of `---` at the beginning; null if there is none. */
static napi_value front_matter(napi_env env, napi_callback_info info) {
    napi_value given[1], found;
    size_t count = 1;
    struct text text = {NULL, 0};
    napi_get_cb_info(env, info, &count, given, NULL, NULL);
    bivdrazo_answer answer = read_text(env, given[0], &text);
    if (answer.status == BIVDRAZO_OK)
        answer = bivdrazo_front_matter(text.bytes, text.length);
    if (answer.status != BIVDRAZO_OK)
        found = failure_value(env, &answer);
    else if (answer.index == 0)
        napi_get_null(env, &found);
    else
        string_of(env, text.bytes + answer.index, answer.length, &found);
    free(text.bytes);
    return found;
}

/* isSafeHtml(): whether a text is safe HTML. */
static napi_value is_safe_html(napi_env env, napi_callback_info info) {
    napi_value given[1], found;
    size_t count = 1;
    struct text text = {NULL, 0};
    napi_get_cb_info(env, info, &count, given, NULL, NULL);
    const bivdrazo_answer answer = read_text(env, given[0], &text);
    if (answer.status != BIVDRAZO_OK)
        found = failure_value(env, &answer);
    else
        napi_get_boolean(env, bivdrazo_is_safe_html(text.bytes, text.length) == 1, &found);
    free(text.bytes);
    return found;
}

NAPI_MODULE_INIT() {
    const napi_property_descriptor calls[] = {
        {"render", NULL, render, NULL, NULL, NULL, napi_default, NULL},
        {"renderLater", NULL, render_later, NULL, NULL, NULL, napi_default, NULL},
        {"clean", NULL, clean, NULL, NULL, NULL, napi_default, NULL},
        {"cleanLater", NULL, clean_later, NULL, NULL, NULL, napi_default, NULL},
        {"frontMatter", NULL, front_matter, NULL, NULL, NULL, napi_default, NULL},
        {"isSafeHtml", NULL, is_safe_html, NULL, NULL, NULL, napi_default, NULL},
    };
    napi_define_properties(env, exports, sizeof calls / sizeof *calls, calls);
    return exports;
}
