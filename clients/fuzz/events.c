/*
 * Calls bivdrazo_run() with event scripts, and bivdrazo_compile() and bivdrazo_compile_within()
 * with their events, for libFuzzer. The first byte of an input is the size of the first buffer,
 * the rest is the script. The arguments and the buffer end at a page that can't be read or
 * written. A call without a text must leave the buffer unchanged, and one with a text the bytes
 * after it. If the script sets no option, all calls must return the same, and the text must be in
 * the HTML grammar. With a limit of one byte less it must be too long.
 */
#include "bivdrazo.h"
#include "guard.h"
#include "html.h"

#define MOST_EVENTS 1024
#define UNTOUCHED 0xA5

int LLVMFuzzerTestOneInput(const uint8_t *data, size_t size);

#define REFERENCE(name, text) \
    {(const uint8_t *)name, sizeof name - 1, (const uint8_t *)text, sizeof text - 1}

/* The names of references in scripts. */
static const bivdrazo_reference NAMES[] = {
    REFERENCE("amp", "&"),   REFERENCE("lt", "<"),  REFERENCE("gt", ">"),   REFERENCE("quot", "\""),
    REFERENCE("apos", "'"),  REFERENCE("colon", ":"), REFERENCE("sol", "/"), REFERENCE("num", "#"),
    REFERENCE("quest", "?"),
};

/* What is called: a script, or its events over its document. */
struct job {
    const uint8_t *script;
    size_t script_length;
    const bivdrazo_event *events;
    size_t events_length;
    const uint8_t *document;
    size_t document_length;
    const bivdrazo_limits *limits;
};

static bivdrazo_answer call(const struct job *job, uint8_t *buffer, size_t room) {
    const bivdrazo_options options = bivdrazo_options_default();
    if (job->script != NULL)
        return bivdrazo_run(job->script, job->script_length, buffer, room);
    if (job->limits != NULL)
        return bivdrazo_compile_within(job->events, job->events_length, job->document,
                                       job->document_length, &options, NAMES,
                                       sizeof NAMES / sizeof *NAMES, job->limits, buffer, room);
    return bivdrazo_compile(job->events, job->events_length, job->document, job->document_length,
                            &options, NAMES, sizeof NAMES / sizeof *NAMES, buffer, room);
}

/* Calls with a buffer of that size, and again where it was too short; the buffer is for the
   caller to unguard. */
static bivdrazo_answer answer_of(const struct job *job, size_t room, struct guarded *buffer) {
    for (int tries = 0;; tries++) {
        *buffer = guard_room(room, UNTOUCHED);
        const bivdrazo_answer answer = call(job, buffer->bytes, room);
        const size_t written = answer.status == BIVDRAZO_OK ? answer.length : 0;
        if (written > room)
            fail("a text that is longer than its buffer", written);
        for (size_t at = written; at < room; at++)
            if (buffer->bytes[at] != UNTOUCHED)
                fail("a byte that was written to", at);
        if (answer.status != BIVDRAZO_TOO_SHORT)
            return answer;
        if (tries > 0 || answer.length <= room)
            fail("a buffer that is said to be too short", room);
        room = answer.length;
        unguard(*buffer);
    }
}

static void check_text(const struct guarded *buffer, const bivdrazo_answer *answer) {
    size_t where = 0;
    const char *fault = answer->status == BIVDRAZO_OK
                            ? html_fault((char *)buffer->bytes, answer->length, &where)
                            : NULL;
    if (fault != NULL)
        fail(fault, where);
}

/* The number of a name; 0 where there is none. */
static uint16_t name_of(const char *text, size_t length) {
    for (uint16_t name = 1; bivdrazo_name_text(name) != NULL; name++)
        if (strlen(bivdrazo_name_text(name)) == length &&
            memcmp(bivdrazo_name_text(name), text, length) == 0)
            return name;
    return 0;
}

/* Reads the line of an event without columns: a sign, a name, a space, up to nine digits;
   whether it is one. */
static int read_event(const char *line, bivdrazo_event *event) {
    if (line[0] != '+' && line[0] != '-')
        return 0;
    const char *digits = strchr(line, ' ');
    const size_t count = digits == NULL ? 0 : strspn(digits + 1, "0123456789");
    if (count == 0 || count > 9 || digits[1 + count] != '\0')
        return 0;
    *event = (bivdrazo_event){.index = strtoul(digits + 1, NULL, 10)};
    event->name = name_of(line + 1, (size_t)(digits - line) - 1);
    event->kind = line[0] == '+' ? BIVDRAZO_ENTER : BIVDRAZO_EXIT;
    return event->name != 0;
}

/* The events of a script that sets no option; whether all its lines were read. */
static int read_script(const uint8_t *script, size_t length, struct job *job,
                       bivdrazo_event *events) {
    size_t at = 0;
    for (job->events_length = 0; job->events_length < MOST_EVENTS; job->events_length++) {
        const uint8_t *end = memchr(script + at, '\n', length - at);
        char line[96];
        const size_t long_ = end == NULL ? sizeof line : (size_t)(end - script) - at;
        if (long_ >= sizeof line)
            return 0;
        memcpy(line, script + at, long_);
        line[long_] = '\0';
        at += long_ + 1;
        if (strlen(line) != long_)
            return 0;
        if (strcmp(line, "--") == 0) {
            job->document = script + at;
            job->document_length = length - at;
            return 1;
        }
        if (!read_event(line, &events[job->events_length]))
            return 0;
    }
    return 0;
}

/* Compiles the events within their text's length, which changes no answer, and within one less. */
static void compare_within(struct job *job, const bivdrazo_answer *wanted, size_t room) {
    bivdrazo_limits limits = {wanted->length, SIZE_MAX, 0};
    struct guarded buffer;
    job->limits = &limits;
    const bivdrazo_answer answer = answer_of(job, room, &buffer);
    if (memcmp(&answer, wanted, sizeof answer) != 0)
        fail("another answer within limits", answer.index);
    unguard(buffer);
    if (wanted->length == 0)
        return;
    limits.text--;
    if (answer_of(job, room, &buffer).status != BIVDRAZO_TOO_LONG)
        fail("a text that is longer than its limit", wanted->length);
    unguard(buffer);
}

/* Compiles the events, which must answer as the script did. */
static void compare(struct job *job, const bivdrazo_event *events, const bivdrazo_answer *wanted,
                    const struct guarded *text, size_t room) {
    const size_t size = job->events_length * sizeof *events;
    const struct guarded copy = guard((const uint8_t *)events, size);
    job->events = (const bivdrazo_event *)(const void *)copy.bytes;
    job->script = NULL;
    struct guarded buffer;
    const bivdrazo_answer answer = answer_of(job, room, &buffer);
    if (answer.status != wanted->status || answer.rule != wanted->rule ||
        answer.index != wanted->index || answer.length != wanted->length)
        fail("another answer of the events than of the script", answer.index);
    if (answer.status == BIVDRAZO_OK && memcmp(buffer.bytes, text->bytes, answer.length) != 0)
        fail("another text of the events than of the script", answer.length);
    unguard(buffer);
    compare_within(job, &answer, room);
    unguard(copy);
}

int LLVMFuzzerTestOneInput(const uint8_t *data, size_t size) {
    static bivdrazo_event events[MOST_EVENTS];
    if (size == 0)
        return 0;
    const size_t room = data[0] < 128 ? data[0] : (size_t)(data[0] - 127) << 6;
    const struct guarded script = guard(data + 1, size - 1);
    struct job job = {script.bytes, size - 1, NULL, 0, NULL, 0, NULL};
    struct guarded text;
    const bivdrazo_answer answer = answer_of(&job, room, &text);
    if (read_script(script.bytes, size - 1, &job, events)) {
        check_text(&text, &answer);
        compare(&job, events, &answer, &text, room);
    }
    unguard(text);
    unguard(script);
    return 0;
}
