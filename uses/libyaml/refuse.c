/* refuse < FILE: takes the tokens and the events of a file again and again, and each time refuses another request for
 * memory: the first, then the second, and so on to the last. For tests/libyaml.py.
 *
 * Prints a line for tokens and one for events of a string, one for tokens of an input that a read handler gives, and one
 * for events of an input that it gives in ten pieces: how many requests there are, how many refusals led to an error, how
 * many ended wrongly, and how many kept memory. One leads to an error if a beginning of what is taken with ample memory is
 * taken, and then a call returns 0 with a memory error. It ends wrongly if it does not and not everything is taken either.
 * It keeps memory if some is not freed after the parser was deleted. The exit status is 0, or 2 if the file is too large. */
#include <stdint.h>
#include <stdio.h>
#include <stdlib.h>
#include <string.h>
#include <yaml.h>

extern void *__libc_malloc(size_t size);
extern void *__libc_calloc(size_t count, size_t size);
extern void *__libc_realloc(void *old, size_t size);
extern void __libc_free(void *old);

#define MOST 100000
static unsigned char input[MOST];
static size_t input_len;
static size_t most_read; /* how many bytes the read handler gives at most in a call, or 0 if the input is a string */
static size_t read_len;  /* how much of it was given */
static uint64_t traces[MOST]; /* of what was taken with ample memory: a number for each beginning of it */
static size_t trace_count;

static long blocks;              /* how many blocks of memory are kept */
static size_t requests, refused; /* how many requests were made, and the number of the one that is refused, or 0 */

static void *counted(void *made) {
    blocks += made != NULL;
    return made;
}

static int is_refused(void) { return ++requests == refused; }

void *malloc(size_t size) { return is_refused() ? NULL : counted(__libc_malloc(size)); }

void *calloc(size_t count, size_t size) { return is_refused() ? NULL : counted(__libc_calloc(count, size)); }

void *realloc(void *old, size_t size) {
    if (is_refused())
        return NULL;
    return old ? __libc_realloc(old, size) : counted(__libc_realloc(old, size));
}

void free(void *old) {
    blocks -= old != NULL;
    __libc_free(old);
}

/* A run takes what there is to take, and looks at each thing by a number for all things so far. */
struct run {
    uint64_t trace;
    size_t taken;
    int is_ample, is_beginning;
};

static void add(struct run *run, uint64_t number) { run->trace = (run->trace ^ number) * 0x100000001b3; }

static void add_text(struct run *run, const yaml_char_t *text) {
    for (; text && *text; text++)
        add(run, *text);
}

static void end_one(struct run *run, yaml_mark_t start, yaml_mark_t end) {
    add(run, start.index);
    add(run, end.index);
    if (run->is_ample && trace_count < MOST)
        traces[trace_count++] = run->trace;
    else if (run->taken >= trace_count || traces[run->taken] != run->trace)
        run->is_beginning = 0;
    run->taken++;
}

static int take_tokens(yaml_parser_t *parser, struct run *run) {
    yaml_token_t token = {0};
    while (token.type != YAML_STREAM_END_TOKEN) {
        if (!yaml_parser_scan(parser, &token))
            return 0;
        add(run, token.type);
        if (token.type == YAML_SCALAR_TOKEN)
            add_text(run, token.data.scalar.value);
        end_one(run, token.start_mark, token.end_mark);
        int type = token.type;
        yaml_token_delete(&token);
        token.type = type;
    }
    return 1;
}

static int take_events(yaml_parser_t *parser, struct run *run) {
    yaml_event_t event = {0};
    while (event.type != YAML_STREAM_END_EVENT) {
        if (!yaml_parser_parse(parser, &event))
            return 0;
        add(run, event.type);
        if (event.type == YAML_SCALAR_EVENT)
            add_text(run, event.data.scalar.value);
        end_one(run, event.start_mark, event.end_mark);
        int type = event.type;
        yaml_event_delete(&event);
        event.type = type;
    }
    return 1;
}

static int read_input(void *data, unsigned char *buffer, size_t size, size_t *count) {
    (void)data;
    *count = size < most_read ? size : most_read;
    if (*count > input_len - read_len)
        *count = input_len - read_len;
    memcpy(buffer, input + read_len, *count);
    read_len += *count;
    return 1;
}

static void set_input(yaml_parser_t *parser) {
    read_len = 0;
    if (most_read)
        yaml_parser_set_input(parser, read_input, NULL);
    else
        yaml_parser_set_input_string(parser, input, input_len);
}

/* How a run ended in which the request of that number is refused, or none for 0. */
struct end {
    int error, is_beginning;
    size_t taken;
    long kept; /* blocks of memory */
};

static struct end run_refusing(int (*take)(yaml_parser_t *, struct run *), size_t number) {
    struct run run = {0xcbf29ce484222325, 0, number == 0, 1};
    yaml_parser_t parser;
    long before = blocks;
    int error = YAML_MEMORY_ERROR, is_ended = 0;
    requests = 0;
    refused = number;
    if (yaml_parser_initialize(&parser)) {
        set_input(&parser);
        is_ended = take(&parser, &run);
        error = parser.error;
        yaml_parser_delete(&parser);
    }
    refused = 0;
    return (struct end){error, run.is_beginning && is_ended == (error == YAML_NO_ERROR), run.taken, blocks - before};
}

static void refuse_each(const char *name, int (*take)(yaml_parser_t *, struct run *)) {
    trace_count = 0;
    struct end whole = run_refusing(take, 0);
    size_t count = requests, failed = 0;
    size_t wrong = !whole.is_beginning || whole.error == YAML_MEMORY_ERROR, keeping = whole.kept != 0;
    for (size_t number = 1; number <= count; number++) {
        struct end end = run_refusing(take, number);
        int is_whole = end.taken == whole.taken && end.error == whole.error;
        failed += end.error == YAML_MEMORY_ERROR;
        wrong += !end.is_beginning || (end.error != YAML_MEMORY_ERROR && !is_whole);
        keeping += end.kept != 0;
    }
    printf("%s %zu %zu %zu %zu\n", name, count, failed, wrong, keeping);
}

int main(void) {
    input_len = fread(input, 1, MOST, stdin);
    if (input_len == MOST)
        return 2;
    refuse_each("tokens", take_tokens);
    refuse_each("events", take_events);
    most_read = MOST;
    refuse_each("read", take_tokens);
    most_read = input_len / 10 + 1;
    refuse_each("pieces", take_events);
    return 0;
}
