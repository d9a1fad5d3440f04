/* libyaml's reader and scanner, by the proved one. libyaml's parser and all above it call
 * yaml_parser_fetch_more_tokens, programs also call yaml_parser_scan, and everything else in the library stays
 * libyaml's own.
 *
 * When the first token is wanted, a scanner of the input is opened. That is tried once: parser->eof says that it was,
 * and the handle whether it is open. The scanner gives batches of tokens, each in the place of the one before it. A
 * string is scanned as a whole. From a read handler a piece is read when no token is left of what came before it. What
 * is kept is in the two buffers that libyaml's own reader would fill, since libyaml's yaml_parser_delete frees them:
 * raw_buffer.start holds a struct held, and buffer.start the texts of the batch and the words of the fault. The
 * yaml_parser_delete of this file closes the scanner, and then calls libyaml's. */
#include "bogzhami.h"

#include <stdint.h>
#include <stdlib.h>
#include <string.h>
#include <yaml.h>

#define KEY_LIMIT 1024
#define BATCH 256
#define FIRST_ROOM 16384

/* A read handler is asked for as many bytes as libyaml asks it for, or for more. */
#define LEAST_READ 16384

/* What waits to become a token is scanned again from its start when more of it came. Each byte that comes allows so many
 * to be scanned again, and what is not used is kept, up to MOST_CREDIT: it is for small pieces of a text with lexemes of
 * some kilobytes. From LONG bytes on what waits has to grow by a quarter. A piece of 4,096 bytes allows 1 MB, so it is
 * always scanned at once while less than that waits. */
#define CREDIT_OF_BYTE 256
#define MOST_CREDIT ((size_t)1 << 26)
#define LONG ((size_t)1 << 20)

_Static_assert(sizeof(size_t) == sizeof(uint64_t), "a mark of libyaml holds 64 bits");
_Static_assert(YAML_STREAM_START_TOKEN == (int)BOGZHAMI_STREAM_START_TOKEN, "both number the tokens alike");
_Static_assert(YAML_SCALAR_TOKEN == (int)BOGZHAMI_SCALAR_TOKEN, "both number the tokens alike");
_Static_assert(YAML_FOLDED_SCALAR_STYLE == (int)BOGZHAMI_FOLDED_SCALAR_STYLE, "both number the styles alike");
_Static_assert(YAML_UTF16BE_ENCODING == (int)BOGZHAMI_UTF16BE_ENCODING, "both number the encodings alike");
_Static_assert(YAML_SCANNER_ERROR == (int)BOGZHAMI_SCANNER_ERROR, "both number the errors alike");

/* libyaml's header does not declare these two, but its libraries export them. */
int yaml_parser_update_buffer(yaml_parser_t *parser, size_t length);
int yaml_parser_fetch_more_tokens(yaml_parser_t *parser);

/* libyaml's own yaml_parser_delete, to which uses/libyaml/build gives this name. */
void libyaml_parser_delete(yaml_parser_t *parser);

struct input {
    const uint8_t *bytes; /* a string where it is, or what was read */
    size_t len;
    uint8_t *read; /* the memory of what was read, or NULL for a string */
    size_t room;
    int is_whole;              /* whether no more will come */
    yaml_error_type_t failure; /* why reading failed, if it did */
    size_t settled;            /* how many bytes came before the end of the last token */
    size_t scanned;            /* how many had come when they were scanned last */
    size_t credit;             /* how many may be scanned again */
};

struct held {
    struct bogzhami_handle handle;
    struct input input;
    size_t text_room;
    uint32_t status;               /* of the call that gave the batch; before the first one that bytes have to be read */
    struct bogzhami_answer answer; /* of that call */
    uint64_t taken;                /* how many tokens of the batch were handed out */
    struct bogzhami_token batch[BATCH];
};

static struct held *held_by(const yaml_parser_t *parser) { return (struct held *)(void *)parser->raw_buffer.start; }

static int fail_by_memory(yaml_parser_t *parser) {
    parser->error = YAML_MEMORY_ERROR;
    return 0;
}

static int fail_by_reading(yaml_parser_t *parser, const char *problem, size_t offset) {
    parser->error = YAML_READER_ERROR;
    parser->problem = problem;
    parser->problem_offset = offset;
    parser->problem_value = -1;
    return 0;
}

/* Makes room for so many bytes of texts, and for the 0 after each of a fault's two words. What was in the room before
 * is lost. */
static int make_text_room(yaml_parser_t *parser, uint64_t len) {
    uint8_t *texts = len < SIZE_MAX - 2 ? calloc(len + 2, 1) : NULL;
    if (!texts)
        return fail_by_memory(parser);
    free(parser->buffer.start);
    parser->buffer.start = parser->buffer.end = texts;
    parser->buffer.pointer = parser->buffer.last = texts;
    held_by(parser)->text_room = len;
    return 1;
}

static int make_held(yaml_parser_t *parser) {
    struct held *held = calloc(1, sizeof *held);
    if (!held)
        return fail_by_memory(parser);
    free(parser->raw_buffer.start);
    parser->raw_buffer.start = parser->raw_buffer.end = (unsigned char *)held;
    parser->raw_buffer.pointer = parser->raw_buffer.last = (unsigned char *)held;
    parser->eof = 1;
    return make_text_room(parser, FIRST_ROOM);
}

/* Whether the input is a string, which is the only input whose end is set. */
static int is_string(const yaml_parser_t *parser) { return parser->input.string.end != NULL; }

static uint32_t open_string(const yaml_parser_t *parser, struct held *held) {
    struct input *input = &held->input;
    input->bytes = parser->input.string.current;
    input->len = (size_t)(parser->input.string.end - parser->input.string.current);
    input->is_whole = 1;
    return bogzhami_open(&held->handle, input->bytes, input->len, (uint32_t)parser->encoding, KEY_LIMIT);
}

static uint32_t open_pieces(const yaml_parser_t *parser, struct held *held) {
    held->status = BOGZHAMI_MORE;
    held->input.credit = MOST_CREDIT;
    return bogzhami_open_pieces(&held->handle, (uint32_t)parser->encoding, KEY_LIMIT);
}

static int open_scanner(yaml_parser_t *parser, struct held *held) {
    uint32_t status = is_string(parser) ? open_string(parser, held) : open_pieces(parser, held);
    if (status == BOGZHAMI_WRONG)
        return fail_by_reading(parser, "unknown encoding", 0);
    return status == BOGZHAMI_DONE || fail_by_memory(parser);
}

/* Makes sure that a scanner of the input is open. It reads what it needs, whatever length is asked for. */
int yaml_parser_update_buffer(yaml_parser_t *parser, size_t length) {
    (void)length;
    if (parser->eof)
        return held_by(parser)->handle.live;
    return make_held(parser) && open_scanner(parser, held_by(parser));
}

/* Closes the scanner and frees what was read, and leaves all else to libyaml. */
void yaml_parser_delete(yaml_parser_t *parser) {
    if (parser->eof) {
        bogzhami_close(&held_by(parser)->handle);
        free(held_by(parser)->input.read);
    }
    libyaml_parser_delete(parser);
}

static yaml_mark_t mark_of(struct bogzhami_mark mark) { return (yaml_mark_t){mark.index, mark.line, mark.column}; }

static const char *word_of(const uint8_t *word, uint64_t len) { return len ? (const char *)word : NULL; }

/* Sets the parser's error to the fault at which the tokens end. */
static int fail_by_fault(yaml_parser_t *parser, const struct bogzhami_answer *answer) {
    const uint8_t *problem = parser->buffer.start + answer->text_len;
    parser->error = (yaml_error_type_t)answer->error;
    parser->problem = word_of(problem, answer->problem_len);
    parser->problem_offset = answer->problem_offset;
    parser->problem_value = answer->problem_value;
    parser->problem_mark = mark_of(answer->problem_mark);
    parser->context = word_of(problem + answer->problem_len + 1, answer->context_len);
    parser->context_mark = mark_of(answer->context_mark);
    return 0;
}

/* Puts a 0 after each of the fault's two words, so that the second one is a byte further. */
static void end_words(const struct bogzhami_answer *answer, uint8_t *texts) {
    uint8_t *problem_end = texts + answer->text_len + answer->problem_len;
    memmove(problem_end + 1, problem_end, answer->context_len);
    problem_end[0] = 0;
    problem_end[1 + answer->context_len] = 0;
}

/* How many bytes wait to become a token. It is not asked for once all came. */
static size_t waiting(const struct input *input) { return input->len - input->settled; }

/* Sees that there is room for so many bytes after those that came. */
static int make_room(struct input *input, size_t wanted) {
    size_t least = input->len + wanted, doubled = 2 * input->room;
    if (least <= input->room)
        return 1;
    size_t room = doubled > least ? doubled : least;
    uint8_t *read = room > input->room ? realloc(input->read, room) : NULL;
    if (!read)
        return 0;
    input->bytes = input->read = read;
    input->room = room;
    return 1;
}

/* Calls the read handler once. That this or memory for it fails is kept in the input. */
static void read_piece(const yaml_parser_t *parser, struct input *input) {
    size_t count = 0, wanted = waiting(input) > LEAST_READ ? waiting(input) : LEAST_READ;
    if (!make_room(input, wanted)) {
        input->failure = YAML_MEMORY_ERROR;
        return;
    }
    if (!parser->read_handler(parser->read_handler_data, input->read + input->len, wanted, &count)) {
        input->failure = YAML_READER_ERROR;
        return;
    }
    input->len += count;
    input->is_whole = count == 0;
    size_t more = MOST_CREDIT - input->credit;
    input->credit += count < more / CREDIT_OF_BYTE ? count * CREDIT_OF_BYTE : more;
}

/* Whether enough came for what waits to be scanned again. */
static int is_due(const struct input *input) {
    size_t grown = input->len - input->scanned;
    if (waiting(input) < LONG)
        return grown > 0 && waiting(input) <= input->credit;
    return grown >= (waiting(input) - grown) / 4;
}

/* How many of the bytes spell whole characters of UTF-8: all but those of a character that the end cuts off. */
static size_t whole_utf8(const uint8_t *bytes, size_t len) {
    size_t lead = len;
    while (lead > 0 && len - lead < 4) {
        uint8_t octet = bytes[--lead];
        size_t width = octet >= 0xF0 ? 4 : octet >= 0xE0 ? 3 : octet >= 0xC0 ? 2 : 1;
        if ((octet & 0xC0) != 0x80)
            return len - lead < width ? lead : len;
    }
    return len;
}

/* The same of UTF-16, in which the high octet of a unit is its first one or its second one. */
static size_t whole_utf16(const uint8_t *bytes, size_t len, size_t high) {
    size_t whole = len / 2 * 2;
    return whole > 0 && (bytes[whole - 2 + high] & 0xFC) == 0xD8 ? whole - 2 : whole;
}

/* How many bytes libyaml's reader has decoded when a read fails: all whole characters. It begins with the third byte, since
 * it looks for a byte order mark. */
static size_t decoded_len(const yaml_parser_t *parser, const struct input *input) {
    int is_any = parser->encoding == YAML_ANY_ENCODING;
    if (is_any && input->len < 3)
        return 0;
    if (parser->encoding == YAML_UTF16LE_ENCODING || (is_any && !memcmp(input->bytes, "\xff\xfe", 2)))
        return whole_utf16(input->bytes, input->len, 1);
    if (parser->encoding == YAML_UTF16BE_ENCODING || (is_any && !memcmp(input->bytes, "\xfe\xff", 2)))
        return whole_utf16(input->bytes, input->len, 0);
    return whole_utf8(input->bytes, input->len);
}

/* Reads until what waits is to be scanned again. Returns 0 if reading failed, and all that came before was scanned. */
static int read_on(yaml_parser_t *parser, struct held *held) {
    struct input *input = &held->input;
    while (!input->is_whole && !input->failure && (held->status == BOGZHAMI_WHOLE || !is_due(input)))
        read_piece(parser, input);
    if (input->is_whole || input->len > input->scanned)
        return 1;
    if (input->failure == YAML_MEMORY_ERROR)
        return fail_by_memory(parser);
    return fail_by_reading(parser, "input error", decoded_len(parser, input));
}

/* Calls the scanner once, for a batch in place of one that was handed out. */
static uint32_t call_scanner(yaml_parser_t *parser, struct held *held) {
    const struct input *input = &held->input;
    uint64_t needed_from; /* what came is kept from its start, and so all that is needed */
    if (is_string(parser))
        return bogzhami_next(&held->handle, input->bytes, input->len, held->batch, BATCH, parser->buffer.start,
                             held->text_room, &held->answer);
    return bogzhami_next_piece(&held->handle, 0, input->bytes, input->len, input->is_whole, held->batch, BATCH,
                               parser->buffer.start, held->text_room, &held->answer, &needed_from);
}

/* Gets a batch of what came. The room for texts grows if the next text is too long for it. */
static void scan(yaml_parser_t *parser, struct held *held) {
    struct input *input = &held->input;
    do
        held->status = call_scanner(parser, held);
    while (held->status == BOGZHAMI_NO_ROOM && make_text_room(parser, held->answer.text_len));
    held->taken = 0;
    input->scanned = input->len;
    if (held->answer.token_count > 0)
        input->settled = held->batch[held->answer.token_count - 1].end_mark.index;
    if (held->status == BOGZHAMI_MORE)
        input->credit -= waiting(input) < input->credit ? waiting(input) : input->credit;
}

static int wants_more(const struct held *held) {
    return held->status == BOGZHAMI_MORE || held->status == BOGZHAMI_WHOLE;
}

/* Gets the next batch in place of one that was handed out, and returns whether a token is in it. */
static int fetch_batch(yaml_parser_t *parser, struct held *held) {
    if (held->answer.error)
        return fail_by_fault(parser, &held->answer);
    do {
        if (wants_more(held) && !read_on(parser, held))
            return 0;
        scan(parser, held);
    } while (wants_more(held) && held->answer.token_count == 0);
    if (held->status == BOGZHAMI_FAULT)
        end_words(&held->answer, parser->buffer.start);
    if (held->answer.token_count > 0)
        return 1;
    return held->status == BOGZHAMI_FAULT ? fail_by_fault(parser, &held->answer) : 0;
}

/* A copy of a text with a 0 after it, which yaml_token_delete frees, or NULL if there is no memory. */
static yaml_char_t *copy_of(const uint8_t *text, uint64_t len) {
    yaml_char_t *copy = malloc(len + 1);
    if (copy) {
        memcpy(copy, text, len);
        copy[len] = 0;
    }
    return copy;
}

/* Texts of C end at their first 0, so the suffix of `!%00` is empty for libyaml, and it makes the tag of a single `!`
 * of it: an empty handle and the suffix `!`. */
static int is_single_mark(const struct bogzhami_token *record, const uint8_t *suffix) {
    return record->first_len == 1 && record->second_len > 0 && suffix[0] == 0;
}

static int fill_tag(yaml_token_t *token, const struct bogzhami_token *record, const uint8_t *handle) {
    const uint8_t *suffix = handle + record->first_len;
    if (is_single_mark(record, suffix)) {
        token->data.tag.handle = copy_of(handle, 0);
        token->data.tag.suffix = copy_of(handle, 1);
    } else {
        token->data.tag.handle = copy_of(handle, record->first_len);
        token->data.tag.suffix = copy_of(suffix, record->second_len);
    }
    return token->data.tag.handle && token->data.tag.suffix;
}

/* Fills in the texts and numbers of a token, and returns whether there was memory for them. */
static int fill_data(yaml_token_t *token, const struct bogzhami_token *record, const uint8_t *texts) {
    const uint8_t *first = texts + record->text_at, *second = first + record->first_len;
    switch (token->type) {
    case YAML_STREAM_START_TOKEN:
        token->data.stream_start.encoding = (yaml_encoding_t)record->detail;
        return 1;
    case YAML_VERSION_DIRECTIVE_TOKEN:
        token->data.version_directive.major = record->major;
        token->data.version_directive.minor = record->minor;
        return 1;
    case YAML_TAG_DIRECTIVE_TOKEN:
        token->data.tag_directive.handle = copy_of(first, record->first_len);
        token->data.tag_directive.prefix = copy_of(second, record->second_len);
        return token->data.tag_directive.handle && token->data.tag_directive.prefix;
    case YAML_TAG_TOKEN:
        return fill_tag(token, record, first);
    case YAML_ALIAS_TOKEN:
        return (token->data.alias.value = copy_of(first, record->first_len)) != NULL;
    case YAML_ANCHOR_TOKEN:
        return (token->data.anchor.value = copy_of(first, record->first_len)) != NULL;
    case YAML_SCALAR_TOKEN:
        token->data.scalar.style = (yaml_scalar_style_t)record->detail;
        token->data.scalar.length = record->first_len;
        return (token->data.scalar.value = copy_of(first, record->first_len)) != NULL;
    default:
        return 1;
    }
}

static int make_token(yaml_token_t *token, const struct bogzhami_token *record, const uint8_t *texts) {
    memset(token, 0, sizeof *token);
    token->type = (yaml_token_type_t)record->token_type;
    token->start_mark = mark_of(record->start_mark);
    token->end_mark = mark_of(record->end_mark);
    if (fill_data(token, record, texts))
        return 1;
    yaml_token_delete(token);
    return 0;
}

static int is_at_end(const struct held *held) {
    return held->taken > 0 && held->batch[held->taken - 1].token_type == BOGZHAMI_STREAM_END_TOKEN;
}

/* Puts the next token into the parser's queue, in which there is never another. */
int yaml_parser_fetch_more_tokens(yaml_parser_t *parser) {
    if (!yaml_parser_update_buffer(parser, 1))
        return 0;
    struct held *held = held_by(parser);
    if (is_at_end(held))
        held->taken--; /* as in libyaml, the end of the stream comes as often as it is asked for */
    if (held->taken == held->answer.token_count && !fetch_batch(parser, held))
        return 0;
    yaml_token_t *token = parser->tokens.start;
    if (!make_token(token, &held->batch[held->taken], parser->buffer.start))
        return fail_by_memory(parser);
    held->taken++;
    parser->tokens.head = token;
    parser->tokens.tail = token + 1;
    parser->token_available = 1;
    parser->mark = token->end_mark;
    if (token->type == YAML_STREAM_START_TOKEN) {
        parser->stream_start_produced = 1;
        parser->encoding = token->data.stream_start.encoding;
    }
    return 1;
}

/* Hands out the next token. After the end of the stream or an error it is an empty one. */
int yaml_parser_scan(yaml_parser_t *parser, yaml_token_t *token) {
    memset(token, 0, sizeof *token);
    if (parser->stream_end_produced || parser->error)
        return 1;
    if (!parser->token_available && !yaml_parser_fetch_more_tokens(parser))
        return 0;
    *token = *parser->tokens.head++;
    parser->token_available = 0;
    parser->tokens_parsed++;
    parser->stream_end_produced = token->type == YAML_STREAM_END_TOKEN;
    return 1;
}
