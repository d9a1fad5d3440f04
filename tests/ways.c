/* ways WAY LIMIT ENCODING < INPUT: how many tokens an input has, taken by calls of bogzhami.h, for tests/ways.py.
 *
 * WAY is `all` (one bogzhami_scan_all), `batches` (calls of bogzhami_next, each for 256 tokens), `ones` (each for one
 * token), `peeks` (each for one token, after a bogzhami_peek that shows the same) or `pieces` (calls of
 * bogzhami_next_piece, each for 256 tokens, of an input that comes in growing pieces). ENCODING is a number of
 * bogzhami_encoding. The answer is a line: how many tokens there are up to the stream end or the fault, and the kind of
 * the fault, or `-` for none. It is `?` if a call returned something else. Nothing here takes memory but the calls, so
 * that their requests can be refused. */
#include "bogzhami.h"

#include <stdio.h>
#include <stdlib.h>
#include <string.h>
#include <unistd.h>

enum { MOST_INPUT = 1 << 23, MOST_TEXTS = 1 << 23, MOST_TOKENS = 1 << 20, BATCH = 256, LEAST_PIECE = 100 };

static uint8_t input[MOST_INPUT], texts[MOST_TEXTS];
static struct bogzhami_token tokens[MOST_TOKENS];

/* What was taken: how many tokens, what the last call returned, and what it answered. */
struct taken {
    uint64_t count;
    uint32_t status;
    struct bogzhami_answer answer;
};

/* Reads the standard input to its end. */
static size_t read_input(void) {
    size_t len = 0;
    ssize_t more;
    while (len < sizeof input && (more = read(0, input + len, sizeof input - len)) > 0)
        len += (size_t)more;
    return len;
}

static struct taken take_at_once(size_t len, uint32_t encoding, uint32_t limit) {
    struct taken t = {0, 0, {0}};
    t.status = bogzhami_scan_all(input, len, encoding, limit, tokens, MOST_TOKENS, texts, sizeof texts, &t.answer);
    t.count = t.answer.token_count;
    return t;
}

/* Shows the next token. Whether it is shown, or the fault is. */
static bool shows_next(struct bogzhami_handle *handle, size_t len, struct bogzhami_token *shown) {
    struct bogzhami_answer answer;
    uint32_t status = bogzhami_peek(handle, input, len, shown, texts, sizeof texts, &answer);
    return status == BOGZHAMI_FAULT || (status == BOGZHAMI_DONE && answer.token_count == 1);
}

static bool is_same(const struct bogzhami_token *a, const struct bogzhami_token *b) {
    return a->token_type == b->token_type && a->start_mark.index == b->start_mark.index &&
           a->end_mark.index == b->end_mark.index;
}

/* Takes all tokens, so many a call. With peeks each call comes after one, and a token that it does not show ends the
 * calls. */
static struct taken take_by_calls(struct bogzhami_handle *handle, size_t len, size_t batch, bool peeks) {
    struct taken t = {0, BOGZHAMI_DONE, {0}};
    struct bogzhami_token shown = {0};
    while (t.status == BOGZHAMI_DONE) {
        bool is_last = t.count && tokens[0].token_type == BOGZHAMI_STREAM_END_TOKEN;
        if (peeks && !is_last && !shows_next(handle, len, &shown))
            t.status = BOGZHAMI_WRONG;
        else
            t.status = bogzhami_next(handle, input, len, tokens, batch, texts, sizeof texts, &t.answer);
        if (peeks && t.answer.token_count == 1 && !is_same(&shown, tokens))
            t.status = BOGZHAMI_WRONG;
        t.count += t.answer.token_count;
    }
    return t;
}

/* How many bytes have come after one piece more: a quarter of what came, so that long lexemes are not read too often. */
static size_t come(size_t came, size_t len) {
    size_t more = LEAST_PIECE + came / 4;
    return more < len - came ? came + more : len;
}

static bool is_to_go_on(uint32_t status) {
    return status == BOGZHAMI_DONE || status == BOGZHAMI_MORE || status == BOGZHAMI_WHOLE;
}

/* Takes all tokens of an input that comes in pieces. */
static struct taken take_in_pieces(size_t len, uint32_t encoding, uint32_t limit) {
    struct bogzhami_handle handle = BOGZHAMI_CLOSED;
    struct taken t = {0, bogzhami_open_pieces(&handle, encoding, limit), {0}};
    size_t came = 0;
    uint64_t needed_from;
    while (is_to_go_on(t.status)) {
        if (t.status != BOGZHAMI_DONE)
            came = come(came, len);
        t.status = bogzhami_next_piece(&handle, 0, input, came, came == len, tokens, BATCH, texts, sizeof texts, &t.answer,
                                       &needed_from);
        t.count += t.answer.token_count;
    }
    bogzhami_close(&handle);
    return t;
}

static struct taken take_all(const char *way, size_t len, uint32_t encoding, uint32_t limit) {
    struct bogzhami_handle handle = BOGZHAMI_CLOSED;
    struct taken t = {0, BOGZHAMI_WRONG, {0}};
    if (!strcmp(way, "all"))
        return take_at_once(len, encoding, limit);
    if (!strcmp(way, "pieces"))
        return take_in_pieces(len, encoding, limit);
    t.status = bogzhami_open(&handle, input, len, encoding, limit);
    if (t.status == BOGZHAMI_DONE)
        t = take_by_calls(&handle, len, strcmp(way, "batches") ? 1 : BATCH, !strcmp(way, "peeks"));
    bogzhami_close(&handle);
    return t;
}

static bool is_ended(const char *way, const struct taken *t) {
    return t->status == (strcmp(way, "all") ? BOGZHAMI_OVER : BOGZHAMI_DONE);
}

int main(int argc, char **argv) {
    char line[80];
    if (argc != 4)
        return 2;
    size_t len = read_input();
    struct taken t = take_all(argv[1], len, (uint32_t)atoi(argv[3]), (uint32_t)atoi(argv[2]));
    const char *end = is_ended(argv[1], &t) ? "-" : "?";
    const char *fault = t.status == BOGZHAMI_FAULT ? bogzhami_error_name(t.answer.error) : end;
    int size = snprintf(line, sizeof line, "%llu %s\n", (unsigned long long)t.count, fault);
    return write(1, line, (size_t)size) != size;
}
