/* held TEST < INPUTS, or held long BYTES: checks a scanner that is held against bogzhami_scan_all, for tests/ffi.py.
 *
 * An input is its encoding and its key limit in 4 bytes each, its length in 8 bytes, and its bytes. What a call has to
 * return is computed here from all tokens of the input, by the words of bogzhami.h. Printed are how many checks there
 * were and what was wrong. The exit status is 1 if anything was wrong, or nothing was checked.
 *
 * It is linked with --wrap for malloc, calloc, realloc and free, so that blocks are counted and requests refused. */
#include "bogzhami.h"

#include <pthread.h>
#include <stdio.h>
#include <stdlib.h>
#include <string.h>

enum { MOST_TOKENS = 1000, SPARE = 3, FILL = 0xA5, PREFIXES = 20, FIRST_TOKENS = 10, MOST_SHOWN = 20 };
enum { MOST_BATCH = 40, LOW_LIMIT = 4, MANY = 16 };

struct input {
    uint32_t encoding, key_limit;
    uint64_t len;
    uint8_t *bytes;
};

/* All that bogzhami_scan_all says of an input. */
struct whole {
    struct bogzhami_token *tokens;
    uint8_t *texts;
    struct bogzhami_answer answer;
    uint32_t status;
};

/* A scanner that is held, with how many tokens were taken and whether the stream end or the fault was. */
struct run {
    const struct input *input;
    const struct whole *whole;
    struct bogzhami_handle handle;
    uint64_t taken;
    bool is_over;
};

/* What a call has to return: the tokens and the bytes of their texts, or the need of what comes next. */
struct expected {
    uint32_t status;
    uint64_t count, text_len, need;
};

static size_t input_number;
static uint64_t checks, wrongs;

/* The rooms. That for texts is SPARE bytes longer than all texts of the input and of the one before it. */
static struct bogzhami_token tokens[MOST_TOKENS + SPARE];
static uint8_t *texts;

/* The input before, for what two scanners do by turns. The first input is before itself. */
static struct input before;
static struct whole whole_before;
static struct bogzhami_answer answer;
static const struct bogzhami_answer no_answer;

static void check(bool is_right, const char *what) {
    checks++;
    if (!is_right && wrongs++ < MOST_SHOWN)
        printf("input %zu: wrong: %s\n", input_number, what);
}

/* Memory. */

extern void *__real_malloc(size_t size);
extern void *__real_calloc(size_t count, size_t size);
extern void *__real_realloc(void *old, size_t size);
extern void __real_free(void *block);

static long blocks; /* that were given and not freed */
static long requests, first_refused,
    last_refused; /* requests since refuse(), and the numbers of those refused, from 1 */

static void refuse(long first, long last) {
    requests = 0;
    first_refused = first;
    last_refused = last;
}

static bool is_refused(void) {
    requests++;
    return requests >= first_refused && requests <= last_refused;
}

static void *counted(void *block) {
    blocks += block != NULL;
    return block;
}

void *__wrap_malloc(size_t size) { return is_refused() ? NULL : counted(__real_malloc(size)); }

void *__wrap_calloc(size_t count, size_t size) { return is_refused() ? NULL : counted(__real_calloc(count, size)); }

void *__wrap_realloc(void *old, size_t size) {
    if (is_refused())
        return NULL;
    return old ? __real_realloc(old, size) : counted(__real_malloc(size));
}

void __wrap_free(void *block) {
    blocks -= block != NULL;
    __real_free(block);
}

static void *need(void *block) {
    if (!block) {
        fprintf(stderr, "held: out of memory\n");
        exit(3);
    }
    return block;
}

/* Inputs, and what bogzhami_scan_all says of them. */

/* Reads the next input; false at the end. */
static bool read_input(struct input *i) {
    uint32_t settings[2];
    if (fread(settings, sizeof settings, 1, stdin) != 1 || fread(&i->len, sizeof i->len, 1, stdin) != 1)
        return false;
    i->encoding = settings[0];
    i->key_limit = settings[1];
    i->bytes = need(malloc(i->len ? i->len : 1));
    return fread(i->bytes, 1, i->len, stdin) == i->len;
}

static uint64_t fault_len(const struct whole *w) { return w->answer.problem_len + w->answer.context_len; }

static uint64_t all_texts(const struct whole *w) { return w->answer.text_len + fault_len(w); }

static struct whole scan_whole(const struct input *i) {
    struct whole w;
    struct bogzhami_token none;
    uint8_t no_text;
    bogzhami_scan_all(i->bytes, i->len, i->encoding, i->key_limit, &none, 0, &no_text, 0, &w.answer);
    uint64_t count = w.answer.token_count, len = all_texts(&w);
    w.tokens = need(calloc(count + 1, sizeof *w.tokens));
    w.texts = need(calloc(len + 1, 1));
    w.status = bogzhami_scan_all(i->bytes, i->len, i->encoding, i->key_limit, w.tokens, count, w.texts, len, &w.answer);
    return w;
}

/* Whether the input has the text of a token where its record says that it has it, if it says so. */
static bool is_there(const struct input *i, const struct whole *w, const struct bogzhami_token *t) {
    if (t->input_at == BOGZHAMI_NOWHERE)
        return true;
    return t->input_at <= i->len && t->first_len <= i->len - t->input_at &&
           !memcmp(i->bytes + t->input_at, w->texts + t->text_at, t->first_len);
}

static void forget(struct input *i, struct whole *w) {
    free(w->tokens);
    free(w->texts);
    free(i->bytes);
}

/* What calls have to return. */

static uint64_t text_len(const struct bogzhami_token *t) { return t->first_len + t->second_len; }

static struct expected expect(const struct run *r, size_t tokens_len, size_t texts_len) {
    const struct whole *w = r->whole;
    const struct bogzhami_token *next = w->tokens + r->taken;
    uint64_t left = w->answer.token_count - r->taken;
    struct expected e = {r->is_over ? BOGZHAMI_OVER : BOGZHAMI_DONE, 0, 0, 0};
    if (r->is_over || tokens_len == 0)
        return e;
    for (; e.count < tokens_len && e.count < left && text_len(next + e.count) <= texts_len - e.text_len; e.count++)
        e.text_len += text_len(next + e.count);
    bool meets_fault = w->status == BOGZHAMI_FAULT && e.count == left && e.count < tokens_len;
    if (meets_fault && fault_len(w) <= texts_len - e.text_len) {
        e.status = BOGZHAMI_FAULT;
    } else if (e.count == 0) {
        e.status = BOGZHAMI_NO_ROOM;
        e.need = left ? text_len(next) : fault_len(w);
    }
    return e;
}

static struct bogzhami_answer expected_answer(const struct whole *w, struct expected e) {
    struct bogzhami_answer wanted = {0};
    if (e.status == BOGZHAMI_FAULT)
        wanted = w->answer;
    wanted.token_count = e.count;
    wanted.text_len = e.status == BOGZHAMI_NO_ROOM ? e.need : e.text_len;
    return wanted;
}

/* Whether the first records are those of the next tokens, with their texts in the room from its beginning on. */
static bool are_next(const struct whole *w, uint64_t taken, uint64_t count) {
    uint64_t at = 0;
    for (uint64_t i = 0; i < count; i++) {
        struct bogzhami_token wanted = w->tokens[taken + i];
        if (memcmp(texts + at, w->texts + wanted.text_at, text_len(&wanted)))
            return false;
        wanted.text_at = at;
        at += text_len(&wanted);
        if (memcmp(&wanted, &tokens[i], sizeof wanted))
            return false;
    }
    return true;
}

/* Whether all bytes of a room from one place up to another are as fill_rooms left them. */
static bool is_filled(const void *from, const void *to) {
    const uint8_t *first = from;
    size_t len = (size_t)((const uint8_t *)to - first);
    return first[0] == FILL && !memcmp(first, first + 1, len - 1);
}

static void fill_rooms(size_t tokens_len, size_t texts_len) {
    memset(tokens, FILL, (tokens_len + SPARE) * sizeof *tokens);
    memset(texts, FILL, texts_len + SPARE);
    memset(&answer, FILL, sizeof answer);
}

/* Checks what a call left behind. */
static void check_left(const struct run *r, struct expected e, size_t tokens_len, size_t texts_len) {
    uint64_t written = e.text_len;
    struct bogzhami_answer wanted = expected_answer(r->whole, e);
    check(!memcmp(&answer, &wanted, sizeof answer), "the answer");
    check(are_next(r->whole, r->taken, e.count), "a token or its text");
    if (e.status == BOGZHAMI_FAULT) {
        check(!memcmp(texts + written, r->whole->texts + r->whole->answer.text_len, fault_len(r->whole)),
              "the fault's texts");
        written += fault_len(r->whole);
    }
    check(is_filled(tokens + e.count, tokens + tokens_len + SPARE), "something is behind the last record");
    check(is_filled(texts + written, texts + texts_len + SPARE), "something is behind the last text");
}

/* Fills the rooms, and calls bogzhami_next. */
static uint32_t call_next(struct run *r, size_t tokens_len, size_t texts_len) {
    fill_rooms(tokens_len, texts_len);
    return bogzhami_next(&r->handle, r->input->bytes, r->input->len, tokens, tokens_len, texts, texts_len, &answer);
}

static uint32_t call_peek(struct run *r, size_t texts_len) {
    fill_rooms(1, texts_len);
    return bogzhami_peek(&r->handle, r->input->bytes, r->input->len, tokens, texts, texts_len, &answer);
}

/* Checks everything that a call returned and left behind which takes tokens. Returns its status, or BOGZHAMI_OVER if that
 * is wrong. */
static uint32_t check_taken(struct run *r, struct expected e, uint32_t status, size_t tokens_len, size_t texts_len) {
    check(status == e.status, "the status of a call that takes tokens");
    check_left(r, e, tokens_len, texts_len);
    r->taken += e.count;
    bool is_last = r->whole->status == BOGZHAMI_DONE && r->taken == r->whole->answer.token_count;
    r->is_over = r->is_over || is_last || e.status == BOGZHAMI_FAULT;
    return status == e.status ? status : BOGZHAMI_OVER;
}

/* The same of bogzhami_next. */
static uint32_t check_next(struct run *r, uint32_t status, size_t tokens_len, size_t texts_len) {
    return check_taken(r, expect(r, tokens_len, texts_len), status, tokens_len, texts_len);
}

/* The same of bogzhami_peek, which takes nothing. */
static uint32_t check_peek(const struct run *r, uint32_t status, size_t texts_len) {
    struct expected e = expect(r, 1, texts_len);
    check(status == e.status, "the status of bogzhami_peek");
    check_left(r, e, 1, texts_len);
    return status;
}

/* Calls bogzhami_next, checks everything, and returns its status. */
static uint32_t next(struct run *r, size_t tokens_len, size_t texts_len) {
    return check_next(r, call_next(r, tokens_len, texts_len), tokens_len, texts_len);
}

static uint32_t peek(struct run *r, size_t texts_len) { return check_peek(r, call_peek(r, texts_len), texts_len); }

static uint32_t open_run(struct bogzhami_handle *handle, const struct input *i) {
    return bogzhami_open(handle, i->bytes, i->len, i->encoding, i->key_limit);
}

/* The encoding that is set, or that of the byte order mark. */
static uint32_t encoding_of(const struct input *i) {
    if (i->encoding != BOGZHAMI_ANY_ENCODING || i->len < 2)
        return i->encoding != BOGZHAMI_ANY_ENCODING ? i->encoding : BOGZHAMI_UTF8_ENCODING;
    if (i->bytes[0] == 0xFF && i->bytes[1] == 0xFE)
        return BOGZHAMI_UTF16LE_ENCODING;
    return i->bytes[0] == 0xFE && i->bytes[1] == 0xFF ? BOGZHAMI_UTF16BE_ENCODING : BOGZHAMI_UTF8_ENCODING;
}

static struct run begin(const struct input *i, const struct whole *w) {
    struct run r = {i, w, BOGZHAMI_CLOSED, 0, false};
    check(open_run(&r.handle, i) == BOGZHAMI_DONE && r.handle.live, "bogzhami_open");
    check(bogzhami_encoding(&r.handle) == encoding_of(i), "the encoding before the first token");
    return r;
}

static void end(struct run *r) {
    check(bogzhami_encoding(&r->handle) == encoding_of(r->input), "the encoding");
    if (r->taken)
        check(r->whole->tokens[0].detail == encoding_of(r->input), "the encoding of the first token");
    check(bogzhami_close(&r->handle) == BOGZHAMI_DONE && !r->handle.live, "bogzhami_close");
}

/* Takes all that is left. */
static void drain(struct run *r, size_t tokens_len, size_t texts_len) {
    while (next(r, tokens_len, texts_len) == BOGZHAMI_DONE)
        ;
    check(next(r, tokens_len, texts_len) == BOGZHAMI_OVER, "what comes after all is given");
}

/* The tests. Each gets one input. */

static void try_batches(const struct input *i, const struct whole *w) {
    static const size_t sizes[] = {1, 2, 3, 7, 64, MOST_TOKENS};
    for (size_t n = 0; n < sizeof sizes / sizeof *sizes; n++) {
        struct run r = begin(i, w);
        check(next(&r, 0, all_texts(w)) == BOGZHAMI_DONE, "a room for no tokens");
        drain(&r, sizes[n], all_texts(w));
        end(&r);
    }
}

/* Takes all, with a room for texts that is made as long as it has to be whenever it is too short. */
static void drain_by_need(struct run *r, size_t texts_len) {
    uint32_t status = BOGZHAMI_DONE;
    while (status == BOGZHAMI_DONE) {
        status = next(r, FIRST_TOKENS, texts_len);
        if (status == BOGZHAMI_NO_ROOM && answer.text_len <= all_texts(r->whole))
            status = next(r, FIRST_TOKENS, (size_t)answer.text_len);
        check(status != BOGZHAMI_NO_ROOM, "the room that was told is too short");
    }
    check(r->is_over, "the end is not reached");
}

static void try_rooms(const struct input *i, const struct whole *w) {
    uint64_t most = 0;
    for (uint64_t n = 0; n < w->answer.token_count && n < FIRST_TOKENS; n++)
        most += text_len(&w->tokens[n]);
    if (w->answer.token_count < FIRST_TOKENS)
        most = all_texts(w);
    for (size_t texts_len = 0; texts_len <= most; texts_len++) {
        struct run r = begin(i, w);
        drain_by_need(&r, texts_len);
        end(&r);
    }
}

static void take_some(struct run *r, size_t count) {
    for (size_t n = 0; n < count; n++)
        next(r, 1, all_texts(r->whole));
}

static void try_prefixes(const struct input *i, const struct whole *w) {
    for (size_t count = 0; count <= PREFIXES; count++) {
        long blocks_before = blocks;
        struct run r = begin(i, w);
        take_some(&r, count);
        end(&r);
        check(blocks == blocks_before, "closing does not free all");
    }
}

static void try_peeks(const struct input *i, const struct whole *w) {
    struct run r = begin(i, w);
    while (!r.is_over) {
        peek(&r, all_texts(w));
        peek(&r, 0);
        peek(&r, all_texts(w));
        if (r.taken % 3)
            peek(&r, all_texts(w));
        if (next(&r, 1, all_texts(w)) == BOGZHAMI_OVER)
            break;
    }
    check(peek(&r, all_texts(w)) == BOGZHAMI_OVER, "a peek after all is given");
    check(next(&r, 1, all_texts(w)) == BOGZHAMI_OVER, "a call after all is given");
    end(&r);
}

/* Three scanners by turns: two of this input, of which one is a token ahead, and one of the input before. */
static void try_turns(const struct input *i, const struct whole *w) {
    struct run one = begin(i, w), ahead = begin(i, w), other = begin(&before, &whole_before);
    next(&ahead, 1, all_texts(w));
    for (uint32_t status = BOGZHAMI_DONE; status == BOGZHAMI_DONE;) {
        peek(&ahead, all_texts(w));
        next(&other, 1, all_texts(&whole_before));
        status = next(&one, 2, all_texts(w));
        next(&ahead, 3, all_texts(w));
    }
    end(&one);
    drain(&other, 3, all_texts(&whole_before));
    end(&other);
    drain(&ahead, 1, all_texts(w));
    end(&ahead);
}

static void *drain_there(void *run) {
    struct run *r = run;
    drain(r, 2, all_texts(r->whole));
    return NULL;
}

/* Opened here, used on another thread, closed here. */
static void try_threads(const struct input *i, const struct whole *w) {
    pthread_t thread;
    struct run r = begin(i, w);
    next(&r, 1, all_texts(w));
    if (pthread_create(&thread, NULL, drain_there, &r) || pthread_join(thread, NULL))
        check(false, "there is no thread");
    check(r.is_over, "the other thread did not take all");
    end(&r);
}

/* Checks that every call for a scanner of a whole input says that the handle holds none, and touches no room. */
static void check_not_whole(struct bogzhami_handle *handle, const struct input *i) {
    static const struct bogzhami_mark zeros;
    struct bogzhami_mark mark = {1, 1, 1};
    fill_rooms(1, 0);
    check(bogzhami_next(handle, i->bytes, i->len, tokens, 1, texts, 0, &answer) == BOGZHAMI_NOT_LIVE, "next, not live");
    check(!memcmp(&answer, &no_answer, sizeof answer), "the answer of next, not live");
    memset(&answer, FILL, sizeof answer);
    check(bogzhami_peek(handle, i->bytes, i->len, tokens, texts, 0, &answer) == BOGZHAMI_NOT_LIVE, "peek, not live");
    check(!memcmp(&answer, &no_answer, sizeof answer), "the answer of peek, not live");
    check(is_filled(tokens, tokens + 1 + SPARE) && is_filled(texts, texts + SPARE), "the rooms, not live");
    check(bogzhami_reach(handle, &mark) == BOGZHAMI_NOT_LIVE, "reach, not live");
    check(!memcmp(&mark, &zeros, sizeof mark), "the mark of reach, not live");
    check(bogzhami_encoding(handle) == BOGZHAMI_ANY_ENCODING, "encoding, not live");
}

/* Checks that bogzhami_next_piece says that the handle holds no scanner for it, and touches no room. */
static void check_not_pieces(struct bogzhami_handle *handle, const struct input *i) {
    uint64_t needed_from = FILL;
    fill_rooms(1, 0);
    check(bogzhami_next_piece(handle, 0, i->bytes, i->len, true, tokens, 1, texts, 0, &answer, &needed_from) ==
              BOGZHAMI_NOT_LIVE,
          "next_piece, not live");
    check(!memcmp(&answer, &no_answer, sizeof answer) && needed_from == 0, "the answer of next_piece, not live");
    check(is_filled(tokens, tokens + 1 + SPARE) && is_filled(texts, texts + SPARE), "the rooms of next_piece, not live");
}

/* Checks that every call says that the handle holds nothing, and touches no room. */
static void check_not_live(struct bogzhami_handle *handle, const struct input *i) {
    check_not_whole(handle, i);
    check_not_pieces(handle, i);
    check(bogzhami_close(handle) == BOGZHAMI_NOT_LIVE && !handle->live, "close, not live");
}

/* Checks that settings are refused, and that what the handle held is freed. */
static void check_wrong(const struct input *i, const struct whole *w, uint32_t encoding, uint32_t key_limit) {
    struct run r = begin(i, w);
    next(&r, 2, all_texts(w));
    check(bogzhami_open(&r.handle, i->bytes, i->len, encoding, key_limit) == BOGZHAMI_WRONG, "wrong settings");
    check_not_live(&r.handle, i);
}

static void try_statuses(const struct input *i, const struct whole *w) {
    long blocks_before = blocks;
    struct bogzhami_handle fresh = BOGZHAMI_CLOSED;
    check_not_live(&fresh, i);
    check_wrong(i, w, 4, i->key_limit);
    check_wrong(i, w, UINT32_MAX, i->key_limit);
    check_wrong(i, w, i->encoding, 0);
    check_wrong(i, w, i->encoding, 65537);
    check(blocks == blocks_before, "wrong settings do not free what was held");
    struct run r = begin(i, w);
    next(&r, 2, all_texts(w));
    check(open_run(&r.handle, i) == BOGZHAMI_DONE, "opening a handle that is live");
    r.taken = 0;
    r.is_over = false;
    drain(&r, 3, all_texts(w));
    end(&r);
    check_not_live(&r.handle, i);
    check(blocks == blocks_before, "opening anew does not free what was held");
}

/* The same scanner with a null pointer in place of an input of length 0. */
static void try_nothing(const struct input *i, const struct whole *w) {
    struct input nothing = {i->encoding, i->key_limit, 0, NULL};
    struct bogzhami_answer all;
    if (i->len != 0)
        return;
    check(bogzhami_scan_all(NULL, 0, i->encoding, i->key_limit, tokens, 0, texts, 0, &all) == w->status,
          "no input at once");
    check(!memcmp(&all, &w->answer, sizeof all), "the answer to no input at once");
    struct run r = begin(&nothing, w);
    peek(&r, all_texts(w));
    drain(&r, 1, all_texts(w));
    end(&r);
}

/* Refused memory. */

static long whole_runs, beginnings, not_opened;

static bool is_memory_fault(uint64_t count) {
    struct bogzhami_answer wanted = {.token_count = count, .text_len = answer.text_len, .error = BOGZHAMI_MEMORY_ERROR};
    return !memcmp(&answer, &wanted, sizeof answer);
}

/* Peeks, and returns whether the memory fault was shown. */
static bool peek_refused(struct run *r) {
    uint32_t status = call_peek(r, all_texts(r->whole));
    bool is_fault = status == BOGZHAMI_FAULT && answer.error == BOGZHAMI_MEMORY_ERROR;
    if (is_fault)
        check(is_memory_fault(0), "the memory fault that is shown");
    else if (expect(r, 1, all_texts(r->whole)).status == BOGZHAMI_DONE)
        check(answer.token_count == 1 && are_next(r->whole, r->taken, 1), "a token that is shown");
    return is_fault;
}

/* Takes the next two tokens, and returns whether more may come. */
static bool take_refused(struct run *r, bool is_fault_shown) {
    const struct whole *w = r->whole;
    uint32_t status = call_next(r, 2, all_texts(w));
    check(are_next(w, r->taken, answer.token_count), "a token before refused memory");
    r->taken += answer.token_count;
    if (status == BOGZHAMI_DONE && !is_fault_shown && answer.token_count)
        return true;
    bool is_memory = status == BOGZHAMI_FAULT && answer.error == BOGZHAMI_MEMORY_ERROR;
    check(is_memory || !is_fault_shown, "a memory fault that was shown is not given");
    if (is_memory) {
        check(is_memory_fault(answer.token_count), "the memory fault");
        beginnings++;
    } else {
        check(status == (w->status == BOGZHAMI_FAULT ? BOGZHAMI_FAULT : BOGZHAMI_OVER), "the last status");
        check(r->taken == w->answer.token_count, "tokens are missing");
        check(answer.error == (status == BOGZHAMI_FAULT ? w->answer.error : 0), "the last fault");
        whole_runs++;
    }
    return false;
}

/* One run in which requests are refused. Returns whether there were so many. */
static bool run_refused(const struct input *i, const struct whole *w, long first, long last, bool peeks) {
    long blocks_before = blocks;
    struct run r = {i, w, BOGZHAMI_CLOSED, 0, false};
    refuse(first, last);
    uint32_t status = open_run(&r.handle, i);
    if (status == BOGZHAMI_DONE) {
        while (take_refused(&r, peeks && peek_refused(&r)))
            ;
        status = call_next(&r, 1, 0);
        check(status == BOGZHAMI_OVER && answer.token_count == 0, "what comes after the end");
        check(bogzhami_close(&r.handle) == BOGZHAMI_DONE, "closing after refused memory");
    } else {
        check(status == BOGZHAMI_NO_MEMORY && !r.handle.live, "bogzhami_open without memory");
        not_opened++;
    }
    bool were_so_many = requests >= first;
    refuse(0, 0);
    check(blocks == blocks_before, "refused memory leaves blocks");
    return were_so_many;
}

/* The same of all tokens at once. */
static bool scan_all_refused(const struct input *i, const struct whole *w, long first, long last) {
    long blocks_before = blocks;
    fill_rooms(0, 0);
    refuse(first, last);
    uint32_t status = bogzhami_scan_all(i->bytes, i->len, i->encoding, i->key_limit, tokens, MOST_TOKENS, texts,
                                        all_texts(w), &answer);
    bool were_so_many = requests >= first;
    refuse(0, 0);
    check(blocks == blocks_before, "refused memory leaves blocks");
    if (answer.error == BOGZHAMI_MEMORY_ERROR) {
        check(status == BOGZHAMI_FAULT && is_memory_fault(answer.token_count), "the memory fault of all at once");
        check(answer.token_count <= w->answer.token_count && answer.text_len <= w->answer.text_len, "more than all");
    } else {
        check(status == w->status && !memcmp(&answer, &w->answer, sizeof answer), "the answer of all at once");
    }
    if (answer.token_count <= MOST_TOKENS && answer.token_count <= w->answer.token_count)
        check(are_next(w, 0, answer.token_count), "a token before refused memory, all at once");
    return were_so_many;
}

/* Refuses each request in turn: alone, with the next one, and with all after it. */
static void try_refused(const struct input *i, const struct whole *w) {
    long first = 1;
    bool were_so_many = true;
    for (; were_so_many && first < 5000; first++) {
        were_so_many = run_refused(i, w, first, first, false);
        were_so_many = run_refused(i, w, first, first + 1, false) || were_so_many;
        were_so_many = run_refused(i, w, first, first + 1, true) || were_so_many;
        were_so_many = run_refused(i, w, first, 1L << 40, true) || were_so_many;
        were_so_many = scan_all_refused(i, w, first, first + 1) || were_so_many;
    }
    check(!were_so_many, "the requests do not end");
}

static bool tell_refused(void) {
    printf(", %ld whole runs, %ld beginnings, %ld not opened", whole_runs, beginnings, not_opened);
    return true;
}

/* Each request refused alone: the call that makes it answers. */

enum place { IN_OPEN, IN_ONE, IN_MANY, IN_PEEK, PLACES };
static const char *const place_names[] = {"in open", "in next for 1", "in next for 16", "in peek"};
static long refused_in[PLACES];

/* A run in which the request of a number is refused. */
struct refusal {
    struct run run;
    size_t tokens_len;
    long number;
    bool is_shown; /* the memory fault, by a peek */
    long faults;   /* how often it was given */
};

static bool is_made(const struct refusal *f) { return requests >= f->number; }

/* Counts a request that was refused in the last call. Returns whether it was. */
static bool count_refusal(const struct refusal *f, bool was_made, enum place place) {
    bool is_here = is_made(f) && !was_made;
    refused_in[place] += is_here;
    return is_here;
}

/* Checks that a call of bogzhami_next gave the memory fault, after tokens that come next. */
static void check_memory(struct refusal *f, uint32_t status, size_t texts_len) {
    struct run *r = &f->run;
    uint64_t left = r->whole->answer.token_count - r->taken, count = answer.token_count, len = 0;
    check(status == BOGZHAMI_FAULT && is_memory_fault(count), "a refused request is not answered by the memory fault");
    check(count <= left && count < f->tokens_len, "more tokens before refused memory than there are");
    if (count > left || count >= f->tokens_len)
        return;
    for (uint64_t n = 0; n < count; n++)
        len += text_len(&r->whole->tokens[r->taken + n]);
    check(answer.text_len == len && are_next(r->whole, r->taken, count), "a token before refused memory");
    check(is_filled(tokens + count, tokens + f->tokens_len + SPARE), "something is behind the last record");
    check(is_filled(texts + len, texts + texts_len + SPARE), "something is behind the last text");
    check(count == 0 || !f->is_shown, "tokens before a fault that was shown");
    f->faults++;
}

/* Peeks twice: what is shown is the next token, or the memory fault if the request is refused here. */
static void peek_refusal(struct refusal *f) {
    size_t texts_len = all_texts(f->run.whole);
    for (int n = 0; n < 2; n++) {
        bool was_made = is_made(f);
        uint32_t status = call_peek(&f->run, texts_len);
        f->is_shown = count_refusal(f, was_made, IN_PEEK) || f->is_shown;
        if (!f->is_shown)
            check_peek(&f->run, status, texts_len);
        else
            check(status == BOGZHAMI_FAULT && is_memory_fault(0) && is_filled(tokens, tokens + 1 + SPARE),
                  "a request that is refused in a peek is not answered by the memory fault");
    }
}

/* Takes the next tokens. Returns whether more may come. */
static bool take_refusal(struct refusal *f) {
    size_t texts_len = all_texts(f->run.whole);
    bool was_made = is_made(f);
    uint32_t status = call_next(&f->run, f->tokens_len, texts_len);
    bool is_here = count_refusal(f, was_made, f->tokens_len == 1 ? IN_ONE : IN_MANY);
    if (!is_here && !f->is_shown)
        return check_next(&f->run, status, f->tokens_len, texts_len) == BOGZHAMI_DONE;
    check_memory(f, status, texts_len);
    f->run.is_over = true;
    return false;
}

/* Takes all, with peeks or without. */
static void take_all_refusal(struct refusal *f, bool peeks) {
    bool is_opened_whole = !is_made(f);
    do {
        if (peeks)
            peek_refusal(f);
    } while (take_refusal(f));
    check(f->faults == (is_opened_whole && is_made(f)), "the memory fault is not given once");
    f->run.is_over = true;
    next(&f->run, f->tokens_len, all_texts(f->run.whole));
    peek(&f->run, all_texts(f->run.whole));
    check(bogzhami_close(&f->run.handle) == BOGZHAMI_DONE, "closing after refused memory");
}

/* One run in which the request of a number is refused. Returns whether there were so many. */
static bool run_refusal(const struct input *i, const struct whole *w, long number, size_t tokens_len, bool peeks) {
    long blocks_before = blocks;
    struct refusal f = {{i, w, BOGZHAMI_CLOSED, 0, false}, tokens_len, number, false, 0};
    refuse(number, number);
    uint32_t status = open_run(&f.run.handle, i);
    if (count_refusal(&f, false, IN_OPEN))
        check(status == BOGZHAMI_NO_MEMORY, "bogzhami_open without memory");
    else
        check(status == BOGZHAMI_DONE, "bogzhami_open with memory");
    if (status == BOGZHAMI_DONE)
        take_all_refusal(&f, peeks);
    bool were_so_many = is_made(&f);
    refuse(0, 0);
    check(blocks == blocks_before, "a refused request leaves blocks");
    check_not_live(&f.run.handle, i);
    return were_so_many;
}

static void try_refusals(const struct input *i, const struct whole *w) {
    static const size_t rooms[] = {1, MANY};
    for (size_t n = 0; n < 2 * sizeof rooms / sizeof *rooms; n++)
        for (long number = 1; run_refusal(i, w, number, rooms[n / 2], n % 2); number++)
            ;
}

static bool tell_refusals(void) {
    bool is_each_seen = true;
    for (size_t n = 0; n < PLACES; n++) {
        printf(", %ld refused %s", refused_in[n], place_names[n]);
        is_each_seen = is_each_seen && refused_in[n];
    }
    return is_each_seen;
}

/* A copy in a block of its own, of which a checker of memory sees the ends. It is not counted, and never refused. */
static void *copy_of(const void *bytes, size_t len) {
    void *block = __real_malloc(len);
    if (len)
        memcpy(need(block), bytes, len);
    return block;
}

/* Copies the block back, and frees it. */
static void take_back(void *bytes, void *block, size_t len) {
    if (len)
        memcpy(bytes, block, len);
    __real_free(block);
}

/* Places of offsets. */

/* How many requests for memory were refused in calls for a place. */
static long offsets_refused;

static uint32_t call_place(const struct input *i, uint64_t offset, struct bogzhami_mark *mark) {
    memset(mark, FILL, sizeof *mark);
    return bogzhami_place(i->bytes, i->len, i->encoding, offset, mark);
}

/* Refuses each request of a call in turn: then the mark is zeros. UTF-8 makes none, and no call keeps memory. */
static void try_offset(const struct input *i, uint64_t offset) {
    static const struct bogzhami_mark zeros;
    struct bogzhami_mark mark;
    long blocks_before = blocks;
    refuse(0, 0);
    check(call_place(i, offset, &mark) == BOGZHAMI_DONE, "a place");
    long made = requests;
    check(made == 0 || encoding_of(i) != BOGZHAMI_UTF8_ENCODING, "a place in UTF-8 takes memory");
    for (long number = 1; number <= made; number++) {
        refuse(number, number);
        check(call_place(i, offset, &mark) == BOGZHAMI_NO_MEMORY, "a place without memory");
        check(!memcmp(&mark, &zeros, sizeof mark), "the mark of a place without memory");
        offsets_refused++;
    }
    refuse(0, 0);
    check(blocks == blocks_before, "a place keeps memory");
}

/* Some hundred offsets of an input, and some past its end. */
static void try_offsets(const struct input *i, const struct whole *w) {
    struct input alone = *i;
    alone.bytes = copy_of(i->bytes, i->len);
    for (uint64_t offset = 0; offset < i->len + 2; offset += 1 + i->len / 100)
        try_offset(&alone, offset);
    try_offset(&alone, w->answer.problem_offset);
    try_offset(&alone, i->len);
    try_offset(&alone, UINT64_MAX);
    __real_free(alone.bytes);
}

static bool tell_offsets(void) {
    printf(", %ld requests refused", offsets_refused);
    return offsets_refused;
}

/* Batches of every size, and closing at every place, in rooms that a checker of memory sees the ends of. */

/* Calls bogzhami_next, or bogzhami_peek for no tokens, with rooms in blocks of their own, of just this length, and
 * checks everything. */
static uint32_t call_alone(struct run *r, size_t tokens_len, size_t texts_len) {
    const struct input *i = r->input;
    size_t records = tokens_len ? tokens_len : 1;
    fill_rooms(records, texts_len);
    struct bogzhami_token *own_tokens = copy_of(tokens, records * sizeof *tokens);
    uint8_t *own_texts = copy_of(texts, texts_len);
    uint32_t status =
        tokens_len ? bogzhami_next(&r->handle, i->bytes, i->len, own_tokens, tokens_len, own_texts, texts_len, &answer)
                   : bogzhami_peek(&r->handle, i->bytes, i->len, own_tokens, own_texts, texts_len, &answer);
    take_back(tokens, own_tokens, records * sizeof *tokens);
    take_back(texts, own_texts, texts_len);
    return tokens_len ? check_next(r, status, tokens_len, texts_len) : check_peek(r, status, texts_len);
}

static uint32_t next_alone(struct run *r, size_t tokens_len) { return call_alone(r, tokens_len, all_texts(r->whole)); }

static void peek_alone(struct run *r) { call_alone(r, 0, all_texts(r->whole)); }

/* Takes all by calls for so many tokens, with a peek before each third call. */
static void drain_alone(struct run *r, size_t tokens_len) {
    size_t calls = 0;
    do {
        if (calls++ % 3 == 2)
            peek_alone(r);
    } while (next_alone(r, tokens_len) == BOGZHAMI_DONE);
    check(next_alone(r, tokens_len) == BOGZHAMI_OVER && r->is_over, "what comes after all is given");
}

static void try_sizes(const struct input *i, const struct whole *w) {
    long blocks_before = blocks;
    for (size_t tokens_len = 1; tokens_len <= MOST_BATCH; tokens_len++) {
        struct run r = begin(i, w);
        drain_alone(&r, tokens_len);
        end(&r);
    }
    check(blocks == blocks_before, "closing after all does not free all");
}

/* What is done last before a scanner is closed. */
static void do_nothing(struct run *r) { (void)r; }

static void show_last(struct run *r) { peek_alone(r); }

static void lack_last(struct run *r) {
    call_alone(r, MANY, 0);
    call_alone(r, MANY, 0);
}

static void lack_shown_last(struct run *r) { call_alone(r, 0, 0); }

static void open_anew_last(struct run *r) {
    check(open_run(&r->handle, r->input) == BOGZHAMI_DONE, "opening a handle that is live");
    r->taken = 0;
    r->is_over = false;
    next_alone(r, 1);
}

/* Closes after so many calls and a last one. Returns whether more may come after these calls. */
static bool close_after(const struct input *i, const struct whole *w, size_t tokens_len, size_t calls,
                        void (*last)(struct run *)) {
    long blocks_before = blocks;
    struct run r = begin(i, w);
    for (size_t n = 0; n < calls; n++)
        next_alone(&r, tokens_len);
    bool may_come = !r.is_over;
    last(&r);
    end(&r);
    check(blocks == blocks_before, "closing does not free all");
    return may_come;
}

static void try_closes(const struct input *i, const struct whole *w) {
    static void (*const lasts[])(struct run *) = {do_nothing, show_last, lack_last, lack_shown_last, open_anew_last};
    for (size_t n = 0; n < sizeof lasts / sizeof *lasts; n++) {
        for (size_t calls = 0; close_after(i, w, 1, calls, lasts[n]); calls++)
            ;
        for (size_t calls = 0; close_after(i, w, 3, calls, lasts[n]); calls++)
            ;
    }
}

/* Scanners of one input by turns, of which one is closed before the others. */

/* How far a scanner has read that takes the tokens one by one, after each call. */
static struct bogzhami_mark *reaches_alone(const struct input *i, const struct whole *w) {
    struct bogzhami_mark *marks = need(calloc(w->answer.token_count + 2, sizeof *marks));
    struct run r = begin(i, w);
    for (uint64_t n = 0; n < w->answer.token_count + 2; n++) {
        next(&r, 1, all_texts(w));
        check(bogzhami_reach(&r.handle, &marks[n]) == BOGZHAMI_DONE, "bogzhami_reach");
    }
    end(&r);
    return marks;
}

/* Takes a token, and checks how far is read then. */
static void next_reaching(struct run *r, size_t *calls, const struct bogzhami_mark *reaches) {
    struct bogzhami_mark mark;
    next(r, 1, all_texts(r->whole));
    check(bogzhami_reach(&r->handle, &mark) == BOGZHAMI_DONE, "bogzhami_reach");
    check(!memcmp(&mark, &reaches[*calls], sizeof mark), "how far is read beside another scanner");
    *calls += *calls < r->whole->answer.token_count + 1;
}

/* Three scanners, of which that of a number is closed after so many turns: one that takes token by token, one that
 * peeks and takes two, and one with another key limit. Then one of the input before takes its place. */
static void try_three(struct run all[3], uint64_t turns, size_t closed, const struct bogzhami_mark *reaches) {
    struct run late = {0};
    size_t calls = 0;
    for (uint64_t n = 0; !(all[0].is_over && all[1].is_over && all[2].is_over) || n <= turns; n++) {
        if (n == turns) {
            end(&all[closed]);
            all[closed].is_over = true;
            late = begin(&before, &whole_before);
        }
        if (late.whole)
            next(&late, 1, all_texts(&whole_before));
        if (closed != 0 || n < turns)
            next_reaching(&all[0], &calls, reaches);
        if (closed != 1 || n < turns) {
            peek(&all[1], all_texts(all[1].whole));
            next(&all[1], 2, all_texts(all[1].whole));
        }
        if (closed != 2 || n < turns)
            next(&all[2], 1, all_texts(all[2].whole));
    }
    for (size_t n = 0; n < 3; n++)
        if (n != closed)
            end(&all[n]);
    drain(&late, 2, all_texts(&whole_before));
    end(&late);
}

/* Makes the room for texts long enough for an input. */
static void lengthen_texts(const struct whole *w) {
    size_t len = all_texts(w), len_before = all_texts(&whole_before);
    texts = need(realloc(texts, (len > len_before ? len : len_before) + SPARE));
}

static void try_pairs(const struct input *i, const struct whole *w) {
    struct input limited = *i;
    limited.key_limit = i->key_limit == LOW_LIMIT ? 1024 : LOW_LIMIT;
    struct whole whole_limited = scan_whole(&limited);
    struct bogzhami_mark *reaches = reaches_alone(i, w);
    lengthen_texts(all_texts(w) > all_texts(&whole_limited) ? w : &whole_limited);
    long blocks_before = blocks;
    for (uint64_t turns = 0; turns <= w->answer.token_count + 1; turns++)
        for (size_t closed = 0; closed < 3; closed++) {
            struct run all[3] = {begin(i, w), begin(i, w), begin(&limited, &whole_limited)};
            try_three(all, turns, closed, reaches);
        }
    check(blocks == blocks_before, "closing one after the other does not free all");
    free(reaches);
    free(whole_limited.tokens);
    free(whole_limited.texts);
}

/* Texts that have no room at first. */

/* How many there were, for each type of token, and of a fault under the number 0. */
static uint64_t lacking[BOGZHAMI_SCALAR_TOKEN + 1];

static bool is_fault_next(const struct run *r) { return r->taken == r->whole->answer.token_count; }

/* How many bytes the texts have of what comes next. */
static uint64_t next_len(const struct run *r) {
    return is_fault_next(r) ? fault_len(r->whole) : text_len(&r->whole->tokens[r->taken]);
}

/* Asks again and again with rooms that are too short: nothing is given, and the length that is needed is told. */
static void ask_in_vain(struct run *r, size_t tokens_len) {
    uint64_t len = next_len(r), shorts[] = {0, len - 1, len / 2, 0};
    for (size_t n = 0; n < sizeof shorts / sizeof *shorts; n++) {
        check(next(r, tokens_len, shorts[n]) == BOGZHAMI_NO_ROOM && answer.text_len == len, "a text without room");
        check(peek(r, shorts[n]) == BOGZHAMI_NO_ROOM && answer.text_len == len, "a text without room in a peek");
    }
}

/* How many bytes the next text and the one after it have, less one: there is room for the first alone. */
static uint64_t short_of_two(const struct run *r) {
    const struct whole *w = r->whole;
    uint64_t at = r->taken + 1;
    while (at < w->answer.token_count && text_len(&w->tokens[at]) == 0)
        at++;
    return next_len(r) + (at < w->answer.token_count ? text_len(&w->tokens[at]) - 1 : 0);
}

/* Takes what comes next, which has a text, after it was asked for in vain, before a peek and after it. */
static void take_at_last(struct run *r, size_t tokens_len, bool peeks) {
    uint32_t type = is_fault_next(r) ? 0 : r->whole->tokens[r->taken].token_type;
    uint64_t taken = r->taken, len = next_len(r);
    ask_in_vain(r, tokens_len);
    if (peeks) {
        check(peek(r, len) == (type ? BOGZHAMI_DONE : BOGZHAMI_FAULT), "a peek with room");
        ask_in_vain(r, tokens_len);
    }
    next(r, tokens_len, tokens_len == 1 || !type ? len : short_of_two(r));
    check(type ? r->taken > taken : r->is_over, "a text is not given in the room that it needs");
    lacking[type]++;
}

static void try_needs(const struct input *i, const struct whole *w) {
    static const size_t rooms[] = {1, MANY};
    for (size_t n = 0; n < 2 * sizeof rooms / sizeof *rooms; n++) {
        struct run r = begin(i, w);
        while (!r.is_over)
            if (next_len(&r))
                take_at_last(&r, rooms[n / 2], n % 2);
            else
                next(&r, rooms[n / 2], 0);
        check(next(&r, 1, 0) == BOGZHAMI_OVER, "what comes after all is given");
        end(&r);
    }
}

static bool tell_needs(void) {
    static const uint32_t types[] = {BOGZHAMI_TAG_DIRECTIVE_TOKEN, BOGZHAMI_ALIAS_TOKEN, BOGZHAMI_ANCHOR_TOKEN,
                                     BOGZHAMI_TAG_TOKEN, BOGZHAMI_SCALAR_TOKEN};
    bool is_each_seen = lacking[0];
    printf(", without room at first %llu FAULT", (unsigned long long)lacking[0]);
    for (size_t n = 0; n < sizeof types / sizeof *types; n++) {
        printf(" %llu %s", (unsigned long long)lacking[types[n]], bogzhami_token_name(types[n]));
        is_each_seen = is_each_seen && lacking[types[n]];
    }
    return is_each_seen;
}

/* Inputs that come in pieces. */

enum { MOST_ROOM = 40, MOST_PIECES = 50, TIMES = 4, LONGEST_MARK = 3 };

/* What is settled of an input by the bytes that came: how many tokens, and whether the fault is. */
struct settled {
    uint64_t count;
    bool is_fault, is_known;
};

/* What is wanted of an input in pieces: the tokens, with no place in the input, and what each number of bytes settles, if that
 * was asked for. */
struct wanted {
    struct whole whole;
    struct settled *settled;
};

/* A scanner that is given its input in pieces: how many bytes came, and whether it was told that no more will. */
struct feed {
    struct run run;
    struct settled *settled;
    size_t came;
    bool is_last;
};

static uint64_t random_state = 88172645463325252;

static uint64_t random_number(void) {
    random_state ^= random_state << 13;
    random_state ^= random_state >> 7;
    return random_state ^= random_state << 17;
}

static size_t random_to(size_t most) { return 1 + (size_t)(random_number() % most); }

/* How many bytes a piece has: 1 to 65536, of each length of number as often. A long input gets no more than some pieces. */
static size_t random_piece(size_t len) { return random_to((size_t)1 << random_number() % 17) + len / MOST_PIECES; }

static struct wanted want(const struct input *i, const struct whole *w) {
    struct wanted made = {*w, need(calloc(i->len + 1, sizeof *made.settled))};
    made.whole.tokens = need(calloc(w->answer.token_count + 1, sizeof *w->tokens));
    memcpy(made.whole.tokens, w->tokens, w->answer.token_count * sizeof *w->tokens);
    for (uint64_t n = 0; n < w->answer.token_count; n++)
        made.whole.tokens[n].input_at = BOGZHAMI_NOWHERE;
    return made;
}

static void forget_wanted(struct wanted *wanted) {
    free(wanted->whole.tokens);
    free(wanted->settled);
}

static uint32_t open_pieces(struct bogzhami_handle *handle, const struct input *i) {
    return bogzhami_open_pieces(handle, i->encoding, i->key_limit);
}

/* A scanner of pieces that is not open yet. */
static struct feed new_feed(const struct input *i, const struct wanted *wanted) {
    struct feed f = {{i, &wanted->whole, BOGZHAMI_CLOSED, 0, false}, wanted->settled, 0, false};
    return f;
}

static struct feed begin_feed(const struct input *i, const struct wanted *wanted) {
    struct feed f = new_feed(i, wanted);
    check(open_pieces(&f.run.handle, i) == BOGZHAMI_DONE && f.run.handle.live, "bogzhami_open_pieces");
    return f;
}

static void end_feed(struct feed *f) {
    check(bogzhami_close(&f->run.handle) == BOGZHAMI_DONE && !f->run.handle.live, "closing a scanner of pieces");
}

/* Lets so many bytes more come, or those that are left; it is told in this call or in the next one that these are all. */
static void come(struct feed *f, size_t size) {
    size_t left = f->run.input->len - f->came;
    f->is_last = size > left || left == 0;
    f->came += size < left ? size : left;
}

/* Calls bogzhami_next_piece. The window and the rooms are in blocks of their own, of just this length. */
static uint32_t call_piece(struct feed *f, size_t tokens_len, size_t texts_len) {
    uint64_t needed_from = FILL;
    fill_rooms(tokens_len, texts_len);
    uint8_t *window = copy_of(f->run.input->bytes, f->came);
    struct bogzhami_token *own_tokens = copy_of(tokens, tokens_len * sizeof *tokens);
    uint8_t *own_texts = copy_of(texts, texts_len);
    uint32_t status = bogzhami_next_piece(&f->run.handle, 0, window, f->came, f->is_last, own_tokens, tokens_len, own_texts,
                                          texts_len, &answer, &needed_from);
    check(needed_from == 0, "from where the window is needed");
    take_back(tokens, own_tokens, tokens_len * sizeof *tokens);
    take_back(texts, own_texts, texts_len);
    __real_free(window);
    return status;
}

/* What is settled of an input by its first bytes. A new scanner is given them in one piece, and room for all. */
static struct settled settle(const struct input *i, const struct whole *w, size_t came) {
    static struct bogzhami_token room[MOST_TOKENS];
    struct settled s = {0, false, true};
    struct bogzhami_handle handle = BOGZHAMI_CLOSED;
    struct bogzhami_answer given;
    uint64_t needed_from;
    uint8_t *window = copy_of(i->bytes, came), *text_room = copy_of(w->texts, all_texts(w));
    uint32_t status = open_pieces(&handle, i);
    while (status == BOGZHAMI_DONE) {
        status = bogzhami_next_piece(&handle, 0, window, came, false, room, MOST_TOKENS, text_room, all_texts(w), &given,
                                     &needed_from);
        s.count += given.token_count;
    }
    s.is_fault = status == BOGZHAMI_FAULT;
    check(s.is_fault || status == BOGZHAMI_MORE || status == BOGZHAMI_WHOLE, "the status of what is settled");
    check(s.count <= w->answer.token_count && (!s.is_fault || w->status == BOGZHAMI_FAULT), "more is settled than there is");
    bogzhami_close(&handle);
    __real_free(window);
    __real_free(text_room);
    return s;
}

/* What is settled for a scanner. Requests for memory that this makes are not counted as its own, and not refused. */
static struct settled settled_for(const struct feed *f) {
    long made = requests, first = first_refused, last = last_refused;
    if (f->is_last)
        return (struct settled){f->run.whole->answer.token_count, f->run.whole->status == BOGZHAMI_FAULT, true};
    refuse(0, 0);
    if (!f->settled[f->came].is_known)
        f->settled[f->came] = settle(f->run.input, f->run.whole, f->came);
    refuse(first, last);
    requests = made;
    return f->settled[f->came];
}

/* Whether it is known that the input is in UTF-16: it is set, or as many bytes came as the longest byte order mark has. */
static bool is_known_utf16(const struct feed *f) {
    struct input front = *f->run.input;
    front.len = f->came < LONGEST_MARK ? 0 : f->came;
    return encoding_of(&front) != BOGZHAMI_UTF8_ENCODING;
}

/* What a call has to return: the same as bogzhami_next, if what is settled were all. After that more has to come. */
static struct expected expect_piece(const struct feed *f, size_t tokens_len, size_t texts_len) {
    struct settled s = settled_for(f);
    struct whole seen = *f->run.whole;
    struct run r = f->run;
    seen.answer.token_count = s.count;
    seen.status = s.is_fault ? BOGZHAMI_FAULT : BOGZHAMI_DONE;
    r.whole = &seen;
    struct expected e = expect(&r, tokens_len, texts_len);
    if (f->is_last || r.is_over || s.is_fault || e.count == tokens_len || r.taken + e.count < s.count)
        return e;
    e.status = is_known_utf16(f) ? BOGZHAMI_WHOLE : BOGZHAMI_MORE;
    e.need = 0;
    return e;
}

/* Calls bogzhami_next_piece, and checks everything. Returns its status, or BOGZHAMI_OVER if that is wrong. */
static uint32_t next_piece(struct feed *f, size_t tokens_len, size_t texts_len) {
    struct expected e = expect_piece(f, tokens_len, texts_len);
    return check_taken(&f->run, e, call_piece(f, tokens_len, texts_len), tokens_len, texts_len);
}

/* The same; if a text has no room, once more with the room that it needs. */
static uint32_t next_piece_by_need(struct feed *f, size_t tokens_len, size_t texts_len) {
    uint32_t status = next_piece(f, tokens_len, texts_len);
    if (status != BOGZHAMI_NO_ROOM)
        return status;
    if (answer.text_len <= all_texts(f->run.whole))
        status = next_piece(f, tokens_len, (size_t)answer.text_len);
    check(status != BOGZHAMI_NO_ROOM, "the room that was told is too short, or too long");
    return status == BOGZHAMI_NO_ROOM ? BOGZHAMI_OVER : status;
}

static bool wants_more(uint32_t status) { return status == BOGZHAMI_MORE || status == BOGZHAMI_WHOLE; }

/* Takes all that is left, by pieces of a size. */
static void drain_pieces(struct feed *f, size_t size, size_t tokens_len, size_t texts_len) {
    uint32_t status = BOGZHAMI_DONE;
    while (status != BOGZHAMI_OVER && status != BOGZHAMI_FAULT) {
        status = next_piece_by_need(f, tokens_len, texts_len);
        if (wants_more(status))
            come(f, size);
    }
    check(f->run.is_over && next_piece(f, tokens_len, texts_len) == BOGZHAMI_OVER, "what comes after all is given");
}

/* Takes all by pieces and with rooms of random sizes. */
static void drain_randomly(struct feed *f) {
    uint64_t most = all_texts(f->run.whole);
    uint32_t status = BOGZHAMI_DONE;
    while (status != BOGZHAMI_OVER) {
        status = next_piece_by_need(f, random_to(MOST_ROOM), (size_t)(random_number() % (most + 1)));
        if (wants_more(status))
            come(f, random_piece(f->run.input->len));
    }
    check(f->run.is_over, "the end is not reached");
}

static void try_pieces(const struct input *i, const struct whole *w) {
    struct wanted wanted = want(i, w);
    long blocks_before = blocks;
    for (size_t n = 0; n < TIMES; n++) {
        struct feed f = begin_feed(i, &wanted);
        drain_randomly(&f);
        end_feed(&f);
    }
    check(blocks == blocks_before, "closing a scanner of pieces does not free all");
    forget_wanted(&wanted);
}

static void try_bytes(const struct input *i, const struct whole *w) {
    static const size_t rooms[] = {1, MOST_ROOM};
    struct wanted wanted = want(i, w);
    for (size_t n = 0; n < 2 * sizeof rooms / sizeof *rooms; n++) {
        struct feed f = begin_feed(i, &wanted);
        drain_pieces(&f, 1, rooms[n / 2], n % 2 ? all_texts(w) : 0);
        end_feed(&f);
    }
    forget_wanted(&wanted);
}

/* Cuts: an input that comes in two pieces, and what is settled by the first. */

/* What may come behind a beginning. The first is nothing. */
static const char *const endings[] = {"", "x", " ", "\t", "\n", "\r\n", ":", ": ", "#", " #", "-", "\n...", "\n  x", "\nx: y",
                                      "]", "}", ",", "\"", "'", "\x01", "\x82", "\xFF", "\xEF\xBB\xBF"};

/* How many tokens and faults were settled by beginnings, and compared. */
static uint64_t settled_tokens, settled_faults;

/* Whether two scans have the same first tokens, wherever the inputs have their texts. */
static bool begin_same(const struct whole *a, const struct whole *b, uint64_t count) {
    if (a->answer.token_count < count || b->answer.token_count < count)
        return false;
    for (uint64_t n = 0; n < count; n++) {
        struct bogzhami_token one = a->tokens[n], other = b->tokens[n];
        one.input_at = other.input_at = BOGZHAMI_NOWHERE;
        if (memcmp(&one, &other, sizeof one) || memcmp(a->texts + one.text_at, b->texts + other.text_at, text_len(&one)))
            return false;
    }
    return true;
}

/* Whether two scans end with the same fault. */
static bool end_same(const struct whole *a, const struct whole *b) {
    return a->status == BOGZHAMI_FAULT && b->status == BOGZHAMI_FAULT && !memcmp(&a->answer, &b->answer, sizeof a->answer);
}

/* Checks that another end changes nothing of what is settled. */
static void check_settled(const struct input *i, const struct whole *w, size_t cut, struct settled s) {
    struct input other = *i;
    for (size_t n = 0; n < sizeof endings / sizeof *endings; n++) {
        size_t len = strlen(endings[n]);
        other.len = cut + len;
        other.bytes = need(malloc(cut + len + 1));
        memcpy(other.bytes, i->bytes, cut);
        memcpy(other.bytes + cut, endings[n], len);
        struct whole found = scan_whole(&other);
        check(begin_same(&found, w, s.count), "a token was settled that another end changes");
        check(!s.is_fault || end_same(&found, w), "the fault was settled, and another end changes it");
        forget(&other, &found);
    }
    settled_tokens += s.count;
    settled_faults += s.is_fault;
}

static void try_cuts(const struct input *i, const struct whole *w) {
    struct wanted wanted = want(i, w);
    for (size_t cut = 0; cut <= i->len; cut++) {
        check_settled(i, w, cut, settle(i, w, cut));
        struct feed f = begin_feed(i, &wanted);
        come(&f, cut);
        f.is_last = false;
        drain_pieces(&f, i->len + 1, MOST_ROOM, all_texts(w));
        end_feed(&f);
    }
    forget_wanted(&wanted);
}

static bool tell_cuts(void) {
    printf(", %llu tokens and %llu faults settled", (unsigned long long)settled_tokens, (unsigned long long)settled_faults);
    return settled_tokens && settled_faults;
}

/* Wrong uses. */

/* Checks that a window is refused: nothing is put, and the scanner stays as it is. */
static void refuse_window(struct feed *f, uint64_t from, size_t came, bool is_last) {
    uint64_t needed_from = FILL;
    uint8_t *window = copy_of(f->run.input->bytes, came);
    fill_rooms(1, 0);
    check(bogzhami_next_piece(&f->run.handle, from, window, came, is_last, tokens, 1, texts, 0, &answer, &needed_from) ==
              BOGZHAMI_WRONG,
          "the status for a window that may not be given");
    check(!memcmp(&answer, &no_answer, sizeof answer) && needed_from == 0, "the answer for a window that may not be given");
    check(is_filled(tokens, tokens + 1 + SPARE) && is_filled(texts, texts + SPARE), "the rooms, with a wrong window");
    __real_free(window);
}

/* Refuses all windows that may not be given. */
static void refuse_windows(struct feed *f) {
    size_t len = f->run.input->len;
    refuse_window(f, 1, f->came, f->is_last);
    refuse_window(f, UINT64_MAX, f->came, f->is_last);
    if (f->came)
        refuse_window(f, 0, f->came - 1, f->is_last);
    if (f->came)
        refuse_window(f, 0, 0, true);
    if (f->is_last)
        refuse_window(f, 0, len, false);
    if (f->is_last && f->came < len)
        refuse_window(f, 0, len, true);
}

/* Takes all by pieces, with wrong uses after each call. */
static void drain_wrongly(struct feed *f) {
    uint32_t status = BOGZHAMI_DONE;
    refuse_window(f, 1, 0, false);
    while (status != BOGZHAMI_OVER) {
        status = next_piece(f, 2, all_texts(f->run.whole));
        check(next_piece(f, 0, 0) == (f->run.is_over ? BOGZHAMI_OVER : BOGZHAMI_DONE), "a room for no tokens");
        refuse_windows(f);
        check_not_whole(&f->run.handle, f->run.input);
        if (wants_more(status))
            come(f, 3);
    }
    check(f->run.is_over, "the end is not reached");
}

/* A beginning of which it is told that it is all: more may not come. */
static void end_early(const struct input *i) {
    struct input front = *i;
    front.len = i->len / 2;
    struct whole w = scan_whole(&front);
    struct wanted wanted = want(&front, &w);
    lengthen_texts(&w);
    struct feed f = begin_feed(&front, &wanted);
    come(&f, front.len + 1);
    next_piece(&f, 1, all_texts(&w));
    f.run.input = i;
    refuse_windows(&f);
    f.run.input = &front;
    drain_pieces(&f, 1, 2, all_texts(&w));
    end_feed(&f);
    forget_wanted(&wanted);
    free(w.tokens);
    free(w.texts);
}

/* Checks that settings are refused, and that what the handle held is freed, of either kind. */
static void open_wrongly(const struct input *i, uint32_t encoding, uint32_t key_limit) {
    struct bogzhami_handle handles[] = {BOGZHAMI_CLOSED, BOGZHAMI_CLOSED, BOGZHAMI_CLOSED};
    check(open_run(&handles[1], i) == BOGZHAMI_DONE && open_pieces(&handles[2], i) == BOGZHAMI_DONE, "opening");
    for (size_t n = 0; n < sizeof handles / sizeof *handles; n++) {
        check(bogzhami_open_pieces(&handles[n], encoding, key_limit) == BOGZHAMI_WRONG, "wrong settings of pieces");
        check_not_live(&handles[n], i);
    }
}

/* Opens a handle anew again and again, for whole inputs and for pieces by turns, with some calls between. */
static void open_by_turns(const struct input *i, const struct whole *w, const struct wanted *wanted) {
    struct run r = begin(i, w);
    struct feed f = new_feed(i, wanted);
    next(&r, 2, all_texts(w));
    check_not_pieces(&r.handle, i);
    f.run.handle = r.handle;
    check(open_pieces(&f.run.handle, i) == BOGZHAMI_DONE, "opening a live handle for pieces");
    come(&f, i->len / 2 + 1);
    next_piece(&f, 2, all_texts(w));
    check(open_pieces(&f.run.handle, i) == BOGZHAMI_DONE, "opening a handle of pieces for pieces");
    f.run.taken = 0;
    f.run.is_over = false;
    next_piece(&f, 2, all_texts(w));
    r = (struct run){i, w, f.run.handle, 0, false};
    check(open_run(&r.handle, i) == BOGZHAMI_DONE, "opening a handle of pieces for a whole input");
    drain(&r, 3, all_texts(w));
    end(&r);
}

/* A window of no bytes at no address. */
static void give_nothing(const struct input *i) {
    struct bogzhami_handle handle = BOGZHAMI_CLOSED;
    uint64_t needed_from = FILL;
    bool is_utf16 = i->encoding == BOGZHAMI_UTF16LE_ENCODING || i->encoding == BOGZHAMI_UTF16BE_ENCODING;
    check(open_pieces(&handle, i) == BOGZHAMI_DONE, "opening for pieces");
    for (size_t n = 0; n < 2; n++) {
        fill_rooms(2, 0);
        uint32_t status = bogzhami_next_piece(&handle, 0, NULL, 0, false, tokens, 2, texts, 0, &answer, &needed_from);
        check(status == (is_utf16 ? BOGZHAMI_WHOLE : BOGZHAMI_MORE), "the status before anything came");
        check(!memcmp(&answer, &no_answer, sizeof answer) && needed_from == 0, "the answer before anything came");
    }
    check(bogzhami_next_piece(&handle, 0, NULL, 0, true, tokens, 2, texts, 0, &answer, &needed_from) == BOGZHAMI_DONE &&
              answer.token_count == 2,
          "the tokens of an empty input");
    check(bogzhami_close(&handle) == BOGZHAMI_DONE, "closing a scanner of pieces");
}

static void try_piece_uses(const struct input *i, const struct whole *w) {
    struct wanted wanted = want(i, w);
    long blocks_before = blocks;
    struct feed f = begin_feed(i, &wanted);
    drain_wrongly(&f);
    end_feed(&f);
    check_not_live(&f.run.handle, i);
    open_wrongly(i, 4, i->key_limit);
    open_wrongly(i, UINT32_MAX, i->key_limit);
    open_wrongly(i, i->encoding, 0);
    open_wrongly(i, i->encoding, 65537);
    open_by_turns(i, w, &wanted);
    give_nothing(i);
    end_early(i);
    check(blocks == blocks_before, "scanners of pieces leave blocks");
    forget_wanted(&wanted);
}

/* Closes after so many calls, of which each second has no room for texts. Returns whether more may come after them. */
static bool close_pieces_after(const struct input *i, const struct wanted *wanted, size_t size, size_t calls) {
    long blocks_before = blocks;
    struct feed f = begin_feed(i, wanted);
    for (size_t n = 0; n < calls; n++)
        if (wants_more(next_piece(&f, size, n % 2 ? 0 : all_texts(&wanted->whole))))
            come(&f, size);
    bool may_come = !f.run.is_over && !wrongs;
    end_feed(&f);
    check(blocks == blocks_before, "closing a scanner of pieces does not free all");
    return may_come;
}

static void try_piece_closes(const struct input *i, const struct whole *w) {
    static const size_t sizes[] = {1, 3, 20};
    struct wanted wanted = want(i, w);
    for (size_t n = 0; n < sizeof sizes / sizeof *sizes; n++)
        for (size_t calls = 0; close_pieces_after(i, &wanted, sizes[n], calls); calls++)
            ;
    forget_wanted(&wanted);
}

/* Refused requests. */

enum piece_place { IN_OPEN_PIECES, IN_PIECE, IN_LAST_PIECE, PIECE_PLACES };
static const char *const piece_place_names[] = {"in open_pieces", "before the last piece", "in the last piece"};
static long refused_in_pieces[PIECE_PLACES];

/* Takes the next tokens. A request that is refused in the call is answered by the memory fault. Returns whether more may come. */
static bool take_piece_refusal(struct feed *f, struct refusal *refusal, size_t size) {
    size_t texts_len = all_texts(f->run.whole);
    bool was_made = is_made(refusal);
    struct expected e = expect_piece(f, refusal->tokens_len, texts_len);
    uint32_t status = call_piece(f, refusal->tokens_len, texts_len);
    if (is_made(refusal) && !was_made) {
        refused_in_pieces[f->is_last ? IN_LAST_PIECE : IN_PIECE]++;
        refusal->run = f->run;
        check_memory(refusal, status, texts_len);
        f->run.is_over = true;
        return false;
    }
    status = check_taken(&f->run, e, status, refusal->tokens_len, texts_len);
    if (wants_more(status))
        come(f, size);
    return status == BOGZHAMI_DONE || wants_more(status);
}

/* One run in which requests from a number to another are refused. Returns whether there were so many. */
static bool run_piece_refusal(const struct input *i, const struct wanted *wanted, long first, long last, size_t size) {
    long blocks_before = blocks;
    struct feed f = new_feed(i, wanted);
    struct refusal refusal = {f.run, size == 1 ? 1 : MANY, first, false, 0};
    refuse(first, last);
    uint32_t status = open_pieces(&f.run.handle, i);
    bool is_refused_here = is_made(&refusal);
    refused_in_pieces[IN_OPEN_PIECES] += is_refused_here;
    check(status == (is_refused_here ? BOGZHAMI_NO_MEMORY : BOGZHAMI_DONE), "bogzhami_open_pieces, with memory or without");
    if (status == BOGZHAMI_DONE) {
        while (take_piece_refusal(&f, &refusal, size))
            ;
        check(next_piece(&f, 1, 0) == BOGZHAMI_OVER, "what comes after the end");
        end_feed(&f);
    }
    bool were_so_many = is_made(&refusal);
    refuse(0, 0);
    check(blocks == blocks_before, "a refused request leaves blocks");
    check_not_live(&f.run.handle, i);
    return were_so_many;
}

/* Refuses each request in turn, alone and with all after it, in pieces of several sizes. */
static void try_piece_refusals(const struct input *i, const struct whole *w) {
    static const size_t sizes[] = {1, 7, 1000};
    struct wanted wanted = want(i, w);
    for (size_t n = 0; n < sizeof sizes / sizeof *sizes; n++)
        for (long number = 1; run_piece_refusal(i, &wanted, number, number, sizes[n]); number++)
            run_piece_refusal(i, &wanted, number, 1L << 40, sizes[n]);
    forget_wanted(&wanted);
}

static bool tell_piece_refusals(void) {
    bool is_each_seen = true;
    for (size_t n = 0; n < PIECE_PLACES; n++) {
        printf(", %ld refused %s", refused_in_pieces[n], piece_place_names[n]);
        is_each_seen = is_each_seen && refused_in_pieces[n];
    }
    return is_each_seen;
}

/* The peak of memory. */

/* The most memory that this process ever had, in kilobytes. */
static long peak_kilobytes(void) {
    FILE *status = fopen("/proc/self/status", "r");
    char line[256];
    long peak = -1;
    while (status && peak < 0 && fgets(line, sizeof line, status))
        sscanf(line, "VmHWM: %ld kB", &peak);
    if (status)
        fclose(status);
    return peak;
}

/* Repeats a text as often as a length holds it. */
static struct input repeated(const char *text, size_t len) {
    size_t text_len = strlen(text), count = len / text_len;
    struct input i = {BOGZHAMI_ANY_ENCODING, 1024, count * text_len, need(malloc(len))};
    for (size_t n = 0; n < count; n++)
        memcpy(i.bytes + n * text_len, text, text_len);
    return i;
}

/* Takes all tokens of an input in batches of 256, and returns how many there are. */
static uint64_t count_tokens(const struct input *i, uint8_t *room, size_t room_len) {
    struct bogzhami_handle handle = BOGZHAMI_CLOSED;
    uint64_t count = 0;
    uint32_t status = open_run(&handle, i);
    while (status == BOGZHAMI_DONE) {
        status = bogzhami_next(&handle, i->bytes, i->len, tokens, 256, room, room_len, &answer);
        count += answer.token_count;
    }
    check(status == BOGZHAMI_OVER, "the end of a long input");
    check(bogzhami_close(&handle) == BOGZHAMI_DONE, "closing after all tokens of an input");
    return count;
}

/* Scans so many bytes. Prints by how many kilobytes the peak of memory grew in that, and counts the tokens once more.
 */
static int try_long(size_t len) {
    static const char entry[] =
        "- name: a b c\n  \"quoted\": [one, 'two', {three: 4}]\n  ? &x !!str key\n  : |\n   text\n";
    static uint8_t room[1 << 14];
    struct input i = repeated(entry, len);
    memset(room, 0xA5, sizeof room);
    memset(tokens, 0xA5, sizeof tokens);
    long peak_before = peak_kilobytes();
    uint64_t count = count_tokens(&i, room, sizeof room);
    long grown = peak_kilobytes() - peak_before;
    bogzhami_scan_all(i.bytes, i.len, i.encoding, i.key_limit, tokens, 0, room, 0, &answer);
    check(count > 100 && count == answer.token_count, "the number of tokens");
    printf("long: %zu bytes, %llu tokens, %ld kilobytes, %llu wrong\n", (size_t)i.len, (unsigned long long)count, grown,
           (unsigned long long)wrongs);
    free(i.bytes);
    return peak_before < 0 || wrongs;
}

/* The tests, and what some of them tell at the end, and return whether all was seen that is to be. */
static const struct {
    const char *name;
    void (*test)(const struct input *, const struct whole *);
    bool (*tell)(void);
} tests[] = {{"batches", try_batches, NULL},
             {"rooms", try_rooms, NULL},
             {"prefixes", try_prefixes, NULL},
             {"peeks", try_peeks, NULL},
             {"turns", try_turns, NULL},
             {"threads", try_threads, NULL},
             {"statuses", try_statuses, NULL},
             {"nothing", try_nothing, NULL},
             {"refused", try_refused, tell_refused},
             {"refusals", try_refusals, tell_refusals},
             {"offsets", try_offsets, tell_offsets},
             {"sizes", try_sizes, NULL},
             {"closes", try_closes, NULL},
             {"pairs", try_pairs, NULL},
             {"needs", try_needs, tell_needs},
             {"pieces", try_pieces, NULL},
             {"bytes", try_bytes, NULL},
             {"cuts", try_cuts, tell_cuts},
             {"piece uses", try_piece_uses, NULL},
             {"piece closes", try_piece_closes, NULL},
             {"piece refusals", try_piece_refusals, tell_piece_refusals}};

/* Runs a test, and keeps the input as the one before. */
static void try_input(void (*test)(const struct input *, const struct whole *), struct input i) {
    struct whole w = scan_whole(&i);
    for (uint64_t n = 0; n < w.answer.token_count; n++)
        check(is_there(&i, &w, &w.tokens[n]), "the input does not have a text where its record says");
    if (input_number == 0) {
        before = (struct input){i.encoding, i.key_limit, i.len, need(malloc(i.len ? i.len : 1))};
        memcpy(before.bytes, i.bytes, i.len);
        whole_before = scan_whole(&before);
    }
    size_t len = all_texts(&w), len_before = all_texts(&whole_before);
    texts = need(malloc((len > len_before ? len : len_before) + SPARE));
    test(&i, &w);
    free(texts);
    forget(&before, &whole_before);
    before = i;
    whole_before = w;
}

int main(int argc, char **argv) {
    size_t number = 0;
    struct input i;
    setvbuf(stdout, NULL, _IOLBF, BUFSIZ); /* so that what was wrong is told before a crash */
    if (argc == 3 && !strcmp(argv[1], "long"))
        return try_long((size_t)strtoull(argv[2], NULL, 10));
    while (argc == 2 && number < sizeof tests / sizeof *tests && strcmp(argv[1], tests[number].name))
        number++;
    if (argc != 2 || number == sizeof tests / sizeof *tests)
        return 2;
    for (; read_input(&i); input_number++)
        try_input(tests[number].test, i);
    forget(&before, &whole_before);
    printf("%s: %zu inputs, %llu checks, %llu wrong", argv[1], input_number, (unsigned long long)checks,
           (unsigned long long)wrongs);
    bool is_all_seen = !tests[number].tell || tests[number].tell();
    printf("\n");
    return wrongs || !checks || !is_all_seen;
}
