/* mutants < INPUTS: compares the tokens of inputs with libyaml's, and those of each way to take them, for tests/mutants.py.
 *
 * An input is a key limit and a word in 4 bytes each, its length in 8 bytes, and its bytes. The word is 1 if libyaml may give
 * other tokens, and otherwise 0. An input is shorter than the block that libyaml decodes at once, so libyaml tells a fault of
 * its reader before all tokens.
 *
 * Of each input bogzhami_scan_all gives all tokens, with the key limit of libyaml and with the given one. With that of libyaml
 * they are compared with libyaml's tokens: types, marks, texts, numbers, and the fault with its words. With both limits the
 * tokens are then taken in each way by bogzhami_next and bogzhami_peek, and by bogzhami_next_piece in pieces of one byte and of
 * some more. What each of these calls has to return is computed from all tokens, by the words of bogzhami.h.
 *
 * What is wrong is printed, with the input in hexadecimal. The last line has five counts: inputs, those with a fault, those that
 * are no text, those of which libyaml may give other tokens, and those with which something is wrong. */
#include "bogzhami.h"

#include <inttypes.h>
#include <stdio.h>
#include <stdlib.h>
#include <string.h>
#include <yaml.h>

enum { MOST_INPUT = 16000, MOST_TOKENS = 4 * MOST_INPUT, MOST_TEXTS = 4 * MOST_INPUT };
enum { USUAL_LIMIT = 1024, MOST_BATCH = 256, FILL = 0xA5, WAYS = 18, MOST_PIECE = 61 };

_Static_assert(YAML_STREAM_START_TOKEN == (int)BOGZHAMI_STREAM_START_TOKEN, "both number the tokens alike");
_Static_assert(YAML_SCALAR_TOKEN == (int)BOGZHAMI_SCALAR_TOKEN, "both number the tokens alike");
_Static_assert(YAML_FOLDED_SCALAR_STYLE == (int)BOGZHAMI_FOLDED_SCALAR_STYLE, "both number the styles alike");
_Static_assert(YAML_UTF16BE_ENCODING == (int)BOGZHAMI_UTF16BE_ENCODING, "both number the encodings alike");
_Static_assert(YAML_SCANNER_ERROR == (int)BOGZHAMI_SCANNER_ERROR, "both number the errors alike");

struct input {
    uint32_t other_limit, may_differ;
    uint64_t len;
    uint8_t *bytes;
};

/* What a call gave: what it returned and answered, the tokens, their texts, and the words of the fault. */
struct given {
    uint32_t status;
    struct bogzhami_answer answer;
    const struct bogzhami_token *tokens;
    const uint8_t *texts;
    const uint8_t *words;
    uint64_t first_text; /* the text_at of the first text */
};

/* How the tokens of an input are taken: how many a call, whether the room for texts is just as large as one token needs, and
 * whether each call comes after a bogzhami_peek. */
struct way {
    char name[120];
    size_t batch;
    bool is_tight, has_peeks;
};

/* A scanner that is held, with all tokens of its input, how many were taken and whether the stream end or the fault was. */
struct run {
    const struct input *input;
    const struct given *whole;
    struct bogzhami_handle handle;
    uint64_t taken, text_at;
    bool is_over;
};

static struct room {
    struct bogzhami_token tokens[MOST_TOKENS];
    uint8_t texts[MOST_TEXTS];
} ours, theirs;
static struct bogzhami_token batch[MOST_BATCH + 1];
static uint8_t batch_texts[MOST_TEXTS];

static struct way ways[WAYS];

/* How many bytes of UTF-8 come before each character of a text, and before its end. */
static uint64_t places[MOST_INPUT + 1];
static uint64_t characters;

/* What is compared, for what is printed of it. */
static const struct input *current;
static uint32_t current_limit;
static bool is_wrong;

static uint64_t inputs, faults, undecoded, differing, wrongs;

/* What is printed. */

static void print_hex(const uint8_t *bytes, uint64_t len) {
    for (uint64_t i = 0; i < len; i++)
        printf("%02x", bytes[i]);
    if (!len)
        printf("-");
}

static void print_mark(struct bogzhami_mark m) { printf(" %" PRIu64 ":%" PRIu64 ":%" PRIu64, m.index, m.line, m.column); }

/* The texts of a token are printed if they are in the room. */
static void print_token(const struct given *g, uint64_t number) {
    if (number >= g->answer.token_count) {
        printf("no token, status %" PRIu32 "\n", g->status);
        return;
    }
    struct bogzhami_token t = g->tokens[number];
    uint64_t at = t.text_at - g->first_text;
    printf("%s", bogzhami_token_name(t.token_type));
    print_mark(t.start_mark);
    print_mark(t.end_mark);
    printf(" detail %" PRIu32 ", version %" PRId32 ".%" PRId32 ", in the input at ", t.detail, t.major, t.minor);
    printf(t.input_at == BOGZHAMI_NOWHERE ? "no place" : "%" PRIu64, t.input_at);
    printf(", text at %" PRIu64 ", %" PRIu64 " and %" PRIu64 " bytes ", at, t.first_len, t.second_len);
    if (at <= MOST_TEXTS && t.first_len <= MOST_TEXTS - at && t.second_len <= MOST_TEXTS - at - t.first_len)
        print_hex(g->texts + at, t.first_len + t.second_len);
    printf("\n");
}

static void print_end(const struct given *g) {
    const struct bogzhami_answer *a = &g->answer;
    printf("status %" PRIu32 ", %" PRIu64 " tokens, %" PRIu64 " bytes of texts", g->status, a->token_count, a->text_len);
    printf(", error %" PRIu32 ", value %" PRId32 ", offset %" PRIu64 ", marks", a->error, a->problem_value, a->problem_offset);
    print_mark(a->problem_mark);
    print_mark(a->context_mark);
    if (a->problem_len < MOST_TEXTS && a->context_len < MOST_TEXTS)
        printf(", words '%.*s' '%.*s'", (int)a->problem_len, (const char *)g->words, (int)a->context_len,
               (const char *)g->words + a->problem_len);
    printf("\n");
}

/* Says in which way something is wrong with the input. Only the first that is wrong is told: whether this is. */
static bool tell(const char *way, const char *what) {
    if (is_wrong)
        return false;
    is_wrong = true;
    printf("wrong: %s, key limit %" PRIu32 ": %s, input ", way, current_limit, what);
    print_hex(current->bytes, current->len);
    printf("\n");
    return true;
}

static void tell_token(const char *way, uint64_t before, uint64_t i, const struct given *wanted, const struct given *found) {
    char what[40];
    snprintf(what, sizeof what, "token %" PRIu64, before + i + 1);
    if (!tell(way, what))
        return;
    printf("  wanted ");
    print_token(wanted, i);
    printf("  found  ");
    print_token(found, i);
}

static void tell_end(const char *way, uint64_t before, const struct given *wanted, const struct given *found) {
    char what[40];
    snprintf(what, sizeof what, "what ends after token %" PRIu64, before + wanted->answer.token_count);
    if (!tell(way, what))
        return;
    printf("  wanted ");
    print_end(wanted);
    printf("  found  ");
    print_end(found);
}

/* What two calls gave. */

static uint64_t text_len(const struct bogzhami_token *t) { return t->first_len + t->second_len; }

static uint64_t fault_len(const struct given *g) { return g->answer.problem_len + g->answer.context_len; }

static bool is_same_token(const struct given *wanted, const struct given *found, uint64_t i) {
    struct bogzhami_token a = wanted->tokens[i], b = found->tokens[i];
    a.text_at -= wanted->first_text;
    b.text_at -= found->first_text;
    return !memcmp(&a, &b, sizeof a) && !memcmp(wanted->texts + a.text_at, found->texts + b.text_at, text_len(&a));
}

static bool is_same_end(const struct given *wanted, const struct given *found) {
    return wanted->status == found->status && !memcmp(&wanted->answer, &found->answer, sizeof wanted->answer) &&
           !memcmp(wanted->words, found->words, fault_len(wanted));
}

/* Compares tokens, of which so many were taken before, and what they end with. */
static void compare(const char *way, uint64_t before, const struct given *wanted, const struct given *found) {
    uint64_t most = wanted->answer.token_count, count = found->answer.token_count;
    for (uint64_t i = 0; i < most; i++)
        if (i >= count || !is_same_token(wanted, found, i)) {
            tell_token(way, before, i, wanted, found);
            return;
        }
    if (count > most)
        tell_token(way, before, most, wanted, found);
    else if (!is_same_end(wanted, found))
        tell_end(way, before, wanted, found);
}

/* The places of the input. */

static bool is_utf16(const struct input *i) {
    return i->len > 1 && (!memcmp(i->bytes, "\xff\xfe", 2) || !memcmp(i->bytes, "\xfe\xff", 2));
}

static uint64_t bom_len(const struct input *i) {
    if (is_utf16(i))
        return 2;
    return i->len > 2 && !memcmp(i->bytes, "\xef\xbb\xbf", 3) ? 3 : 0;
}

/* Where the input has the first text of a token, by the words of bogzhami.h. */
static uint64_t place_in_input(const struct input *i, const struct bogzhami_token *t, const uint8_t *text) {
    bool is_name = t->token_type == BOGZHAMI_ALIAS_TOKEN || t->token_type == BOGZHAMI_ANCHOR_TOKEN;
    bool is_scalar = t->token_type == BOGZHAMI_SCALAR_TOKEN;
    bool is_plain = is_scalar && t->detail == BOGZHAMI_PLAIN_SCALAR_STYLE;
    bool is_single = is_scalar && t->detail == BOGZHAMI_SINGLE_QUOTED_SCALAR_STYLE;
    bool is_double = is_scalar && t->detail == BOGZHAMI_DOUBLE_QUOTED_SCALAR_STYLE;
    uint64_t at = bom_len(i) + t->start_mark.index + !is_plain;
    if (is_utf16(i) || !(is_name || is_plain || is_single || is_double))
        return BOGZHAMI_NOWHERE;
    if (at > i->len || t->first_len > i->len - at)
        return BOGZHAMI_NOWHERE;
    return memcmp(i->bytes + at, text, t->first_len) ? BOGZHAMI_NOWHERE : at;
}

static void check_places(const struct input *i, const struct given *whole) {
    for (uint64_t n = 0; n < whole->answer.token_count; n++) {
        const struct bogzhami_token *t = whole->tokens + n;
        uint64_t place = place_in_input(i, t, whole->texts + t->text_at);
        if (t->input_at != place && tell("bogzhami_scan_all", "the place of a text in the input")) {
            printf(place == BOGZHAMI_NOWHERE ? "  wanted no place\n" : "  wanted the place %" PRIu64 "\n", place);
            printf("  found  ");
            print_token(whole, n);
        }
    }
}

/* How many bytes a character has in UTF-8 that begins with this unit of UTF-16. The second of a pair begins none. */
static uint64_t utf8_len(uint32_t unit) {
    if (unit >= 0xdc00 && unit < 0xe000)
        return 0;
    if (unit >= 0xd800 && unit < 0xdc00)
        return 4;
    return unit < 0x80 ? 1 : unit < 0x800 ? 2 : 3;
}

/* Writes down the places of the characters in so many bytes of an input, which are a text. */
static void find_places(const struct input *i, uint64_t len) {
    uint64_t at = bom_len(i), sum = 0;
    bool is_little = is_utf16(i) && i->bytes[0] == 0xff;
    characters = 0;
    for (; at < len && !is_utf16(i); at++, sum++)
        if ((i->bytes[at] & 0xc0) != 0x80)
            places[characters++] = sum;
    for (; at + 1 < len; at += 2) {
        uint32_t unit = is_little ? i->bytes[at] | i->bytes[at + 1] << 8 : i->bytes[at] << 8 | i->bytes[at + 1];
        if (utf8_len(unit))
            places[characters++] = sum;
        sum += utf8_len(unit);
    }
    places[characters] = sum;
}

/* libyaml. */

/* An index of libyaml counts characters. One past the end is no place. */
static struct bogzhami_mark mark_of(yaml_mark_t m) {
    return (struct bogzhami_mark){m.index <= characters ? places[m.index] : BOGZHAMI_NOWHERE, m.line, m.column};
}

/* Adds a text to the room for libyaml's. */
static uint64_t add_text(struct given *g, const void *text, size_t len) {
    if (len > MOST_TEXTS - g->answer.text_len) {
        fprintf(stderr, "mutants: no room for the texts\n");
        exit(3);
    }
    memcpy(theirs.texts + g->answer.text_len, text, len);
    g->answer.text_len += len;
    return len;
}

static uint64_t add_word(struct given *g, const void *text) { return add_text(g, text, strlen(text)); }

/* What only some types of tokens have. */
static void fill_token(struct given *g, struct bogzhami_token *made, const yaml_token_t *t) {
    switch (t->type) {
    case YAML_STREAM_START_TOKEN:
        made->detail = t->data.stream_start.encoding;
        break;
    case YAML_VERSION_DIRECTIVE_TOKEN:
        made->major = t->data.version_directive.major;
        made->minor = t->data.version_directive.minor;
        break;
    case YAML_TAG_DIRECTIVE_TOKEN:
        made->first_len = add_word(g, t->data.tag_directive.handle);
        made->second_len = add_word(g, t->data.tag_directive.prefix);
        break;
    case YAML_TAG_TOKEN:
        made->first_len = add_word(g, t->data.tag.handle);
        made->second_len = add_word(g, t->data.tag.suffix);
        break;
    case YAML_ALIAS_TOKEN:
        made->first_len = add_word(g, t->data.alias.value);
        break;
    case YAML_ANCHOR_TOKEN:
        made->first_len = add_word(g, t->data.anchor.value);
        break;
    case YAML_SCALAR_TOKEN:
        made->detail = t->data.scalar.style;
        made->first_len = add_text(g, t->data.scalar.value, t->data.scalar.length);
        break;
    default:
        break;
    }
}

/* Adds a token of libyaml as a record of bogzhami.h. */
static void add_token(const struct input *i, struct given *g, const yaml_token_t *t) {
    struct bogzhami_token *made = theirs.tokens + g->answer.token_count++;
    *made = (struct bogzhami_token){.token_type = t->type, .text_at = g->answer.text_len};
    made->start_mark = mark_of(t->start_mark);
    made->end_mark = mark_of(t->end_mark);
    fill_token(g, made, t);
    made->input_at = place_in_input(i, made, theirs.texts + made->text_at);
}

/* The problem of libyaml, in the words of this library: libyaml spells one of them wrong. */
static const char *problem_of(const yaml_parser_t *parser) {
    const char *misspelled = "did not find expected hexdecimal number";
    return strcmp(parser->problem, misspelled) ? parser->problem : "did not find expected hexadecimal number";
}

/* Adds the fault of libyaml. Its words come after the texts. */
static void add_fault(struct given *g, const yaml_parser_t *parser) {
    uint64_t len = g->answer.text_len;
    g->status = BOGZHAMI_FAULT;
    g->answer.error = parser->error;
    g->answer.problem_len = add_word(g, problem_of(parser));
    if (parser->error == YAML_READER_ERROR) {
        g->answer.problem_value = parser->problem_value;
        g->answer.problem_offset = parser->problem_offset;
    } else {
        g->answer.context_len = parser->context ? add_word(g, parser->context) : 0;
        g->answer.problem_mark = mark_of(parser->problem_mark);
        g->answer.context_mark = mark_of(parser->context_mark);
    }
    g->answer.text_len = len;
    g->words = theirs.texts + len;
}

/* What libyaml gives of so many bytes of an input. If these are no text, that is only the fault. */
static struct given scan_theirs(const struct input *i, uint64_t len) {
    struct given g = {BOGZHAMI_DONE, {0}, theirs.tokens, theirs.texts, theirs.texts, 0};
    yaml_parser_t parser;
    yaml_token_t token;
    yaml_token_type_t last = YAML_NO_TOKEN;
    find_places(i, len);
    if (!yaml_parser_initialize(&parser))
        exit(3);
    yaml_parser_set_input_string(&parser, i->bytes, len);
    while (last != YAML_STREAM_END_TOKEN && yaml_parser_scan(&parser, &token)) {
        if (g.answer.token_count == MOST_TOKENS)
            exit(3);
        add_token(i, &g, &token);
        last = token.type;
        yaml_token_delete(&token);
    }
    if (last != YAML_STREAM_END_TOKEN)
        add_fault(&g, &parser);
    yaml_parser_delete(&parser);
    return g;
}

/* Where the last character begins, if the end of the input cuts it off; otherwise the length of the input. */
static uint64_t cut_at(const struct input *i) {
    uint64_t len = i->len, unit = len - len % 2;
    if (is_utf16(i)) {
        uint8_t high = i->bytes[i->bytes[0] == 0xff ? unit - 1 : unit - 2];
        return unit > 2 && high >= 0xd8 && high < 0xdc ? unit - 2 : unit;
    }
    for (uint64_t back = len < 3 ? len : 3; back > 0; back--) {
        uint8_t byte = i->bytes[len - back];
        uint64_t width = byte >= 0xf8 ? 0 : byte >= 0xf0 ? 4 : byte >= 0xe0 ? 3 : byte >= 0xc0 ? 2 : 0;
        if (width > back)
            return len - back;
    }
    return len;
}

/* Compares the tokens of an input that is a text only in front of a place, with what libyaml gives of that.
 *
 * If libyaml finds a fault of the scanner there, this library may find the same. Otherwise it gives a beginning of these tokens,
 * and then the fault of the reader. How many tokens come before that is not compared. */
static void compare_front(const struct input *i, const struct given *whole, struct bogzhami_answer reader,
                          const uint8_t *words) {
    struct given front = scan_theirs(i, reader.problem_offset);
    uint64_t count = front.answer.token_count;
    if (whole->answer.error == BOGZHAMI_SCANNER_ERROR) {
        compare("libyaml, in front of what is no text", 0, &front, whole);
        return;
    }
    if (count > whole->answer.token_count)
        count = whole->answer.token_count;
    reader.text_len = count < front.answer.token_count ? front.tokens[count].text_at : front.answer.text_len;
    reader.token_count = count;
    front.status = BOGZHAMI_FAULT;
    front.answer = reader;
    front.words = words;
    compare("libyaml, and where it is no text", 0, &front, whole);
}

/* Compares the tokens of an input that is no text. libyaml says where it is none, and why, unless the end cuts a character off
 * and libyaml finds a fault of the scanner before. Then this library may say what is wrong with the end. */
static void compare_undecoded(const struct input *i, const struct given *whole, const struct given *wanted) {
    uint8_t words[100] = {0};
    if (wanted->answer.error == BOGZHAMI_READER_ERROR) {
        uint64_t len = wanted->answer.problem_len;
        memcpy(words, wanted->words, len < sizeof words ? len : sizeof words);
        compare_front(i, whole, wanted->answer, words);
        return;
    }
    struct bogzhami_answer reader = whole->answer;
    if (reader.error == BOGZHAMI_READER_ERROR && reader.problem_offset != cut_at(i))
        tell("libyaml", "the fault is not where the end cuts a character off");
    reader.problem_offset = cut_at(i);
    compare_front(i, whole, reader, whole->words);
}

static void compare_with_libyaml(const struct input *i, const struct given *whole) {
    if (i->may_differ) {
        differing++;
        return;
    }
    struct given wanted = scan_theirs(i, i->len);
    if (wanted.answer.error == BOGZHAMI_READER_ERROR || cut_at(i) < i->len) {
        undecoded++;
        compare_undecoded(i, whole, &wanted);
    } else {
        compare("libyaml", 0, &wanted, whole);
    }
}

/* The ways of this library. */

/* All tokens of an input. With no room the answer is the same. */
static struct given scan_all(const struct input *i, uint32_t limit) {
    struct given g = {0, {0}, ours.tokens, ours.texts, ours.texts, 0}, counted = g;
    g.status = bogzhami_scan_all(i->bytes, i->len, BOGZHAMI_ANY_ENCODING, limit, ours.tokens, MOST_TOKENS, ours.texts, MOST_TEXTS,
                                 &g.answer);
    if (g.answer.token_count > MOST_TOKENS || g.answer.text_len > MOST_TEXTS || fault_len(&g) > MOST_TEXTS - g.answer.text_len) {
        fprintf(stderr, "mutants: no room for all tokens\n");
        exit(3);
    }
    g.words = counted.words = ours.texts + g.answer.text_len;
    counted.status = bogzhami_scan_all(i->bytes, i->len, BOGZHAMI_ANY_ENCODING, limit, batch, 0, batch_texts, 0, &counted.answer);
    if (!is_same_end(&g, &counted))
        tell_end("bogzhami_scan_all without room", 0, &g, &counted);
    return g;
}

/* What the next call has to give, with room for so many tokens and so many bytes. */
static struct given expect(const struct run *r, size_t tokens_len, size_t texts_len) {
    const struct given *w = r->whole;
    struct given e = {BOGZHAMI_OVER, {0}, w->tokens + r->taken, w->texts + r->text_at, w->words, r->text_at};
    uint64_t left = w->answer.token_count - r->taken, count = 0, len = 0;
    if (r->is_over)
        return e;
    for (; count < tokens_len && count < left && text_len(e.tokens + count) <= texts_len - len; count++)
        len += text_len(e.tokens + count);
    bool has_fault = w->status == BOGZHAMI_FAULT && count == left && count < tokens_len;
    if (has_fault && fault_len(w) <= texts_len - len) {
        e.status = BOGZHAMI_FAULT;
        e.answer = w->answer;
    } else {
        e.status = count ? BOGZHAMI_DONE : BOGZHAMI_NO_ROOM;
    }
    if (e.status == BOGZHAMI_NO_ROOM)
        len = left ? text_len(e.tokens) : fault_len(w);
    e.answer.token_count = count;
    e.answer.text_len = len;
    return e;
}

/* What a call with the rooms of a batch gave. */
static struct given given_in_batch(uint32_t status, struct bogzhami_answer answer) {
    uint64_t at = answer.text_len < MOST_TEXTS && status == BOGZHAMI_FAULT ? answer.text_len : 0;
    return (struct given){status, answer, batch, batch_texts, batch_texts + at, 0};
}

/* Makes a call, and compares what it gives. What was in the rooms before is something else. */
static void call(struct run *r, const struct way *way, bool is_peek, size_t texts_len) {
    struct given wanted = expect(r, way->batch, texts_len);
    struct bogzhami_answer answer;
    uint64_t taken = r->taken, len = wanted.answer.text_len + fault_len(&wanted);
    uint32_t status;
    memset(&answer, FILL, sizeof answer);
    memset(batch, FILL, (wanted.answer.token_count + 1) * sizeof *batch);
    memset(batch_texts, FILL, len < texts_len ? len : texts_len);
    if (is_peek)
        status = bogzhami_peek(&r->handle, r->input->bytes, r->input->len, batch, batch_texts, texts_len, &answer);
    else
        status = bogzhami_next(&r->handle, r->input->bytes, r->input->len, batch, way->batch, batch_texts, texts_len, &answer);
    struct given found = given_in_batch(status, answer);
    compare(way->name, taken, &wanted, &found);
    if (is_peek)
        return;
    for (uint64_t n = 0; n < wanted.answer.token_count; n++)
        r->text_at += text_len(wanted.tokens + n);
    r->taken += wanted.answer.token_count;
    r->is_over |= wanted.status == BOGZHAMI_FAULT ||
                  (r->taken == r->whole->answer.token_count && r->whole->status == BOGZHAMI_DONE);
}

/* Makes a call of bogzhami_next, after one of bogzhami_peek in some ways. With no room for the texts of what comes next, the
 * calls are made again with as much as that needs. */
static void step(struct run *r, const struct way *way) {
    size_t texts_len = way->is_tight ? 0 : MOST_TEXTS;
    struct given wanted = expect(r, way->batch, texts_len);
    for (size_t turn = 0; turn < 2 && !is_wrong; turn++) {
        if (way->has_peeks)
            call(r, way, true, texts_len);
        call(r, way, false, texts_len);
        if (wanted.status != BOGZHAMI_NO_ROOM)
            return;
        texts_len = wanted.answer.text_len;
    }
}

/* Takes all tokens of an input in a way, up to a call after the end. */
static void take_all(const struct input *i, uint32_t limit, const struct given *whole, const struct way *way) {
    struct run r = {i, whole, BOGZHAMI_CLOSED, 0, 0, false};
    if (bogzhami_open(&r.handle, i->bytes, i->len, BOGZHAMI_ANY_ENCODING, limit) != BOGZHAMI_DONE)
        tell(way->name, "bogzhami_open fails");
    while (!r.is_over && !is_wrong)
        step(&r, way);
    if (!is_wrong)
        step(&r, way);
    if (bogzhami_close(&r.handle) != BOGZHAMI_DONE)
        tell(way->name, "bogzhami_close fails");
}

/* Whether a call with pieces gave that token of all tokens: the same but for its place in the input. */
static bool is_same_of_pieces(const struct given *whole, uint64_t number, const struct bogzhami_token *found) {
    struct bogzhami_token a = whole->tokens[number], b = *found;
    const uint8_t *wanted_text = whole->texts + a.text_at, *found_text = batch_texts + b.text_at;
    a.text_at = b.text_at = 0;
    a.input_at = BOGZHAMI_NOWHERE;
    return !memcmp(&a, &b, sizeof a) && !memcmp(wanted_text, found_text, text_len(&a));
}

/* Compares the tokens of a call with pieces. Returns how many were taken then. */
static uint64_t compare_piece(const char *way, const struct given *whole, uint64_t taken, const struct given *found) {
    uint64_t count = found->answer.token_count;
    for (uint64_t n = 0; n < count && !is_wrong; n++) {
        bool is_there = taken + n < whole->answer.token_count;
        if (!is_there || !is_same_of_pieces(whole, taken + n, found->tokens + n))
            tell_token(way, taken, n, &(struct given){.answer.token_count = is_there ? n + 1 : 0, .tokens = whole->tokens + taken,
                                                      .texts = whole->texts}, found);
    }
    return taken + count;
}

/* Compares how an input in pieces ends: after all tokens, with the fault, if there is one. */
static void compare_last_piece(const char *way, const struct given *whole, uint64_t taken, const struct given *found) {
    struct given wanted = *whole;
    wanted.status = whole->status == BOGZHAMI_FAULT ? BOGZHAMI_FAULT : BOGZHAMI_OVER;
    wanted.answer.token_count = found->answer.token_count;
    wanted.answer.text_len = found->answer.text_len;
    if (taken != whole->answer.token_count || !is_same_end(&wanted, found))
        tell_end(way, taken, &wanted, found);
}

/* Takes all tokens of an input that comes in pieces of so many bytes, with room for all that a call may give. */
static void take_pieces(const struct input *i, uint32_t limit, const struct given *whole, size_t piece) {
    struct bogzhami_handle handle = BOGZHAMI_CLOSED;
    struct given found = {BOGZHAMI_MORE, {0}, batch, batch_texts, batch_texts, 0};
    uint64_t taken = 0, came = 0, needed;
    char way[60];
    snprintf(way, sizeof way, "bogzhami_next_piece, pieces of %zu", piece);
    if (bogzhami_open_pieces(&handle, BOGZHAMI_ANY_ENCODING, limit) != BOGZHAMI_DONE)
        tell(way, "bogzhami_open_pieces fails");
    while (!is_wrong && (found.status == BOGZHAMI_DONE || found.status == BOGZHAMI_MORE || found.status == BOGZHAMI_WHOLE)) {
        if (found.status != BOGZHAMI_DONE)
            came += piece;
        bool is_last = came >= i->len;
        if (is_last)
            came = i->len;
        memset(&found.answer, FILL, sizeof found.answer);
        uint32_t status = bogzhami_next_piece(&handle, 0, i->bytes, came, is_last, batch, MOST_BATCH, batch_texts, MOST_TEXTS,
                                              &found.answer, &needed);
        found = given_in_batch(status, found.answer);
        taken = compare_piece(way, whole, taken, &found);
    }
    if (!is_wrong)
        compare_last_piece(way, whole, taken, &found);
    if (bogzhami_close(&handle) != BOGZHAMI_DONE)
        tell(way, "bogzhami_close fails");
}

static void make_ways(void) {
    const size_t batches[] = {1, 2, 3, 5, 7, 16, 40, MOST_BATCH, 1};
    for (size_t n = 0; n < WAYS; n++) {
        struct way *w = ways + n;
        w->batch = batches[n / 2];
        w->is_tight = n % 2;
        w->has_peeks = n >= WAYS - 2;
        snprintf(w->name, sizeof w->name, "bogzhami_next of %zu tokens%s%s", w->batch, w->has_peeks ? " after bogzhami_peek" : "",
                 w->is_tight ? ", in as little room as a token needs" : "");
    }
}

/* The inputs. */

/* Reads the next input; false at the end. */
static bool read_input(struct input *i) {
    uint32_t words[2];
    if (fread(words, sizeof words, 1, stdin) != 1 || fread(&i->len, sizeof i->len, 1, stdin) != 1)
        return false;
    i->other_limit = words[0];
    i->may_differ = words[1];
    i->bytes = i->len <= MOST_INPUT ? malloc(i->len ? i->len : 1) : NULL;
    if (!i->bytes || fread(i->bytes, 1, i->len, stdin) != i->len)
        exit(3);
    return true;
}

static void try_input(const struct input *i, uint32_t limit) {
    current_limit = limit;
    struct given whole = scan_all(i, limit);
    check_places(i, &whole);
    if (limit == USUAL_LIMIT) {
        faults += whole.status == BOGZHAMI_FAULT;
        compare_with_libyaml(i, &whole);
    }
    for (size_t n = 0; n < WAYS && !is_wrong; n++)
        take_all(i, limit, &whole, ways + n);
    if (!is_wrong)
        take_pieces(i, limit, &whole, 1);
    if (!is_wrong)
        take_pieces(i, limit, &whole, 2 + i->len % MOST_PIECE);
}

int main(void) {
    struct input i;
    make_ways();
    for (; read_input(&i); inputs++) {
        current = &i;
        is_wrong = false;
        try_input(&i, USUAL_LIMIT);
        if (!is_wrong)
            try_input(&i, i.other_limit);
        wrongs += is_wrong;
        free(i.bytes);
    }
    printf("%" PRIu64 " %" PRIu64 " %" PRIu64 " %" PRIu64 " %" PRIu64 "\n", inputs, faults, undecoded, differing, wrongs);
    return 0;
}
