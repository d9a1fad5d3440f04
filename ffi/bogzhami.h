/* The scanner for C and C++: the tokens of a YAML 1.1 input as plain records, in room that the caller gives.
 *
 *     static struct bogzhami_token tokens[256]; // static, since the rooms have to be written before the call
 *     static uint8_t texts[65536];
 *     struct bogzhami_handle handle = BOGZHAMI_CLOSED;
 *     struct bogzhami_answer answer = {0};
 *     uint32_t status = bogzhami_open(&handle, input, input_len, BOGZHAMI_ANY_ENCODING, 1024);
 *     while (status == BOGZHAMI_DONE) {
 *         status = bogzhami_next(&handle, input, input_len, tokens, 256, texts, sizeof texts, &answer);
 *         for (uint64_t i = 0; i < answer.token_count; i++)
 *             use(&tokens[i], texts);
 *     }
 *     bogzhami_close(&handle);
 *     if (status == BOGZHAMI_FAULT)
 *         tell(input, input_len, &answer, texts);
 *     else if (status != BOGZHAMI_OVER)
 *         fprintf(stderr, "not all tokens were given: %s\n", bogzhami_status_text(status));
 *
 * The loop ends with BOGZHAMI_OVER after the stream end; with BOGZHAMI_FAULT at a fault, which is then in the answer; or with
 * BOGZHAMI_NO_ROOM at a text that is longer than the room for texts. Then tokens are left, and a caller says so, or makes a room
 * of answer.text_len bytes and calls bogzhami_next again. The example list.c does that, and is a whole program. A caller that
 * wants all tokens at once calls bogzhami_scan_all.
 *
 * This tells a fault: its line and column, from 1, and what is wrong there.
 *
 *     static void tell(const uint8_t *input, size_t input_len, const struct bogzhami_answer *answer, const uint8_t *texts) {
 *         struct bogzhami_mark at = answer->problem_mark;
 *         uint32_t status = answer->error == BOGZHAMI_MEMORY_ERROR ? BOGZHAMI_NO_MEMORY : BOGZHAMI_DONE;
 *         if (answer->error == BOGZHAMI_READER_ERROR) // it has an offset, and no mark
 *             status = bogzhami_place(input, input_len, BOGZHAMI_ANY_ENCODING, answer->problem_offset, &at);
 *         if (status == BOGZHAMI_DONE)
 *             fprintf(stderr, "%" PRIu64 ":%" PRIu64 ": %.*s\n", at.line + 1, at.column + 1, (int)answer->problem_len,
 *                     (const char *)texts + answer->text_len);
 *         else
 *             fprintf(stderr, "%s\n", bogzhami_status_text(status));
 *     }
 */
#ifndef BOGZHAMI_H
#define BOGZHAMI_H

#include <stdbool.h>
#include <stddef.h>
#include <stdint.h>

#ifdef __cplusplus
extern "C" {
#endif

/* The version of this header. bogzhami_version returns that of the library. */
#define BOGZHAMI_VERSION "1.1.0"
#define BOGZHAMI_VERSION_MAJOR 1
#define BOGZHAMI_VERSION_MINOR 1
#define BOGZHAMI_VERSION_PATCH 0

/* A place in the text. Whatever the encoding of the input, the index counts bytes of the text in UTF-8. */
struct bogzhami_mark {
    uint64_t index;  /* how many bytes come before it */
    uint64_t line;   /* how many line breaks end before it */
    uint64_t column; /* how many characters come between the last of these breaks and it */
};

/* A token. Its texts are bytes in the room for texts, with no 0 after them. They are UTF-8, except what a tag or a %TAG
 * directive writes by `%`, which may be any bytes. The second follows right after the first.
 *
 * The input may have the first text too: it is input[input_at] to input[input_at + first_len - 1], unless input_at is
 * BOGZHAMI_NOWHERE. Then a caller that keeps the input need not copy the text. In UTF-8 it is looked for right after the `*`,
 * `&` or quote of an alias, an anchor or a quoted scalar, and where a plain scalar starts. It is there if no escape, doubled
 * quote or line break changes it. */
struct bogzhami_token {
    uint32_t token_type;             /* a number of bogzhami_token_type */
    uint32_t detail;                 /* SCALAR: a number of bogzhami_scalar_style; STREAM_START: of bogzhami_encoding; otherwise 0 */
    int32_t major;                   /* VERSION_DIRECTIVE: the version, as 1 and 1 for %YAML 1.1; otherwise 0 */
    int32_t minor;
    uint64_t text_at;                /* the first text is texts[text_at] to texts[text_at + first_len - 1] */
    uint64_t first_len;              /* TAG_DIRECTIVE, TAG: the handle; ALIAS, ANCHOR: the name; SCALAR: the value; otherwise 0 */
    uint64_t second_len;             /* TAG_DIRECTIVE: the prefix; TAG: the suffix; otherwise 0 */
    struct bogzhami_mark start_mark; /* of its first character; a token without characters has one mark twice */
    struct bogzhami_mark end_mark;   /* after its last character */
    uint64_t input_at;               /* how many bytes of the input, with its byte order mark, come before the text; or BOGZHAMI_NOWHERE */
};

/* No place in an input: the input_at of a token that has no text, or whose text the input does not have as it is. */
#define BOGZHAMI_NOWHERE UINT64_MAX

/* What a call returns besides tokens and texts. A count that 64 bits do not hold would be 2 to the power of 64, less 1. */
struct bogzhami_answer {
    uint64_t token_count;              /* how many tokens there are */
    uint64_t text_len;                 /* how many bytes their texts have, without those of the fault; with BOGZHAMI_NO_ROOM how many
                                          bytes the room for texts needs */
    uint32_t error;                    /* a number of bogzhami_error, or 0 if there is no fault */
    int32_t problem_value;             /* reader fault: the octet, unit or code point that is wrong, or -1; otherwise 0 */
    uint64_t problem_offset;           /* reader fault: how many bytes of the input come before what is wrong; otherwise 0 */
    struct bogzhami_mark problem_mark; /* scanner fault: where the problem is; otherwise zeros (bogzhami_place has the mark of an
                                          offset) */
    struct bogzhami_mark context_mark; /* scanner fault: where what was being read starts; otherwise zeros */
    uint64_t problem_len;              /* what is wrong, in words, from texts[text_len] on; 0 for a memory fault */
    uint64_t context_len;              /* what was being read, in words, right after the problem; 0 if there is none */
};

/* A scanner that is held between calls. It is BOGZHAMI_CLOSED before the first call; what it holds is the library's. */
struct bogzhami_handle {
    bool live;
    void *held;
};

#ifdef __cplusplus
#define BOGZHAMI_CLOSED {}
#else
#define BOGZHAMI_CLOSED {0}
#endif

/* What a call returns. */
enum bogzhami_status {
    BOGZHAMI_DONE = 0,      /* the call did what it does; after bogzhami_next more may come */
    BOGZHAMI_FAULT = 1,     /* the answer has the fault that comes next, after the tokens of the call */
    BOGZHAMI_WRONG = 2,     /* no such encoding, a key limit that is not from 1 to 65536, or no such window of the input */
    BOGZHAMI_NO_MEMORY = 3, /* memory was refused in bogzhami_open, bogzhami_open_pieces or bogzhami_place */
    BOGZHAMI_OVER = 4,      /* the stream end, or the fault, was returned before */
    BOGZHAMI_NO_ROOM = 5,   /* the texts of what comes next are longer than the room for texts */
    BOGZHAMI_NOT_LIVE = 6,  /* the handle holds no scanner, or none of the kind that the call is for */
    BOGZHAMI_MORE = 7,      /* bogzhami_next_piece gave all that is settled: more of the input has to come */
    BOGZHAMI_WHOLE = 8      /* the input of bogzhami_next_piece is in UTF-16: all of it has to come before its tokens */
};

/* The values are those of libyaml 0.2.5. */
enum bogzhami_token_type {
    BOGZHAMI_NO_TOKEN = 0, /* never among the tokens of an input */
    BOGZHAMI_STREAM_START_TOKEN = 1,
    BOGZHAMI_STREAM_END_TOKEN = 2,
    BOGZHAMI_VERSION_DIRECTIVE_TOKEN = 3,
    BOGZHAMI_TAG_DIRECTIVE_TOKEN = 4,
    BOGZHAMI_DOCUMENT_START_TOKEN = 5,
    BOGZHAMI_DOCUMENT_END_TOKEN = 6,
    BOGZHAMI_BLOCK_SEQUENCE_START_TOKEN = 7,
    BOGZHAMI_BLOCK_MAPPING_START_TOKEN = 8,
    BOGZHAMI_BLOCK_END_TOKEN = 9,
    BOGZHAMI_FLOW_SEQUENCE_START_TOKEN = 10,
    BOGZHAMI_FLOW_SEQUENCE_END_TOKEN = 11,
    BOGZHAMI_FLOW_MAPPING_START_TOKEN = 12,
    BOGZHAMI_FLOW_MAPPING_END_TOKEN = 13,
    BOGZHAMI_BLOCK_ENTRY_TOKEN = 14,
    BOGZHAMI_FLOW_ENTRY_TOKEN = 15,
    BOGZHAMI_KEY_TOKEN = 16,
    BOGZHAMI_VALUE_TOKEN = 17,
    BOGZHAMI_ALIAS_TOKEN = 18,
    BOGZHAMI_ANCHOR_TOKEN = 19,
    BOGZHAMI_TAG_TOKEN = 20,
    BOGZHAMI_SCALAR_TOKEN = 21
};

enum bogzhami_encoding {
    BOGZHAMI_ANY_ENCODING = 0, /* as a setting: a byte order mark decides the encoding; without one it is UTF-8 */
    BOGZHAMI_UTF8_ENCODING = 1,
    BOGZHAMI_UTF16LE_ENCODING = 2,
    BOGZHAMI_UTF16BE_ENCODING = 3
};

enum bogzhami_scalar_style {
    BOGZHAMI_ANY_SCALAR_STYLE = 0, /* never a scalar's */
    BOGZHAMI_PLAIN_SCALAR_STYLE = 1,
    BOGZHAMI_SINGLE_QUOTED_SCALAR_STYLE = 2,
    BOGZHAMI_DOUBLE_QUOTED_SCALAR_STYLE = 3,
    BOGZHAMI_LITERAL_SCALAR_STYLE = 4,
    BOGZHAMI_FOLDED_SCALAR_STYLE = 5
};

enum bogzhami_error {
    BOGZHAMI_NO_ERROR = 0,
    BOGZHAMI_MEMORY_ERROR = 1,  /* memory was refused: the tokens are a beginning of all tokens */
    BOGZHAMI_READER_ERROR = 2,  /* the bytes are no text in the encoding */
    BOGZHAMI_SCANNER_ERROR = 3, /* no token can be read there */
    BOGZHAMI_PARSER_ERROR = 4,  /* these four are libyaml's, and never returned here */
    BOGZHAMI_COMPOSER_ERROR = 5,
    BOGZHAMI_WRITER_ERROR = 6,
    BOGZHAMI_EMITTER_ERROR = 7
};

/* The caller is responsible for this, in every call:
 * - A handle is BOGZHAMI_CLOSED before its first call. After that only these functions change it, and it is not copied.
 * - The input is the same in every call with a handle, from bogzhami_open to bogzhami_close: the same bytes, not only the same
 *   address. If it comes in pieces, so are the bytes of it that came before.
 * - A handle is used by one thread at a time.
 * - No pointer is null but that of an input of length 0. A pointer whose length is 0 is never followed.
 * - Lengths are those of memory that is there and that was written before, as by calloc; none is above half of the address
 *   space. tokens_len counts records, texts_len counts bytes.
 * - No two of the handle, the input or its window, the rooms, the answer, the mark and *needed_from overlap, and no other thread
 *   writes to them during the call.
 * - malloc, realloc and free are of one allocator and align to 16 bytes. No call is made by a signal handler or by the forked
 *   child of a process with threads.
 * Calls with different handles share nothing, so several threads may call at once. */

/* Opens a scanner of an input. What the handle held before is freed.
 *
 * encoding is a number of bogzhami_encoding, and key_limit the key limit in bytes, 1 to 65536: how far a simple key may reach.
 * 1024 is that of YAML 1.1 and of libyaml. Nothing is read yet.
 *
 * Returns BOGZHAMI_DONE; BOGZHAMI_WRONG for a wrong encoding or limit; BOGZHAMI_NO_MEMORY if memory was refused. With the last
 * two the handle holds nothing, and nothing is to be closed. */
uint32_t bogzhami_open(struct bogzhami_handle *handle, const uint8_t *input, size_t input_len, uint32_t encoding, uint32_t key_limit);

/* Gives the next tokens: whole ones only, as many as both rooms hold.
 *
 * Returns
 * - BOGZHAMI_DONE if answer->token_count tokens were put, and more may come; it is 0 only if tokens_len is 0.
 * - BOGZHAMI_FAULT if the fault follows these tokens. Its texts are in the room for texts. It comes once.
 * - BOGZHAMI_OVER if the stream end or the fault was given before: nothing is put.
 * - BOGZHAMI_NO_ROOM if no token was put, since the texts of what comes next (a token, or the fault) need answer->text_len bytes,
 *   and texts_len is less. Nothing is put, and nothing was taken.
 * - BOGZHAMI_NOT_LIVE if the handle holds nothing.
 * With the last three the answer is zeros but for text_len. What follows the last record and the last byte that are put stays
 * as it was. */
uint32_t bogzhami_next(struct bogzhami_handle *handle, const uint8_t *input, size_t input_len, struct bogzhami_token *tokens,
                       size_t tokens_len, uint8_t *texts, size_t texts_len, struct bogzhami_answer *answer);

/* Shows the token that the next bogzhami_next begins with. Nothing is taken: calls of bogzhami_peek alone all show the same.
 *
 * Returns as bogzhami_next does with a room for one token, except that a fault that is shown is not given by that. */
uint32_t bogzhami_peek(struct bogzhami_handle *handle, const uint8_t *input, size_t input_len, struct bogzhami_token *token,
                       uint8_t *texts, size_t texts_len, struct bogzhami_answer *answer);

/* Opens a scanner that is given its input in pieces, as they come from a pipe or a socket. What the handle held before is freed.
 *
 * The encoding and the key limit are those of bogzhami_open, and so is what is returned. Only bogzhami_next_piece and
 * bogzhami_close are for such a handle; for bogzhami_next, bogzhami_peek and bogzhami_reach it is not live. */
uint32_t bogzhami_open_pieces(struct bogzhami_handle *handle, uint32_t encoding, uint32_t key_limit);

/* Gives the next tokens of an input that comes in pieces: whole ones only, as many as both rooms hold, and each as soon as no more
 * bytes can change it. Whatever the pieces are, the tokens of all calls are in order those of the whole input, and so is the
 * fault; none is ever taken back.
 *
 *     uint64_t needed;
 *     size_t len = 0;                                  // how many bytes came
 *     bool last = false;                               // whether they are all
 *     uint32_t status = bogzhami_open_pieces(&handle, BOGZHAMI_ANY_ENCODING, 1024);
 *     while (status == BOGZHAMI_DONE || status == BOGZHAMI_MORE || status == BOGZHAMI_WHOLE) {
 *         if (status != BOGZHAMI_DONE && !read_more(&input, &len))
 *             last = true;
 *         status = bogzhami_next_piece(&handle, 0, input, len, last, tokens, 256, texts, sizeof texts, &answer, &needed);
 *         for (uint64_t i = 0; i < answer.token_count; i++)
 *             use(&tokens[i], texts);
 *     }
 *
 * The window is what the caller has of the input: its bytes from the number `from` on. *needed_from is from which byte on the next
 * call needs it, and `from` is at most that. In this version it is 0: a window is all that came. `last` says that no more will
 * come. From call to call the bytes stay what they are, at any address, and more may come after them; if last was set, none
 * comes, and it stays set.
 *
 * Returns what bogzhami_next returns, and
 * - BOGZHAMI_MORE if the tokens were given that are settled, answer->token_count of them, 0 or more: the next call is made once
 *   more bytes came, or with last. It is not returned if last is set.
 * - BOGZHAMI_WHOLE, with no token, if the input is in UTF-16: its tokens come after all of it came, in calls with last.
 * - BOGZHAMI_WRONG if `from` is not 0, if the window has fewer bytes than in the call before, or if it has more or last is not set
 *   though it was set before. Nothing is put then, the answer is zeros, and the scanner stays as it is.
 *
 * The input_at of a token is BOGZHAMI_NOWHERE. A lexeme that is not whole is read again from its start once more came. So while
 * calls give no token, as within a long literal, a caller waits until the window has grown by a share of itself, such as a
 * quarter; then all calls take time in proportion to the input. The example pieces.c does that, and is a whole program. */
uint32_t bogzhami_next_piece(struct bogzhami_handle *handle, uint64_t from, const uint8_t *window, size_t window_len, bool last,
                             struct bogzhami_token *tokens, size_t tokens_len, uint8_t *texts, size_t texts_len,
                             struct bogzhami_answer *answer, uint64_t *needed_from);

/* How far the last step without a fault was read: zeros before the first one. Returns BOGZHAMI_DONE, or BOGZHAMI_NOT_LIVE, and then *mark is zeros. */
uint32_t bogzhami_reach(struct bogzhami_handle *handle, struct bogzhami_mark *mark);

/* The encoding of the input, as a number of bogzhami_encoding: the one that was set, or that of the byte order mark. It is
 * BOGZHAMI_ANY_ENCODING, 0, if the handle holds no scanner of bogzhami_open. */
uint32_t bogzhami_encoding(struct bogzhami_handle *handle);

/* Frees what a handle holds, at any time. Returns BOGZHAMI_DONE, or BOGZHAMI_NOT_LIVE if it held nothing; then it does nothing. */
uint32_t bogzhami_close(struct bogzhami_handle *handle);

/* Scans an input to its end or its first fault, in one call. What has no room is counted and not written, so that a caller can
 * make room and call again: the last text that is written may be cut.
 *
 * Returns BOGZHAMI_DONE if the stream ended, BOGZHAMI_FAULT if there is a fault (the tokens are those before it), and
 * BOGZHAMI_WRONG for a wrong encoding or limit; then *answer is zeros and nothing else is touched. */
uint32_t bogzhami_scan_all(const uint8_t *input, size_t input_len, uint32_t encoding, uint32_t key_limit,
                           struct bogzhami_token *tokens, size_t tokens_len, uint8_t *texts, size_t texts_len,
                           struct bogzhami_answer *answer);

/* The place of an offset of the input: *mark is the mark after the characters that the input spells before the offset. It has the
 * line and the column of a reader's fault, whose problem_offset is given. The offset counts bytes of the input from 0, with its
 * byte order mark. The encoding is that with which the input was scanned.
 *
 * A character that the offset cuts is not counted. If the offset is past bytes that spell no character, or past the end, the mark
 * is where these bytes or the end are. The time grows with the offset. UTF-8 takes no memory.
 *
 * Returns BOGZHAMI_DONE; BOGZHAMI_WRONG for a wrong encoding; BOGZHAMI_NO_MEMORY if memory was refused, which only UTF-16 takes.
 * With the last two *mark is zeros. */
uint32_t bogzhami_place(const uint8_t *input, size_t input_len, uint32_t encoding, uint64_t offset, struct bogzhami_mark *mark);

/* A token's first text, in the room for texts: a handle, a name or a value. *len is how many bytes it has, and 0 if the token has
 * none. No 0 follows it. */
static inline const char *bogzhami_text(const struct bogzhami_token *token, const uint8_t *texts, size_t *len) {
    *len = (size_t)token->first_len;
    return (const char *)texts + token->text_at;
}

/* Its second text: a prefix or a suffix. */
static inline const char *bogzhami_second_text(const struct bogzhami_token *token, const uint8_t *texts, size_t *len) {
    *len = (size_t)token->second_len;
    return (const char *)texts + token->text_at + token->first_len;
}

/* The version of the library, as BOGZHAMI_VERSION has it. This text, and those of the calls below, ends with a 0, stays where
 * it is, and is not freed. */
const char *bogzhami_version(void);

/* Names for numbers, as yamltok writes them. A number that has none is "unknown". */
const char *bogzhami_token_name(uint32_t token_type);  /* of bogzhami_token_type: "STREAM-START", "SCALAR" */
const char *bogzhami_style_name(uint32_t style);       /* of bogzhami_scalar_style: "plain", "single", "double", "literal", "folded" */
const char *bogzhami_encoding_name(uint32_t encoding); /* of bogzhami_encoding: "UTF8", "UTF16LE", "UTF16BE" */
const char *bogzhami_error_name(uint32_t error);       /* of bogzhami_error: "memory", "reader", "scanner" */

/* What a status, a number of bogzhami_status, means in English, for a message: "out of memory". */
const char *bogzhami_status_text(uint32_t status);

#ifdef __cplusplus
}
#endif

#endif
