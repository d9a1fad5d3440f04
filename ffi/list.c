/* list [ENC [LIMIT]] < FILE: lists the tokens of a file, one a line, as `./run scan ENC LIMIT` does.
 * An example of bogzhami.h. The exit status is 0; 1 if there is a fault; 2 for wrong words; 3 if reading, writing or a request for
 * memory fails. */
#include "listing.h"

enum { BATCH = 256, FIRST_TEXTS = 4096 };

/* Rooms for a batch of tokens, which are used again for the next one. */
struct rooms {
    struct bogzhami_token tokens[BATCH];
    uint8_t *texts;
    size_t texts_len;
    struct bogzhami_answer answer;
};

/* Reads standard input to its end. NULL if memory is refused, or if reading fails, which ferror then says. */
static uint8_t *read_all(size_t *len) {
    size_t room = 1 << 12;
    uint8_t *bytes = malloc(room);
    *len = 0;
    while (bytes) {
        *len += fread(bytes + *len, 1, room - *len, stdin);
        if (*len < room && !ferror(stdin))
            return bytes;
        uint8_t *more = *len < room ? NULL : realloc(bytes, room *= 2);
        if (!more)
            free(bytes);
        bytes = more;
    }
    return NULL;
}

/* Makes the room for texts anew, of a length; false if memory is refused, and then there is none. */
static bool make_texts(struct rooms *r, uint64_t len) {
    free(r->texts);
    r->texts = len <= SIZE_MAX ? calloc((size_t)len, 1) : NULL;
    r->texts_len = r->texts ? (size_t)len : 0;
    return r->texts != NULL;
}

/* Gets the next batch, with more room for texts if it needs that. Returns what bogzhami_next does, or
 * BOGZHAMI_NO_MEMORY. */
static uint32_t next_batch(struct bogzhami_handle *handle, const uint8_t *input, size_t len, struct rooms *r) {
    for (;;) {
        uint32_t status = bogzhami_next(handle, input, len, r->tokens, BATCH, r->texts, r->texts_len, &r->answer);
        if (status != BOGZHAMI_NO_ROOM)
            return status;
        if (!make_texts(r, r->answer.text_len))
            return BOGZHAMI_NO_MEMORY;
    }
}

/* Lists all tokens of a scanner, and returns the status after them. */
static uint32_t list_tokens(struct bogzhami_handle *handle, const uint8_t *input, size_t len, struct rooms *r) {
    uint32_t status = make_texts(r, FIRST_TEXTS) ? BOGZHAMI_DONE : BOGZHAMI_NO_MEMORY;
    while (status == BOGZHAMI_DONE && !ferror(stdout)) {
        status = next_batch(handle, input, len, r);
        if (status == BOGZHAMI_DONE || status == BOGZHAMI_FAULT)
            list_batch(r->tokens, r->answer.token_count, r->texts);
    }
    if (status == BOGZHAMI_FAULT)
        list_fault(&r->answer, r->texts);
    return status;
}

/* Lists an input, and returns the exit status. */
static int list(const uint8_t *input, size_t len, const struct words *words) {
    static struct rooms rooms;
    struct bogzhami_handle handle = BOGZHAMI_CLOSED;
    uint32_t status = bogzhami_open(&handle, input, len, words->encoding, words->key_limit);
    if (status == BOGZHAMI_DONE)
        status = list_tokens(&handle, input, len, &rooms);
    int written = flush();
    bogzhami_close(&handle);
    free(rooms.texts);
    if (written)
        return written;
    if (status != BOGZHAMI_OVER && status != BOGZHAMI_FAULT)
        return fail("", bogzhami_status_text(status));
    return status == BOGZHAMI_FAULT;
}

int main(int argc, char **argv) {
    struct words words;
    int status = take_words(argc, argv, "Lists the tokens of a file, one a line.", &words);
    if (status >= 0)
        return status;
    size_t len;
    uint8_t *input = read_all(&len);
    if (!input)
        return ferror(stdin) ? fail("standard input: ", strerror(errno)) : fail("", "out of memory");
    status = list(input, len, &words);
    free(input);
    return status;
}
