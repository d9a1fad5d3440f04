/* pieces [ENC [LIMIT]] < FILE: lists the tokens of a pipe, one a line, each as soon as no more bytes can change it.
 * An example of bogzhami_next_piece. The words, the lines and the exit statuses are those of list.c. */
#include "listing.h"

#include <unistd.h>

enum { BATCH = 256, FIRST_TEXTS = 4096, LEAST_READ = 4096, SHORT = 1 << 20 };

/* All bytes that came. They move when more come. */
struct window {
    uint8_t *bytes;
    size_t len, room;
    size_t given; /* how many of them are in front of the end of the last token that was given */
    bool is_last; /* whether no more will come */
    int error;    /* the number of the error that ended reading, or 0 */
};

/* Rooms for a batch of tokens, which are used again for the next one. */
struct rooms {
    struct bogzhami_token tokens[BATCH];
    uint8_t *texts;
    size_t texts_len;
    struct bogzhami_answer answer;
};

/* Makes the room for texts anew, of a length; false if memory is refused, and then there is none. */
static bool make_texts(struct rooms *r, uint64_t len) {
    free(r->texts);
    r->texts = len <= SIZE_MAX ? calloc((size_t)len, 1) : NULL;
    r->texts_len = r->texts ? (size_t)len : 0;
    return r->texts != NULL;
}

/* Sees that the window has room for more. It grows by its size, so that moving it takes time in proportion to the input. */
static bool make_room(struct window *w) {
    if (w->room - w->len >= LEAST_READ)
        return true;
    uint8_t *bytes = realloc(w->bytes, 2 * w->room + LEAST_READ);
    if (!bytes)
        return false;
    w->bytes = bytes;
    w->room = 2 * w->room + LEAST_READ;
    return true;
}

/* Reads what is there, and waits if nothing is. An error of reading, or for want of memory, is kept in the window. */
static void read_some(struct window *w) {
    ssize_t count;
    if (!make_room(w)) {
        w->error = ENOMEM;
        return;
    }
    do
        count = read(STDIN_FILENO, w->bytes + w->len, w->room - w->len);
    while (count < 0 && errno == EINTR);
    w->is_last = count == 0;
    if (count < 0)
        w->error = errno;
    else
        w->len += (size_t)count;
}

/* Reads until the next call is worth its time. What follows the last token that was given is read by the scanner again, so the
 * longer that is, the more has to come before: a quarter of it. If it is short, anything is enough. UTF-16 is wanted whole. */
static void read_on(struct window *w, bool wants_all) {
    size_t len = w->len, again = len - w->given, enough = again < SHORT ? 1 : again / 4;
    do
        read_some(w);
    while (!w->is_last && !w->error && (wants_all || w->len - len < enough));
}

/* Gets the next batch, with more room for texts if it needs that. Returns what bogzhami_next_piece does, or
 * BOGZHAMI_NO_MEMORY. */
static uint32_t next_batch(struct bogzhami_handle *handle, struct window *w, struct rooms *r) {
    for (;;) {
        uint64_t needed_from; /* the window has all bytes that came, and so those that are needed */
        uint32_t status = bogzhami_next_piece(handle, 0, w->bytes, w->len, w->is_last, r->tokens, BATCH, r->texts, r->texts_len,
                                              &r->answer, &needed_from);
        if (status != BOGZHAMI_NO_ROOM)
            return status;
        if (!make_texts(r, r->answer.text_len))
            return BOGZHAMI_NO_MEMORY;
    }
}

/* Lists the tokens that are settled by what came, and returns the status after them. */
static uint32_t list_settled(struct bogzhami_handle *handle, struct window *w, struct rooms *r) {
    uint32_t status = BOGZHAMI_DONE;
    while (status == BOGZHAMI_DONE && !ferror(stdout)) {
        status = next_batch(handle, w, r);
        uint64_t count = r->answer.token_count;
        list_batch(r->tokens, count, r->texts);
        if (count)
            w->given = (size_t)r->tokens[count - 1].end_mark.index;
    }
    if (status == BOGZHAMI_FAULT)
        list_fault(&r->answer, r->texts);
    return status;
}

/* Says what ended reading, and returns the exit status for that. */
static int fail_reading(int error) {
    return error == ENOMEM ? fail("", "out of memory") : fail("standard input: ", strerror(error));
}

/* Lists all tokens of what comes, and returns the exit status. All that is listed is written before more is waited for. */
static int list_all(struct bogzhami_handle *handle, struct window *w, struct rooms *r) {
    for (;;) {
        uint32_t status = list_settled(handle, w, r);
        int written = flush();
        if (written || status == BOGZHAMI_FAULT || status == BOGZHAMI_OVER)
            return written ? written : status == BOGZHAMI_FAULT;
        if (status != BOGZHAMI_MORE && status != BOGZHAMI_WHOLE)
            return fail("", bogzhami_status_text(status));
        if (w->error)
            return fail_reading(w->error);
        read_on(w, status == BOGZHAMI_WHOLE);
    }
}

int main(int argc, char **argv) {
    static struct rooms rooms;
    struct window window = {0};
    struct words words;
    struct bogzhami_handle handle = BOGZHAMI_CLOSED;
    int status = take_words(argc, argv, "Lists the tokens of a pipe, one a line, as soon as each has come.", &words);
    if (status >= 0)
        return status;
    uint32_t opened = bogzhami_open_pieces(&handle, words.encoding, words.key_limit);
    if (opened == BOGZHAMI_DONE && !make_texts(&rooms, FIRST_TEXTS))
        opened = BOGZHAMI_NO_MEMORY;
    status = opened == BOGZHAMI_DONE ? list_all(&handle, &window, &rooms) : fail("", bogzhami_status_text(opened));
    bogzhami_close(&handle);
    free(rooms.texts);
    free(window.bytes);
    return status;
}
