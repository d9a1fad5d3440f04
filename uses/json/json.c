/* json [OPTION ..] [FILE]: lists the tokens of a YAML file, each as a line of JSON. Without a file, or for the file -, it reads
 * standard input. It writes the line of a token as soon as no more of the input can change it. docs/COMMANDS.md has the members of
 * the lines. The exit status is 0; 1 when there is a fault, which is the last line; 2 when the words are wrong; 3 when reading or
 * writing fails, or memory is refused. */
#include "bogzhami.h"

#include <errno.h>
#include <fcntl.h>
#include <getopt.h>
#include <inttypes.h>
#include <stdbool.h>
#include <stdio.h>
#include <stdlib.h>
#include <string.h>
#include <unistd.h>

enum { BATCH = 256, FIRST_TEXTS = 1 << 14, FIRST_ROOM = 1 << 16, MOST_KEY_LIMIT = 65536 };
enum { SHORT = 1 << 20, TIMES = 256, MOST_CREDIT = 1 << 26 }; /* of what is scanned again */

static const char *program = "json"; /* what it was called by */

/* What the words ask for. */
struct settings {
    uint32_t encoding, key_limit;
    const char *name; /* of the file; - is standard input */
};

/* All bytes of a file that came. They move when more come. */
struct window {
    int file;
    uint8_t *bytes;
    size_t len, room;
    size_t given;     /* how many of them are in front of the end of the last token that was written */
    size_t credit;    /* how many may be scanned again */
    bool is_last;     /* whether no more will come */
    const char *lost; /* why no more could be read, or NULL */
};

/* Rooms for a batch of tokens, which are used again for the next one. */
struct rooms {
    struct bogzhami_token tokens[BATCH];
    uint8_t *texts;
    size_t texts_len;
    struct bogzhami_answer answer;
};

/* Says that something failed, and why; returns the exit status for that. */
static int fail(const char *what, const char *why) {
    fflush(stdout);
    fprintf(stderr, "%s: %s: %s\n", program, what, why);
    return 3;
}

/* Sees that all is written, and returns the exit status that this asks for. A pipe that no one reads any more is not told. */
static int flush(void) {
    if (!fflush(stdout) && !ferror(stdout))
        return 0;
    return errno == EPIPE ? 3 : fail("standard output", strerror(errno));
}

/* Text. */

/* How many bytes the character has that begins there; 0 if none does. */
static size_t character_len(const uint8_t *text, uint64_t len) {
    uint8_t first = text[0];
    size_t wanted = first < 0x80 ? 1 : first < 0xC2 ? 0 : first < 0xE0 ? 2 : first < 0xF0 ? 3 : first < 0xF5 ? 4 : 0;
    if (wanted > len)
        return 0;
    for (size_t i = 1; i < wanted; i++)
        if ((text[i] & 0xC0) != 0x80)
            return 0;
    bool overlong = (first == 0xE0 && text[1] < 0xA0) || (first == 0xF0 && text[1] < 0x90);
    bool beyond = (first == 0xED && text[1] >= 0xA0) || (first == 0xF4 && text[1] >= 0x90); /* surrogates, and past U+10FFFF */
    return overlong || beyond ? 0 : wanted;
}

static bool is_text(const uint8_t *text, uint64_t len) {
    for (uint64_t at = 0; at < len;) {
        size_t wide = character_len(text + at, len - at);
        if (!wide)
            return false;
        at += wide;
    }
    return true;
}

/* The code of a character that is escaped: one that has to be, a control character, or one that some readers take for the end of
 * a line. -1 for another. */
static int escaped_code(const uint8_t *c) {
    if (c[0] == 0xC2 && c[1] < 0xA0)
        return c[1];
    if (c[0] == 0xE2 && c[1] == 0x80 && (c[2] == 0xA8 || c[2] == 0xA9))
        return 0x2000 + (c[2] & 0x3F);
    return c[0] < 0x20 || c[0] == 0x7F || c[0] == '"' || c[0] == '\\' ? c[0] : -1;
}

static void write_string(const uint8_t *text, uint64_t len) {
    putchar('"');
    for (uint64_t at = 0, wide; at < len; at += wide) {
        wide = character_len(text + at, len - at);
        int code = escaped_code(text + at);
        if (code == '"' || code == '\\')
            printf("\\%c", code);
        else if (code >= 0)
            printf("\\u%04x", (unsigned)code);
        else
            fwrite(text + at, 1, wide, stdout);
    }
    putchar('"');
}

/* Writes a member whose value is a text: a string, or, if its bytes are not UTF-8, an object that has them in hexadecimal. */
static void write_text(const char *name, const uint8_t *text, uint64_t len) {
    printf(",\"%s\":", name);
    if (is_text(text, len)) {
        write_string(text, len);
        return;
    }
    fputs("{\"hex\":\"", stdout);
    for (uint64_t i = 0; i < len; i++)
        printf("%02x", text[i]);
    fputs("\"}", stdout);
}

static void write_mark(const char *name, struct bogzhami_mark m) {
    printf(",\"%s\":{\"index\":%" PRIu64 ",\"line\":%" PRIu64 ",\"column\":%" PRIu64 "}", name, m.index, m.line, m.column);
}

/* Lines. */

static void write_token(const struct bogzhami_token *t, const uint8_t *texts) {
    const uint8_t *first = texts + t->text_at, *second = first + t->first_len;
    printf("{\"type\":\"%s\"", bogzhami_token_name(t->token_type));
    write_mark("start", t->start_mark);
    write_mark("end", t->end_mark);
    switch (t->token_type) {
    case BOGZHAMI_STREAM_START_TOKEN:
        printf(",\"encoding\":\"%s\"", bogzhami_encoding_name(t->detail));
        break;
    case BOGZHAMI_VERSION_DIRECTIVE_TOKEN:
        printf(",\"major\":%" PRId32 ",\"minor\":%" PRId32, t->major, t->minor);
        break;
    case BOGZHAMI_TAG_DIRECTIVE_TOKEN:
        write_text("handle", first, t->first_len);
        write_text("prefix", second, t->second_len);
        break;
    case BOGZHAMI_TAG_TOKEN:
        write_text("handle", first, t->first_len);
        write_text("suffix", second, t->second_len);
        break;
    case BOGZHAMI_ALIAS_TOKEN:
    case BOGZHAMI_ANCHOR_TOKEN:
        write_text("name", first, t->first_len);
        break;
    case BOGZHAMI_SCALAR_TOKEN:
        printf(",\"style\":\"%s\"", bogzhami_style_name(t->detail));
        write_text("value", first, t->first_len);
        break;
    }
    fputs("}\n", stdout);
}

static void write_fault(const struct bogzhami_answer *a, const uint8_t *texts) {
    const uint8_t *problem = texts + a->text_len, *context = problem + a->problem_len;
    printf("{\"type\":\"FAULT\",\"error\":\"%s\"", bogzhami_error_name(a->error));
    if (a->error == BOGZHAMI_READER_ERROR)
        printf(",\"offset\":%" PRIu64 ",\"value\":%" PRId32, a->problem_offset, a->problem_value);
    if (a->error == BOGZHAMI_SCANNER_ERROR) {
        write_mark("context_mark", a->context_mark);
        write_mark("problem_mark", a->problem_mark);
        if (a->context_len)
            write_text("context", context, a->context_len);
        else
            fputs(",\"context\":null", stdout);
    }
    if (a->error != BOGZHAMI_MEMORY_ERROR)
        write_text("problem", problem, a->problem_len);
    fputs("}\n", stdout);
}

/* Reading. */

/* Sees that the window has room for more. It grows by its size, so that moving it takes time in proportion to the input. */
static bool make_room(struct window *w) {
    if (w->len < w->room)
        return true;
    size_t room = w->room ? 2 * w->room : FIRST_ROOM;
    uint8_t *bytes = realloc(w->bytes, room);
    if (!bytes)
        return false;
    w->bytes = bytes;
    w->room = room;
    return true;
}

/* Counts bytes that came. */
static void add(struct window *w, size_t count) {
    w->len += count;
    w->credit += TIMES * count;
    if (w->credit > MOST_CREDIT)
        w->credit = MOST_CREDIT;
}

/* Reads what is there, and waits if nothing is. */
static void read_some(struct window *w) {
    ssize_t count;
    if (!make_room(w)) {
        w->lost = "out of memory";
        return;
    }
    do
        count = read(w->file, w->bytes + w->len, w->room - w->len);
    while (count < 0 && errno == EINTR);
    w->is_last = count == 0;
    if (count < 0)
        w->lost = strerror(errno);
    else
        add(w, (size_t)count);
}

/* Whether scanning is worth its time, since what follows the last token that was written is scanned again. If that is long, it has
 * to have grown by a quarter since there were `before` bytes of it. If it is short, each byte that came allows TIMES bytes to be
 * scanned again, so that a long lexeme which comes byte after byte is not scanned again for each of them. */
static bool is_due(const struct window *w, size_t before) {
    size_t again = w->len - w->given;
    return again < SHORT ? again <= w->credit : again - before >= before / 4;
}

/* Reads until scanning is worth its time, or until reading ends. UTF-16 is wanted whole. */
static void read_on(struct window *w, bool wants_all) {
    size_t before = w->len - w->given;
    w->credit -= before < w->credit ? before : w->credit;
    do
        read_some(w);
    while (!w->is_last && !w->lost && (wants_all || !is_due(w, before)));
}

/* Scanning. */

/* Makes the room for texts anew, of a length; false if memory is refused, and then there is none. */
static bool make_texts(struct rooms *r, uint64_t len) {
    free(r->texts);
    r->texts = len <= SIZE_MAX ? calloc((size_t)len, 1) : NULL;
    r->texts_len = r->texts ? (size_t)len : 0;
    return r->texts != NULL;
}

/* Gets the next batch, with more room for texts if it needs that. */
static uint32_t next_batch(struct bogzhami_handle *handle, const struct window *w, struct rooms *r) {
    for (;;) {
        uint64_t needed_from; /* the window has all bytes that came, and so those that are needed */
        uint32_t status = bogzhami_next_piece(handle, 0, w->bytes, w->len, w->is_last, r->tokens, BATCH, r->texts, r->texts_len,
                                              &r->answer, &needed_from);
        if (status != BOGZHAMI_NO_ROOM)
            return status;
        if (!make_texts(r, r->answer.text_len))
            return BOGZHAMI_NO_MEMORY;
    }
}

/* Writes the tokens that no more bytes can change, and the fault if it is next, and returns the status after that. */
static uint32_t write_settled(struct bogzhami_handle *handle, struct window *w, struct rooms *r) {
    uint32_t status = BOGZHAMI_DONE;
    while (status == BOGZHAMI_DONE && !ferror(stdout)) {
        status = next_batch(handle, w, r);
        uint64_t count = status == BOGZHAMI_NO_MEMORY ? 0 : r->answer.token_count;
        for (uint64_t i = 0; i < count; i++)
            write_token(&r->tokens[i], r->texts);
        if (count)
            w->given = (size_t)r->tokens[count - 1].end_mark.index;
    }
    if (status == BOGZHAMI_FAULT)
        write_fault(&r->answer, r->texts);
    return status;
}

/* Writes all tokens of a file, and returns the exit status. What is settled is flushed before more is waited for. */
static int write_all(struct bogzhami_handle *handle, struct window *w, struct rooms *r, const char *name) {
    for (;;) {
        uint32_t status = write_settled(handle, w, r);
        int written = flush();
        if (written || status == BOGZHAMI_OVER)
            return written;
        if (status == BOGZHAMI_FAULT)
            return 1;
        if (status != BOGZHAMI_MORE && status != BOGZHAMI_WHOLE)
            return fail(name, bogzhami_status_text(status));
        if (w->lost)
            return fail(name, w->lost);
        read_on(w, status == BOGZHAMI_WHOLE);
    }
}

/* Lists a file that is open, and returns the exit status. */
static int list(int file, const struct settings *s) {
    static struct rooms rooms;
    struct window window = {.file = file, .credit = MOST_CREDIT};
    struct bogzhami_handle handle = BOGZHAMI_CLOSED;
    uint32_t opened = bogzhami_open_pieces(&handle, s->encoding, s->key_limit);
    if (opened == BOGZHAMI_DONE && !make_texts(&rooms, FIRST_TEXTS))
        opened = BOGZHAMI_NO_MEMORY;
    int status;
    if (opened == BOGZHAMI_DONE)
        status = write_all(&handle, &window, &rooms, s->name);
    else
        status = fail(s->name, bogzhami_status_text(opened));
    bogzhami_close(&handle);
    free(rooms.texts);
    free(window.bytes);
    return status;
}

static int list_file(struct settings *s) {
    if (!strcmp(s->name, "-")) {
        s->name = "standard input";
        return list(STDIN_FILENO, s);
    }
    int file = open(s->name, O_RDONLY);
    if (file < 0)
        return fail(s->name, strerror(errno));
    int status = list(file, s);
    close(file);
    return status;
}

/* The words of the command. */

static const char options_help[] =
    "Lists the tokens of a YAML file, each as a line of JSON. Without FILE, or if FILE is -, it reads\n"
    "standard input.\n\n"
    "  -e, --encoding ENC     any, utf8, utf16le or utf16be; any without it\n"
    "  -l, --key-limit LIMIT  the key limit, 1 to 65536 bytes; 1024 without it\n"
    "  -h, --help             print this\n"
    "      --version          print the version\n\n"
    "The exit status is 0; 1 when there is a fault, which is the last line; 2 when the words are\n"
    "wrong; 3 when reading or writing fails, or memory is refused.\n";

static void print_usage(FILE *to) { fprintf(to, "usage: %s [-e ENC] [-l LIMIT] [FILE]\n", program); }

static int print_help(void) {
    print_usage(stdout);
    printf("\n%s", options_help);
    return flush();
}

static int print_version(void) {
    printf("%s (Bogzhami) %s\n", program, bogzhami_version());
    return flush();
}

/* Says what is wrong with a word, if getopt_long has not said it, and returns the exit status for that. */
static int refuse_word(const char *what, const char *word) {
    if (word)
        fprintf(stderr, "%s: %s '%s'\n", program, what, word);
    print_usage(stderr);
    return 2;
}

/* Finds the number of an encoding's word; false if it is none. */
static bool find_encoding(const char *word, uint32_t *encoding) {
    static const char *const words[] = {"any", "utf8", "utf16le", "utf16be"};
    for (*encoding = 0; *encoding < 4; ++*encoding)
        if (!strcmp(word, words[*encoding]))
            return true;
    return false;
}

/* Reads a key limit; false if it is none. */
static bool read_limit(const char *word, uint32_t *limit) {
    char *end;
    unsigned long number = strtoul(word, &end, 10);
    *limit = (uint32_t)number;
    return *word >= '0' && *word <= '9' && !*end && number >= 1 && number <= MOST_KEY_LIMIT;
}

/* Reads the options. Returns the exit status if nothing is left to be done, and otherwise -1. */
static int read_options(int argc, char **argv, struct settings *s) {
    enum { VERSION = 256 };
    static const struct option options[] = {{"encoding", required_argument, NULL, 'e'},
                                            {"key-limit", required_argument, NULL, 'l'},
                                            {"help", no_argument, NULL, 'h'},
                                            {"version", no_argument, NULL, VERSION},
                                            {0}};
    for (int option; (option = getopt_long(argc, argv, "e:l:h", options, NULL)) != -1;) {
        switch (option) {
        case 'e':
            if (!find_encoding(optarg, &s->encoding))
                return refuse_word("there is no encoding", optarg);
            break;
        case 'l':
            if (!read_limit(optarg, &s->key_limit))
                return refuse_word("there is no key limit", optarg);
            break;
        case 'h':
            return print_help();
        case VERSION:
            return print_version();
        default: /* getopt_long has said what is wrong */
            return refuse_word("", NULL);
        }
    }
    return -1;
}

int main(int argc, char **argv) {
    struct settings settings = {BOGZHAMI_ANY_ENCODING, 1024, "-"};
    if (argc > 0) {
        char *slash = strrchr(argv[0], '/');
        argv[0] = slash ? slash + 1 : argv[0]; /* getopt_long names it */
        program = argv[0];
    }
    int status = read_options(argc, argv, &settings);
    if (status >= 0)
        return status;
    if (argc - optind > 1)
        return refuse_word("there is no use for", argv[optind + 1]);
    if (optind < argc)
        settings.name = argv[optind];
    return list_file(&settings);
}
