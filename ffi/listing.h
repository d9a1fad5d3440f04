/* What the examples list.c and pieces.c share: the lines of tokens and of a fault, the words of the command, and what is said if
 * something fails. */
#ifndef LISTING_H
#define LISTING_H

#include "bogzhami.h"

#include <errno.h>
#include <getopt.h>
#include <inttypes.h>
#include <stdio.h>
#include <stdlib.h>
#include <string.h>

static const char *program = "bogzhami"; /* what it was called by */

/* Says that something failed, and why; returns the exit status for that. */
static int fail(const char *what, const char *why) {
    fprintf(stderr, "%s: %s%s\n", program, what, why);
    return 3;
}

/* Sees that all is written, and returns the exit status that this asks for. A pipe that no one reads any more is not told. */
static int flush(void) {
    if (!fflush(stdout) && !ferror(stdout))
        return 0;
    return errno == EPIPE ? 3 : fail("standard output: ", strerror(errno));
}

static void list_mark(struct bogzhami_mark m) {
    printf(" %" PRIu64 ":%" PRIu64 ":%" PRIu64, m.index, m.line, m.column);
}

static void list_text(const uint8_t *text, uint64_t len) {
    printf(len ? " " : " -");
    for (uint64_t i = 0; i < len; i++)
        printf("%02x", text[i]);
}

/* Prints the line of a token. */
static void list_token(const struct bogzhami_token *t, const uint8_t *texts) {
    const uint8_t *first = texts + t->text_at, *second = first + t->first_len;
    printf("%s", bogzhami_token_name(t->token_type));
    list_mark(t->start_mark);
    list_mark(t->end_mark);
    switch (t->token_type) {
    case BOGZHAMI_STREAM_START_TOKEN:
        printf(" %s", bogzhami_encoding_name(t->detail));
        break;
    case BOGZHAMI_VERSION_DIRECTIVE_TOKEN:
        printf(" %" PRId32 " %" PRId32, t->major, t->minor);
        break;
    case BOGZHAMI_TAG_DIRECTIVE_TOKEN:
    case BOGZHAMI_TAG_TOKEN:
        list_text(first, t->first_len);
        list_text(second, t->second_len);
        break;
    case BOGZHAMI_ALIAS_TOKEN:
    case BOGZHAMI_ANCHOR_TOKEN:
        list_text(first, t->first_len);
        break;
    case BOGZHAMI_SCALAR_TOKEN:
        printf(" %s", bogzhami_style_name(t->detail));
        list_text(first, t->first_len);
        break;
    }
    printf("\n");
}

/* Prints the line of a fault. */
static void list_fault(const struct bogzhami_answer *a, const uint8_t *texts) {
    const char *problem = (const char *)texts + a->text_len, *context = problem + a->problem_len;
    int problem_len = (int)a->problem_len, context_len = (int)a->context_len;
    switch (a->error) {
    case BOGZHAMI_READER_ERROR:
        printf("FAULT reader %" PRIu64 " %" PRId32 " %.*s\n", a->problem_offset, a->problem_value, problem_len, problem);
        break;
    case BOGZHAMI_SCANNER_ERROR:
        printf("FAULT scanner");
        list_mark(a->context_mark);
        list_mark(a->problem_mark);
        printf(" %.*s; %.*s\n", context_len ? context_len : 1, context_len ? context : "-", problem_len, problem);
        break;
    default:
        printf("FAULT memory\n");
    }
}

/* Prints the lines of the tokens of a call. */
static void list_batch(const struct bogzhami_token *tokens, uint64_t count, const uint8_t *texts) {
    for (uint64_t i = 0; i < count; i++)
        list_token(&tokens[i], texts);
}

/* What the words of the command say. */
struct words {
    uint32_t encoding, key_limit;
};

/* Finds the number of an encoding's word; false if it is none. */
static bool find_encoding(const char *word, uint32_t *encoding) {
    static const char *const names[] = {"any", "utf8", "utf16le", "utf16be"};
    for (*encoding = 0; *encoding < sizeof names / sizeof *names; ++*encoding)
        if (!strcmp(word, names[*encoding]))
            return true;
    return false;
}

/* Reads a key limit; false if it is none. */
static bool read_limit(const char *word, uint32_t *limit) {
    char *end;
    unsigned long number = strtoul(word, &end, 10);
    *limit = (uint32_t)number;
    return *word >= '0' && *word <= '9' && !*end && number >= 1 && number <= 65536;
}

static int refuse_words(const char *what, const char *word) {
    if (word)
        fprintf(stderr, "%s: %s '%s'\n", program, what, word);
    fprintf(stderr, "usage: %s [any|utf8|utf16le|utf16be [LIMIT]] < FILE    (LIMIT is 1 to 65536)\n", program);
    return 2;
}

static int print_help(const char *purpose) {
    printf("usage: %s [ENC [LIMIT]] < FILE\n\n%s\n\n", program, purpose);
    printf("  ENC            any, utf8, utf16le or utf16be; any without it\n");
    printf("  LIMIT          the key limit, 1 to 65536; 1024 without it\n");
    printf("  -h, --help     print this\n      --version  print the version\n\n");
    printf("The exit status is 0; 1 if there is a fault; 2 for wrong words; 3 if reading, writing or a request for memory fails.\n");
    return flush();
}

static int print_version(void) {
    printf("%s (Bogzhami) %s\n", program, bogzhami_version());
    return flush();
}

/* Takes the option that comes first. Returns the exit status, or -1 if there is none. */
static int take_option(int argc, char **argv, const char *purpose) {
    enum { VERSION = 256 };
    static const struct option options[] = {{"help", no_argument, NULL, 'h'}, {"version", no_argument, NULL, VERSION}, {0}};
    switch (getopt_long(argc, argv, "h", options, NULL)) {
    case -1:
        return -1;
    case 'h':
        return print_help(purpose);
    case VERSION:
        return print_version();
    default: /* getopt_long has said what is wrong */
        return refuse_words("", NULL);
    }
}

/* Reads the words ENC and LIMIT. Returns the exit status if they are wrong, or -1. */
static int take_settings(char **given, int count, struct words *words) {
    if (count > 0 && !find_encoding(given[0], &words->encoding))
        return refuse_words("there is no encoding", given[0]);
    if (count > 1 && !read_limit(given[1], &words->key_limit))
        return refuse_words("there is no key limit", given[1]);
    return count > 2 ? refuse_words("there is no use for", given[2]) : -1;
}

/* Reads the command of a program that does what `purpose` says. Returns the exit status if nothing is left to do, or -1. */
static int take_words(int argc, char **argv, const char *purpose, struct words *words) {
    if (argc > 0) {
        char *slash = strrchr(argv[0], '/');
        argv[0] = slash ? slash + 1 : argv[0]; /* getopt_long names it */
        program = argv[0];
    }
    *words = (struct words){BOGZHAMI_ANY_ENCODING, 1024};
    int status = take_option(argc, argv, purpose);
    return status < 0 ? take_settings(argv + optind, argc - optind, words) : status;
}

#endif
