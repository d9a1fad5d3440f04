/* Measures how a file is scanned, and how its events are taken. The exit status is 1 if something fails.
 *
 * c times FILE LIBYAML OURS: does so nine times, in turn with each library, and says how long the best and the median
 * took, in nanoseconds. The last two are shared libraries that have libyaml's functions. A line for each measure, with
 * tabs in it: what, by which library, how many tokens or events, best, median. In pieces, each read gives so many bytes:
 * to bogzhami_next_piece by a copy that grows, to libyaml by its read handler. Compiled with WITH_LIBFYAML, and with
 * libfyaml, it measures that too. Memory is taken and given back within each time.
 *
 * c texts TIMES LIBYAML FILE..: nine times, in turn with libyaml, opens, scans and closes each file so many times, one
 * after the other, and says how long one time took for all files. The rooms stay for all of them.
 *
 * c memory FILE LIBRARY WHAT: does so once with one library that has libyaml's functions, and prints how many kilobytes
 * that takes beside the input. The input is in memory before, and is given as a string. WHAT is tokens or events. */
#define _POSIX_C_SOURCE 200809L
#include "bogzhami.h"

#include <dlfcn.h>
#include <stdio.h>
#include <stdlib.h>
#include <string.h>
#include <time.h>
#include <yaml.h>
#ifdef WITH_LIBFYAML
#include <libfyaml.h>
#endif

#define RUNS 9
#define TEXT_ROOM 65536

static const unsigned char *bytes;
static size_t size;

/* The functions of one of the libraries that have libyaml's names. */
struct library {
    int (*initialize)(yaml_parser_t *);
    void (*set_input)(yaml_parser_t *, const unsigned char *, size_t);
    void (*set_handler)(yaml_parser_t *, yaml_read_handler_t *, void *);
    int (*scan)(yaml_parser_t *, yaml_token_t *);
    void (*delete_token)(yaml_token_t *);
    int (*parse)(yaml_parser_t *, yaml_event_t *);
    void (*delete_event)(yaml_event_t *);
    void (*delete_parser)(yaml_parser_t *);
};
static struct library libyaml, ours;

/* Puts the address of a function into a field, and returns whether there is such a function. */
static int find(void *library, const char *name, void *field) {
    void *found = dlsym(library, name);
    memcpy(field, &found, sizeof found);
    return found != NULL;
}

static int open_library(struct library *made, const char *path) {
    void *library = dlopen(path, RTLD_NOW | RTLD_LOCAL);
    return library && find(library, "yaml_parser_initialize", &made->initialize) &&
           find(library, "yaml_parser_set_input_string", &made->set_input) &&
           find(library, "yaml_parser_set_input", &made->set_handler) &&
           find(library, "yaml_parser_scan", &made->scan) && find(library, "yaml_token_delete", &made->delete_token) &&
           find(library, "yaml_parser_parse", &made->parse) &&
           find(library, "yaml_event_delete", &made->delete_event) &&
           find(library, "yaml_parser_delete", &made->delete_parser);
}

/* How much of the input was read, and how many bytes a read gives. */
struct reading {
    size_t at, piece;
};

/* Reads a piece for libyaml, which has room for so many bytes. */
static int read_piece(void *data, unsigned char *room, size_t most, size_t *count) {
    struct reading *reading = data;
    size_t left = size - reading->at;
    *count = left < reading->piece ? left : reading->piece;
    if (*count > most)
        *count = most;
    memcpy(room, bytes + reading->at, *count);
    reading->at += *count;
    return 1;
}

/* Each of these returns how many tokens or events there are, or 0 if the input has a fault. Without a reading the parser
 * has the input at once. */
static long scan_from(const struct library *library, struct reading *reading) {
    yaml_parser_t parser;
    yaml_token_t token;
    long count = 0;
    int type = YAML_NO_TOKEN;
    if (!library->initialize(&parser))
        return 0;
    if (reading)
        library->set_handler(&parser, read_piece, reading);
    else
        library->set_input(&parser, bytes, size);
    while (type != YAML_STREAM_END_TOKEN && library->scan(&parser, &token)) {
        type = token.type;
        library->delete_token(&token);
        count++;
    }
    library->delete_parser(&parser);
    return type == YAML_STREAM_END_TOKEN ? count : 0;
}

static long scan_by(const struct library *library) { return scan_from(library, NULL); }

static long scan_in_pieces(const struct library *library, size_t piece) {
    struct reading reading = {0, piece};
    return scan_from(library, &reading);
}

static long parse_by(const struct library *library) {
    yaml_parser_t parser;
    yaml_event_t event;
    long count = 0;
    int type = YAML_NO_EVENT;
    if (!library->initialize(&parser))
        return 0;
    library->set_input(&parser, bytes, size);
    while (type != YAML_STREAM_END_EVENT && library->parse(&parser, &event)) {
        type = event.type;
        library->delete_event(&event);
        count++;
    }
    library->delete_parser(&parser);
    return type == YAML_STREAM_END_EVENT ? count : 0;
}

/* The rooms for tokens and for texts. */
struct rooms {
    struct bogzhami_token *tokens;
    uint8_t *texts;
    size_t text_room;
};

/* Makes the room for texts as long as that in place of what it was. */
static int make_text_room(struct rooms *rooms, uint64_t wanted) {
    free(rooms->texts);
    rooms->text_room = wanted;
    rooms->texts = calloc(wanted, 1);
    return rooms->texts != NULL;
}

static int make_rooms(struct rooms *rooms, size_t most) {
    rooms->texts = NULL;
    rooms->tokens = calloc(most, sizeof *rooms->tokens);
    return make_text_room(rooms, TEXT_ROOM) && rooms->tokens;
}

static void free_rooms(struct rooms *rooms) {
    free(rooms->tokens);
    free(rooms->texts);
}

/* Scans by calls that give so many tokens at most. The rooms are the same in all calls, unless a text is too long. */
static long next_in(struct rooms *rooms, size_t most) {
    struct bogzhami_handle handle = BOGZHAMI_CLOSED;
    struct bogzhami_answer answer = {0};
    uint32_t status = bogzhami_open(&handle, bytes, size, BOGZHAMI_ANY_ENCODING, 1024);
    long count = 0;
    while (status == BOGZHAMI_DONE) {
        status = bogzhami_next(&handle, bytes, size, rooms->tokens, most, rooms->texts, rooms->text_room, &answer);
        count += (long)answer.token_count;
        if (status == BOGZHAMI_NO_ROOM && make_text_room(rooms, answer.text_len))
            status = BOGZHAMI_DONE;
    }
    bogzhami_close(&handle);
    return status == BOGZHAMI_OVER ? count : 0;
}

static long next_by(size_t most) {
    struct rooms rooms;
    long count = make_rooms(&rooms, most) ? next_in(&rooms, most) : 0;
    free_rooms(&rooms);
    return count;
}

/* What came of the input, as a caller has it that reads: a copy that grows. */
struct window {
    unsigned char *bytes;
    size_t room;
    struct reading reading;
};

/* Reads a piece behind what came. Returns whether there is memory for it. */
static int read_on(struct window *window) {
    size_t left = size - window->reading.at, count;
    size_t more = left < window->reading.piece ? left : window->reading.piece;
    if (window->room - window->reading.at < more) {
        size_t room = 2 * window->room + more;
        unsigned char *grown = realloc(window->bytes, room);
        if (!grown)
            return 0;
        window->bytes = grown;
        window->room = room;
    }
    return read_piece(&window->reading, window->bytes + window->reading.at, more, &count);
}

/* Reads pieces until more than so many bytes came, or all. Returns whether there is memory for them. */
static int read_past(struct window *window, uint64_t wanted) {
    do {
        if (!read_on(window))
            return 0;
    } while (window->reading.at < size && window->reading.at <= wanted);
    return 1;
}

/* Scans what comes in pieces, by a call for each. Once 1 MB waits behind the last token, it has to grow by a quarter. */
static long pieces_in(struct rooms *rooms, struct window *window) {
    struct bogzhami_handle handle = BOGZHAMI_CLOSED;
    struct bogzhami_answer answer = {0};
    uint64_t needed = 0, given = 0, wanted = 0;
    uint32_t status = bogzhami_open_pieces(&handle, BOGZHAMI_ANY_ENCODING, 1024);
    long count = 0;
    while (status == BOGZHAMI_DONE || status == BOGZHAMI_MORE) {
        if (status == BOGZHAMI_MORE && !read_past(window, wanted))
            break;
        status = bogzhami_next_piece(&handle, 0, window->bytes, window->reading.at, window->reading.at == size,
                                     rooms->tokens, 256, rooms->texts, rooms->text_room, &answer, &needed);
        count += (long)answer.token_count;
        if (answer.token_count)
            given = rooms->tokens[answer.token_count - 1].end_mark.index;
        uint64_t waiting = window->reading.at - given;
        wanted = window->reading.at + (waiting < 1 << 20 ? 0 : waiting / 4);
        if (status == BOGZHAMI_NO_ROOM && make_text_room(rooms, answer.text_len))
            status = BOGZHAMI_DONE;
    }
    bogzhami_close(&handle);
    return status == BOGZHAMI_OVER ? count : 0;
}

static long pieces_by(size_t piece) {
    struct rooms rooms;
    struct window window = {NULL, 0, {0, piece}};
    long count = make_rooms(&rooms, 256) && read_on(&window) ? pieces_in(&rooms, &window) : 0;
    free_rooms(&rooms);
    free(window.bytes);
    return count;
}

static struct rooms kept; /* that stay for all texts */

static long kept_256(void) { return next_in(&kept, 256); }
static long kept_16(void) { return next_in(&kept, 16); }
static long kept_1(void) { return next_in(&kept, 1); }

static struct bogzhami_answer counts; /* how large the rooms for all have to be, by a scan that is not timed */

static long scan_all(void) {
    struct bogzhami_token *tokens = calloc(counts.token_count + 1, sizeof *tokens);
    uint8_t *texts = calloc(counts.text_len + 1, 1);
    struct bogzhami_answer answer = {0};
    uint32_t status = BOGZHAMI_NO_MEMORY;
    if (tokens && texts)
        status = bogzhami_scan_all(bytes, size, BOGZHAMI_ANY_ENCODING, 1024, tokens, counts.token_count, texts,
                                   counts.text_len, &answer);
    free(tokens);
    free(texts);
    return status == BOGZHAMI_DONE ? (long)answer.token_count : 0;
}

static int count_all(void) {
    struct bogzhami_token token = {0};
    uint8_t text = 0;
    return bogzhami_scan_all(bytes, size, BOGZHAMI_ANY_ENCODING, 1024, &token, 0, &text, 0, &counts) == BOGZHAMI_DONE;
}

static long next_256(void) { return next_by(256); }
static long next_64(void) { return next_by(64); }
static long next_16(void) { return next_by(16); }
static long next_1(void) { return next_by(1); }
static long scan_libyaml(void) { return scan_by(&libyaml); }
static long scan_ours(void) { return scan_by(&ours); }
static long pieces_of_4096(void) { return pieces_by(4096); }
static long pieces_of_65536(void) { return pieces_by(65536); }
static long ours_of_4096(void) { return scan_in_pieces(&ours, 4096); }
static long ours_of_65536(void) { return scan_in_pieces(&ours, 65536); }
static long libyaml_of_4096(void) { return scan_in_pieces(&libyaml, 4096); }
static long libyaml_of_65536(void) { return scan_in_pieces(&libyaml, 65536); }
static long parse_libyaml(void) { return parse_by(&libyaml); }
static long parse_ours(void) { return parse_by(&ours); }

#ifdef WITH_LIBFYAML
static long scan_libfyaml(void) {
    struct fy_parse_cfg setting = {.flags = FYPCF_QUIET};
    struct fy_parser *parser = fy_parser_create(&setting);
    long count = 0;
    if (!parser)
        return 0;
    if (fy_parser_set_string(parser, (const char *)bytes, size) == 0)
        for (struct fy_token *token; (token = fy_scan(parser)); fy_scan_token_free(parser, token))
            count++;
    fy_parser_destroy(parser);
    return count;
}
#endif

struct measure {
    const char *what, *by;
    long (*take)(void);
    long count;
    double times[RUNS];
};
static struct measure measures[] = {
    {.what = "tokens", .by = "bogzhami_next, 256 a call", .take = next_256},
    {.what = "tokens", .by = "bogzhami_next, 64 a call", .take = next_64},
    {.what = "tokens", .by = "bogzhami_next, 16 a call", .take = next_16},
    {.what = "tokens", .by = "bogzhami_next, 1 a call", .take = next_1},
    {.what = "tokens", .by = "bogzhami_scan_all", .take = scan_all},
    {.what = "tokens", .by = "uses/libyaml", .take = scan_ours},
    {.what = "tokens", .by = "libyaml", .take = scan_libyaml},
#ifdef WITH_LIBFYAML
    {.what = "tokens", .by = "libfyaml", .take = scan_libfyaml},
#endif
    {.what = "tokens, pieces of 4,096", .by = "bogzhami_next_piece", .take = pieces_of_4096},
    {.what = "tokens, pieces of 4,096", .by = "uses/libyaml", .take = ours_of_4096},
    {.what = "tokens, pieces of 4,096", .by = "libyaml", .take = libyaml_of_4096},
    {.what = "tokens, pieces of 65,536", .by = "bogzhami_next_piece", .take = pieces_of_65536},
    {.what = "tokens, pieces of 65,536", .by = "uses/libyaml", .take = ours_of_65536},
    {.what = "tokens, pieces of 65,536", .by = "libyaml", .take = libyaml_of_65536},
    {.what = "events", .by = "uses/libyaml", .take = parse_ours},
    {.what = "events", .by = "libyaml", .take = parse_libyaml},
};
#define MEASURES (sizeof measures / sizeof *measures)

static struct measure of_texts[] = {
    {.what = "tokens", .by = "bogzhami_next, 256 a call", .take = kept_256},
    {.what = "tokens", .by = "bogzhami_next, 16 a call", .take = kept_16},
    {.what = "tokens", .by = "bogzhami_next, 1 a call", .take = kept_1},
    {.what = "tokens", .by = "libyaml", .take = scan_libyaml},
};
#define OF_TEXTS (sizeof of_texts / sizeof *of_texts)

static double now(void) {
    struct timespec time;
    clock_gettime(CLOCK_MONOTONIC, &time);
    return (double)time.tv_sec * 1e9 + (double)time.tv_nsec;
}

static int compare(const void *a, const void *b) {
    double x = *(const double *)a, y = *(const double *)b;
    return (x > y) - (x < y);
}

static int read_file(const char *path) {
    FILE *file = fopen(path, "rb");
    if (!file)
        return 0;
    fseek(file, 0, SEEK_END);
    size = (size_t)ftell(file);
    rewind(file);
    unsigned char *room = malloc(size + 1);
    int is_read = room && fread(room, 1, size, file) == size;
    bytes = room;
    fclose(file);
    return is_read;
}

static int measure_once(int run) {
    for (size_t i = 0; i < MEASURES; i++) {
        double start = now();
        measures[i].count = measures[i].take();
        measures[i].times[run] = now() - start;
        if (measures[i].count == 0)
            return 0;
    }
    return 1;
}

static void print_times(struct measure *all, size_t count) {
    for (struct measure *one = all; one < all + count; one++) {
        qsort(one->times, RUNS, sizeof *one->times, compare);
        printf("%s\t%s\t%ld\t%.0f\t%.0f\n", one->what, one->by, one->count, one->times[0], one->times[RUNS / 2]);
    }
}

static int measure_times(const char *libyaml_path, const char *our_path) {
    if (!open_library(&libyaml, libyaml_path) || !open_library(&ours, our_path) || !count_all())
        return 0;
    for (int run = 0; run < RUNS; run++)
        if (!measure_once(run))
            return 0;
    print_times(measures, MEASURES);
    return 1;
}

/* A text that stays in memory. */
struct text {
    const unsigned char *bytes;
    size_t size;
};

/* Takes all tokens of all texts, so many times. Returns how many the texts have, or 0 if one has a fault. */
static long take_texts(long (*take)(void), const struct text *texts, long count, long times) {
    long all = 0;
    for (long i = 0; i < count * times; i++) {
        bytes = texts[i % count].bytes;
        size = texts[i % count].size;
        long taken = take();
        if (taken == 0)
            return 0;
        all += taken;
    }
    return all / times;
}

static int measure_texts_once(const struct text *texts, long count, long times, int run) {
    for (struct measure *one = of_texts; one < of_texts + OF_TEXTS; one++) {
        double start = now();
        one->count = take_texts(one->take, texts, count, times);
        one->times[run] = (now() - start) / (double)times;
        if (one->count == 0)
            return 0;
    }
    return 1;
}

static int measure_texts(long times, const char *libyaml_path, char **paths, long count) {
    struct text *texts = calloc((size_t)count, sizeof *texts);
    if (!texts || times < 1 || !open_library(&libyaml, libyaml_path) || !make_rooms(&kept, 256))
        return 0;
    for (long i = 0; i < count; i++) {
        if (!read_file(paths[i]))
            return 0;
        texts[i] = (struct text){bytes, size};
    }
    for (int run = 0; run < RUNS; run++)
        if (!measure_texts_once(texts, count, times, run))
            return 0;
    print_times(of_texts, OF_TEXTS);
    return 1;
}

/* The most kilobytes that this program had in memory at a time, or -1. getrusage would count those of the program that
 * started it. */
static long most_memory(void) {
    char line[256];
    long most = -1;
    FILE *lines = fopen("/proc/self/status", "r");
    while (lines && most < 0 && fgets(line, sizeof line, lines))
        if (sscanf(line, "VmHWM: %ld", &most) != 1)
            most = -1;
    if (lines)
        fclose(lines);
    return most;
}

static int measure_memory(const char *path, const char *what) {
    struct library library;
    if (!open_library(&library, path))
        return 0;
    long before = most_memory();
    long count = strcmp(what, "events") ? scan_by(&library) : parse_by(&library);
    long after = most_memory();
    printf("%ld\n", after - before);
    return count > 0 && before > 0 && after > 0;
}

int main(int argc, char **argv) {
    if (argc > 4 && !strcmp(argv[1], "texts"))
        return !measure_texts(atol(argv[2]), argv[3], argv + 4, argc - 4);
    if (argc != 5 || !read_file(argv[2]))
        return 1;
    if (!strcmp(argv[1], "times"))
        return !measure_times(argv[3], argv[4]);
    return strcmp(argv[1], "memory") || !measure_memory(argv[3], argv[4]);
}
