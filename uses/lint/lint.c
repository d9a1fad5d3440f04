/* lint [-w WIDTH] FILE ..: looks for likely mistakes in YAML files, and prints each as file:line:column: message. The file - is
 * standard input. A folder stands for the files below it whose names end with .yaml or .yml. The exit status is 0; 1 when there
 * is a message; 2 when the words are wrong; 3 when a file or a folder can not be read, the output can not be written or memory
 * is refused.
 *
 * A file is scanned while it is read, in batches, into rooms that are used again. Of the tokens only the keys, the anchors and
 * aliases, and the lines that hold a key are kept, up to the next document: then its messages are printed. Each list is sorted,
 * so that what belongs together is side by side. The time is that of sorting, for every input. */
#define _POSIX_C_SOURCE 200809L /* for lstat */

#include "bogzhami.h"

#include <dirent.h>
#include <errno.h>
#include <fcntl.h>
#include <getopt.h>
#include <inttypes.h>
#include <stdbool.h>
#include <stdio.h>
#include <stdlib.h>
#include <string.h>
#include <sys/stat.h>
#include <unistd.h>

#define DEFAULT_WIDTH 80
#define SHOWN_NAME 60 /* bytes of a name that a message shows */

enum { BATCH = 256, FIRST_TEXTS = 1 << 14, FIRST_ROOM = 1 << 16, BLOCK = 1 << 16 };
enum { SHORT = 1 << 20, TIMES = 256, MOST_CREDIT = 1 << 26 }; /* of what is scanned again */

/* The exit status when reading or writing fails, or memory is refused. */
enum { LOST = 3 };

enum kind { FAULT, DUPLICATE_KEY, TAB, TRAILING_BLANK, UNUSED_ANCHOR, MISSING_ANCHOR, LONG_LINE };

/* A message. The line and the column count from 0, as the scanner's marks do. */
struct message {
    uint64_t line, column;
    enum kind kind;
    const uint8_t *name; /* of the key or the anchor */
    uint64_t name_len;
    uint64_t number; /* DUPLICATE_KEY: the line of the first; LONG_LINE: characters in it */
};

/* A key, an anchor or an alias, with the number of its mapping or of its document, and its place. */
struct entry {
    uint64_t group;
    const uint8_t *name;
    uint64_t name_len;
    uint64_t line, column;
    bool is_alias;
};

/* A list that grows. */
struct entries {
    struct entry *items;
    size_t count, room;
};

/* Memory for names, which never moves. The blocks are chained, the last one first. */
struct block {
    struct block *before;
    size_t used, room;
    uint8_t bytes[];
};

/* A collection that is open: the type of the token that started it, and a number of its own. */
struct level {
    uint32_t start;
    uint64_t number;
};

/* All that is known of one file. What is allocated is freed by free_file. */
struct file {
    const char *name;
    uint64_t width;
    int from;         /* what it is read from */
    uint8_t *input;   /* all bytes that came; they move when more come */
    size_t input_len, input_room;
    size_t given;     /* how many of them are in front of the end of the last token */
    size_t credit;    /* how many may be scanned again */
    bool is_last;     /* whether no more will come */
    const char *lost; /* why no more could be read, or NULL */
    bool is_utf16;
    struct bogzhami_handle scanner;
    struct bogzhami_token tokens[BATCH]; /* the rooms for a batch */
    uint8_t *texts;
    size_t texts_len;
    struct bogzhami_answer answer; /* of the last call, so at the end it has the fault */
    uint8_t *decoded;              /* the text of an input in UTF-16, otherwise NULL */
    const uint8_t *text;           /* in UTF-8, without the byte order mark, up to what is no text */
    size_t text_len;
    size_t line_at;       /* where the first line begins in it that was not looked at */
    uint64_t line;        /* the number of that line */
    struct level *levels; /* those that are open, the innermost last */
    size_t depth, level_room;
    uint64_t level_count; /* all that were ever open */
    bool key_next;        /* whether a scalar that comes now is a key */
    uint64_t document;    /* how many document markers came before */
    struct entries keys;
    struct entries names; /* anchors and aliases */
    struct block *block;  /* the names of both */
    uint64_t *key_lines;  /* ascending */
    size_t key_line_count, key_line_room;
    struct message *messages;
    size_t message_count, message_room;
    bool has_told;      /* whether there was a message */
    bool out_of_memory; /* something found no room */
};

static void free_blocks(struct block *block) {
    while (block) {
        struct block *before = block->before;
        free(block);
        block = before;
    }
}

static void free_file(struct file *f) {
    bogzhami_close(&f->scanner);
    free(f->input);
    free(f->texts);
    free(f->decoded);
    free(f->levels);
    free(f->keys.items);
    free(f->names.items);
    free_blocks(f->block);
    free(f->key_lines);
    free(f->messages);
}

/* Makes room for one more item in a list, and returns where the list is now; NULL if memory is refused. */
static void *grown(void *items, size_t count, size_t *room, size_t size) {
    if (count < *room)
        return items;
    size_t wanted = *room ? *room * 2 : 16;
    void *more = realloc(items, wanted * size);
    if (more)
        *room = wanted;
    return more;
}

/* The same for a list of a file, which keeps whether memory is refused. */
static void *with_room(struct file *f, void *items, size_t count, size_t *room, size_t size) {
    void *more = grown(items, count, room, size);
    f->out_of_memory = f->out_of_memory || !more;
    return more;
}

/* A copy of a name in memory that stays; NULL if memory is refused. */
static const uint8_t *kept_name(struct file *f, const uint8_t *name, size_t len) {
    if (!f->block || f->block->room - f->block->used < len) {
        size_t room = len > BLOCK ? len : BLOCK;
        struct block *block = malloc(sizeof *block + room);
        f->out_of_memory = f->out_of_memory || !block;
        if (!block)
            return NULL;
        *block = (struct block){f->block, 0, room};
        f->block = block;
    }
    uint8_t *copy = f->block->bytes + f->block->used;
    memcpy(copy, name, len);
    f->block->used += len;
    return copy;
}

/* Reading. A function that returns bool returns false when memory is refused. */

/* Sees that there is room for more of the input. It grows by its size, so that moving it takes time in proportion to the input. */
static bool make_room(struct file *f) {
    if (f->input_len < f->input_room)
        return true;
    size_t room = f->input_room ? 2 * f->input_room : FIRST_ROOM;
    uint8_t *input = realloc(f->input, room);
    if (!input)
        return false;
    f->input = input;
    f->input_room = room;
    return true;
}

/* Counts bytes that came. */
static void add_input(struct file *f, size_t count) {
    f->input_len += count;
    f->credit += TIMES * count;
    if (f->credit > MOST_CREDIT)
        f->credit = MOST_CREDIT;
}

/* Reads what is there, and waits if nothing is. */
static void read_some(struct file *f) {
    ssize_t count;
    if (!make_room(f)) {
        f->lost = "out of memory";
        return;
    }
    do
        count = read(f->from, f->input + f->input_len, f->input_room - f->input_len);
    while (count < 0 && errno == EINTR);
    f->is_last = count == 0;
    if (count < 0)
        f->lost = strerror(errno);
    else
        add_input(f, (size_t)count);
}

/* Whether scanning is worth its time, since what follows the last token is scanned again. If that is long, it has to have grown
 * by a quarter since there were `before` bytes of it. If it is short, each byte that came allows TIMES bytes to be scanned again,
 * so that a long lexeme which comes byte after byte is not scanned again for each of them. */
static bool is_due(const struct file *f, size_t before) {
    size_t again = f->input_len - f->given;
    return again < SHORT ? again <= f->credit : again - before >= before / 4;
}

/* Reads until scanning is worth its time, or until reading ends. */
static void read_on(struct file *f, bool wants_all) {
    size_t before = f->input_len - f->given;
    f->credit -= before < f->credit ? before : f->credit;
    do
        read_some(f);
    while (!f->is_last && !f->lost && (wants_all || !is_due(f, before)));
}

/* Writes a character in UTF-8, and returns how many bytes it has. */
static size_t put_character(uint8_t *to, uint32_t c) {
    size_t len = c < 0x80 ? 1 : c < 0x800 ? 2 : c < 0x10000 ? 3 : 4;
    static const uint8_t marks[] = {0, 0, 0xC0, 0xE0, 0xF0};
    for (size_t i = len - 1; i > 0; i--, c >>= 6)
        to[i] = (uint8_t)(0x80 | (c & 0x3F));
    to[0] = (uint8_t)(marks[len] | c);
    return len;
}

/* The unit of UTF-16 at a place, or 0 when there is none. */
static uint32_t unit_at(const uint8_t *from, size_t len, size_t at, bool big) {
    if (len - at < 2)
        return 0;
    return big ? (uint32_t)from[at] << 8 | from[at + 1] : (uint32_t)from[at + 1] << 8 | from[at];
}

/* Decodes UTF-16 up to its end or the first unit that is no character, and returns how many bytes of UTF-8 that is. */
static size_t decode(const uint8_t *from, size_t len, bool big, uint8_t *to) {
    size_t made = 0;
    for (size_t at = 0; len - at >= 2;) {
        uint32_t first = unit_at(from, len, at, big), second = unit_at(from, len, at + 2, big);
        bool pair = first >= 0xD800 && first < 0xDC00 && second >= 0xDC00 && second < 0xE000;
        if (first >= 0xD800 && first < 0xE000 && !pair)
            break;
        made += put_character(to + made, pair ? 0x10000 + ((first - 0xD800) << 10) + (second - 0xDC00) : first);
        at += pair ? 4 : 2;
    }
    return made;
}

/* The length of a text without the beginning of a character at its end. */
static size_t whole_characters(const uint8_t *text, size_t len) {
    size_t back = 1;
    while (back < 4 && back < len && (text[len - back] & 0xC0) == 0x80)
        back++;
    if (back > len)
        return len;
    uint8_t first = text[len - back];
    size_t wanted = first < 0xC0 ? 1 : first < 0xE0 ? 2 : first < 0xF0 ? 3 : 4;
    return wanted > back ? len - back : len;
}

/* Finds the text of what came, up to what the scanner's reader refused. UTF-16 is all there. */
static bool find_text(struct file *f) {
    bool refused = f->answer.error == BOGZHAMI_READER_ERROR;
    size_t len = refused ? (size_t)f->answer.problem_offset : f->input_len;
    bool big = f->input_len >= 2 && !memcmp(f->input, "\xFE\xFF", 2);
    if (big || (f->input_len >= 2 && !memcmp(f->input, "\xFF\xFE", 2))) {
        f->text = f->decoded = malloc(len / 2 * 3 + 1);
        f->text_len = f->decoded ? decode(f->input + 2, len - 2, big, f->decoded) : 0;
        return f->decoded != NULL;
    }
    size_t dropped = f->input_len >= 3 && !memcmp(f->input, "\xEF\xBB\xBF", 3) ? 3 : 0;
    f->text = f->input + dropped;
    f->text_len = len - dropped;
    if (refused)
        f->text_len = whole_characters(f->text, f->text_len);
    return true;
}

/* The walk over the tokens. */

static bool is_flow(uint32_t start) {
    return start == BOGZHAMI_FLOW_SEQUENCE_START_TOKEN || start == BOGZHAMI_FLOW_MAPPING_START_TOKEN;
}

/* Whether the innermost collection was started by a token of that type. */
static bool is_in(const struct file *f, uint32_t start) {
    return f->depth && f->levels[f->depth - 1].start == start;
}

static void add_key_line(struct file *f, uint64_t line) {
    if (f->key_line_count && f->key_lines[f->key_line_count - 1] == line)
        return;
    uint64_t *lines = with_room(f, f->key_lines, f->key_line_count, &f->key_line_room, sizeof *lines);
    if (!lines)
        return;
    f->key_lines = lines;
    f->key_lines[f->key_line_count++] = line;
}

static void add_entry(struct file *f, struct entries *to, uint64_t group, const struct bogzhami_token *t) {
    struct entry *items = with_room(f, to->items, to->count, &to->room, sizeof *items);
    if (!items)
        return;
    to->items = items;
    const uint8_t *name = kept_name(f, f->texts + t->text_at, (size_t)t->first_len);
    struct bogzhami_mark at = t->start_mark;
    bool is_alias = t->token_type == BOGZHAMI_ALIAS_TOKEN;
    if (name)
        items[to->count++] = (struct entry){group, name, t->first_len, at.line, at.column, is_alias};
}

static void open_level(struct file *f, uint32_t start) {
    struct level *levels = with_room(f, f->levels, f->depth, &f->level_room, sizeof *levels);
    if (!levels)
        return;
    f->levels = levels;
    f->levels[f->depth++] = (struct level){start, f->level_count++};
    f->key_next = start == BOGZHAMI_FLOW_MAPPING_START_TOKEN;
}

/* Closes the innermost collection, unless it is of the other style: what is closed was never opened, or a flow collection was
 * left open. */
static void close_level(struct file *f, bool flow) {
    if (f->depth && is_flow(f->levels[f->depth - 1].start) == flow)
        f->depth--;
}

static void take_key(struct file *f, const struct bogzhami_token *t) {
    add_entry(f, &f->keys, f->levels[f->depth - 1].number, t);
    add_key_line(f, t->start_mark.line);
}

static void take_name(struct file *f, const struct bogzhami_token *t) { add_entry(f, &f->names, f->document, t); }

/* What a token does to the collections that are open. */
static void take_structure(struct file *f, uint32_t type) {
    switch (type) {
    case BOGZHAMI_DOCUMENT_START_TOKEN:
    case BOGZHAMI_DOCUMENT_END_TOKEN:
        f->document++;
        f->depth = 0;
        break;
    case BOGZHAMI_BLOCK_SEQUENCE_START_TOKEN:
    case BOGZHAMI_BLOCK_MAPPING_START_TOKEN:
    case BOGZHAMI_FLOW_SEQUENCE_START_TOKEN:
    case BOGZHAMI_FLOW_MAPPING_START_TOKEN:
        open_level(f, type);
        break;
    case BOGZHAMI_BLOCK_END_TOKEN:
        close_level(f, false);
        break;
    case BOGZHAMI_FLOW_SEQUENCE_END_TOKEN:
    case BOGZHAMI_FLOW_MAPPING_END_TOKEN:
        close_level(f, true);
        break;
    }
}

static void take_token(struct file *f, const struct bogzhami_token *t) {
    bool is_key = f->key_next;
    f->key_next = false;
    take_structure(f, t->token_type);
    switch (t->token_type) {
    case BOGZHAMI_KEY_TOKEN:
        add_key_line(f, t->start_mark.line);
        f->key_next = is_in(f, BOGZHAMI_BLOCK_MAPPING_START_TOKEN) || is_in(f, BOGZHAMI_FLOW_MAPPING_START_TOKEN);
        break;
    case BOGZHAMI_FLOW_ENTRY_TOKEN: /* in { } a key may stand alone */
        f->key_next = is_in(f, BOGZHAMI_FLOW_MAPPING_START_TOKEN);
        break;
    case BOGZHAMI_ALIAS_TOKEN:
        take_name(f, t);
        break;
    case BOGZHAMI_ANCHOR_TOKEN:
        take_name(f, t);
        f->key_next = is_key;
        break;
    case BOGZHAMI_TAG_TOKEN:
        f->key_next = is_key;
        break;
    case BOGZHAMI_SCALAR_TOKEN:
        if (is_key)
            take_key(f, t);
        break;
    }
}

/* Messages. */

static void add(struct file *f, struct message m) {
    struct message *messages = with_room(f, f->messages, f->message_count, &f->message_room, sizeof *messages);
    if (!messages)
        return;
    f->messages = messages;
    f->messages[f->message_count++] = m;
}

static void tell_entry(struct file *f, const struct entry *e, enum kind kind, uint64_t number) {
    add(f, (struct message){e->line, e->column, kind, e->name, e->name_len, number});
}

static bool is_same(const struct entry *a, const struct entry *b) {
    return a->group == b->group && a->name_len == b->name_len && !memcmp(a->name, b->name, a->name_len);
}

/* By group, then by name, then by place. */
static int compare_entries(const void *left, const void *right) {
    const struct entry *a = left, *b = right;
    if (a->group != b->group)
        return a->group < b->group ? -1 : 1;
    if (a->name_len != b->name_len)
        return a->name_len < b->name_len ? -1 : 1;
    int names = memcmp(a->name, b->name, a->name_len);
    if (names)
        return names;
    if (a->line != b->line)
        return a->line < b->line ? -1 : 1;
    return (a->column > b->column) - (a->column < b->column);
}

static void sort_entries(struct entries *e) {
    if (e->count)
        qsort(e->items, e->count, sizeof *e->items, compare_entries);
}

static void check_keys(struct file *f) {
    const struct entry *keys = f->keys.items;
    sort_entries(&f->keys);
    for (size_t i = 1, first = 0; i < f->keys.count; i++) {
        if (is_same(&keys[first], &keys[i]))
            tell_entry(f, &keys[i], DUPLICATE_KEY, keys[first].line);
        else
            first = i;
    }
}

/* Looks at the anchors and aliases of one name in one document, in order. An alias means the last anchor before it. When a
 * fault cuts the document, an alias that is not seen may use an anchor. */
static void check_name(struct file *f, const struct entry *names, size_t count) {
    const struct entry *unused = NULL;
    bool cut = f->answer.error && names->group == f->document, anchored = false;
    for (size_t i = 0; i < count; i++) {
        if (names[i].is_alias) {
            if (!anchored)
                tell_entry(f, &names[i], MISSING_ANCHOR, 0);
            unused = NULL;
        } else {
            if (unused)
                tell_entry(f, unused, UNUSED_ANCHOR, 0);
            unused = &names[i];
            anchored = true;
        }
    }
    if (unused && !cut)
        tell_entry(f, unused, UNUSED_ANCHOR, 0);
}

static void check_names(struct file *f) {
    const struct entry *names = f->names.items;
    sort_entries(&f->names);
    for (size_t i = 0, end; i < f->names.count; i = end) {
        for (end = i + 1; end < f->names.count && is_same(&names[i], &names[end]);)
            end++;
        check_name(f, &names[i], end - i);
    }
}

/* How many bytes the line break at a place has, 0 when none is there. */
static size_t break_len(const uint8_t *at, size_t left) {
    if (*at == '\r')
        return left > 1 && at[1] == '\n' ? 2 : 1;
    if (*at == '\n')
        return 1;
    if (left > 1 && !memcmp(at, "\xC2\x85", 2))
        return 2;
    return left > 2 && (!memcmp(at, "\xE2\x80\xA8", 3) || !memcmp(at, "\xE2\x80\xA9", 3)) ? 3 : 0;
}

static uint64_t count_characters(const uint8_t *text, size_t len) {
    uint64_t count = 0;
    for (size_t i = 0; i < len; i++)
        count += (text[i] & 0xC0) != 0x80;
    return count;
}

/* Looks for blanks at the end of a key's line, and for a tab before them. */
static void check_key_line(struct file *f, uint64_t number, const uint8_t *line, size_t len) {
    size_t kept = len;
    while (kept && (line[kept - 1] == ' ' || line[kept - 1] == '\t'))
        kept--;
    bool cut = line + len == f->text + f->text_len && f->answer.error == BOGZHAMI_READER_ERROR;
    if (kept < len && !cut)
        add(f, (struct message){number, count_characters(line, kept), TRAILING_BLANK, NULL, 0, 0});
    const uint8_t *tab = kept ? memchr(line, '\t', kept) : NULL;
    if (tab)
        add(f, (struct message){number, count_characters(line, (size_t)(tab - line)), TAB, NULL, 0, 0});
}

/* Looks at the lines of the text that come next: those before a line, or all of them. A reader fault is at its end. */
static void check_lines(struct file *f, uint64_t before) {
    const uint8_t *line = f->text + f->line_at, *end = f->text + f->text_len;
    for (uint64_t key = 0; f->line < before; f->line++) {
        size_t len = 0, broken = 0;
        while (line + len < end && !(broken = break_len(line + len, (size_t)(end - line) - len)))
            len++;
        uint64_t characters = count_characters(line, len);
        if (characters > f->width)
            add(f, (struct message){f->line, f->width, LONG_LINE, NULL, 0, characters});
        if (key < f->key_line_count && f->key_lines[key] == f->line) {
            check_key_line(f, f->line, line, len);
            key++;
        }
        if (!broken && f->answer.error == BOGZHAMI_READER_ERROR)
            add(f, (struct message){f->line, characters, FAULT, NULL, 0, 0});
        if (!broken)
            return;
        line += len + broken;
        f->line_at = (size_t)(line - f->text);
    }
}

/* Looks at what is kept, and at the lines before a line, or at all of them. */
static bool check(struct file *f, uint64_t before) {
    if (!find_text(f))
        return false;
    check_keys(f);
    check_names(f);
    check_lines(f, before);
    return !f->out_of_memory;
}

/* Output. */

static const char *program = "lint"; /* what it was called by */

static int fail(const char *name, const char *problem) {
    fflush(stdout);
    fprintf(stderr, "%s: %s: %s\n", program, name, problem);
    return LOST;
}

/* Sees that all is written, and returns the exit status that this asks for. A pipe that no one reads any more is not told. */
static int flush(void) {
    if (!fflush(stdout) && !ferror(stdout))
        return 0;
    return errno == EPIPE ? LOST : fail("standard output", strerror(errno));
}

static int compare_messages(const void *left, const void *right) {
    const struct message *a = left, *b = right;
    if (a->line != b->line)
        return a->line < b->line ? -1 : 1;
    if (a->column != b->column)
        return a->column < b->column ? -1 : 1;
    return (a->kind > b->kind) - (a->kind < b->kind);
}

/* Prints a name in quotes, cut when it is long. Control characters are printed as \x and their bytes in hexadecimal. */
static void print_name(const uint8_t *name, uint64_t name_len) {
    size_t len = name_len > SHOWN_NAME ? whole_characters(name, SHOWN_NAME) : (size_t)name_len;
    putchar('"');
    for (size_t i = 0; i < len; i++) {
        bool control = name[i] < 0x20 || name[i] == 0x7F;
        bool pair = name[i] == 0xC2 && i + 1 < len && name[i + 1] < 0xA0;
        if (control || pair)
            printf("\\x%02x", name[i]);
        if (pair)
            printf("\\x%02x", name[++i]);
        if (!control && !pair)
            putchar(name[i]);
    }
    fputs(len < name_len ? "...\"" : "\"", stdout);
}

static void print_fault(const struct file *f) {
    const struct bogzhami_answer *a = &f->answer;
    const uint8_t *problem = f->texts + a->text_len;
    fwrite(problem, 1, a->problem_len, stdout);
    if (a->error == BOGZHAMI_READER_ERROR)
        printf(" (byte %" PRIu64 " of the file)", a->problem_offset + 1);
    if (!a->context_len)
        return;
    fputs(", ", stdout);
    fwrite(problem + a->problem_len, 1, a->context_len, stdout);
    printf(" that starts at %" PRIu64 ":%" PRIu64, a->context_mark.line + 1, a->context_mark.column + 1);
}

static void print_message(const struct file *f, const struct message *m) {
    printf("%s:%" PRIu64 ":%" PRIu64 ": ", f->name, m->line + 1, m->column + 1);
    switch (m->kind) {
    case FAULT:
        print_fault(f);
        break;
    case DUPLICATE_KEY:
        fputs("duplicate key ", stdout);
        print_name(m->name, m->name_len);
        printf(", first at line %" PRIu64, m->number + 1);
        break;
    case TAB:
        fputs("tab in a line with a key", stdout);
        break;
    case TRAILING_BLANK:
        fputs("blanks at the end of a line with a key", stdout);
        break;
    case UNUSED_ANCHOR:
        fputs("no alias uses the anchor ", stdout);
        print_name(m->name, m->name_len);
        break;
    case MISSING_ANCHOR:
        fputs("no anchor before the alias ", stdout);
        print_name(m->name, m->name_len);
        break;
    case LONG_LINE:
        printf("line of %" PRIu64 " characters, more than %" PRIu64, m->number, f->width);
        break;
    }
    putchar('\n');
}

/* Prints the messages, and keeps none of what they are about. */
static void print_messages(struct file *f) {
    if (f->message_count)
        qsort(f->messages, f->message_count, sizeof *f->messages, compare_messages);
    for (size_t i = 0; i < f->message_count && !ferror(stdout); i++)
        print_message(f, &f->messages[i]);
    f->has_told = f->has_told || f->message_count;
    f->message_count = f->keys.count = f->names.count = f->key_line_count = 0;
    free_blocks(f->block);
    f->block = NULL;
}

/* Scanning. */

static bool is_marker(const struct bogzhami_token *t) {
    return t->token_type == BOGZHAMI_DOCUMENT_START_TOKEN || t->token_type == BOGZHAMI_DOCUMENT_END_TOKEN;
}

/* Takes the tokens of a batch. At a marker all is known of the document before it. UTF-16 is decoded once, at its end. */
static bool take_batch(struct file *f) {
    for (uint64_t i = 0; i < f->answer.token_count && !f->out_of_memory; i++) {
        const struct bogzhami_token *t = &f->tokens[i];
        take_token(f, t);
        f->given = (size_t)t->end_mark.index;
        if (is_marker(t) && !f->is_utf16) {
            if (!check(f, t->start_mark.line))
                return false;
            print_messages(f);
        }
    }
    return !f->out_of_memory;
}

/* Makes the room for texts anew. What was in it is not needed any more. */
static bool make_texts(struct file *f, uint64_t len) {
    free(f->texts);
    f->texts = calloc((size_t)len, 1);
    f->texts_len = (size_t)len;
    return f->texts != NULL;
}

/* Gets the next batch, with more room for texts if it needs that. */
static uint32_t next_batch(struct file *f) {
    for (;;) {
        uint64_t needed_from; /* the window has all bytes that came, and so those that are needed */
        uint32_t status = bogzhami_next_piece(&f->scanner, 0, f->input, f->input_len, f->is_last, f->tokens, BATCH, f->texts,
                                              f->texts_len, &f->answer, &needed_from);
        if (status != BOGZHAMI_NO_ROOM)
            return status;
        if (!make_texts(f, f->answer.text_len))
            return BOGZHAMI_NO_MEMORY;
    }
}

/* Reads and scans the input to its end or its fault, and takes all tokens. What is printed is written before more is waited for.
 * It ends early if reading or writing fails. */
static bool scan(struct file *f) {
    uint32_t status = bogzhami_open_pieces(&f->scanner, BOGZHAMI_ANY_ENCODING, 1024);
    if (status != BOGZHAMI_DONE || !make_texts(f, FIRST_TEXTS))
        return false;
    while (status != BOGZHAMI_FAULT && status != BOGZHAMI_OVER && !ferror(stdout)) {
        status = next_batch(f);
        if (status == BOGZHAMI_NO_MEMORY || !take_batch(f))
            return false;
        if (status != BOGZHAMI_MORE && status != BOGZHAMI_WHOLE)
            continue;
        if (f->lost || fflush(stdout))
            return true;
        f->is_utf16 = status == BOGZHAMI_WHOLE;
        read_on(f, f->is_utf16);
    }
    return f->answer.error != BOGZHAMI_MEMORY_ERROR;
}

/* Looks at the rest of the input. After a fault of the scanner that is lines; after one of the reader it is nothing. */
static bool check_rest(struct file *f) {
    bool has_lines = f->answer.error == BOGZHAMI_SCANNER_ERROR;
    if (has_lines)
        add(f, (struct message){f->answer.problem_mark.line, f->answer.problem_mark.column, FAULT, NULL, 0, 0});
    while (has_lines && !f->is_last && !f->lost && !fflush(stdout))
        read_some(f);
    return f->lost || check(f, UINT64_MAX);
}

/* Prints the messages of one file that is open, and returns the exit status that they ask for. */
static int lint_read(struct file *f) {
    if (!scan(f))
        return fail(f->name, "out of memory");
    if (!ferror(stdout) && !check_rest(f))
        return fail(f->name, "out of memory");
    if (!f->lost)
        print_messages(f);
    int status = flush();
    if (status || !f->lost)
        return status ? status : f->has_told;
    return fail(f->name, f->lost);
}

static int lint_open(int from, const char *name, uint64_t width) {
    struct file f = {.name = name, .width = width, .from = from, .credit = MOST_CREDIT, .scanner = BOGZHAMI_CLOSED};
    int status = lint_read(&f);
    free_file(&f);
    return status;
}

static int lint_file(const char *name, uint64_t width) {
    int from = open(name, O_RDONLY);
    if (from < 0)
        return fail(name, strerror(errno));
    int status = lint_open(from, name, width);
    close(from);
    return status;
}

static int greater(int left, int right) { return left > right ? left : right; }

/* Folders. */

/* Paths that are to be looked at, the next one last. */
struct paths {
    char **items;
    size_t count, room;
};

static void free_paths(struct paths *paths) {
    while (paths->count)
        free(paths->items[--paths->count]);
    free(paths->items);
}

/* The path of what a folder has under a name; NULL if memory is refused. */
static char *path_of(const char *folder, const char *name) {
    size_t len = strlen(folder), name_len = strlen(name) + 1;
    char *path = malloc(len + 1 + name_len);
    if (!path)
        return NULL;
    memcpy(path, folder, len);
    if (path[len - 1] != '/')
        path[len++] = '/';
    memcpy(path + len, name, name_len);
    return path;
}

/* Adds the path of what a folder has under a name; false if memory is refused. */
static bool add_path(struct paths *to, const char *folder, const char *name) {
    char **items = grown(to->items, to->count, &to->room, sizeof *items);
    if (!items)
        return false;
    to->items = items;
    items[to->count] = path_of(folder, name);
    return items[to->count] && ++to->count;
}

/* The name after the last one of a folder that is neither the folder itself nor the one above it. NULL at the end, where errno is
 * 0, and if reading fails. */
static const char *next_name(DIR *from) {
    for (;;) {
        errno = 0;
        const struct dirent *found = readdir(from);
        if (!found || (strcmp(found->d_name, ".") && strcmp(found->d_name, "..")))
            return found ? found->d_name : NULL;
    }
}

/* From the last one to the first. */
static int compare_paths(const void *left, const void *right) { return strcmp(*(char *const *)right, *(char *const *)left); }

/* Adds what a folder has, so that the first name is the next one. Returns 0, or the exit status if that fails. */
static int read_folder(struct paths *to, const char *folder) {
    DIR *from = opendir(folder);
    if (!from)
        return fail(folder, strerror(errno));
    size_t before = to->count;
    const char *name, *problem = NULL;
    while (!problem && (name = next_name(from)))
        problem = add_path(to, folder, name) ? NULL : "out of memory";
    if (!problem && errno)
        problem = strerror(errno);
    closedir(from);
    if (to->count > before)
        qsort(to->items + before, to->count - before, sizeof *to->items, compare_paths);
    return problem ? fail(folder, problem) : 0;
}

/* Whether a path ends as that of a YAML file does. */
static bool is_yaml(const char *path) {
    const char *end = strrchr(path, '.');
    return end && (!strcmp(end, ".yaml") || !strcmp(end, ".yml"));
}

/* Looks at a YAML file that a folder has, or adds what a folder in it has. A link is not followed, and all else is left out. */
static int lint_found(struct paths *left, const char *path, uint64_t width) {
    struct stat found;
    if (lstat(path, &found))
        return fail(path, strerror(errno));
    if (S_ISDIR(found.st_mode))
        return read_folder(left, path);
    return S_ISREG(found.st_mode) && is_yaml(path) ? lint_file(path, width) : 0;
}

/* Looks at all YAML files below a folder, in the order of their names. */
static int lint_folder(const char *name, uint64_t width) {
    struct paths left = {0};
    int status = read_folder(&left, name);
    while (left.count && !ferror(stdout)) {
        char *path = left.items[--left.count];
        status = greater(status, lint_found(&left, path, width));
        free(path);
    }
    free_paths(&left);
    return status;
}

static bool is_folder(const char *name) {
    struct stat about;
    return !stat(name, &about) && S_ISDIR(about.st_mode);
}

static int lint(const char *name, uint64_t width) {
    if (!strcmp(name, "-"))
        return lint_open(STDIN_FILENO, "standard input", width);
    return is_folder(name) ? lint_folder(name, width) : lint_file(name, width);
}

static int lint_all(char **names, uint64_t width) {
    int status = 0;
    for (; *names && !ferror(stdout); names++)
        status = greater(status, lint(*names, width));
    return status;
}

/* The words of the command. */

static const char options_help[] =
    "Looks for likely mistakes in YAML files, and prints each as file:line:column: message.\n"
    "The file - is standard input. A folder stands for the files below it whose names end with\n"
    ".yaml or .yml.\n\n"
    "  -w, --width WIDTH  lines may have that many characters; without it 80\n"
    "  -h, --help         print this\n"
    "      --version      print the version\n\n"
    "The exit status is 0; 1 when there is a message; 2 when the words are wrong; 3 when a file or a\n"
    "folder can not be read, the output can not be written or memory is refused.\n";

static void print_usage(FILE *to) { fprintf(to, "usage: %s [-w WIDTH] FILE ..\n", program); }

static int print_help(void) {
    print_usage(stdout);
    printf("\n%s", options_help);
    return flush();
}

static int print_version(void) {
    printf("%s (Bogzhami) %s\n", program, bogzhami_version());
    return flush();
}

static int refuse_words(void) {
    print_usage(stderr);
    return 2;
}

/* The width that a word gives, or 0 when it gives none. */
static uint64_t width_of(const char *word) {
    char *end;
    errno = 0;
    unsigned long long width = strtoull(word, &end, 10);
    if (*end || errno || *word < '0' || *word > '9' || !width) {
        fprintf(stderr, "%s: '%s' is no width\n", program, word);
        return 0;
    }
    return width;
}

/* Reads the options. Returns the exit status if nothing is left to be done, and otherwise -1. */
static int read_options(int argc, char **argv, uint64_t *width) {
    enum { VERSION = 256 };
    static const struct option options[] = {
        {"width", required_argument, NULL, 'w'}, {"help", no_argument, NULL, 'h'}, {"version", no_argument, NULL, VERSION}, {0}};
    for (int option; (option = getopt_long(argc, argv, "w:h", options, NULL)) != -1;) {
        switch (option) {
        case 'w':
            *width = width_of(optarg);
            if (!*width)
                return refuse_words();
            break;
        case 'h':
            return print_help();
        case VERSION:
            return print_version();
        default: /* getopt_long has said what is wrong */
            return refuse_words();
        }
    }
    return -1;
}

int main(int argc, char **argv) {
    uint64_t width = DEFAULT_WIDTH;
    if (argc > 0) {
        char *slash = strrchr(argv[0], '/');
        argv[0] = slash ? slash + 1 : argv[0]; /* getopt_long names it */
        program = argv[0];
    }
    int status = read_options(argc, argv, &width);
    if (status >= 0)
        return status;
    if (optind == argc) {
        fprintf(stderr, "%s: no file is named\n", program);
        return refuse_words();
    }
    return lint_all(argv + optind, width);
}
