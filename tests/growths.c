/* Refuses requests for memory, and counts them; for the scripts that run a program with LD_PRELOAD.
 *
 * REFUSED_GROWTH is the number, from 1, of the request that is refused. With a `-` after it all later ones are refused too.
 * If REFUSED_BEHIND_READ is set, only requests after the end of the standard input was read are counted.
 *
 * COUNTED_GROWTHS names a file. When the program ends, a line is written there for each line of the standard output: how many
 * requests were made between the line before it and this one. Then comes a line with those after the last one, one with how
 * many blocks were not freed, and one with the most bytes that a counted request asked for. Nothing is written if there are
 * too many lines. */
#include <errno.h>
#include <fcntl.h>
#include <stddef.h>
#include <stdio.h>
#include <stdlib.h>
#include <string.h>
#include <sys/syscall.h>
#include <unistd.h>

#define MOST_LINES 262144

extern void *__libc_malloc(size_t size);
extern void *__libc_calloc(size_t count, size_t size);
extern void *__libc_realloc(void *old, size_t size);
extern void *__libc_memalign(size_t align, size_t size);
extern void __libc_free(void *old);

static int is_read;
/* the requests that were counted, those before the last line, and those of each line */
static long number, before_line, of_line[MOST_LINES];
static long lines, blocks;
/* the most bytes that a counted request asked for */
static size_t greatest;

static int is_counted(void) {
    static int waits = -1;
    if (waits < 0)
        waits = getenv("REFUSED_BEHIND_READ") != NULL;
    return is_read || !waits;
}

static int is_refused(size_t size) {
    static long refused = -1;
    static int all = 0;
    if (refused < 0) {
        const char *word = getenv("REFUSED_GROWTH");
        refused = word ? atol(word) : 0;
        all = word && strchr(word, '-');
    }
    if (!is_counted())
        return 0;
    number++;
    if (size > greatest)
        greatest = size;
    if (refused == 0 || number < refused || (number > refused && !all))
        return 0;
    errno = ENOMEM;
    return 1;
}

ssize_t read(int file, void *bytes, size_t count) {
    ssize_t found = syscall(SYS_read, file, bytes, count);
    if (file == 0 && found == 0)
        is_read = 1;
    return found;
}

static void end_line(void) {
    if (lines < MOST_LINES)
        of_line[lines] = number - before_line;
    lines++;
    before_line = number;
}

ssize_t write(int file, const void *bytes, size_t count) {
    ssize_t done = syscall(SYS_write, file, bytes, count);
    for (ssize_t at = 0; file == 1 && at < done; at++)
        if (((const char *)bytes)[at] == '\n')
            end_line();
    return done;
}

static void put_number(int file, long count) {
    char text[32];
    int len = snprintf(text, sizeof text, "%ld\n", count);
    if (syscall(SYS_write, file, text, (size_t)len) != len)
        _exit(120);
}

__attribute__((destructor)) static void tell_counts(void) {
    const char *path = getenv("COUNTED_GROWTHS");
    long held = blocks, after = number - before_line;
    if (!path || lines > MOST_LINES)
        return;
    int file = open(path, O_WRONLY | O_CREAT | O_TRUNC, 0600);
    if (file < 0)
        _exit(120);
    for (long line = 0; line < lines; line++)
        put_number(file, of_line[line]);
    put_number(file, after);
    put_number(file, held);
    put_number(file, (long)greatest);
    close(file);
}

/* Counts a block that was made, if it was. */
static void *made(void *block) {
    blocks += block != NULL;
    return block;
}

void *malloc(size_t size) { return is_refused(size) ? NULL : made(__libc_malloc(size)); }

void *calloc(size_t count, size_t size) { return is_refused(count * size) ? NULL : made(__libc_calloc(count, size)); }

void *realloc(void *old, size_t size) {
    if (is_refused(size))
        return NULL;
    return old ? __libc_realloc(old, size) : made(__libc_realloc(old, size));
}

void *aligned_alloc(size_t align, size_t size) { return is_refused(size) ? NULL : made(__libc_memalign(align, size)); }

int posix_memalign(void **found, size_t align, size_t size) {
    void *block = is_refused(size) ? NULL : made(__libc_memalign(align, size));
    if (block)
        *found = block;
    return block ? 0 : ENOMEM;
}

void free(void *old) {
    blocks -= old != NULL;
    __libc_free(old);
}
