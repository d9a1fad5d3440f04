/* What the drivers in C and C++ share. DRIVER FILE reads the file, and then a line for each turn: what to take. For each it
 * prints how many there were and how many nanoseconds of processor time that took, in all threads of the driver. Memory is
 * taken and given back within. 0 means that it failed. */
#include <stdio.h>
#include <stdlib.h>
#include <string.h>
#include <time.h>

static unsigned char *bytes;
static size_t size;

struct way {
    const char *what;
    long (*take)(void);
};

static double now(void) {
    struct timespec time;
    clock_gettime(CLOCK_PROCESS_CPUTIME_ID, &time);
    return (double)time.tv_sec * 1e9 + (double)time.tv_nsec;
}

static int read_file(const char *path) {
    FILE *file = fopen(path, "rb");
    if (!file)
        return 0;
    fseek(file, 0, SEEK_END);
    size = (size_t)ftell(file);
    rewind(file);
    bytes = (unsigned char *)malloc(size + 1);
    int is_read = bytes && fread(bytes, 1, size, file) == size;
    fclose(file);
    return is_read;
}

/* The last of the ways has no name. */
static const struct way *find_way(const struct way *ways, const char *what) {
    while (ways->what && strcmp(ways->what, what))
        ways++;
    return ways->what ? ways : NULL;
}

static int take_turns(int argc, char **argv, const struct way *ways) {
    char line[64];
    if (argc != 2 || !read_file(argv[1]))
        return 1;
    while (fgets(line, sizeof line, stdin)) {
        line[strcspn(line, "\n")] = 0;
        const struct way *way = find_way(ways, line);
        if (!way)
            return 1;
        double start = now();
        long count = way->take();
        printf("%ld %.0f\n", count, now() - start);
        fflush(stdout);
    }
    return 0;
}
