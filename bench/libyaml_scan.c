/* Scans a file nine times with libyaml and says how long that took, beside a copy of its bytes.

   libyaml_scan FILE [RUNS [SECONDS]] prints bytes, tokens, the best and the median time in nanoseconds, the best time of a
   copy, and how many scans ended. RUNS is 9 if it is not given. No scan is begun after 20 seconds, and one that has taken
   SECONDS is stopped: its tokens and its time are those up to there, and it is not counted among those that ended. Without
   words, libyaml's version is printed. */
#include <stdio.h>
#include <stdlib.h>
#include <string.h>
#include <time.h>
#include <yaml.h>

#define MOST_RUNS 9
#define LONG 20e9

static double now(void) {
  struct timespec t;
  clock_gettime(CLOCK_MONOTONIC, &t);
  return t.tv_sec * 1e9 + t.tv_nsec;
}

static int compare(const void *a, const void *b) {
  double x = *(const double *)a, y = *(const double *)b;
  return (x > y) - (x < y);
}

/* How many tokens the bytes have, up to the end or a fault; it is stopped at the deadline, and then *ended is 0. */
static long scan(const unsigned char *bytes, size_t size, double deadline, int *ended) {
  yaml_parser_t parser;
  long tokens = 0;
  *ended = 1;
  yaml_parser_initialize(&parser);
  yaml_parser_set_input_string(&parser, bytes, size);
  for (;;) {
    yaml_token_t token;
    if (!yaml_parser_scan(&parser, &token)) break;
    int type = token.type;
    yaml_token_delete(&token);
    tokens++;
    if (type == YAML_STREAM_END_TOKEN) break;
    if (tokens % 256 == 0 && now() > deadline) {
      *ended = 0;
      break;
    }
  }
  yaml_parser_delete(&parser);
  return tokens;
}

static double copy_time(unsigned char *copy, const unsigned char *bytes, size_t size) {
  double start = now();
  memcpy(copy, bytes, size);
  __asm__ volatile("" ::"r"(copy) : "memory");
  return now() - start;
}

static unsigned char *read_file(const char *path, size_t *size) {
  FILE *file = fopen(path, "rb");
  if (!file) return NULL;
  fseek(file, 0, SEEK_END);
  *size = ftell(file);
  rewind(file);
  unsigned char *bytes = malloc(*size);
  if (fread(bytes, 1, *size, file) != *size) return NULL;
  fclose(file);
  return bytes;
}

int main(int argc, char **argv) {
  if (argc < 2) return puts(yaml_get_version_string()) < 0;
  int most = argc > 2 ? atoi(argv[2]) : MOST_RUNS;
  double limit = argc > 3 ? atof(argv[3]) * 1e9 : 1e18;
  if (most < 1 || most > MOST_RUNS) return 2;
  size_t size;
  unsigned char *bytes = read_file(argv[1], &size);
  if (!bytes) return 1;
  unsigned char *copy = malloc(size);
  double times[MOST_RUNS], copies[MOST_RUNS], begun = now();
  long tokens = 0;
  int runs = 0, ended_runs = 0;
  while (runs < most && (runs == 0 || now() - begun < LONG)) {
    int ended;
    double start = now();
    tokens = scan(bytes, size, start + limit, &ended);
    times[runs] = now() - start;
    copies[runs] = copy_time(copy, bytes, size);
    ended_runs += ended;
    runs++;
  }
  qsort(times, runs, sizeof *times, compare);
  qsort(copies, runs, sizeof *copies, compare);
  printf("%zu %ld %.0f %.0f %.0f %d\n", size, tokens, times[0], times[runs / 2], copies[0], ended_runs);
  free(bytes);
  free(copy);
  return 0;
}
