/* Reads all that stands in its input, fills so many bytes of memory, and writes them: moved BYTES. It scans nothing, so it
   takes the time that the system needs for an input and a listing of these sizes. The exit status is 1 if something fails. */
#include <stdio.h>
#include <stdlib.h>
#include <string.h>
#include <unistd.h>

#define PIECE 65536

/* Reads to the end of the input, into memory that is doubled when it is full. */
static int read_all(void) {
  size_t size = 0, room = 0;
  char *bytes = NULL;
  for (;;) {
    if (room - size < PIECE) {
      room = room ? 2 * room : 2 * PIECE;
      bytes = realloc(bytes, room);
      if (!bytes) return 0;
    }
    ssize_t count = read(0, bytes + size, PIECE);
    if (count < 0) return 0;
    if (count == 0) return 1;
    size += (size_t)count;
  }
}

static int write_all(const char *bytes, size_t size) {
  while (size > 0) {
    ssize_t count = write(1, bytes, size);
    if (count <= 0) return 0;
    bytes += count;
    size -= (size_t)count;
  }
  return 1;
}

int main(int argc, char **argv) {
  size_t size = argc == 2 ? strtoull(argv[1], NULL, 10) : 0;
  char *listing = malloc(size + 1);
  if (!listing || !read_all()) return 1;
  memset(listing, 'a', size);
  return write_all(listing, size) ? 0 : 1;
}
