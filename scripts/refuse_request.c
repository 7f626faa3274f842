// A `malloc` that refuses one request: the one that REFUSED_REQUEST numbers, from 1 in each process. It
// notes that it has, by making the file that REFUSED_NOTE names. When the process ends, it writes how many requests it
// made, and for how many bytes in all, into the file that REFUSED_COUNTS names.
#define _GNU_SOURCE
#include <errno.h>
#include <fcntl.h>
#include <stdbool.h>
#include <stdio.h>
#include <stdlib.h>
#include <unistd.h>

void *__libc_malloc(size_t size);
void *__libc_realloc(void *old, size_t size);

static long requests;
static unsigned long bytes;

static bool is_refused(size_t size) {
  const char *refused = getenv("REFUSED_REQUEST");
  const char *note = getenv("REFUSED_NOTE");
  requests++;
  bytes += size;
  if (!refused || !note || requests != atol(refused))
    return false;
  close(open(note, O_CREAT | O_WRONLY, 0600));
  errno = ENOMEM;
  return true;
}

void *malloc(size_t size) { return is_refused(size) ? NULL : __libc_malloc(size); }

void *realloc(void *old, size_t size) { return is_refused(size) ? NULL : __libc_realloc(old, size); }

__attribute__((destructor)) static void write_counts(void) {
  const char *name = getenv("REFUSED_COUNTS");
  char line[64];
  if (!name)
    return;
  int length = snprintf(line, sizeof line, "%ld %lu\n", requests, bytes);
  int file = open(name, O_CREAT | O_TRUNC | O_WRONLY, 0600);
  if (write(file, line, (size_t)length) != length)
    _exit(125);
  close(file);
}
