// The calls of the kit's C code that the programs of this tree make, for a processor that the kit has no such code for.
#include <errno.h>
#include <fcntl.h>
#include <stddef.h>
#include <stdint.h>
#include <string.h>
#include <sys/types.h>

static size_t count;
static char **words;

// The C library hands a constructor what it hands main.
__attribute__((constructor)) static void keep(int argc, char **argv) {
  count = (size_t)argc;
  words = argv;
}

int32_t rattle_open_to_read(const char *path) { return open(path, O_RDONLY | O_CLOEXEC); }

int32_t rattle_errno(void) { return errno; }

void rattle_set_errno(int32_t error) { errno = error; }

size_t rattle_arg_count(void) { return count; }

ssize_t rattle_arg(size_t i, char *into, size_t len) {
  if (i >= count) return -1;
  size_t whole = strlen(words[i]);
  memcpy(into, words[i], whole < len ? whole : len);
  return whole <= len ? (ssize_t)whole : -2;
}
