/* Refuses one allocation of the program that it is preloaded into: that of the number in REFUSED, counted from 1. */
#include <errno.h>
#include <stddef.h>
#include <stdlib.h>

void *__libc_malloc(size_t size);
void *__libc_realloc(void *memory, size_t size);

static unsigned long taken, refused;

__attribute__((constructor)) static void begin(void) {
  const char *number = getenv("REFUSED");
  refused = number ? strtoul(number, NULL, 10) : 0;
  taken = 0;
}

static int is_refused(void) {
  taken++;
  if (taken != refused) return 0;
  errno = ENOMEM;
  return 1;
}

void *malloc(size_t size) { return is_refused() ? NULL : __libc_malloc(size); }

void *realloc(void *memory, size_t size) { return is_refused() ? NULL : __libc_realloc(memory, size); }
