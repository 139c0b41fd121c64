/* Refuses to open a file for the program that it is preloaded into, for lack of memory. */
#include <errno.h>

static int is_refused(void) {
  errno = ENOMEM;
  return -1;
}

int open(const char *path, int flags, ...) { return is_refused(); }

int open64(const char *path, int flags, ...) { return is_refused(); }

int openat(int folder, const char *path, int flags, ...) { return is_refused(); }

int openat64(int folder, const char *path, int flags, ...) { return is_refused(); }
