// The calls of POSIX that the programs make, handed to JavaScript (worker.js), and the program's words. Not proved.
//
// A call of JavaScript gives a number below zero, the negated errno, where it fails. There is no environment, no signal, and no file
// has a position that a program can ask for.

typedef unsigned long long u64;
typedef long long i64;

#define FROM_PAGE(name) __attribute__((import_module("page"), import_name(#name)))

FROM_PAGE(open) i64 page_open(const char *path, int flags);
FROM_PAGE(close) i64 page_close(int file);
FROM_PAGE(read) i64 page_read(int file, void *bytes, u64 length);
FROM_PAGE(write) i64 page_write(int file, const void *bytes, u64 length);
FROM_PAGE(word) i64 page_word(u64 number, void *bytes, u64 length);
FROM_PAGE(is_terminal) int page_is_terminal(int file);
FROM_PAGE(nanoseconds) i64 page_nanoseconds(void);

enum { ENOTTY = 25, ESPIPE = 29 };

static int error;

int rattle_errno(void) { return error; }
void rattle_set_errno(int number) { error = number; }

// What a call of POSIX gives for a result of the page.
static i64 given(i64 result) {
  if (result >= 0) return result;
  error = (int)-result;
  return -1;
}

int open(const char *path, int flags, ...) { return (int)given(page_open(path, flags)); }
int close(int file) { return (int)given(page_close(file)); }
i64 read(int file, void *bytes, u64 length) { return given(page_read(file, bytes, length)); }
i64 write(int file, const void *bytes, u64 length) { return given(page_write(file, bytes, length)); }

// The same, where a program says that the processor lacks something.
i64 __write(int file, const void *bytes, u64 length) { return write(file, bytes, length); }

// As of a pipe.
i64 lseek(int file, i64 offset, int from) {
  (void)file, (void)offset, (void)from;
  return given(-ESPIPE);
}

int isatty(int file) {
  if (page_is_terminal(file)) return 1;
  error = ENOTTY;
  return 0;
}

struct moment {
  i64 seconds, nanoseconds;
};

// Of each clock the time since the program began.
int clock_gettime(int clock, struct moment *now) {
  i64 passed = page_nanoseconds();
  (void)clock;
  now->seconds = passed / 1000000000;
  now->nanoseconds = passed % 1000000000;
  return 0;
}

// No signal comes.
u64 __sysv_signal(int signal, u64 handler) {
  (void)signal, (void)handler;
  return 0;
}

// What a processor has, as the C library for x86-64 says it: all that the program asks for as it begins, since it was compiled for WebAssembly
// without any of it.
struct features {
  unsigned present[4], usable[4];
};

const struct features *__x86_get_cpuid_feature_leaf(unsigned leaf) {
  static const struct features all = {{~0u, ~0u, ~0u, ~0u}, {~0u, ~0u, ~0u, ~0u}};
  (void)leaf;
  return &all;
}

// The bytes of the program's word of this number, or -1 where it has no such word.
i64 rattle_arg(u64 number, void *bytes, u64 length) { return page_word(number, bytes, length); }

// No variable is set.
i64 rattle_env_at(u64 number, void *bytes, u64 length) {
  (void)number, (void)bytes, (void)length;
  return -1;
}

i64 rattle_env(void *name, void *bytes, u64 length) {
  (void)name, (void)bytes, (void)length;
  return -1;
}
