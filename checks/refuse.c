/* Stands before a program (LD_PRELOAD) and lets one call of its turn fail, as the environment says:
 *
 *   REFUSE_CALL  which calls are counted: alloc (malloc, calloc, realloc), open, read or write
 *   REFUSE_AT    the number, from 1, of the call that is refused; 0 or none: no call is
 *   REFUSE_HOW   fail: it fails, with ENOMEM or EIO; on: so does each call behind it; short: it takes one byte;
 *                none: it takes nothing (write); signal: it fails with EINTR
 *   REFUSE_MOST  how many bytes a read or a write takes at most
 *   REFUSE_LOG   a file that gets, at the end, a line for each open, read and write, and the number of allocations
 *   REFUSE_IN    the name of the only program in which all this counts, where that one starts others
 *
 * It takes no memory itself, and asks the C library's own names, so that it needs no look-up before the first call. */
#define _GNU_SOURCE
#include <errno.h>
#include <fcntl.h>
#include <stdarg.h>
#include <stdio.h>
#include <stdlib.h>
#include <string.h>
#include <sys/syscall.h>
#include <sys/types.h>
#include <unistd.h>

extern void *__libc_malloc(size_t);
extern void *__libc_calloc(size_t, size_t);
extern void *__libc_realloc(void *, size_t);

enum call { ALLOC, OPEN, READ, WRITE, CALLS };
enum how { FAIL, ON, SHORT, NONE, SIGNAL, HOWS };

static const char *const call_names[CALLS] = {"alloc", "open", "read", "write"};
static const char *const how_names[HOWS] = {"fail", "on", "short", "none", "signal"};

static int is_set_up;
static enum call refused_call = CALLS;
static enum how how = FAIL;
static unsigned long refused_at, most, counts[CALLS];

/* What is logged: the call, its descriptor and what it gave. */
enum { ENTRIES = 1 << 16 };
static struct { char call; int descriptor; long given; } entries[ENTRIES];
static unsigned long logged;

static unsigned long number(const char *name) {
  const char *text = getenv(name);
  return text ? strtoul(text, NULL, 10) : 0;
}

static int place(const char *name, const char *const *names, int count, int otherwise) {
  const char *text = getenv(name);
  for (int at = 0; text && at < count; at++)
    if (!strcmp(text, names[at])) return at;
  return otherwise;
}

__attribute__((constructor)) static void set_up(void) {
  const char *only = getenv("REFUSE_IN");
  if (only && strcmp(only, program_invocation_short_name)) return;
  refused_call = place("REFUSE_CALL", call_names, CALLS, CALLS);
  how = place("REFUSE_HOW", how_names, HOWS, FAIL);
  refused_at = number("REFUSE_AT");
  most = number("REFUSE_MOST");
  memset(counts, 0, sizeof counts);
  logged = 0;
  is_set_up = 1;
}

/* Counts a call, and says whether it is the one that is refused. */
static int is_refused(enum call call) {
  if (!is_set_up) return 0;
  unsigned long at = __atomic_add_fetch(&counts[call], 1, __ATOMIC_SEQ_CST);
  if (call != refused_call || !refused_at) return 0;
  return at == refused_at || (how == ON && at > refused_at);
}

static void keep(char call, int descriptor, long given) {
  unsigned long at = is_set_up ? __atomic_fetch_add(&logged, 1, __ATOMIC_SEQ_CST) : ENTRIES;
  if (at < ENTRIES) {
    entries[at].call = call;
    entries[at].descriptor = descriptor;
    entries[at].given = given;
  }
}

static void tell_line(int log, char call, int descriptor, long given) {
  char line[64];
  int length = snprintf(line, sizeof line, "%c %d %ld\n", call, descriptor, given);
  syscall(SYS_write, log, line, length);
}

__attribute__((destructor)) static void tell(void) {
  const char *path = getenv("REFUSE_LOG");
  if (!path || !is_set_up) return;
  int log = syscall(SYS_openat, AT_FDCWD, path, O_WRONLY | O_CREAT | O_TRUNC, 0600);
  if (log < 0) return;
  for (unsigned long at = 0; at < logged && at < ENTRIES; at++)
    tell_line(log, entries[at].call, entries[at].descriptor, entries[at].given);
  tell_line(log, 'a', 0, counts[ALLOC]);
  syscall(SYS_close, log);
}

/* A program that ends so calls no destructor. */
void _exit(int status) {
  tell();
  for (;;) syscall(SYS_exit_group, status);
}

static void *no_memory(void) {
  errno = ENOMEM;
  return NULL;
}

void *malloc(size_t size) { return is_refused(ALLOC) ? no_memory() : __libc_malloc(size); }

void *calloc(size_t count, size_t size) { return is_refused(ALLOC) ? no_memory() : __libc_calloc(count, size); }

void *realloc(void *block, size_t size) { return is_refused(ALLOC) ? no_memory() : __libc_realloc(block, size); }

static int opened(int folder, const char *path, int flags, mode_t mode) {
  if (is_refused(OPEN)) {
    keep('o', -1, 0);
    errno = how == SIGNAL ? EINTR : EIO;
    return -1;
  }
  int descriptor = syscall(SYS_openat, folder, path, flags, mode);
  keep('o', descriptor, 0);
  return descriptor;
}

static mode_t mode_of(int flags, va_list rest) { return flags & O_CREAT ? va_arg(rest, mode_t) : 0; }

#define OPENER(name, parameters, folder, path)       \
  int name parameters {                              \
    va_list rest;                                    \
    va_start(rest, flags);                           \
    mode_t mode = mode_of(flags, rest);              \
    va_end(rest);                                    \
    return opened(folder, path, flags, mode);        \
  }

OPENER(open, (const char *path, int flags, ...), AT_FDCWD, path)
OPENER(open64, (const char *path, int flags, ...), AT_FDCWD, path)
OPENER(openat, (int folder, const char *path, int flags, ...), folder, path)
OPENER(openat64, (int folder, const char *path, int flags, ...), folder, path)

/* How many bytes of so many a call asks for, or -1 where it is refused. */
static ssize_t asked(enum call call, size_t count) {
  if (is_refused(call)) {
    if (how == SHORT) return count ? 1 : 0;
    if (how == NONE) return 0;
    errno = how == SIGNAL ? EINTR : EIO;
    return -1;
  }
  return most && most < count ? most : count;
}

ssize_t read(int descriptor, void *buffer, size_t count) {
  ssize_t most_now = asked(READ, count);
  ssize_t given = most_now > 0 || (most_now == 0 && count == 0) ? syscall(SYS_read, descriptor, buffer, most_now) : most_now;
  keep('r', descriptor, given);
  return given;
}

ssize_t write(int descriptor, const void *bytes, size_t count) {
  ssize_t most_now = asked(WRITE, count);
  ssize_t taken = most_now > 0 || (most_now == 0 && count == 0) ? syscall(SYS_write, descriptor, bytes, most_now) : most_now;
  keep('w', descriptor, taken);
  return taken;
}
