/* SPDX-License-Identifier: MIT */
/* Loaded before the C library by LD_PRELOAD, this refuses growths of memory: of the calls of malloc, calloc and
 * realloc that a program makes, number REFUSE_AT answers null, and with REFUSE_ON=1 each later one too. REFUSE_OF=first
 * counts those of the program's first thread alone, and REFUSE_OF=others those of its other threads. At the program's end
 * the file REFUSE_REPORT gets a line with how many calls there were and how many were refused. */
#define _GNU_SOURCE
#include <errno.h>
#include <fcntl.h>
#include <stdatomic.h>
#include <stddef.h>
#include <stdlib.h>
#include <string.h>
#include <sys/syscall.h>
#include <unistd.h>

extern void *__libc_malloc(size_t);
extern void *__libc_calloc(size_t, size_t);
extern void *__libc_realloc(void *, size_t);

static atomic_long calls;
static atomic_long refused;
static long first;
static int goes_on;
static int counts;
static enum { ALL, FIRST, OTHERS } whose;

/* A number of decimal digits, or 0. Nothing here may ask for memory. */
static long number(const char *text) {
  long n = 0;
  for (; text && *text >= '0' && *text <= '9'; text++) n = 10 * n + (*text - '0');
  return n;
}

/* Counting begins with the program's own code, behind the start of the C library. */
__attribute__((constructor)) static void begin(void) {
  first = number(getenv("REFUSE_AT"));
  goes_on = number(getenv("REFUSE_ON")) == 1;
  const char *of = getenv("REFUSE_OF");
  if (of && strcmp(of, "first") == 0) whose = FIRST;
  if (of && strcmp(of, "others") == 0) whose = OTHERS;
  counts = 1;
}

/* The first thread has the number of the process. */
static int is_counted(void) {
  return counts && (whose == ALL || (whose == FIRST) == (syscall(SYS_gettid) == getpid()));
}

static int is_refused(void) {
  if (!is_counted()) return 0;
  long call = atomic_fetch_add(&calls, 1) + 1;
  if (first == 0 || call < first || (call > first && !goes_on)) return 0;
  atomic_fetch_add(&refused, 1);
  errno = ENOMEM;
  return 1;
}

void *malloc(size_t size) { return is_refused() ? NULL : __libc_malloc(size); }

void *calloc(size_t count, size_t size) { return is_refused() ? NULL : __libc_calloc(count, size); }

void *realloc(void *old, size_t size) { return is_refused() ? NULL : __libc_realloc(old, size); }

static char *put(char *to, long n) {
  char digits[20];
  int count = 0;
  do digits[count++] = '0' + n % 10; while ((n /= 10) > 0);
  while (count > 0) *to++ = digits[--count];
  return to;
}

__attribute__((noreturn)) static void leave(int status) {
  for (;;) syscall(SYS_exit_group, status);
}

__attribute__((destructor)) static void end(void) {
  const char *report = getenv("REFUSE_REPORT");
  if (!report) return;
  char line[64];
  char *to = put(line, atomic_load(&calls));
  *to++ = ' ';
  to = put(to, atomic_load(&refused));
  *to++ = '\n';
  int file = open(report, O_WRONLY | O_CREAT | O_TRUNC, 0600);
  if (file < 0) return;
  if (write(file, line, (size_t)(to - line)) < 0) leave(70);
  close(file);
}

/* A program that may have threads ends by this call, behind which no destructor runs. */
void _exit(int status) {
  end();
  leave(status);
}
