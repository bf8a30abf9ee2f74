/* SPDX-License-Identifier: MIT */
/* What was asked, as the lines of a script for adatask and adascope. A script has no clock: its durations count from
   the last tick, so they are longer by the time since then. */

#include "glue.h"
#include <stdarg.h>

FILE *script;

static int64_t since_tick(void) { return kernel.now - moment; }

void write_asked(const task *by, const char *format, ...) {
  va_list words;
  if (!script) return;
  fprintf(script, "%s: ", by->name);
  va_start(words, format);
  vfprintf(script, format, words);
  va_end(words);
  putc('\n', script);
}

/* An entry by the first that lies in its family, and its index if there are more. */
static void write_entry(const task *of, uint32_t family, int32_t index) {
  fprintf(script, " E%u", family * of->chunk + 1);
  if (of->chunk > 1) fprintf(script, " %d", (int)index);
}

void write_created(const task *by, const task *made, const ada_family *families, size_t count) {
  size_t i;
  if (!script) return;
  fprintf(script, "%s: create %s under %s", by->name, made->name, name_of_master(made->master_kind, made->master));
  for (i = 0; i < count; i++) {
    fprintf(script, " E%u", (unsigned)i * made->chunk + 1);
    if (made->chunk > 1) fprintf(script, " 0 %d", (int)families[i].high);
  }
  putc('\n', script);
}

void write_list(const task *by, const char *verb, task *const *list, size_t count) {
  size_t i;
  if (!script) return;
  fprintf(script, "%s: %s", by->name, verb);
  for (i = 0; i < count; i++) fprintf(script, " %s", list[i]->name);
  putc('\n', script);
}

void write_call(const task *by, uint32_t patience, int64_t duration) {
  const task *callee = by->callee;
  if (!script) return;
  fprintf(script, "%s: %s %s", by->name, patience == ADA_CONDITIONAL ? "try" : "call", callee->name);
  write_entry(callee, (by->entry - 1) / callee->chunk, (int32_t)((by->entry - 1) % callee->chunk));
  if (patience == ADA_TIMED) fprintf(script, " within %lld", (long long)(duration + since_tick()));
  putc('\n', script);
}

void write_wait(const task *by, uint32_t pick, const ada_choice *choices, size_t count, uint32_t tail,
                int64_t duration) {
  size_t i;
  if (!script) return;
  fprintf(script, "%s: select %u", by->name, (unsigned)pick);
  for (i = 0; i < count; i++) {
    fprintf(script, "%s%s accept", i ? " or" : "", choices[i].is_open ? "" : " closed");
    write_entry(by, choices[i].family, choices[i].index);
  }
  if (tail == ADA_ELSE) fputs(" else", script);
  if (tail == ADA_DELAYS) fprintf(script, " or delay %lld", (long long)(duration + since_tick()));
  if (tail == ADA_TERMINATE) fputs(" or terminate", script);
  putc('\n', script);
}

void write_delay(const task *by, int64_t duration) {
  if (script) fprintf(script, "%s: delay %lld\n", by->name, (long long)(duration + since_tick()));
}

void write_tick(int64_t now) {
  if (script) fprintf(script, "tick %lld\n", (long long)now);
}
