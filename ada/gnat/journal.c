/* SPDX-License-Identifier: MIT */
/* What happened, in the lines that adatask prints. */

#include "glue.h"
#include "adatask_text.h"

/* A line of the journal is shorter. */
enum { LINE_SIZE = 8192 };

FILE *journal;

/* The newest event that was looked at. */
static uint64_t seen;

static const char *name_of_task(void *nothing, uint64_t number) {
  (void)nothing;
  return name_of_number(number);
}

/* By the first entry that lies in it, as in a script. */
static const char *name_of_family(void *nothing, uint64_t number, uint32_t family) {
  static char name[NAME_SIZE];
  const task *t = task_numbered(number);
  (void)nothing;
  snprintf(name, sizeof name, "E%u", (unsigned)family * (t ? t->chunk : 1) + 1);
  return name;
}

/* The events that the last request appended. */
void write_events(void) {
  static const ada_names names = {name_of_task, name_of_family, NULL, NULL};
  static char line[LINE_SIZE];
  uint64_t last;
  size_t length;
  if (!journal) return;
  for (last = ada_events(&kernel); seen < last; seen++) {
    if (!ada_event_text(&kernel, seen + 1, &names, line, sizeof line, &length)) fprintf(journal, "%s\n", line);
  }
}
