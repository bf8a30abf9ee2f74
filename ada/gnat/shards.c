/* SPDX-License-Identifier: MIT */
/* What a shard of a search writes for a merge: the beginnings of schedules, by which the search is divided, and what it
   has found after its own. merge.c reads it. */

#include "search.h"
#include <stdlib.h>

/* ---- What is tried of each beginning ---- */

void begin_tallies(unsigned count) {
  found.divided.beginnings = count;
  found.divided.tally = calloc(count + 1, sizeof *found.divided.tally);
  if (found.divided.tally) return;
  fputs("adatask: there is no memory for the search\n", stderr);
  exit(FILE_STATUS);
}

/* A schedule was tried after a beginning, or cut off since another order has what follows. One without a step has no
   beginning but the first. */
void count_trial(unsigned beginning, bool is_whole) {
  tally *t = &found.divided.tally[beginning ? beginning : 1];
  if (is_whole) {
    t->whole++;
  } else {
    t->asleep++;
  }
}

/* ---- The file ---- */

static void write_tallies(FILE *to) {
  unsigned i;
  for (i = 1; i <= found.divided.beginnings; i++) {
    const tally *t = &found.divided.tally[i];
    if (t->whole || t->asleep) fprintf(to, "searched %u %lu %lu\n", i, t->whole, t->asleep);
  }
}

static void write_choices(FILE *to, const char *word, const choice *list, uint32_t count) {
  uint32_t i;
  fputs(word, to);
  for (i = 0; i < count; i++) {
    fprintf(to, " %u", list[i].who);
    if (list[i].pick) fprintf(to, "/%u", list[i].pick);
  }
  putc('\n', to);
}

/* The choices of the shortest schedule, as it was found and in the least order of its class. */
static void write_finding(FILE *to, const char *word, const finding *f) {
  if (!f->count) return;
  fprintf(to, "%s %lu %u\n", word, f->count, (unsigned)f->steps);
  write_choices(to, "choices", f->choice, f->steps);
  write_choices(to, "least", f->least, f->steps);
}

void write_findings(const char *folder, bool is_any_left) {
  FILE *to = open_in(folder, "findings");
  fprintf(to, "divided %u %lu\n", found.divided.beginnings, found.divided.runs);
  write_beginnings(to);
  write_tallies(to);
  fprintf(to, "counted %lu %lu %lu %lu %lu %lu %d\n", found.whole, found.asleep, found.too_long, found.outside,
          found.strayed, found.beyond, is_any_left);
  if (found.beyond) fprintf(to, "beyond %s\n", found.who_is_beyond);
  write_finding(to, "stuck", &found.stuck);
  if (found.unhandled.count) fprintf(to, "raised %s %s\n", found.who_raised, found.exception);
  write_finding(to, "unhandled", &found.unhandled);
  write_ends_found(to);
  write_classes_found(to);
  fputs("that is all\n", to);
  if (!ferror(to) && !fclose(to)) return;
  fputs("adatask: what was found can't be written\n", stderr);
  exit(FILE_STATUS);
}
