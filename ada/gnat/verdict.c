/* SPDX-License-Identifier: MIT */
/* What a search has found, in words. */

#define _POSIX_C_SOURCE 200809L
#include "search.h"
#include <errno.h>
#include <inttypes.h>
#include <stdlib.h>
#include <string.h>
#include <sys/wait.h>
#include <unistd.h>

/* So many different ends are told apart. */
enum { MOST_ENDS = 256 };

static end_of_runs ends[MOST_ENDS];
static unsigned end_count;
static unsigned long other_ends;

/* ---- Ends ---- */

static bool is_end(const end_of_runs *end, int status, const char *output, size_t length) {
  return end->status == status && end->length == length && !memcmp(end->output, output, length);
}

/* ---- Classes ---- */

/* The numbers of those that were met, in a table with more room than numbers; 0 is none. */
static uint64_t *classes;
static size_t class_count, class_room;

static bool put_class(uint64_t *table, size_t room, uint64_t number) {
  size_t at = number % room;
  while (table[at] && table[at] != number) at = (at + 1) % room;
  if (table[at]) return false;
  table[at] = number;
  return true;
}

static void make_class_room(void) {
  size_t more = class_room ? 4 * class_room : 1 << 14, i;
  uint64_t *larger = calloc(more, sizeof *larger);
  if (!larger) {
    fputs("adatask: there is no memory for the search\n", stderr);
    exit(FILE_STATUS);
  }
  for (i = 0; i < class_room; i++) {
    if (classes[i]) put_class(larger, more, classes[i]);
  }
  free(classes);
  classes = larger;
  class_room = more;
}

/* A schedule was of this class. */
void count_class(uint64_t number) {
  if (2 * class_count >= class_room) make_class_room();
  class_count += put_class(classes, class_room, number ? number : 1);
}

void add_other_ends(unsigned long count) { other_ends += count; }

/* So many schedules ended so. */
void add_end(const end_of_runs *end) {
  end_of_runs *to = ends;
  while (to < ends + end_count && !is_end(to, end->status, end->output, end->length)) to++;
  if (to < ends + end_count) {
    to->count += end->count;
  } else if (end_count == MOST_ENDS || !(to->output = malloc(end->length + 1))) {
    add_other_ends(end->count);
  } else {
    memcpy(to->output, end->output, end->length);
    to->status = end->status;
    to->length = end->length;
    to->count = end->count;
    end_count++;
  }
}

/* A schedule ended so, and the program printed that. */
void count_end(int status, int out) {
  char output[OUTPUT_SIZE];
  ssize_t read = pread(out, output, sizeof output, 0);
  end_of_runs end = {status, read > 0 ? (size_t)read : 0, output, 1};
  add_end(&end);
}

static int compare_ends(const void *one, const void *other) {
  const end_of_runs *a = one, *b = other;
  size_t length = a->length < b->length ? a->length : b->length;
  int order = a->status - b->status;
  if (!order) order = memcmp(a->output, b->output, length);
  return order ? order : (a->length > b->length) - (a->length < b->length);
}

/* The lines that a schedule prints, each behind a mark. */
static void write_output(FILE *to, const end_of_runs *end) {
  bool is_new = true;
  size_t i;
  for (i = 0; i < end->length; i++) {
    if (is_new) fputs("  | ", to);
    putc(end->output[i], to);
    is_new = end->output[i] == '\n';
  }
  if (!is_new) putc('\n', to);
}

static void write_ends(FILE *to) {
  unsigned i;
  qsort(ends, end_count, sizeof *ends, compare_ends);
  for (i = 0; i < end_count; i++) {
    int status = ends[i].status;
    if (WIFSIGNALED(status)) {
      fprintf(to, "end: signal %d, in %lu schedules\n", WTERMSIG(status), ends[i].count);
    } else if (WEXITSTATUS(status) == STUCK_STATUS) {
      fprintf(to, "end: stuck, in %lu schedules\n", ends[i].count);
    } else {
      fprintf(to, "end: status %d, in %lu schedules\n", WEXITSTATUS(status), ends[i].count);
    }
    write_output(to, &ends[i]);
  }
  if (other_ends) fprintf(to, "end: others, in %lu schedules\n", other_ends);
}

/* ---- For a merge of shards ---- */

static void write_end_found(FILE *to, const end_of_runs *end) {
  size_t i;
  fprintf(to, "end %d %lu ", end->status, end->count);
  for (i = 0; i < end->length; i++) fprintf(to, "%02x", (unsigned)(unsigned char)end->output[i]);
  putc('\n', to);
}

void write_ends_found(FILE *to) {
  unsigned i;
  qsort(ends, end_count, sizeof *ends, compare_ends);
  for (i = 0; i < end_count; i++) write_end_found(to, &ends[i]);
  if (other_ends) fprintf(to, "others %lu\n", other_ends);
}

void write_classes_found(FILE *to) {
  size_t i;
  for (i = 0; i < class_room; i++) {
    if (classes[i]) fprintf(to, "class %" PRIx64 "\n", classes[i]);
  }
}

/* ---- The verdict ---- */

/* What one shard has found, which says nothing of the others. */
static int write_line_of_shard(FILE *to) {
  fprintf(to, "shard %ld of %ld: %lu schedules tried, %lu stuck, %lu unhandled\n", wished.shard, wished.shards,
          found.whole, found.stuck.count, found.unhandled.count);
  return TRIED_STATUS;
}

/* The first line: what was found of all that was tried. */
static int write_first_line(FILE *to, bool is_any_left) {
  if (wished.shard && found.divided.beginnings) return write_line_of_shard(to);
  if (found.stuck.count) {
    fprintf(to, "stuck: after %u steps, in %lu of %lu schedules\n", (unsigned)found.stuck.steps, found.stuck.count,
            found.whole);
    return FOUND_STATUS;
  }
  if (found.unhandled.count) {
    fprintf(to, "unhandled: %s in %s\n", found.exception, found.who_raised);
    return FOUND_STATUS;
  }
  if (is_any_left) {
    fprintf(to, "unknown: nothing found in %lu schedules, and more are left\n", found.whole);
    return UNKNOWN_STATUS;
  }
  fprintf(to, "tried: all %lu schedules", found.whole);
  if (wished.preemptions >= 0) fprintf(to, " with at most %ld preemptions", wished.preemptions);
  putc('\n', to);
  return TRIED_STATUS;
}

/* Why schedules weren't followed to their end. */
static void write_left_out(FILE *to) {
  if (found.too_long) {
    fprintf(to, "%lu schedules had more than %ld steps, and weren't followed to their end.\n", found.too_long,
            wished.steps);
  }
  if (found.outside) {
    fprintf(to, "beyond control: in %lu schedules nobody went on but by something that isn't a task.\n", found.outside);
  }
  if (found.beyond) {
    fprintf(to, "beyond control: %s had the turn, and asked for nothing for %ld s.\n", found.who_is_beyond,
            wished.patience);
  }
  if (found.strayed) fputs("The program isn't the same twice: by the same choices others would go on.\n", to);
}

/* What the first line leaves out. */
static void write_rest(FILE *to, bool is_any_left) {
  if (found.unhandled.count) {
    fprintf(to, "unhandled in %lu of %lu schedules, in the shortest of them %s in %s.\n", found.unhandled.count,
            found.whole, found.exception, found.who_raised);
  }
  write_left_out(to);
  if (is_any_left && (found.stuck.count || found.unhandled.count || wished.shard)) {
    fputs("More schedules are left.\n", to);
  }
  if (wished.merge) {
    fprintf(to, "Of %ld shards; each found the %u beginnings by %lu short runs.\n", wished.merge,
            found.divided.beginnings, found.divided.runs);
  }
  if (wished.plain) {
    fputs("Each schedule is an order of steps, each of which ends at a tasking operation. Orders of what lies within\n"
          "steps, as uses of variables that tasks share, weren't tried.\n", to);
  } else {
    fputs("Of orders that differ only in independent steps one was tried. Variables that tasks share aren't seen by\n"
          "this: --plain tries each order of steps.\n", to);
  }
}

FILE *open_in(const char *folder, const char *name) {
  char path[PATH_SIZE];
  FILE *file;
  snprintf(path, sizeof path, "%s/%s", folder, name);
  file = fopen(path, "w");
  if (!file) {
    fprintf(stderr, "adatask: %s can't be written: %s\n", path, strerror(errno));
    _exit(FILE_STATUS);
  }
  return file;
}

/* The status with which the search ends. */
int write_verdict(const char *folder, bool is_any_left) {
  FILE *to = open_in(folder, "verdict");
  bool is_left = is_any_left || found.too_long || found.outside || found.beyond || found.strayed;
  int status = write_first_line(to, is_left);
  write_rest(to, is_left);
  if (wished.ends) write_ends(to);
  if (wished.ends && !wished.plain) fprintf(to, "cut off: %lu, since another order has what follows\n", found.asleep);
  if (class_count) fprintf(to, "classes: %zu\n", class_count);
  return fclose(to) ? FILE_STATUS : status;
}

/* This run writes its choices. */
void name_choices(const char *folder) { write_choices_to(open_in(folder, "choices")); }
