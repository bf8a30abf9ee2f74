/* SPDX-License-Identifier: MIT */
/* What the schedules show that a search has tried: which get stuck, which end by an exception, and the shortest. */

#define _POSIX_C_SOURCE 200809L
#include "search.h"
#include <string.h>
#include <sys/wait.h>
#include <unistd.h>

findings found;

/* ---- The shortest ---- */

static int compare_orders(const finding *one, const finding *other) {
  uint32_t i = 0;
  while (i < one->steps && one->least[i].who == other->least[i].who && one->least[i].pick == other->least[i].pick) i++;
  if (i == one->steps) return 0;
  if (one->least[i].who != other->least[i].who) return one->least[i].who < other->least[i].who ? -1 : 1;
  return one->least[i].pick < other->least[i].pick ? -1 : 1;
}

static bool is_before(const finding *one, const finding *other) {
  if (!other->count) return true;
  if (one->steps != other->steps) return one->steps < other->steps;
  return compare_orders(one, other) < 0;
}

/* Adds what else was found of the same kind. Whether its choices are the ones to be told. */
bool add_finding(finding *f, const finding *other) {
  bool is_told = other->count && is_before(other, f);
  f->count += other->count;
  if (!is_told) return false;
  f->steps = other->steps;
  memcpy(f->choice, other->choice, other->steps * sizeof *f->choice);
  memcpy(f->least, other->least, other->steps * sizeof *f->least);
  return true;
}

static bool keep_choices(finding *f, const run *r) {
  static finding one;
  uint32_t i;
  if (f->count && f->steps < r->steps) {
    f->count++;
    return false;
  }
  one.count = 1;
  one.steps = r->steps;
  for (i = 0; i < r->steps; i++) one.choice[i] = r->step[i].taken;
  put_in_order(r, one.least);
  return add_finding(f, &one);
}

static void name_unhandled(const char *name, const char *who) {
  snprintf(found.exception, sizeof found.exception, "%s", name);
  snprintf(found.who_raised, sizeof found.who_raised, "%s", who);
}

void add_unhandled(const finding *other, const char *name, const char *who) {
  if (add_finding(&found.unhandled, other)) name_unhandled(name, who);
}

/* ---- What a run shows ---- */

/* The exception that the main program didn't handle, as GNAT says it. */
static bool read_raised(int err, char *name) {
  char text[1024];
  const char *at;
  ssize_t length = pread(err, text, sizeof text - 1, 0);
  text[length > 0 ? length : 0] = 0;
  at = strstr(text, "raised ");
  return at && sscanf(at, "raised %127[^ \n]", name) == 1;
}

bool is_stuck_status(int status) { return WIFEXITED(status) && WEXITSTATUS(status) == STUCK_STATUS; }

/* What a run shows by its end and by what it wrote; if that is an exception, its name and the task. */
outcome outcome_of(const run *r, int status, int err, char *name, char *who) {
  if (is_stuck_status(status)) return GETS_STUCK;
  if (WIFSIGNALED(status)) {
    snprintf(name, EXCEPTION_SIZE, "signal %d", WTERMSIG(status));
    strcpy(who, r->turn);
  } else if (*r->exception) {
    strcpy(name, r->exception);
    strcpy(who, r->who_raised);
  } else if (WEXITSTATUS(status) == 1 && read_raised(err, name)) {
    strcpy(who, "main");
  } else {
    return NOTHING_FOUND;
  }
  return ENDS_UNHANDLED;
}

/* Counts a schedule that a run followed to its end. */
void count_schedule(const run *r, int status, int out, int err) {
  char name[EXCEPTION_SIZE], who[NAME_SIZE];
  outcome what = outcome_of(r, status, err, name, who);
  found.whole++;
  if (what == GETS_STUCK) keep_choices(&found.stuck, r);
  if (what == ENDS_UNHANDLED && keep_choices(&found.unhandled, r)) name_unhandled(name, who);
  if (wished.ends) count_end(status, out);
  if (wished.ends && wished.plain) count_class(class_of(r));
}

/* Whether a run shows what a finding does, in as many steps. */
bool shows_again(const finding *f, const run *r, int status, int err) {
  char name[EXCEPTION_SIZE], who[NAME_SIZE];
  outcome what = outcome_of(r, status, err, name, who);
  if (r->steps != f->steps) return false;
  if (f == &found.stuck) return what == GETS_STUCK;
  return what == ENDS_UNHANDLED && !strcmp(name, found.exception) && !strcmp(who, found.who_raised);
}
