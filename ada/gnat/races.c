/* SPDX-License-Identifier: MIT */
/* Races of a run: two steps of different tasks that depend on each other, and that nothing orders but this. The other
   order is to be tried too: where the earlier step was chosen, a task goes first by which the other order can begin
   (source sets, by Abdulla, Aronis, Jonsson and Sagonas). */

#include "steps.h"
#include <stdlib.h>
#include <string.h>

enum { BITS = 64, NUMBERS = UINT16_MAX + 1 };

/* The steps that come before each, itself among them, as sets of bits. */
static uint64_t *clocks;
static unsigned words;
/* The latest step of each task, and the one that made it ready, counted from 1; 0 if there is none. */
static unsigned latest[NUMBERS], readied[NUMBERS];

static uint64_t *clock_of(unsigned at) { return clocks + (size_t)at * words; }

static bool has(const uint64_t *set, unsigned at) { return set[at / BITS] >> at % BITS & 1; }

static void add(uint64_t *set, unsigned at) { set[at / BITS] |= UINT64_C(1) << at % BITS; }

static void add_all(uint64_t *set, const uint64_t *other) {
  unsigned i;
  for (i = 0; i < words; i++) set[i] |= other[i];
}

static void make_clocks(const run *r) {
  words = r->steps / BITS + 1;
  clocks = malloc((size_t)r->steps * words * sizeof *clocks + 1);
  if (clocks) return;
  fputs("adatask: there is no memory for the search\n", stderr);
  exit(4);
}

static uint16_t who_at(const run *r, unsigned at) { return r->step[at].taken.who; }

/* Whether nothing of what comes between two steps, and not after the earlier one, comes before a step. */
static bool can_begin(unsigned at, unsigned early) {
  unsigned i;
  for (i = early + 1; i < at; i++) {
    if (has(clock_of(at), i) && !has(clock_of(i), early)) return false;
  }
  return true;
}

/* Has the other order of a race tried. */
static void reverse(const run *r, node *at, unsigned early, unsigned late) {
  unsigned i;
  uint16_t first = A_TICK;
  bool is_any = false;
  for (i = early + 1; i <= late; i++) {
    uint16_t who = who_at(r, i);
    if ((i < late && has(clock_of(i), early)) || !can_begin(i, early) || !is_candidate(at, who)) continue;
    if (is_taken_care_of(at, who)) return;
    if (!is_any) first = who;
    is_any = true;
  }
  if (is_any) {
    want(at, first);
  } else {
    want_all(at);
  }
}

/* A tick that comes late can't come while the earlier step could. */
static bool is_reversible(const run *r, unsigned early, unsigned late) {
  uint16_t one = who_at(r, early), other = who_at(r, late);
  return one != other && (other != A_TICK || has_any_time);
}

/* The clock of a step, and its races if it is new. */
static void look_at_step(const run *r, node *const *path, unsigned at, bool is_new) {
  uint64_t *before = clock_of(at);
  footprint print = footprint_of(r, &r->step[at]);
  unsigned i, count = 0, *races = malloc((at + 1) * sizeof *races);
  uint16_t who = who_at(r, at);
  memset(before, 0, words * sizeof *before);
  if (latest[who]) add_all(before, clock_of(latest[who] - 1));
  if (readied[who]) add_all(before, clock_of(readied[who] - 1));
  for (i = at; i--;) {
    if (has(before, i) || !depend(footprint_of(r, &r->step[i]), print)) continue;
    add_all(before, clock_of(i));
    if (races && is_reversible(r, i, at)) races[count++] = i;
  }
  add(before, at);
  for (i = 0; is_new && i < count; i++) reverse(r, path[races[i]], races[i], at);
  free(races);
}

static void note_step_of(const run *r, unsigned at) {
  const step *s = &r->step[at];
  unsigned i;
  latest[s->taken.who] = at + 1;
  for (i = 0; i < s->readied; i++) readied[r->name[s->first_readied + i]] = at + 1;
}

static void forget_steps(const run *r) {
  unsigned i;
  for (i = 0; i < r->steps; i++) latest[who_at(r, i)] = 0;
  for (i = 0; i < r->names; i++) readied[r->name[i]] = 0;
}

/* Whether a task would go on where a step begins; nobody does where the run is over. */
static bool would_go_at(const run *r, unsigned at, uint16_t who) {
  const step *s = &r->step[at];
  unsigned i = 0;
  if (at == r->steps) return false;
  while (i < s->candidates && r->name[s->first_candidate + i] != who) i++;
  return i < s->candidates;
}

/* A step that keeps another task from its next one, as an abort does, is in a race with that, though it didn't come:
   has it come first. */
static void want_kept(const run *r, node *at, unsigned depth) {
  const step *s = &r->step[depth];
  unsigned i;
  if (depth + 1 == r->steps && r->end != BY_ITSELF) return;
  for (i = 0; i < s->candidates; i++) {
    uint16_t who = r->name[s->first_candidate + i];
    if (who != s->taken.who && !would_go_at(r, depth + 1, who)) want(at, who);
  }
}

/* Finds the races of the steps from the first one that is new. */
void find_races(const run *r, node *const *path, unsigned first) {
  unsigned i;
  make_clocks(r);
  for (i = 0; i < r->steps; i++) {
    look_at_step(r, path, i, i >= first);
    note_step_of(r, i);
    if (i + 1 >= first) want_kept(r, path[i], i);
  }
  forget_steps(r);
  free(clocks);
}

/* ---- Classes of orders that differ in steps alone that don't depend on each other ---- */

/* What comes before each step since it depends on that, or is of the same task. */
static void find_order(const run *r) {
  unsigned at, i;
  memset(clocks, 0, (size_t)r->steps * words * sizeof *clocks);
  for (at = 0; at < r->steps; at++) {
    footprint print = footprint_of(r, &r->step[at]);
    for (i = at; i--;) {
      if (who_at(r, i) == who_at(r, at) || depend(footprint_of(r, &r->step[i]), print)) add(clock_of(at), i);
    }
  }
}

static bool is_covered(const uint64_t *set, const uint64_t *by) {
  unsigned i = 0;
  while (i < words && !(set[i] & ~by[i])) i++;
  return i == words;
}

/* Of the steps that can come next in an order of the same class, that of the task with the least number. */
static unsigned next_in_order(const run *r, const uint64_t *taken) {
  unsigned i, best = r->steps;
  for (i = 0; i < r->steps; i++) {
    if (has(taken, i) || !is_covered(clock_of(i), taken)) continue;
    if (best == r->steps || who_at(r, i) < who_at(r, best)) best = i;
  }
  return best;
}

/* The steps of a run in the least order of their class. */
void put_in_order(const run *r, choice *to) {
  uint64_t *taken;
  unsigned i;
  make_clocks(r);
  find_order(r);
  taken = calloc(words, sizeof *taken);
  for (i = 0; i < r->steps; i++) {
    unsigned at = taken ? next_in_order(r, taken) : i;
    to[i] = r->step[at].taken;
    if (taken) add(taken, at);
  }
  free(taken);
  free(clocks);
}

/* A number that runs have in common whose orders are of one class: that of the least order in it. */
uint64_t class_of(const run *r) {
  static choice order[MOST_STEPS];
  uint64_t number = UINT64_C(14695981039346656037);
  unsigned i;
  put_in_order(r, order);
  for (i = 0; i < r->steps; i++) {
    number = (number ^ order[i].who) * UINT64_C(1099511628211);
    number = (number ^ order[i].pick) * UINT64_C(1099511628211);
  }
  return number;
}
