/* SPDX-License-Identifier: MIT */
/* The steps of a run of a search: what each reads and changes, as the kernel says it, and who sleeps. */

#include "steps.h"
#include <string.h>
#include <unistd.h>

bool is_searched;
run *this_run;

/* ---- Footprints ---- */

static bool meet(mark one, mark other) {
  if (one.whose == EVERYBODY || other.whose == EVERYBODY) return true;
  if (one.whose != other.whose) return false;
  if (one.what == USES || other.what == USES) return one.what == other.what;
  if (one.what == CHANGES || other.what == CHANGES) return one.what == other.what;
  return one.what != other.what;
}

/* Whether the order of two steps may make a difference: whether both change a task's state, or one ends a task and the
   other asks whether it has, or both use a protected object. */
bool depend(footprint one, footprint other) {
  unsigned i, j;
  for (i = 0; i < one.count; i++) {
    for (j = 0; j < other.count; j++) {
      if (meet(one.mark[i], other.mark[j])) return true;
    }
  }
  return false;
}

footprint footprint_of(const run *r, const step *s) {
  footprint f = {r->mark + s->first_mark, s->marks};
  return f;
}

/* ---- What is noted ---- */

static void end_run(uint32_t how) {
  this_run->end = how;
  _exit(BEYOND_STATUS);
}

/* The run has more to tell than there is room for, or than is wanted. */
static void give_up(void) { end_run(TOO_LONG); }

void end_outside(void) { end_run(OUTSIDE); }

static step *latest(void) { return this_run->steps ? &this_run->step[this_run->steps - 1] : NULL; }

static void note(uint16_t whose, uint16_t what) {
  step *s = latest();
  uint32_t i;
  if (!s) return;
  for (i = s->first_mark; i < this_run->marks; i++) {
    const mark *m = &this_run->mark[i];
    if (m->whose == EVERYBODY || (m->whose == whose && m->what == what)) return;
  }
  if (this_run->marks == MOST_MARKS) give_up();
  this_run->mark[this_run->marks].whose = whose;
  this_run->mark[this_run->marks++].what = what;
  s->marks++;
}

/* The latest step has ended the program, and so kept all others from theirs. */
void end_by_step(run *r) {
  step *s = r->steps ? &r->step[r->steps - 1] : NULL;
  if (!s) return;
  r->marks = s->first_mark + 1;
  r->mark[s->first_mark].whose = EVERYBODY;
  r->mark[s->first_mark].what = CHANGES;
  s->marks = 1;
}

void note_finish(void) { this_run->is_finished = true; }

static void note_name(uint16_t name) {
  if (this_run->names == MOST_NAMES) give_up();
  this_run->name[this_run->names++] = name;
}

static uint16_t number_of(const task *t) {
  if (t->number >= A_TICK) give_up();
  return (uint16_t)t->number;
}

void add_change(const task *t) { note(number_of(t), CHANGES); }

void add_look(const task *t) { note(number_of(t), LOOKS_AT); }

void add_use(uint16_t object) { note(object, USES); }

void add_change_of_all(void) { note(EVERYBODY, CHANGES); }

/* Whom the last request terminated. */
void note_ends(void) {
  uint64_t number;
  for (number = 0; !ada_ended(&kernel, number, &number); number++) {
    if (number >= A_TICK) give_up();
    note((uint16_t)number, ENDS);
  }
}

/* A task became ready, by the step that isn't over yet. */
void note_ready(const task *t) {
  step *s = latest();
  if (!s) return;
  note_name(number_of(t));
  s->readied++;
}

static uint16_t number_at(const candidates *those, unsigned at) {
  return at < those->tasks ? number_of(those->task[at]) : A_TICK;
}

/* A step begins. */
void note_step(const candidates *those, unsigned chosen) {
  step *s = &this_run->step[this_run->steps];
  unsigned i;
  if (this_run->steps == this_run->most_steps) give_up();
  memset(s, 0, sizeof *s);
  s->first_candidate = this_run->names;
  for (i = 0; i < those->count; i++) note_name(number_at(those, i));
  s->candidates = those->count;
  s->goes_on = those->goes_on;
  s->taken.who = number_at(those, chosen);
  s->picks = 1;
  s->first_mark = this_run->marks;
  s->first_readied = this_run->names;
  this_run->steps++;
  this_run->turns++;
  if (chosen < those->tasks) {
    strcpy(this_run->turn, those->task[chosen]->name);
    note_change(those->task[chosen]);
  } else {
    note_change_of_all();
  }
}

void note_pick(uint32_t pick, uint32_t picks) {
  step *s = latest();
  if (!s) return;
  s->taken.pick = (uint16_t)pick;
  s->picks = (uint16_t)picks;
}

/* ---- What is chosen ---- */

/* The latest step has woken those who depend on it. */
static void wake_sleepers(void) {
  const step *s = latest();
  uint32_t i = 0;
  if (!s) return;
  while (i < this_run->sleepers) {
    const sleeper *one = &this_run->asleep[i];
    footprint f = {this_run->sleeping + one->first_mark, one->marks};
    if (depend(f, footprint_of(this_run, s))) {
      this_run->asleep[i] = this_run->asleep[--this_run->sleepers];
    } else {
      i++;
    }
  }
}

static bool is_asleep(uint16_t who) {
  uint32_t i = 0;
  while (i < this_run->sleepers && this_run->asleep[i].who != who) i++;
  return i < this_run->sleepers;
}

/* As the search says, then the first that doesn't sleep. */
unsigned choose_by_search(const candidates *those) {
  unsigned i = 0;
  if (this_run->steps < this_run->prefix) {
    uint16_t who = this_run->chosen[this_run->steps].who;
    while (i < those->count && number_at(those, i) != who) i++;
    if (i == those->count) end_run(STRAYED);
  } else {
    wake_sleepers();
    while (i < those->count && is_asleep(number_at(those, i))) i++;
    if (i == those->count) end_run(ASLEEP);
  }
  return i;
}

uint32_t pick_by_search(uint32_t picks) {
  uint32_t at = this_run->steps - 1;
  uint32_t pick = this_run->steps && at < this_run->prefix ? this_run->chosen[at].pick : 0;
  return pick < picks ? pick : 0;
}

/* A task ends by an exception that it doesn't handle, which Ada passes over in silence. */
void adagnat_unhandled(const char *name, int length) {
  task *me = self();
  if (!me || !is_controlled) return;
  take_lock();
  if (!is_searched) {
    fprintf(stderr, "adatask: unhandled: %.*s in %s, which ends by it.\n", length, name, me->name);
  } else if (!*this_run->exception) {
    snprintf(this_run->exception, sizeof this_run->exception, "%.*s", length, name);
    strcpy(this_run->who_raised, me->name);
  }
  give_lock();
}
