/* SPDX-License-Identifier: MIT */
/* Schedules that are chosen. One task alone has the turn; where it has asked for something, or is held up, the turn is
   given anew. Who gets it is said by ADATASK_SCHEDULE. Time is simulated then: it passes by ticks to what is due
   next. */

#define _GNU_SOURCE
#include "schedule.h"
#include <errno.h>
#include <sched.h>
#include <stdarg.h>
#include <stdlib.h>
#include <string.h>
#include <unistd.h>

bool is_controlled;
task *turn;
uint64_t turns;
bool has_any_time;

static enum { BY_NOBODY, BY_ORDER, BY_SEED, BY_LIST, BY_SEARCH } chosen;
/* Those that would go on, in the order in which they became so. */
static task *first_ready, *last_ready;
static uint64_t random_state;

/* ---- What the environment says ---- */

/* The schedule can't be followed: says why, and ends the program. */
void end_unfit(const char *format, ...) {
  va_list words;
  fflush(NULL);
  fputs("adatask: ", stderr);
  va_start(words, format);
  vfprintf(stderr, format, words);
  va_end(words);
  putc('\n', stderr);
  flush_files();
  flush_choices();
  _exit(UNFIT_STATUS);
}

static void read_seed(const char *text) {
  char *end;
  errno = 0;
  random_state = strtoull(text, &end, 10);
  if (*text < '0' || *text > '9' || *end || errno) {
    end_unfit("ADATASK_SCHEDULE has the seed '%s': that has to be a number below 2 to the power of 64", text);
  }
  chosen = BY_SEED;
}

static void read_schedule(const char *text) {
  if (!strcmp(text, "first")) {
    chosen = BY_ORDER;
  } else if (!strncmp(text, "seed:", 5)) {
    read_seed(text + 5);
  } else if (!strncmp(text, "list:", 5)) {
    chosen = BY_LIST;
    read_choices(text + 5);
  } else {
    end_unfit("ADATASK_SCHEDULE is '%s': it has to be first, seed:N or list:FILE", text);
  }
}

static void read_time(void) {
  const char *text = getenv("ADATASK_TIME");
  if (!text || !*text || !strcmp(text, "late")) return;
  if (strcmp(text, "any")) end_unfit("ADATASK_TIME is '%s': it has to be late or any", text);
  has_any_time = true;
}

/* Threads that go one at a time wake each other sooner on one processor. */
static void stay_on_processor(void) {
  cpu_set_t one;
  int processor = sched_getcpu();
  if (processor < 0 || processor >= CPU_SETSIZE) return;
  CPU_ZERO(&one);
  CPU_SET(processor, &one);
  sched_setaffinity(0, sizeof one, &one);
}

/* Before anything is asked of the kernel. */
void begin_schedule(void) {
  const char *text = getenv("ADATASK_SCHEDULE");
  begin_search();
  if (is_searched) {
    chosen = BY_SEARCH;
  } else if (text && *text) {
    read_schedule(text);
  } else {
    return;
  }
  read_time();
  is_controlled = has_simulated_time = true;
  turn = self();
  if (is_searched) {
    keep_choices_in_memory();
  } else {
    stay_on_processor();
    open_choices();
  }
}

/* ---- Those that would go on ---- */

static void append(task *t) {
  t->next_ready = NULL;
  if (last_ready) {
    last_ready->next_ready = t;
  } else {
    first_ready = t;
  }
  last_ready = t;
  t->is_ready = true;
}

static void prepend(task *t) {
  t->next_ready = first_ready;
  first_ready = t;
  if (!last_ready) last_ready = t;
  t->is_ready = true;
}

void make_ready(task *t) {
  if (t->is_ready) return;
  append(t);
  if (is_searched) note_ready(t);
}

void make_unready(task *t) {
  task *before = NULL, *at = first_ready;
  if (!t->is_ready) return;
  while (at != t) {
    before = at;
    at = at->next_ready;
  }
  if (before) {
    before->next_ready = t->next_ready;
  } else {
    first_ready = t->next_ready;
  }
  if (last_ready == t) last_ready = before;
  t->is_ready = false;
}

/* ---- Choices ---- */

/* The generator splitmix64, by Steele, Lea and Flood. */
static uint64_t next_random(void) {
  uint64_t z = random_state += UINT64_C(0x9e3779b97f4a7c15);
  z = (z ^ z >> 30) * UINT64_C(0xbf58476d1ce4e5b9);
  z = (z ^ z >> 27) * UINT64_C(0x94d049bb133111eb);
  return z ^ z >> 31;
}

static unsigned choose_by_seed(unsigned count) { return count < 2 ? 0 : (unsigned)(next_random() % count); }

static unsigned choose(const candidates *those) {
  switch (chosen) {
    case BY_SEED: return choose_by_seed(those->count);
    case BY_LIST: return choose_by_list(those);
    case BY_SEARCH: return choose_by_search(those);
    default: return 0;
  }
}

/* A task that was completed or aborted asks for nothing more, so it goes on at once. */
static task *find_ending(void) {
  task *t = first_ready;
  while (t && !t->is_completed && !is_gone(t)) t = t->next_ready;
  return t;
}

/* The first moment at which anything is due, in the kernel or outside. */
static bool next_moment(int64_t *due) {
  int64_t outside;
  bool is_any = !ada_next_due(&kernel, due);
  if (!next_outside(&outside)) return is_any;
  if (!is_any || outside < *due) *due = outside;
  return true;
}

static void find_candidates(candidates *those, const task *before, bool has_due) {
  task *t;
  those->tasks = 0;
  for (t = first_ready; t && those->tasks < MOST_TASKS; t = t->next_ready) those->task[those->tasks++] = t;
  those->count = those->tasks + (has_due && (has_any_time || !those->tasks));
  those->goes_on = those->tasks && those->task[0] == before;
}

static void pass_time(int64_t due) {
  tick_to(due > moment ? due : moment + 1);
  wake_outside(moment);
}

/* The task that goes on, which isn't among those that would any more; a null pointer if none does, nor ever will. */
static task *choose_next(const task *before) {
  candidates those;
  for (;;) {
    int64_t due = 0;
    unsigned at;
    bool has_due;
    task *next = find_ending();
    if (next) {
      make_unready(next);
      return next;
    }
    has_due = next_moment(&due);
    find_candidates(&those, before, has_due);
    if (!those.count) return NULL;
    at = choose(&those);
    if (is_searched) note_step(&those, at);
    write_choice(at < those.tasks ? those.task[at]->name : "tick");
    if (at < those.tasks) {
      make_unready(those.task[at]);
      return those.task[at];
    }
    pass_time(due);
  }
}

/* How many picks of the alternatives make a difference: as many as could be taken now; or if none could, as many as
   open ones are for the entry of one of them. */
static uint32_t picks_of(const task *by, const ada_choice *choices, size_t count) {
  uint32_t ready = 0, most = 1;
  size_t i, j;
  for (i = 0; i < count; i++) {
    uint32_t queued = 0, alike = 0;
    if (!choices[i].is_open) continue;
    ada_queued(&kernel, by->number, choices[i].family, choices[i].index, &queued);
    ready += queued > 0;
    for (j = 0; j < count; j++) {
      alike += choices[j].is_open && choices[j].family == choices[i].family && choices[j].index == choices[i].index;
    }
    if (alike > most) most = alike;
  }
  return ready ? ready : most;
}

/* Which of the alternatives that could be taken a wait takes. */
uint32_t choose_pick(const task *by, const ada_choice *choices, size_t count) {
  uint32_t picks = picks_of(by, choices, count), pick = 0;
  if (chosen == BY_SEED) pick = choose_by_seed(picks);
  if (chosen == BY_LIST) pick = pick_by_list(picks);
  if (chosen == BY_SEARCH) pick = pick_by_search(picks);
  if (is_searched) note_pick(pick, picks);
  write_pick(pick);
  return pick;
}

/* ---- The turn ---- */

/* Nobody goes on: whoever waits outside of the kernel may still be woken by a thread that isn't a task. */
static void leave_turn(void) {
  turn = NULL;
  if (!waits_anyone_outside()) {
    end_stuck();
  } else if (is_searched) {
    end_outside();
  }
}

static void give_turn(task *t) {
  turn = t;
  turns++;
  sem_post(&t->go);
}

/* A task that waited outside of the kernel was woken by something that isn't a task. */
void give_turn_if_free(void) {
  task *next = turn ? NULL : choose_next(NULL);
  if (next) give_turn(next);
}

/* Gives the turn on. Returns with the lock, once the task has the turn again; at once if there is no task. */
void pass_turn(task *me, bool goes_on) {
  task *next;
  if (me && goes_on && me->goes_last) append(me);
  if (me && goes_on && !me->goes_last) prepend(me);
  if (me) me->goes_last = me->has_asked = false;
  next = choose_next(me);
  if (next && next == me) {
    turns++;
  } else {
    if (next) give_turn(next);
    if (!next) leave_turn();
    if (!me) return;
    give_lock();
    await_turn(me);
    take_lock();
  }
  begin_turn(me);
}

/* Before a question. A task that asks for the second time, and nothing else in between, goes on after the others: it
   may wait for them. */
void ask_for_turn(task *me) {
  bool has_asked;
  if (!is_controlled || !me || is_gone(me) || me->is_completed) return;
  has_asked = me->has_asked;
  me->goes_last = has_asked;
  pass_turn(me, true);
  me->has_asked = true;
}

/* The main program has ended: what is left ends as it likes. */
void end_schedule(void) {
  if (!is_controlled) return;
  if (is_searched) note_finish();
  check_list_over();
  flush_choices();
  __atomic_store_n(&is_controlled, false, __ATOMIC_RELAXED);
  while (first_ready) {
    task *t = first_ready;
    make_unready(t);
    t->is_let_go = true;
    sem_post(&t->go);
  }
}
