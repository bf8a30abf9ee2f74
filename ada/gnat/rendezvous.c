/* SPDX-License-Identifier: MIT */
/* Calls, accept and select statements, delays and attributes, as the bodies in Ada ask for them. */

#include "glue.h"

/* An accept alternative as the bodies in Ada have it: the number of the entry, 0 if it is closed. */
typedef struct {
  int entry, has_no_body;
} alternative;

static uint32_t family_of(const task *t, unsigned entry) { return (entry - 1) / t->chunk; }

static int32_t index_of(const task *t, unsigned entry) { return (int32_t)((entry - 1) % t->chunk); }

/* ---- Calls ---- */

static int call(task *me, uint32_t patience, int64_t nanoseconds) {
  task *callee = me->callee;
  uint64_t at;
  int64_t duration = 0;
  int32_t code;
  bool goes_on;
  if (patience == ADA_TIMED) {
    duration = begin_timed(nanoseconds);
  } else {
    tick_if_due();
  }
  me->is_timed = patience == ADA_TIMED;
  note_change(me);
  note_change(callee);
  code = ada_call(&kernel, me->number, callee->number, family_of(callee, me->entry), index_of(callee, me->entry),
                  patience, duration, &at);
  goes_on = code || kernel.goes_on;
  if (!code) {
    me->asked = A_CALL;
    write_call(me, patience, duration);
    follow();
  }
  if (patience == ADA_TIMED) end_timed(me, duration, goes_on);
  return code ? refuse(me, code, "a call") : OK;
}

/* Calls an entry; the parameters lie at an address until the call is over. */
int adagnat_call(unsigned place, unsigned entry, uint32_t patience, int64_t nanoseconds, void *parameters) {
  task *me = self(), *callee;
  if (!me || !place) return NO_TASK;
  take_lock();
  callee = task_at(place);
  if (is_gone(me) || me->is_completed) {
    me->answer = GONE;
  } else if (callee->is_released) {
    me->answer = RAISES_TASKING_ERROR;
  } else {
    me->callee = callee;
    me->entry = entry;
    me->parameters = parameters;
    me->exception = NULL;
    me->answer = call(me, patience, nanoseconds);
  }
  return stay(me);
}

/* The exception that ended the rendezvous of the task's latest call. */
void *adagnat_exception(void) { return self() ? self()->exception : NULL; }

/* ---- Accept and select statements ---- */

/* The open alternatives; if all are closed, a closed one for some entry, since the kernel asks for an alternative.
   Fails if there are too many. */
static bool take_alternatives(task *me, const alternative *those, unsigned count, ada_choice *choices) {
  unsigned i, n = 0;
  for (i = 0; i < count; i++) {
    if (those[i].entry <= 0) continue;
    if (n == MOST_CHOICES) return false;
    me->choice[n].entry = (unsigned)those[i].entry;
    me->choice[n].alternative = i + 1;
    me->choice[n].has_no_body = those[i].has_no_body;
    choices[n].family = family_of(me, me->choice[n].entry);
    choices[n].index = index_of(me, me->choice[n].entry);
    choices[n++].is_open = 1;
  }
  me->choices = n;
  if (n) return true;
  choices[0].family = 0;
  choices[0].index = 0;
  choices[0].is_open = 0;
  return true;
}

static int wait(task *me, const ada_choice *choices, int64_t nanoseconds) {
  size_t count = me->choices ? me->choices : 1;
  ada_pause pause = {0, 1};
  uint32_t pick;
  uint64_t at;
  int32_t code;
  bool is_timed = me->tail == ADA_DELAYS, goes_on;
  if (is_timed) {
    pause.duration = begin_timed(nanoseconds);
  } else {
    tick_if_due();
  }
  note_change(me);
  pick = is_controlled ? choose_pick(me, choices, count) : 0;
  code = ada_wait(&kernel, me->number, choices, count, me->tail, &pause, is_timed, pick, &at);
  goes_on = code || kernel.goes_on;
  if (!code) {
    me->asked = A_WAIT;
    write_wait(me, pick, choices, count, me->tail, pause.duration);
    follow();
  }
  if (is_timed) end_timed(me, pause.duration, goes_on);
  return code ? refuse(me, code, "a wait") : OK;
}

/* Waits selectively. `taken` is set to the place of the alternative that was taken, from 1, or to 0. */
int adagnat_wait(unsigned count, const alternative *those, uint32_t tail, int64_t nanoseconds, void **parameters,
                 unsigned *taken) {
  task *me = self();
  ada_choice choices[MOST_CHOICES];
  int answer;
  *taken = 0;
  *parameters = NULL;
  if (!me) return NO_TASK;
  take_lock();
  me->taken = 0;
  if (is_gone(me) || me->is_completed) {
    me->answer = GONE;
  } else if (!take_alternatives(me, those, count, choices)) {
    me->answer = TOO_MANY_ALTERNATIVES;
  } else {
    me->tail = tail;
    me->answer = wait(me, choices, nanoseconds);
  }
  answer = stay(me);
  *taken = me->taken;
  *parameters = me->parameters;
  return answer;
}

/* Ends the innermost rendezvous that the task serves, by an exception if there is one. If the task was aborted the
   kernel has ended it already, and the caller goes on now. If only the accept statement is aborted, by an
   asynchronous select around it, the caller has no exception of its own. */
int adagnat_end(void *exception, int is_by_abort) {
  task *me = self(), *caller;
  if (!me) return NO_TASK;
  take_lock();
  me->answer = OK;
  caller = caller_of(me, 0);
  if (is_gone(me)) {
    leave_innermost(me);
  } else if (caller) {
    tick_if_due();
    caller->exception = is_by_abort ? NULL : exception;
    end_innermost(me, exception != NULL);
  }
  let_go();
  return stay(me);
}

/* ---- Delays ---- */

/* A thread that isn't a task's just sleeps, and so does one that finalizes objects of a completed task. */
int adagnat_delay(int64_t nanoseconds) {
  task *me = self();
  uint64_t at;
  int64_t duration;
  int32_t code;
  bool goes_on;
  if (!me) return sleep_for(nanoseconds);
  take_lock();
  if (is_gone(me)) return stay(me);
  if (me->is_completed) {
    give_lock();
    return sleep_for(nanoseconds);
  }
  duration = begin_timed(nanoseconds);
  note_change(me);
  me->goes_last = true;
  code = ada_delay(&kernel, me->number, duration, &at);
  goes_on = code || kernel.goes_on;
  me->answer = code ? refuse(me, code, "a delay") : OK;
  if (!code) {
    write_delay(me, duration);
    follow();
  }
  end_timed(me, duration, goes_on);
  return stay(me);
}

/* ---- Attributes ---- */

int adagnat_is_callable(unsigned place) {
  const task *t;
  uint32_t is_callable = 0;
  take_lock();
  ask_for_turn(self());
  t = task_at(place);
  if (t) note_change(t);
  if (t) note_look(t);
  if (t && !t->is_released) ada_callable(&kernel, t->number, &is_callable);
  give_lock();
  return (int)is_callable;
}

/* The thread of a task finalizes objects after the kernel has terminated the task. That comes first, but for the run
   time's own servers: nobody waits for their threads, and they depend on nothing any more. */
int adagnat_is_terminated(unsigned place) {
  const task *t;
  uint32_t is_terminated;
  take_lock();
  ask_for_turn(self());
  t = task_at(place);
  if (t) note_look(t);
  is_terminated = t != NULL;
  if (t && !t->is_released) ada_terminated(&kernel, t->number, &is_terminated);
  if (t && t->has_thread && !t->is_server) is_terminated = 0;
  give_lock();
  return (int)is_terminated;
}

/* COUNT of an entry of the task's own. */
int adagnat_count(unsigned entry) {
  task *me = self();
  uint32_t count = 0;
  if (!me) return 0;
  take_lock();
  ask_for_turn(me);
  ada_queued(&kernel, me->number, family_of(me, entry), index_of(me, entry), &count);
  give_lock();
  return (int)count;
}

/* The control block of the caller of a rendezvous that the task serves, the innermost being 0; or a null pointer. */
void *adagnat_caller(unsigned depth) {
  const task *caller;
  if (!self()) return NULL;
  take_lock();
  caller = caller_of(self(), depth);
  give_lock();
  return caller ? caller->block : NULL;
}

/* Whether the task ends by its terminate alternative. */
int adagnat_has_quit(void) { return self() && self()->has_quit; }
