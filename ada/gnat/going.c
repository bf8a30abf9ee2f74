/* SPDX-License-Identifier: MIT */
/* Who goes on, as the table of threads says. One lock guards the kernel and the tables. Whoever asks something of the
   kernel wakes those who may go on after that, and fills in what they are answered; so a thread that is woken needs no
   lock. */

#define _POSIX_C_SOURCE 200809L
#include "glue.h"
#include <sched.h>
#include <stdlib.h>

/* How often a thread that has to stay looks whether it may go on, before it sleeps. */
enum { LOOKS = 4 };

ada_kernel kernel = ADA_NO_KERNEL;
ada_threads threads = ADA_NO_THREADS;
bool has_finished;
void (*mark_aborted)(void *block);

static pthread_mutex_t lock = PTHREAD_MUTEX_INITIALIZER;
static __thread task *own;
/* Whether this thread marks tasks as aborted, with the lock. */
static __thread bool is_marking;
/* Those whose threads may go on once the lock is given. */
static task *to_wake;
/* Whether there ever was an abort, and since then the newest event that was looked at. Without one, nobody is looked
   for whom it completed. */
static bool has_aborted;
static uint64_t looked;

task *self(void) { return own; }
void set_self(task *t) { own = t; }
bool has_lock(void) { return is_marking; }
void take_lock(void) { pthread_mutex_lock(&lock); }

/* Without the lock: until the task gets the turn, where the schedule is chosen. */
void await_turn(task *me) {
  while (sem_wait(&me->go)) continue;
}

/* A task that was woken may end at once, so it is looked at before that. */
static void wake(task *t) {
  while (t) {
    task *next = t->next_to_wake;
    sem_post(&t->go);
    t = next;
  }
}

/* Threads are woken without the lock, so that they don't wait for it. */
void give_lock(void) {
  task *t = to_wake;
  to_wake = NULL;
  pthread_mutex_unlock(&lock);
  wake(t);
}

/* Waits for a condition, or until a moment; the lock is given meanwhile. */
void wait_with_lock(pthread_cond_t *condition, const struct timespec *until) {
  task *t = to_wake;
  to_wake = NULL;
  wake(t);
  pthread_cond_timedwait(condition, &lock, until);
}

/* The limits of the kernel have answers of their own. A want of memory is one of them; other causes are no program's
   fault. */
int refuse(const task *by, int32_t code, const char *what) {
  const char *name = ada_code_name(code);
  switch (code) {
    case ADA_TOO_MANY_TASKS: return TOO_MANY_TASKS;
    case ADA_TOO_MANY_SLOTS: return TOO_MANY_ENTRIES;
    case ADA_TOO_DEEP: return TOO_DEEP;
    case ADA_SAME_FAMILY_NESTED: return NESTED_ACCEPT;
    case ADA_OUT_OF_MEMORY:
    case ADA_NOT_COMPACTED:
    case ADA_NO_ROOM: return NO_MEMORY;
    default: break;
  }
  fprintf(stderr, "adatask: %s of task %s is refused: %s\n", what, by ? by->name : "nobody", name ? name : "?");
  return REFUSED;
}

/* Whether the task has ended, though it didn't ask for that. One that was given up has. */
static bool has_been_ended(const task *t) {
  uint32_t is_callable = 0;
  return !t->is_completed && (ada_callable(&kernel, t->number, &is_callable) || !is_callable);
}

/* Whether the task was aborted, or terminated with others; without an abort only at a terminate alternative. */
bool is_gone(task *t) {
  if (has_aborted && !t->gone) t->gone = has_been_ended(t);
  return t->gone;
}

/* An abort was asked for, by the event at a position. */
void note_abort(uint64_t at) {
  if (!has_aborted) looked = at - 1;
  has_aborted = true;
}

/* Whom an abort completed: with it, or with the end of a rendezvous in which such a task had called. */
static void mark_those_halted(void) {
  uint64_t last = ada_events(&kernel);
  for (; looked < last; looked++) {
    ada_event event;
    task *t;
    if (ada_event_at(&kernel, looked + 1, &event) || event.kind != ADA_HALTED) continue;
    t = task_numbered(event.task);
    if (!t) continue;
    t->was_halted = true;
    is_marking = true;
    if (t->block && t->has_thread) mark_aborted(t->block);
    is_marking = false;
  }
}

/* After a request that was accepted. */
static void settle(void) {
  write_events();
  ada_threads_settle(&threads, &kernel);
  if (has_aborted) mark_those_halted();
  if (is_searched) note_ends();
}

/* The task whose call began the accept statement of a depth, the innermost being 0; a null pointer if there is none. */
task *caller_of(const task *server, unsigned depth) {
  uint32_t place;
  return ada_threads_caller(&threads, server->place, depth, &place) ? NULL : task_at(place);
}

/* The caller goes on only after the thread of the accept statement, which uses its parameters. */
static void begin_rendezvous(task *server, task *caller) {
  if (!ada_threads_serve(&threads, server->place, caller->place)) return;
  fputs("adatask: there is no memory for a rendezvous\n", stderr);
  abort();
}

/* The thread has left its innermost accept statement, if it is within one. */
void leave_innermost(task *server) {
  uint32_t caller;
  ada_threads_serve_no_more(&threads, server->place, &caller);
}

static void note_rendezvous(const task *server) {
  const task *caller = is_searched ? caller_of(server, 0) : NULL;
  note_change(server);
  if (caller) note_change(caller);
}

/* Asks for the end of the innermost rendezvous. */
void end_innermost(task *server, bool is_raised) {
  uint64_t at;
  int32_t code;
  note_rendezvous(server);
  code = ada_end(&kernel, server->number, is_raised, &at);
  leave_innermost(server);
  if (code) {
    server->answer = refuse(server, code, "the end of a rendezvous");
  } else {
    write_asked(server, is_raised ? "raise" : "end");
    settle();
  }
}

/* An accept statement without statements ends with the request that began it: no thread has to be woken for that. But
   where the schedule is chosen others may come between, so it ends when the acceptor has the turn. */
static void take_wait(task *t, const ada_outcome *outcome) {
  unsigned number = outcome->number;
  task *caller;
  t->taken = 0;
  if (outcome->kind == ADA_GOT_PROGRAM_ERROR) t->answer = RAISES_PROGRAM_ERROR;
  if (outcome->kind != ADA_HAS_ACCEPTED) return;
  caller = task_numbered(outcome->caller);
  t->taken = t->choice[number].alternative;
  begin_rendezvous(t, caller);
  t->parameters = caller->parameters;
  if (!t->choice[number].has_no_body) return;
  if (is_controlled) {
    t->is_to_end = true;
  } else {
    end_innermost(t, false);
  }
}

static int answer_to_call(uint32_t kind) {
  switch (kind) {
    case ADA_GOT_TASKING_ERROR: return RAISES_TASKING_ERROR;
    case ADA_WAS_CANCELLED: return WAS_CANCELLED;
    case ADA_GOT_EXCEPTION: return RAISES_EXCEPTION;
    default: return OK;
  }
}

/* What a task that goes on is answered. */
static void take_outcome(task *t) {
  int asked = t->asked;
  ada_outcome outcome;
  t->asked = NOTHING;
  if (asked == A_WAIT && t->tail == ADA_TERMINATE && has_been_ended(t)) {
    t->gone = true;
    t->has_quit = !t->was_halted;
  }
  if (is_gone(t)) {
    t->answer = GONE;
  } else if (asked != NOTHING && !ada_outcome_of(&kernel, t->number, &outcome)) {
    t->answer = OK;
    if (asked == A_CALL) t->answer = answer_to_call(outcome.kind);
    if (asked == A_WAIT) take_wait(t, &outcome);
    if (asked == AN_ACTIVATION && outcome.kind == ADA_ACTIVATION_FAILED) t->answer = RAISES_TASKING_ERROR;
  }
}

/* Wakes those who may go on; accept statements without statements make more of them. */
void let_go(void) {
  uint32_t place;
  while (!ada_threads_next(&threads, &kernel, &place)) {
    task *t = task_at(place);
    take_outcome(t);
    if (is_controlled) {
      make_ready(t);
    } else {
      t->next_to_wake = to_wake;
      to_wake = t;
    }
  }
}

/* A task gets the turn, where the schedule is chosen. If it was aborted the kernel has ended its rendezvous. */
void begin_turn(task *me) {
  if (!me->is_to_end) return;
  me->is_to_end = false;
  if (is_gone(me)) {
    leave_innermost(me);
  } else {
    end_innermost(me, false);
  }
  let_go();
}

/* After a request that was accepted: whom it lets go on, but for who asked for it. */
void follow(void) {
  settle();
  let_go();
}

/* Who is to let a thread go on often does so at once, and to sleep and be woken costs both more than a few looks. */
static void await_go(task *me) {
  int looks;
  for (looks = 0; looks < LOOKS; looks++) {
    sched_yield();
    if (!sem_trywait(&me->go)) return;
  }
  while (sem_wait(&me->go)) continue;
}

/* Gives the lock, and stays here until the thread may go on: what was asked is answered then. */
int stay(task *me) {
  uint32_t goes_on = 1;
  int answer;
  ada_threads_stay(&threads, &kernel, me->place, &goes_on);
  if (!goes_on && !is_controlled) {
    look_if_stuck();
    give_lock();
    await_go(me);
    return me->answer;
  }
  if (goes_on) {
    take_outcome(me);
    let_go();
  }
  if (is_controlled) pass_turn(me, goes_on);
  answer = me->answer;
  give_lock();
  return answer;
}

/* Nobody goes on, nobody is about to, and no moment will come. */
void look_if_stuck(void) {
  int64_t due;
  if (has_finished || ada_threads_anyone_goes(&threads) || !ada_next_due(&kernel, &due)) return;
  end_stuck();
}
