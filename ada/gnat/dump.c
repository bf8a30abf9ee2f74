/* SPDX-License-Identifier: MIT */
/* Who waits for whom, in the words of `adascope explain`: where nobody goes on any more, and when it is asked for by
   the signal SIGQUIT. */

#define _POSIX_C_SOURCE 200809L
#include "schedule.h"
#include <signal.h>
#include <stdlib.h>
#include <string.h>
#include <unistd.h>

bool is_stuck;

static sem_t is_wanted;

/* ---- Parts of sentences ---- */

/* The tasks for which one waits, by name. */
static void say_awaited(const task *t) {
  uint64_t number = 0, next;
  const char *before = " ";
  int32_t code = ada_awaited(&kernel, t->number, 0, &number);
  if (code) fputs(" nobody", stderr);
  while (!code) {
    code = ada_awaited(&kernel, t->number, number + 1, &next);
    fprintf(stderr, "%s%s", before, name_of_number(number));
    number = next;
    before = code ? "" : ada_awaited(&kernel, t->number, number + 1, &next) ? " and " : ", ";
  }
}

static void say_since(uint64_t position) { fprintf(stderr, " since event %llu", (unsigned long long)position); }

static void say_limit(const task *t) {
  if (t->is_timed) fprintf(stderr, ", at most until moment %lld", (long long)t->due);
}

/* How many calls are queued where a task's call is. */
static unsigned queued(const task *t) {
  const task *callee = t->callee;
  uint32_t count = 0;
  uint32_t family = (t->entry - 1) / callee->chunk;
  ada_queued(&kernel, callee->number, family, (int32_t)((t->entry - 1) % callee->chunk), &count);
  return count;
}

static void say_queued(const task *t, uint64_t position) {
  const char *callee = t->callee->name;
  unsigned count = queued(t);
  fprintf(stderr, " waits in its call of %s.E%u", callee, t->entry);
  say_since(position);
  say_limit(t);
  if (count > 1) {
    fprintf(stderr, ", one of %u in the queue", count);
  } else {
    fputs(", alone in the queue", stderr);
  }
  fprintf(stderr, "; %s would have to accept it", callee);
}

static void say_wait(const task *t, uint64_t position) {
  unsigned i;
  fputs(" waits", stderr);
  say_since(position);
  for (i = 0; i < t->choices; i++) {
    fprintf(stderr, "%s %s.E%u", i ? " or" : " for a call of", t->name, t->choice[i].entry);
  }
  if (t->tail == ADA_TERMINATE) fputs(t->choices ? ", or to terminate" : " to terminate", stderr);
  if (t->tail == ADA_DELAYS) fprintf(stderr, "%s moment %lld", t->choices ? ", or for" : " for", (long long)t->due);
  if (is_stuck) fputs("; no task runs that could call it", stderr);
}

/* The thread of a task that the kernel doesn't hold up. */
static void say_thread(const task *t) {
  ada_stay why = {0, 0, 0};
  ada_threads_why(&threads, &kernel, t->place, &why);
  if (why.is_served) {
    fputs(" goes on when the accept statement with its call is left", stderr);
  } else if (why.awaits_threads) {
    fputs(" goes on when the threads of its dependents are over", stderr);
  } else if (is_controlled && t->condition) {
    fputs(" waits for something that isn't a task", stderr);
  } else if (is_controlled && t == turn) {
    fputs(" has the turn", stderr);
  } else if (is_controlled && t->is_ready) {
    fputs(" would go on, if it had the turn", stderr);
  } else if (t->gone) {
    fputs(" was aborted, and its thread goes on to its next tasking operation", stderr);
  } else {
    fputs(" runs, or waits for something that isn't a task", stderr);
  }
}

static void say_dependents(const task *t, const char *text) {
  fputs(text, stderr);
  say_awaited(t);
  fputs(", which would have to terminate", stderr);
}

/* ---- Sentences ---- */

static void say_reason(const task *t, const ada_reason *reason) {
  switch (reason->kind) {
    case ADA_NOT_STARTED:
      fputs(" was made, and never activated;", stderr);
      say_awaited(t);
      fputs(" would have to activate it", stderr);
      break;
    case ADA_ACTIVATING:
      fputs(" waits", stderr);
      say_since(reason->position);
      fputs(" for the activation of", stderr);
      say_awaited(t);
      fputs(", which would have to come up", stderr);
      break;
    case ADA_QUEUED: say_queued(t, reason->position); break;
    case ADA_IN_RENDEZVOUS:
      fputs(" is in a rendezvous", stderr);
      say_since(reason->position);
      fprintf(stderr, ": %s serves its call of %s.E%u, and would have to end it", t->callee->name, t->callee->name,
              t->entry);
      break;
    case ADA_IN_WAIT: say_wait(t, reason->position); break;
    case ADA_DELAYED:
      fputs(" is delayed", stderr);
      say_since(reason->position);
      fprintf(stderr, " until moment %lld", (long long)t->due);
      break;
    case ADA_LEAVING:
      fputs(" waits at the end of a block", stderr);
      say_since(reason->position);
      say_dependents(t, " for");
      break;
    case ADA_AWAITS_DEPENDENTS: say_dependents(t, " is completed, and waits for"); break;
    default: say_thread(t); break;
  }
}

static bool is_live(const task *t) {
  uint32_t is_terminated = 1;
  if (!t->block || t->is_released) return false;
  return t->has_thread || (!ada_terminated(&kernel, t->number, &is_terminated) && !is_terminated);
}

/* Whom a task waits for in its call; a null pointer if it does for nobody, or for more. */
static const task *partner_of(const task *t) {
  ada_reason reason;
  if (!is_live(t) || ada_reason_of(&kernel, t->number, &reason)) return NULL;
  return reason.kind == ADA_QUEUED || reason.kind == ADA_IN_RENDEZVOUS ? t->callee : NULL;
}

/* A circle of calls is said once, of the task in it that was made first. */
static void say_circle(const task *first) {
  const task *t = partner_of(first);
  unsigned steps = 0;
  while (t && t != first && t->number > first->number && steps++ < MOST_TASKS) t = partner_of(t);
  if (!t || t != first) return;
  fprintf(stderr, "  A circle: %s", first->name);
  t = first;
  do {
    t = partner_of(t);
    fprintf(stderr, " waits for %s", t->name);
    fputs(t == first ? ".\n" : ", which", stderr);
  } while (t != first);
}

void say_all(void) {
  unsigned place;
  for (place = 1; place < places; place++) {
    const task *t = task_at(place);
    ada_reason reason;
    if (!is_live(t) || ada_reason_of(&kernel, t->number, &reason)) continue;
    fprintf(stderr, "  %s", t->name);
    say_reason(t, &reason);
    fputs(".\n", stderr);
  }
  for (place = 1; place < places; place++) say_circle(task_at(place));
}

/* ---- A program that is stuck ---- */

static bool hangs_on(void) {
  const char *wish = getenv("ADATASK_STUCK");
  return wish && !strcmp(wish, "hang");
}

/* Ends the program, or leaves it as it is. */
void end_stuck(void) {
  if (is_stuck) return;
  is_stuck = true;
  fflush(NULL);
  if (is_searched) {
    flush_choices();
    _exit(STUCK_STATUS);
  }
  fputs("adatask: stuck: no task goes on, and no moment is due.\n", stderr);
  say_all();
  flush_files();
  flush_choices();
  if (!hangs_on()) _exit(STUCK_STATUS);
}

/* ---- A dump that is asked for ---- */

static void want_dump(int signal_number) {
  (void)signal_number;
  sem_post(&is_wanted);
}

static void *run_dumps(void *nothing) {
  sigset_t quit;
  (void)nothing;
  sigemptyset(&quit);
  sigaddset(&quit, SIGQUIT);
  pthread_sigmask(SIG_UNBLOCK, &quit, NULL);
  for (;;) {
    while (sem_wait(&is_wanted)) continue;
    take_lock();
    fputs("adatask: the tasks of the program:\n", stderr);
    say_all();
    flush_files();
    give_lock();
  }
  return NULL;
}

/* Unless the program has its own use of the signal. */
void begin_dumps(void) {
  struct sigaction action;
  if (sigaction(SIGQUIT, NULL, &action) || action.sa_handler != SIG_DFL || sem_init(&is_wanted, 0, 0)) return;
  memset(&action, 0, sizeof action);
  action.sa_handler = want_dump;
  action.sa_flags = SA_RESTART;
  if (!sigaction(SIGQUIT, &action, NULL)) start_helper(run_dumps);
}
