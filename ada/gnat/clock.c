/* SPDX-License-Identifier: MIT */
/* Time. Requests are made at the moment of the host's clock. What is due is ticked to before any request, or by a
   thread that sleeps until then. */

#define _POSIX_C_SOURCE 200809L
#include "glue.h"
#include <errno.h>
#include <signal.h>
#include <stdlib.h>
#include <time.h>

#define NANOSECONDS INT64_C(1000000)  /* of a millisecond */
#define MILLISECONDS INT64_C(1000)    /* of a second */
/* A delay that is due later is never over; the kernel's last moment lies beyond. */
#define LATEST INT64_C(8000000000000)

int64_t moment;

static struct timespec start;
/* No task waits for an earlier moment. */
static int64_t bound = INT64_MAX;
/* When the thread looks again: no later than the bound. */
static int64_t sleeps_until = INT64_MAX;
static bool has_thread;
static pthread_cond_t earlier;

void begin_clock(void) {
  pthread_condattr_t attributes;
  clock_gettime(CLOCK_MONOTONIC, &start);
  pthread_condattr_init(&attributes);
  pthread_condattr_setclock(&attributes, CLOCK_MONOTONIC);
  pthread_cond_init(&earlier, &attributes);
  pthread_condattr_destroy(&attributes);
}

/* Where the schedule is chosen, time passes by ticks alone. */
static int64_t present_nanoseconds(void) {
  struct timespec now;
  if (is_controlled) return moment * NANOSECONDS;
  clock_gettime(CLOCK_MONOTONIC, &now);
  return (int64_t)(now.tv_sec - start.tv_sec) * MILLISECONDS * NANOSECONDS + (now.tv_nsec - start.tv_nsec);
}

/* The moment in milliseconds from the beginning. */
int64_t present(void) { return present_nanoseconds() / NANOSECONDS; }

void tick_to(int64_t now) {
  uint64_t at;
  int32_t code = ada_tick(&kernel, now, &at);
  if (code) {
    refuse(NULL, code, "a tick");
    return;
  }
  moment = now;
  write_tick(now);
  follow();
}

/* The first moment for which a task waits. */
static void find_bound(void) {
  int64_t due;
  bound = ada_next_due(&kernel, &due) ? INT64_MAX : due;
}

/* Before a request. Nothing is due mostly, and then the clock isn't even read. */
void tick_if_due(void) {
  int64_t now;
  if (bound == INT64_MAX) return;
  now = present();
  if (bound > now) return;
  find_bound();
  if (bound > now) return;
  tick_to(now);
  find_bound();
}

/* Before a request that lasts so long: its duration in milliseconds, such that it isn't over too early. */
int64_t begin_timed(int64_t nanoseconds) {
  int64_t now = present_nanoseconds(), floor = now / NANOSECONDS, due = floor;
  tick_if_due();
  if (nanoseconds > 0) {
    due = nanoseconds / NANOSECONDS >= LATEST ? LATEST : (now + nanoseconds + NANOSECONDS - 1) / NANOSECONDS;
  } else if (floor > moment) {
    tick_to(floor);
  }
  ada_set_clock(&kernel, floor > moment ? floor : moment);
  return due > kernel.now ? due - kernel.now : 0;
}

static struct timespec time_of(int64_t milliseconds) {
  struct timespec t = start;
  int64_t nanoseconds = start.tv_nsec + milliseconds % MILLISECONDS * NANOSECONDS;
  t.tv_sec += (time_t)(milliseconds / MILLISECONDS + nanoseconds / (MILLISECONDS * NANOSECONDS));
  t.tv_nsec = (long)(nanoseconds % (MILLISECONDS * NANOSECONDS));
  return t;
}

/* The thread ticks to what nobody else has ticked to. */
static void *run_clock(void *nothing) {
  (void)nothing;
  take_lock();
  for (;;) {
    struct timespec until;
    tick_if_due();
    look_if_stuck();
    sleeps_until = bound;
    until = time_of(bound < LATEST ? bound : LATEST);
    wait_with_lock(&earlier, &until);
  }
  return NULL;
}

/* Without the kernel. */
int sleep_for(int64_t nanoseconds) {
  struct timespec rest;
  rest.tv_sec = nanoseconds > 0 ? (time_t)(nanoseconds / (MILLISECONDS * NANOSECONDS)) : 0;
  rest.tv_nsec = nanoseconds > 0 ? (long)(nanoseconds % (MILLISECONDS * NANOSECONDS)) : 0;
  while (nanosleep(&rest, &rest) && errno == EINTR) continue;
  return OK;
}

/* Makes a thread that takes no signal: those are the program's. */
void start_helper(void *(*run)(void *)) {
  pthread_t thread;
  sigset_t all, old;
  sigfillset(&all);
  pthread_sigmask(SIG_SETMASK, &all, &old);
  if (pthread_create(&thread, NULL, run, NULL)) {
    fputs("adatask: a thread of the run time can't be made\n", stderr);
    abort();
  }
  pthread_detach(thread);
  pthread_sigmask(SIG_SETMASK, &old, NULL);
}

/* After such a request: the thread may have to look earlier, unless the task goes on. */
void end_timed(task *me, int64_t duration, bool goes_on) {
  int64_t due = kernel.now + duration;
  ada_set_clock(&kernel, ADA_NO_CLOCK);
  me->due = due;
  if (goes_on || is_controlled || due >= bound) return;
  bound = due;
  if (!has_thread) {
    has_thread = true;
    start_helper(run_clock);
  } else if (bound < sleeps_until) {
    pthread_cond_signal(&earlier);
  }
}
