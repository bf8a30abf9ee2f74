/* SPDX-License-Identifier: MIT */
/* What a program does that isn't asked of the kernel, where its schedule is chosen: it looks at clocks, which show the
   kernel's moment, and it waits for condition variables, as GNAT's protected objects do, and the turn is given on.
   Anything else that blocks is beyond control: such a run is ended after a while. Without a schedule that is chosen all
   calls go to the C library. */

#define _GNU_SOURCE
#include "schedule.h"
#include <dlfcn.h>
#include <errno.h>
#include <stdlib.h>
#include <sys/syscall.h>
#include <sys/time.h>
#include <threads.h>
#include <time.h>
#include <unistd.h>

#define NANOSECONDS INT64_C(1000000)  /* of a millisecond */
#define MICROSECONDS INT64_C(1000)    /* of a millisecond */
#define MILLISECONDS INT64_C(1000)    /* of a second */
/* When a simulated day begins: on 17 February 1983, in seconds. The other clock begins at 0. */
#define FIRST_SECOND INT64_C(414288000)

/* How long nobody may ask for anything until the run is ended, in seconds, if nothing else is said. */
enum { PATIENCE = 10 };

/* ---- The C library's own ---- */

typedef void (*any_function)(void);

static void *find_version(const char *name) {
  void *found = dlsym(RTLD_NEXT, name), *later;
  if (!found || found != dlvsym(RTLD_NEXT, name, "GLIBC_2.2.5")) return found;
  later = dlvsym(RTLD_NEXT, name, "GLIBC_2.3.2");
  return later ? later : found;
}

/* The one that would be called if this file didn't define it. Of those that GNU's library has in two versions the
   later one. */
static any_function find_real(const char *name) {
  union {
    void *object;
    any_function function;
  } found;
  found.object = find_version(name);
  return found.function;
}

/* Declares a function that finds the C library's own, once. In a program that is linked statically there is none. */
#define REAL(name)                                                            \
  static any_function real_##name(void) {                                     \
    static any_function found;                                                \
    static bool is_looked_for;                                                \
    if (!__atomic_load_n(&is_looked_for, __ATOMIC_ACQUIRE)) {                 \
      __atomic_store_n(&found, find_real(#name), __ATOMIC_RELAXED);           \
      __atomic_store_n(&is_looked_for, true, __ATOMIC_RELEASE);               \
    }                                                                         \
    return __atomic_load_n(&found, __ATOMIC_RELAXED);                         \
  }

REAL(clock_gettime)
REAL(pthread_cond_wait)
REAL(pthread_cond_timedwait)
REAL(pthread_cond_signal)
REAL(pthread_cond_broadcast)

static int read_clock(clockid_t id, struct timespec *now) {
  int (*real)(clockid_t, struct timespec *) = (int (*)(clockid_t, struct timespec *))real_clock_gettime();
  return real ? real(id, now) : (int)syscall(SYS_clock_gettime, id, now);
}

void real_time(struct timespec *now) { read_clock(CLOCK_MONOTONIC, now); }

/* ---- Clocks ---- */

bool has_simulated_time;

static struct timespec simulated(int64_t seconds, int64_t now) {
  struct timespec t;
  t.tv_sec = (time_t)(seconds + now / MILLISECONDS);
  t.tv_nsec = (long)(now % MILLISECONDS * NANOSECONDS);
  return t;
}

int clock_gettime(clockid_t id, struct timespec *now) {
  if (!has_simulated_time || (id != CLOCK_REALTIME && id != CLOCK_MONOTONIC)) return read_clock(id, now);
  *now = simulated(id == CLOCK_REALTIME ? FIRST_SECOND : 0, moment);
  return 0;
}

int gettimeofday(struct timeval *restrict now, void *restrict zone) {
  struct timespec t;
  (void)zone;
  if (clock_gettime(CLOCK_REALTIME, &t)) return -1;
  now->tv_sec = t.tv_sec;
  now->tv_usec = (suseconds_t)(t.tv_nsec / MICROSECONDS);
  return 0;
}

/* The moment of a time that one of these clocks shows. */
static int64_t moment_of(const struct timespec *t) {
  int64_t seconds = t->tv_sec < FIRST_SECOND ? t->tv_sec : t->tv_sec - FIRST_SECOND;
  return seconds * MILLISECONDS + (t->tv_nsec + NANOSECONDS - 1) / NANOSECONDS;
}

/* ---- Condition variables ---- */

/* Those that wait, in the order of their places. */
static task *next_waiting(unsigned *place) {
  while (*place < places) {
    task *t = task_at((*place)++);
    if (t && t->condition) return t;
  }
  return NULL;
}

bool waits_anyone_outside(void) {
  unsigned place = 1;
  return next_waiting(&place) != NULL;
}

bool next_outside(int64_t *due) {
  unsigned place = 1;
  bool is_any = false;
  task *t;
  while ((t = next_waiting(&place))) {
    if (t->outside_due == INT64_MAX || (is_any && t->outside_due >= *due)) continue;
    *due = t->outside_due;
    is_any = true;
  }
  return is_any;
}

static void wake_one(task *t, bool is_late) {
  t->condition = NULL;
  t->is_late = is_late;
  make_ready(t);
}

/* Those whose time is over. */
void wake_outside(int64_t now) {
  unsigned place = 1;
  task *t;
  while ((t = next_waiting(&place))) {
    if (t->outside_due <= now) wake_one(t, true);
  }
}

static bool is_under_control(void) { return __atomic_load_n(&is_controlled, __ATOMIC_RELAXED); }

/* Whether the task that has the turn asks, and not the run time's own threads. */
static bool is_of_task(void) {
  bool has_turn;
  if (!is_under_control() || !self()) return false;
  take_lock();
  has_turn = turn == self();
  give_lock();
  return has_turn;
}

/* The turn is given on, and the mutex is taken again once it has come back. */
static int wait_outside(pthread_cond_t *condition, pthread_mutex_t *mutex, int64_t due) {
  task *me = self();
  take_lock();
  me->condition = condition;
  me->outside_due = due;
  me->is_late = false;
  pthread_mutex_unlock(mutex);
  if (due <= moment) wake_outside(moment);
  note_change_of_all();
  pass_turn(me, false);
  give_lock();
  pthread_mutex_lock(mutex);
  return me->is_late ? ETIMEDOUT : 0;
}

/* Wakes the first task that waits for it, or all. An abort does so with the lock. */
static void wake_waiting(const pthread_cond_t *condition, bool is_all) {
  unsigned place = 1;
  bool had_lock = has_lock();
  task *t;
  if (!had_lock) take_lock();
  note_change_of_all();
  while ((t = next_waiting(&place))) {
    if (t->condition != condition) continue;
    wake_one(t, false);
    if (!is_all) break;
  }
  if (had_lock) return;
  give_turn_if_free();
  give_lock();
}

/* What C11's functions answer, in the numbers of POSIX. In GNU's library both do the same with the same variables. */
static int number_of_answer(int answer) {
  switch (answer) {
    case thrd_success: return 0;
    case thrd_timedout: return ETIMEDOUT;
    default: return EINVAL;
  }
}

int pthread_cond_wait(pthread_cond_t *condition, pthread_mutex_t *mutex) {
  any_function real = real_pthread_cond_wait();
  if (is_of_task()) return wait_outside(condition, mutex, INT64_MAX);
  if (!real) return number_of_answer(cnd_wait((cnd_t *)condition, (mtx_t *)mutex));
  return ((int (*)(pthread_cond_t *, pthread_mutex_t *))real)(condition, mutex);
}

int pthread_cond_timedwait(pthread_cond_t *condition, pthread_mutex_t *mutex, const struct timespec *until) {
  any_function real = real_pthread_cond_timedwait();
  if (is_of_task()) return wait_outside(condition, mutex, moment_of(until));
  if (!real) return number_of_answer(cnd_timedwait((cnd_t *)condition, (mtx_t *)mutex, until));
  return ((int (*)(pthread_cond_t *, pthread_mutex_t *, const struct timespec *))real)(condition, mutex, until);
}

int pthread_cond_signal(pthread_cond_t *condition) {
  any_function real = real_pthread_cond_signal();
  if (is_under_control()) wake_waiting(condition, false);
  return real ? ((int (*)(pthread_cond_t *))real)(condition) : number_of_answer(cnd_signal((cnd_t *)condition));
}

int pthread_cond_broadcast(pthread_cond_t *condition) {
  any_function real = real_pthread_cond_broadcast();
  if (is_under_control()) wake_waiting(condition, true);
  return real ? ((int (*)(pthread_cond_t *))real)(condition) : number_of_answer(cnd_broadcast((cnd_t *)condition));
}

/* ---- What is beyond control ---- */

static long patience = PATIENCE;

static void read_patience(void) {
  const char *text = getenv("ADATASK_PATIENCE");
  char *end;
  if (!text || !*text) return;
  errno = 0;
  patience = strtol(text, &end, 10);
  if (*text < '0' || *text > '9' || *end || errno) {
    end_unfit("ADATASK_PATIENCE is '%s': it has to be a number of seconds, or 0 for no end", text);
  }
}

static void end_beyond(void) {
  fflush(NULL);
  if (turn) {
    fprintf(stderr, "adatask: beyond control: %s has the turn, and has asked for nothing for %ld s.\n", turn->name,
            patience);
  } else {
    fprintf(stderr, "adatask: beyond control: nobody has gone on for %ld s but by something that isn't a task.\n",
            patience);
  }
  say_all();
  flush_files();
  flush_choices();
  _exit(BEYOND_STATUS);
}

/* Looks whether the turn is given on; not under the clock that the program sees. */
static void *run_watch(void *nothing) {
  const struct timespec pause = {0, 100 * NANOSECONDS};
  uint64_t seen = 0;
  struct timespec since, now;
  (void)nothing;
  real_time(&since);
  for (;;) {
    nanosleep(&pause, NULL);
    real_time(&now);
    take_lock();
    if (has_finished || is_stuck) break;
    if (seen != turns) {
      seen = turns;
      since = now;
    } else if (now.tv_sec - since.tv_sec > patience) {
      end_beyond();
    }
    give_lock();
  }
  give_lock();
  return NULL;
}

void begin_watch(void) {
  if (!is_controlled) return;
  read_patience();
  if (patience) start_helper(run_watch);
}
