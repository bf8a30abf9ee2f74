/* SPDX-License-Identifier: MIT */
/*
 * The threads of tasks, for a run time over a kernel that lives on: which may go on, whose call each serves, and which
 * masters it is within. For C99, C11 and C++17. docs/EMBEDDING.md says how to use it.
 *
 * A thread has a place, which the run time chooses: from 0, and no place is left out. A table of threads is used as a
 * kernel is, by one thread at a time, under the same lock; and as of a kernel, each function that may fail answers 0, or
 * a code: ADA_NO_SUCH_TASK of a place without a thread, ADA_OUT_OF_RANGE of a place that leaves others out. It writes
 * only where it answers 0, and changes the table only then.
 *
 * A thread may go on if the kernel doesn't hold its task up, if no thread is within the accept statement that began with
 * its call, and if it doesn't leave a master on which the task of a thread depends that isn't over: the acceptor uses
 * the caller's parameters, and dependents use the variables of their master, even after they were aborted (9.4, 9.10).
 */
#ifndef ADATASK_THREADS_H
#define ADATASK_THREADS_H

#include "adatask.h"

#ifdef __cplusplus
extern "C" {
#endif

/* What the library has of a table: the null pointer if there is none. */
typedef struct {
  void *table;
} ada_threads;

/* What a variable begins with: no table. */
#define ADA_NO_THREADS {NULL}

/* The kind of a master that the kernel doesn't know, beside ADA_BODY and ADA_BLOCK; its number is 0. */
enum { ADA_NO_MASTER = 2 };

/* Above the level of each master. */
#define ADA_ANY_LEVEL UINT32_MAX

/* Why a thread stays where it is, each 0 or 1; all are 0 if it may go on. */
typedef struct {
  uint32_t is_held_up;     /* the kernel holds its task up */
  uint32_t is_served;      /* a thread is within the accept statement that began with its call */
  uint32_t awaits_threads; /* threads of tasks that depend on the master that it leaves aren't over */
} ada_stay;

/* ---- What the library exports: a table, a kernel and what is written to have to be there ---- */

int32_t adatask_threads_new(void **out);
void adatask_threads_drop(ada_threads t);
int32_t adatask_threads_put(ada_threads *t, uint32_t place, uint64_t task, uint32_t master_kind, uint64_t master);
int32_t adatask_threads_begin(ada_threads *t, uint32_t place);
int32_t adatask_threads_end(ada_threads *t, uint32_t place);
int32_t adatask_threads_detach(ada_threads *t, uint32_t place);
int32_t adatask_threads_enter(ada_threads *t, uint32_t place, uint32_t level, uint32_t master_kind, uint64_t master);
int32_t adatask_threads_leave(ada_threads *t, uint32_t place);
int32_t adatask_threads_left(ada_threads *t, uint32_t place);
int32_t adatask_threads_master(ada_threads *t, uint32_t place, uint32_t level, uint32_t *master_kind, uint64_t *master);
int32_t adatask_threads_dependent(ada_threads *t, uint32_t place, uint32_t from, uint32_t *out);
int32_t adatask_threads_serve(ada_threads *t, uint32_t server, uint32_t caller);
int32_t adatask_threads_serve_no_more(ada_threads *t, uint32_t server, uint32_t *caller);
int32_t adatask_threads_caller(ada_threads *t, uint32_t server, uint32_t depth, uint32_t *caller);
int32_t adatask_threads_settle(ada_threads *t, ada_handle *h);
int32_t adatask_threads_stay(ada_threads *t, ada_handle *h, uint32_t place, uint32_t *goes_on);
int32_t adatask_threads_next(ada_threads *t, ada_handle *h, uint32_t *place);
int32_t adatask_threads_why(ada_threads *t, ada_handle *h, uint32_t place, ada_stay *out);
uint32_t adatask_threads_anyone_goes(ada_threads *t);

/* ---- A table ---- */

/* Makes a table without threads. */
static inline int32_t ada_threads_new(ada_threads *t) { return t ? adatask_threads_new(&t->table) : ADA_NULL; }

/* Gives up a table, if there is one. */
static inline void ada_threads_drop(ada_threads *t) {
  if (t && t->table) {
    adatask_threads_drop(*t);
    t->table = NULL;
  }
}

/*
 * Keeps a task of which there is no thread yet, by its number and the master on which it depends, ADA_NO_MASTER if
 * nobody awaits its thread. Its place is the next new one, or that of a task that isn't kept any more.
 */
static inline int32_t ada_threads_put(ada_threads *t, uint32_t place, uint64_t task, uint32_t master_kind,
                                      uint64_t master) {
  return t && t->table ? adatask_threads_put(t, place, task, master_kind, master) : ADA_NULL;
}

/* A thread of the task is there from now on (9.3). */
static inline int32_t ada_threads_begin(ada_threads *t, uint32_t place) {
  return t && t->table ? adatask_threads_begin(t, place) : ADA_NULL;
}

/* The thread of the task is over. Who awaits it may go on now: ask ada_threads_next. */
static inline int32_t ada_threads_end(ada_threads *t, uint32_t place) {
  return t && t->table ? adatask_threads_end(t, place) : ADA_NULL;
}

/* Nobody awaits the thread of the task from now on. */
static inline int32_t ada_threads_detach(ada_threads *t, uint32_t place) {
  return t && t->table ? adatask_threads_detach(t, place) : ADA_NULL;
}

/* ---- Masters (9.4) ---- */

/* The thread enters a master of a level of its compiler's, which has a name of the kernel's or ADA_NO_MASTER. */
static inline int32_t ada_threads_enter(ada_threads *t, uint32_t place, uint32_t level, uint32_t master_kind,
                                        uint64_t master) {
  return t && t->table ? adatask_threads_enter(t, place, level, master_kind, master) : ADA_NULL;
}

/* The thread begins to leave the master that it entered last, or its body: ask ada_threads_stay. */
static inline int32_t ada_threads_leave(ada_threads *t, uint32_t place) {
  return t && t->table ? adatask_threads_leave(t, place) : ADA_NULL;
}

/* The thread has left the master that it entered last. */
static inline int32_t ada_threads_left(ada_threads *t, uint32_t place) {
  return t && t->table ? adatask_threads_left(t, place) : ADA_NULL;
}

/* The master that the thread entered last of those of this level or a lower one, or its body if there is none. */
static inline int32_t ada_threads_master(ada_threads *t, uint32_t place, uint32_t level, uint32_t *master_kind,
                                         uint64_t *master) {
  if (!t || !t->table || !master_kind || !master) return ADA_NULL;
  return adatask_threads_master(t, place, level, master_kind, master);
}

/*
 * The first place, `from` or more, of a task that depends on the master that the thread entered last, or on its body if
 * there is none; or ADA_NO_SUCH_ITEM.
 */
static inline int32_t ada_threads_dependent(ada_threads *t, uint32_t place, uint32_t from, uint32_t *out) {
  return t && t->table && out ? adatask_threads_dependent(t, place, from, out) : ADA_NULL;
}

/* ---- Accept statements (9.5) ---- */

/* The thread of a server begins the accept statement that the call of the task at another place begins. */
static inline int32_t ada_threads_serve(ada_threads *t, uint32_t server, uint32_t caller) {
  return t && t->table ? adatask_threads_serve(t, server, caller) : ADA_NULL;
}

/* The thread has left its innermost accept statement: the caller, or ADA_NO_SUCH_ITEM if it was within none. */
static inline int32_t ada_threads_serve_no_more(ada_threads *t, uint32_t server, uint32_t *caller) {
  return t && t->table && caller ? adatask_threads_serve_no_more(t, server, caller) : ADA_NULL;
}

/* The caller of an accept statement that the thread is within, the innermost having the depth 0; or
   ADA_NO_SUCH_ITEM. */
static inline int32_t ada_threads_caller(ada_threads *t, uint32_t server, uint32_t depth, uint32_t *caller) {
  return t && t->table && caller ? adatask_threads_caller(t, server, depth, caller) : ADA_NULL;
}

/* ---- Who goes on: of a kernel that lives on; another is answered ADA_KEEPS_ALL ---- */

/* After each accepted request to the kernel, before the next one: looks whom it let go on. */
static inline int32_t ada_threads_settle(ada_threads *t, ada_kernel *k) {
  return t && t->table && k && k->handle.kernel ? adatask_threads_settle(t, &k->handle) : ADA_NULL;
}

/* Whether the thread may go on, 0 or 1; if it may not it waits from now on. */
static inline int32_t ada_threads_stay(ada_threads *t, ada_kernel *k, uint32_t place, uint32_t *goes_on) {
  return t && t->table && ada_has(k, goes_on) ? adatask_threads_stay(t, &k->handle, place, goes_on) : ADA_NULL;
}

/*
 * The place of a thread that waits and may go on, which doesn't wait from now on; or ADA_NO_SUCH_ITEM if each thread that
 * waits has to. All of them: while (!ada_threads_next(&t, &k, &place)) ...
 */
static inline int32_t ada_threads_next(ada_threads *t, ada_kernel *k, uint32_t *place) {
  return t && t->table && ada_has(k, place) ? adatask_threads_next(t, &k->handle, place) : ADA_NULL;
}

/* Why the thread stays where it is, or would have to. */
static inline int32_t ada_threads_why(ada_threads *t, ada_kernel *k, uint32_t place, ada_stay *out) {
  return t && t->table && ada_has(k, out) ? adatask_threads_why(t, &k->handle, place, out) : ADA_NULL;
}

/* Whether any thread isn't over and doesn't wait, 0 or 1; 0 without a table. */
static inline uint32_t ada_threads_anyone_goes(ada_threads *t) {
  return t && t->table ? adatask_threads_anyone_goes(t) : 0;
}

#ifdef __cplusplus
}
#endif

#endif
