/* SPDX-License-Identifier: MIT */
/* Masters: blocks and bodies on which tasks depend. GNAT counts levels, and the kernel has names. */

#define _GNU_SOURCE
#include "glue.h"
#include <unwind.h>

static const void *thread_begins;

void adagnat_threads_begin_at(const void *function) { thread_begins = function; }

typedef struct {
  uintptr_t caller, previous;
  bool is_body;
} search;

static _Unwind_Reason_Code look_at_frame(struct _Unwind_Context *frame, void *data) {
  search *s = data;
  uintptr_t here = _Unwind_GetIP(frame);
  if (_Unwind_FindEnclosingFunction((void *)here) == thread_begins) {
    s->is_body = s->previous == s->caller;
    return _URC_NORMAL_STOP;
  }
  s->previous = here;
  return _URC_NO_REASON;
}

/* Whether who called is the body of the task itself, which the function where its thread began has called. */
static bool is_body_of_task(const void *caller) {
  search s = {(uintptr_t)caller, 0, false};
  _Unwind_Backtrace(look_at_frame, &s);
  return s.is_body;
}

/* Whether the task has left all that it entered. */
static bool is_in_its_body(const task *me) {
  uint32_t kind = ADA_NO_MASTER;
  uint64_t name;
  return !ada_threads_master(&threads, me->place, ADA_ANY_LEVEL, &kind, &name) && kind == ADA_BODY;
}

/* A task body with dependents of its own enters a master too, and so does a function that its declarations call. For
   the kernel the former is the task's body, and no block. */
static bool is_own_body(const task *me, const void *caller) {
  return !me->is_elaborated && is_in_its_body(me) && is_body_of_task(caller);
}

/* Opens a block, if the task can be in one. One that lies too deep for the kernel is found out once a task is made. */
static int open_block(task *me, uint32_t *kind, uint64_t *name) {
  int32_t code;
  *kind = ADA_NO_MASTER;
  *name = 0;
  if (is_gone(me) || me->is_completed) return OK;
  tick_if_due();
  note_change(me);
  code = ada_open(&kernel, me->number, name);
  if (code) return code == ADA_TOO_DEEP ? OK : refuse(me, code, "the opening of a block");
  *kind = ADA_BLOCK;
  write_asked(me, "open %s", name_of_master(ADA_BLOCK, *name));
  follow();
  return OK;
}

/* Asks for the end of the innermost block. */
static void close_block(task *me) {
  uint64_t at;
  int32_t code;
  tick_if_due();
  note_change(me);
  code = ada_close(&kernel, me->number, &at);
  if (code) {
    refuse(me, code, "the end of a block");
  } else {
    write_asked(me, "close");
    follow();
  }
}

/* Enters a master of a level of GNAT's. */
int adagnat_enter_master(int level, const void *caller) {
  task *me = self();
  uint32_t kind;
  uint64_t name;
  int answer = OK;
  if (!me) return OK;
  take_lock();
  if (!is_own_body(me, caller)) {
    answer = open_block(me, &kind, &name);
    if (ada_threads_enter(&threads, me->place, (uint32_t)level, kind, name)) {
      answer = NO_MEMORY;
      if (kind == ADA_BLOCK) close_block(me);
    }
  }
  give_lock();
  return answer;
}

/* Declarations that failed leave tasks that nobody will activate, so no thread of theirs will be over. */
void give_up_unactivated(task *me) {
  uint32_t place;
  for (place = 0; !ada_threads_dependent(&threads, me->place, place, &place); place++) {
    task *t = task_at(place);
    if (t->maker == me && !t->is_started && !t->is_over) abort_one(me, t);
  }
}

/* Closes the innermost block, once what depends on it is over. A thread of a dependent may still compute after its task
   was aborted, with what lies in the master's frame. */
void adagnat_complete_master(void) {
  task *me = self();
  uint32_t kind = ADA_NO_MASTER;
  uint64_t name;
  if (!me) return;
  take_lock();
  if (ada_threads_master(&threads, me->place, ADA_ANY_LEVEL, &kind, &name) || kind == ADA_BODY) {
    give_lock();
    return;
  }
  give_up_unactivated(me);
  if (kind == ADA_BLOCK && !is_gone(me)) close_block(me);
  ada_threads_leave(&threads, me->place);
  stay(me);
}

/* The control block of a dependent of the innermost master, or of the body if there is none, which isn't needed any
   more; a null pointer at the end. */
void *adagnat_next_over(void) {
  task *me = self();
  uint32_t place;
  void *block = NULL;
  if (!me) return NULL;
  take_lock();
  for (place = 0; !block && !ada_threads_dependent(&threads, me->place, place, &place); place++) {
    task *t = task_at(place);
    if (!t->is_over) continue;
    block = t->block;
    forget_task(t);
  }
  give_lock();
  return block;
}

/* The innermost master is left; who depends on it and was never activated depends on nothing any more. */
void adagnat_leave_master(void) {
  task *me = self();
  uint32_t place;
  if (!me) return;
  take_lock();
  if (!is_in_its_body(me)) {
    for (place = 0; !ada_threads_dependent(&threads, me->place, place, &place); place++) {
      ada_threads_detach(&threads, place);
    }
    ada_threads_left(&threads, me->place);
  }
  give_lock();
}
