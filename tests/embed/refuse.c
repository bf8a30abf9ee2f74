/* SPDX-License-Identifier: MIT */
/* Gives the library memory of its own, and refuses one growth after another: each call that needs it answers 23, and
   the kernel or the table of threads stays as it was. Questions take no memory, so none is asked for while all is
   refused. Prints what fails; the last line is 'N passed, M failed'. */

#include "adatask_threads.h"
#include <stdio.h>
#include <stdlib.h>

static long left = -1; /* how many growths are given before one is refused; none is if this is negative */
static long asked;     /* how many growths were asked for */
static unsigned char nowhere[16];
static int passed, failed;

static int is_refused(void) {
  asked++;
  if (left > 0) left--;
  else if (left == 0) return 1;
  return 0;
}

static ada_memory give(void *where) {
  ada_memory some;
  some.is_there = where != NULL;
  some.where = where ? where : nowhere;
  return some;
}

ada_memory rattle_alloc(size_t size, size_t align) {
  (void)align;
  return give(is_refused() ? NULL : malloc(size ? size : 1));
}

ada_memory rattle_realloc(void *where, size_t kept, size_t size, size_t align) {
  (void)align;
  (void)kept;
  return give(is_refused() ? NULL : realloc(where, size ? size : 1));
}

void rattle_dealloc(void *where) { free(where); }

static void note(int is_right, const char *what, long growth) {
  if (is_right) {
    passed++;
  } else {
    failed++;
    printf("FAILED: %s, growth %ld\n", what, growth);
  }
}

static int32_t wait_for_a_while(ada_kernel *k, uint64_t *at) {
  static const ada_choice choices[2] = {{0, 0, 1}, {1, 9, 1}};
  static const ada_pause delays[2] = {{1, 1}, {5, 1}};
  return ada_wait(k, 1, choices, 2, ADA_DELAYS, delays, 2, 0, at);
}

/* Request number `i` of a play that makes each thing grow. */
static int32_t ask(ada_kernel *k, int i, uint64_t *at) {
  static const ada_family families[3] = {{0, 0}, {1, 9}, {0, 0}};
  static const uint64_t task = 1, others[2] = {2, 3};
  if (i < 20) return ada_create(k, 0, ADA_BODY, 0, families, 3, at);
  switch (i) {
    case 20: return ada_activate(k, 0, &task, 1, at);
    case 21: return ada_elaborated(k, 1, 1, at);
    case 22: return ada_call(k, 0, 1, 1, 5, ADA_SIMPLE, 0, at);
    case 23: return ada_accept(k, 1, 1, 5, at);
    case 24: return ada_end(k, 1, 0, at);
    case 25: return ada_open(k, 0, at);
    case 26: return wait_for_a_while(k, at);
    case 28: return ada_close(k, 0, at);
    case 29: return ada_call(k, 0, 1, 0, 0, ADA_TIMED, 1, at);
    case 31: return ada_abort(k, 0, others, 2, at);
    case 32: return ada_complete(k, 1, at);
    case 33: return ada_delay(k, 0, 1, at);
    default: return ada_tick(k, i, at);
  }
}

/* Makes a kernel that keeps everything, or one that lives on and makes its journal shorter again and again. */
static int32_t make_kernel(ada_kernel *k, int lasting) {
  return lasting ? ada_kernel_new_lasting(k, 8) : ada_kernel_new(k);
}

/* Plays until a request isn't accepted, with one growth refused; whether one was. */
static int play(long growth, int lasting) {
  ada_kernel k = ADA_NO_KERNEL;
  uint64_t at = 0;
  int32_t code;
  int i;
  left = growth;
  code = make_kernel(&k, lasting);
  if (code != ADA_ACCEPTED) {
    note(code == ADA_OUT_OF_MEMORY && k.handle.kernel == NULL, "a kernel", growth);
    return 1;
  }
  for (i = 0; i < 60; i++) {
    uint64_t before = ada_events(&k), was = at;
    code = ask(&k, i, &at);
    if (code != ADA_ACCEPTED) {
      note(code == ADA_OUT_OF_MEMORY && ada_events(&k) == before && at == was, "a refused growth", growth);
      left = -1;
      note(ask(&k, i, &at) == ADA_ACCEPTED && at == before + 1, "the same request afterwards", growth);
      ada_kernel_drop(&k);
      return 1;
    }
  }
  ada_kernel_drop(&k);
  return 0;
}

/* Makes a journal of 60 requests shorter with one growth refused; whether one was. Afterwards that can be done. */
static int compact(long growth) {
  ada_kernel k = ADA_NO_KERNEL;
  uint64_t at = 0;
  int32_t code;
  int i;
  left = -1;
  note(ada_kernel_new_lasting(&k, 60000) == ADA_ACCEPTED, "a kernel that lives on", growth);
  for (i = 0; i < 60; i++) note(ask(&k, i, &at) == ADA_ACCEPTED, "a request", growth);
  left = growth;
  code = ada_compact(&k);
  left = -1;
  if (code != ADA_ACCEPTED) {
    note(code == ADA_NOT_COMPACTED && ada_events(&k) > 60, "a compaction without memory", growth);
    note(ada_compact(&k) == ADA_ACCEPTED, "a compaction afterwards", growth);
  }
  ada_kernel_drop(&k);
  return code != ADA_ACCEPTED;
}

/* Call number `i` that makes a table grow: a task gets a place, and its thread enters a master and serves a caller. */
static int32_t grow(ada_threads *t, uint32_t i) {
  switch (i % 3) {
    case 0: return ada_threads_put(t, i / 3, i / 3, ADA_NO_MASTER, 0);
    case 1: return ada_threads_enter(t, i / 3, 4, ADA_BLOCK, 7);
    default: return ada_threads_serve(t, i / 3, 0);
  }
}

/* What that call makes isn't there. */
static int is_missing(ada_threads *t, uint32_t i) {
  uint32_t out = 77;
  uint64_t master = 77;
  switch (i % 3) {
    case 0: return ada_threads_begin(t, i / 3) == ADA_NO_SUCH_TASK;
    case 1: return !ada_threads_master(t, i / 3, ADA_ANY_LEVEL, &out, &master) && out == ADA_BODY && master == i / 3;
    default: return ada_threads_caller(t, i / 3, 0, &out) == ADA_NO_SUCH_ITEM;
  }
}

/* Fills a table with one growth refused; whether one was. */
static int fill(long growth) {
  ada_threads t = ADA_NO_THREADS;
  int32_t code;
  uint32_t i;
  left = growth;
  code = ada_threads_new(&t);
  if (code != ADA_ACCEPTED) {
    note(code == ADA_OUT_OF_MEMORY && t.table == NULL, "a table", growth);
    return 1;
  }
  for (i = 0; i < 60; i++) {
    code = grow(&t, i);
    if (code != ADA_ACCEPTED) {
      left = -1;
      note(code == ADA_OUT_OF_MEMORY && is_missing(&t, i), "a refused growth of a table", growth);
      note(grow(&t, i) == ADA_ACCEPTED && !is_missing(&t, i), "the same call afterwards", growth);
      ada_threads_drop(&t);
      return 1;
    }
  }
  ada_threads_drop(&t);
  return 0;
}

/* An answer that took no memory. */
#define ANSWERS(question) note((question) == ADA_ACCEPTED, #question, left)

/* Events 1 to 8: a task is made, activated, waits with a delay alternative until 1, and is called within 5 then. */
static void begin(ada_kernel *k) {
  static const ada_family single = {0, 0};
  static const ada_choice choice = {0, 0, 1};
  static const ada_pause delay = {1, 1};
  static const uint64_t task = 1;
  uint64_t at;
  left = -1;
  ANSWERS(ada_kernel_new(k));
  ANSWERS(ada_create(k, 0, ADA_BODY, 0, &single, 1, &at));
  ANSWERS(ada_activate(k, 0, &task, 1, &at));
  ANSWERS(ada_elaborated(k, 1, 1, &at)); /* 4 activated 2 ok */
  ANSWERS(ada_wait(k, 1, &choice, 1, ADA_DELAYS, &delay, 1, 0, &at));
  ANSWERS(ada_tick(k, 1, &at)); /* 7 passed 5 delay 0 */
}

static void try_questions(void) {
  static ada_board board;
  ada_kernel k = ADA_NO_KERNEL;
  ada_outcome outcome;
  ada_reason reason;
  ada_event event;
  ada_lengths lengths;
  ada_family family;
  ada_choice choice;
  ada_due due;
  uint64_t at;
  int64_t moment;
  uint32_t answer;
  begin(&k);
  left = 0;
  asked = 0;
  ANSWERS(ada_runnable(&k, 0, &at)); /* task 1, by the tick */
  note(asked == 0, "a question takes no memory", asked);
  left = -1;
  ANSWERS(ada_call(&k, 0, 1, 0, 0, ADA_TIMED, 4, &at));
  left = 0;
  asked = 0;
  ANSWERS(ada_running(&k, 0, &answer));
  ANSWERS(ada_callable(&k, 0, &answer));
  ANSWERS(ada_terminated(&k, 0, &answer));
  ANSWERS(ada_outcome_of(&k, 0, &outcome));
  ANSWERS(ada_slot(&k, 1, 0, 0, &answer));
  ANSWERS(ada_count(&k, 1, 0, 0, &answer));
  ANSWERS(ada_event_at(&k, 5, &event));
  ANSWERS(ada_lengths_of(&k, 5, &lengths));
  ANSWERS(ada_event_family(&k, 1, 0, &family));
  ANSWERS(ada_event_task(&k, 2, 0, &at));
  ANSWERS(ada_event_choice(&k, 5, 0, &choice));
  ANSWERS(ada_event_delay(&k, 5, 0, &due));
  ANSWERS(ada_reason_of(&k, 0, &reason));
  ANSWERS(ada_awaited(&k, 0, 0, &at));
  ANSWERS(ada_next_due(&k, &moment));
  ANSWERS(ada_board_of(&k, &board));
  note(ada_tasks(&k) == 2 && ada_events(&k) == 8 && !ada_finished(&k), "how many there are", left);
  note(asked == 0, "questions take no memory", asked);
  left = -1;
  ada_kernel_drop(&k);
}

/* A thread is in a block on which its task depends, and serves itself: all else that is asked of the table. */
static void try_table(void) {
  ada_kernel k = ADA_NO_KERNEL;
  ada_threads t = ADA_NO_THREADS;
  ada_stay stay;
  uint64_t master;
  uint32_t out;
  left = -1;
  ANSWERS(ada_kernel_new_lasting(&k, 100));
  ANSWERS(ada_threads_new(&t));
  ANSWERS(ada_threads_put(&t, 0, 0, ADA_BLOCK, 7));
  ANSWERS(ada_threads_enter(&t, 0, 4, ADA_BLOCK, 7));
  ANSWERS(ada_threads_serve(&t, 0, 0));
  left = 0;
  asked = 0;
  ANSWERS(ada_threads_begin(&t, 0));
  ANSWERS(ada_threads_settle(&t, &k));
  ANSWERS(ada_threads_stay(&t, &k, 0, &out));
  ANSWERS(ada_threads_why(&t, &k, 0, &stay));
  ANSWERS(ada_threads_caller(&t, 0, 0, &out));
  ANSWERS(ada_threads_master(&t, 0, ADA_ANY_LEVEL, &out, &master));
  ANSWERS(ada_threads_dependent(&t, 0, 0, &out));
  ANSWERS(ada_threads_serve_no_more(&t, 0, &out));
  ANSWERS(ada_threads_next(&t, &k, &out));
  ANSWERS(ada_threads_leave(&t, 0));
  ANSWERS(ada_threads_left(&t, 0));
  ANSWERS(ada_threads_detach(&t, 0));
  ANSWERS(ada_threads_end(&t, 0));
  note(!ada_threads_anyone_goes(&t), "nobody goes", left);
  note(asked == 0, "nothing else that is asked of a table takes memory", asked);
  left = -1;
  ada_threads_drop(&t);
  ada_kernel_drop(&k);
}

int main(void) {
  long growth = 0;
  while (play(growth, 0)) growth++;
  note(growth > 10, "growths are met", growth);
  for (growth = 0; growth < 400; growth++) play(growth, 1);
  for (growth = 0; compact(growth); growth++) continue;
  note(growth > 10, "growths of a compaction are met", growth);
  for (growth = 0; fill(growth); growth++) continue;
  note(growth > 6, "growths of a table are met", growth);
  try_questions();
  try_table();
  printf("%d passed, %d failed\n", passed, failed);
  return failed != 0;
}
