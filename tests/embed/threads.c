/* SPDX-License-Identifier: MIT */
/* A table of threads: bad values are answered by name, and nothing is written; then who goes on in a program that is
   played by hand, whose steps are those of docs/RULES.md. Prints what fails; the last line is 'N passed, M failed'. */

#include "adatask_threads.h"
#include <stdio.h>
#include <string.h>

static ada_kernel k;
static ada_threads t;
static int passed, failed;
static uint64_t at, master = 77;
static uint32_t out = 77, kind = 77;
static ada_stay stay = {77, 77, 77};

static void note(int is_right, const char *what) {
  if (is_right) {
    passed++;
  } else {
    failed++;
    printf("FAILED: %s\n", what);
  }
}

/* A call was answered by a code, and wrote nothing. */
static void answered(int32_t code, int32_t wanted, const char *what) {
  int is_same = out == 77 && kind == 77 && master == 77 && stay.is_held_up == 77 && stay.is_served == 77;
  note(code == wanted && is_same && stay.awaits_threads == 77, what);
  out = kind = stay.is_held_up = stay.is_served = stay.awaits_threads = 77;
  master = 77;
}

#define BAD(code, call) answered(call, code, #call)
#define GOOD(call) note((call) == ADA_ACCEPTED, #call)
/* It is answered, and writes this. */
#define OUT(wanted, call) (note((call) == ADA_ACCEPTED && out == (wanted), #call), out = 77)
#define MASTER(of_kind, name, call) \
  (note((call) == ADA_ACCEPTED && kind == (of_kind) && master == (name), #call), kind = 77, master = 77)
/* An accepted request, after which the table is settled. */
#define ASK(request) (GOOD(request), GOOD(ada_threads_settle(&t, &k)))

/* No thread that waits may go on. */
static void nobody_next(void) { BAD(ADA_NO_SUCH_ITEM, ada_threads_next(&t, &k, &out)); }

/* The thread at a place is the only one that is woken. */
static void only_next(uint32_t place) {
  OUT(place, ada_threads_next(&t, &k, &out));
  nobody_next();
}

static void why(uint32_t place, uint32_t is_held_up, uint32_t is_served, uint32_t awaits_threads) {
  GOOD(ada_threads_why(&t, &k, place, &stay));
  note(stay.is_held_up == is_held_up && stay.is_served == is_served && stay.awaits_threads == awaits_threads,
       "why a thread stays");
  stay.is_held_up = stay.is_served = stay.awaits_threads = 77;
}

/* ---- Bad values ---- */

static void try_nulls(void) {
  ada_threads none = ADA_NO_THREADS;
  ada_kernel no_kernel = ADA_NO_KERNEL;
  BAD(ADA_NULL, ada_threads_new(NULL));
  BAD(ADA_NULL, ada_threads_put(NULL, 0, 0, ADA_BODY, 0));
  BAD(ADA_NULL, ada_threads_put(&none, 0, 0, ADA_BODY, 0));
  BAD(ADA_NULL, ada_threads_begin(&none, 0));
  BAD(ADA_NULL, ada_threads_end(&none, 0));
  BAD(ADA_NULL, ada_threads_detach(&none, 0));
  BAD(ADA_NULL, ada_threads_enter(&none, 0, 0, ADA_BODY, 0));
  BAD(ADA_NULL, ada_threads_leave(&none, 0));
  BAD(ADA_NULL, ada_threads_left(&none, 0));
  BAD(ADA_NULL, ada_threads_master(&none, 0, 0, &kind, &master));
  BAD(ADA_NULL, ada_threads_master(&t, 0, 0, NULL, &master));
  BAD(ADA_NULL, ada_threads_master(&t, 0, 0, &kind, NULL));
  BAD(ADA_NULL, ada_threads_dependent(&none, 0, 0, &out));
  BAD(ADA_NULL, ada_threads_dependent(&t, 0, 0, NULL));
  BAD(ADA_NULL, ada_threads_serve(&none, 0, 0));
  BAD(ADA_NULL, ada_threads_serve_no_more(&none, 0, &out));
  BAD(ADA_NULL, ada_threads_serve_no_more(&t, 0, NULL));
  BAD(ADA_NULL, ada_threads_caller(&none, 0, 0, &out));
  BAD(ADA_NULL, ada_threads_caller(&t, 0, 0, NULL));
  BAD(ADA_NULL, ada_threads_settle(&none, &k));
  BAD(ADA_NULL, ada_threads_settle(&t, &no_kernel));
  BAD(ADA_NULL, ada_threads_stay(&none, &k, 0, &out));
  BAD(ADA_NULL, ada_threads_stay(&t, NULL, 0, &out));
  BAD(ADA_NULL, ada_threads_stay(&t, &k, 0, NULL));
  BAD(ADA_NULL, ada_threads_next(&none, &k, &out));
  BAD(ADA_NULL, ada_threads_next(&t, &no_kernel, &out));
  BAD(ADA_NULL, ada_threads_next(&t, &k, NULL));
  BAD(ADA_NULL, ada_threads_why(&none, &k, 0, &stay));
  BAD(ADA_NULL, ada_threads_why(&t, NULL, 0, &stay));
  BAD(ADA_NULL, ada_threads_why(&t, &k, 0, NULL));
  note(ada_threads_anyone_goes(&none) == 0 && ada_threads_anyone_goes(NULL) == 0, "nobody goes without a table");
  ada_threads_drop(&none);
  ada_threads_drop(NULL);
}

/* There is one place, 0. */
static void try_places(void) {
  BAD(ADA_OUT_OF_RANGE, ada_threads_put(&t, 2, 0, ADA_BODY, 0));
  BAD(ADA_NO_SUCH_KIND, ada_threads_put(&t, 0, 0, 3, 0));
  BAD(ADA_NO_SUCH_TASK, ada_threads_begin(&t, 1));
  BAD(ADA_NO_SUCH_TASK, ada_threads_end(&t, UINT32_MAX));
  BAD(ADA_NO_SUCH_TASK, ada_threads_detach(&t, 1));
  BAD(ADA_NO_SUCH_TASK, ada_threads_enter(&t, 1, 0, ADA_BODY, 0));
  BAD(ADA_NO_SUCH_KIND, ada_threads_enter(&t, 0, 0, 3, 0));
  BAD(ADA_NO_SUCH_TASK, ada_threads_leave(&t, 1));
  BAD(ADA_NO_SUCH_TASK, ada_threads_left(&t, 1));
  BAD(ADA_NO_SUCH_TASK, ada_threads_master(&t, 1, 0, &kind, &master));
  BAD(ADA_NO_SUCH_TASK, ada_threads_dependent(&t, 1, 0, &out));
  BAD(ADA_NO_SUCH_ITEM, ada_threads_dependent(&t, 0, 0, &out));
  BAD(ADA_NO_SUCH_ITEM, ada_threads_dependent(&t, 0, UINT32_MAX, &out));
  BAD(ADA_NO_SUCH_TASK, ada_threads_serve(&t, 1, 0));
  BAD(ADA_NO_SUCH_TASK, ada_threads_serve(&t, 0, 1));
  BAD(ADA_NO_SUCH_TASK, ada_threads_serve_no_more(&t, 1, &out));
  BAD(ADA_NO_SUCH_ITEM, ada_threads_serve_no_more(&t, 0, &out));
  BAD(ADA_NO_SUCH_TASK, ada_threads_caller(&t, 1, 0, &out));
  BAD(ADA_NO_SUCH_ITEM, ada_threads_caller(&t, 0, 0, &out));
  BAD(ADA_NO_SUCH_TASK, ada_threads_stay(&t, &k, 1, &out));
  BAD(ADA_NO_SUCH_TASK, ada_threads_why(&t, &k, 1, &stay));
}

static void try_other_kernel(void) {
  ada_kernel whole = ADA_NO_KERNEL;
  GOOD(ada_kernel_new(&whole));
  BAD(ADA_KEEPS_ALL, ada_threads_settle(&t, &whole));
  BAD(ADA_KEEPS_ALL, ada_threads_stay(&t, &whole, 0, &out));
  BAD(ADA_KEEPS_ALL, ada_threads_next(&t, &whole, &out));
  BAD(ADA_KEEPS_ALL, ada_threads_why(&t, &whole, 0, &stay));
  ada_kernel_drop(&whole);
}

/* ---- A program ---- */

/* Task 1, with an entry, is made and activated, as place 1; its activator stays meanwhile. */
static void begin(void) {
  static const ada_family single = {0, 0};
  const uint64_t task = 1;
  GOOD(ada_threads_begin(&t, 0));
  ASK(ada_create(&k, 0, ADA_BODY, 0, &single, 1, &at));
  GOOD(ada_threads_put(&t, 1, 1, ADA_BODY, 0));
  ASK(ada_activate(&k, 0, &task, 1, &at));
  GOOD(ada_threads_begin(&t, 1));
  OUT(0, ada_threads_stay(&t, &k, 0, &out));
  nobody_next();
  why(0, 1, 0, 0);
  note(ada_threads_anyone_goes(&t) == 1, "the activated task goes");
  ASK(ada_elaborated(&k, 1, 1, &at));
  only_next(0);
}

/* The caller goes on once the rendezvous has ended and the accept statement is left. */
static void meet(void) {
  ASK(ada_call(&k, 0, 1, 0, 0, ADA_SIMPLE, 0, &at));
  OUT(0, ada_threads_stay(&t, &k, 0, &out));
  ASK(ada_accept(&k, 1, 0, 0, &at));
  GOOD(ada_threads_serve(&t, 1, 0));
  OUT(0, ada_threads_caller(&t, 1, 0, &out));
  BAD(ADA_NO_SUCH_ITEM, ada_threads_caller(&t, 1, 1, &out));
  OUT(1, ada_threads_stay(&t, &k, 1, &out));
  why(0, 1, 1, 0);
  ASK(ada_end(&k, 1, 0, &at));
  nobody_next();
  why(0, 0, 1, 0);
  OUT(0, ada_threads_serve_no_more(&t, 1, &out));
  only_next(0);
  why(0, 0, 0, 0);
}

/* Who has left accept statements one by one is served by the outer ones still. */
static void nest(void) {
  GOOD(ada_threads_serve(&t, 1, 0));
  GOOD(ada_threads_serve(&t, 0, 1));
  GOOD(ada_threads_serve(&t, 1, 1));
  OUT(1, ada_threads_caller(&t, 1, 0, &out));
  OUT(0, ada_threads_caller(&t, 1, 1, &out));
  OUT(1, ada_threads_serve_no_more(&t, 1, &out));
  OUT(0, ada_threads_serve_no_more(&t, 1, &out));
  BAD(ADA_NO_SUCH_ITEM, ada_threads_serve_no_more(&t, 1, &out));
  why(1, 0, 1, 0);
  OUT(1, ada_threads_serve_no_more(&t, 0, &out));
}

/* Task 2 depends on a block of the main program, which is left after the end of its thread. */
static void leave_block(void) {
  const uint64_t task = 2;
  uint64_t block;
  ASK(ada_open(&k, 0, &block));
  GOOD(ada_threads_enter(&t, 0, 4, ADA_BLOCK, block));
  MASTER(ADA_BLOCK, block, ada_threads_master(&t, 0, ADA_ANY_LEVEL, &kind, &master));
  MASTER(ADA_BLOCK, block, ada_threads_master(&t, 0, 4, &kind, &master));
  MASTER(ADA_BODY, 0, ada_threads_master(&t, 0, 3, &kind, &master));
  MASTER(ADA_BODY, 1, ada_threads_master(&t, 1, 4, &kind, &master));
  ASK(ada_create(&k, 0, ADA_BLOCK, block, NULL, 0, &at));
  GOOD(ada_threads_put(&t, 2, 2, ADA_BLOCK, block));
  OUT(2, ada_threads_dependent(&t, 0, 0, &out));
  BAD(ADA_NO_SUCH_ITEM, ada_threads_dependent(&t, 0, 3, &out));
  ASK(ada_activate(&k, 0, &task, 1, &at));
  GOOD(ada_threads_begin(&t, 2));
  OUT(0, ada_threads_stay(&t, &k, 0, &out));
  ASK(ada_elaborated(&k, 2, 1, &at));
  only_next(0);
  ASK(ada_close(&k, 0, &at));
  GOOD(ada_threads_leave(&t, 0));
  OUT(0, ada_threads_stay(&t, &k, 0, &out));
  why(0, 1, 0, 1);
  ASK(ada_complete(&k, 2, &at));
  nobody_next();
  why(0, 0, 0, 1);
  GOOD(ada_threads_end(&t, 2));
  only_next(0);
  GOOD(ada_threads_left(&t, 0));
  MASTER(ADA_BODY, 0, ada_threads_master(&t, 0, ADA_ANY_LEVEL, &kind, &master));
}

/* A master without a name of the kernel's awaits nobody; those entered before it have theirs. */
static void enter_unknown(void) {
  GOOD(ada_threads_enter(&t, 0, 4, ADA_NO_MASTER, 5));
  MASTER(ADA_NO_MASTER, 0, ada_threads_master(&t, 0, ADA_ANY_LEVEL, &kind, &master));
  GOOD(ada_threads_leave(&t, 0));
  OUT(1, ada_threads_stay(&t, &k, 0, &out));
  GOOD(ada_threads_left(&t, 0));
}

/* The thread of an aborted task goes on to its end, and the body on which it depends awaits it unless it is detached. */
static void abort_task(void) {
  const uint64_t task = 1;
  ASK(ada_accept(&k, 1, 0, 0, &at));
  OUT(0, ada_threads_stay(&t, &k, 1, &out));
  note(ada_threads_anyone_goes(&t) == 1, "the main program goes");
  ASK(ada_abort(&k, 0, &task, 1, &at));
  only_next(1);
  ASK(ada_complete(&k, 0, &at));
  GOOD(ada_threads_leave(&t, 0));
  OUT(0, ada_threads_stay(&t, &k, 0, &out));
  why(0, 0, 0, 1);
  OUT(1, ada_threads_dependent(&t, 0, 0, &out));
  GOOD(ada_threads_detach(&t, 1));
  BAD(ADA_NO_SUCH_ITEM, ada_threads_dependent(&t, 0, 0, &out));
  only_next(0);
  GOOD(ada_threads_end(&t, 0));
  note(ada_threads_anyone_goes(&t) == 1, "the aborted task's thread goes");
  GOOD(ada_threads_end(&t, 1));
  note(ada_threads_anyone_goes(&t) == 0, "nobody goes");
}

int main(void) {
  GOOD(ada_kernel_new_lasting(&k, 4096));
  GOOD(ada_threads_new(&t));
  note(ada_threads_anyone_goes(&t) == 0, "nobody goes yet");
  GOOD(ada_threads_put(&t, 0, 0, ADA_NO_MASTER, 0));
  try_nulls();
  try_places();
  try_other_kernel();
  begin();
  meet();
  nest();
  leave_block();
  enter_unknown();
  abort_task();
  ada_threads_drop(&t);
  ada_kernel_drop(&k);
  printf("%d passed, %d failed\n", passed, failed);
  return failed != 0;
}
