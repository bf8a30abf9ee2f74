/* SPDX-License-Identifier: MIT */
/* A kernel that lives on near its limits of 256 tasks and 1,024 entries that live: what is one too many is refused and
   changes nothing, what is given up makes room, and a crowd keeps its queue while clients come and go and the journal
   is made shorter. Prints what fails; the last line is 'N passed, M failed'. */

#include "adatask.h"
#include <stdio.h>

enum { MOST_TASKS = 256, MOST_ENTRIES = 1024, MOST_FAMILIES = 16, ROUNDS = 200 };

static ada_kernel k;
static int passed, failed;
static uint64_t at;

static void note(int is_right, const char *what, uint64_t where) {
  if (is_right) {
    passed++;
  } else {
    failed++;
    printf("FAILED: %s: %lu\n", what, (unsigned long)where);
  }
}

#define GOOD(call) note((call) == ADA_ACCEPTED, #call, ada_events(&k))

/* A creation that is one too many: it has this cause, and appends nothing. */
static void refuses(size_t families, int32_t wanted, const char *what) {
  static const ada_family all[MOST_FAMILIES];
  uint64_t events = ada_events(&k), tasks = ada_tasks(&k);
  int32_t code = ada_create(&k, 0, ADA_BODY, 0, all, families, &at);
  note(code == wanted && ada_events(&k) == events && ada_tasks(&k) == tasks, what, (uint64_t)code);
}

static void make_up(uint64_t master_kind, uint64_t master, size_t families) {
  static const ada_family all[MOST_FAMILIES];
  uint64_t task = ada_tasks(&k);
  GOOD(ada_create(&k, 0, (uint32_t)master_kind, master, all, families, &at));
  GOOD(ada_activate(&k, 0, &task, 1, &at));
  GOOD(ada_elaborated(&k, task, 1, &at));
}

static int is_running(uint64_t task) {
  uint32_t runs = 0;
  return ada_running(&k, task, &runs) == ADA_ACCEPTED && runs;
}

/* ---- Limits ---- */

static void try_most_tasks(void) {
  uint64_t task;
  GOOD(ada_kernel_new_lasting(&k, 65536));
  for (task = 1; task < MOST_TASKS; task++) make_up(ADA_BODY, 0, 0);
  refuses(0, ADA_TOO_MANY_TASKS, "a task too many");
  GOOD(ada_complete(&k, 7, &at));
  refuses(0, ADA_TOO_MANY_TASKS, "a task too many beside one that is terminated");
  GOOD(ada_release(&k, 7));
  make_up(ADA_BODY, 0, 0);
  note(ada_tasks(&k) == MOST_TASKS + 1 && is_running(MOST_TASKS), "the task in the place of another", MOST_TASKS);
  note(is_running(1) && is_running(MOST_TASKS - 1) && is_running(0), "the others", 1);
  refuses(0, ADA_TOO_MANY_TASKS, "a task too many again");
  ada_kernel_drop(&k);
}

/* Of the 16 entries that are given up 15 are free: in the shorter journal a helper has one, whom the main program calls
   in vain, since a call in vain is what it did last. Once it has done something else that one is free too. */
static void try_most_entries(void) {
  uint64_t task;
  uint32_t count = 7;
  GOOD(ada_kernel_new_lasting(&k, 65536));
  for (task = 1; task <= MOST_ENTRIES / MOST_FAMILIES; task++) make_up(ADA_BODY, 0, MOST_FAMILIES);
  refuses(1, ADA_TOO_MANY_SLOTS, "an entry too many");
  make_up(ADA_BODY, 0, 0);
  GOOD(ada_call(&k, 0, task - 1, MOST_FAMILIES - 1, 0, ADA_TIMED, 5, &at));
  GOOD(ada_queued(&k, task - 1, MOST_FAMILIES - 1, 0, &count));
  note(count == 1, "a call of the last entry", count);
  GOOD(ada_tick(&k, 5, &at));
  GOOD(ada_complete(&k, 3, &at));
  GOOD(ada_release(&k, 3));
  refuses(MOST_FAMILIES, ADA_TOO_MANY_SLOTS, "as many entries as were given up");
  make_up(ADA_BODY, 0, MOST_FAMILIES - 1);
  make_up(ADA_BODY, 0, 1);
  refuses(1, ADA_TOO_MANY_SLOTS, "an entry too many again");
  ada_kernel_drop(&k);
}

/* ---- A crowd ---- */

/* Tasks 2 and on call the only entry of task 1, in an order that isn't that of their numbers. */
static uint64_t caller(uint64_t place, uint64_t callers) { return 2 + place * 7 % callers; }

static void make_crowd(uint64_t callers) {
  uint64_t place;
  make_up(ADA_BODY, 0, 1);
  for (place = 0; place < callers; place++) make_up(ADA_BODY, 0, 0);
  for (place = 0; place < callers; place++)
    GOOD(ada_call(&k, caller(place, callers), 1, 0, 0, ADA_SIMPLE, 0, &at));
}

/* A client in a block of its own, which is over then. */
static void serve_client(void) {
  uint64_t client = ada_tasks(&k);
  GOOD(ada_open(&k, 0, &at));
  make_up(ADA_BLOCK, at, 1);
  GOOD(ada_complete(&k, client, &at));
  GOOD(ada_close(&k, 0, &at));
  note(is_running(0), "the main program after a client", client);
}

/* Only room may be wanting, beside so many that live. */
static void make_shorter(void) {
  int32_t code = ada_compact(&k);
  note(code == ADA_ACCEPTED || code == ADA_NO_ROOM, "a compaction beside a crowd", (uint64_t)code);
}

/* The queue is served in the order of its calls. */
static void serve_queue(uint64_t callers) {
  ada_outcome outcome = {0, 0, 0, 0};
  uint64_t place;
  for (place = 0; place < callers; place++) {
    GOOD(ada_accept(&k, 1, 0, 0, &at));
    GOOD(ada_outcome_of(&k, 1, &outcome));
    note(outcome.caller == caller(place, callers), "who is served", place);
    GOOD(ada_end(&k, 1, 0, &at));
    note(is_running(caller(place, callers)), "who was served", place);
  }
}

/* So many callers, the server and the main program live, and clients come and go. */
static void try_crowd(uint64_t callers) {
  uint32_t count = 0;
  int round;
  GOOD(ada_kernel_new_lasting(&k, 1024));
  make_crowd(callers);
  for (round = 0; round < ROUNDS; round++) {
    serve_client();
    if (round % 50 == 0) make_shorter();
  }
  note(ada_tasks(&k) == callers + 2 + ROUNDS, "the number of the next task", ada_tasks(&k));
  GOOD(ada_queued(&k, 1, 0, 0, &count));
  note(count == callers, "the queue of the crowd", count);
  serve_queue(callers);
  make_shorter();
  note(ada_finished(&k) == 0, "the main program", 0);
  ada_kernel_drop(&k);
}

int main(void) {
  try_most_tasks();
  try_most_entries();
  try_crowd(100);
  try_crowd(240);
  try_crowd(250);
  try_crowd(253);
  printf("%d passed, %d failed\n", passed, failed);
  return failed != 0;
}
