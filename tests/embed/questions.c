/* SPDX-License-Identifier: MIT */
/* Asks why tasks don't go on, for whom they wait, who became runnable, which moment is due next, and for the board. The
   journals of the first parts, with the positions of their events, and the answers were worked out by docs/RULES.md;
   the last part compares the answers of longer plays with each other. Prints what fails; the last line is 'N passed, M
   failed'. */

#include "adatask.h"
#include <stdio.h>
#include <string.h>

static ada_kernel k;
static uint64_t at;
static int passed, failed;
static const ada_family single = {0, 0};

static void note(int is_right, int line, const char *what) {
  if (is_right) {
    passed++;
  } else {
    failed++;
    printf("FAILED: line %d: %s\n", line, what);
  }
}

/* A request is accepted, and becomes the event at this position. */
#define AT(position, request) \
  do { \
    int32_t said = (request); \
    note(said == ADA_ACCEPTED && at == (position), __LINE__, #request); \
  } while (0)

/* A call is answered by a code. */
#define SAYS(code, question) note((question) == (code), __LINE__, #question)

/* The journal has that many events. */
#define EVENTS(wanted) note(ada_events(&k) == (wanted), __LINE__, "so many events")

/* Why a task doesn't go on, and the numbers of the tasks for which it waits, each below 10. */
static void waits(int line, uint64_t task, uint32_t kind, uint64_t position, const char *wanted) {
  ada_reason reason;
  char found[16];
  size_t length = 0;
  uint64_t other;
  reason.kind = 77;
  note(ada_reason_of(&k, task, &reason) == ADA_ACCEPTED, line, "a reason");
  note(reason.kind == kind && reason.position == position, line, "this reason");
  for (other = 0; length < 15 && ada_awaited(&k, task, other, &other) == ADA_ACCEPTED; other++)
    found[length++] = (char)('0' + (int)other);
  found[length] = 0;
  note(!strcmp(found, wanted), line, "these tasks are awaited");
}

#define WAITS(task, kind, position, others) waits(__LINE__, task, kind, position, others)
#define GOES_ON(task) waits(__LINE__, task, ADA_GOES_ON, 0, "")

/* The numbers of the tasks that became runnable. */
static void runnable(int line, const char *wanted) {
  char found[16];
  size_t length = 0;
  uint64_t task;
  for (task = 0; length < 15 && ada_runnable(&k, task, &task) == ADA_ACCEPTED; task++)
    found[length++] = (char)('0' + (int)task);
  found[length] = 0;
  note(!strcmp(found, wanted), line, "these tasks became runnable");
}

#define RUNNABLE(tasks) runnable(__LINE__, tasks)

static void due(int line, int64_t wanted) {
  int64_t moment = -77;
  note(ada_next_due(&k, &moment) == ADA_ACCEPTED && moment == wanted, line, "this moment is due next");
}

static void due_never(int line) {
  int64_t moment = -77;
  note(ada_next_due(&k, &moment) == ADA_NO_SUCH_ITEM && moment == -77, line, "no moment is due");
}

#define DUE(moment) due(__LINE__, moment)
#define NOTHING_DUE() due_never(__LINE__)

/* With -DLASTING each kernel is one that lives on: but for the board, no question has another answer then. */
#ifdef LASTING
static void begin(void) { SAYS(ADA_ACCEPTED, ada_kernel_new_lasting(&k, 60000)); }
#else
static void begin(void) { SAYS(ADA_ACCEPTED, ada_kernel_new(&k)); }
#endif

/* Task 1 with an entry, and others without one, made by the main program and active: 2 * tasks + 2 events. */
static void begin_with(uint64_t tasks) {
  const uint64_t all[4] = {1, 2, 3, 4};
  uint64_t task;
  begin();
  for (task = 1; task <= tasks; task++) AT(task, ada_create(&k, 0, ADA_BODY, 0, &single, task == 1, &at));
  AT(tasks + 1, ada_activate(&k, 0, all, tasks, &at));
  for (task = 1; task <= tasks; task++) AT(tasks + 1 + task, ada_elaborated(&k, task, 1, &at));
  EVENTS(2 * tasks + 2);
}

static int32_t call(uint64_t by) { return ada_call(&k, by, 1, 0, 0, ADA_SIMPLE, 0, &at); }
static int32_t call_within(uint64_t by, int64_t time) { return ada_call(&k, by, 1, 0, 0, ADA_TIMED, time, &at); }
static int32_t call_at_once(uint64_t by) { return ada_call(&k, by, 1, 0, 0, ADA_CONDITIONAL, 0, &at); }
static int32_t accept(void) { return ada_accept(&k, 1, 0, 0, &at); }
static int32_t end(uint32_t raised) { return ada_end(&k, 1, raised, &at); }
static int32_t abort_task(uint64_t task) { return ada_abort(&k, 0, &task, 1, &at); }
static int32_t activate(uint64_t by, uint64_t task) { return ada_activate(&k, by, &task, 1, &at); }
static int32_t create(uint64_t by, uint32_t kind, uint64_t master) {
  return ada_create(&k, by, kind, master, NULL, 0, &at);
}

/* ---- Reasons and runnable tasks ---- */

/* Activation, rendezvous, waits and delays (9.3, 9.5, 9.6). */
static void try_rendezvous(void) {
  const uint64_t two[2] = {1, 2};
  begin();
  GOES_ON(0);
  RUNNABLE("");
  AT(1, ada_create(&k, 0, ADA_BODY, 0, &single, 1, &at));
  AT(2, create(0, ADA_BODY, 0));
  AT(3, create(0, ADA_BODY, 0));
  WAITS(1, ADA_NOT_STARTED, 0, "0");
  RUNNABLE("");
  AT(4, ada_activate(&k, 0, two, 2, &at));
  WAITS(0, ADA_ACTIVATING, 4, "12");
  GOES_ON(1);
  WAITS(3, ADA_NOT_STARTED, 0, "0");
  RUNNABLE("12");
  AT(5, ada_elaborated(&k, 1, 1, &at));
  WAITS(0, ADA_ACTIVATING, 4, "2");
  RUNNABLE("");
  AT(6, ada_elaborated(&k, 2, 1, &at)); /* 7 activated 4 ok */
  GOES_ON(0);
  RUNNABLE("0");
  AT(8, call(2));
  WAITS(2, ADA_QUEUED, 8, "1");
  RUNNABLE("");
  AT(9, accept()); /* 10 met 8 9; task 1 ran before */
  WAITS(2, ADA_IN_RENDEZVOUS, 8, "1");
  GOES_ON(1);
  RUNNABLE("");
  AT(11, end(0));
  GOES_ON(2);
  RUNNABLE("2");
  AT(12, accept());
  WAITS(1, ADA_IN_WAIT, 12, "");
  RUNNABLE("");
  AT(13, call(2)); /* 14 met 13 12 */
  WAITS(2, ADA_IN_RENDEZVOUS, 13, "1");
  RUNNABLE("1");
  AT(15, end(1)); /* by an exception in both */
  GOES_ON(1);
  RUNNABLE("2");
  AT(16, ada_delay(&k, 2, 5, &at));
  WAITS(2, ADA_DELAYED, 16, "");
  AT(17, ada_tick(&k, 4, &at));
  RUNNABLE("");
  AT(18, ada_tick(&k, 5, &at)); /* 19 woken 16 */
  GOES_ON(2);
  RUNNABLE("2");
  SAYS(ADA_NOT_RUNNING, ada_complete(&k, 3, &at)); /* a refused request changes nothing */
  RUNNABLE("2");
  AT(20, ada_delay(&k, 2, 0, &at)); /* 21 woken 20; task 2 ran before */
  RUNNABLE("");
  EVENTS(21);
  ada_kernel_drop(&k);
}

/* A failed activation, and one within another (9.3). */
static void try_activation(void) {
  const uint64_t two[2] = {1, 2};
  begin();
  AT(1, create(0, ADA_BODY, 0));
  AT(2, create(0, ADA_BODY, 0));
  AT(3, ada_activate(&k, 0, two, 2, &at));
  AT(4, create(2, ADA_BODY, 2));
  WAITS(3, ADA_NOT_STARTED, 0, "2");
  AT(5, activate(2, 3));
  WAITS(2, ADA_ACTIVATING, 5, "3");
  WAITS(0, ADA_ACTIVATING, 3, "12");
  RUNNABLE("3");
  AT(6, ada_elaborated(&k, 1, 0, &at)); /* 7 gone 1 */
  GOES_ON(1);
  WAITS(0, ADA_ACTIVATING, 3, "2");
  RUNNABLE("");
  AT(8, ada_elaborated(&k, 3, 0, &at)); /* 9 activated 5 failed, 10 gone 3 */
  GOES_ON(2);
  RUNNABLE("2");
  AT(11, ada_elaborated(&k, 2, 1, &at)); /* 12 activated 3 failed */
  RUNNABLE("0");
  EVENTS(12);
  ada_kernel_drop(&k);
}

/* The end of a block, and of bodies (9.4). Task 1 depends on the block, 3 on the body of 1, 2 on that of main. */
static void try_masters(void) {
  const uint64_t two[2] = {1, 2};
  begin();
  AT(1, ada_open(&k, 0, &at));
  AT(2, create(0, ADA_BLOCK, 1));
  AT(3, create(0, ADA_BODY, 0));
  AT(4, ada_activate(&k, 0, two, 2, &at));
  AT(5, ada_elaborated(&k, 1, 1, &at));
  AT(6, ada_elaborated(&k, 2, 1, &at)); /* 7 activated 4 ok */
  AT(8, create(1, ADA_BODY, 1));
  AT(9, activate(1, 3));
  AT(10, ada_elaborated(&k, 3, 1, &at)); /* 11 activated 9 ok */
  AT(12, ada_close(&k, 0, &at));
  WAITS(0, ADA_LEAVING, 12, "13");
  RUNNABLE("");
  AT(13, ada_complete(&k, 1, &at));
  WAITS(1, ADA_AWAITS_DEPENDENTS, 0, "3");
  WAITS(0, ADA_LEAVING, 12, "13");
  RUNNABLE("");
  AT(14, ada_complete(&k, 3, &at)); /* 15 gone 3, 16 gone 1, 17 left 12 */
  GOES_ON(0);
  GOES_ON(1);
  RUNNABLE("0");
  AT(18, ada_complete(&k, 0, &at));
  WAITS(0, ADA_AWAITS_DEPENDENTS, 0, "2");
  RUNNABLE("");
  AT(19, ada_complete(&k, 2, &at)); /* 20 gone 2, 21 gone main */
  GOES_ON(0);
  RUNNABLE("");
  EVENTS(21);
  ada_kernel_drop(&k);
}

/* What waits at terminate alternatives goes together, and lets its block be left (9.7.1, 9.4). */
static void try_quitting(void) {
  const ada_choice open_choice = {0, 0, 1};
  const uint64_t two[2] = {1, 2};
  begin();
  AT(1, ada_open(&k, 0, &at));
  AT(2, ada_create(&k, 0, ADA_BLOCK, 1, &single, 1, &at));
  AT(3, create(0, ADA_BLOCK, 1));
  AT(4, ada_activate(&k, 0, two, 2, &at));
  AT(5, ada_elaborated(&k, 1, 1, &at));
  AT(6, ada_elaborated(&k, 2, 1, &at)); /* 7 activated 4 ok */
  AT(8, ada_close(&k, 0, &at));
  WAITS(0, ADA_LEAVING, 8, "12");
  AT(9, ada_complete(&k, 2, &at)); /* 10 gone 2 */
  WAITS(0, ADA_LEAVING, 8, "1");
  RUNNABLE("");
  AT(11, ada_wait(&k, 1, &open_choice, 1, ADA_TERMINATE, NULL, 0, 0, &at)); /* 12 quit 1, 13 left 8 */
  GOES_ON(1);
  RUNNABLE("0");
  EVENTS(13);
  ada_kernel_drop(&k);
}

/* Calls that are cancelled (9.7.2, 9.7.3): one by a tick, and one at once, whose caller ran before. */
static void try_cancelled(void) {
  begin_with(2); /* 6 events */
  AT(7, call_at_once(2)); /* 8 cancelled 7 */
  GOES_ON(2);
  RUNNABLE("");
  AT(9, call_within(2, 10));
  WAITS(2, ADA_QUEUED, 9, "1");
  AT(10, ada_tick(&k, 10, &at)); /* 11 cancelled 9 */
  GOES_ON(2);
  RUNNABLE("2");
  AT(12, ada_call(&k, 1, 1, 0, 0, ADA_SIMPLE, 0, &at)); /* of its own entry: it waits for itself */
  WAITS(1, ADA_QUEUED, 12, "1");
  EVENTS(12);
  ada_kernel_drop(&k);
}

/* The abort of a server, of which two tasks wait (9.10). */
static void try_abort_of_server(void) {
  begin_with(3); /* 8 events */
  AT(9, call(2));
  AT(10, call_within(3, 20));
  DUE(20);
  AT(11, abort_task(1)); /* 12 halted 1, 13 failed 9, 14 failed 10, 15 gone 1 */
  RUNNABLE("23");
  NOTHING_DUE();
  GOES_ON(1);
  GOES_ON(2);
  EVENTS(15);
  ada_kernel_drop(&k);
}

/* The abort of a task whose dependent is served (9.10): 3 depends on 2, and calls 1. */
static void try_abort_of_caller(void) {
  begin_with(2); /* 6 events */
  AT(7, create(2, ADA_BODY, 2));
  AT(8, activate(2, 3));
  AT(9, ada_elaborated(&k, 3, 1, &at)); /* 10 activated 8 ok */
  AT(11, call(3));
  AT(12, accept()); /* 13 met 11 12 */
  AT(14, ada_delay(&k, 2, 50, &at));
  DUE(50);
  AT(15, abort_task(2)); /* 16 halted 2; 3 stays until its call is served */
  WAITS(2, ADA_AWAITS_DEPENDENTS, 0, "3");
  WAITS(3, ADA_IN_RENDEZVOUS, 11, "1");
  NOTHING_DUE();
  RUNNABLE("");
  AT(17, end(0)); /* 18 halted 3, 19 gone 3, 20 gone 2 */
  GOES_ON(2);
  RUNNABLE("");
  EVENTS(20);
  ada_kernel_drop(&k);
}

/* ---- Moments ---- */

static void try_moments(void) {
  const ada_choice choice = {0, 0, 1};
  const ada_pause delays[3] = {{20, 1}, {1, 0}, {5, 1}}, closed = {5, 0};
  begin_with(3); /* 8 events */
  NOTHING_DUE();
  AT(9, call_within(2, 30));
  DUE(30);
  AT(10, ada_delay(&k, 3, 50, &at));
  DUE(30);
  AT(11, ada_delay(&k, 0, 40, &at));
  DUE(30);
  AT(12, accept()); /* 13 met 9 12: a call that is served isn't due */
  DUE(40);
  AT(14, ada_tick(&k, 39, &at));
  DUE(40);
  AT(15, ada_tick(&k, 40, &at)); /* 16 woken 11 */
  DUE(50);
  AT(17, end(0));
  AT(18, ada_wait(&k, 1, &choice, 1, ADA_DELAYS, delays, 3, 0, &at)); /* until 60, never, until 45 */
  WAITS(1, ADA_IN_WAIT, 18, "");
  DUE(45);
  AT(19, call(2)); /* 20 met 19 18 */
  DUE(50);
  AT(21, end(0));
  AT(22, ada_wait(&k, 1, &choice, 1, ADA_DELAYS, delays, 3, 0, &at));
  AT(23, ada_tick(&k, 60, &at)); /* 24 passed 22 delay 2, 25 woken 10 */
  RUNNABLE("13");
  NOTHING_DUE();
  AT(26, ada_wait(&k, 1, &choice, 1, ADA_DELAYS, &closed, 1, 0, &at));
  NOTHING_DUE();
  AT(27, ada_delay(&k, 3, INT64_C(8999999999940), &at));
  DUE(INT64_C(9000000000000));
  AT(28, abort_task(3)); /* 29 halted 3, 30 gone 3 */
  NOTHING_DUE();
  EVENTS(30);
  ada_kernel_drop(&k);
}

/* ---- The board ---- */

#ifdef LASTING

static void try_board(void) {
  static ada_board board;
  uint32_t slot = 7;
  begin();
  SAYS(ADA_LIVES_ON, ada_board_of(&k, &board));
  SAYS(ADA_LIVES_ON, ada_slot(&k, 0, 0, 0, &slot));
  note(slot == 7, __LINE__, "nothing is written");
  ada_kernel_drop(&k);
}

#else

/* The main program, and task 1 with E and F(1..3), after two calls of F(2) and one of E. */
static void try_board(void) {
  const ada_family families[2] = {{0, 0}, {1, 3}};
  const uint64_t all[4] = {1, 2, 3, 4};
  static ada_board board;
  uint64_t task, rest = 0;
  size_t i;
  begin();
  memset(&board, 7, sizeof board);
  SAYS(ADA_ACCEPTED, ada_board_of(&k, &board));
  note(board.events == 0 && board.tasks == 1 && board.slots == 0, __LINE__, "the board of an empty journal");
  note(board.callable[0] == 1 && board.terminated[0] == 0, __LINE__, "the main program on it");
  AT(1, ada_create(&k, 0, ADA_BODY, 0, families, 2, &at));
  for (task = 2; task <= 4; task++) AT(task, create(0, ADA_BODY, 0));
  AT(5, ada_activate(&k, 0, all, 4, &at));
  for (task = 1; task <= 4; task++) AT(5 + task, ada_elaborated(&k, task, 1, &at)); /* 10 activated 5 ok */
  AT(11, ada_call(&k, 2, 1, 1, 2, ADA_SIMPLE, 0, &at));
  AT(12, ada_call(&k, 3, 1, 1, 2, ADA_SIMPLE, 0, &at));
  AT(13, ada_call(&k, 4, 1, 0, 0, ADA_SIMPLE, 0, &at));
  AT(14, abort_task(4)); /* 15 halted 4, 16 gone 4: its call leaves the queue */
  AT(17, abort_task(2)); /* 18 halted 2, 19 gone 2 */
  memset(&board, 7, sizeof board);
  SAYS(ADA_ACCEPTED, ada_board_of(&k, &board));
  note(board.events == 19 && board.tasks == 5 && board.slots == 4, __LINE__, "how many there are");
  note(!memcmp(board.callable, "\1\1\0\1\0", 6), __LINE__, "who is callable");
  note(!memcmp(board.terminated, "\0\0\1\0\1", 6), __LINE__, "who is terminated");
  note(board.counts[0] == 0 && board.counts[1] == 0, __LINE__, "the counts of E and F(1)");
  note(board.counts[2] == 1 && board.counts[3] == 0, __LINE__, "the counts of F(2) and F(3)");
  for (i = 5; i < 256; i++) rest |= board.callable[i] | board.terminated[i];
  for (i = 4; i < 1024; i++) rest |= board.counts[i];
  note(rest == 0, __LINE__, "unused places");
  ada_kernel_drop(&k);
}

#endif

/* ---- Longer plays, whose answers are compared with each other ---- */

#define PLAY_TASKS 7
static uint32_t dice = 1;

static uint32_t roll(uint32_t sides) {
  dice = dice * 1664525u + 1013904223u;
  return (dice >> 16) % sides;
}

static uint32_t runs(uint64_t task) {
  uint32_t answer = 9;
  (void)ada_running(&k, task, &answer);
  return answer;
}

/* A call, mostly a conditional or a timed one. */
static int32_t call_somehow(uint64_t by, uint64_t callee) {
  static const uint32_t patiences[4] = {ADA_SIMPLE, ADA_CONDITIONAL, ADA_TIMED, ADA_TIMED};
  uint32_t patience = patiences[roll(4)], family = roll(2);
  int64_t duration = roll(9);
  return ada_call(&k, by, callee, family, family ? 1 + (int32_t)roll(2) : 0, patience, duration, &at);
}

/* A wait of a task with the entry E and the family F(1..2), which mostly ends by itself. */
static int32_t wait_somehow(uint64_t by) {
  static const ada_pause pauses[2] = {{3, 1}, {8, 1}};
  static const uint32_t tails[5] = {ADA_ELSE, ADA_DELAYS, ADA_DELAYS, ADA_TERMINATE, ADA_NOTHING};
  ada_choice choices[2] = {{0, 0, 1}, {1, 1, 1}};
  uint32_t tail = tails[roll(5)], pick = roll(5);
  choices[0].is_open = roll(2);
  choices[1].index = 1 + (int32_t)roll(2);
  return ada_wait(&k, by, choices, 2, tail, pauses, tail == ADA_DELAYS ? 2 : 0, pick, &at);
}

static int32_t ask_somehow(void) {
  uint64_t by = roll(PLAY_TASKS), other = 1 + roll(PLAY_TASKS - 1);
  uint32_t is_rare = roll(16) == 0;
  switch (roll(10)) {
    case 0: return ada_open(&k, by, &at);
    case 1: return ada_close(&k, by, &at);
    case 2: return ada_delay(&k, by, roll(9), &at);
    case 3: return is_rare ? ada_abort(&k, by, &other, 1, &at) : ada_end(&k, by, 1, &at);
    case 4: return is_rare ? ada_complete(&k, by, &at) : ada_end(&k, by, 0, &at);
    case 5:
    case 6:
    case 7: return call_somehow(by, other);
    default: return wait_somehow(by);
  }
}

/* The board says of each task and of each entry what the questions of one say. */
static int agrees_with_board(void) {
#ifdef LASTING
  return 1;
#else
  static ada_board board;
  uint64_t task;
  int agrees = ada_board_of(&k, &board) == ADA_ACCEPTED;
  agrees &= board.events == ada_events(&k) && board.tasks == ada_tasks(&k) && board.slots == 3 * (PLAY_TASKS - 1);
  for (task = 0; task < PLAY_TASKS; task++) {
    uint32_t callable = 9, terminated = 9, slot = 0, count = 0;
    int32_t index;
    agrees &= ada_callable(&k, task, &callable) == ADA_ACCEPTED && callable == board.callable[task];
    agrees &= ada_terminated(&k, task, &terminated) == ADA_ACCEPTED && terminated == board.terminated[task];
    for (index = 1; index <= 2 && task > 0 && runs(task); index++)
      agrees &= ada_slot(&k, task, 1, index, &slot) == ADA_ACCEPTED &&
                ada_count(&k, task, 1, index, &count) == ADA_ACCEPTED && count == board.counts[slot];
  }
  return agrees;
#endif
}

/* A task has no reason exactly if it runs or is terminated, and waits for nobody who is terminated. */
static int has_reasons(void) {
  uint64_t task, from, other;
  int holds = 1;
  for (task = 0; task < PLAY_TASKS; task++) {
    ada_reason reason = {77, 0};
    uint32_t terminated = 9;
    holds &= ada_reason_of(&k, task, &reason) == ADA_ACCEPTED && ada_terminated(&k, task, &terminated) == ADA_ACCEPTED;
    holds &= (reason.kind == ADA_GOES_ON) == (runs(task) || terminated);
    for (from = 0; from < PLAY_TASKS && ada_awaited(&k, task, from, &other) == ADA_ACCEPTED; from++)
      holds &= other >= from && ada_terminated(&k, other, &terminated) == ADA_ACCEPTED && !terminated;
  }
  return holds;
}

/* Became runnable has who runs, and didn't before. */
static int became_runnable(const uint32_t *ran) {
  uint64_t task, found = 0;
  int holds = 1;
  for (task = 0; task < PLAY_TASKS; task++) {
    int is_named = ada_runnable(&k, task, &found) == ADA_ACCEPTED && found == task;
    holds &= is_named == (runs(task) && !ran[task]);
  }
  return holds;
}

/* A tick forces a step exactly if the moment that is due next has come. */
static int ticks_on(void) {
  int64_t moment;
  if (ada_next_due(&k, &moment) != ADA_ACCEPTED) return 1;
  return ada_tick(&k, moment - 1, &at) == ADA_ACCEPTED && ada_events(&k) == at &&
         ada_tick(&k, moment, &at) == ADA_ACCEPTED && ada_events(&k) > at;
}

/* Makes tasks 1 to 6 with an entry and a family, the last three under the first three. */
static void begin_play(void) {
  const ada_family families[2] = {{0, 0}, {1, 2}};
  uint64_t task;
  begin();
  for (task = 1; task < PLAY_TASKS; task++) {
    uint64_t by = task < 4 ? 0 : task - 3;
    SAYS(ADA_ACCEPTED, ada_create(&k, by, ADA_BODY, by, families, 2, &at));
    SAYS(ADA_ACCEPTED, activate(by, task));
    SAYS(ADA_ACCEPTED, ada_elaborated(&k, task, 1, &at));
  }
}

static int play_on(void) {
  uint32_t ran[PLAY_TASKS];
  uint64_t task;
  int holds = 1;
  for (task = 0; task < PLAY_TASKS; task++) ran[task] = runs(task);
  if (ask_somehow() == ADA_ACCEPTED) holds = became_runnable(ran) && agrees_with_board() && has_reasons();
  if (roll(4) == 0) holds &= ticks_on();
  return holds;
}

static int play_whole(void) {
  int i, holds = 1;
  begin_play();
  for (i = 0; i < 300; i++) holds &= play_on();
  return holds;
}

static void try_plays(void) {
  uint64_t events = 0;
  int i;
  for (i = 0; i < 40; i++) {
    note(play_whole(), __LINE__, "a longer play");
    events += ada_events(&k);
    ada_kernel_drop(&k);
  }
  note(events > 4000, __LINE__, "plays that go on");
}

int main(void) {
  try_rendezvous();
  try_activation();
  try_masters();
  try_quitting();
  try_cancelled();
  try_abort_of_server();
  try_abort_of_caller();
  try_moments();
  try_board();
  try_plays();
  printf("%d passed, %d failed\n", passed, failed);
  return failed != 0;
}
