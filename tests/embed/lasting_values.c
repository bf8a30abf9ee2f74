/* SPDX-License-Identifier: MIT */
/* Calls each function of the library with bad values of a kernel that lives on, and with names that it gave up: the
   answer is named, nothing is written, and nothing has changed. Then a caller, a queue and a clock, by docs/RULES.md.
   Prints what fails; the last line is 'N passed, M failed'. */

#include "adatask.h"
#include <stdio.h>
#include <string.h>

#define LAST UINT64_MAX
#define FAR (UINT64_C(1) << 40)

static ada_kernel k;
static int passed, failed;
static uint64_t at = 77;
static uint32_t out = 77;
static int64_t moment = 77;

/* What questions write to. */
static struct {
  ada_event event;
  ada_outcome outcome;
  ada_lengths lengths;
  ada_family family;
  ada_choice choice;
  ada_due due;
  ada_reason reason;
  ada_board board;
} told, kept;

static const ada_family single = {0, 0};

static void note(int is_right, const char *what) {
  if (is_right) {
    passed++;
  } else {
    failed++;
    printf("FAILED: %s\n", what);
  }
}

static void clear(void) {
  at = 77;
  out = 77;
  moment = 77;
  k.goes_on = 77;
  memset(&told, 7, sizeof told);
  memset(&kept, 7, sizeof kept);
}

/* A call was answered by a code, and changed and wrote nothing. */
static void answered(int32_t code, int32_t wanted, uint64_t events, const char *what) {
  int is_same = at == 77 && out == 77 && moment == 77 && k.goes_on == 77 && !memcmp(&told, &kept, sizeof told);
  note(code == wanted && is_same && ada_events(&k) == events, what);
  clear();
}

static uint64_t before;
#define BAD(code, call) (before = ada_events(&k), answered(call, code, before, #call))
#define GOOD(call) note((call) == ADA_ACCEPTED, #call)

/* A request is accepted, and becomes the event at this position. */
#define AT(position, request) note((request) == ADA_ACCEPTED && at == (position), #request)

/* Events 1 to 4: task 1 with an entry is made and activated. */
static void begin(void) {
  const uint64_t task = 1;
  GOOD(ada_kernel_new_lasting(&k, 4096));
  AT(1, ada_create(&k, 0, ADA_BODY, 0, &single, 1, &at));
  AT(2, ada_activate(&k, 0, &task, 1, &at));
  AT(3, ada_elaborated(&k, 1, 1, &at)); /* 4 activated 2 ok */
  clear();
}

/* Each number may be a task or a position: one that was never made is unknown. */
static void try_requests(void) {
  static const uint64_t tasks[257] = {1}, far_task[1] = {FAR}, last_task[1] = {LAST};
  static const ada_family families[17] = {{0, 0}};
  static const ada_choice choices[17] = {{0, 0, 1}};
  static const ada_choice far_choice[1] = {{256, 0, 1}}, no_choice[1] = {{0, 0, 2}};
  static const ada_pause delays[9] = {{5, 1}}, no_delay[1] = {{5, 2}};
  BAD(ADA_UNKNOWN_TASK, ada_open(&k, 2, &at));
  BAD(ADA_UNKNOWN_TASK, ada_open(&k, LAST, &at));
  BAD(ADA_UNKNOWN_TASK, ada_create(&k, FAR, ADA_BODY, 0, families, 1, &at));
  BAD(ADA_UNKNOWN_TASK, ada_create(&k, 0, ADA_BODY, LAST, families, 1, &at));
  BAD(ADA_NOT_YOUR_MASTER, ada_create(&k, 0, ADA_BLOCK, LAST, families, 1, &at));
  BAD(ADA_NO_SUCH_KIND, ada_create(&k, 0, 2, 0, families, 1, &at));
  BAD(ADA_TOO_LONG, ada_create(&k, 0, ADA_BODY, 0, families, 17, &at));
  BAD(ADA_UNKNOWN_TASK, ada_activate(&k, 0, far_task, 1, &at));
  BAD(ADA_UNKNOWN_TASK, ada_activate(&k, 0, last_task, 1, &at));
  BAD(ADA_TOO_LONG, ada_activate(&k, 0, tasks, 257, &at));
  BAD(ADA_EMPTY_LIST, ada_activate(&k, 0, NULL, 0, &at));
  BAD(ADA_UNKNOWN_TASK, ada_elaborated(&k, LAST, 1, &at));
  BAD(ADA_NO_SUCH_KIND, ada_elaborated(&k, 0, 2, &at));
  BAD(ADA_UNKNOWN_TASK, ada_call(&k, LAST, 1, 0, 0, ADA_SIMPLE, 0, &at));
  BAD(ADA_UNKNOWN_TASK, ada_call(&k, 0, LAST, 0, 0, ADA_SIMPLE, 0, &at));
  BAD(ADA_OUT_OF_RANGE, ada_call(&k, 0, 1, 256, 0, ADA_SIMPLE, 0, &at));
  BAD(ADA_NO_SUCH_KIND, ada_call(&k, 0, 1, 0, 0, 3, 0, &at));
  BAD(ADA_CONSTRAINT_ERROR, ada_call(&k, 0, 1, 0, 1, ADA_SIMPLE, 0, &at));
  BAD(ADA_UNKNOWN_TASK, ada_wait(&k, LAST, choices, 1, ADA_NOTHING, NULL, 0, 0, &at));
  BAD(ADA_TOO_LONG, ada_wait(&k, 1, choices, 17, ADA_NOTHING, NULL, 0, 0, &at));
  BAD(ADA_OUT_OF_RANGE, ada_wait(&k, 1, far_choice, 1, ADA_NOTHING, NULL, 0, 0, &at));
  BAD(ADA_NO_SUCH_KIND, ada_wait(&k, 1, no_choice, 1, ADA_NOTHING, NULL, 0, 0, &at));
  BAD(ADA_NO_SUCH_KIND, ada_wait(&k, 1, choices, 1, 5, NULL, 0, 0, &at));
  BAD(ADA_TOO_LONG, ada_wait(&k, 1, choices, 1, ADA_ELSE, delays, 1, 0, &at));
  BAD(ADA_TOO_LONG, ada_wait(&k, 1, choices, 1, ADA_DELAYS, delays, 9, 0, &at));
  BAD(ADA_NO_SUCH_KIND, ada_wait(&k, 1, choices, 1, ADA_DELAYS, no_delay, 1, 0, &at));
  BAD(ADA_UNKNOWN_TASK, ada_accept(&k, 2, 0, 0, &at));
  BAD(ADA_UNKNOWN_TASK, ada_delay(&k, LAST, 0, &at));
  BAD(ADA_MOMENT_TOO_LARGE, ada_delay(&k, 0, INT64_MAX, &at));
  BAD(ADA_NO_SUCH_KIND, ada_end(&k, 0, 2, &at));
  BAD(ADA_UNKNOWN_TASK, ada_end(&k, 2, 0, &at));
  BAD(ADA_UNKNOWN_TASK, ada_close(&k, 2, &at));
  BAD(ADA_NO_BLOCK, ada_close(&k, 0, &at));
  BAD(ADA_UNKNOWN_TASK, ada_complete(&k, LAST, &at));
  BAD(ADA_UNKNOWN_TASK, ada_abort(&k, 0, last_task, 1, &at));
  BAD(ADA_TOO_LONG, ada_abort(&k, 0, tasks, 257, &at));
  BAD(ADA_MOMENT_BACK, ada_tick(&k, -1, &at));
  BAD(ADA_MOMENT_TOO_LARGE, ada_tick(&k, INT64_MAX, &at));
}

/* Where nobody has the number, and what only a kernel that keeps everything has. */
static void try_questions(void) {
  BAD(ADA_NO_SUCH_TASK, ada_running(&k, 2, &out));
  BAD(ADA_NO_SUCH_TASK, ada_running(&k, LAST, &out));
  BAD(ADA_NO_SUCH_TASK, ada_callable(&k, LAST, &out));
  BAD(ADA_NO_SUCH_TASK, ada_terminated(&k, LAST, &out));
  BAD(ADA_NO_SUCH_TASK, ada_outcome_of(&k, LAST, &told.outcome));
  BAD(ADA_NO_SUCH_TASK, ada_reason_of(&k, LAST, &told.reason));
  BAD(ADA_NO_SUCH_TASK, ada_awaited(&k, LAST, 0, &at));
  BAD(ADA_NO_SUCH_ITEM, ada_awaited(&k, 0, LAST, &at));
  BAD(ADA_NO_SUCH_ITEM, ada_runnable(&k, 1, &at));
  BAD(ADA_NO_SUCH_ITEM, ada_runnable(&k, LAST, &at));
  BAD(ADA_NO_SUCH_ITEM, ada_next_due(&k, &moment));
  BAD(ADA_NO_SUCH_TASK, ada_queued(&k, 2, 0, 0, &out));
  BAD(ADA_NO_SUCH_TASK, ada_queued(&k, LAST, 256, 0, &out));
  BAD(ADA_OUT_OF_RANGE, ada_queued(&k, 1, 256, 0, &out));
  BAD(ADA_NO_SUCH_ENTRY, ada_queued(&k, 1, 1, 0, &out));
  BAD(ADA_NO_SUCH_ENTRY, ada_queued(&k, 1, 0, 1, &out));
  BAD(ADA_OUT_OF_RANGE, ada_count(&k, 1, 256, 0, &out));
  BAD(ADA_UNKNOWN_TASK, ada_count(&k, 2, 0, 0, &out));
  BAD(ADA_NO_SUCH_FAMILY, ada_count(&k, 1, 1, 0, &out));
  BAD(ADA_CONSTRAINT_ERROR, ada_count(&k, 1, 0, 1, &out));
  BAD(ADA_LIVES_ON, ada_slot(&k, 1, 0, 0, &out));
  BAD(ADA_LIVES_ON, ada_board_of(&k, &told.board));
}

/* The events of the last request are told from a position on. */
static void try_many_events(void) {
  ada_event list[3];
  uint64_t count = 77;
  GOOD(ada_events_from(&k, 3, list, 3, &count));
  note(count == 2 && list[0].kind == ADA_ELABORATED && list[1].kind == ADA_ACTIVATED, "both events");
  GOOD(ada_events_from(&k, 4, list, 3, &count));
  note(count == 1 && list[0].kind == ADA_ACTIVATED, "the last event");
  GOOD(ada_events_from(&k, 2, list, 3, &count));
  note(count == 0, "no earlier event");
  GOOD(ada_events_from(&k, LAST, list, 3, &count));
  note(count == 0, "no event so far on");
}

/* The last request appended events 3 and 4: an end of an activation and of another one. */
static void try_events(void) {
  try_many_events();
  BAD(ADA_NO_SUCH_EVENT, ada_event_at(&k, 0, &told.event));
  BAD(ADA_GIVEN_UP, ada_event_at(&k, 2, &told.event));
  BAD(ADA_NO_SUCH_EVENT, ada_event_at(&k, 5, &told.event));
  BAD(ADA_NO_SUCH_EVENT, ada_event_at(&k, LAST, &told.event));
  BAD(ADA_GIVEN_UP, ada_lengths_of(&k, 1, &told.lengths));
  BAD(ADA_GIVEN_UP, ada_event_task(&k, 2, 0, &at));
  BAD(ADA_GIVEN_UP, ada_event_family(&k, 1, 0, &told.family));
  BAD(ADA_NO_SUCH_EVENT, ada_event_choice(&k, 5, 0, &told.choice));
  BAD(ADA_NO_SUCH_EVENT, ada_event_delay(&k, LAST, 0, &told.due));
  BAD(ADA_NO_SUCH_ITEM, ada_event_task(&k, 3, 0, &at));
  BAD(ADA_NO_SUCH_ITEM, ada_event_family(&k, 4, LAST, &told.family));
  BAD(ADA_NO_SUCH_ITEM, ada_event_choice(&k, 3, 0, &told.choice));
  BAD(ADA_NO_SUCH_ITEM, ada_event_delay(&k, 3, 0, &told.due));
  GOOD(ada_event_at(&k, 3, &told.event));
  note(told.event.kind == ADA_ELABORATED && told.event.task == 1 && told.event.form == 1, "event 3");
  GOOD(ada_event_at(&k, 4, &told.event));
  note(told.event.kind == ADA_ACTIVATED && told.event.position == 2 && told.event.form == 1, "event 4");
  clear();
}

static void try_null(void) {
  ada_kernel none = ADA_NO_KERNEL;
  BAD(ADA_NULL, ada_kernel_new_lasting(NULL, 4096));
  BAD(ADA_NULL, ada_release(NULL, 1));
  BAD(ADA_NULL, ada_release(&none, 1));
  BAD(ADA_NULL, ada_compact(NULL));
  BAD(ADA_NULL, ada_compact(&none));
  BAD(ADA_NULL, ada_ended(&none, 0, &at));
  BAD(ADA_NULL, ada_ended(&k, 0, NULL));
  BAD(ADA_NULL, ada_queued(&none, 1, 0, 0, &out));
  BAD(ADA_NULL, ada_queued(&k, 1, 0, 0, NULL));
  ada_set_clock(NULL, 5);
}

/* Event 5: the main program calls; 6 and 7: task 1 accepts; 8: it ends the rendezvous. */
static void try_rendezvous(void) {
  AT(5, ada_call(&k, 0, 1, 0, 0, ADA_SIMPLE, 0, &at));
  note(k.goes_on == 0, "a caller that waits");
  GOOD(ada_queued(&k, 1, 0, 0, &out));
  note(out == 1, "a queued call");
  AT(6, ada_accept(&k, 1, 0, 0, &at)); /* 7 met 5 6 */
  note(k.goes_on == 1, "a server that has met it");
  GOOD(ada_queued(&k, 1, 0, 0, &out));
  note(out == 0, "no queued call");
  GOOD(ada_outcome_of(&k, 1, &told.outcome));
  note(told.outcome.kind == ADA_HAS_ACCEPTED && told.outcome.call == 5 && told.outcome.number == 0, "an accepted call");
  note(told.outcome.caller == 0, "its caller");
  AT(8, ada_end(&k, 1, 0, &at));
  GOOD(ada_runnable(&k, 0, &at));
  note(at == 0, "the caller runs again");
  GOOD(ada_outcome_of(&k, 1, &told.outcome));
  note(told.outcome.kind == ADA_HAS_ACCEPTED && told.outcome.caller == ADA_NOBODY, "a caller that has gone on");
  GOOD(ada_outcome_of(&k, 0, &told.outcome));
  note(told.outcome.kind == ADA_WAS_SERVED && told.outcome.caller == ADA_NOBODY, "a call that was served");
  clear();
}

/* Events 9 and 10: task 1 is completed and gone. Released, it has no name any more. */
static void try_giving_up(void) {
  const uint64_t gone = 1;
  BAD(ADA_MAIN_TASK, ada_release(&k, 0));
  BAD(ADA_NOT_TERMINATED, ada_release(&k, 1));
  BAD(ADA_UNKNOWN_TASK, ada_release(&k, 2));
  BAD(ADA_UNKNOWN_TASK, ada_release(&k, LAST));
  BAD(ADA_NO_SUCH_ITEM, ada_ended(&k, 0, &at));
  AT(9, ada_complete(&k, 1, &at)); /* 10 gone 1 */
  note(k.goes_on == 0, "a task that is terminated");
  GOOD(ada_ended(&k, 0, &at));
  note(at == 1, "who is terminated by event 10");
  clear();
  BAD(ADA_NO_SUCH_ITEM, ada_ended(&k, 2, &at));
  GOOD(ada_release(&k, 1));
  BAD(ADA_GIVEN_UP, ada_release(&k, 1));
  BAD(ADA_GIVEN_UP, ada_running(&k, 1, &out));
  BAD(ADA_GIVEN_UP, ada_callable(&k, 1, &out));
  BAD(ADA_GIVEN_UP, ada_terminated(&k, 1, &out));
  BAD(ADA_GIVEN_UP, ada_outcome_of(&k, 1, &told.outcome));
  BAD(ADA_GIVEN_UP, ada_reason_of(&k, 1, &told.reason));
  BAD(ADA_GIVEN_UP, ada_awaited(&k, 1, 0, &at));
  BAD(ADA_GIVEN_UP, ada_queued(&k, 1, 0, 0, &out));
  BAD(ADA_GIVEN_UP, ada_count(&k, 1, 0, 0, &out));
  BAD(ADA_GIVEN_UP, ada_call(&k, 0, 1, 0, 0, ADA_SIMPLE, 0, &at));
  BAD(ADA_GIVEN_UP, ada_create(&k, 0, ADA_BODY, 1, NULL, 0, &at));
  BAD(ADA_GIVEN_UP, ada_abort(&k, 0, &gone, 1, &at));
  BAD(ADA_GIVEN_UP, ada_complete(&k, 1, &at));
  BAD(ADA_GIVEN_UP, ada_event_at(&k, 10, &told.event));
  BAD(ADA_NO_SUCH_ITEM, ada_runnable(&k, 0, &at));
  GOOD(ada_compact(&k));
  note(ada_tasks(&k) == 2 && ada_events(&k) == 10, "no number is used twice");
  BAD(ADA_GIVEN_UP, ada_event_at(&k, 10, &told.event));
}

/* Events 11 to 16. A delay of 50 at moment 100 takes no tick, and is due at 150; one of 0 at moment 170 takes one. Then
   requests without a duration, to which the clock adds nothing. */
static void try_clock(void) {
  const uint64_t second = 2;
  ada_set_clock(&k, 100);
  AT(11, ada_delay(&k, 0, 50, &at));
  GOOD(ada_next_due(&k, &moment));
  note(moment == 150 && ada_events(&k) == 11, "a delay at a moment of the clock");
  note(k.goes_on == 0, "a task that is delayed");
  AT(12, ada_tick(&k, 160, &at)); /* 13 woken 11 */
  note(k.goes_on == 0, "a tick, which is no task's");
  clear();
  BAD(ADA_MOMENT_BACK, ada_delay(&k, 0, 50, &at));
  ada_set_clock(&k, 170);
  AT(15, ada_delay(&k, 0, 0, &at)); /* after 14 ticked 170; 16 woken 15 */
  note(k.goes_on == 1, "a task whose delay is over at once");
  GOOD(ada_event_at(&k, 15, &told.event));
  note(told.event.kind == ADA_PAUSED && told.event.moment == 170, "a delay that is over at once");
  note(ada_events(&k) == 16, "a tick before it");
  clear();
  BAD(ADA_UNKNOWN_TASK, ada_open(&k, 2, &at));
  AT(17, ada_open(&k, 0, &at));
  AT(18, ada_close(&k, 0, &at)); /* 19 left 18 */
  AT(20, ada_create(&k, 0, ADA_BODY, 0, NULL, 0, &at));
  AT(21, ada_activate(&k, 0, &second, 1, &at));
  AT(22, ada_elaborated(&k, 2, 1, &at)); /* 23 activated 21 ok */
  AT(24, ada_abort(&k, 0, &second, 1, &at)); /* 25 halted 2, 26 gone 2 */
  ada_set_clock(&k, ADA_NO_CLOCK);
  AT(27, ada_delay(&k, 0, 5, &at));
  GOOD(ada_next_due(&k, &moment));
  note(moment == 175, "a delay from the last tick");
}

int main(void) {
  clear();
  begin();
  try_requests();
  try_questions();
  try_events();
  try_null();
  try_rendezvous();
  try_giving_up();
  try_clock();
  ada_kernel_drop(&k);
  note(k.handle.kernel == NULL, "a dropped kernel");
  printf("%d passed, %d failed\n", passed, failed);
  return failed != 0;
}
