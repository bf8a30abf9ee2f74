/* SPDX-License-Identifier: MIT */
/* Calls each function of the library with each kind of bad value: the answer is named, nothing is written, and the
   kernel stays as it was. Prints what fails; the last line is 'N passed, M failed'.

   The kinds that a function can meet, each of which it meets here, under the name of what the header makes of it:

     ada_                          too long  no kind  out of range       none such     null
     kernel_new, kernel_drop                                                           kernel, out
     open, delay, close, complete                     by                               kernel, out
     create                        families  master   by, master                       kernel, list, out
     activate, abort               tasks              by, a listed task                kernel, list, out
     elaborated, end                         flag     by                               kernel, out
     call                                    patience by, callee, family               kernel, out
     wait, accept                  both      tail,    by, family                       kernel, lists, out
                                   lists     is_open
     tick                                                                              kernel, out
     tasks, events, finished                                                           kernel
     running, callable, terminated,                   task               task          kernel, out
       outcome_of, reason_of
     awaited                                          task, from         task, item    kernel, out
     slot                                             task, family       entry         kernel, out
     count                                            task, family       (refusals)    kernel, out
     event_at, lengths_of                             position           event         kernel, out
     events_from                                                                       kernel, list, out
     event_task, .._family,                           position           event, item   kernel, out
       .._choice, .._delay
     runnable                                         from               item          kernel, out
     next_due                                                            item          kernel, out
     board_of                                                                          kernel, out
     queued                                           task, family       task, entry   kernel, out
     ended                                                               item          kernel, out

   What only a kernel that lives on does is answered so. lasting_values.c has the same of such a kernel.

   A number that is in range and names no task, family, index or block of a request is a refusal of the rules. */

#include "adatask.h"
#include <stdio.h>
#include <string.h>

#define MANY UINT64_C(65536)
#define FAR UINT64_C(4294967296)

static ada_kernel k;
static int passed, failed;
static uint64_t at = 77;
static uint32_t out = 77;
static int64_t moment = 77;
static uint64_t events;

/* What questions write to. */
static struct {
  ada_event event;
  ada_outcome outcome;
  ada_lengths lengths;
  ada_family family;
  ada_choice choice;
  ada_due due;
  ada_reason reason;
  ada_board board;
} told, kept;

static void note(int is_right, const char *what, int32_t code) {
  if (is_right) {
    passed++;
  } else {
    failed++;
    printf("FAILED: %s: code %d\n", what, (int)code);
  }
}

static void clear(void) {
  at = 77;
  out = 77;
  moment = 77;
  k.goes_on = 77;
  memset(&told, 7, sizeof told);
  memset(&kept, 7, sizeof kept);
}

/* A call was answered by a code, and changed and wrote nothing. */
static void answered(int32_t code, int32_t wanted, const char *what) {
  int is_same = at == 77 && out == 77 && moment == 77 && k.goes_on == 77 && !memcmp(&told, &kept, sizeof told);
  note(code == wanted && is_same && ada_events(&k) == events, what, code);
  clear();
}

#define BAD(code, call) answered(call, code, #call)
#define GOOD(call) note((call) == ADA_ACCEPTED, #call, -1)

/* A call with a number `n` that is too large: the least one, 2^40, and the largest. */
static uint64_t n;
#define LARGE(least, call) \
  do { \
    n = (least); \
    BAD(ADA_OUT_OF_RANGE, call); \
    n = UINT64_C(1) << 40; \
    BAD(ADA_OUT_OF_RANGE, call); \
    n = UINT64_MAX; \
    BAD(ADA_OUT_OF_RANGE, call); \
  } while (0)

/* A call with `it` for its kernel, once without a pointer to one, and once without a kernel. */
static ada_kernel none;
#define WITHOUT(call) \
  do { \
    ada_kernel *it = NULL; \
    BAD(ADA_NULL, call); \
    it = &none; \
    BAD(ADA_NULL, call); \
  } while (0)

static void try_no_kernel(void) {
  WITHOUT(ada_open(it, 0, &at));
  WITHOUT(ada_create(it, 0, ADA_BODY, 0, NULL, 0, &at));
  WITHOUT(ada_activate(it, 0, NULL, 0, &at));
  WITHOUT(ada_elaborated(it, 0, 1, &at));
  WITHOUT(ada_call(it, 0, 1, 0, 0, ADA_SIMPLE, 0, &at));
  WITHOUT(ada_wait(it, 1, NULL, 0, ADA_NOTHING, NULL, 0, 0, &at));
  WITHOUT(ada_accept(it, 1, 0, 0, &at));
  WITHOUT(ada_delay(it, 0, 0, &at));
  WITHOUT(ada_end(it, 0, 0, &at));
  WITHOUT(ada_close(it, 0, &at));
  WITHOUT(ada_complete(it, 0, &at));
  WITHOUT(ada_abort(it, 0, NULL, 0, &at));
  WITHOUT(ada_tick(it, 5, &at));
  WITHOUT(ada_running(it, 0, &out));
  WITHOUT(ada_callable(it, 0, &out));
  WITHOUT(ada_terminated(it, 0, &out));
  WITHOUT(ada_outcome_of(it, 0, &told.outcome));
  WITHOUT(ada_slot(it, 1, 0, 0, &out));
  WITHOUT(ada_count(it, 1, 0, 0, &out));
  WITHOUT(ada_event_at(it, 1, &told.event));
  WITHOUT(ada_events_from(it, 1, &told.event, 1, &at));
  WITHOUT(ada_lengths_of(it, 1, &told.lengths));
  WITHOUT(ada_event_task(it, 1, 0, &at));
  WITHOUT(ada_event_family(it, 1, 0, &told.family));
  WITHOUT(ada_event_choice(it, 1, 0, &told.choice));
  WITHOUT(ada_event_delay(it, 1, 0, &told.due));
  WITHOUT(ada_reason_of(it, 0, &told.reason));
  WITHOUT(ada_awaited(it, 0, 0, &at));
  WITHOUT(ada_runnable(it, 0, &at));
  WITHOUT(ada_next_due(it, &moment));
  WITHOUT(ada_board_of(it, &told.board));
  WITHOUT(ada_queued(it, 1, 0, 0, &out));
  WITHOUT(ada_release(it, 1));
  WITHOUT(ada_compact(it));
  note(ada_tasks(&none) == 0 && ada_tasks(NULL) == 0, "ada_tasks without a kernel", -1);
  note(ada_events(&none) == 0 && ada_events(NULL) == 0, "ada_events without a kernel", -1);
  note(ada_finished(&none) == 0 && ada_finished(NULL) == 0, "ada_finished without a kernel", -1);
  ada_kernel_drop(&none);
  ada_kernel_drop(NULL);
}

/* Nothing to write to, or a list that isn't there. */
static void try_null(void) {
  BAD(ADA_NULL, ada_kernel_new(NULL));
  BAD(ADA_NULL, ada_open(&k, 0, NULL));
  BAD(ADA_NULL, ada_create(&k, 0, ADA_BODY, 0, NULL, 1, &at));
  BAD(ADA_NULL, ada_create(&k, 0, ADA_BODY, 0, NULL, 0, NULL));
  BAD(ADA_NULL, ada_activate(&k, 0, NULL, 1, &at));
  BAD(ADA_NULL, ada_activate(&k, 0, NULL, 0, NULL));
  BAD(ADA_NULL, ada_elaborated(&k, 0, 1, NULL));
  BAD(ADA_NULL, ada_call(&k, 0, 1, 0, 0, ADA_SIMPLE, 0, NULL));
  BAD(ADA_NULL, ada_wait(&k, 1, NULL, 1, ADA_NOTHING, NULL, 0, 0, &at));
  BAD(ADA_NULL, ada_wait(&k, 1, NULL, 0, ADA_DELAYS, NULL, 1, 0, &at));
  BAD(ADA_NULL, ada_wait(&k, 1, NULL, 0, ADA_NOTHING, NULL, 0, 0, NULL));
  BAD(ADA_NULL, ada_accept(&k, 1, 0, 0, NULL));
  BAD(ADA_NULL, ada_delay(&k, 0, 0, NULL));
  BAD(ADA_NULL, ada_end(&k, 0, 0, NULL));
  BAD(ADA_NULL, ada_close(&k, 0, NULL));
  BAD(ADA_NULL, ada_complete(&k, 0, NULL));
  BAD(ADA_NULL, ada_abort(&k, 0, NULL, 1, &at));
  BAD(ADA_NULL, ada_abort(&k, 0, NULL, 0, NULL));
  BAD(ADA_NULL, ada_tick(&k, 5, NULL));
  BAD(ADA_NULL, ada_running(&k, 0, NULL));
  BAD(ADA_NULL, ada_callable(&k, 0, NULL));
  BAD(ADA_NULL, ada_terminated(&k, 0, NULL));
  BAD(ADA_NULL, ada_outcome_of(&k, 0, NULL));
  BAD(ADA_NULL, ada_slot(&k, 1, 0, 0, NULL));
  BAD(ADA_NULL, ada_count(&k, 1, 0, 0, NULL));
  BAD(ADA_NULL, ada_event_at(&k, 1, NULL));
  BAD(ADA_NULL, ada_events_from(&k, 1, NULL, 1, &at));
  BAD(ADA_NULL, ada_events_from(&k, 1, &told.event, 1, NULL));
  BAD(ADA_NULL, ada_lengths_of(&k, 1, NULL));
  BAD(ADA_NULL, ada_event_task(&k, 1, 0, NULL));
  BAD(ADA_NULL, ada_event_family(&k, 1, 0, NULL));
  BAD(ADA_NULL, ada_event_choice(&k, 1, 0, NULL));
  BAD(ADA_NULL, ada_event_delay(&k, 1, 0, NULL));
  BAD(ADA_NULL, ada_reason_of(&k, 0, NULL));
  BAD(ADA_NULL, ada_awaited(&k, 0, 0, NULL));
  BAD(ADA_NULL, ada_runnable(&k, 0, NULL));
  BAD(ADA_NULL, ada_next_due(&k, NULL));
  BAD(ADA_NULL, ada_board_of(&k, NULL));
  BAD(ADA_NULL, ada_queued(&k, 1, 0, 0, NULL));
}

/* Numbers that are too large for what they stand for, kinds that are none, and lists that are too long. */
static void try_requests(void) {
  static const uint64_t tasks[257] = {1, MANY};
  static const uint64_t far_task[1] = {MANY}, last_task[1] = {MANY - 1};
  static const ada_family families[17] = {{0, 0}};
  static const ada_choice choices[17] = {{0, 0, 1}};
  static const ada_choice far_choice[1] = {{256, 0, 1}}, no_choice[1] = {{0, 0, 2}};
  static const ada_pause delays[9] = {{5, 1}}, no_delay[1] = {{5, 2}};
  LARGE(MANY, ada_open(&k, n, &at));
  BAD(ADA_UNKNOWN_TASK, ada_open(&k, 65535, &at));
  LARGE(MANY, ada_create(&k, n, ADA_BODY, 0, families, 1, &at));
  BAD(ADA_NO_SUCH_KIND, ada_create(&k, 0, 2, 0, families, 1, &at));
  LARGE(MANY, ada_create(&k, 0, ADA_BODY, n, families, 1, &at));
  BAD(ADA_UNKNOWN_TASK, ada_create(&k, 0, ADA_BODY, MANY - 1, families, 1, &at));
  LARGE(FAR, ada_create(&k, 0, ADA_BLOCK, n, families, 1, &at));
  BAD(ADA_NOT_YOUR_MASTER, ada_create(&k, 0, ADA_BLOCK, FAR - 1, families, 1, &at));
  BAD(ADA_TOO_LONG, ada_create(&k, 0, ADA_BODY, 0, families, 17, &at));
  LARGE(MANY, ada_activate(&k, n, tasks, 1, &at));
  BAD(ADA_OUT_OF_RANGE, ada_activate(&k, 0, far_task, 1, &at));
  BAD(ADA_OUT_OF_RANGE, ada_activate(&k, 0, tasks, 2, &at));
  BAD(ADA_UNKNOWN_TASK, ada_activate(&k, 0, last_task, 1, &at));
  BAD(ADA_TOO_LONG, ada_activate(&k, 0, tasks, 257, &at));
  BAD(ADA_EMPTY_LIST, ada_activate(&k, 0, NULL, 0, &at));
  LARGE(MANY, ada_elaborated(&k, n, 1, &at));
  BAD(ADA_NO_SUCH_KIND, ada_elaborated(&k, 0, 2, &at));
  LARGE(MANY, ada_call(&k, n, 1, 0, 0, ADA_SIMPLE, 0, &at));
  LARGE(MANY, ada_call(&k, 0, n, 0, 0, ADA_SIMPLE, 0, &at));
  BAD(ADA_UNKNOWN_TASK, ada_call(&k, 0, MANY - 1, 0, 0, ADA_SIMPLE, 0, &at));
  BAD(ADA_OUT_OF_RANGE, ada_call(&k, 0, 1, 256, 0, ADA_SIMPLE, 0, &at));
  BAD(ADA_NO_SUCH_KIND, ada_call(&k, 0, 1, 0, 0, 3, 0, &at));
  BAD(ADA_NO_SUCH_FAMILY, ada_call(&k, 0, 1, 255, 0, ADA_SIMPLE, 0, &at));
  BAD(ADA_CONSTRAINT_ERROR, ada_call(&k, 0, 1, 0, 1, ADA_SIMPLE, 0, &at));
  BAD(ADA_MOMENT_TOO_LARGE, ada_call(&k, 0, 1, 0, 0, ADA_TIMED, INT64_MAX, &at));
  LARGE(MANY, ada_wait(&k, n, choices, 1, ADA_NOTHING, NULL, 0, 0, &at));
  BAD(ADA_TOO_LONG, ada_wait(&k, 1, choices, 17, ADA_NOTHING, NULL, 0, 0, &at));
  BAD(ADA_OUT_OF_RANGE, ada_wait(&k, 1, far_choice, 1, ADA_NOTHING, NULL, 0, 0, &at));
  BAD(ADA_NO_SUCH_KIND, ada_wait(&k, 1, no_choice, 1, ADA_NOTHING, NULL, 0, 0, &at));
  BAD(ADA_NO_SUCH_KIND, ada_wait(&k, 1, choices, 1, 5, NULL, 0, 0, &at));
  BAD(ADA_TOO_LONG, ada_wait(&k, 1, choices, 1, ADA_NOTHING, delays, 1, 0, &at));
  BAD(ADA_TOO_LONG, ada_wait(&k, 1, choices, 1, ADA_ELSE, delays, 1, 0, &at));
  BAD(ADA_TOO_LONG, ada_wait(&k, 1, choices, 1, ADA_TERMINATE, delays, 1, 0, &at));
  BAD(ADA_TOO_LONG, ada_wait(&k, 1, choices, 1, ADA_CLOSED_TERMINATE, delays, 1, 0, &at));
  BAD(ADA_TOO_LONG, ada_wait(&k, 1, choices, 1, ADA_DELAYS, delays, 9, 0, &at));
  BAD(ADA_NO_SUCH_KIND, ada_wait(&k, 1, choices, 1, ADA_DELAYS, no_delay, 1, 0, &at));
  BAD(ADA_EMPTY_LIST, ada_wait(&k, 1, choices, 1, ADA_DELAYS, NULL, 0, 0, &at));
  BAD(ADA_NO_ACCEPT, ada_wait(&k, 1, NULL, 0, ADA_NOTHING, NULL, 0, 0, &at));
  BAD(ADA_NO_SUCH_FAMILY, ada_accept(&k, 1, 255, 0, &at));
  BAD(ADA_OUT_OF_RANGE, ada_accept(&k, 1, 256, 0, &at));
  LARGE(MANY, ada_accept(&k, n, 0, 0, &at));
  LARGE(MANY, ada_delay(&k, n, 0, &at));
  BAD(ADA_MOMENT_TOO_LARGE, ada_delay(&k, 0, INT64_MAX, &at));
  LARGE(MANY, ada_end(&k, n, 0, &at));
  BAD(ADA_NO_SUCH_KIND, ada_end(&k, 0, 2, &at));
  BAD(ADA_NOT_IN_ACCEPT, ada_end(&k, 1, 0, &at));
  LARGE(MANY, ada_close(&k, n, &at));
  BAD(ADA_NO_BLOCK, ada_close(&k, 0, &at));
  LARGE(MANY, ada_complete(&k, n, &at));
  LARGE(MANY, ada_abort(&k, n, tasks, 1, &at));
  BAD(ADA_OUT_OF_RANGE, ada_abort(&k, 0, far_task, 1, &at));
  BAD(ADA_UNKNOWN_TASK, ada_abort(&k, 0, last_task, 1, &at));
  BAD(ADA_TOO_LONG, ada_abort(&k, 0, tasks, 257, &at));
  BAD(ADA_EMPTY_LIST, ada_abort(&k, 0, NULL, 0, &at));
  BAD(ADA_MOMENT_BACK, ada_tick(&k, -1, &at));
  BAD(ADA_MOMENT_TOO_LARGE, ada_tick(&k, INT64_MAX, &at));
}

static void try_questions(void) {
  BAD(ADA_NO_SUCH_TASK, ada_running(&k, 2, &out));
  LARGE(MANY, ada_running(&k, n, &out));
  BAD(ADA_NO_SUCH_TASK, ada_callable(&k, 2, &out));
  LARGE(MANY, ada_callable(&k, n, &out));
  BAD(ADA_NO_SUCH_TASK, ada_terminated(&k, 2, &out));
  LARGE(MANY, ada_terminated(&k, n, &out));
  BAD(ADA_NO_SUCH_TASK, ada_outcome_of(&k, 2, &told.outcome));
  LARGE(MANY, ada_outcome_of(&k, n, &told.outcome));
  BAD(ADA_NO_SUCH_ENTRY, ada_slot(&k, 1, 1, 0, &out));
  BAD(ADA_NO_SUCH_ENTRY, ada_slot(&k, 1, 0, 1, &out));
  BAD(ADA_NO_SUCH_ENTRY, ada_slot(&k, 2, 0, 0, &out));
  LARGE(MANY, ada_slot(&k, n, 0, 0, &out));
  BAD(ADA_OUT_OF_RANGE, ada_slot(&k, 1, 256, 0, &out));
  BAD(ADA_NO_SUCH_ENTRY, ada_queued(&k, 1, 1, 0, &out));
  BAD(ADA_NO_SUCH_ENTRY, ada_queued(&k, 1, 0, 1, &out));
  BAD(ADA_NO_SUCH_TASK, ada_queued(&k, 2, 256, 0, &out));
  LARGE(MANY, ada_queued(&k, n, 0, 0, &out));
  BAD(ADA_OUT_OF_RANGE, ada_queued(&k, 1, 256, 0, &out));
  BAD(ADA_UNKNOWN_TASK, ada_count(&k, 2, 0, 0, &out));
  BAD(ADA_NO_SUCH_FAMILY, ada_count(&k, 1, 1, 0, &out));
  BAD(ADA_CONSTRAINT_ERROR, ada_count(&k, 1, 0, 1, &out));
  LARGE(MANY, ada_count(&k, n, 0, 0, &out));
  BAD(ADA_OUT_OF_RANGE, ada_count(&k, 1, 256, 0, &out));
  BAD(ADA_NO_SUCH_TASK, ada_reason_of(&k, 2, &told.reason));
  BAD(ADA_NO_SUCH_TASK, ada_reason_of(&k, MANY - 1, &told.reason));
  LARGE(MANY, ada_reason_of(&k, n, &told.reason));
  BAD(ADA_NO_SUCH_TASK, ada_awaited(&k, 2, 0, &at));
  LARGE(MANY, ada_awaited(&k, n, 0, &at));
}

/* Questions for the first of several, of which there is none: the main program runs, alone since the last event, and
   nobody waits for a moment. */
static void try_none(void) {
  BAD(ADA_NO_SUCH_ITEM, ada_awaited(&k, 0, 0, &at));
  BAD(ADA_NO_SUCH_ITEM, ada_awaited(&k, 0, MANY - 1, &at));
  LARGE(MANY, ada_awaited(&k, 0, n, &at));
  BAD(ADA_NO_SUCH_ITEM, ada_runnable(&k, 1, &at));
  BAD(ADA_NO_SUCH_ITEM, ada_runnable(&k, MANY - 1, &at));
  LARGE(MANY, ada_runnable(&k, n, &at));
  BAD(ADA_NO_SUCH_ITEM, ada_next_due(&k, &moment));
}

/* A kernel that keeps everything has no clock, and gives nothing up. */
static void try_lasting(void) {
  BAD(ADA_KEEPS_ALL, ada_release(&k, 1));
  BAD(ADA_KEEPS_ALL, ada_compact(&k));
  BAD(ADA_KEEPS_ALL, ada_ended(&k, 0, &at));
  ada_set_clock(&k, 0);
  BAD(ADA_KEEPS_ALL, ada_delay(&k, 0, 5, &at));
  BAD(ADA_KEEPS_ALL, ada_open(&k, MANY, &at));
  ada_set_clock(&k, ADA_NO_CLOCK);
}

static void try_events(void) {
  BAD(ADA_NO_SUCH_EVENT, ada_event_at(&k, 0, &told.event));
  BAD(ADA_NO_SUCH_EVENT, ada_event_at(&k, events + 1, &told.event));
  BAD(ADA_NO_SUCH_EVENT, ada_event_at(&k, FAR - 1, &told.event));
  LARGE(FAR, ada_event_at(&k, n, &told.event));
  BAD(ADA_NO_SUCH_EVENT, ada_lengths_of(&k, 0, &told.lengths));
  BAD(ADA_NO_SUCH_EVENT, ada_lengths_of(&k, events + 1, &told.lengths));
  LARGE(FAR, ada_lengths_of(&k, n, &told.lengths));
  BAD(ADA_NO_SUCH_ITEM, ada_event_task(&k, 2, 1, &at));
  BAD(ADA_NO_SUCH_ITEM, ada_event_task(&k, 1, 0, &at));
  BAD(ADA_NO_SUCH_ITEM, ada_event_task(&k, 2, UINT64_MAX, &at));
  BAD(ADA_NO_SUCH_EVENT, ada_event_task(&k, 0, 0, &at));
  LARGE(FAR, ada_event_task(&k, n, 0, &at));
  BAD(ADA_NO_SUCH_ITEM, ada_event_family(&k, 1, 1, &told.family));
  BAD(ADA_NO_SUCH_ITEM, ada_event_family(&k, 1, UINT64_MAX, &told.family));
  BAD(ADA_NO_SUCH_EVENT, ada_event_family(&k, 0, 0, &told.family));
  LARGE(FAR, ada_event_family(&k, n, 0, &told.family));
  BAD(ADA_NO_SUCH_ITEM, ada_event_choice(&k, 1, 0, &told.choice));
  BAD(ADA_NO_SUCH_EVENT, ada_event_choice(&k, events + 1, 0, &told.choice));
  LARGE(FAR, ada_event_choice(&k, n, 0, &told.choice));
  BAD(ADA_NO_SUCH_ITEM, ada_event_delay(&k, 1, 0, &told.due));
  BAD(ADA_NO_SUCH_EVENT, ada_event_delay(&k, events + 1, 0, &told.due));
  LARGE(FAR, ada_event_delay(&k, n, 0, &told.due));
}

/* The lists of a wait with one alternative of each kind, the fifth event. */
static void try_items(void) {
  const ada_choice choice = {0, 0, 1};
  const ada_pause delay = {5, 1};
  GOOD(ada_wait(&k, 1, &choice, 1, ADA_DELAYS, &delay, 1, 0, &at));
  events++;
  clear();
  BAD(ADA_NO_SUCH_ITEM, ada_event_choice(&k, events, 1, &told.choice));
  BAD(ADA_NO_SUCH_ITEM, ada_event_choice(&k, events, UINT64_MAX, &told.choice));
  BAD(ADA_NO_SUCH_ITEM, ada_event_delay(&k, events, 1, &told.due));
  BAD(ADA_NO_SUCH_ITEM, ada_event_delay(&k, events, UINT64_MAX, &told.due));
  BAD(ADA_NO_SUCH_ITEM, ada_event_task(&k, events, 0, &at));
  GOOD(ada_event_choice(&k, events, 0, &told.choice));
  note(told.choice.family == 0 && told.choice.index == 0 && told.choice.is_open == 1, "the choice of event 5", -1);
  GOOD(ada_event_delay(&k, events, 0, &told.due));
  note(told.due.moment == 5 && told.due.is_open == 1, "the delay of event 5", -1);
  clear();
  BAD(ADA_NOT_RUNNING, ada_count(&k, 1, 0, 0, &out));
}

/* So many events are told from a position on, into a list with this room; the rest of it stays as it was. */
static void tells(uint64_t from, size_t room, uint64_t wanted) {
  ada_event list[5], old[5];
  uint64_t count = 77;
  size_t i;
  memset(list, 7, sizeof list);
  memset(old, 7, sizeof old);
  GOOD(ada_events_from(&k, from, list, room, &count));
  note(count == wanted, "so many events at once", (int32_t)count);
  for (i = 0; i < count && i < 5; i++) {
    GOOD(ada_event_at(&k, from + i, &told.event));
    note(list[i].kind == told.event.kind && list[i].task == told.event.task, "an event among others", (int32_t)i);
  }
  note(!memcmp(list + i, old + i, (5 - i) * sizeof list[0]), "what lies after the events", (int32_t)i);
}

static void try_many_events(void) {
  tells(1, 5, 4);
  tells(1, 4, 4);
  tells(2, 2, 2);
  tells(3, 5, 2);
  tells(4, 0, 0);
  tells(5, 5, 0);
  tells(0, 5, 0);
  tells(MANY << 16, 5, 0);
  tells(UINT64_MAX, 5, 0);
}

/* What is there is told. */
static void try_answers(void) {
  uint64_t task = 0;
  uint32_t answer = 9;
  GOOD(ada_event_at(&k, 1, &told.event));
  note(told.event.kind == ADA_CREATED && told.event.task == 0, "event 1", -1);
  note(told.event.master_kind == ADA_BODY && told.event.master == 0, "the master of event 1", -1);
  GOOD(ada_lengths_of(&k, 1, &told.lengths));
  note(told.lengths.tasks == 0 && told.lengths.families == 1, "lists of event 1", -1);
  note(told.lengths.choices == 0 && told.lengths.delays == 0, "alternatives of event 1", -1);
  GOOD(ada_event_family(&k, 1, 0, &told.family));
  note(told.family.low == 0 && told.family.high == 0, "the family of event 1", -1);
  GOOD(ada_event_task(&k, 2, 0, &task));
  note(task == 1, "the task of event 2", -1);
  GOOD(ada_outcome_of(&k, 0, &told.outcome));
  note(told.outcome.kind == ADA_ACTIVATION_OK, "the outcome of main", -1);
  note(told.outcome.number == 0 && told.outcome.call == 0, "numbers of the outcome of main", -1);
  GOOD(ada_running(&k, 1, &answer));
  note(answer == 1, "task 1 is running", -1);
  GOOD(ada_callable(&k, 1, &answer));
  note(answer == 1, "task 1 is callable", -1);
  GOOD(ada_terminated(&k, 1, &answer));
  note(answer == 0, "task 1 isn't terminated", -1);
  answer = 9;
  GOOD(ada_slot(&k, 1, 0, 0, &answer));
  note(answer == 0, "the slot of the entry", -1);
  answer = 9;
  GOOD(ada_count(&k, 1, 0, 0, &answer));
  note(answer == 0, "no call is queued", -1);
  GOOD(ada_runnable(&k, 0, &task));
  note(task == 0, "the main program became runnable", -1);
  try_many_events();
  note(ada_tasks(&k) == 2 && ada_finished(&k) == 0, "tasks", -1);
  clear();
}

int main(void) {
  const ada_family one = {0, 0};
  const uint64_t first = 1;
  GOOD(ada_kernel_new(&k));
  GOOD(ada_create(&k, 0, ADA_BODY, 0, &one, 1, &at));
  GOOD(ada_activate(&k, 0, &first, 1, &at));
  GOOD(ada_elaborated(&k, 1, 1, &at));
  note(at == 3, "the position of an accepted request", -1);
  clear();
  events = ada_events(&k);
  note(events == 4, "four events", -1);
  try_no_kernel();
  try_null();
  try_requests();
  try_questions();
  try_none();
  try_lasting();
  try_events();
  try_answers();
  try_items();
  ada_kernel_drop(&k);
  note(k.handle.kernel == NULL, "a dropped kernel", -1);
  printf("%d passed, %d failed\n", passed, failed);
  return failed != 0;
}
