/* SPDX-License-Identifier: MIT */
/* Asks a kernel that keeps everything and one that lives on the same random requests, with compactions and releases at
   random moments, and compares their answers, events and attributes: beside SEQUENCES SEED. A task that was given up
   has to be terminated where everything is kept. Prints the first sequence that fails, with its seed; the last line is
   'N passed, M failed', of sequences. */

#include "adatask.h"
#include <stdio.h>
#include <stdlib.h>
#include <string.h>

enum { MOST_TASKS = 60, REQUESTS = 90 };

static ada_kernel whole, lasting;
static uint64_t state, seed;
static const char *fault;

/* A number below another one, as xorshift64* gives it. */
static uint64_t below(uint64_t end) {
  state ^= state >> 12;
  state ^= state << 25;
  state ^= state >> 27;
  return (state * UINT64_C(2685821657736338717) >> 33) % end;
}

static int wrong(const char *what) {
  if (!fault) fault = what;
  return 0;
}

/* ---- A request, which two kernels are asked ---- */

typedef struct {
  uint32_t kind;
  uint64_t by, named[3];
  size_t count; /* of the tasks that it names beside its own */
  uint32_t under, family, flag;
  int32_t index;
  int64_t duration;
  ada_family families[2];
  ada_choice choices[3];
  ada_pause delays[2];
  uint64_t block;
} request;

/* Blocks by their positions, since no question tells them. */
static uint64_t blocks[REQUESTS];
static size_t block_count;

/* A task that runs, mostly, so that not all is refused. */
static uint64_t some_asker(void) {
  uint64_t tasks = ada_tasks(&whole), task = below(tasks), turn;
  uint32_t runs = 0;
  if (below(20) == 0) return below(tasks + 2);
  for (turn = 0; turn < tasks; turn++, task = (task + 1) % tasks)
    if (ada_running(&whole, task, &runs) == ADA_ACCEPTED && runs) return task;
  return task;
}

static void draw_choices(request *r) {
  size_t i;
  for (i = 0; i < 3; i++) {
    r->choices[i].family = (uint32_t)below(3);
    r->choices[i].index = (int32_t)below(3);
    r->choices[i].is_open = below(4) != 0;
  }
  for (i = 0; i < 2; i++) {
    r->delays[i].duration = (int64_t)below(30);
    r->delays[i].is_open = below(4) != 0;
  }
}

static request draw(void) {
  static const uint32_t kinds[] = {ADA_OPENED, ADA_CREATED, ADA_CREATED, ADA_STARTED, ADA_STARTED, ADA_ELABORATED,
                                   ADA_ELABORATED, ADA_CALLED, ADA_CALLED, ADA_CALLED, ADA_WAITING, ADA_WAITING,
                                   ADA_WAITING, ADA_PAUSED, ADA_ENDED, ADA_ENDED, ADA_CLOSED, ADA_COMPLETED,
                                   ADA_COMPLETED, ADA_ABORTED, ADA_TICKED};
  request r;
  size_t i;
  memset(&r, 0, sizeof r);
  r.kind = kinds[below(sizeof kinds / sizeof kinds[0])];
  r.by = some_asker();
  r.count = r.kind == ADA_CALLED ? 1 : r.kind == ADA_STARTED || r.kind == ADA_ABORTED ? below(4) : 0;
  for (i = 0; i < r.count; i++) r.named[i] = ada_tasks(&whole) - 1 - below(ada_tasks(&whole) < 4 ? 1 : 4);
  r.family = (uint32_t)below(3);
  r.index = (int32_t)below(3);
  r.flag = (uint32_t)below(5);
  r.duration = (int64_t)below(40);
  for (i = 0; i < 2; i++) r.families[i].high = (int32_t)below(3);
  draw_choices(&r);
  r.under = block_count && below(2) ? ADA_BLOCK : ADA_BODY;
  r.block = r.under == ADA_BLOCK ? blocks[block_count - 1 - below(block_count < 3 ? 1 : 3)] : r.by;
  if (r.kind == ADA_CREATED && r.under == ADA_BODY) {
    r.named[0] = r.block;
    r.count = 1;
  }
  return r;
}

static int32_t ask(ada_kernel *k, const request *r, int64_t moment, uint64_t *at) {
  static const uint32_t tails[] = {ADA_NOTHING, ADA_ELSE, ADA_DELAYS, ADA_TERMINATE, ADA_CLOSED_TERMINATE};
  uint32_t tail = tails[r->flag];
  switch (r->kind) {
    case ADA_OPENED: return ada_open(k, r->by, at);
    case ADA_CREATED: return ada_create(k, r->by, r->under, r->block, r->families, r->flag % 3, at);
    case ADA_STARTED: return ada_activate(k, r->by, r->named, r->count, at);
    case ADA_ELABORATED: return ada_elaborated(k, r->by, r->flag != 0, at);
    case ADA_CALLED:
      return ada_call(k, r->by, r->named[0], r->family, r->index, r->flag % 3, r->duration, at);
    case ADA_WAITING:
      return ada_wait(k, r->by, r->choices, 1 + r->flag % 3, tail, r->delays, tail == ADA_DELAYS ? 2 : 0,
                      (uint32_t)r->duration, at);
    case ADA_PAUSED: return ada_delay(k, r->by, r->duration, at);
    case ADA_ENDED: return ada_end(k, r->by, r->flag == 0, at);
    case ADA_CLOSED: return ada_close(k, r->by, at);
    case ADA_COMPLETED: return ada_complete(k, r->by, at);
    case ADA_ABORTED: return ada_abort(k, r->by, r->named, r->count, at);
    default: return ada_tick(k, moment + r->duration, at);
  }
}

/* ---- What both tell ---- */

static int is_terminated(uint64_t task) {
  uint32_t is = 0;
  return ada_terminated(&whole, task, &is) == ADA_ACCEPTED && is;
}

static int is_given_up(uint64_t task) {
  uint32_t is = 0;
  return ada_terminated(&lasting, task, &is) == ADA_GIVEN_UP;
}

static int same_lists(uint64_t position) {
  ada_lengths a, b;
  ada_family f, g;
  ada_choice c, d;
  ada_due p, q;
  uint64_t i, t, u;
  if (ada_lengths_of(&whole, position, &a) || ada_lengths_of(&lasting, position, &b)) return wrong("lengths");
  if (memcmp(&a, &b, sizeof a)) return wrong("other lengths");
  for (i = 0; i < a.tasks; i++)
    if (ada_event_task(&whole, position, i, &t) || ada_event_task(&lasting, position, i, &u) || t != u)
      return wrong("a listed task");
  for (i = 0; i < a.families; i++)
    if (ada_event_family(&whole, position, i, &f) || ada_event_family(&lasting, position, i, &g) ||
        memcmp(&f, &g, sizeof f))
      return wrong("a family");
  for (i = 0; i < a.choices; i++)
    if (ada_event_choice(&whole, position, i, &c) || ada_event_choice(&lasting, position, i, &d) ||
        memcmp(&c, &d, sizeof c))
      return wrong("a choice");
  for (i = 0; i < a.delays; i++)
    if (ada_event_delay(&whole, position, i, &p) || ada_event_delay(&lasting, position, i, &q) ||
        p.moment != q.moment || p.is_open != q.is_open)
      return wrong("a delay alternative");
  return 1;
}

/* A kernel tells the events of the last request all at once as one by one. */
static int same_at_once(ada_kernel *k, uint64_t from) {
  static ada_event list[1024];
  ada_event one;
  uint64_t count = 0, i;
  memset(list, 0, sizeof list);
  if (ada_events_from(k, from, list, 1024, &count) || count != ada_events(k) + 1 - from) return wrong("so many at once");
  for (i = 0; i < count; i++) {
    memset(&one, 0, sizeof one);
    if (ada_event_at(k, from + i, &one) || memcmp(&one, &list[i], sizeof one)) return wrong("an event at once");
  }
  return 1;
}

/* Whether the task that asked goes on. */
static int same_going(const request *r) {
  uint32_t runs = 7;
  if (r->kind == ADA_TICKED) return 1;
  if (ada_running(&whole, r->by, &runs) || whole.goes_on != runs) return wrong("whether the task goes on");
  return lasting.goes_on == runs ? 1 : wrong("whether the task of the other kernel goes on");
}

static int same_events(uint64_t from) {
  uint64_t position;
  ada_event a, b;
  if (ada_events(&whole) != ada_events(&lasting)) return wrong("so many events");
  for (position = from; position <= ada_events(&whole); position++) {
    memset(&a, 0, sizeof a);
    memset(&b, 0, sizeof b);
    if (ada_event_at(&whole, position, &a) || ada_event_at(&lasting, position, &b)) return wrong("an event");
    if (memcmp(&a, &b, sizeof a)) return wrong("another event");
    if (!same_lists(position)) return 0;
  }
  if (from > 1 && ada_event_at(&lasting, from - 1, &a) != ADA_GIVEN_UP) return wrong("an event of an earlier request");
  if (ada_event_at(&lasting, position, &a) != ADA_NO_SUCH_EVENT) return wrong("an event of no request");
  return same_at_once(&whole, from) && same_at_once(&lasting, from);
}

static int same_flags(uint64_t task) {
  uint32_t a = 7, b = 7;
  if (ada_running(&whole, task, &a) || ada_running(&lasting, task, &b) || a != b) return wrong("who runs");
  if (ada_callable(&whole, task, &a) || ada_callable(&lasting, task, &b) || a != b) return wrong("CALLABLE");
  if (ada_terminated(&whole, task, &a) || ada_terminated(&lasting, task, &b) || a != b) return wrong("TERMINATED");
  return 1;
}

static int same_reason(uint64_t task) {
  ada_reason a, b;
  uint64_t from, t = 0, u = 0;
  int32_t said;
  if (ada_reason_of(&whole, task, &a) || ada_reason_of(&lasting, task, &b)) return wrong("a reason");
  if (a.kind != b.kind || a.position != b.position) return wrong("another reason");
  for (from = 0; from < ada_tasks(&whole); from++) {
    said = ada_awaited(&whole, task, from, &t);
    if (said != ada_awaited(&lasting, task, from, &u)) return wrong("whether somebody is awaited");
    if (said == ADA_ACCEPTED && t != u) return wrong("who is awaited");
  }
  return 1;
}

static int same_outcome(uint64_t task) {
  ada_outcome a, b;
  memset(&a, 0, sizeof a);
  memset(&b, 0, sizeof b);
  if (ada_outcome_of(&whole, task, &a)) return wrong("an outcome");
  switch (ada_outcome_of(&lasting, task, &b)) {
    case ADA_ACCEPTED: return !memcmp(&a, &b, sizeof a) ? 1 : wrong("another outcome");
    default: return wrong("no outcome");
  }
}

static int same_counts(uint64_t task) {
  uint32_t family, a = 0, b = 0;
  for (family = 0; family < 3; family++) {
    int32_t said = ada_count(&whole, task, family, 1, &a);
    if (said != ada_count(&lasting, task, family, 1, &b)) return wrong("whether COUNT is told");
    if (said == ADA_ACCEPTED && a != b) return wrong("COUNT");
    said = ada_queued(&whole, task, family, 1, &a);
    if (said != ada_queued(&lasting, task, family, 1, &b)) return wrong("whether there is a queue");
    if (said == ADA_ACCEPTED && a != b) return wrong("how many calls are queued");
  }
  return 1;
}

static int same_task(uint64_t task) {
  uint32_t count;
  if (!is_given_up(task)) return same_flags(task) && same_reason(task) && same_outcome(task) && same_counts(task);
  if (!is_terminated(task)) return wrong("a task that lives was given up");
  return ada_count(&lasting, task, 0, 0, &count) == ADA_GIVEN_UP ? 1 : wrong("COUNT of a task that was given up");
}

static int same_runnable(void) {
  uint64_t from, t = 0, u = 0;
  for (from = 0; from < ada_tasks(&whole); from++) {
    int32_t said = ada_runnable(&whole, from, &t);
    if (said != ada_runnable(&lasting, from, &u)) return wrong("whether somebody became runnable");
    if (said == ADA_ACCEPTED && t != u) return wrong("who became runnable");
  }
  return 1;
}

/* Who is terminated and wasn't before the request: those that a flag for each task tells, which is set here. */
static int same_ended(uint8_t *was) {
  uint64_t task, next = 0;
  for (task = 0; task < ada_tasks(&whole); task++) {
    int is = is_terminated(task);
    if (is && !was[task]) {
      if (ada_ended(&lasting, next, &next) != ADA_ACCEPTED || next != task) return wrong("who was terminated");
      next++;
    }
    was[task] = (uint8_t)is;
  }
  return ada_ended(&lasting, next, &next) == ADA_NO_SUCH_ITEM ? 1 : wrong("who wasn't terminated");
}

static int same_state(void) {
  uint64_t task;
  int64_t a = 0, b = 0;
  uint32_t flag;
  if (ada_tasks(&whole) != ada_tasks(&lasting)) return wrong("so many tasks");
  if (ada_finished(&whole) != ada_finished(&lasting)) return wrong("the end of the main program");
  if (ada_next_due(&whole, &a) != ada_next_due(&lasting, &b) || a != b) return wrong("the next moment");
  for (task = 0; task < ada_tasks(&whole); task++)
    if (!same_task(task)) return 0;
  return ada_running(&lasting, task, &flag) == ADA_NO_SUCH_TASK ? 1 : wrong("a task that was never made");
}

/* ---- Sequences ---- */

/* A refusal for a name that was given up: one of the tasks that the request names was. */
static int names_the_gone(const request *r) {
  size_t i;
  if (is_given_up(r->by)) return 1;
  for (i = 0; i < r->count; i++)
    if (is_given_up(r->named[i])) return 1;
  return wrong("nobody whom the request names was given up");
}

static int try_request(int64_t *moment, uint8_t *ended) {
  request r = draw();
  uint64_t at = 0, also = 0;
  int32_t said;
  if (r.kind == ADA_CREATED && ada_tasks(&whole) >= MOST_TASKS) return 1;
  said = ask(&lasting, &r, *moment, &also);
  if (said == ADA_GIVEN_UP) return names_the_gone(&r);
  if (said != ask(&whole, &r, *moment, &at)) return wrong("another answer");
  if (said != ADA_ACCEPTED) return 1;
  if (at != also) return wrong("another position");
  if (r.kind == ADA_OPENED) blocks[block_count++] = at;
  if (r.kind == ADA_TICKED) *moment += r.duration;
  return same_going(&r) && same_events(at) && same_runnable() && same_ended(ended);
}

static int try_release(void) {
  uint64_t task = below(ada_tasks(&whole) + 1);
  int was = is_given_up(task), gone = is_terminated(task);
  int32_t said = ada_release(&lasting, task);
  int32_t wanted = !task                       ? ADA_MAIN_TASK
                   : task >= ada_tasks(&whole) ? ADA_UNKNOWN_TASK
                   : was                       ? ADA_GIVEN_UP
                   : gone                      ? ADA_ACCEPTED
                                               : ADA_NOT_TERMINATED;
  if (ada_release(&whole, task) != ADA_KEEPS_ALL) return wrong("a release where everything is kept");
  if (said != wanted) return wrong("a release");
  return said != ADA_ACCEPTED || is_given_up(task) ? 1 : wrong("a task that was released");
}

static int try_compaction(void) {
  ada_event e;
  if (ada_compact(&whole) != ADA_KEEPS_ALL) return wrong("a compaction where everything is kept");
  if (ada_compact(&lasting) != ADA_ACCEPTED) return wrong("a compaction");
  if (!ada_events(&lasting)) return 1;
  return ada_event_at(&lasting, ada_events(&lasting), &e) == ADA_GIVEN_UP ? 1 : wrong("an event after a compaction");
}

static int try_sequence(void) {
  uint8_t ended[MOST_TASKS + 1] = {0};
  int64_t moment = 0;
  size_t turn;
  int right = 1;
  block_count = 0;
  if (ada_kernel_new(&whole) || ada_kernel_new_lasting(&lasting, (uint32_t)(4 + below(80)))) exit(2);
  for (turn = 0; right && turn < REQUESTS; turn++) {
    uint64_t way = below(24);
    right = way == 0 ? try_compaction() : way == 1 ? try_release() : try_request(&moment, ended);
    right = right && same_state();
  }
  ada_kernel_drop(&whole);
  ada_kernel_drop(&lasting);
  return right;
}

int main(int count, char **words) {
  int passed = 0, failed = 0, i;
  int wanted = count > 1 ? atoi(words[1]) : 1;
  seed = count > 2 ? strtoull(words[2], NULL, 10) : 1;
  for (i = 0; i < wanted; i++, seed++) {
    state = seed * UINT64_C(11400714819323198485) | 1;
    fault = NULL;
    if (try_sequence()) {
      passed++;
    } else if (failed++ == 0) {
      printf("FAILED: the sequence of seed %llu: %s\n", (unsigned long long)seed, fault ? fault : "?");
    }
  }
  printf("%d passed, %d failed\n", passed, failed);
  return failed != 0;
}
