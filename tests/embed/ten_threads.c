/* SPDX-License-Identifier: MIT */
/* Ten kernels in ten threads, each with a play of its own, of which each event is compared with what the rules give:
   every second one lives on, and makes its journal shorter again and again. And one kernel that is made in a thread,
   used by two others under a lock, and dropped in a fourth. Prints what fails; the last line is 'N passed, M failed'. */

#define _POSIX_C_SOURCE 200809L
#include "adatask.h"
#include <pthread.h>
#include <stdio.h>

#define PLAYERS 10
#define ROUNDS 200
#define SERVER UINT64_C(1)
#define CLIENTS 3 /* tasks 2 to 4 */

/* A play: its kernel, how many events there have to be by now, the moment, what was wrong, and how many of its rounds
   were right and wrong. */
typedef struct {
  ada_kernel k;
  uint64_t number, events;
  int64_t now;
  long faults, passed, failed, requests;
} player;

static void expect(player *p, int is_right, const char *what) {
  if (!is_right && p->faults++ < 3)
    printf("FAILED: play %d: %s, of %d events\n", (int)p->number, what, (int)p->events);
}

/* Counts a round, which is right if nothing was wrong in it. */
static void count(player *p, long faults_before) {
  if (p->faults == faults_before) p->passed++;
  else p->failed++;
}

static void note(player *p, int is_right, const char *what) {
  long before = p->faults;
  expect(p, is_right, what);
  count(p, before);
}

/* A request was accepted at the next position, and forced that many steps. */
static void accepted(player *p, int32_t code, const uint64_t *at, uint64_t forced, const char *what) {
  expect(p, code == ADA_ACCEPTED && *at == p->events + 1 && ada_events(&p->k) == *at + forced, what);
  p->events += 1 + forced;
  p->requests++;
}

static ada_event event_at(player *p, uint64_t position) {
  ada_event e;
  e.kind = 0;
  (void)ada_event_at(&p->k, position, &e);
  return e;
}

/* The latest event is the beginning of a rendezvous of this call and this wait. */
static void has_met(player *p, uint64_t call, uint64_t wait) {
  ada_event e = event_at(p, p->events);
  expect(p, e.kind == ADA_MET && e.call == call && e.position == wait, "a rendezvous begins");
}

/* ---- Requests, each with what it has to become ---- */

static uint64_t call(player *p, uint64_t client, int32_t index, uint64_t forced) {
  uint64_t at = 0;
  ada_event e;
  accepted(p, ada_call(&p->k, client, SERVER, 0, index, ADA_SIMPLE, 0, &at), &at, forced, "a call");
  e = event_at(p, at);
  expect(p, e.kind == ADA_CALLED && e.task == client && e.callee == SERVER, "its event");
  expect(p, e.family == 0 && e.index == index && e.form == ADA_SIMPLE && e.is_timed == 0, "its entry");
  return at;
}

static uint64_t accept(player *p, int32_t index, uint64_t forced) {
  uint64_t at = 0;
  ada_choice choice;
  ada_event e;
  accepted(p, ada_accept(&p->k, SERVER, 0, index, &at), &at, forced, "an accept statement");
  e = event_at(p, at);
  expect(p, e.kind == ADA_WAITING && e.task == SERVER && e.form == ADA_NOTHING, "its event");
  expect(p, ada_event_choice(&p->k, at, 0, &choice) == ADA_ACCEPTED && choice.index == index, "its alternative");
  return at;
}

static void end(player *p, uint64_t call_at, uint32_t raised) {
  uint64_t at = 0;
  ada_event e;
  accepted(p, ada_end(&p->k, SERVER, raised, &at), &at, 0, "an end");
  e = event_at(p, at);
  expect(p, e.kind == ADA_ENDED && e.task == SERVER && e.call == call_at && e.form == raised, "its event");
}

/* ---- Rounds ---- */

/* The call comes first, and the server takes it. */
static void play_call_first(player *p, uint64_t client, int32_t index) {
  uint64_t call_at = call(p, client, index, 0);
  uint64_t wait_at = accept(p, index, 1);
  has_met(p, call_at, wait_at);
  end(p, call_at, 0);
}

/* The server waits first; the rendezvous ends by an exception. */
static void play_wait_first(player *p, uint64_t client, int32_t index) {
  uint64_t wait_at = accept(p, index, 0);
  uint64_t call_at = call(p, client, index, 1);
  has_met(p, call_at, wait_at);
  end(p, call_at, 1);
}

/* Two calls of one entry are taken in the order of their arrival. */
static void play_two_callers(player *p, uint64_t client, int32_t index) {
  uint64_t other = client == 2 ? 3 : 2, first = call(p, client, index, 0), second = call(p, other, index, 0), wait_at;
  uint32_t queued = 9;
  expect(p, ada_count(&p->k, SERVER, 0, index, &queued) == ADA_ACCEPTED && queued == 2, "two calls are queued");
  wait_at = accept(p, index, 1);
  has_met(p, first, wait_at);
  end(p, first, 0);
  wait_at = accept(p, index, 1);
  has_met(p, second, wait_at);
  end(p, second, 0);
}

/* A conditional call finds the server elsewhere. */
static void play_conditional(player *p, uint64_t client, int32_t index) {
  uint64_t at = 0;
  accepted(p, ada_call(&p->k, client, SERVER, 0, index, ADA_CONDITIONAL, 0, &at), &at, 1, "a conditional call");
  expect(p, event_at(p, at + 1).kind == ADA_CANCELLED && event_at(p, at + 1).call == at, "it is cancelled");
}

/* A timed call waits until its moment, which is as many milliseconds away as the play's number says. */
static void play_timed(player *p, uint64_t client, int32_t index) {
  int64_t duration = 1 + (int64_t)p->number, due = p->now + duration;
  uint64_t call_at = 0, at = 0;
  accepted(p, ada_call(&p->k, client, SERVER, 0, index, ADA_TIMED, duration, &call_at), &call_at, 0, "a timed call");
  expect(p, event_at(p, call_at).is_timed == 1 && event_at(p, call_at).moment == due, "its moment");
  accepted(p, ada_tick(&p->k, due - 1, &at), &at, 0, "a tick before it");
  accepted(p, ada_tick(&p->k, due, &at), &at, 1, "a tick to it");
  expect(p, event_at(p, at + 1).kind == ADA_CANCELLED && event_at(p, at + 1).call == call_at, "it is cancelled");
  p->now = due;
}

static void play_round(player *p, uint64_t round) {
  long before = p->faults;
  uint64_t client = 2 + (round + p->number) % CLIENTS;
  int32_t index = (int32_t)((round * (p->number + 1)) % 10);
  switch ((round + p->number * p->number) % 5) {
    case 0: play_call_first(p, client, index); break;
    case 1: play_wait_first(p, client, index); break;
    case 2: play_two_callers(p, client, index); break;
    case 3: play_conditional(p, client, index); break;
    default: play_timed(p, client, index); break;
  }
  count(p, before);
}

/* ---- Threads ---- */

/* The server with ten entries, and the clients, all active. */
static void begin(player *p) {
  const ada_family ten = {0, 9};
  const uint64_t all[1 + CLIENTS] = {1, 2, 3, 4};
  uint64_t at = 0, task;
  long before = p->faults;
  expect(p, (p->number % 2 ? ada_kernel_new_lasting(&p->k, 60) : ada_kernel_new(&p->k)) == ADA_ACCEPTED, "a kernel");
  accepted(p, ada_create(&p->k, 0, ADA_BODY, 0, &ten, 1, &at), &at, 0, "the server is made");
  for (task = 0; task < CLIENTS; task++)
    accepted(p, ada_create(&p->k, 0, ADA_BODY, 0, NULL, 0, &at), &at, 0, "a client is made");
  accepted(p, ada_activate(&p->k, 0, all, 1 + CLIENTS, &at), &at, 0, "an activation");
  for (task = 1; task <= 1 + CLIENTS; task++)
    accepted(p, ada_elaborated(&p->k, task, 1, &at), &at, task == 1 + CLIENTS, "a task is up");
  count(p, before);
}

static void *play(void *argument) {
  player *p = argument;
  uint64_t round;
  begin(p);
  for (round = 0; round < ROUNDS; round++) play_round(p, round);
  ada_kernel_drop(&p->k);
  return NULL;
}

static player moved;
static pthread_mutex_t turn = PTHREAD_MUTEX_INITIALIZER;

static void *make(void *argument) {
  begin(argument);
  return NULL;
}

/* One of two threads that use the same kernel, each round under the lock. */
static void *use(void *argument) {
  uint64_t client = *(const uint64_t *)argument;
  int round;
  for (round = 0; round < ROUNDS; round++) {
    long before;
    pthread_mutex_lock(&turn);
    before = moved.faults;
    play_call_first(&moved, client, (int32_t)client);
    count(&moved, before);
    pthread_mutex_unlock(&turn);
  }
  return NULL;
}

static void *give_up(void *argument) {
  ada_kernel_drop(&((player *)argument)->k);
  return NULL;
}

/* Starts a thread for each place of a list, and waits until all have ended; how many could be started. */
static int run(int threads, void *(*body)(void *), void *list, size_t size) {
  pthread_t started[PLAYERS];
  int i, good = 0;
  for (i = 0; i < threads && !pthread_create(&started[i], NULL, body, (char *)list + (size_t)i * size); i++) good++;
  for (i = 0; i < good; i++) pthread_join(started[i], NULL);
  return good;
}

int main(void) {
  static player players[PLAYERS];
  static uint64_t clients[2] = {2, 3};
  long requests = 0;
  int i;
  for (i = 0; i < PLAYERS; i++) players[i].number = (uint64_t)i;
  moved.number = PLAYERS;
  note(&moved, run(PLAYERS, play, players, sizeof players[0]) == PLAYERS, "ten threads");
  note(&moved, run(1, make, &moved, sizeof moved) == 1, "a thread that makes");
  note(&moved, run(2, use, clients, sizeof clients[0]) == 2, "two threads that use");
  note(&moved, ada_events(&moved.k) == 10 + 2 * ROUNDS * 4, "the events of two threads");
  note(&moved, run(1, give_up, &moved, sizeof moved) == 1 && !moved.k.handle.kernel, "a thread that drops");
  for (i = 0; i < PLAYERS; i++) {
    moved.passed += players[i].passed;
    moved.failed += players[i].failed;
    requests += players[i].requests;
  }
  note(&moved, requests > 5000, "thousands of requests");
  printf("%ld passed, %ld failed\n", moved.passed, moved.failed);
  return moved.failed != 0;
}
