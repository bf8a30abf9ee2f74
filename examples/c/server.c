/* SPDX-License-Identifier: MIT */
/* A server that goes on: clients come, call it, and go, on a kernel that lives on, with a real clock. The memory of the
   kernel stays as it is, however many there are. server RENDEZVOUS prints how many clients there were, whom the server
   served last, and how the kernel stands; without a number it serves 100,000. */

#define _POSIX_C_SOURCE 199309L
#include "adatask.h"
#include <stdio.h>
#include <stdlib.h>
#include <time.h>

enum { CLIENTS = 20, CALLS = 50, THRESHOLD = 4096 };

static const uint64_t server = 1;
static ada_kernel k;
static uint64_t at;

/* What a request has to be answered. */
static void must(int32_t code) {
  if (code == ADA_ACCEPTED) return;
  fprintf(stderr, "server: %s\n", ada_code_name(code));
  exit(4);
}

static int64_t milliseconds(void) {
  static struct timespec first;
  struct timespec now;
  clock_gettime(CLOCK_MONOTONIC, &now);
  if (!first.tv_sec) first = now;
  return (int64_t)(now.tv_sec - first.tv_sec) * 1000 + (now.tv_nsec - first.tv_nsec) / 1000000;
}

/* The main program makes a task, which depends on it, and activates it. */
static uint64_t make_task(const ada_family *families, size_t count) {
  uint64_t task;
  must(ada_create(&k, 0, ADA_BODY, 0, families, count, &at));
  task = ada_tasks(&k) - 1;
  must(ada_activate(&k, 0, &task, 1, &at));
  must(ada_elaborated(&k, task, 1, &at));
  return task;
}

/* A client calls the server, for a second at most; the server accepts, sees who called, and ends the rendezvous. */
static uint64_t serve(uint64_t client) {
  ada_outcome outcome;
  ada_set_clock(&k, milliseconds());
  must(ada_call(&k, client, server, 0, 0, ADA_TIMED, 1000, &at));
  must(ada_accept(&k, server, 0, 0, &at));
  must(ada_outcome_of(&k, server, &outcome));
  must(ada_end(&k, server, 0, &at));
  return outcome.caller;
}

/* A client goes, and may not be named any more; another one comes. */
static uint64_t replace(uint64_t client) {
  must(ada_complete(&k, client, &at));
  must(ada_release(&k, client));
  return make_task(NULL, 0);
}

int main(int count, char **words) {
  const ada_family single = {0, 0};
  uint64_t clients[CLIENTS], caller = 0, wanted = count > 1 ? strtoull(words[1], NULL, 10) : 100000, done;
  size_t i;
  must(ada_kernel_new_lasting(&k, THRESHOLD));
  make_task(&single, 1);
  for (i = 0; i < CLIENTS; i++) clients[i] = make_task(NULL, 0);
  for (done = 0; done < wanted; done++) {
    i = (size_t)(done / CALLS % CLIENTS);
    caller = serve(clients[i]);
    if (done % CALLS == CALLS - 1) clients[i] = replace(clients[i]);
  }
  printf("%llu rendezvous, %llu clients\n", (unsigned long long)done, (unsigned long long)ada_tasks(&k) - 2);
  printf("the last was with task %llu\n", (unsigned long long)caller);
  ada_kernel_drop(&k);
  return 0;
}
