/* SPDX-License-Identifier: MIT */
/*
 * How long the library takes from C, as ada_bench measures it from Rattle: so many rendezvous between two tasks of a
 * kernel that is made before, and so many questions. Then the rendezvous of a kernel that lives on beside those of one
 * that keeps everything, each with 18 idle tasks and with all compactions; and a compaction with 20, 100 and 250 tasks.
 * Prints the best of 101 turns of each, in nanoseconds, on memory that the process keeps; of compactions the worst too.
 */
#define _POSIX_C_SOURCE 199309L
#include "adatask.h"

#include <stdio.h>
#include <stdlib.h>
#include <time.h>

enum { TURNS = 101, ROUNDS = 1000, LONG_ROUNDS = 16000, QUESTIONS = 1000, THRESHOLD = 4096, KEPT = 1 << 24 };

static void must(int32_t code) {
  if (code != ADA_ACCEPTED) {
    fprintf(stderr, "speed: a request was answered %ld\n", (long)code);
    exit(1);
  }
}

/* A caller, task 1, and a server with one entry, task 2. */
static void make_both(ada_kernel *k) {
  const ada_family entry = {0, 0};
  const uint64_t both[] = {1, 2};
  uint64_t at;
  must(ada_create(k, 0, ADA_BODY, 0, NULL, 0, &at));
  must(ada_create(k, 0, ADA_BODY, 0, &entry, 1, &at));
  must(ada_activate(k, 0, both, 2, &at));
  must(ada_elaborated(k, 1, 1, &at));
  must(ada_elaborated(k, 2, 1, &at));
}

/* So many tasks besides that run and ask for nothing. */
static void make_idle(ada_kernel *k, int count) {
  uint64_t at, task;
  int i;
  for (i = 0; i < count; i++) {
    must(ada_create(k, 0, ADA_BODY, 0, NULL, 0, &at));
    task = ada_tasks(k) - 1;
    must(ada_activate(k, 0, &task, 1, &at));
    must(ada_elaborated(k, task, 1, &at));
  }
}

static void make(ada_kernel *k) {
  must(ada_kernel_new(k));
  make_both(k);
}

static void make_whole(ada_kernel *k) {
  make(k);
  make_idle(k, 17);
}

static void make_lasting(ada_kernel *k) {
  must(ada_kernel_new_lasting(k, THRESHOLD));
  make_both(k);
  make_idle(k, 17);
}

static void meet_often(ada_kernel *k, int rounds) {
  uint64_t at;
  int i;
  for (i = 0; i < rounds; i++) {
    must(ada_call(k, 1, 2, 0, 0, ADA_SIMPLE, 0, &at));
    must(ada_accept(k, 2, 0, 0, &at));
    must(ada_end(k, 2, 0, &at));
  }
}

static void meet(ada_kernel *k) { meet_often(k, ROUNDS); }

static void meet_long(ada_kernel *k) { meet_often(k, LONG_ROUNDS); }

static void ask(ada_kernel *k) {
  uint32_t is_callable;
  int i;
  for (i = 0; i < QUESTIONS; i++) must(ada_callable(k, (uint64_t)i & 1, &is_callable));
}

/* The nanoseconds that a turn takes on a kernel of its own. */
static long long turn(void (*make_kernel)(ada_kernel *), void (*work)(ada_kernel *)) {
  struct timespec from, to;
  ada_kernel k = ADA_NO_KERNEL;
  make_kernel(&k);
  clock_gettime(CLOCK_MONOTONIC, &from);
  work(&k);
  clock_gettime(CLOCK_MONOTONIC, &to);
  ada_kernel_drop(&k);
  return (to.tv_sec - from.tv_sec) * 1000000000LL + (to.tv_nsec - from.tv_nsec);
}

static void measure(const char *name, void (*make_kernel)(ada_kernel *), void (*work)(ada_kernel *)) {
  long long best = turn(make_kernel, work);
  int i;
  for (i = 1; i < TURNS; i++) {
    const long long taken = turn(make_kernel, work);
    if (taken < best) best = taken;
  }
  printf("%s %lld\n", name, best);
}

/* Compactions of a kernel with so many tasks, each of a journal that is as long as the threshold. */
static void measure_compactions(int tasks) {
  long long best = 0, worst = 0;
  int i;
  for (i = 0; i < TURNS; i++) {
    struct timespec from, to;
    long long taken;
    ada_kernel k = ADA_NO_KERNEL;
    must(ada_kernel_new_lasting(&k, 2 * THRESHOLD));
    make_both(&k);
    make_idle(&k, tasks - 3);
    meet_often(&k, THRESHOLD / 4);
    clock_gettime(CLOCK_MONOTONIC, &from);
    must(ada_compact(&k));
    clock_gettime(CLOCK_MONOTONIC, &to);
    ada_kernel_drop(&k);
    taken = (to.tv_sec - from.tv_sec) * 1000000000LL + (to.tv_nsec - from.tv_nsec);
    if (!i || taken < best) best = taken;
    if (taken > worst) worst = taken;
  }
  printf("compaction_%d %lld\nworst_%d %lld\n", tasks, best, tasks, worst);
}

int main(void) {
  /* The C library keeps what is freed up to the largest block that was. */
  free(malloc(KEPT));
  measure("rendezvous", make, meet);
  measure("callable", make, ask);
  measure("whole", make_whole, meet_long);
  measure("lasting", make_lasting, meet_long);
  measure_compactions(20);
  measure_compactions(100);
  measure_compactions(250);
  return 0;
}
