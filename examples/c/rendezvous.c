/* SPDX-License-Identifier: MIT */
/* Plays the first script, examples/rendezvous.tasks, through the library, and prints its journal as adatask does. */

#include "adatask_text.h"
#include <stdio.h>
#include <stdlib.h>

/* The names of tasks by their numbers, and of the entries of S. */
static const char *const tasks[] = {"main", "S", "C"};
static const char *const entries[] = {"E"};

/* Ends the program if a request or a question wasn't answered by 0. */
static void check(int32_t code, const char *what) {
  if (code != ADA_ACCEPTED) {
    fprintf(stderr, "rendezvous: %s: code %d\n", what, (int)code);
    exit(1);
  }
}

static const char *task_name(void *host, uint64_t task) {
  (void)host;
  return tasks[task];
}

static const char *entry_name(void *host, uint64_t task, uint32_t family) {
  (void)host;
  (void)task;
  return entries[family];
}

static void print_event(ada_kernel *k, uint64_t position) {
  static const ada_names names = {task_name, entry_name, NULL, NULL};
  char text[80];
  size_t length;
  check(ada_event_text(k, position, &names, text, sizeof text, &length), "an event");
  puts(text);
}

int main(void) {
  const ada_family e = {0, 0};
  const uint64_t both[] = {1, 2};
  ada_kernel k = ADA_NO_KERNEL;
  uint64_t at = 0, position;

  check(ada_kernel_new(&k), "a kernel");
  check(ada_create(&k, 0, ADA_BODY, 0, &e, 1, &at), "main: create S under main E");
  check(ada_create(&k, 0, ADA_BODY, 0, NULL, 0, &at), "main: create C under main");
  check(ada_activate(&k, 0, both, 2, &at), "main: activate S C");
  check(ada_elaborated(&k, 1, 1, &at), "S: up");
  check(ada_elaborated(&k, 2, 1, &at), "C: up");
  check(ada_call(&k, 2, 1, 0, 0, ADA_SIMPLE, 0, &at), "C: call S E");
  check(ada_accept(&k, 1, 0, 0, &at), "S: accept E");
  check(ada_end(&k, 1, 0, &at), "S: end");
  for (position = 1; position <= ada_events(&k); position++) print_event(&k, position);
  ada_kernel_drop(&k);
  return 0;
}
