/* SPDX-License-Identifier: MIT */
/* The numbers that a compiled host has for causes and kinds of events, as they were first given out: a later library
   keeps them, and gives new ones higher numbers. So a number here is never changed, and a row is added for a new one.
   The header has them, which is seen while this compiles; and the library answers each cause by its number, but that of
   refused memory, which refuse.c meets. Prints what fails; the last line is 'N passed, M failed'. */

#include "adatask.h"
#include <stdio.h>
#include <stdlib.h>
#include <string.h>

#define KEEPS(name, number) typedef char name##_is_##number[(name) == (number) ? 1 : -1]

/* ---- Causes ---- */

KEEPS(ADA_UNKNOWN_TASK, 1);
KEEPS(ADA_NOT_RUNNING, 2);
KEEPS(ADA_DURING_ACTIVATION, 3);
KEEPS(ADA_NOT_ACTIVATING, 4);
KEEPS(ADA_NOT_YOUR_MASTER, 5);
KEEPS(ADA_EMPTY_LIST, 6);
KEEPS(ADA_NOT_YOUR_TASK, 7);
KEEPS(ADA_NO_ACCEPT, 8);
KEEPS(ADA_NO_SUCH_FAMILY, 9);
KEEPS(ADA_CONSTRAINT_ERROR, 10);
KEEPS(ADA_SAME_FAMILY_NESTED, 11);
KEEPS(ADA_TERMINATE_IN_ACCEPT, 12);
KEEPS(ADA_NOT_IN_ACCEPT, 13);
KEEPS(ADA_NO_BLOCK, 14);
KEEPS(ADA_STILL_NESTED, 15);
KEEPS(ADA_MAIN_TASK, 16);
KEEPS(ADA_MOMENT_BACK, 17);
KEEPS(ADA_MOMENT_TOO_LARGE, 18);
KEEPS(ADA_TOO_MANY_TASKS, 19);
KEEPS(ADA_TOO_MANY_SLOTS, 20);
KEEPS(ADA_TOO_DEEP, 21);
KEEPS(ADA_JOURNAL_FULL, 22);
KEEPS(ADA_OUT_OF_MEMORY, 23);

/* ---- What is wrong with numbers, and what isn't done ---- */

KEEPS(ADA_TOO_LONG, 100);
KEEPS(ADA_NO_SUCH_KIND, 101);
KEEPS(ADA_OUT_OF_RANGE, 102);
KEEPS(ADA_NO_SUCH_EVENT, 103);
KEEPS(ADA_NO_SUCH_ITEM, 104);
KEEPS(ADA_NO_SUCH_TASK, 105);
KEEPS(ADA_NO_SUCH_ENTRY, 106);
KEEPS(ADA_NULL, 107);
KEEPS(ADA_GIVEN_UP, 108);
KEEPS(ADA_NOT_TERMINATED, 109);
KEEPS(ADA_NO_ROOM, 110);
KEEPS(ADA_NOT_COMPACTED, 111);
KEEPS(ADA_NO_MORE_NAMES, 112);
KEEPS(ADA_LIVES_ON, 113);
KEEPS(ADA_KEEPS_ALL, 114);

/* ---- Kinds of events ---- */

KEEPS(ADA_OPENED, 1);
KEEPS(ADA_CREATED, 2);
KEEPS(ADA_STARTED, 3);
KEEPS(ADA_ELABORATED, 4);
KEEPS(ADA_CALLED, 5);
KEEPS(ADA_WAITING, 6);
KEEPS(ADA_PAUSED, 7);
KEEPS(ADA_ENDED, 8);
KEEPS(ADA_CLOSED, 9);
KEEPS(ADA_COMPLETED, 10);
KEEPS(ADA_ABORTED, 11);
KEEPS(ADA_TICKED, 12);
KEEPS(ADA_HALTED, 13);
KEEPS(ADA_FAILED, 14);
KEEPS(ADA_MET, 15);
KEEPS(ADA_CANCELLED, 16);
KEEPS(ADA_PASSED, 17);
KEEPS(ADA_WOKEN, 18);
KEEPS(ADA_ACTIVATED, 19);
KEEPS(ADA_GONE, 20);
KEEPS(ADA_QUIT, 21);
KEEPS(ADA_LEFT, 22);

/* ---- What the library answers ---- */

static ada_kernel k;
static uint64_t at;
static int passed, failed;

static void answered(int32_t code, int32_t wanted, const char *what) {
  if (code == wanted) {
    passed++;
  } else {
    failed++;
    printf("FAILED: %s: code %d, where %d was given out\n", what, (int)code, (int)wanted);
  }
}

#define ANSWERS(wanted, call) answered(call, wanted, #call)

/* What leads to a limit is accepted. */
static void must(int32_t code) {
  if (code == ADA_ACCEPTED) return;
  printf("FAILED: on the way to a limit: code %d\n", (int)code);
  exit(1);
}

/* Main makes the task 1, with two single entries. */
static void make_server(void) {
  static const ada_family families[] = {{0, 0}, {0, 0}};
  ANSWERS(0, ada_create(&k, 0, ADA_BODY, 0, families, 2, &at));
}

static void try_names(void) {
  static const uint64_t main_task[] = {0};
  ANSWERS(1, ada_open(&k, 1, &at));
  make_server();
  ANSWERS(2, ada_open(&k, 1, &at));
  ANSWERS(4, ada_elaborated(&k, 0, 1, &at));
  ANSWERS(5, ada_create(&k, 0, ADA_BODY, 1, NULL, 0, &at));
  ANSWERS(6, ada_abort(&k, 0, NULL, 0, &at));
  ANSWERS(7, ada_activate(&k, 0, main_task, 1, &at));
  ANSWERS(8, ada_wait(&k, 0, NULL, 0, ADA_ELSE, NULL, 0, 0, &at));
  ANSWERS(9, ada_call(&k, 0, 1, 2, 0, ADA_SIMPLE, 0, &at));
  ANSWERS(10, ada_call(&k, 0, 1, 1, 1, ADA_SIMPLE, 0, &at));
  ANSWERS(16, ada_abort(&k, 0, main_task, 1, &at));
}

static void try_nests(void) {
  static const uint64_t server[] = {1};
  static const ada_choice second[] = {{1, 0, 1}};
  ANSWERS(13, ada_end(&k, 0, 0, &at));
  ANSWERS(14, ada_close(&k, 0, &at));
  ANSWERS(0, ada_open(&k, 0, &at));
  ANSWERS(15, ada_complete(&k, 0, &at));
  ANSWERS(0, ada_activate(&k, 0, server, 1, &at));
  ANSWERS(3, ada_complete(&k, 1, &at));
  ANSWERS(0, ada_elaborated(&k, 1, 1, &at));
  ANSWERS(0, ada_call(&k, 0, 1, 0, 0, ADA_SIMPLE, 0, &at));
  ANSWERS(0, ada_accept(&k, 1, 0, 0, &at));
  ANSWERS(11, ada_accept(&k, 1, 0, 0, &at));
  ANSWERS(12, ada_wait(&k, 1, second, 1, ADA_TERMINATE, NULL, 0, 0, &at));
}

static void try_limits(void) {
  static const ada_family wide[] = {{1, 1025}};
  int i;
  ANSWERS(0, ada_tick(&k, 10, &at));
  ANSWERS(17, ada_tick(&k, 9, &at));
  ANSWERS(18, ada_tick(&k, INT64_C(9000000000001), &at));
  ANSWERS(20, ada_create(&k, 0, ADA_BODY, 0, wide, 1, &at));
  for (i = 0; i < 255; i++) must(ada_create(&k, 0, ADA_BODY, 0, NULL, 0, &at));
  ANSWERS(19, ada_create(&k, 0, ADA_BODY, 0, NULL, 0, &at));
  for (i = 0; i < 32; i++) must(ada_open(&k, 0, &at));
  ANSWERS(21, ada_open(&k, 0, &at));
  while (ada_events(&k) < 64768) must(ada_tick(&k, 10, &at));
  ANSWERS(22, ada_tick(&k, 10, &at));
}

/* A number has this name, or none. */
static void is_named(const char *got, const char *name) {
  if (name && got ? !strcmp(got, name) : got == name) {
    passed++;
  } else {
    failed++;
    printf("FAILED: the name %s is %s\n", name ? name : "(none)", got ? got : "(none)");
  }
}

static void try_texts(void) {
  is_named(ada_code_name(-1), NULL);
  is_named(ada_code_name(ADA_ACCEPTED), "Accepted");
  is_named(ada_code_name(1), "UnknownTask");
  is_named(ada_code_name(23), "OutOfMemory");
  is_named(ada_code_name(24), NULL);
  is_named(ada_code_name(100), "TooLong");
  is_named(ada_code_name(107), "Null");
  is_named(ada_code_name(108), "GivenUp");
  is_named(ada_code_name(114), "KeepsAll");
  is_named(ada_code_name(115), NULL);
  is_named(ada_kind_name(0), NULL);
  is_named(ada_kind_name(1), "Opened");
  is_named(ada_kind_name(22), "Left");
  is_named(ada_kind_name(23), NULL);
  is_named(ada_outcome_name(0), "Nothing");
  is_named(ada_outcome_name(7), "Accepted");
  is_named(ada_outcome_name(15), "Raised");
  is_named(ada_outcome_name(16), NULL);
  is_named(ada_reason_name(0), "GoesOn");
  is_named(ada_reason_name(8), "Completed");
  is_named(ada_reason_name(9), NULL);
}

int main(void) {
  try_texts();
  ANSWERS(0, ada_kernel_new(&k));
  try_names();
  try_nests();
  ada_kernel_drop(&k);
  ANSWERS(0, ada_kernel_new(&k));
  try_limits();
  ada_kernel_drop(&k);
  printf("%d passed, %d failed\n", passed, failed);
  return failed != 0;
}
