/* SPDX-License-Identifier: MIT */
/* What the gallery doesn't show of events as text: names that a host doesn't give, texts that don't fit, positions that
   have no event, and the number of a task that was made. Lines are by docs/FORMAT.md. Prints what fails; the last line
   is 'N passed, M failed'. */

#include "adatask_text.h"
#include <stdio.h>
#include <string.h>

static ada_kernel k;
static int passed, failed;
static uint64_t at;

static void note(int is_right, const char *what) {
  if (is_right) {
    passed++;
  } else {
    failed++;
    printf("FAILED: %s\n", what);
  }
}

#define GOOD(call) note((call) == ADA_ACCEPTED, #call)

/* The event at a position has this line. */
static void has_line(uint64_t position, const ada_names *names, const char *wanted) {
  char text[160];
  size_t length = 0;
  int32_t code = ada_event_text(&k, position, names, text, sizeof text, &length);
  note(code == ADA_ACCEPTED && !strcmp(text, wanted) && length == strlen(wanted), wanted);
}

/* It isn't written. */
static void has_none(uint64_t position, int32_t wanted, const char *what) {
  char text[4] = "old";
  size_t length = 77;
  int32_t code = ada_event_text(&k, position, NULL, text, sizeof text, &length);
  note(code == wanted && !strcmp(text, "old") && length == 77, what);
}

static void made_is(uint64_t position, int32_t code, uint64_t task, const char *what) {
  uint64_t made = 77;
  note(ada_created_task(&k, position, &made) == code && made == task, what);
}

/* Events 1 to 9: task 1 with a family of three entries, and task 2 in a block, which tries to call it. */
static void begin(void) {
  static const ada_family family = {-1, 1};
  static const uint64_t first = 1, second = 2;
  GOOD(ada_create(&k, 0, ADA_BODY, 0, &family, 1, &at));
  GOOD(ada_activate(&k, 0, &first, 1, &at));
  GOOD(ada_elaborated(&k, 1, 1, &at)); /* 4 activated 2 ok */
  GOOD(ada_open(&k, 0, &at));
  GOOD(ada_create(&k, 0, ADA_BLOCK, at, NULL, 0, &at));
  GOOD(ada_activate(&k, 0, &second, 1, &at));
  GOOD(ada_elaborated(&k, 2, 1, &at)); /* 9 activated 7 ok */
}

/* The names of whoever gives none. */
static void try_numbers(void) {
  has_line(1, NULL, "1 main created T1 under main with E0(-1..1)");
  has_line(2, NULL, "2 main started T1");
  has_line(3, NULL, "3 T1 up");
  has_line(4, NULL, "4 activated 2 ok");
  has_line(5, NULL, "5 main opened B5 under main");
  has_line(6, NULL, "6 main created T2 under B5");
  GOOD(ada_call(&k, 2, 1, 0, -1, ADA_TIMED, 5, &at));
  has_line(10, NULL, "10 T2 called T1.E0(-1) until 5");
}

static const char *task_name(void *host, uint64_t task) { return task == 1 ? (const char *)host : NULL; }

static const char *block_name(void *host, uint64_t position) {
  (void)host;
  return position == 5 ? "Yard" : NULL;
}

/* A host that names some. */
static void try_some_names(void) {
  char host[] = "Server";
  ada_names names = {task_name, NULL, block_name, NULL};
  names.host = host;
  has_line(1, &names, "1 main created Server under main with E0(-1..1)");
  has_line(6, &names, "6 main created T2 under Yard");
  has_line(10, &names, "10 T2 called Server.E0(-1) until 5");
}

/* As much is written as fits, and no more. */
static void try_room(void) {
  char text[8] = "1234567";
  size_t length = 0;
  note(ada_event_text(&k, 3, NULL, text, 5, &length) == ADA_ACCEPTED && length == 7, "the length of what didn't fit");
  note(!strcmp(text, "3 T1") && !strcmp(text + 5, "67"), "what fits");
  note(ada_event_text(&k, 3, NULL, text, 7, &length) == ADA_ACCEPTED && !strcmp(text, "3 T1 u"), "a byte too few");
  note(ada_event_text(&k, 3, NULL, text, 8, &length) == ADA_ACCEPTED && !strcmp(text, "3 T1 up"), "just enough");
  length = 0;
  note(ada_event_text(&k, 3, NULL, NULL, 0, &length) == ADA_ACCEPTED && length == 7, "no room at all");
  note(ada_event_text(&k, 3, NULL, NULL, 8, &length) == ADA_NULL, "no text");
  note(ada_event_text(&k, 3, NULL, text, 8, NULL) == ADA_NULL, "no length");
  note(ada_event_text(NULL, 3, NULL, text, 8, &length) == ADA_NULL, "no kernel");
}

static void try_all_kept(void) {
  GOOD(ada_kernel_new(&k));
  begin();
  try_numbers();
  try_some_names();
  try_room();
  has_none(0, ADA_NO_SUCH_EVENT, "no event at 0");
  has_none(11, ADA_NO_SUCH_EVENT, "no event yet");
  made_is(1, ADA_ACCEPTED, 1, "who was made first");
  made_is(6, ADA_ACCEPTED, 2, "who was made then");
  made_is(5, ADA_NO_SUCH_ITEM, 77, "a block is no task");
  made_is(11, ADA_NO_SUCH_EVENT, 77, "nobody was made yet");
  note(ada_created_task(&k, 1, NULL) == ADA_NULL, "nothing to write to");
  ada_kernel_drop(&k);
}

/* A kernel that lives on tells of the last request. */
static void try_living_on(void) {
  GOOD(ada_kernel_new_lasting(&k, 4096));
  begin();
  has_line(9, NULL, "9 activated 7 ok");
  has_none(6, ADA_GIVEN_UP, "an earlier event");
  made_is(6, ADA_GIVEN_UP, 77, "who was made earlier");
  GOOD(ada_create(&k, 0, ADA_BLOCK, 5, NULL, 0, &at));
  has_line(10, NULL, "10 main created T3 under B5");
  made_is(10, ADA_ACCEPTED, 3, "who was made last");
  ada_kernel_drop(&k);
}

int main(void) {
  try_all_kept();
  try_living_on();
  printf("%d passed, %d failed\n", passed, failed);
  return failed != 0;
}
