/* SPDX-License-Identifier: MIT */
/* Prints how each struct of the header lies in memory: its size, and where its members begin. ada_layout.adb prints the
   same of the records of the Ada package. */

#include "adatask.h"
#include <stdio.h>

#define SIZE(type, name) printf("%s %u:", name, (unsigned)sizeof(type))
#define MEMBER(type, name) printf(" %u", (unsigned)offsetof(type, name))
#define LAST(type, name) printf(" %u\n", (unsigned)offsetof(type, name))

static void print_event(void) {
  SIZE(ada_event, "event");
  MEMBER(ada_event, kind);
  MEMBER(ada_event, form);
  MEMBER(ada_event, task);
  MEMBER(ada_event, callee);
  MEMBER(ada_event, family);
  MEMBER(ada_event, index);
  MEMBER(ada_event, under_kind);
  MEMBER(ada_event, master_kind);
  MEMBER(ada_event, under);
  MEMBER(ada_event, master);
  MEMBER(ada_event, call);
  MEMBER(ada_event, position);
  MEMBER(ada_event, number);
  MEMBER(ada_event, is_timed);
  MEMBER(ada_event, moment);
  LAST(ada_event, duration);
}

static void print_alternatives(void) {
  SIZE(ada_family, "family");
  MEMBER(ada_family, low);
  LAST(ada_family, high);
  SIZE(ada_choice, "choice");
  MEMBER(ada_choice, family);
  MEMBER(ada_choice, index);
  LAST(ada_choice, is_open);
  SIZE(ada_pause, "pause");
  MEMBER(ada_pause, duration);
  LAST(ada_pause, is_open);
  SIZE(ada_due, "due");
  MEMBER(ada_due, moment);
  LAST(ada_due, is_open);
}

static void print_answers(void) {
  SIZE(ada_lengths, "lengths");
  MEMBER(ada_lengths, tasks);
  MEMBER(ada_lengths, families);
  MEMBER(ada_lengths, choices);
  LAST(ada_lengths, delays);
  SIZE(ada_outcome, "outcome");
  MEMBER(ada_outcome, kind);
  MEMBER(ada_outcome, number);
  MEMBER(ada_outcome, call);
  LAST(ada_outcome, caller);
  SIZE(ada_reason, "reason");
  MEMBER(ada_reason, kind);
  LAST(ada_reason, position);
  SIZE(ada_board, "board");
  MEMBER(ada_board, events);
  MEMBER(ada_board, tasks);
  MEMBER(ada_board, slots);
  MEMBER(ada_board, callable);
  MEMBER(ada_board, terminated);
  LAST(ada_board, counts);
}

int main(void) {
  print_event();
  print_alternatives();
  print_answers();
  return 0;
}
