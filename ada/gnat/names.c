/* SPDX-License-Identifier: MIT */
/* Names for script, journal and dump. No two tasks or blocks of a program share one, and each is a name of the script
   language: a letter, then letters, digits and underscores, 16 at most. */

#define _GNU_SOURCE
#include "glue.h"
#include <ctype.h>
#include <stdlib.h>
#include <string.h>

enum { LONGEST_NAME = NAME_SIZE - 1, LONGEST_STEM = 8 };

/* Each name that a task has by itself. There are no more of them than names of objects in the program's text. */
typedef struct used used;
struct used {
  char name[NAME_SIZE];
  used *next;
};
static used *all_used;

/* The simple name in GNAT's image of a task, as `worker` in `line.worker(3)`, in small letters; without one `task`. */
static void take_simple_name(char *to, const char *image, int length) {
  int first, end = 0, n = 0;
  while (end < length && image[end] != '(') end++;
  first = end;
  while (first > 0 && image[first - 1] != '.') first--;
  for (; first < end && n < LONGEST_NAME; first++) {
    int c = tolower((unsigned char)image[first]);
    bool is_letter = c >= 'a' && c <= 'z', is_digit = c >= '0' && c <= '9';
    if (is_letter || (n && (is_digit || (c == '_' && to[n - 1] != '_')))) to[n++] = (char)c;
  }
  while (n && to[n - 1] == '_') n--;
  to[n] = 0;
  if (!n) strcpy(to, "task");
}

/* The main program's, and in lists of choices that of a tick, are nobody else's. */
static bool is_used(const char *name) {
  const used *u = all_used;
  if (!strcmp(name, "main") || (is_controlled && !strcmp(name, "tick"))) return true;
  while (u && strcmp(u->name, name)) u = u->next;
  return u != NULL;
}

/* A name that isn't remembered counts as used. */
static bool use(const char *name) {
  used *u = is_used(name) ? NULL : malloc(sizeof *u);
  if (!u) return false;
  strcpy(u->name, name);
  u->next = all_used;
  all_used = u;
  return true;
}

/* Its own name, or if another task had that the beginning of it and the task's number. No name in Ada has two
   underscores side by side. */
void name_task(task *t, const char *image, int length) {
  char name[NAME_SIZE], number[24], text[2 * NAME_SIZE + 24];
  int digits = snprintf(number, sizeof number, "%llu", (unsigned long long)t->number);
  int stem = LONGEST_NAME - 2 - digits;
  take_simple_name(name, image, length);
  if (use(name)) {
    strcpy(t->name, name);
  } else {
    snprintf(text, sizeof text, "%.*s__%s", stem < LONGEST_STEM ? stem : LONGEST_STEM, name, number);
    memcpy(t->name, text, LONGEST_NAME);
  }
}

/* Blocks have a capital letter, and tasks none. */
const char *name_of_master(uint32_t kind, uint64_t name) {
  static char text[24];
  if (kind == ADA_BODY) return name_of_number(name);
  snprintf(text, sizeof text, "B%llu", (unsigned long long)name);
  return text;
}

const char *name_of_number(uint64_t number) {
  const task *t = task_numbered(number);
  return t ? t->name : "somebody";
}
