/* SPDX-License-Identifier: MIT */
/* The tasks of the program: by their place, which their control blocks have, and by the kernel's number. A record is
   used again once its control block is given back, so there are as many as there were control blocks at a time. */

#include "glue.h"
#include <stdlib.h>
#include <string.h>

enum { BUCKETS = 256 };

/* Places count from 1; a control block that has 0 isn't a task's, and the table of threads has nobody there. */
unsigned places = 1;
static unsigned room;
static task **table;
static task *spare;
/* At most 256 tasks have numbers that the kernel still takes. */
static task *numbered[BUCKETS];

static bool has_room(void) {
  unsigned more = room ? 2 * room : 64;
  task **larger;
  if (places < room) return true;
  larger = realloc(table, more * sizeof *table);
  if (!larger) return false;
  table = larger;
  room = more;
  return true;
}

/* A record that waits on its own semaphore, which is never taken away: who was woken may still be looked at. */
static task *make_record(void) {
  task *t = has_room() ? malloc(sizeof *t) : NULL;
  if (!t) return NULL;
  if (sem_init(&t->go, 0, 0)) {
    free(t);
    return NULL;
  }
  t->place = places;
  table[places++] = t;
  return t;
}

/* A null pointer if there is no memory. */
task *new_task(void) {
  task *t = spare;
  size_t kept = sizeof t->go;
  unsigned place;
  if (t) {
    spare = t->next_spare;
  } else {
    t = make_record();
  }
  if (!t) return NULL;
  place = t->place;
  memset((char *)t + kept, 0, sizeof *t - kept);
  t->place = place;
  return t;
}

task *task_at(unsigned place) { return place && place < places ? table[place] : NULL; }

void set_number(task *t, uint64_t number) {
  task **bucket = &numbered[number % BUCKETS];
  t->number = number;
  t->next_numbered = *bucket;
  *bucket = t;
}

/* A null pointer for a task that was given up. */
task *task_numbered(uint64_t number) {
  task *t = numbered[number % BUCKETS];
  while (t && t->number != number) t = t->next_numbered;
  return t;
}

static void remove_number(task *t) {
  task **link = &numbered[t->number % BUCKETS];
  while (*link && *link != t) link = &(*link)->next_numbered;
  if (*link) *link = t->next_numbered;
}

/* The kernel gives a terminated task up; what is asked of it from now on is answered here. */
void release_task(task *t) {
  if (t->is_released || ada_release(&kernel, t->number)) return;
  t->is_released = true;
  remove_number(t);
}

/* Has the kernel give up all tasks that are over, while its limit is reached: whether any was. */
bool make_room(void) {
  bool has_any = false;
  unsigned place;
  for (place = 1; place < places; place++) {
    task *t = table[place];
    if (!t->is_over || t->is_released || !t->block) continue;
    release_task(t);
    has_any = has_any || t->is_released;
  }
  return has_any;
}

/* Its control block is given back, so nobody can name it. */
void forget_task(task *t) {
  ada_threads_end(&threads, t->place);
  ada_threads_detach(&threads, t->place);
  if (!t->is_released) remove_number(t);
  t->is_released = true;
  t->block = NULL;
  t->next_spare = spare;
  spare = t;
}
