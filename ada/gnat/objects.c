/* SPDX-License-Identifier: MIT */
/* Protected objects, which GNAT's own code plays beside the kernel. A search is told which step uses which, by their
   locks: where two of GNAT's units make one or take it, they call the functions here. */

#define _POSIX_C_SOURCE 200809L
#include "schedule.h"
#include <stdlib.h>

/* Objects have numbers in the order in which they are made, so that runs that begin alike call them alike; what is made
   later counts as all of them. */
enum { MOST_OBJECTS = 65000 };

typedef struct {
  const void *lock;
  uint16_t number;
} object;

static object *objects;
static size_t count, room;
static uint16_t made;

int system__task_primitives__operations__init_mutex(pthread_mutex_t *lock, int priority);

/* The latest one that was made at this place. */
static object *object_with(const void *lock) {
  size_t i = count;
  while (i && objects[i - 1].lock != lock) i--;
  return i ? &objects[i - 1] : NULL;
}

static object *add_object(const void *lock) {
  if (count == room) {
    size_t more = room ? 2 * room : 64;
    object *larger = realloc(objects, more * sizeof *larger);
    if (!larger) return NULL;
    objects = larger;
    room = more;
  }
  objects[count].lock = lock;
  return &objects[count++];
}

static void number_object(const void *lock) {
  object *o;
  if (made == MOST_OBJECTS) return;
  o = object_with(lock);
  if (!o) o = add_object(lock);
  if (o) o->number = made++;
}

static void note_use(const void *lock) {
  const object *o = made == MOST_OBJECTS ? NULL : object_with(lock);
  if (o) {
    add_use(o->number);
  } else {
    add_change_of_all();
  }
}

/* One thing is done for a lock, with the lock of the glue. */
static void with_lock(void (*act)(const void *lock), const void *lock) {
  bool had_lock = has_lock();
  if (!is_searched) return;
  if (!had_lock) take_lock();
  act(lock);
  if (!had_lock) give_lock();
}

int adagnat_make_object(pthread_mutex_t *lock, int priority) {
  with_lock(number_object, lock);
  return system__task_primitives__operations__init_mutex(lock, priority);
}

int adagnat_lock_object(pthread_mutex_t *lock) {
  with_lock(note_use, lock);
  return pthread_mutex_lock(lock);
}

/* The locks of a program with Locking_Policy (Concurrent_Readers_Locking). */
int adagnat_write_object(pthread_rwlock_t *lock) {
  with_lock(note_use, lock);
  return pthread_rwlock_wrlock(lock);
}

int adagnat_read_object(pthread_rwlock_t *lock) {
  with_lock(note_use, lock);
  return pthread_rwlock_rdlock(lock);
}
