/* SPDX-License-Identifier: MIT */
/* The memory of ada_refuse.adb: it is refused while that program says so, and what is held is counted. */

#include "adatask.h"
#include <stdlib.h>

int memory_is_refused = 0;
long memory_is_held = 0;

static unsigned char nowhere[16];

static ada_memory give(void *where) {
  ada_memory some;
  some.is_there = where != NULL;
  some.where = where ? where : nowhere;
  return some;
}

ada_memory rattle_alloc(size_t size, size_t align) {
  void *where = memory_is_refused ? NULL : malloc(size ? size : 1);
  (void)align;
  memory_is_held += where != NULL;
  return give(where);
}

ada_memory rattle_realloc(void *where, size_t kept, size_t size, size_t align) {
  (void)align;
  (void)kept;
  return give(memory_is_refused ? NULL : realloc(where, size ? size : 1));
}

void rattle_dealloc(void *where) {
  memory_is_held--;
  free(where);
}
