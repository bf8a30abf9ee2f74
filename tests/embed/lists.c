/* SPDX-License-Identifier: MIT */
/* Stands before the exports that take lists (ld --wrap), and ends the program if one is passed no list at all: the list
   pointer of an empty list has to be there too. */

#include "adatask.h"
#include <stdio.h>
#include <stdlib.h>

int32_t __real_adatask_create(ada_handle *h, int64_t now, uint64_t by, uint32_t master_kind, uint64_t master,
                              const ada_family *families, size_t count, uint64_t *at, uint32_t *goes_on);
int32_t __real_adatask_activate(ada_handle *h, int64_t now, uint64_t by, const uint64_t *tasks, size_t count,
                                uint64_t *at, uint32_t *goes_on);
int32_t __real_adatask_wait(ada_handle *h, int64_t now, uint64_t by, const ada_choice *choices, size_t count,
                            uint32_t tail, const ada_pause *delays, size_t delay_count, uint32_t pick,
                            uint64_t *at, uint32_t *goes_on);
int32_t __real_adatask_abort(ada_handle *h, int64_t now, uint64_t by, const uint64_t *tasks, size_t count,
                             uint64_t *at, uint32_t *goes_on);

int32_t __wrap_adatask_create(ada_handle *h, int64_t now, uint64_t by, uint32_t master_kind, uint64_t master,
                              const ada_family *families, size_t count, uint64_t *at, uint32_t *goes_on);
int32_t __wrap_adatask_activate(ada_handle *h, int64_t now, uint64_t by, const uint64_t *tasks, size_t count,
                                uint64_t *at, uint32_t *goes_on);
int32_t __wrap_adatask_wait(ada_handle *h, int64_t now, uint64_t by, const ada_choice *choices, size_t count,
                            uint32_t tail, const ada_pause *delays, size_t delay_count, uint32_t pick,
                            uint64_t *at, uint32_t *goes_on);
int32_t __wrap_adatask_abort(ada_handle *h, int64_t now, uint64_t by, const uint64_t *tasks, size_t count,
                             uint64_t *at, uint32_t *goes_on);

static void want(const void *list) {
  if (!list) {
    printf("FAILED: a list pointer is null\n");
    exit(1);
  }
}

int32_t __wrap_adatask_create(ada_handle *h, int64_t now, uint64_t by, uint32_t master_kind, uint64_t master,
                              const ada_family *families, size_t count, uint64_t *at, uint32_t *goes_on) {
  want(families);
  return __real_adatask_create(h, now, by, master_kind, master, families, count, at, goes_on);
}

int32_t __wrap_adatask_activate(ada_handle *h, int64_t now, uint64_t by, const uint64_t *tasks, size_t count,
                                uint64_t *at, uint32_t *goes_on) {
  want(tasks);
  return __real_adatask_activate(h, now, by, tasks, count, at, goes_on);
}

int32_t __wrap_adatask_wait(ada_handle *h, int64_t now, uint64_t by, const ada_choice *choices, size_t count,
                            uint32_t tail, const ada_pause *delays, size_t delay_count, uint32_t pick,
                            uint64_t *at, uint32_t *goes_on) {
  want(choices);
  want(delays);
  return __real_adatask_wait(h, now, by, choices, count, tail, delays, delay_count, pick, at, goes_on);
}

int32_t __wrap_adatask_abort(ada_handle *h, int64_t now, uint64_t by, const uint64_t *tasks, size_t count,
                             uint64_t *at, uint32_t *goes_on) {
  want(tasks);
  return __real_adatask_abort(h, now, by, tasks, count, at, goes_on);
}
