/* SPDX-License-Identifier: MIT */
/*
 * Events of a kernel as the lines that `adatask` prints of them, for C99, C11 and C++17. docs/FORMAT.md has each form.
 *
 * These functions only read a kernel. They ask for no memory, and write through no pointer but those that are passed.
 */
#ifndef ADATASK_TEXT_H
#define ADATASK_TEXT_H

#include "adatask.h"
#include <stdarg.h>
#include <stdio.h>

#ifdef __cplusplus
extern "C" {
#endif

/*
 * What a host calls its tasks, its families of entries, and its blocks by the positions of their openings. `host` is
 * passed to each function. One that is null, or that answers a null pointer, leaves the name to this header: main and
 * T1, E0, and B7 for the block that was opened at 7.
 */
typedef struct {
  const char *(*task)(void *host, uint64_t task);
  const char *(*family)(void *host, uint64_t task, uint32_t family);
  const char *(*block)(void *host, uint64_t position);
  void *host;
} ada_names;

/* A line that is being written, as far as there is room for it. */
typedef struct {
  ada_kernel *kernel;
  const ada_names *names;
  uint64_t position;
  char *text;
  size_t size;
  size_t length;
} ada_line;

#ifdef __GNUC__
__attribute__((format(printf, 2, 3)))
#endif
static inline void ada_put(ada_line *line, const char *format, ...) {
  size_t room = line->length < line->size ? line->size - line->length : 0;
  va_list words;
  int written;
  va_start(words, format);
  written = vsnprintf(room ? line->text + line->length : NULL, room, format, words);
  va_end(words);
  if (written > 0) line->length += (size_t)written;
}

/* ---- Names ---- */

static inline void ada_put_task(ada_line *line, uint64_t task) {
  const ada_names *names = line->names;
  const char *name = names && names->task ? names->task(names->host, task) : NULL;
  if (name) ada_put(line, "%s", name);
  else if (task == 0) ada_put(line, "main");
  else ada_put(line, "T%llu", (unsigned long long)task);
}

static inline void ada_put_family(ada_line *line, uint64_t task, uint32_t family) {
  const ada_names *names = line->names;
  const char *name = names && names->family ? names->family(names->host, task, family) : NULL;
  if (name) ada_put(line, "%s", name);
  else ada_put(line, "E%lu", (unsigned long)family);
}

static inline void ada_put_block(ada_line *line, uint64_t position) {
  const ada_names *names = line->names;
  const char *name = names && names->block ? names->block(names->host, position) : NULL;
  if (name) ada_put(line, "%s", name);
  else ada_put(line, "B%llu", (unsigned long long)position);
}

static inline void ada_put_master(ada_line *line, uint32_t kind, uint64_t master) {
  if (kind == ADA_BODY) ada_put_task(line, master);
  else ada_put_block(line, master);
}

static inline void ada_put_entry(ada_line *line, uint64_t task, uint32_t family, int32_t index) {
  ada_put_family(line, task, family);
  ada_put(line, "(%ld)", (long)index);
}

static inline void ada_put_position(ada_line *line, uint64_t position) {
  ada_put(line, "%llu", (unsigned long long)position);
}

/* ---- Lists ---- */

static inline void ada_put_tasks(ada_line *line) {
  uint64_t place, task;
  for (place = 0; ada_event_task(line->kernel, line->position, place, &task) == ADA_ACCEPTED; place++) {
    ada_put(line, " ");
    ada_put_task(line, task);
  }
}

static inline void ada_put_families(ada_line *line, uint64_t task) {
  uint64_t place;
  ada_family family;
  for (place = 0; ada_event_family(line->kernel, line->position, place, &family) == ADA_ACCEPTED; place++) {
    ada_put(line, place ? " " : " with ");
    ada_put_family(line, task, (uint32_t)place);
    ada_put(line, "(%ld..%ld)", (long)family.low, (long)family.high);
  }
}

static inline void ada_put_choices(ada_line *line, uint64_t task) {
  uint64_t place;
  ada_choice choice;
  for (place = 0; ada_event_choice(line->kernel, line->position, place, &choice) == ADA_ACCEPTED; place++) {
    ada_put(line, choice.is_open ? " accept " : " closed accept ");
    ada_put_entry(line, task, choice.family, choice.index);
  }
}

static inline void ada_put_delays(ada_line *line) {
  uint64_t place;
  ada_due due;
  for (place = 0; ada_event_delay(line->kernel, line->position, place, &due) == ADA_ACCEPTED; place++) {
    if (due.is_open) ada_put(line, " delay %lld", (long long)due.moment);
    else ada_put(line, " closed delay");
  }
}

/* ---- What a task asked for, after its name ---- */

static inline void ada_put_created(ada_line *line, const ada_event *e) {
  uint64_t made = 0;
  ada_created_task(line->kernel, line->position, &made);
  ada_put(line, " created ");
  ada_put_task(line, made);
  ada_put(line, " under ");
  ada_put_master(line, e->master_kind, e->master);
  ada_put_families(line, made);
}

static inline void ada_put_opened(ada_line *line, const ada_event *e) {
  ada_put(line, " opened ");
  ada_put_block(line, line->position);
  ada_put(line, " under ");
  ada_put_master(line, e->under_kind, e->under);
}

static inline void ada_put_called(ada_line *line, const ada_event *e) {
  ada_put(line, e->form == ADA_CONDITIONAL ? " tried " : " called ");
  ada_put_task(line, e->callee);
  ada_put(line, ".");
  ada_put_entry(line, e->callee, e->family, e->index);
  if (e->is_timed) ada_put(line, " until %lld", (long long)e->moment);
}

static inline void ada_put_waiting(ada_line *line, const ada_event *e) {
  ada_put(line, " waits %lu", (unsigned long)e->number);
  ada_put_choices(line, e->task);
  ada_put_delays(line);
  switch (e->form) {
    case ADA_ELSE: ada_put(line, " else"); break;
    case ADA_TERMINATE: ada_put(line, " terminate"); break;
    case ADA_CLOSED_TERMINATE: ada_put(line, " closed terminate"); break;
    default: break;
  }
}

static inline void ada_put_closed(ada_line *line, const ada_event *e) {
  ada_put(line, " closed ");
  ada_put_block(line, e->position);
}

static inline void ada_put_named(ada_line *line, const char *deed) {
  ada_put(line, "%s", deed);
  ada_put_tasks(line);
}

static inline void ada_put_deed(ada_line *line, const ada_event *e) {
  ada_put_task(line, e->task);
  switch (e->kind) {
    case ADA_OPENED: ada_put_opened(line, e); break;
    case ADA_CREATED: ada_put_created(line, e); break;
    case ADA_STARTED: ada_put_named(line, " started"); break;
    case ADA_ELABORATED: ada_put(line, e->form ? " up" : " failed"); break;
    case ADA_CALLED: ada_put_called(line, e); break;
    case ADA_WAITING: ada_put_waiting(line, e); break;
    case ADA_PAUSED: ada_put(line, " paused until %lld", (long long)e->moment); break;
    case ADA_ENDED: ada_put(line, e->form ? " raised " : " ended "); ada_put_position(line, e->call); break;
    case ADA_CLOSED: ada_put_closed(line, e); break;
    case ADA_COMPLETED: ada_put(line, " completed"); break;
    case ADA_ABORTED: ada_put_named(line, " aborted"); break;
    default: ada_put(line, " kind %lu", (unsigned long)e->kind); break; /* none that this header knows */
  }
}

/* ---- A tick, and what was forced ---- */

static inline void ada_put_of(ada_line *line, const char *fate, uint64_t position) {
  ada_put(line, "%s ", fate);
  ada_put_position(line, position);
}

static inline void ada_put_of_task(ada_line *line, const char *fate, uint64_t task) {
  ada_put(line, "%s ", fate);
  ada_put_task(line, task);
}

static inline void ada_put_met(ada_line *line, const ada_event *e) {
  ada_put_of(line, "met", e->call);
  ada_put_of(line, "", e->position);
}

static inline void ada_put_passed(ada_line *line, const ada_event *e) {
  ada_put_of(line, "passed", e->position);
  if (e->form == ADA_BY_DELAY) ada_put(line, " delay %lu", (unsigned long)e->number);
  else ada_put(line, e->form == ADA_BY_ELSE ? " else" : " program_error");
}

static inline void ada_put_quit(ada_line *line, const ada_event *e) {
  ada_put(line, "quit ");
  ada_put_master(line, e->master_kind, e->master);
}

static inline void ada_put_fate(ada_line *line, const ada_event *e) {
  switch (e->kind) {
    case ADA_TICKED: ada_put(line, "ticked %lld", (long long)e->moment); break;
    case ADA_HALTED: ada_put_of_task(line, "halted", e->task); break;
    case ADA_FAILED: ada_put_of(line, "failed", e->call); break;
    case ADA_MET: ada_put_met(line, e); break;
    case ADA_CANCELLED: ada_put_of(line, "cancelled", e->call); break;
    case ADA_PASSED: ada_put_passed(line, e); break;
    case ADA_WOKEN: ada_put_of(line, "woken", e->position); break;
    case ADA_ACTIVATED:
      ada_put_of(line, "activated", e->position);
      ada_put(line, e->form ? " ok" : " failed");
      break;
    case ADA_GONE: ada_put_of_task(line, "gone", e->task); break;
    case ADA_QUIT: ada_put_quit(line, e); break;
    case ADA_LEFT: ada_put_of(line, "left", e->position); break;
    default: ada_put(line, "kind %lu", (unsigned long)e->kind); break; /* none that this header knows */
  }
}

/*
 * Writes the line of the event at a position: the position, and what happened, without an end of line. As snprintf does,
 * it writes at most `size` bytes, the last of them 0, and `length` is that of the whole line; a line has at most some
 * 4,500 bytes, if names have 16. Answered by a code, nothing is written. `names` may be null.
 */
static inline int32_t ada_event_text(ada_kernel *k, uint64_t position, const ada_names *names, char *text, size_t size,
                                     size_t *length) {
  ada_line line;
  ada_event e;
  int32_t code;
  if (!length || (size && !text)) return ADA_NULL;
  code = ada_event_at(k, position, &e);
  if (code != ADA_ACCEPTED) return code;
  line.kernel = k;
  line.names = names;
  line.position = position;
  line.text = text;
  line.size = size;
  line.length = 0;
  ada_put_position(&line, position);
  ada_put(&line, " ");
  if (e.kind < ADA_TICKED) ada_put_deed(&line, &e);
  else ada_put_fate(&line, &e);
  *length = line.length;
  return ADA_ACCEPTED;
}

#ifdef __cplusplus
}
#endif

#endif
