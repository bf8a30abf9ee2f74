/* SPDX-License-Identifier: MIT */
/* Plays scripts through the library, one after the other, and prints what adatask prints for them, with its status for
   the last: gallery PATH .. The scripts are tables, which tools/script_table writes into the header that SCRIPT_TABLES
   names; no script is read here. Built with -DLASTING, it plays them on kernels that live on. */

#include "adatask_text.h"
#include <stdio.h>
#include <stdlib.h>
#include <string.h>

/* ---- Tables ---- */

/* What shows an attribute; any other line has the kind of the event that it asks for. */
enum { SHOWS_CALLABLE = 100, SHOWS_TERMINATED, SHOWS_COUNT };

/* A name that a script declares, and the names of its families of entries. */
typedef struct {
  const char *text;
  int is_block;
  const char *const *families;
} name_row;

/* A line of a script. Tasks and blocks are places in the table of names; what a line has no use for is 0. */
typedef struct {
  uint32_t line, kind;
  uint32_t by;   /* who asks */
  uint32_t name; /* the task or the block that it makes, calls or shows */
  uint32_t master;
  uint32_t flag; /* of an end of an activation whether it is ok, of an accept statement 0 */
  uint32_t family;
  int32_t index;
  uint32_t patience, tail, pick;
  int64_t duration; /* of a tick the moment */
  const ada_family *families;
  size_t families_count;
  const uint32_t *tasks;
  size_t tasks_count;
  const ada_choice *choices;
  size_t choices_count;
  const ada_pause *delays;
  size_t delays_count;
} request_row;

typedef struct {
  const char *path;
  const name_row *names;
  size_t names_count;
  const request_row *rows;
  size_t rows_count;
} script_row;

#include SCRIPT_TABLES

/* ---- Names ---- */

/* What a name means while nothing is bound to it: a task or a block that doesn't exist. */
#define NO_TASK UINT64_C(65535)
#define NO_BLOCK UINT64_C(4294967295)
#define MOST_TASKS 256
#define MOST_EVENTS 65536
#define MOST_NAMES 4097

static ada_kernel k;
static const script_row *script;
static uint64_t bound[MOST_NAMES];             /* by name: the number of the task, or the position of the block */
static uint32_t name_of_task[MOST_TASKS];      /* by number */
static uint32_t name_of_made[MOST_EVENTS + 1]; /* by the position of the event that made the task or the block */

static void fail(const char *what, int32_t code) {
  fprintf(stderr, "gallery: %s: code %d\n", what, (int)code);
  exit(4);
}

static void must(int32_t code, const char *what) {
  if (code != ADA_ACCEPTED) fail(what, code);
}

static int32_t make_kernel(void) {
#ifdef LASTING
  return ada_kernel_new_lasting(&k, MOST_EVENTS);
#else
  return ada_kernel_new(&k);
#endif
}

static void unbind_all(void) {
  size_t i;
  if (script->names_count > MOST_NAMES) fail("too many names", 0);
  for (i = 0; i < script->names_count; i++) bound[i] = script->names[i].is_block ? NO_BLOCK : NO_TASK;
  bound[0] = 0;
  name_of_task[0] = 0;
}

/* The line was accepted at a position: what it made has its name. */
static void bind(const request_row *row, uint64_t at) {
  if (row->kind != ADA_OPENED && row->kind != ADA_CREATED) return;
  name_of_made[at] = row->name;
  if (row->kind == ADA_OPENED) {
    bound[row->name] = at;
  } else {
    bound[row->name] = ada_tasks(&k) - 1;
    name_of_task[bound[row->name]] = row->name;
  }
}

static const name_row *task_row(uint64_t task) { return &script->names[name_of_task[task]]; }

static const char *task_text(void *host, uint64_t task) {
  (void)host;
  return task_row(task)->text;
}

static const char *family_text(void *host, uint64_t task, uint32_t family) {
  (void)host;
  return task_row(task)->families[family];
}

static const char *block_text(void *host, uint64_t position) {
  (void)host;
  return script->names[name_of_made[position]].text;
}

/* ---- Printing ---- */

/* The longest line: 256 names. */
#define MOST_BYTES 8192

static void print_events(uint64_t from) {
  static const ada_names names = {task_text, family_text, block_text, NULL};
  static char text[MOST_BYTES];
  uint64_t position;
  size_t length;
  for (position = from; position <= ada_events(&k); position++) {
    must(ada_event_text(&k, position, &names, text, sizeof text, &length), "an event");
    if (length >= sizeof text) fail("a line that is too long", 0);
    puts(text);
  }
}

static void print_refusal(uint32_t line, int32_t code) {
  const char *cause = ada_code_name(code);
  if (code <= ADA_ACCEPTED || code >= ADA_OUT_OF_MEMORY || !cause) fail("a request", code);
  printf("refused line %lu: %s\n", (unsigned long)line, cause);
}

/* ---- Playing ---- */

/* An attribute, which is shown for a speaker that exists, whether it runs or not; only COUNT is its own to ask. */
static void play_show(const request_row *row) {
  uint64_t by = bound[row->by], task = bound[row->name];
  uint32_t value = 0;
  int32_t code;
  if (row->kind == SHOWS_COUNT) code = ada_count(&k, by, row->family, row->index, &value);
  else if (by == NO_TASK || task == NO_TASK) code = ADA_UNKNOWN_TASK;
  else if (row->kind == SHOWS_CALLABLE) code = ada_callable(&k, task, &value);
  else code = ada_terminated(&k, task, &value);
  if (code != ADA_ACCEPTED) print_refusal(row->line, code);
  else if (row->kind == SHOWS_COUNT) printf("shown line %lu: %lu\n", (unsigned long)row->line, (unsigned long)value);
  else printf("shown line %lu: %s\n", (unsigned long)row->line, value ? "true" : "false");
}

static int32_t ask_of_tasks(const request_row *row, uint64_t *at) {
  uint64_t tasks[MOST_TASKS];
  size_t i;
  if (row->tasks_count > MOST_TASKS) fail("too many tasks in a line", 0);
  for (i = 0; i < row->tasks_count; i++) tasks[i] = bound[row->tasks[i]];
  return row->kind == ADA_STARTED ? ada_activate(&k, bound[row->by], tasks, row->tasks_count, at)
                                  : ada_abort(&k, bound[row->by], tasks, row->tasks_count, at);
}

static int32_t ask(const request_row *row, uint64_t *at) {
  uint64_t by = bound[row->by];
  switch (row->kind) {
    case ADA_OPENED: return ada_open(&k, by, at);
    case ADA_CREATED:
      return ada_create(&k, by, script->names[row->master].is_block ? ADA_BLOCK : ADA_BODY, bound[row->master],
                        row->families, row->families_count, at);
    case ADA_STARTED:
    case ADA_ABORTED: return ask_of_tasks(row, at);
    case ADA_ELABORATED: return ada_elaborated(&k, by, row->flag, at);
    case ADA_CALLED:
      return ada_call(&k, by, bound[row->name], row->family, row->index, row->patience, row->duration, at);
    case ADA_WAITING:
      return ada_wait(&k, by, row->choices, row->choices_count, row->tail, row->delays, row->delays_count, row->pick,
                      at);
    case ADA_PAUSED: return ada_delay(&k, by, row->duration, at);
    case ADA_ENDED: return ada_end(&k, by, row->flag, at);
    case ADA_CLOSED: return ada_close(&k, by, at);
    case ADA_COMPLETED: return ada_complete(&k, by, at);
    default: return ada_tick(&k, row->duration, at);
  }
}

static void play(const request_row *row) {
  uint64_t at = 0;
  int32_t code;
  if (row->kind >= SHOWS_CALLABLE) {
    play_show(row);
    return;
  }
  code = ask(row, &at);
  if (code == ADA_ACCEPTED) {
    bind(row, at);
    print_events(at);
  } else {
    print_refusal(row->line, code);
  }
}

/* The script of a path, or null. */
static const script_row *find(const char *path) {
  size_t i;
  for (i = 0; i < sizeof scripts / sizeof scripts[0]; i++)
    if (!strcmp(scripts[i].path, path)) return &scripts[i];
  return NULL;
}

/* Plays a script on a kernel of its own; the status that adatask has for it. */
static int play_script(void) {
  size_t i;
  int status;
  must(make_kernel(), "a kernel");
  unbind_all();
  for (i = 0; i < script->rows_count; i++) play(&script->rows[i]);
  status = ada_finished(&k) ? 0 : 3;
  ada_kernel_drop(&k);
  return status;
}

int main(int count, char **words) {
  int i, status = 2;
  for (i = 1; i < count; i++) {
    script = find(words[i]);
    if (!script) {
      fprintf(stderr, "gallery: there is no table of %s\n", words[i]);
      return 2;
    }
    status = play_script();
  }
  return status;
}
