/* SPDX-License-Identifier: MIT */
/*
 * What the files of the glue share: between the tasking operations of a program that GNAT compiled and the kernel.
 * The bodies in Ada beside them call the functions whose names begin with adagnat_; nothing here knows of GNAT's
 * records. All else is used under one lock, unless it is said.
 */
#ifndef ADATASK_GLUE_H
#define ADATASK_GLUE_H

#include "adatask_threads.h"
#include <pthread.h>
#include <semaphore.h>
#include <stdbool.h>
#include <stdio.h>

/* What an operation answers to the bodies in Ada; s-tasker.ads has the same numbers. */
enum {
  OK = 0,
  GONE = 1, /* the task was aborted, or terminated with others: its thread ends */
  RAISES_TASKING_ERROR = 2,
  WAS_CANCELLED = 3,
  RAISES_EXCEPTION = 4,
  RAISES_PROGRAM_ERROR = 5,
  TOO_MANY_TASKS = 6,
  TOO_MANY_ENTRIES = 7,
  TOO_DEEP = 8,
  TOO_MANY_ALTERNATIVES = 9,
  NESTED_ACCEPT = 10,
  NO_MEMORY = 11,
  NO_TASK = 12, /* a thread asks that isn't a task's */
  REFUSED = 13  /* for a cause that the glue should never meet; standard error has it */
};

/* What a task asked for last, if it wasn't told yet what became of that. */
enum { NOTHING = 0, A_CALL = 1, A_WAIT = 2, AN_ACTIVATION = 3 };

enum { MOST_FAMILIES = 16, MOST_CHOICES = 16, MOST_TASKS = 256, MOST_ENTRIES = 1024, NAME_SIZE = 17 };

typedef struct task task;

struct task {
  sem_t go; /* its thread waits here */
  void *block;
  uint64_t number;
  unsigned place;
  char name[NAME_SIZE];
  int answer; /* to what it asked for last, once it goes on */
  int asked;
  bool gone, was_halted, has_quit, is_completed, is_elaborated, is_started, has_thread, is_over, is_released;
  bool is_to_free;
  bool is_server;          /* one of the run time's own */
  unsigned entries, chunk; /* how many entries, how many of them make a family */
  task *maker;
  uint32_t master_kind; /* the master on which it depends, as the kernel names it */
  uint64_t master;
  task *callee; /* of its latest call, and which entry, from 1 */
  unsigned entry;
  void *parameters, *exception;
  unsigned choices, taken;
  struct {
    unsigned entry, alternative; /* from 1 */
    bool has_no_body;
  } choice[MOST_CHOICES];
  uint32_t tail;
  bool is_timed;
  int64_t due; /* when what it asked for is over, if it is timed */
  /* Where the schedule is chosen: whether it would go on, goes on after all others, has just asked a question, and
     ends the accept statement without statements that it has entered. */
  bool is_ready, goes_last, has_asked, is_to_end;
  pthread_cond_t *condition; /* for which it waits outside of the kernel, and until when */
  int64_t outside_due;
  bool is_late, is_let_go;
  task *next_numbered, *next_to_wake, *next_ready, *next_spare;
};

extern ada_kernel kernel;
/* Which threads may go on, whose calls they serve, and which masters they are within. */
extern ada_threads threads;
/* Whether the main program has ended. */
extern bool has_finished;
/* The moment of the last tick. */
extern int64_t moment;
extern FILE *script, *journal;

/* ---- The table of tasks: table.c ---- */

extern unsigned places;
task *new_task(void);
void forget_task(task *t);
task *task_at(unsigned place);
task *task_numbered(uint64_t number);
void set_number(task *t, uint64_t number);
void release_task(task *t);
bool make_room(void);

/* ---- Masters: masters.c ---- */

void give_up_unactivated(task *me);
int abort_one(task *me, task *t);

/* ---- Who goes on: going.c ---- */

void take_lock(void);
void give_lock(void);
bool has_lock(void);
void await_turn(task *me);
void wait_with_lock(pthread_cond_t *condition, const struct timespec *until);
task *self(void);
void set_self(task *t);
bool is_gone(task *t);
void note_abort(uint64_t at);
void follow(void);
void let_go(void);
task *caller_of(const task *server, unsigned depth);
void end_innermost(task *server, bool is_raised);
void leave_innermost(task *server);
int stay(task *me);
int refuse(const task *by, int32_t code, const char *what);
void look_if_stuck(void);
extern void (*mark_aborted)(void *block);

/* ---- Time: clock.c ---- */

void begin_clock(void);
int64_t present(void);
void tick_to(int64_t now);
void tick_if_due(void);
int64_t begin_timed(int64_t nanoseconds);
void end_timed(task *me, int64_t duration, bool goes_on);
int sleep_for(int64_t nanoseconds);
void start_helper(void *(*run)(void *));

/* ---- Names and script: names.c, script.c ---- */

void name_task(task *t, const char *image, int length);
const char *name_of_master(uint32_t kind, uint64_t name);
const char *name_of_number(uint64_t number);
void write_asked(const task *by, const char *format, ...);
void write_created(const task *by, const task *made, const ada_family *families, size_t count);
void write_list(const task *by, const char *verb, task *const *list, size_t count);
void write_call(const task *by, uint32_t patience, int64_t duration);
void write_wait(const task *by, uint32_t pick, const ada_choice *choices, size_t count, uint32_t tail,
                int64_t duration);
void write_tick(int64_t now);
void write_delay(const task *by, int64_t duration);

/* ---- Schedules that are chosen: schedule.c, choices.c, outside.c ---- */

/* Whether one task alone goes on at a time, chosen by what the environment says. */
extern bool is_controlled;
void begin_schedule(void);
void end_schedule(void);
void make_ready(task *t);
void make_unready(task *t);
void pass_turn(task *me, bool goes_on);
void ask_for_turn(task *me);
void begin_turn(task *me);
uint32_t choose_pick(const task *by, const ada_choice *choices, size_t count);
void give_turn_if_free(void);
void begin_watch(void);
void end_unfit(const char *format, ...);

/* ---- A search of schedules: steps.c, search.c ---- */

/* Whether this is a run of a search, so that its steps are noted. */
extern bool is_searched;
void search_from_here(void);
void end_search(void);
void note_ends(void);
void add_change(const task *t);
void add_look(const task *t);
void add_change_of_all(void);

/* The step of a search that isn't over changes a task's state; asks for an attribute of it; or changes any. */
static inline void note_change(const task *t) {
  if (is_searched) add_change(t);
}

static inline void note_look(const task *t) {
  if (is_searched) add_look(t);
}

static inline void note_change_of_all(void) {
  if (is_searched) add_change_of_all();
}

/* ---- Journal, files and dump: journal.c, files.c, dump.c ---- */

void write_events(void);
FILE *open_named(const char *variable);
void flush_one(FILE *file, const char *variable);
void open_files(void);
void flush_files(void);
extern bool is_stuck;
void end_stuck(void);
void say_all(void);
void begin_dumps(void);

#endif
