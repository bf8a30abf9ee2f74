/* SPDX-License-Identifier: MIT */
/*
 * What the files share that choose who goes on. A run has steps: each begins with a choice, among the tasks that would
 * go on and perhaps a tick, and ends where the task that was chosen has asked for something.
 */
#ifndef ADATASK_SCHEDULE_H
#define ADATASK_SCHEDULE_H

#include "glue.h"

/* How a program ends that is stuck, one whose schedule can't be followed, and one with a task beyond control. */
enum { STUCK_STATUS = 83, UNFIT_STATUS = 84, BEYOND_STATUS = 85 };

/* What a step is that is no task's, in the place of a task's number. */
enum { A_TICK = UINT16_MAX };

/* The tasks that would go on, in their order, and the tick if that can be chosen: at most so many. */
enum { MOST_CANDIDATES = MOST_TASKS + 1 };

typedef struct {
  unsigned count, tasks; /* of all, and without the tick, which comes last */
  bool goes_on;          /* whether the first one is the task that went before */
  task *task[MOST_TASKS];
} candidates;

/* The task that has the turn, and how often the turn was given. */
extern task *turn;
extern uint64_t turns;
/* Whether a tick can be chosen while tasks would go on. */
extern bool has_any_time;

/* ---- Lists of choices: choices.c ---- */

void read_choices(const char *name);
unsigned choose_by_list(const candidates *those);
uint32_t pick_by_list(uint32_t picks);
void check_list_over(void);
void open_choices(void);
void keep_choices_in_memory(void);
void write_choices_to(FILE *file);
void write_choice(const char *name);
void write_pick(uint32_t pick);
void flush_choices(void);

/* ---- What isn't asked of the kernel: outside.c ---- */

/* Whether the program's clocks show the kernel's moment. */
extern bool has_simulated_time;
bool next_outside(int64_t *due);
void wake_outside(int64_t now);
bool waits_anyone_outside(void);
void real_time(struct timespec *now);

/* ---- The steps of a run of a search: search.c, steps.c ---- */

void begin_search(void);
unsigned choose_by_search(const candidates *those);
uint32_t pick_by_search(uint32_t picks);
void note_step(const candidates *those, unsigned chosen);
void note_pick(uint32_t pick, uint32_t picks);
void note_ready(const task *t);
void note_finish(void);
void end_outside(void);
void add_use(uint16_t object);

#endif
