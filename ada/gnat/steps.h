/* SPDX-License-Identifier: MIT */
/*
 * What a search and its runs share. A search makes a process for each schedule, which tells its steps in memory that
 * both have.
 */
#ifndef ADATASK_STEPS_H
#define ADATASK_STEPS_H

#include "schedule.h"

/* At most so many steps of a run, so many marks, and so many names of tasks are told. */
enum { MOST_STEPS = 10000, MOST_MARKS = 8 * MOST_STEPS, MOST_NAMES = 32 * MOST_STEPS, MOST_ASLEEP = 1024 };

/* Whose mark is everybody's. */
enum { EVERYBODY = UINT16_MAX };

/* What a step does with a task: changes its state; asks whether it is terminated or callable; terminates it. Or it uses
   a protected object. */
enum { CHANGES, LOOKS_AT, ENDS, USES };

/* One mark of a footprint, by the kernel's number of the task, or by that of the object. */
typedef struct {
  uint16_t whose, what;
} mark;

typedef struct {
  const mark *mark;
  unsigned count;
} footprint;

/* A choice: the number of the task, or A_TICK, and the pick of the wait that it asks for. */
typedef struct {
  uint16_t who, pick;
} choice;

typedef struct {
  choice taken;
  uint16_t picks;                       /* how many the wait had */
  bool goes_on;                         /* whether the first candidate is the task that went before */
  uint32_t candidates, first_candidate; /* numbers of tasks, from a place of `names` */
  uint32_t marks, first_mark;
  uint32_t readied, first_readied; /* of those that it made ready */
} step;

/* A task whose next step is not to come first, since another order has that; and the footprint of that step. */
typedef struct {
  uint16_t who;
  uint32_t marks, first_mark;
} sleeper;

/* How a run ended: by the program itself; since all that would go on sleep; after too many steps; since nobody goes on
   but by something that isn't a task; or since the program isn't the same twice. */
enum { BY_ITSELF, ASLEEP, TOO_LONG, OUTSIDE, STRAYED };

enum { EXCEPTION_SIZE = 128 };

typedef struct {
  /* What the search says: the choices to begin with, and who sleeps after them. */
  uint32_t prefix, sleepers, most_steps;
  choice chosen[MOST_STEPS];
  sleeper asleep[MOST_ASLEEP];
  mark sleeping[MOST_MARKS];
  /* What the run tells. */
  uint32_t end, steps, marks, names;
  bool is_finished; /* whether the main program came to its end */
  uint64_t turns;
  step step[MOST_STEPS];
  mark mark[MOST_MARKS];
  uint16_t name[MOST_NAMES];
  char turn[NAME_SIZE];                                   /* who has the turn */
  char exception[EXCEPTION_SIZE], who_raised[NAME_SIZE]; /* the first that a task didn't handle */
} run;

/* The run that this process is, or that it does the first steps of. */
extern run *this_run;

void end_by_step(run *r);
bool depend(footprint one, footprint other);
footprint footprint_of(const run *r, const step *s);

/* ---- The tree of choices: tree.c ---- */

/* What comes after some choices: who would go on there, and who of them is still to be tried. */
typedef struct node node;

/* A choice to be tried: at a node, by the place of its branch. */
typedef struct {
  node *at;
  unsigned branch;
} trial;

/* Whether all orders are tried, and how many preemptions a schedule may have. */
void begin_tree(bool is_plain, unsigned most_preemptions);
bool find_trial(trial *found);
void begin_trial(trial t, run *r);
bool take_steps(const run *r, trial t, node **path);
void end_trial(trial t, node *last);
bool is_tree_done(void);
bool is_candidate(const node *n, uint16_t who);
bool is_taken_care_of(const node *n, uint16_t who);
void want(node *n, uint16_t who);
void want_all(node *n);
unsigned depth_of(trial t);

/* ---- Beginnings of schedules, which are divided among shards: tree.c ---- */

/* One of so many shards, from 1. */
typedef struct {
  unsigned shard, shards;
} division;

/* Beginnings are mixed, since such as lie in a row have more or less after them by turns. */
static inline unsigned shard_of(unsigned beginning, unsigned shards) {
  return (unsigned)((beginning * UINT64_C(0x9e3779b97f4a7c15)) >> 32) % shards + 1;
}

static inline bool is_of_shard(unsigned beginning, const division *by) {
  return shard_of(beginning, by->shards) == by->shard;
}

bool lengthen_beginnings(unsigned steps);
void end_beginning(const run *r, node *const *path);
unsigned count_beginnings(void);
unsigned number_beginnings(void);
void want_beginnings(division by);
unsigned beginning_of(trial t);
void write_beginnings(FILE *to);

/* ---- Races: races.c ---- */

void find_races(const run *r, node *const *path, unsigned first);
void put_in_order(const run *r, choice *to);
uint64_t class_of(const run *r);

#endif
