/* SPDX-License-Identifier: MIT */
/* What a search was asked for, and what it has found. */
#ifndef ADATASK_SEARCH_H
#define ADATASK_SEARCH_H

#include "steps.h"

/* Numbers as they are given; 0 is no limit, and -1 preemptions are any. */
typedef struct {
  long runs, seconds, preemptions, plain, jobs, steps, ends, patience;
  long line; /* where a line that moves is written: a number of a file, or 0 */
  long shard, shards; /* which of how many this search is, from 1; 0 if it isn't divided */
  long merge; /* how many files of shards are put together, in the place of a search; or 0 */
} wishes;

/* Schedules of one kind: how many, the choices of the shortest, and these in the least order of their class. Of several
   that are as short it is the one whose least order comes first, so that it doesn't matter which came first. */
typedef struct {
  unsigned long count;
  uint32_t steps;
  choice choice[MOST_STEPS], least[MOST_STEPS];
} finding;

/* What was tried of a beginning. */
typedef struct {
  unsigned long whole, asleep;
} tally;

/* How many runs it took to divide a search, how many beginnings there are, and what was tried of each, from 1. */
typedef struct {
  unsigned long runs;
  unsigned beginnings;
  tally *tally;
} divided;

typedef struct {
  unsigned long whole, asleep, too_long, outside, strayed, beyond;
  finding stuck, unhandled;
  divided divided;
  char exception[EXCEPTION_SIZE], who_raised[NAME_SIZE], who_is_beyond[NAME_SIZE];
} findings;

extern wishes wished;
extern findings found;

/* How a search ends. */
enum { TRIED_STATUS = 0, FOUND_STATUS = 3, FILE_STATUS = 4, UNKNOWN_STATUS = 5 };

/* What a schedule shows that was followed to its end. */
typedef enum { NOTHING_FOUND, GETS_STUCK, ENDS_UNHANDLED } outcome;

/* ---- What is found: findings.c ---- */

bool add_finding(finding *f, const finding *other);
void add_unhandled(const finding *other, const char *name, const char *who);
bool is_stuck_status(int status);
outcome outcome_of(const run *r, int status, int err, char *name, char *who);
void count_schedule(const run *r, int status, int out, int err);
bool shows_again(const finding *f, const run *r, int status, int err);

/* ---- Shards: shards.c, merge.c ---- */

void begin_tallies(unsigned count);
void count_trial(unsigned beginning, bool is_whole);
void write_findings(const char *folder, bool is_any_left);
bool merge_findings(const char *folder);

/* ---- The verdict: verdict.c ---- */

/* An end: the status, and what was printed. */
typedef struct {
  int status;
  size_t length;
  char *output;
  unsigned long count;
} end_of_runs;

enum { OUTPUT_SIZE = 4096, PATH_SIZE = 4096 };

void count_end(int status, int out);
void add_end(const end_of_runs *end);
void add_other_ends(unsigned long count);
void count_class(uint64_t number);
void write_ends_found(FILE *to);
void write_classes_found(FILE *to);
FILE *open_in(const char *folder, const char *name);
int write_verdict(const char *folder, bool is_any_left);
void name_choices(const char *folder);

#endif
