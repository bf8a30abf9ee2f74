/* SPDX-License-Identifier: MIT */
/* A search of the schedules of a program, as `adatask-gnat explore` asks for it by ADATASK_SEARCH. The program runs up
   to its first activation; from there it makes a process for each schedule, since it has no thread yet but its own. */

#define _GNU_SOURCE
#include "search.h"
#include <errno.h>
#include <fcntl.h>
#include <sched.h>
#include <signal.h>
#include <stdlib.h>
#include <string.h>
#include <sys/mman.h>
#include <sys/prctl.h>
#include <sys/wait.h>
#include <time.h>
#include <unistd.h>

/* BEGINNINGS: a search is divided into so many for each shard, if there are as many. */
enum { MOST_JOBS = 256, PARTS = 10, BEGINNINGS = 16 };

/* What is asked for; 0 is no limit. */
wishes wished = {.runs = 10000, .preemptions = -1, .jobs = 1, .steps = 2000, .patience = 10};
static const char *folder;

typedef struct {
  run *run;
  pid_t process; /* 0 if there is none */
  int out, err;  /* what it writes */
  trial trial;
  uint64_t seen; /* how many turns were given when it was looked at, and when that was */
  struct timespec since;
} job;

static job jobs[MOST_JOBS];
static node *path[MOST_STEPS];
static int input;
static off_t input_at;
static cpu_set_t processors;
static sigset_t child_signal, old_signals;
static struct timespec begun, shown;
static bool is_cut_short, is_dividing;
static unsigned last_depth;

/* ---- What is asked for ---- */

static void fail_search(const char *what) {
  fprintf(stderr, "adatask: %s: %s\n", what, strerror(errno));
  exit(4);
}

static void *shared(size_t size) {
  void *memory = mmap(NULL, size, PROT_READ | PROT_WRITE, MAP_SHARED | MAP_ANONYMOUS, -1, 0);
  if (memory == MAP_FAILED) fail_search("the search has no memory");
  return memory;
}

static long *wish_named(const char *name) {
  static const struct {
    const char *name;
    long *value;
  } all[] = {{"runs", &wished.runs},   {"seconds", &wished.seconds},   {"preemptions", &wished.preemptions},
             {"plain", &wished.plain}, {"jobs", &wished.jobs},         {"steps", &wished.steps},
             {"ends", &wished.ends},   {"patience", &wished.patience}, {"line", &wished.line},
             {"shard", &wished.shard}, {"shards", &wished.shards},     {"merge", &wished.merge}};
  size_t i;
  for (i = 0; i < sizeof all / sizeof *all; i++) {
    if (!strcmp(all[i].name, name)) return all[i].value;
  }
  return NULL;
}

/* Words NAME=NUMBER, and at last to=FOLDER. */
static void read_wishes(const char *text) {
  char name[16];
  long value;
  int length;
  while (sscanf(text, " %15[a-z]=%ld%n", name, &value, &length) == 2) {
    long *wish = wish_named(name);
    if (!wish) break;
    *wish = value;
    text += length;
  }
  while (*text == ' ') text++;
  if (strncmp(text, "to=", 3)) end_unfit("ADATASK_SEARCH can't be read from here on: %s", text);
  folder = text + 3;
  if (wished.jobs < 1 || wished.jobs > MOST_JOBS) wished.jobs = 1;
  if (wished.steps < 1 || wished.steps > MOST_STEPS) wished.steps = MOST_STEPS;
  if (wished.preemptions >= 0) wished.plain = 1;
}

void begin_search(void) {
  const char *text = getenv("ADATASK_SEARCH");
  if (!text || !*text) return;
  read_wishes(text);
  if (wished.merge) is_cut_short = merge_findings(folder);
  is_searched = true;
  jobs[0].run = this_run = shared(sizeof *this_run);
  this_run->most_steps = (uint32_t)wished.steps;
}

/* ---- A process for each schedule ---- */

static int open_memory(void) {
  int file = memfd_create("adatask", MFD_CLOEXEC);
  if (file < 0) fail_search("what a run writes can't be kept");
  return file;
}

/* Those of the jobs begin with the steps that were made already. */
static void begin_jobs(void) {
  long i;
  for (i = 0; i < wished.jobs; i++) {
    job *j = &jobs[i];
    if (i) j->run = shared(sizeof *j->run);
    if (i) *j->run = *jobs[0].run;
    j->out = open_memory();
    j->err = open_memory();
  }
}

/* The program's input is read anew by each, from where it is. */
static void take_input(void) {
  char name[32];
  int file;
  if (input_at < 0) return;
  snprintf(name, sizeof name, "/proc/self/fd/%d", input);
  file = open(name, O_RDONLY | O_CLOEXEC);
  if (file < 0 || lseek(file, input_at, SEEK_SET) < 0 || dup2(file, STDIN_FILENO) < 0) _exit(4);
  close(file);
}

/* The processor of a job: each has one, on which its threads wake each other sooner. Shards that run beside each other
   begin with different ones. */
static void take_processor(long job) {
  long number = wished.shard ? (wished.shard - 1) * wished.jobs + job : job;
  int count = CPU_COUNT(&processors), wanted = count ? (int)(number % count) : 0, at;
  cpu_set_t one;
  for (at = 0; at < CPU_SETSIZE; at++) {
    if (!CPU_ISSET(at, &processors) || wanted--) continue;
    CPU_ZERO(&one);
    CPU_SET(at, &one);
    sched_setaffinity(0, sizeof one, &one);
    return;
  }
}

/* It ends with the search, if that is ended. */
static void become_run(job *j) {
  this_run = j->run;
  prctl(PR_SET_PDEATHSIG, SIGKILL);
  sigprocmask(SIG_SETMASK, &old_signals, NULL);
  take_processor(j - jobs);
  take_input();
  if (dup2(j->out, STDOUT_FILENO) < 0 || dup2(j->err, STDERR_FILENO) < 0) _exit(4);
}

static void empty(int file) {
  if (ftruncate(file, 0) || lseek(file, 0, SEEK_SET)) fail_search("what a run writes can't be kept");
}

/* What comes before the first activation, in which the last step isn't over. */
static struct {
  uint32_t steps, marks, names;
  step last;
} before;

static void note_before(const run *r) {
  before.steps = r->steps;
  before.marks = r->marks;
  before.names = r->names;
  if (r->steps) before.last = r->step[r->steps - 1];
}

static void clear_run(run *r) {
  r->steps = before.steps;
  r->marks = before.marks;
  r->names = before.names;
  if (r->steps) r->step[r->steps - 1] = before.last;
  r->end = BY_ITSELF;
  r->is_finished = false;
  r->exception[0] = 0;
}

/* Whether this process is the run. */
static bool start(job *j) {
  empty(j->out);
  empty(j->err);
  clear_run(j->run);
  real_time(&j->since);
  j->seen = j->run->turns;
  j->process = fork();
  if (j->process < 0) fail_search("a process can't be made");
  if (j->process) return false;
  become_run(j);
  return true;
}

/* ---- The ends of runs ---- */

/* A run that was to find a beginning. */
static void take_beginning(const run *r) {
  found.divided.runs++;
  if (r->end != TOO_LONG || r->steps < r->most_steps) end_beginning(r, path);
}

static void take_schedule(const job *j, int status, unsigned first) {
  const run *r = j->run;
  if (!wished.plain) find_races(r, path, first);
  if (wished.shard) count_trial(beginning_of(j->trial), r->end != ASLEEP);
  if (r->end == ASLEEP) {
    found.asleep++;
  } else if (r->end == TOO_LONG) {
    found.too_long++;
  } else if (r->end == OUTSIDE) {
    found.outside++;
  } else {
    count_schedule(r, status, j->out, j->err);
  }
}

static void take_run(job *j, int status) {
  run *r = j->run;
  trial t = j->trial;
  j->process = 0;
  last_depth = r->steps;
  if (r->end == BY_ITSELF && !is_stuck_status(status) && !r->is_finished) end_by_step(r);
  if (r->end == STRAYED || !take_steps(r, t, path)) {
    found.strayed++;
    end_trial(t, t.at);
    return;
  }
  if (is_dividing) {
    take_beginning(r);
  } else {
    take_schedule(j, status, t.at ? depth_of(t) : 0);
  }
  end_trial(t, r->steps ? path[r->steps - 1] : t.at);
}

/* ---- The search ---- */

static double since(const struct timespec *then) {
  struct timespec now;
  real_time(&now);
  return (double)(now.tv_sec - then->tv_sec) + (double)(now.tv_nsec - then->tv_nsec) / 1e9;
}

static void show_line(bool is_last) {
  unsigned long tried = found.whole + found.asleep + found.too_long + found.outside;
  double seconds = since(&begun);
  if (!wished.line || (!is_last && since(&shown) * PARTS < 1)) return;
  real_time(&shown);
  dprintf((int)wished.line, "\r%lu schedules, %.0f a second, depth %u \033[K%s", tried,
          seconds > 0 ? (double)tried / seconds : 0, last_depth, is_last ? "\r\033[K" : "");
}

static bool is_enough(void) {
  if (found.strayed || found.beyond) return true;
  if (is_dividing) return false;
  if (wished.runs && (long)(found.whole + found.too_long + found.outside) >= wished.runs) return true;
  return wished.seconds && since(&begun) >= (double)wished.seconds;
}

/* A run that gives no turn for too long is ended. */
static bool look_after(job *j) {
  if (j->seen != j->run->turns) {
    j->seen = j->run->turns;
    real_time(&j->since);
  }
  if (!wished.patience || since(&j->since) <= (double)wished.patience) return true;
  kill(j->process, SIGKILL);
  waitpid(j->process, NULL, 0);
  j->process = 0;
  return false;
}

static void note_beyond(const job *j) {
  snprintf(found.who_is_beyond, sizeof found.who_is_beyond, "%s", j->run->turn);
  found.beyond++;
  end_trial(j->trial, j->trial.at);
}

static void await_child(void) {
  static const struct timespec pause = {0, 100000000};
  sigtimedwait(&child_signal, NULL, &pause);
}

/* Takes the runs that have ended, once there are any. */
static void await_runs(void) {
  bool is_any = false;
  long i;
  await_child();
  for (i = 0; i < wished.jobs; i++) {
    int status;
    if (!jobs[i].process) continue;
    if (waitpid(jobs[i].process, &status, WNOHANG) == jobs[i].process) {
      take_run(&jobs[i], status);
      is_any = true;
    }
  }
  for (i = 0; !is_any && i < wished.jobs; i++) {
    if (jobs[i].process && !look_after(&jobs[i])) note_beyond(&jobs[i]);
  }
}

/* Begins as many runs as there are jobs and choices for; whether this process is one. */
static bool start_runs(void) {
  long i;
  for (i = 0; i < wished.jobs; i++) {
    if (jobs[i].process) continue;
    if (!find_trial(&jobs[i].trial)) return false;
    begin_trial(jobs[i].trial, jobs[i].run);
    if (start(&jobs[i])) return true;
  }
  return false;
}

static bool is_any_running(void) {
  long i;
  for (i = 0; i < wished.jobs; i++) {
    if (jobs[i].process) return true;
  }
  return false;
}

/* Tries what is wanted; whether this process is a run. */
static bool go_on(void) {
  if (start_runs()) return true;
  while (is_any_running()) {
    await_runs();
    show_line(false);
    if (is_enough()) {
      is_cut_short = is_cut_short || !is_tree_done();
    } else if (start_runs()) {
      return true;
    }
  }
  return false;
}

static bool search(void) {
  jobs[0].trial.at = NULL;
  return start(&jobs[0]) || go_on();
}

/* ---- A search that is divided ---- */

static void limit_steps(uint32_t steps) {
  long i;
  for (i = 0; i < wished.jobs; i++) jobs[i].run->most_steps = steps;
}

/* Tries all beginnings of schedules, of one step more each time, until there are enough for the shards. Whether this
   process is a run. */
static bool divide(void) {
  uint32_t steps = before.steps + 1;
  is_dividing = true;
  lengthen_beginnings(steps);
  limit_steps(steps);
  if (search()) return true;
  while (!is_enough() && count_beginnings() < (unsigned)(BEGINNINGS * wished.shards) && steps < wished.steps &&
         lengthen_beginnings(++steps)) {
    limit_steps(steps);
    if (go_on()) return true;
  }
  is_dividing = false;
  limit_steps((uint32_t)wished.steps);
  return false;
}

/* Each shard finds all beginnings, and goes on from its own. A schedule without a step is the first shard's. */
static bool search_shard(void) {
  division own = {(unsigned)wished.shard, (unsigned)wished.shards};
  unsigned beginnings;
  if (divide()) return true;
  if (found.strayed || found.beyond) return false;
  beginnings = number_beginnings();
  begin_tallies(beginnings ? beginnings : 1);
  if (!beginnings) return wished.shard == 1 && search();
  want_beginnings(own);
  return go_on();
}

static void prepare(void) {
  real_time(&begun);
  sched_getaffinity(0, sizeof processors, &processors);
  sigemptyset(&child_signal);
  sigaddset(&child_signal, SIGCHLD);
  sigprocmask(SIG_BLOCK, &child_signal, &old_signals);
  input = STDIN_FILENO;
  input_at = lseek(input, 0, SEEK_CUR);
  begin_tree(wished.plain, wished.preemptions < 0 ? UINT32_MAX : (unsigned)wished.preemptions);
  note_before(jobs[0].run);
  begin_jobs();
}

/* ---- What is found ---- */

/* Starts a run by some choices; whether this process is it. */
static bool play(job *j, const choice *choices, uint32_t steps) {
  j->run->prefix = steps;
  j->run->sleepers = 0;
  memcpy(j->run->chosen, choices, steps * sizeof *choices);
  return start(j);
}

/* Whether the run comes to its end, and shows what was found. */
static bool ends_as_found(job *j, const finding *f) {
  int status;
  while (waitpid(j->process, &status, WNOHANG) != j->process) {
    await_child();
    if (!look_after(j)) return false;
  }
  return shows_again(f, j->run, status, j->err);
}

/* A run that writes its choices by the names of tasks, and nothing else: in the least order of their class; or as they
   were found, if that shows something else, as it may by what the search doesn't see. */
static bool write_found(const finding *f) {
  job *j = &jobs[0];
  if (play(j, f->least, f->steps)) return true;
  if (ends_as_found(j, f)) return false;
  if (play(j, f->choice, f->steps)) return true;
  ends_as_found(j, f);
  return false;
}

static bool is_begun;

/* The status with which the search ends. */
static int finish(bool is_any_left) {
  if (wished.shard && found.divided.beginnings) write_findings(folder, is_any_left);
  return write_verdict(folder, is_any_left);
}

/* A program that activates no task has one schedule, the first shard's. */
void end_search(void) {
  if (!is_searched || is_begun) return;
  if (!wished.merge) found.whole = wished.shard < 2;
  if (wished.shard) begin_tallies(1);
  if (wished.shard == 1) count_trial(1, true);
  _exit(finish(is_cut_short));
}

/* Before the first activation. Returns in each run alone; the search itself ends the process. */
void search_from_here(void) {
  const finding *f;
  if (is_begun) return;
  is_begun = true;
  prepare();
  if (!wished.merge && (wished.shard ? search_shard() : search())) return;
  show_line(true);
  f = found.stuck.count ? &found.stuck : &found.unhandled;
  if (f->count && !wished.shard && write_found(f)) {
    name_choices(folder);
    return;
  }
  _exit(finish(is_cut_short || !is_tree_done()));
}
