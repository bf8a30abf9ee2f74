/* SPDX-License-Identifier: MIT */
/* Beginning, creation, activation, completion and abort of tasks, as the bodies in Ada ask for them. */

#define _GNU_SOURCE
#include "glue.h"
#include <stdlib.h>
#include <string.h>
#include <unistd.h>

/* The kernel makes its journal shorter when it has so many events. */
enum { THRESHOLD = 4096 };

/* How often the end of the run time's own servers is looked at, and how long is waited between. */
enum { LOOKS = 20, MICROSECONDS = 1000 };

static task *environment;
static unsigned servers;

/* Called once, by the environment task, which gets its place: its control block, and what marks one as aborted. Without
   memory there is no program. */
unsigned adagnat_begin(void *block, void (*mark)(void *)) {
  environment = new_task();
  if (!environment || ada_kernel_new_lasting(&kernel, THRESHOLD) || ada_threads_new(&threads) ||
      ada_threads_put(&threads, 0, 0, ADA_NO_MASTER, 0) ||
      ada_threads_put(&threads, environment->place, 0, ADA_NO_MASTER, 0)) {
    fputs("adatask: there is no memory for a kernel\n", stderr);
    abort();
  }
  mark_aborted = mark;
  environment->block = block;
  environment->is_elaborated = environment->has_thread = true;
  ada_threads_begin(&threads, environment->place);
  strcpy(environment->name, "main");
  set_number(environment, 0);
  set_self(environment);
  begin_schedule();
  begin_clock();
  open_files();
  return environment->place;
}

/* ---- Creation and activation ---- */

/* GNAT tells how many entries a task has, not which make a family: up to 16 each is one, and more lie side by side. */
static size_t families_of(task *t, unsigned entries, ada_family *families) {
  size_t count = 0;
  unsigned first;
  t->entries = entries;
  t->chunk = entries > MOST_FAMILIES ? (entries + MOST_FAMILIES - 1) / MOST_FAMILIES : 1;
  for (first = 0; first < entries; first += t->chunk, count++) {
    unsigned rest = entries - first;
    families[count].low = 0;
    families[count].high = (int32_t)(rest < t->chunk ? rest : t->chunk) - 1;
  }
  return count;
}

static int32_t ask_for_task(const task *me, const task *t, const ada_family *families, size_t count) {
  uint64_t at;
  int32_t code;
  note_change(me);
  code = ada_create(&kernel, me->number, t->master_kind, t->master, families, count, &at);
  if ((code == ADA_TOO_MANY_TASKS || code == ADA_TOO_MANY_SLOTS) && make_room()) {
    code = ada_create(&kernel, me->number, t->master_kind, t->master, families, count, &at);
  }
  return code;
}

/* A search makes its processes while there is one thread alone. */
static void begin_helpers(void) {
  if (is_searched) return;
  begin_dumps();
  begin_watch();
}

/* The table of threads has room for the task before it is made. */
static int create(task *me, task *t, unsigned entries, const char *image, int length) {
  ada_family families[MOST_FAMILIES];
  size_t count = families_of(t, entries, families);
  int32_t code = ada_threads_put(&threads, t->place, ada_tasks(&kernel), t->master_kind, t->master);
  if (!code) code = ask_for_task(me, t, families, count);
  if (code) return refuse(me, code, "the creation of a task");
  set_number(t, ada_tasks(&kernel) - 1);
  t->maker = me;
  name_task(t, image, length);
  if (t->number == 1) begin_helpers();
  write_created(me, t, families, count);
  follow();
  return OK;
}

static void give_record(task *t) {
  t->is_released = true;
  forget_task(t);
}

/* Makes a task that depends on the master of a level, of which the parent is the task that is in it. */
int adagnat_create(unsigned parent, int level, unsigned entries, void *block, const char *image, int length,
                   unsigned *place) {
  task *me = self(), *t;
  uint32_t kind = ADA_NO_MASTER;
  uint64_t master = 0;
  int answer;
  if (!me || !parent) return NO_TASK;
  if (entries > MOST_ENTRIES) return TOO_MANY_ENTRIES;
  take_lock();
  tick_if_due();
  ada_threads_master(&threads, parent, (uint32_t)level, &kind, &master);
  t = is_gone(me) || kind == ADA_NO_MASTER ? NULL : new_task();
  if (t) {
    t->block = block;
    t->master_kind = kind;
    t->master = master;
    answer = create(me, t, entries, image, length);
    *place = t->place;
    if (answer) give_record(t);
  } else {
    answer = is_gone(me) ? GONE : kind == ADA_NO_MASTER ? TOO_DEEP : NO_MEMORY;
  }
  give_lock();
  return answer;
}

static void begin_thread(task *t) {
  t->has_thread = true;
  ada_threads_begin(&threads, t->place);
  if (is_controlled) make_ready(t);
}

/* A thread of the task won't be, or is over. */
static void end_thread(task *t) {
  if (is_controlled) make_unready(t);
  t->has_thread = false;
  t->is_over = true;
  if (t->is_server) servers--;
  ada_threads_end(&threads, t->place);
  let_go();
}

/* Starts an activation; `go` says of each task whether a thread is to be made. A task that was aborted has none. */
int adagnat_activate(unsigned count, const unsigned *those, int *go) {
  task *me = self(), *list[MOST_TASKS];
  uint64_t numbers[MOST_TASKS], at;
  unsigned i;
  int32_t code;
  int answer;
  if (!me) return NO_TASK;
  if (count > MOST_TASKS) return TOO_MANY_TASKS;
  if (is_searched) search_from_here();
  take_lock();
  tick_if_due();
  note_change(me);
  for (i = 0; i < count; i++) {
    list[i] = task_at(those[i]);
    numbers[i] = list[i]->number;
    note_change(list[i]);
  }
  code = is_gone(me) ? 0 : ada_activate(&kernel, me->number, numbers, count, &at);
  me->answer = is_gone(me) ? GONE : code ? refuse(me, code, "an activation") : OK;
  if (!me->answer) {
    write_list(me, "activate", list, count);
    me->asked = AN_ACTIVATION;
    for (i = 0; i < count; i++) {
      uint32_t runs = 0;
      go[i] = !ada_running(&kernel, numbers[i], &runs) && runs;
      if (go[i]) begin_thread(list[i]);
      list[i]->is_over = !go[i];
      list[i]->is_started = true;
    }
    follow();
  }
  answer = me->answer;
  give_lock();
  return answer;
}

/* No thread could be made for a task whose activation was started, so that fails. */
void adagnat_no_thread(unsigned place) {
  task *t;
  uint64_t at;
  take_lock();
  t = task_at(place);
  if (!is_gone(t) && !ada_elaborated(&kernel, t->number, 0, &at)) {
    write_asked(t, "fail");
    t->is_completed = true;
    follow();
  }
  t->is_completed = true;
  end_thread(t);
  give_lock();
}

/* Waits for the end of the activation that was started. */
int adagnat_await_activation(void) {
  task *me = self();
  take_lock();
  return stay(me);
}

/* A thread begins. */
void adagnat_thread_begins(unsigned place) {
  task *me;
  bool is_to_wait;
  take_lock();
  me = task_at(place);
  set_self(me);
  is_to_wait = is_controlled || me->is_let_go;
  give_lock();
  if (is_to_wait) await_turn(me);
}

/* Ends the task's own activation. */
int adagnat_elaborated(void) {
  task *me = self();
  uint64_t at;
  int answer;
  if (!me) return NO_TASK;
  take_lock();
  tick_if_due();
  me->answer = is_gone(me) ? GONE : OK;
  if (!me->answer && !me->is_elaborated) {
    int32_t code;
    note_change(me);
    code = ada_elaborated(&kernel, me->number, 1, &at);
    if (code) {
      me->answer = refuse(me, code, "the end of an activation");
    } else {
      write_asked(me, "up");
      me->is_elaborated = true;
      follow();
    }
  }
  if (is_controlled) return stay(me);
  answer = me->answer;
  give_lock();
  return answer;
}

/* ---- Completion ---- */

/* A task that comes to the end of its body, or of its activation by an exception. */
static void ask_for_completion(task *me) {
  uint64_t at;
  int32_t code;
  if (is_gone(me) || me->is_completed) return;
  give_up_unactivated(me);
  tick_if_due();
  note_change(me);
  code = me->is_elaborated ? ada_complete(&kernel, me->number, &at) : ada_elaborated(&kernel, me->number, 0, &at);
  me->is_completed = true;
  if (code) {
    refuse(me, code, "a completion");
    return;
  }
  write_asked(me, me->is_elaborated ? "complete" : "fail");
  follow();
}

/* Completes a task's body: returns when the threads of all that depends on it are over. It may be asked twice. */
void adagnat_complete(void) {
  task *me = self();
  if (!me) return;
  take_lock();
  ask_for_completion(me);
  me->is_completed = true;
  while (caller_of(me, 0)) leave_innermost(me);
  ada_threads_leave(&threads, me->place);
  let_go();
  stay(me);
}

/* The thread of the task is over: whether its control block is to be given back now. */
int adagnat_thread_ends(void) {
  task *me = self();
  bool is_to_free;
  if (!me) return 0;
  take_lock();
  is_to_free = me->is_to_free;
  end_thread(me);
  if (is_to_free) {
    release_task(me);
    forget_task(me);
  }
  if (is_controlled) {
    pass_turn(NULL, false);
  } else {
    look_if_stuck();
  }
  give_lock();
  return is_to_free;
}

/* The program gives a task up: whether its control block can be given back now, or else by its thread at its end. */
int adagnat_free(unsigned place) {
  task *t;
  bool is_over;
  if (!place) return 0;
  take_lock();
  t = task_at(place);
  is_over = t->is_over;
  t->is_to_free = true;
  if (is_over) {
    release_task(t);
    forget_task(t);
  }
  give_lock();
  return is_over;
}

/* ---- Abort ---- */

/* Aborts the tasks of these places; those that were given up are terminated already. */
int adagnat_abort(unsigned count, const unsigned *those) {
  task *me = self(), *list[MOST_TASKS];
  uint64_t numbers[MOST_TASKS], at;
  unsigned i, n = 0;
  int32_t code;
  if (!me) return NO_TASK;
  take_lock();
  tick_if_due();
  for (i = 0; i < count && n < MOST_TASKS; i++) {
    list[n] = task_at(those[i]);
    if (!list[n] || list[n]->is_released) continue;
    numbers[n] = list[n]->number;
    n++;
  }
  me->answer = OK;
  if (n && !is_gone(me)) {
    note_change_of_all();
    code = ada_abort(&kernel, me->number, numbers, n, &at);
    if (code) {
      me->answer = refuse(me, code, "an abort");
    } else {
      write_list(me, "abort", list, n);
      note_abort(at);
      follow();
    }
  }
  return stay(me);
}

/* Aborts one task that has no thread. */
int abort_one(task *me, task *t) {
  uint64_t at;
  int32_t code;
  t->is_over = true;
  if (is_gone(me) || t->is_released) return OK;
  tick_if_due();
  note_change_of_all();
  code = ada_abort(&kernel, me->number, &t->number, 1, &at);
  if (code) return refuse(me, code, "an abort");
  write_list(me, "abort", &t, 1);
  note_abort(at);
  follow();
  return OK;
}

/* An activation that won't come, of a task that nobody else can name: its control block isn't needed any more. */
void adagnat_expunge(unsigned place) {
  task *me = self(), *t;
  if (!me || !place) return;
  take_lock();
  t = task_at(place);
  abort_one(me, t);
  release_task(t);
  forget_task(t);
  give_lock();
}

/* ---- The end of the program ---- */

/* The run time's own servers never end by themselves. Nobody waits for their threads, since some wait for a signal. */
void adagnat_abort_servers(unsigned count, const unsigned *those) {
  unsigned i;
  take_lock();
  for (i = 0; i < count; i++) {
    task *t = task_at(those[i]);
    if (!t || !t->has_thread || t->is_server) continue;
    ada_threads_detach(&threads, t->place);
    t->is_server = true;
    servers++;
  }
  let_go();
  give_lock();
  adagnat_abort(count, those);
}

/* All is over but such servers, which get a moment to end. */
void adagnat_finish(void) {
  unsigned looks;
  bool is_any_left;
  take_lock();
  has_finished = true;
  end_search();
  end_schedule();
  flush_files();
  is_any_left = servers > 0;
  give_lock();
  for (looks = 0; is_any_left && looks < LOOKS; looks++) {
    usleep(MICROSECONDS);
    take_lock();
    is_any_left = servers > 0;
    give_lock();
  }
}
