/* SPDX-License-Identifier: MIT */
/*
 * A little run-time system over a kernel that lives on: tasks are coroutines, one processor is shared in turn, and time
 * is simulated. The kernel says what the rules force; the system has to do two things:
 *
 * - After each request, ada_runnable names whoever runs now and didn't before: they come into the ready list.
 * - When nobody is ready, ada_next_due names the next moment for which a task waits: the clock moves there.
 *
 * If nobody is ready and no moment is due, the program is finished, or it is stuck. scheduler.expected has what it
 * prints.
 */

#include "adatask.h"
#include <stdio.h>
#include <stdlib.h>

/* Tasks by their numbers: the main program has 0, the others are numbered as they are created. */
enum { MAIN, BUFFER, MAKER, USER, CLERK, ANN, SLEEPER, TASKS };

/* A task: its body is a function that makes one request, and is called again once the task runs again. */
typedef struct task {
  const char *name;
  void (*body)(struct task *self);
  int line;         /* where the body goes on */
  int turn;         /* the number of a loop's turn */
  int item;         /* what its call carries; parameters are the run-time system's, not the kernel's */
  uint64_t request; /* the position of its latest request */
  uint64_t callee;  /* whom it called last, and which entry */
  uint32_t family;
} task;

static task tasks[TASKS];
static const char *const entries[TASKS][2] = {[BUFFER] = {"Put", "Get"}, [CLERK] = {"Ask", NULL}};
enum { PUT = 0, GET = 1, ASK = 0 };

static ada_kernel k;
static int64_t now; /* the moment, in milliseconds */

/* The program makes no request that the rules refuse, so a refusal is an error of this file. */
static void must(int32_t code) {
  if (code == ADA_ACCEPTED) return;
  fprintf(stderr, "scheduler: code %d\n", (int)code);
  exit(1);
}

static uint64_t number_of(const task *self) { return (uint64_t)(self - tasks); }

/* ---- What happens, in words ---- */

static const char *name(uint64_t number) { return tasks[number].name; }

/* The task whose latest request stands at a position: it is still held up by that, or has just been let go. The kernel
   shows the events of the last request alone. */
static const task *asker_at(uint64_t position) {
  uint64_t number;
  for (number = 0; number < TASKS; number++)
    if (tasks[number].request == position) return &tasks[number];
  fprintf(stderr, "scheduler: nobody asked for event %lu last\n", (unsigned long)position);
  exit(1);
}

static const char *asker(uint64_t position) { return asker_at(position)->name; }

static void tell_list(uint64_t position) {
  uint64_t place, number;
  for (place = 0; ada_event_task(&k, position, place, &number) == ADA_ACCEPTED; place++) printf(" %s", name(number));
}

/* The open alternatives of a wait. */
static void tell_wait(uint64_t position, const ada_event *e) {
  ada_choice choice;
  uint64_t place;
  printf("%s waits:", name(e->task));
  for (place = 0; ada_event_choice(&k, position, place, &choice) == ADA_ACCEPTED; place++)
    if (choice.is_open) printf(" %s", entries[e->task][choice.family]);
  if (e->form == ADA_TERMINATE) printf(" terminate");
}

static void tell_call(const ada_event *e) {
  printf("%s calls %s.%s", name(e->task), name(e->callee), entries[e->callee][e->family]);
  if (e->is_timed) printf(" until %d", (int)e->moment);
}

static void tell_meeting(const ada_event *e) {
  const task *caller = asker_at(e->call);
  printf("  %s accepts %s of %s", name(caller->callee), entries[caller->callee][caller->family], caller->name);
}

/* What a task asked for, and what the clock did. */
static void tell_request(uint64_t position, const ada_event *e) {
  switch (e->kind) {
    case ADA_OPENED: printf("%s opens a block", name(e->task)); break;
    case ADA_CREATED: printf("%s creates %s", name(e->task), name(ada_tasks(&k) - 1)); break;
    case ADA_STARTED: printf("%s activates", name(e->task)); tell_list(position); break;
    case ADA_ELABORATED: printf("%s is up", name(e->task)); break;
    case ADA_CALLED: tell_call(e); break;
    case ADA_WAITING: tell_wait(position, e); break;
    case ADA_PAUSED: printf("%s sleeps until %d", name(e->task), (int)e->moment); break;
    case ADA_ENDED: printf("%s lets %s go", name(e->task), asker(e->call)); break;
    case ADA_CLOSED: printf("%s closes its block", name(e->task)); break;
    case ADA_COMPLETED: printf("%s completes", name(e->task)); break;
    case ADA_ABORTED: printf("%s aborts", name(e->task)); tell_list(position); break;
    default: printf("the clock moves on"); break;
  }
}

/* What the rules force. */
static void tell_step(const ada_event *e) {
  switch (e->kind) {
    case ADA_MET: tell_meeting(e); break;
    case ADA_CANCELLED: printf("  the call of %s is cancelled", asker(e->call)); break;
    case ADA_WOKEN: printf("  %s wakes", asker(e->position)); break;
    case ADA_ACTIVATED: printf("  the activation by %s ends", asker(e->position)); break;
    case ADA_HALTED: printf("  %s is halted", name(e->task)); break;
    case ADA_GONE: printf("  %s is terminated", name(e->task)); break;
    case ADA_QUIT: printf("  what waits at terminate alternatives terminates together"); break;
    case ADA_LEFT: printf("  %s leaves its block", asker(e->position)); break;
    default: printf("  kind %d", (int)e->kind); break; /* none that this program leads to */
  }
}

/* The events from a position on: a request, and the steps that it forced. */
static void tell(uint64_t position) {
  for (; position <= ada_events(&k); position++) {
    ada_event e;
    must(ada_event_at(&k, position, &e));
    printf("%4d  ", (int)now);
    if (e.kind <= ADA_TICKED) tell_request(position, &e);
    else tell_step(&e);
    printf("\n");
  }
}

static void say(const task *self, const char *what, int item) {
  printf("%4d  %s %s", (int)now, self->name, what);
  if (item) printf(" %d", item);
  printf("\n");
}

/* ---- The ready list and the clock ---- */

static uint64_t ready[TASKS]; /* a ring of tasks that run, each once */
static int first, count;

static void put_ready(uint64_t number) { ready[(first + count++) % TASKS] = number; }

static uint64_t take_ready(void) {
  uint64_t number = ready[first];
  first = (first + 1) % TASKS;
  count--;
  return number;
}

/* A task that was given up is terminated. */
static int is_running(uint64_t number) {
  uint32_t runs;
  int32_t code = ada_running(&k, number, &runs);
  if (code == ADA_GIVEN_UP) return 0;
  must(code);
  return runs != 0;
}

/* After a request: tells what happened, and puts those who became runnable at the end of the ready list. */
static void follow(uint64_t from) {
  uint64_t number;
  tell(from);
  for (number = 0; ada_runnable(&k, number, &number) == ADA_ACCEPTED; number++) put_ready(number);
}

/* Gives a task its turn, for one request. If it goes on it comes last: it ran before, so ada_runnable doesn't name
   it. */
static void give_turn(uint64_t number) {
  uint64_t from = ada_events(&k) + 1;
  if (!is_running(number)) return; /* it was aborted while it was ready */
  tasks[number].body(&tasks[number]);
  follow(from);
  if (k.goes_on) put_ready(number);
}

/* Moves the clock to the next moment for which a task waits; 0 if there is none. */
static int move_clock(void) {
  uint64_t from = ada_events(&k) + 1, at;
  if (ada_next_due(&k, &now) != ADA_ACCEPTED) return 0;
  must(ada_tick(&k, now, &at));
  follow(from);
  return 1;
}

static void run_all(void) {
  put_ready(MAIN);
  do {
    while (count > 0) give_turn(take_ready());
  } while (move_clock());
  printf(ada_finished(&k) ? "finished\n" : "stuck\n");
}

/* ---- Coroutines ---- */

/* A body is written between these. REQUEST makes a request and returns; the next call of the body goes on after it. So
   nothing that has to be kept stands in a local variable. */
#define BODY(self) switch ((self)->line) { case 0:
#define REQUEST(self, call) do { (self)->line = __LINE__; must(call); return; case __LINE__:; } while (0)
#define END_OF_BODY }

/* Each of these is one request of a task. */
static int32_t create(task *self, uint32_t master_kind, uint64_t master, size_t families) {
  static const ada_family single[2] = {{0, 0}, {0, 0}};
  return ada_create(&k, number_of(self), master_kind, master, single, families, &self->request);
}

static int32_t activate(task *self, uint64_t low, uint64_t high) {
  uint64_t list[TASKS];
  size_t length = 0;
  for (; low <= high; low++) list[length++] = low;
  return ada_activate(&k, number_of(self), list, length, &self->request);
}

static int32_t call(task *self, uint64_t callee, uint32_t family) {
  self->callee = callee;
  self->family = family;
  return ada_call(&k, number_of(self), callee, family, 0, ADA_SIMPLE, 0, &self->request);
}

static int32_t call_within(task *self, uint64_t callee, uint32_t family, int64_t duration) {
  self->callee = callee;
  self->family = family;
  return ada_call(&k, number_of(self), callee, family, 0, ADA_TIMED, duration, &self->request);
}

static int32_t up(task *self) { return ada_elaborated(&k, number_of(self), 1, &self->request); }
static int32_t sleep_for(task *self, int64_t time) { return ada_delay(&k, number_of(self), time, &self->request); }
static int32_t end(task *self) { return ada_end(&k, number_of(self), 0, &self->request); }
static int32_t complete(task *self) { return ada_complete(&k, number_of(self), &self->request); }

static ada_outcome outcome_of(const task *self) {
  ada_outcome outcome;
  must(ada_outcome_of(&k, number_of(self), &outcome));
  return outcome;
}

/* ---- The program ---- */

static int places[2], held; /* what is in the buffer, the oldest first */

/* select when held < 2 => accept Put; or when held > 0 => accept Get; or terminate; end select; */
static int32_t select_put_or_get(task *self) {
  ada_choice choices[2] = {{PUT, 0, 0}, {GET, 0, 0}};
  choices[0].is_open = held < 2;
  choices[1].is_open = held > 0;
  return ada_wait(&k, number_of(self), choices, 2, ADA_TERMINATE, NULL, 0, 0, &self->request);
}

/* The statements of the accept statement: its wait's outcome says which alternative was taken, and who called. */
static void carry_item(task *self) {
  ada_outcome taken = outcome_of(self);
  task *caller = &tasks[taken.caller];
  if (taken.number == PUT) {
    places[held++] = caller->item;
  } else {
    caller->item = places[0];
    places[0] = places[1];
    held--;
  }
}

static void buffer(task *self) {
  BODY(self)
  REQUEST(self, up(self));
  for (;;) {
    REQUEST(self, select_put_or_get(self));
    carry_item(self);
    REQUEST(self, end(self));
  }
  END_OF_BODY
}

static void maker(task *self) {
  BODY(self)
  REQUEST(self, up(self));
  for (self->turn = 1; self->turn <= 3; self->turn++) {
    self->item = self->turn;
    REQUEST(self, call(self, BUFFER, PUT));
  }
  REQUEST(self, complete(self));
  END_OF_BODY
}

static void user(task *self) {
  BODY(self)
  REQUEST(self, up(self));
  REQUEST(self, sleep_for(self, 10));
  for (self->turn = 1; self->turn <= 3; self->turn++) {
    REQUEST(self, call(self, BUFFER, GET));
    say(self, "has got item", self->item);
  }
  REQUEST(self, complete(self));
  END_OF_BODY
}

static int32_t select_ask(task *self) {
  const ada_choice ask = {ASK, 0, 1};
  return ada_wait(&k, number_of(self), &ask, 1, ADA_TERMINATE, NULL, 0, 0, &self->request);
}

static void clerk(task *self) {
  BODY(self)
  REQUEST(self, up(self));
  REQUEST(self, sleep_for(self, 50));
  for (;;) {
    REQUEST(self, select_ask(self));
    REQUEST(self, end(self));
  }
  END_OF_BODY
}

static void say_outcome(const task *self) {
  say(self, outcome_of(self).kind == ADA_WAS_SERVED ? "was served" : "wasn't served", 0);
}

static void ann(task *self) {
  BODY(self)
  REQUEST(self, up(self));
  REQUEST(self, call_within(self, CLERK, ASK, 20));
  say_outcome(self);
  REQUEST(self, call_within(self, CLERK, ASK, 100));
  say_outcome(self);
  REQUEST(self, complete(self));
  END_OF_BODY
}

static void sleeper(task *self) {
  BODY(self)
  REQUEST(self, up(self));
  REQUEST(self, sleep_for(self, 1000));
  REQUEST(self, complete(self));
  END_OF_BODY
}

static int32_t abort_sleeper(task *self) {
  const uint64_t one = SLEEPER;
  return ada_abort(&k, number_of(self), &one, 1, &self->request);
}

static void main_program(task *self) {
  static uint64_t block;
  BODY(self)
  REQUEST(self, ada_open(&k, MAIN, &self->request));
  block = self->request;
  REQUEST(self, create(self, ADA_BLOCK, block, 2)); /* Buffer */
  REQUEST(self, create(self, ADA_BLOCK, block, 0)); /* Maker */
  REQUEST(self, create(self, ADA_BLOCK, block, 0)); /* User */
  REQUEST(self, activate(self, BUFFER, USER));
  REQUEST(self, ada_close(&k, MAIN, &self->request));
  REQUEST(self, create(self, ADA_BODY, MAIN, 1)); /* Clerk */
  REQUEST(self, create(self, ADA_BODY, MAIN, 0)); /* Ann */
  REQUEST(self, create(self, ADA_BODY, MAIN, 0)); /* Sleeper */
  REQUEST(self, activate(self, CLERK, SLEEPER));
  REQUEST(self, sleep_for(self, 100));
  REQUEST(self, abort_sleeper(self));
  REQUEST(self, complete(self));
  END_OF_BODY
}

static void set(uint64_t number, const char *its_name, void (*body)(task *)) {
  tasks[number].name = its_name;
  tasks[number].body = body;
}

int main(void) {
  set(MAIN, "main", main_program);
  set(BUFFER, "Buffer", buffer);
  set(MAKER, "Maker", maker);
  set(USER, "User", user);
  set(CLERK, "Clerk", clerk);
  set(ANN, "Ann", ann);
  set(SLEEPER, "Sleeper", sleeper);
  must(ada_kernel_new_lasting(&k, 30));
  run_all();
  ada_kernel_drop(&k);
  return 0;
}
