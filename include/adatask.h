/* SPDX-License-Identifier: MIT */
/*
 * The run-time kernel beneath Ada tasks, for C99, C11 and C++17. docs/EMBEDDING.md says how to use it.
 *
 * Each function that may fail answers 0, or a code: below 100 for the cause for which a request is refused, and 100 or
 * more for what is wrong with the numbers that were passed. It writes through its pointers only where it answers 0, and
 * changes the kernel only by an accepted request. Codes and the numbers of kinds never change; new ones are added.
 *
 * A kernel may move between threads, and is used by one thread at a time; order the calls by a lock. There is no global
 * state: a process may have many kernels. An `ada_kernel` is owned by whoever made it, and is dropped once; copies of
 * the struct name the same kernel.
 */
#ifndef ADATASK_H
#define ADATASK_H

#include <stddef.h>
#include <stdint.h>

#ifdef __cplusplus
extern "C" {
#endif

/* What the library has of a kernel: the null pointer if there is none. */
typedef struct {
  void *kernel;
} ada_handle;

/* A kernel, and what goes with its requests. */
typedef struct {
  ada_handle handle;
  int64_t now;      /* the moment of its host's clock, which ada_set_clock sets */
  uint32_t goes_on; /* whether the task of the last accepted request ran after it, 0 or 1; a tick is no task's */
} ada_kernel;

/* A host without a clock: durations count from the last tick. */
enum { ADA_NO_CLOCK = -1 };

/* What a variable begins with: no kernel. */
#define ADA_NO_KERNEL {{NULL}, ADA_NO_CLOCK, 0}

/* ---- Codes ---- */

enum {
  ADA_ACCEPTED = 0,
  /* Written by tools/write_tables from docs/tables/causes.ini */
  /* The asking task, the callee, a listed task or the task of a master doesn't exist. */
  ADA_UNKNOWN_TASK = 1,
  /* The asking task isn't running. */
  ADA_NOT_RUNNING = 2,
  /* A wait, end or completion by a task that is still being activated (9.3). */
  ADA_DURING_ACTIVATION = 3,
  /* The end of an activation by a task that has ended it already, or by the main program (9.3). */
  ADA_NOT_ACTIVATING = 4,
  /* A creation under a master that the asking task is neither in nor depends on (9.4). */
  ADA_NOT_YOUR_MASTER = 5,
  /* A list of tasks or of delay alternatives is empty (9.7.1, 9.10). */
  ADA_EMPTY_LIST = 6,
  /* An activation of a task that the asking task didn't make, that an activation named before, or that is listed
     twice (9.3). */
  ADA_NOT_YOUR_TASK = 7,
  /* A wait has no accept alternative (9.7.1). */
  ADA_NO_ACCEPT = 8,
  /* The family of a call or of any accept alternative isn't declared (9.5). */
  ADA_NO_SUCH_FAMILY = 9,
  /* The index of a call or of an open accept alternative lies outside its family's range (9.5). */
  ADA_CONSTRAINT_ERROR = 10,
  /* An accept alternative, open or closed, for the family of a rendezvous that the task is within (9.5). */
  ADA_SAME_FAMILY_NESTED = 11,
  /* A terminate alternative, open or closed, within a rendezvous (9.7.1). */
  ADA_TERMINATE_IN_ACCEPT = 12,
  /* An end while the task is in no rendezvous, or in a block within it (9.5). */
  ADA_NOT_IN_ACCEPT = 13,
  /* A close while the task is in no block, or in a rendezvous within it (9.4). */
  ADA_NO_BLOCK = 14,
  /* A completion, or the end of an activation, within a block or a rendezvous (9.4). */
  ADA_STILL_NESTED = 15,
  /* An abort of the main program (9.10). */
  ADA_MAIN_TASK = 16,
  /* A tick to a moment before the present one (9.6). */
  ADA_MOMENT_BACK = 17,
  /* A tick, or the due moment of a timed call, a delay or an open delay alternative, above 9,000,000,000,000
     milliseconds (9.6). */
  ADA_MOMENT_TOO_LARGE = 18,
  /* A creation while there are 256 tasks, the main program and those that are gone counted. */
  ADA_TOO_MANY_TASKS = 19,
  /* A creation with which there would be more than 1,024 entries over all tasks. */
  ADA_TOO_MANY_SLOTS = 20,
  /* An opening or a wait within 32 blocks and rendezvous. */
  ADA_TOO_DEEP = 21,
  /* The journal of 65,536 events hasn't room for the 769 that one request may append. */
  ADA_JOURNAL_FULL = 22,
  /* Memory was refused, and no other cause applies. */
  ADA_OUT_OF_MEMORY = 23,
  /* End of what tools/write_tables wrote */
  ADA_TOO_LONG = 100,            /* a list is longer than the kernel takes; or delays beside another last part */
  ADA_NO_SUCH_KIND = 101,        /* a kind that is none, or a flag that is neither 0 nor 1 */
  ADA_OUT_OF_RANGE = 102,        /* a number that is too large for a task, a position or a family */
  ADA_NO_SUCH_EVENT = 103,       /* there is no event at this position */
  ADA_NO_SUCH_ITEM = 104,        /* the list of the event has no such item */
  ADA_NO_SUCH_TASK = 105,        /* there is no such task */
  ADA_NO_SUCH_ENTRY = 106,       /* the task has no such entry */
  ADA_NULL = 107,                /* a pointer is null, or there is no kernel */
  ADA_GIVEN_UP = 108,            /* the task, or the event, was given up */
  ADA_NOT_TERMINATED = 109,      /* the task isn't terminated, so it can't be given up */
  ADA_NO_ROOM = 110,             /* no shorter journal was found: there is no room for helpers, mostly */
  ADA_NOT_COMPACTED = 111,       /* for want of memory the journal wasn't made shorter; a request doesn't fit then */
  ADA_NO_MORE_NAMES = 112,       /* all numbers of tasks or positions below 2 to the power of 64 are used up */
  ADA_LIVES_ON = 113,            /* only a kernel that keeps everything does this */
  ADA_KEEPS_ALL = 114            /* only a kernel that lives on does this */
};

/* ---- Kinds ---- */

/* Masters: a task's body by its number, or a block by the position of its opening (9.4). */
enum { ADA_BODY = 0, ADA_BLOCK = 1 };

/* Calls (9.5, 9.7.2, 9.7.3). */
enum { ADA_SIMPLE = 0, ADA_CONDITIONAL = 1, ADA_TIMED = 2 };

/* The last part of a wait (9.7.1). */
enum { ADA_NOTHING = 0, ADA_ELSE = 1, ADA_DELAYS = 2, ADA_TERMINATE = 3, ADA_CLOSED_TERMINATE = 4 };

/* The way in which a wait ended without a rendezvous (9.7.1). */
enum { ADA_BY_ELSE = 0, ADA_BY_DELAY = 1, ADA_BY_PROGRAM_ERROR = 2 };

/* Events: what tasks ask for, and what is forced. */
enum {
  /* Written by tools/write_tables from docs/tables/events.ini */
  /* A task entered a block (5.6, 9.4). It has task, under_kind, under. */
  ADA_OPENED = 1,
  /* A task was made, under the task or the block on which it depends (9.1, 9.4). It has task, under_kind, under,
     master_kind, master; lists: families. */
  ADA_CREATED = 2,
  /* A task started to activate others (9.3). It has task; lists: tasks. */
  ADA_STARTED = 3,
  /* A task ended its own activation, by an exception if it isn't ok (9.3). It has task, form (ok). */
  ADA_ELABORATED = 4,
  /* A task called an entry; a timed call is due at a moment (9.5, 9.7.2, 9.7.3). It has task, callee, family, index,
     form (kind of call), is_timed, moment, duration. */
  ADA_CALLED = 5,
  /* A task waits selectively, or at an accept statement (9.5, 9.7.1). It has task, number (the pick), form (last
     part); lists: choices, delays. */
  ADA_WAITING = 6,
  /* A task is delayed until a moment (9.6). It has task, moment. */
  ADA_PAUSED = 7,
  /* A rendezvous ended, by an exception if it is raised (9.5, 11.5). It has task, call, form (raised). */
  ADA_ENDED = 8,
  /* A task came to the end of a block (9.4). It has task, position (of the block). */
  ADA_CLOSED = 9,
  /* A task came to the end of its statements (9.4). It has task. */
  ADA_COMPLETED = 10,
  /* A task asked for an abort of tasks (9.10). It has task; lists: tasks. */
  ADA_ABORTED = 11,
  /* The moment moved (9.6). It has moment. */
  ADA_TICKED = 12,
  /* Forced: a task was completed by an abort (9.10). It has task. */
  ADA_HALTED = 13,
  /* Forced: a call raised TASKING_ERROR (9.5, 9.10). It has call. */
  ADA_FAILED = 14,
  /* Forced: a wait took a call, and their rendezvous began (9.5, 9.7.1). It has call, position (of the wait). */
  ADA_MET = 15,
  /* Forced: a conditional or timed call left its queue (9.7.2, 9.7.3). It has call. */
  ADA_CANCELLED = 16,
  /* Forced: a wait ended without a rendezvous (9.7.1). It has position (of the wait), form (way), number (of the
     delay alternative). */
  ADA_PASSED = 17,
  /* Forced: a delay is over (9.6). It has position (of the delay). */
  ADA_WOKEN = 18,
  /* Forced: an activation ended, with TASKING_ERROR in its task if it isn't ok (9.3). It has position (of the
     start), form (ok). */
  ADA_ACTIVATED = 19,
  /* Forced: a task terminated by itself (9.3, 9.4). It has task. */
  ADA_GONE = 20,
  /* Forced: all that depended on a master and weren't terminated yet terminated together (9.4). It has master_kind,
     master. */
  ADA_QUIT = 21,
  /* Forced: a task left the block that it had closed (9.4). It has position (of the close). */
  ADA_LEFT = 22
  /* End of what tools/write_tables wrote */
};

/* What became of a task's latest call, wait, delay, activation or close. */
enum {
  ADA_DID_NOTHING = 0,       /* it has made none */
  ADA_IS_DEAD = 1,           /* the task is terminated */
  ADA_IS_DONE = 2,           /* the task is completed, by itself or by an abort (9.4, 9.10) */
  ADA_IS_HELD = 3,           /* it isn't over: the task is still held up by it */
  ADA_WAS_SERVED = 4,        /* the rendezvous of its call ended (9.5) */
  ADA_GOT_TASKING_ERROR = 5, /* its call raised TASKING_ERROR (9.5, 9.10) */
  ADA_WAS_CANCELLED = 6,     /* its conditional or timed call left the queue (9.7.2, 9.7.3) */
  ADA_HAS_ACCEPTED = 7,      /* its wait took a call by an accept alternative: number and call say which (9.5, 9.7.1) */
  ADA_TOOK_ELSE = 8,         /* its wait took the else part (9.7.1) */
  ADA_TOOK_DELAY = 9,        /* its wait took a delay alternative: number says which (9.7.1) */
  ADA_GOT_PROGRAM_ERROR = 10, /* its wait had nothing to take, and raised PROGRAM_ERROR (9.7.1) */
  ADA_IS_AWAKE = 11,          /* its delay is over (9.6) */
  ADA_ACTIVATION_OK = 12,     /* the tasks that it activated are activated (9.3) */
  ADA_ACTIVATION_FAILED = 13, /* one of them failed in its activation: TASKING_ERROR is raised in this one (9.3) */
  ADA_LEFT_BLOCK = 14,        /* it left the block (9.4) */
  ADA_GOT_EXCEPTION = 15      /* an exception ended the rendezvous of its call, and is raised in it too; or the one that
                                 it served, and is its own (11.5) */
};

/* Why a task doesn't go on by itself. */
enum {
  ADA_GOES_ON = 0,          /* it runs, or is terminated */
  ADA_NOT_STARTED = 1,      /* it was made, and no activation of it was started (9.3) */
  ADA_ACTIVATING = 2,       /* it started the activation of tasks, which hasn't ended (9.3) */
  ADA_QUEUED = 3,           /* its call stands in the queue of an entry (9.5) */
  ADA_IN_RENDEZVOUS = 4,    /* its call is being served (9.5) */
  ADA_IN_WAIT = 5,          /* it waits for a call, or for what else its wait may take (9.5, 9.7.1) */
  ADA_DELAYED = 6,          /* it is delayed (9.6) */
  ADA_LEAVING = 7,          /* it is at the end of a block, of which a dependent isn't terminated (9.4) */
  ADA_AWAITS_DEPENDENTS = 8 /* it is completed, and a dependent isn't terminated (9.4) */
};

/* ---- Names; a null pointer for a number that is none ---- */

/* That of a code: of a cause, as a journal prints it, or of what is wrong with the numbers. */
static inline const char *ada_code_name(int32_t code) {
  switch (code) {
    case ADA_ACCEPTED: return "Accepted";
    /* Written by tools/write_tables from docs/tables/causes.ini */
    case ADA_UNKNOWN_TASK: return "UnknownTask";
    case ADA_NOT_RUNNING: return "NotRunning";
    case ADA_DURING_ACTIVATION: return "DuringActivation";
    case ADA_NOT_ACTIVATING: return "NotActivating";
    case ADA_NOT_YOUR_MASTER: return "NotYourMaster";
    case ADA_EMPTY_LIST: return "EmptyList";
    case ADA_NOT_YOUR_TASK: return "NotYourTask";
    case ADA_NO_ACCEPT: return "NoAccept";
    case ADA_NO_SUCH_FAMILY: return "NoSuchFamily";
    case ADA_CONSTRAINT_ERROR: return "ConstraintError";
    case ADA_SAME_FAMILY_NESTED: return "SameFamilyNested";
    case ADA_TERMINATE_IN_ACCEPT: return "TerminateInAccept";
    case ADA_NOT_IN_ACCEPT: return "NotInAccept";
    case ADA_NO_BLOCK: return "NoBlock";
    case ADA_STILL_NESTED: return "StillNested";
    case ADA_MAIN_TASK: return "MainTask";
    case ADA_MOMENT_BACK: return "MomentBack";
    case ADA_MOMENT_TOO_LARGE: return "MomentTooLarge";
    case ADA_TOO_MANY_TASKS: return "TooManyTasks";
    case ADA_TOO_MANY_SLOTS: return "TooManySlots";
    case ADA_TOO_DEEP: return "TooDeep";
    case ADA_JOURNAL_FULL: return "JournalFull";
    case ADA_OUT_OF_MEMORY: return "OutOfMemory";
    /* End of what tools/write_tables wrote */
    case ADA_TOO_LONG: return "TooLong";
    case ADA_NO_SUCH_KIND: return "NoSuchKind";
    case ADA_OUT_OF_RANGE: return "OutOfRange";
    case ADA_NO_SUCH_EVENT: return "NoSuchEvent";
    case ADA_NO_SUCH_ITEM: return "NoSuchItem";
    case ADA_NO_SUCH_TASK: return "NoSuchTask";
    case ADA_NO_SUCH_ENTRY: return "NoSuchEntry";
    case ADA_NULL: return "Null";
    case ADA_GIVEN_UP: return "GivenUp";
    case ADA_NOT_TERMINATED: return "NotTerminated";
    case ADA_NO_ROOM: return "NoRoom";
    case ADA_NOT_COMPACTED: return "NotCompacted";
    case ADA_NO_MORE_NAMES: return "NoMoreNames";
    case ADA_LIVES_ON: return "LivesOn";
    case ADA_KEEPS_ALL: return "KeepsAll";
    default: return NULL;
  }
}

/* That of a kind of events. */
static inline const char *ada_kind_name(uint32_t kind) {
  switch (kind) {
    /* Written by tools/write_tables from docs/tables/events.ini */
    case ADA_OPENED: return "Opened";
    case ADA_CREATED: return "Created";
    case ADA_STARTED: return "Started";
    case ADA_ELABORATED: return "Elaborated";
    case ADA_CALLED: return "Called";
    case ADA_WAITING: return "Waiting";
    case ADA_PAUSED: return "Paused";
    case ADA_ENDED: return "Ended";
    case ADA_CLOSED: return "Closed";
    case ADA_COMPLETED: return "Completed";
    case ADA_ABORTED: return "Aborted";
    case ADA_TICKED: return "Ticked";
    case ADA_HALTED: return "Halted";
    case ADA_FAILED: return "Failed";
    case ADA_MET: return "Met";
    case ADA_CANCELLED: return "Cancelled";
    case ADA_PASSED: return "Passed";
    case ADA_WOKEN: return "Woken";
    case ADA_ACTIVATED: return "Activated";
    case ADA_GONE: return "Gone";
    case ADA_QUIT: return "Quit";
    case ADA_LEFT: return "Left";
    /* End of what tools/write_tables wrote */
    default: return NULL;
  }
}

/* That of an outcome. */
static inline const char *ada_outcome_name(uint32_t kind) {
  switch (kind) {
    case ADA_DID_NOTHING: return "Nothing";
    case ADA_IS_DEAD: return "Dead";
    case ADA_IS_DONE: return "Done";
    case ADA_IS_HELD: return "Held";
    case ADA_WAS_SERVED: return "Served";
    case ADA_GOT_TASKING_ERROR: return "TaskingError";
    case ADA_WAS_CANCELLED: return "Cancelled";
    case ADA_HAS_ACCEPTED: return "Accepted";
    case ADA_TOOK_ELSE: return "TookElse";
    case ADA_TOOK_DELAY: return "TookDelay";
    case ADA_GOT_PROGRAM_ERROR: return "ProgramError";
    case ADA_IS_AWAKE: return "Awake";
    case ADA_ACTIVATION_OK: return "ActivationOk";
    case ADA_ACTIVATION_FAILED: return "ActivationFailed";
    case ADA_LEFT_BLOCK: return "BlockLeft";
    case ADA_GOT_EXCEPTION: return "Raised";
    default: return NULL;
  }
}

/* That of a reason why a task doesn't go on. */
static inline const char *ada_reason_name(uint32_t kind) {
  switch (kind) {
    case ADA_GOES_ON: return "GoesOn";
    case ADA_NOT_STARTED: return "NotStarted";
    case ADA_ACTIVATING: return "Activating";
    case ADA_QUEUED: return "Queued";
    case ADA_IN_RENDEZVOUS: return "InRendezvous";
    case ADA_IN_WAIT: return "Waiting";
    case ADA_DELAYED: return "Delayed";
    case ADA_LEAVING: return "Leaving";
    case ADA_AWAITS_DEPENDENTS: return "Completed";
    default: return NULL;
  }
}

/* ---- Values ---- */

/* A family of entries with the index range low to high; a single entry is 0 and 0 (9.5). */
typedef struct {
  int32_t low, high;
} ada_family;

/* An accept alternative: an entry, and whether it is open, 0 or 1 (9.7.1). */
typedef struct {
  uint32_t family;
  int32_t index;
  uint32_t is_open;
} ada_choice;

/* A delay alternative: its duration in milliseconds, and whether it is open, 0 or 1 (9.7.1). */
typedef struct {
  int64_t duration;
  uint32_t is_open;
} ada_pause;

/* An event. What its kind has no use for is 0. */
typedef struct {
  uint32_t kind;        /* that of an event */
  uint32_t form;        /* ok or raised, 0 or 1; or the kind of a call, of a last part, of a way */
  uint64_t task;        /* the task that asked for it, or to which it happened */
  uint64_t callee;      /* the task whose entry was called */
  uint32_t family;      /* the family of the entry */
  int32_t index;        /* the index of the entry */
  uint32_t under_kind;  /* ADA_BODY or ADA_BLOCK, in which the task was */
  uint32_t master_kind; /* ADA_BODY or ADA_BLOCK, on which the new task depends, or that quit */
  uint64_t under;       /* the task of that body, or the position of that block */
  uint64_t master;      /* the same of the master */
  uint64_t call;        /* the position of the call */
  uint64_t position;    /* the position of the wait, delay, start, close or block */
  uint32_t number;      /* the pick of a wait, or the number of a delay alternative, from 0 */
  uint32_t is_timed;    /* whether a call has a moment at which it ends, 0 or 1 */
  int64_t moment;       /* the moment at which it is due, or to which the moment moved */
  int64_t duration;     /* the duration of a timed call */
} ada_event;

/* How many items the lists of an event have. */
typedef struct {
  uint64_t tasks;    /* those that an activation or an abort named */
  uint64_t families; /* those that a task declared */
  uint64_t choices;  /* the accept alternatives of a wait */
  uint64_t delays;   /* the delay alternatives of a wait */
} ada_lengths;

/* A delay alternative of a wait: the moment at which it is due, and whether it is open, 0 or 1. */
typedef struct {
  int64_t moment;
  uint32_t is_open;
} ada_due;

/* The number that no task has. */
#define ADA_NOBODY UINT64_MAX

/* What became of a task. What its kind has no use for is 0. */
typedef struct {
  uint32_t kind;   /* ADA_DID_NOTHING .. ADA_GOT_EXCEPTION */
  uint32_t number; /* of the alternative that was taken, from 0 */
  uint64_t call;   /* the position of the call that was accepted */
  uint64_t caller; /* who made it, while suspended in the rendezvous (9.5); else ADA_NOBODY */
} ada_outcome;

/* Why a task doesn't go on: the position is that of its start, call, wait, delay or close; 0 if it isn't suspended. */
typedef struct {
  uint32_t kind; /* ADA_GOES_ON .. ADA_AWAITS_DEPENDENTS */
  uint64_t position;
} ada_reason;

/* The attributes of all tasks, by their numbers, and entries, by their slots (9.9). Unused places are 0. */
typedef struct {
  uint64_t events;         /* how many events there are */
  uint32_t tasks;          /* how many tasks there are, the main program counted */
  uint32_t slots;          /* how many entries there are */
  uint8_t callable[256];   /* CALLABLE of each task, 0 or 1 */
  uint8_t terminated[256]; /* TERMINATED of each task, 0 or 1 */
  uint16_t counts[1024];   /* COUNT of each entry */
} ada_board;

/*
 * ---- What the library exports ----
 *
 * A kernel, what is written to, and lists that have items have to be there; the functions of the next part answer
 * ADA_NULL if they aren't.
 */

int32_t adatask_kernel_new(void **out);
int32_t adatask_kernel_new_lasting(uint32_t threshold, void **out);
void adatask_kernel_drop(ada_handle h);
int32_t adatask_release(ada_handle *h, uint64_t task);
int32_t adatask_compact(ada_handle *h);
int32_t adatask_open(ada_handle *h, int64_t now, uint64_t by, uint64_t *at, uint32_t *goes_on);
int32_t adatask_create(ada_handle *h, int64_t now, uint64_t by, uint32_t master_kind, uint64_t master,
                       const ada_family *families, size_t count, uint64_t *at, uint32_t *goes_on);
int32_t adatask_activate(ada_handle *h, int64_t now, uint64_t by, const uint64_t *tasks, size_t count, uint64_t *at,
                         uint32_t *goes_on);
int32_t adatask_elaborated(ada_handle *h, int64_t now, uint64_t by, uint32_t ok, uint64_t *at, uint32_t *goes_on);
int32_t adatask_call(ada_handle *h, int64_t now, uint64_t by, uint64_t callee, uint32_t family, int32_t index,
                     uint32_t patience, int64_t duration, uint64_t *at, uint32_t *goes_on);
int32_t adatask_wait(ada_handle *h, int64_t now, uint64_t by, const ada_choice *choices, size_t count, uint32_t tail,
                     const ada_pause *delays, size_t delay_count, uint32_t pick, uint64_t *at, uint32_t *goes_on);
int32_t adatask_delay(ada_handle *h, int64_t now, uint64_t by, int64_t duration, uint64_t *at, uint32_t *goes_on);
int32_t adatask_end(ada_handle *h, int64_t now, uint64_t by, uint32_t raised, uint64_t *at, uint32_t *goes_on);
int32_t adatask_close(ada_handle *h, int64_t now, uint64_t by, uint64_t *at, uint32_t *goes_on);
int32_t adatask_complete(ada_handle *h, int64_t now, uint64_t by, uint64_t *at, uint32_t *goes_on);
int32_t adatask_abort(ada_handle *h, int64_t now, uint64_t by, const uint64_t *tasks, size_t count, uint64_t *at,
                      uint32_t *goes_on);
int32_t adatask_tick(ada_handle *h, int64_t now, int64_t moment, uint64_t *at);
uint64_t adatask_tasks(ada_handle *h);
uint64_t adatask_events(ada_handle *h);
uint32_t adatask_finished(ada_handle *h);
int32_t adatask_running(ada_handle *h, uint64_t task, uint32_t *out);
int32_t adatask_callable(ada_handle *h, uint64_t task, uint32_t *out);
int32_t adatask_terminated(ada_handle *h, uint64_t task, uint32_t *out);
int32_t adatask_outcome(ada_handle *h, uint64_t task, ada_outcome *out);
int32_t adatask_reason(ada_handle *h, uint64_t task, ada_reason *out);
int32_t adatask_awaited(ada_handle *h, uint64_t task, uint64_t from, uint64_t *out);
int32_t adatask_runnable(ada_handle *h, uint64_t from, uint64_t *out);
int32_t adatask_ended(ada_handle *h, uint64_t from, uint64_t *out);
int32_t adatask_next_due(ada_handle *h, int64_t *out);
int32_t adatask_board(ada_handle *h, ada_board *out);
int32_t adatask_slot(ada_handle *h, uint64_t task, uint32_t family, int32_t index, uint32_t *out);
int32_t adatask_event(ada_handle *h, uint64_t position, ada_event *out);
uint64_t adatask_events_from(ada_handle *h, uint64_t from, ada_event *out, size_t room);
int32_t adatask_count(ada_handle *h, uint64_t by, uint32_t family, int32_t index, uint32_t *out);
int32_t adatask_queued(ada_handle *h, uint64_t task, uint32_t family, int32_t index, uint32_t *out);
int32_t adatask_lengths(ada_handle *h, uint64_t position, ada_lengths *out);
int32_t adatask_event_task(ada_handle *h, uint64_t position, uint64_t place, uint64_t *out);
int32_t adatask_event_family(ada_handle *h, uint64_t position, uint64_t place, ada_family *out);
int32_t adatask_event_choice(ada_handle *h, uint64_t position, uint64_t place, ada_choice *out);
int32_t adatask_event_delay(ada_handle *h, uint64_t position, uint64_t place, ada_due *out);

/*
 * ---- What the library asks for ----
 *
 * Memory, by three functions. The archive libadatask_memory.a has them over malloc, realloc and free; a program that
 * links the other archive alone defines them itself. A kernel asks for memory as it grows, where a request may be
 * answered ADA_OUT_OF_MEMORY and in no question, and gives all of it back when it is dropped. Functions that threads call
 * at once have to allow that, if several kernels are used at once.
 */

#ifdef __cplusplus
typedef bool ada_given;
#else
typedef _Bool ada_given;
#endif

/* Whether there is memory, and where; `where` isn't read if there is none. */
typedef struct {
  ada_given is_there;
  void *where;
} ada_memory;

/* Memory of a size that may be 0, for what is aligned by `align`, 16 at most. */
ada_memory rattle_alloc(size_t size, size_t align);

/*
 * Makes memory that was given larger or smaller, perhaps elsewhere; its first `kept` bytes stay as they are. If that
 * can't be done, the memory stays as it is.
 */
ada_memory rattle_realloc(void *where, size_t kept, size_t size, size_t align);

/* Takes back memory that was given. */
void rattle_dealloc(void *where);

/* ---- A kernel ---- */

/*
 * Makes a kernel that keeps everything: its journal is empty, and the main program, task 0, runs in it. Each event and
 * each task stays, those that are gone too: it ends after 65,536 events, 256 tasks and 1,024 entries.
 */
static inline int32_t ada_kernel_new(ada_kernel *k) {
  if (!k) return ADA_NULL;
  k->now = ADA_NO_CLOCK;
  k->goes_on = 0;
  return adatask_kernel_new(&k->handle.kernel);
}

/*
 * Makes a kernel that lives on: at most 256 tasks and 1,024 entries at a time, and no end of events. Tasks are named by
 * the number of their creation and positions are counted from the beginning, in 64 bits; no number is used twice. The
 * events that still matter lie in a journal that is made shorter when it has `threshold` of them, 4,096 say; that takes
 * a moment longer than another request. Terminated tasks whose masters are gone are given up then: what names such a
 * task is answered ADA_GIVEN_UP. The events of the last request can be asked for, and no others. ADA_TOO_MANY_TASKS and
 * ADA_TOO_MANY_SLOTS count what lives here, what isn't given up, and what helps to keep it in a shorter journal.
 */
static inline int32_t ada_kernel_new_lasting(ada_kernel *k, uint32_t threshold) {
  if (!k) return ADA_NULL;
  k->now = ADA_NO_CLOCK;
  k->goes_on = 0;
  return adatask_kernel_new_lasting(threshold, &k->handle.kernel);
}

/* Gives up a kernel, if there is one. */
static inline void ada_kernel_drop(ada_kernel *k) {
  if (k && k->handle.kernel) {
    adatask_kernel_drop(k->handle);
    k->handle.kernel = NULL;
  }
}

/*
 * The moment of the host's clock, in milliseconds from the beginning, for each request from now on, or ADA_NO_CLOCK. At
 * a moment a request's durations count from it, and there is no tick: a clock costs no event. But if a task waits for
 * that moment or for an earlier one, or a duration of the request is over at once, a tick to it comes first, and stays
 * if the request is refused. That tick isn't shown as part of the request: a host that wakes tasks asks for it itself,
 * once ada_next_due is at or before its moment. A moment before the kernel's is answered ADA_MOMENT_BACK. Only a kernel
 * that lives on has a clock: the other answers each request ADA_KEEPS_ALL then.
 */
static inline void ada_set_clock(ada_kernel *k, int64_t now) {
  if (k) k->now = now;
}

/*
 * Gives a terminated task of a kernel that lives on up, so that it takes no room: it may not be named any more. The
 * main program is answered ADA_MAIN_TASK. No event is shown until the next request.
 */
static inline int32_t ada_release(ada_kernel *k, uint64_t task) {
  return k && k->handle.kernel ? adatask_release(&k->handle, task) : ADA_NULL;
}

/*
 * Makes the journal of a kernel that lives on shorter now, at a moment of the host's choice; or longer, if little of it
 * is over. No event is shown until the next request.
 */
static inline int32_t ada_compact(ada_kernel *k) {
  return k && k->handle.kernel ? adatask_compact(&k->handle) : ADA_NULL;
}

/* Whether there is a kernel, and something to write to. */
static inline int ada_has(const ada_kernel *k, const void *out) { return k && k->handle.kernel && out; }

/*
 * ---- Requests: `by` is the task that asks, and `at` is written the position of its event ----
 *
 * What is wrong with the numbers is answered before any cause, for the first number from the left that is. A duration
 * counts from the moment of the host's clock, or without one from the kernel's moment, that of the last tick; a
 * negative one counts as 0. Accepted, `goes_on` of the kernel is written whether the task runs then.
 */

/* Opens a block within what the task is in (5.6, 9.4). */
static inline int32_t ada_open(ada_kernel *k, uint64_t by, uint64_t *at) {
  return ada_has(k, at) ? adatask_open(&k->handle, k->now, by, at, &k->goes_on) : ADA_NULL;
}

/* Makes a task that depends on a master (9.1, 9.4), with at most 16 families. Its number is ada_tasks() - 1 then. */
static inline int32_t ada_create(ada_kernel *k, uint64_t by, uint32_t master_kind, uint64_t master,
                                 const ada_family *families, size_t count, uint64_t *at) {
  ada_family none = {0, 0};
  if (!ada_has(k, at) || (count && !families)) return ADA_NULL;
  return adatask_create(&k->handle, k->now, by, master_kind, master, count ? families : &none, count, at, &k->goes_on);
}

/* Starts the activation of tasks, and waits for its end (9.3). */
static inline int32_t ada_activate(ada_kernel *k, uint64_t by, const uint64_t *tasks, size_t count, uint64_t *at) {
  uint64_t none = 0;
  if (!ada_has(k, at) || (count && !tasks)) return ADA_NULL;
  return adatask_activate(&k->handle, k->now, by, count ? tasks : &none, count, at, &k->goes_on);
}

/* Ends the task's own activation, by an exception if `ok` is 0 (9.3). */
static inline int32_t ada_elaborated(ada_kernel *k, uint64_t by, uint32_t ok, uint64_t *at) {
  return ada_has(k, at) ? adatask_elaborated(&k->handle, k->now, by, ok, at, &k->goes_on) : ADA_NULL;
}

/* Calls an entry (9.5, 9.7.2, 9.7.3). The duration, in milliseconds, is that of a timed call; others have none. */
static inline int32_t ada_call(ada_kernel *k, uint64_t by, uint64_t callee, uint32_t family, int32_t index,
                               uint32_t patience, int64_t duration, uint64_t *at) {
  if (!ada_has(k, at)) return ADA_NULL;
  return adatask_call(&k->handle, k->now, by, callee, family, index, patience, duration, at, &k->goes_on);
}

/*
 * Waits selectively (9.7.1), with at most 16 accept and 8 delay alternatives; there are delays with ADA_DELAYS alone. Of
 * k alternatives that may be taken number `pick` modulo k is.
 */
static inline int32_t ada_wait(ada_kernel *k, uint64_t by, const ada_choice *choices, size_t count, uint32_t tail,
                               const ada_pause *delays, size_t delay_count, uint32_t pick, uint64_t *at) {
  ada_choice no_choice = {0, 0, 0};
  ada_pause no_delay = {0, 0};
  if (!ada_has(k, at) || (count && !choices) || (delay_count && !delays)) return ADA_NULL;
  return adatask_wait(&k->handle, k->now, by, count ? choices : &no_choice, count, tail,
                      delay_count ? delays : &no_delay, delay_count, pick, at, &k->goes_on);
}

/* Accepts a call of one entry: a wait with one open alternative (9.5). */
static inline int32_t ada_accept(ada_kernel *k, uint64_t by, uint32_t family, int32_t index, uint64_t *at) {
  ada_choice choice;
  choice.family = family;
  choice.index = index;
  choice.is_open = 1;
  return ada_wait(k, by, &choice, 1, ADA_NOTHING, NULL, 0, 0, at);
}

/* Delays the task by a duration in milliseconds (9.6). */
static inline int32_t ada_delay(ada_kernel *k, uint64_t by, int64_t duration, uint64_t *at) {
  return ada_has(k, at) ? adatask_delay(&k->handle, k->now, by, duration, at, &k->goes_on) : ADA_NULL;
}

/* Ends the innermost accept statement, by an exception if `raised` is 1 (9.5, 11.5). */
static inline int32_t ada_end(ada_kernel *k, uint64_t by, uint32_t raised, uint64_t *at) {
  return ada_has(k, at) ? adatask_end(&k->handle, k->now, by, raised, at, &k->goes_on) : ADA_NULL;
}

/* Leaves the innermost block, once its dependents are terminated (9.4). */
static inline int32_t ada_close(ada_kernel *k, uint64_t by, uint64_t *at) {
  return ada_has(k, at) ? adatask_close(&k->handle, k->now, by, at, &k->goes_on) : ADA_NULL;
}

/* Completes the task's body (9.4). */
static inline int32_t ada_complete(ada_kernel *k, uint64_t by, uint64_t *at) {
  return ada_has(k, at) ? adatask_complete(&k->handle, k->now, by, at, &k->goes_on) : ADA_NULL;
}

/* Aborts tasks and their dependents (9.10). */
static inline int32_t ada_abort(ada_kernel *k, uint64_t by, const uint64_t *tasks, size_t count, uint64_t *at) {
  uint64_t none = 0;
  if (!ada_has(k, at) || (count && !tasks)) return ADA_NULL;
  return adatask_abort(&k->handle, k->now, by, count ? tasks : &none, count, at, &k->goes_on);
}

/* Moves the moment, in milliseconds from the beginning. */
static inline int32_t ada_tick(ada_kernel *k, int64_t now, uint64_t *at) {
  return ada_has(k, at) ? adatask_tick(&k->handle, ADA_NO_CLOCK, now, at) : ADA_NULL;
}

/* ---- Questions, which change nothing ---- */

/* How many tasks there are or ever were, the main program counted; 0 without a kernel. */
static inline uint64_t ada_tasks(ada_kernel *k) { return k && k->handle.kernel ? adatask_tasks(&k->handle) : 0; }

/* How many events there are or ever were; 0 without a kernel. */
static inline uint64_t ada_events(ada_kernel *k) { return k && k->handle.kernel ? adatask_events(&k->handle) : 0; }

/* Whether the main program is terminated, 0 or 1; 0 without a kernel. */
static inline uint32_t ada_finished(ada_kernel *k) { return k && k->handle.kernel ? adatask_finished(&k->handle) : 0; }

/* Whether a task is running, 0 or 1: it is activated or being so, hasn't ended, and isn't held up. */
static inline int32_t ada_running(ada_kernel *k, uint64_t task, uint32_t *out) {
  return ada_has(k, out) ? adatask_running(&k->handle, task, out) : ADA_NULL;
}

/* The attribute CALLABLE of a task, 0 or 1 (9.9). */
static inline int32_t ada_callable(ada_kernel *k, uint64_t task, uint32_t *out) {
  return ada_has(k, out) ? adatask_callable(&k->handle, task, out) : ADA_NULL;
}

/* The attribute TERMINATED of a task, 0 or 1 (9.9). */
static inline int32_t ada_terminated(ada_kernel *k, uint64_t task, uint32_t *out) {
  return ada_has(k, out) ? adatask_terminated(&k->handle, task, out) : ADA_NULL;
}

/* What became of a task's latest call, wait, delay, activation or close. */
static inline int32_t ada_outcome_of(ada_kernel *k, uint64_t task, ada_outcome *out) {
  return ada_has(k, out) ? adatask_outcome(&k->handle, task, out) : ADA_NULL;
}

/* Why a task doesn't go on by itself. */
static inline int32_t ada_reason_of(ada_kernel *k, uint64_t task, ada_reason *out) {
  return ada_has(k, out) ? adatask_reason(&k->handle, task, out) : ADA_NULL;
}

/*
 * The first task numbered `from` or more for which a task waits, or ADA_NO_SUCH_ITEM: its maker, if it isn't started;
 * those that it activates; the task that it called; the dependents of the block that it leaves, or of its own body. It
 * looks at all tasks, and is for diagnosis.
 */
static inline int32_t ada_awaited(ada_kernel *k, uint64_t task, uint64_t from, uint64_t *out) {
  return ada_has(k, out) ? adatask_awaited(&k->handle, task, from, out) : ADA_NULL;
}

/*
 * The first task numbered `from` or more that runs and didn't before the last request that was accepted, or
 * ADA_NO_SUCH_ITEM. All of them: for (t = 0; ada_runnable(&k, t, &t) == 0; t++) ... A kernel that lives on tells it
 * until a task is released or the journal is made shorter.
 */
static inline int32_t ada_runnable(ada_kernel *k, uint64_t from, uint64_t *out) {
  return ada_has(k, out) ? adatask_runnable(&k->handle, from, out) : ADA_NULL;
}

/*
 * The first task numbered `from` or more that is terminated and wasn't before the last request that was accepted, or
 * ADA_NO_SUCH_ITEM. Only a kernel that lives on tells it, until a task is released or the journal is made shorter.
 */
static inline int32_t ada_ended(ada_kernel *k, uint64_t from, uint64_t *out) {
  return ada_has(k, out) ? adatask_ended(&k->handle, from, out) : ADA_NULL;
}

/*
 * The first moment for which any task waits, or ADA_NO_SUCH_ITEM: of a delay, a timed call that isn't served yet, or an
 * open delay alternative. A tick to an earlier moment forces nothing.
 */
static inline int32_t ada_next_due(ada_kernel *k, int64_t *out) {
  return ada_has(k, out) ? adatask_next_due(&k->handle, out) : ADA_NULL;
}

/* The attributes of all tasks and entries, of a kernel that keeps everything. */
static inline int32_t ada_board_of(ada_kernel *k, ada_board *out) {
  return ada_has(k, out) ? adatask_board(&k->handle, out) : ADA_NULL;
}

/*
 * The slot of an entry, below 1,024, of a kernel that keeps everything: all entries are numbered in order of task,
 * family and index.
 */
static inline int32_t ada_slot(ada_kernel *k, uint64_t task, uint32_t family, int32_t index, uint32_t *out) {
  return ada_has(k, out) ? adatask_slot(&k->handle, task, family, index, out) : ADA_NULL;
}

/* The event at a position, from 1. A kernel that lives on has those that the last request appended. */
static inline int32_t ada_event_at(ada_kernel *k, uint64_t position, ada_event *out) {
  return ada_has(k, out) ? adatask_event(&k->handle, position, out) : ADA_NULL;
}

/*
 * The events from a position on, as many as there are and as there is room for, and how many these are: from the
 * position that a request was answered, all that it appended. A kernel that lives on has those of the last request, and
 * none from an earlier position.
 */
static inline int32_t ada_events_from(ada_kernel *k, uint64_t from, ada_event *out, size_t room, uint64_t *count) {
  if (!ada_has(k, out) || !count) return ADA_NULL;
  *count = adatask_events_from(&k->handle, from, out, room);
  return ADA_ACCEPTED;
}

/*
 * The number of the task that the event at a position made, or ADA_NO_SUCH_ITEM if that made none. It looks at all later
 * events; that of the last request to be accepted is ada_tasks() - 1.
 */
static inline int32_t ada_created_task(ada_kernel *k, uint64_t position, uint64_t *out) {
  uint64_t later = 0;
  ada_event e;
  int32_t code = ada_has(k, out) ? ada_event_at(k, position, &e) : ADA_NULL;
  if (code != ADA_ACCEPTED) return code;
  if (e.kind != ADA_CREATED) return ADA_NO_SUCH_ITEM;
  while (ada_event_at(k, ++position, &e) == ADA_ACCEPTED) later += e.kind == ADA_CREATED;
  *out = ada_tasks(k) - 1 - later;
  return ADA_ACCEPTED;
}

/* COUNT of an entry of the asking task's own (9.9). A refusal has the code of its cause. */
static inline int32_t ada_count(ada_kernel *k, uint64_t by, uint32_t family, int32_t index, uint32_t *out) {
  return ada_has(k, out) ? adatask_count(&k->handle, by, family, index, out) : ADA_NULL;
}

/* How many calls are queued at an entry of a task (9.5): its COUNT, which anybody may ask here. */
static inline int32_t ada_queued(ada_kernel *k, uint64_t task, uint32_t family, int32_t index, uint32_t *out) {
  return ada_has(k, out) ? adatask_queued(&k->handle, task, family, index, out) : ADA_NULL;
}

/* How many items the lists of the event at a position have. */
static inline int32_t ada_lengths_of(ada_kernel *k, uint64_t position, ada_lengths *out) {
  return ada_has(k, out) ? adatask_lengths(&k->handle, position, out) : ADA_NULL;
}

/* A task that an activation or an abort named, by its place from 0. */
static inline int32_t ada_event_task(ada_kernel *k, uint64_t position, uint64_t place, uint64_t *out) {
  return ada_has(k, out) ? adatask_event_task(&k->handle, position, place, out) : ADA_NULL;
}

/* A family that a task declared, by its place from 0. */
static inline int32_t ada_event_family(ada_kernel *k, uint64_t position, uint64_t place, ada_family *out) {
  return ada_has(k, out) ? adatask_event_family(&k->handle, position, place, out) : ADA_NULL;
}

/* An accept alternative of a wait, by its place from 0. */
static inline int32_t ada_event_choice(ada_kernel *k, uint64_t position, uint64_t place, ada_choice *out) {
  return ada_has(k, out) ? adatask_event_choice(&k->handle, position, place, out) : ADA_NULL;
}

/* A delay alternative of a wait, by its place from 0. */
static inline int32_t ada_event_delay(ada_kernel *k, uint64_t position, uint64_t place, ada_due *out) {
  return ada_has(k, out) ? adatask_event_delay(&k->handle, position, place, out) : ADA_NULL;
}

#ifdef __cplusplus
}
#endif

#endif
