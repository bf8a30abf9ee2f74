/* SPDX-License-Identifier: MIT */
/* The tree of choices that a search goes through. A node has a branch for each candidate, and for each other pick of
   its wait. Which are tried is said by the races that are found; or all are. Where a search is divided, the first
   nodes are kept, and each of their branches is tried by one of its shards. */

#include "steps.h"
#include <stdlib.h>
#include <string.h>

typedef struct {
  choice taken;
  enum { LEFT_OUT, WANTED, TRIED } state;
  unsigned order;   /* of its task, among those that were tried */
  bool is_known;    /* whether its footprint is */
  mark *mark;
  unsigned marks;
  node *below;        /* what comes after it, as long as that is kept */
  bool is_over;       /* whether a run had no further step after it */
  unsigned beginning; /* its number among the beginnings of schedules, or 0 */
} branch;

/* A task that sleeps at a node. The marks are those of a branch above. */
typedef struct {
  uint16_t who;
  footprint print;
} dreamer;

struct node {
  node *parent;
  unsigned via, depth;
  branch *branch;
  unsigned branches, candidates, tried, wanted;
  unsigned running, unknown; /* trials that run, and those of them whose footprint isn't known */
  unsigned children, preemptions;
  bool goes_on;
  dreamer *dreamer;
  unsigned dreamers;
  node *next, *previous; /* of its depth, of those that have a branch which is wanted */
};

static bool is_plain;
static unsigned most_preemptions;
static node *heads[MOST_STEPS];
static unsigned deepest;
static uint64_t all_wanted, all_running;
/* The first node, and how many steps long the beginnings are: nodes above are kept, and tried in all their branches. */
static node *root;
static unsigned cut;

void begin_tree(bool all, unsigned most) {
  is_plain = all;
  most_preemptions = most;
}

static void *get(void *old, size_t size) {
  void *memory = realloc(old, size ? size : 1);
  if (!memory) {
    fputs("adatask: there is no memory for the search\n", stderr);
    exit(4);
  }
  return memory;
}

/* ---- What is wanted ---- */

static void link_node(node *n) {
  node **head = &heads[n->depth];
  n->previous = NULL;
  n->next = *head;
  if (*head) (*head)->previous = n;
  *head = n;
  if (n->depth > deepest) deepest = n->depth;
}

static void unlink_node(node *n) {
  if (n->previous) {
    n->previous->next = n->next;
  } else {
    heads[n->depth] = n->next;
  }
  if (n->next) n->next->previous = n->previous;
}

static void want_branch(node *n, branch *b) {
  if (b->state != LEFT_OUT) return;
  b->state = WANTED;
  all_wanted++;
  if (!n->wanted++) link_node(n);
}

static branch *branch_of(const node *n, choice taken) {
  unsigned i = 0;
  while (i < n->branches && (n->branch[i].taken.who != taken.who || n->branch[i].taken.pick != taken.pick)) i++;
  return i < n->branches ? &n->branch[i] : NULL;
}

static branch *first_of(const node *n, uint16_t who) {
  choice taken = {who, 0};
  return branch_of(n, taken);
}

static bool dreams(const node *n, uint16_t who) {
  unsigned i = 0;
  while (i < n->dreamers && n->dreamer[i].who != who) i++;
  return i < n->dreamers;
}

bool is_candidate(const node *n, uint16_t who) { return first_of(n, who) != NULL; }

/* Whether the task is tried first here, or needn't be. */
bool is_taken_care_of(const node *n, uint16_t who) {
  const branch *b = first_of(n, who);
  return (b && b->state != LEFT_OUT) || dreams(n, who);
}

void want(node *n, uint16_t who) {
  branch *b = first_of(n, who);
  if (b && !dreams(n, who)) want_branch(n, b);
}

void want_all(node *n) {
  unsigned i;
  for (i = 0; i < n->candidates; i++) want(n, n->branch[i].taken.who);
}

/* The other picks of a wait are all tried. */
static void want_picks(node *n, const step *s) {
  choice taken = {s->taken.who, 0};
  for (taken.pick = 0; taken.pick < s->picks; taken.pick++) {
    branch *b = branch_of(n, taken);
    if (b) continue;
    n->branch = get(n->branch, (n->branches + 1) * sizeof *n->branch);
    b = &n->branch[n->branches++];
    memset(b, 0, sizeof *b);
    b->taken = taken;
    b->order = first_of(n, taken.who)->order;
    want_branch(n, b);
  }
}

/* ---- Trials ---- */

static branch *tried(trial t) { return &t.at->branch[t.branch]; }

unsigned depth_of(trial t) { return t.at->depth; }

bool is_tree_done(void) { return !all_wanted && !all_running; }

static bool find_at(node *n, trial *found) {
  unsigned i = 0;
  if (n->unknown) return false;
  while (n->branch[i].state != WANTED) i++;
  found->at = n;
  found->branch = i;
  return true;
}

/* The deepest one that is wanted, and can begin: where the footprints of all that were tried are known. */
bool find_trial(trial *found) {
  unsigned depth;
  node *n;
  while (deepest && !heads[deepest]) deepest--;
  for (depth = deepest + 1; depth--;) {
    for (n = heads[depth]; n; n = n->next) {
      if (find_at(n, found)) return true;
    }
  }
  return false;
}

static void tell_sleeper(run *r, uint16_t who, footprint print) {
  sleeper *one = &r->asleep[r->sleepers];
  uint32_t first = r->sleepers ? one[-1].first_mark + one[-1].marks : 0;
  if (r->sleepers == MOST_ASLEEP || first + print.count > MOST_MARKS) return;
  one->who = who;
  one->first_mark = first;
  one->marks = print.count;
  memcpy(r->sleeping + first, print.mark, print.count * sizeof *print.mark);
  r->sleepers++;
}

/* Who sleeps after a choice, but for those whom its step wakes: who slept before, and who was tried earlier. */
static unsigned sleepers_after(const node *n, const branch *taken, dreamer *to) {
  unsigned i, count = 0;
  for (i = 0; i < n->dreamers; i++) {
    if (n->dreamer[i].who != taken->taken.who) to[count++] = n->dreamer[i];
  }
  for (i = 0; i < n->candidates; i++) {
    const branch *b = &n->branch[i];
    if (!b->order || !b->is_known || b->order >= taken->order) continue;
    to[count].who = b->taken.who;
    to[count].print.mark = b->mark;
    to[count++].print.count = b->marks;
  }
  return count;
}

static void mark_tried(node *n, branch *b) {
  b->state = TRIED;
  if (!b->order) b->order = ++n->tried;
}

/* Says to a run by which choices it is to begin. */
void begin_trial(trial t, run *r) {
  branch *b = tried(t);
  const node *n = t.at;
  dreamer *asleep = get(NULL, (n->dreamers + n->candidates) * sizeof *asleep);
  unsigned i, count;
  choice next = b->taken;
  mark_tried(t.at, b);
  all_wanted--;
  all_running++;
  t.at->running++;
  if (!b->is_known) t.at->unknown++;
  if (!--t.at->wanted) unlink_node(t.at);
  r->prefix = n->depth + 1;
  for (; n; n = n->parent) {
    r->chosen[n->depth] = next;
    if (n->parent) next = n->parent->branch[n->via].taken;
  }
  r->sleepers = 0;
  count = is_plain ? 0 : sleepers_after(t.at, b, asleep);
  for (i = 0; i < count; i++) tell_sleeper(r, asleep[i].who, asleep[i].print);
  free(asleep);
}

/* ---- Steps that a run has told ---- */

static void know(branch *b, footprint print) {
  if (b->is_known) return;
  b->is_known = true;
  b->marks = print.count;
  b->mark = get(NULL, print.count * sizeof *b->mark);
  memcpy(b->mark, print.mark, print.count * sizeof *b->mark);
}

static void fall_asleep(node *n, node *parent, unsigned via) {
  const branch *taken = &parent->branch[via];
  footprint print = {taken->mark, taken->marks};
  unsigned i, count, kept = 0;
  dreamer *all = get(NULL, (parent->dreamers + parent->candidates) * sizeof *all);
  count = sleepers_after(parent, taken, all);
  for (i = 0; i < count; i++) {
    if (!depend(all[i].print, print)) all[kept++] = all[i];
  }
  n->dreamer = all;
  n->dreamers = kept;
}

static void want_others(node *n) {
  unsigned i;
  for (i = 0; i < n->candidates; i++) {
    unsigned preemptions = n->preemptions + (n->goes_on && i > 0);
    if (preemptions <= most_preemptions) want(n, n->branch[i].taken.who);
  }
}

/* Whether a branch has the task wait that went before, and would go on. */
static bool is_preemption(const node *n, unsigned via) {
  return n->goes_on && n->branch[via].taken.who != n->branch[0].taken.who;
}

static node *new_node(const run *r, unsigned depth, node *parent, unsigned via) {
  const step *s = &r->step[depth];
  node *n = get(NULL, sizeof *n);
  branch *b;
  unsigned i;
  memset(n, 0, sizeof *n);
  n->parent = parent;
  n->via = via;
  n->depth = depth;
  n->goes_on = s->goes_on;
  n->branches = n->candidates = s->candidates;
  n->branch = get(NULL, n->branches * sizeof *n->branch);
  memset(n->branch, 0, n->branches * sizeof *n->branch);
  for (i = 0; i < n->branches; i++) n->branch[i].taken.who = r->name[s->first_candidate + i];
  if (!parent) root = n;
  if (parent) {
    parent->children++;
    parent->branch[via].below = n;
    n->preemptions = parent->preemptions + is_preemption(parent, via);
    if (!is_plain) fall_asleep(n, parent, via);
  }
  b = first_of(n, s->taken.who);
  mark_tried(n, b);
  know(b, footprint_of(r, s));
  if (is_plain || depth < cut) want_others(n);
  want_picks(n, s);
  return n;
}

/* Whether the step begins where the run before it did. */
static bool is_alike(const run *r, const node *n) {
  const step *s = &r->step[n->depth];
  unsigned i = 0;
  if (s->candidates != n->candidates) return false;
  while (i < n->candidates && r->name[s->first_candidate + i] == n->branch[i].taken.who) i++;
  return i == n->candidates;
}

static bool find_path(const run *r, node *n, node **path) {
  bool are_alike = true;
  for (; n; n = n->parent) {
    path[n->depth] = n;
    are_alike = are_alike && is_alike(r, n);
  }
  return are_alike;
}

static unsigned place_of(const node *n, choice taken) { return (unsigned)(branch_of(n, taken) - n->branch); }

/* Puts the steps of a run into the tree, and the node of each into a path. Fails if the run didn't begin as was
   said. */
bool take_steps(const run *r, trial t, node **path) {
  unsigned depth = 0;
  if (t.at) {
    branch *b = tried(t);
    depth = t.at->depth + 1;
    if (r->steps < depth || !find_path(r, t.at, path)) return false;
    if (!b->is_known) t.at->unknown--;
    know(b, footprint_of(r, &r->step[depth - 1]));
    want_picks(t.at, &r->step[depth - 1]);
  }
  for (; depth < r->steps; depth++) {
    node *parent = depth ? path[depth - 1] : NULL;
    unsigned via = parent ? place_of(parent, r->step[depth - 1].taken) : 0;
    path[depth] = new_node(r, depth, parent, via);
  }
  return true;
}

static void drop_node(node *n) {
  unsigned i;
  for (i = 0; i < n->branches; i++) free(n->branch[i].mark);
  free(n->branch);
  free(n->dreamer);
  free(n);
}

/* Gives up what nothing is left of, from the run's last node upwards. */
void end_trial(trial t, node *last) {
  node *n = last;
  if (t.at) {
    all_running--;
    t.at->running--;
  }
  while (n && n->depth >= cut && !n->wanted && !n->running && !n->children) {
    node *parent = n->parent;
    if (parent) parent->children--;
    if (parent) parent->branch[n->via].below = NULL;
    drop_node(n);
    n = parent;
  }
}

/* ---- Beginnings of schedules, which shards have each their own of ---- */

/* Is told the last branch of a beginning. */
typedef void visit(node *n, branch *b, void *with);

/* Beginnings that have numbers stay as they are, whatever is tried after them. */
static void visit_beginnings(node *n, visit *look, void *with) {
  unsigned i;
  for (i = 0; n && i < n->branches; i++) {
    branch *b = &n->branch[i];
    if (b->below && !b->beginning) {
      visit_beginnings(b->below, look, with);
    } else if (b->order && b->state != LEFT_OUT) {
      look(n, b, with);
    }
  }
}

static void want_again(node *n, branch *b) {
  b->state = LEFT_OUT;
  want_branch(n, b);
}

static void want_longer(node *n, branch *b, void *with) {
  (void)with;
  if (!b->is_over) want_again(n, b);
}

/* From now on beginnings have so many steps, if schedules have: those that are known are wanted with one step more.
   Whether any is. */
bool lengthen_beginnings(unsigned steps) {
  cut = steps;
  visit_beginnings(root, want_longer, NULL);
  return !is_tree_done();
}

/* The run had no further step, or all that would go on slept. */
void end_beginning(const run *r, node *const *path) {
  if (r->steps) branch_of(path[r->steps - 1], r->step[r->steps - 1].taken)->is_over = true;
}

static void count_beginning(node *n, branch *b, void *with) {
  (void)n;
  *(unsigned *)with += !b->is_over;
}

/* How many can be gone on from. */
unsigned count_beginnings(void) {
  unsigned count = 0;
  visit_beginnings(root, count_beginning, &count);
  return count;
}

static void number_beginning(node *n, branch *b, void *with) {
  (void)n;
  b->beginning = ++*(unsigned *)with;
}

/* Gives the beginnings their numbers, from 1, once they aren't lengthened any more. How many there are. */
unsigned number_beginnings(void) {
  unsigned count = 0;
  visit_beginnings(root, number_beginning, &count);
  return count;
}

static void want_own(node *n, branch *b, void *with) {
  const division *by = with;
  if (is_of_shard(b->beginning, by)) want_again(n, b);
}

/* Those of a shard are wanted, to be gone on from. */
void want_beginnings(division by) { visit_beginnings(root, want_own, &by); }

/* The beginning of a trial; 0 if there is none. */
unsigned beginning_of(trial t) {
  const node *n = t.at;
  unsigned via = t.branch;
  while (n && !n->branch[via].beginning) {
    via = n->via;
    n = n->parent;
  }
  return n ? n->branch[via].beginning : 0;
}

static void write_path(FILE *to, const node *n, const branch *b) {
  if (n->parent) write_path(to, n->parent, &n->parent->branch[n->via]);
  fprintf(to, " %u", b->taken.who);
  if (b->taken.pick) fprintf(to, "/%u", b->taken.pick);
}

/* Its choices, and who sleeps after them, by the kernel's numbers. */
static void write_beginning(node *n, branch *b, void *with) {
  FILE *to = with;
  dreamer *all = get(NULL, (n->dreamers + n->candidates) * sizeof *all);
  footprint print = {b->mark, b->marks};
  unsigned i, count = is_plain ? 0 : sleepers_after(n, b, all);
  fprintf(to, "beginning %u:", b->beginning);
  write_path(to, n, b);
  fputs(" asleep", to);
  for (i = 0; i < count; i++) {
    if (!depend(all[i].print, print)) fprintf(to, " %u", all[i].who);
  }
  putc('\n', to);
  free(all);
}

void write_beginnings(FILE *to) { visit_beginnings(root, write_beginning, to); }
