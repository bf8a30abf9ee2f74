/* SPDX-License-Identifier: MIT */
/* Puts together what the shards of a search have found, as `adatask-gnat explore --merge` asks for it. Refuses files
   that don't belong to each other, or aren't all, and names the first one. */

#define _POSIX_C_SOURCE 200809L
#include "search.h"
#include <inttypes.h>
#include <stdarg.h>
#include <stdlib.h>
#include <string.h>
#include <unistd.h>

/* A file that is read: the line that is looked at, and what it has said so far. */
typedef struct {
  char *name;
  FILE *file;
  char *line;
  size_t room;
  unsigned long number;
  bool is_first;
  unsigned alike; /* how many lines it has in common with the first file */
  long shard;
  unsigned long tried; /* of all its beginnings */
  bool is_left, is_whole;
  finding one;
  finding *kind; /* of which the next choices are */
  char exception[EXCEPTION_SIZE], who_raised[NAME_SIZE];
} reader;

/* The lines that all files have in common, of which the first is the head. */
static char **common;
static unsigned common_count;

/* The name of each shard's file, and whether the shard has schedules left. */
static struct {
  char *name;
  bool is_left;
} *parts;

/* ---- Refusals ---- */

static void refuse_merge(const char *format, ...) {
  va_list words;
  fputs("adatask-gnat explore: ", stderr);
  va_start(words, format);
  vfprintf(stderr, format, words);
  va_end(words);
  putc('\n', stderr);
  _exit(FILE_STATUS);
}

static void *get(void *old, size_t size) {
  void *memory = realloc(old, size);
  if (!memory) refuse_merge("there is no memory for the merge");
  return memory;
}

static char *copy_of(const char *text) { return strcpy(get(NULL, strlen(text) + 1), text); }

static void refuse_line(const reader *r) { refuse_merge("%s:%lu: this is no line of findings", r->name, r->number); }

/* ---- What files have in common ---- */

/* What a file has otherwise that has this line where the first file has another one. */
static const char *matter_of(const char *line) {
  static const char *const all[][2] = {{"about program", "is of another program than"},
                                       {"about input", "has another input than"},
                                       {"about argument", "has other arguments than"},
                                       {"about options", "has other options than"},
                                       {"about shards", "is of another number of shards than"}};
  size_t i;
  for (i = 0; i < sizeof all / sizeof *all; i++) {
    if (!strncmp(line, all[i][0], strlen(all[i][0]))) return all[i][1];
  }
  return "has other beginnings than";
}

static void add_common(const char *line) {
  common = get(common, (common_count + 1) * sizeof *common);
  common[common_count++] = copy_of(line);
}

static void take_common(reader *r) {
  if (r->is_first) add_common(r->line);
  if (r->alike == common_count || strcmp(common[r->alike], r->line)) {
    refuse_merge("%s %s %s", r->name, matter_of(r->line), parts[0].name);
  }
  r->alike++;
}

/* ---- Lines ---- */

static void take_division(reader *r) {
  unsigned beginnings;
  unsigned long runs;
  take_common(r);
  if (sscanf(r->line, "divided %u %lu", &beginnings, &runs) != 2 || !beginnings) refuse_line(r);
  if (!found.divided.beginnings) begin_tallies(beginnings);
  found.divided.runs = runs;
}

static void take_shard(reader *r) {
  if (sscanf(r->line, "shard %ld", &r->shard) != 1 || r->shard < 1 || r->shard > wished.shards) refuse_line(r);
  if (parts[r->shard].name) {
    refuse_merge("%s is of shard %ld, as %s is", r->name, r->shard, parts[r->shard].name);
  }
  parts[r->shard].name = r->name;
}

static void take_tally(reader *r) {
  division own = {(unsigned)r->shard, (unsigned)wished.shards};
  unsigned number;
  tally t, *to;
  if (sscanf(r->line, "searched %u %lu %lu", &number, &t.whole, &t.asleep) != 3 || !number ||
      number > found.divided.beginnings) {
    refuse_line(r);
  }
  to = &found.divided.tally[number];
  if (!is_of_shard(number, &own)) refuse_merge("%s: beginning %u isn't of shard %ld", r->name, number, r->shard);
  if (to->whole || to->asleep) refuse_merge("%s: beginning %u is searched twice", r->name, number);
  *to = t;
  r->tried += t.whole + t.asleep;
}

static void take_counts(reader *r) {
  findings f;
  int is_left;
  if (sscanf(r->line, "counted %lu %lu %lu %lu %lu %lu %d", &f.whole, &f.asleep, &f.too_long, &f.outside, &f.strayed,
             &f.beyond, &is_left) != 7) {
    refuse_line(r);
  }
  if (r->tried != f.whole + f.asleep + f.too_long + f.outside) {
    refuse_merge("%s: the schedules of its beginnings aren't those that it counts", r->name);
  }
  r->is_left = is_left || f.beyond || f.strayed;
  found.whole += f.whole;
  found.asleep += f.asleep;
  found.too_long += f.too_long;
  found.outside += f.outside;
  found.strayed += f.strayed;
  found.beyond += f.beyond;
}

static void begin_finding(reader *r) {
  unsigned long steps;
  if (sscanf(r->line, "%*s %lu %lu", &r->one.count, &steps) != 2 || steps > MOST_STEPS) refuse_line(r);
  r->one.steps = (uint32_t)steps;
  r->kind = *r->line == 's' ? &found.stuck : &found.unhandled;
}

/* A list of choices, each with its pick if that isn't 0. */
static void read_list(const reader *r, const char *text, choice *to) {
  unsigned who, pick;
  uint32_t i;
  int length;
  for (i = 0; i < r->one.steps; i++, text += length) {
    if (sscanf(text, " %u%n", &who, &length) != 1) refuse_line(r);
    pick = 0;
    if (text[length] == '/') {
      text += length;
      if (sscanf(text, "/%u%n", &pick, &length) != 1) refuse_line(r);
    }
    to[i].who = (uint16_t)who;
    to[i].pick = (uint16_t)pick;
  }
  if (*text) refuse_line(r);
}

static void take_choices(reader *r) { read_list(r, r->line + strlen("choices"), r->one.choice); }

static void take_least(reader *r) {
  if (!r->kind) refuse_line(r);
  read_list(r, r->line + strlen("least"), r->one.least);
  if (r->kind == &found.stuck) {
    add_finding(&found.stuck, &r->one);
  } else {
    add_unhandled(&r->one, r->exception, r->who_raised);
  }
  r->kind = NULL;
}

static void take_end(reader *r) {
  char output[OUTPUT_SIZE];
  end_of_runs end = {0, 0, output, 0};
  const char *text;
  unsigned byte;
  int length;
  if (sscanf(r->line, "end %d %lu %n", &end.status, &end.count, &length) != 2) refuse_line(r);
  for (text = r->line + length; *text && end.length < sizeof output; text += 2) {
    if (!text[1] || sscanf(text, "%2x", &byte) != 1) refuse_line(r);
    output[end.length++] = (char)byte;
  }
  if (*text) refuse_line(r);
  add_end(&end);
}

static void take_others(reader *r) {
  unsigned long count;
  if (sscanf(r->line, "others %lu", &count) != 1) refuse_line(r);
  add_other_ends(count);
}

static void take_class(reader *r) {
  uint64_t number;
  if (sscanf(r->line, "class %" SCNx64, &number) != 1) refuse_line(r);
  count_class(number);
}

static void take_beyond(reader *r) {
  if (sscanf(r->line, "beyond %16s", found.who_is_beyond) != 1) refuse_line(r);
}

static void take_raised(reader *r) {
  if (sscanf(r->line, "raised %16s %127[^\n]", r->who_raised, r->exception) != 2) refuse_line(r);
}

static void take_last(reader *r) { r->is_whole = true; }

static void take_nothing(reader *r) { (void)r; }

static void take_line(reader *r) {
  static const struct {
    const char *word;
    void (*take)(reader *r);
  } all[] = {{"about", take_common},        {"called", take_nothing},    {"shard", take_shard},
             {"divided", take_division},    {"beginning", take_common},  {"searched", take_tally},
             {"counted", take_counts},      {"beyond", take_beyond},     {"stuck", begin_finding},
             {"raised", take_raised},       {"unhandled", begin_finding}, {"choices", take_choices},
             {"least", take_least},         {"end", take_end},           {"others", take_others},
             {"class", take_class},         {"that", take_last}};
  size_t i = 0, length = strcspn(r->line, " ");
  while (i < sizeof all / sizeof *all && (strncmp(all[i].word, r->line, length) || all[i].word[length])) i++;
  if (i == sizeof all / sizeof *all || r->is_whole) refuse_line(r);
  all[i].take(r);
}

/* ---- Files ---- */

static bool read_line(reader *r) {
  ssize_t length = getline(&r->line, &r->room, r->file);
  if (length < 1) return false;
  if (r->line[length - 1] != '\n') refuse_merge("%s isn't whole: its last line has no end", r->name);
  r->line[length - 1] = 0;
  r->number++;
  return true;
}

static void read_findings(char *name, bool is_first) {
  static reader r;
  memset(&r, 0, sizeof r);
  r.name = name;
  r.is_first = is_first;
  r.file = fopen(name, "r");
  if (!r.file) refuse_merge("%s can't be read", name);
  if (!read_line(&r) || strcmp(r.line, "findings of a shard, form 1")) {
    refuse_merge("%s holds no findings of a shard", name);
  }
  while (read_line(&r)) take_line(&r);
  if (!r.is_whole) refuse_merge("%s isn't whole: its end is missing", name);
  if (r.alike != common_count) refuse_merge("%s has other beginnings than %s", name, parts[0].name);
  if (!r.shard) refuse_merge("%s doesn't say of which shard it is", name);
  parts[r.shard].is_left = r.is_left;
  free(r.line);
  fclose(r.file);
}

/* Each shard is there. Whether any of them has schedules left. */
static bool is_any_left(void) {
  bool is_left = false;
  long shard;
  for (shard = 1; shard <= wished.shards; shard++) {
    if (!parts[shard].name) refuse_merge("shard %ld of %ld is missing", shard, wished.shards);
    is_left = is_left || parts[shard].is_left;
  }
  return is_left;
}

/* Each beginning was searched, if its shard has come to its end. */
static void check_beginnings(void) {
  unsigned i;
  for (i = 1; i <= found.divided.beginnings; i++) {
    const tally *t = &found.divided.tally[i];
    unsigned shard = shard_of(i, (unsigned)wished.shards);
    if (t->whole || t->asleep || parts[shard].is_left) continue;
    refuse_merge("%s: beginning %u isn't searched", parts[shard].name, i);
  }
}

/* The files that the folder names are read in their order. Whether schedules are left. */
bool merge_findings(const char *folder) {
  reader names = {.number = 0};
  bool is_left;
  char path[PATH_SIZE];
  snprintf(path, sizeof path, "%s/files", folder);
  names.name = path;
  names.file = fopen(path, "r");
  parts = calloc((size_t)wished.shards + 1, sizeof *parts);
  if (!names.file || !parts) refuse_merge("%s can't be read", path);
  while (read_line(&names)) {
    char *name = copy_of(names.line);
    if (!parts[0].name) parts[0].name = name;
    read_findings(name, name == parts[0].name);
  }
  fclose(names.file);
  is_left = is_any_left();
  check_beginnings();
  return is_left;
}
