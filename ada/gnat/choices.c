/* SPDX-License-Identifier: MIT */
/* Lists of choices, a line for each: the name of the task that goes on, as the script has it, or `tick`; and after a
   task's name a pick, if that isn't 0, which its next wait takes. ADATASK_SCHEDULE=list:FILE names one that is
   followed, ADATASK_CHOICES one that is written. */

#define _POSIX_C_SOURCE 200809L
#include "schedule.h"
#include <errno.h>
#include <stdlib.h>
#include <string.h>

/* Longer lines are none of a list. */
enum { LINE_SIZE = 64, TEXT_SIZE = 4096 };

/* A line of the list: the name, and how many picks lie before the one that is taken. */
typedef struct {
  char name[NAME_SIZE];
  uint32_t pick;
} line;

static const char *list_name;
static line *lines;
static size_t count, room;
/* How many lines were followed, and the pick that the last of them is still to give. */
static size_t followed;
static uint32_t pending_pick;

static FILE *choices;
static char *kept;
static size_t kept_size;
static bool is_line_open;
static uint32_t open_pick;

/* ---- A list that is read ---- */

static void unfit_line(size_t number, const char *words, const char *text) {
  end_unfit("%s:%zu: %s%s", list_name, number, words, text);
}

static void add_line(const line *one) {
  if (count == room) {
    size_t more = room ? 2 * room : 256;
    line *larger = realloc(lines, more * sizeof *larger);
    if (!larger) end_unfit("there is no memory for the list %s", list_name);
    lines = larger;
    room = more;
  }
  lines[count++] = *one;
}

/* Takes a line apart: a name, and perhaps a pick. */
static void read_line(const char *text) {
  line one = {"", 0};
  char rest[LINE_SIZE] = "", more[LINE_SIZE] = "", *end;
  unsigned long pick;
  int words = sscanf(text, "%16s %63s %63s", one.name, rest, more);
  if (words < 1 || words > 2 || strcspn(text, " \t") >= NAME_SIZE) {
    unfit_line(count + 1, "a line is the name of a task, and perhaps a pick; or tick", "");
  }
  if (words == 2) {
    errno = 0;
    pick = strtoul(rest, &end, 10);
    if (*end || *rest < '0' || *rest > '9' || errno || pick >= MOST_CHOICES) {
      unfit_line(count + 1, "this is no pick: ", rest);
    }
    one.pick = (uint32_t)pick;
  }
  add_line(&one);
}

void read_choices(const char *name) {
  char text[LINE_SIZE];
  FILE *file = fopen(name, "r");
  list_name = name;
  if (!file) end_unfit("the list %s can't be read: %s", name, strerror(errno));
  while (fgets(text, sizeof text, file)) {
    size_t length = strlen(text);
    if (length && text[length - 1] == '\n') {
      text[length - 1] = 0;
    } else if (!feof(file)) {
      unfit_line(count + 1, "this line is too long", "");
    }
    read_line(text);
  }
  if (ferror(file)) end_unfit("the list %s can't be read: %s", name, strerror(errno));
  fclose(file);
}

/* ---- A list that is followed ---- */

/* The names of the candidates, as words of a sentence. */
static const char *names_of(const candidates *those, char *text) {
  size_t at = 0;
  unsigned i;
  text[0] = 0;
  for (i = 0; i < those->count; i++) {
    const char *before = !i ? "" : i + 1 < those->count ? ", " : " and ";
    const char *name = i < those->tasks ? those->task[i]->name : "tick";
    if (at + 2 * NAME_SIZE > TEXT_SIZE) break;
    at += (size_t)snprintf(text + at, TEXT_SIZE - at, "%s%s", before, name);
  }
  return text;
}

static void check_pick_taken(void) {
  if (pending_pick) unfit_line(followed, "no wait of the task has so many picks: ", lines[followed - 1].name);
}

/* The place of the candidate that the next line names. After the last line the first one goes on. */
unsigned choose_by_list(const candidates *those) {
  const line *one;
  char text[TEXT_SIZE];
  unsigned i;
  check_pick_taken();
  if (followed == count) return 0;
  one = &lines[followed++];
  pending_pick = one->pick;
  for (i = 0; i < those->tasks; i++) {
    if (!strcmp(those->task[i]->name, one->name)) return i;
  }
  if (those->count > those->tasks && !strcmp(one->name, "tick")) return those->tasks;
  end_unfit("%s:%zu: %s can't go on here; it could be %s", list_name, followed, one->name, names_of(those, text));
  return 0;
}

uint32_t pick_by_list(uint32_t picks) {
  uint32_t pick = pending_pick;
  if (pick >= picks) check_pick_taken();
  pending_pick = 0;
  return pick;
}

/* At the end of the program. */
void check_list_over(void) {
  if (!lines) return;
  check_pick_taken();
  if (followed < count) unfit_line(followed + 1, "the program has ended before this line", "");
}

/* ---- A list that is written ---- */

void open_choices(void) { choices = open_named("ADATASK_CHOICES"); }

/* A run of a search that is found writes its choices from the first one on, though it is found late: until then a
   search keeps those that came before its runs. */
void keep_choices_in_memory(void) { choices = open_memstream(&kept, &kept_size); }

/* Puts what was kept into a file, into which the rest is written too. */
void write_choices_to(FILE *file) {
  fflush(choices);
  fwrite(kept, 1, kept_size, file);
  choices = file;
}

/* A line stays open until the next one, since its pick comes later. */
static void end_line(void) {
  if (!choices || !is_line_open) return;
  if (open_pick) fprintf(choices, " %u", (unsigned)open_pick);
  putc('\n', choices);
  is_line_open = false;
}

void write_choice(const char *name) {
  if (!choices) return;
  end_line();
  fputs(name, choices);
  is_line_open = true;
  open_pick = 0;
}

void write_pick(uint32_t pick) { open_pick = pick; }

void flush_choices(void) {
  end_line();
  flush_one(choices, "ADATASK_CHOICES");
}
