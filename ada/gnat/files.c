/* SPDX-License-Identifier: MIT */
/* The files that the environment names: ADATASK_SCRIPT for a script, ADATASK_JOURNAL for a journal. */

#include "glue.h"
#include <errno.h>
#include <stdlib.h>
#include <string.h>

FILE *open_named(const char *variable) {
  const char *name = getenv(variable);
  FILE *file;
  if (!name || !*name) return NULL;
  file = fopen(name, "w");
  if (!file) fprintf(stderr, "adatask: %s names %s, which can't be written: %s\n", variable, name, strerror(errno));
  return file;
}

void flush_one(FILE *file, const char *variable) {
  if (!file || (!fflush(file) && !ferror(file))) return;
  fprintf(stderr, "adatask: what %s names can't be written whole\n", variable);
}

void flush_files(void) {
  flush_one(script, "ADATASK_SCRIPT");
  flush_one(journal, "ADATASK_JOURNAL");
}

/* The C library writes what is left when the program ends. */
void open_files(void) {
  script = open_named("ADATASK_SCRIPT");
  journal = open_named("ADATASK_JOURNAL");
}
