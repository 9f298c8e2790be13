/* What wrong functions share: each notes its mistakes in the file that DETIO_WRONG names, if it is set. */
#ifndef NOTED_H
#define NOTED_H

#include <stdio.h>
#include <stdlib.h>

static void noted(const char *what) {
  const char *path = getenv("DETIO_WRONG");
  FILE *notes = path ? fopen(path, "a") : NULL;
  if (!notes) return;
  fprintf(notes, "%s\n", what);
  fclose(notes);
}

#endif
