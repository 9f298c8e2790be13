/* What tests in C and in C++ look at, and the settings that their runs begin with. */
#ifndef DETIO_CHECKS_H
#define DETIO_CHECKS_H

#include <stdio.h>
#include <stdlib.h>

#define CHECK(what) \
  do { \
    if (!(what)) { \
      fprintf(stderr, "%s:%d: not so: %s\n", __FILE__, __LINE__, #what); \
      exit(1); \
    } \
  } while (0)

/* The settings of a run: how many threads, their patience, the version of the log and its room. */
#define SETTINGS(threads_, patience_, version_, room_) \
  {.size = sizeof(detio_settings), .threads = threads_, .patience = patience_, .door_cost = 100, .version = version_, \
   .room = room_}

#endif
