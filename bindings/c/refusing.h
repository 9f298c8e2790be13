/* Tests in which one allocation after another is refused: the compiler is given -Wl,--wrap=malloc and
 * -Wl,--wrap=realloc, and the library as an archive. */
#ifndef DETIO_REFUSING_H
#define DETIO_REFUSING_H

#include "checks.h"

#include <stdbool.h>

#undef CHECK
#define CHECK(what) \
  do { \
    if (!(what)) { \
      fprintf(stderr, "%s:%d: not so where allocation %ld is refused: %s\n", __FILE__, __LINE__, place, #what); \
      exit(1); \
    } \
  } while (0)

/* How many allocations there were while `counting`, and which is refused. */
static long count, place;
static bool counting;

void *__real_malloc(size_t size);
void *__real_realloc(void *old, size_t size);
void *__wrap_malloc(size_t size);
void *__wrap_realloc(void *old, size_t size);

static bool refused(void) { return counting && ++count == place; }
void *__wrap_malloc(size_t size) { return refused() ? NULL : __real_malloc(size); }
void *__wrap_realloc(void *old, size_t size) { return refused() ? NULL : __real_realloc(old, size); }

#endif
