/* Segments of shared memory that have no key: this process alone has them, and the children that a recording starts.
 * Their numbers are ours, the same in each run. */
#define _GNU_SOURCE
#include "preload.h"

#include <string.h>
#include <sys/mman.h>
#include <sys/shm.h>
#include <sys/syscall.h>

enum { SEGMENTS = 64, PLACES = 256 };
typedef struct { char *bytes; size_t size; unsigned long attached; bool removed; } segment;
static segment segments[SEGMENTS];
static struct { const void *at; int of; } places[PLACES]; /* where each is in the program's memory */

static int refused_memory(const char *what) {
  uncovered("shared memory", "shared memory %s is not covered: refused, in a rerun too", what);
  return errno = ENOSYS, -1;
}
/* At the turn: a segment that nobody has any more is gone. */
static void forget(segment *s) {
  if (!s->removed || s->attached) return;
  KERNEL(SYS_munmap, s->bytes, s->size);
  *s = (segment){0};
}
static int begins(size_t size) {
  int id = 0;
  while (id < SEGMENTS && segments[id].bytes) id++;
  if (id == SEGMENTS) return errno = ENOSPC, -1;
  long at = KERNEL(SYS_mmap, NULL, size, PROT_READ | PROT_WRITE, MAP_SHARED | MAP_ANONYMOUS, -1, 0);
  if (at < 0 && at > -4096) return errno = (int)-at, -1;
  segments[id] = (segment){.bytes = (char *)at, .size = size};
  return id;
}
EXPORT int shmget(key_t key, size_t size, int how) {
  NEXT(shmget);
  OFF(next(key, size, how));
  if (key != IPC_PRIVATE) return refused_memory("that other processes have by a key");
  if (how & SHM_HUGETLB) return refused_memory("in huge pages");
  if (!size || size > PTRDIFF_MAX) return errno = EINVAL, -1;
  turn();
  int id = begins(size);
  turn_end();
  return id;
}
/* At the turn: another place in memory for what a segment has, or an error below 0. */
static long attaches(int id, int how) {
  int i = 0;
  while (i < PLACES && places[i].at) i++;
  if (id < 0 || id >= SEGMENTS || !segments[id].bytes) return -EINVAL;
  if (i == PLACES) return -EMFILE;
  segment *s = &segments[id];
  long at = KERNEL(SYS_mremap, s->bytes, 0, s->size, MREMAP_MAYMOVE);
  if (at < 0 && at > -4096) return at;
  if (how & SHM_RDONLY) KERNEL(SYS_mprotect, at, s->size, PROT_READ);
  places[i].at = (void *)at;
  places[i].of = id;
  s->attached++;
  return at;
}
EXPORT void *shmat(int id, const void *at, int how) {
  NEXT(shmat);
  OFF(next(id, at, how));
  if (at) return refused_memory("at an address that the program gives"), (void *)-1;
  turn();
  long got = attaches(id, how);
  turn_end();
  return got < 0 && got > -4096 ? (errno = (int)-got, (void *)-1) : (void *)got;
}
static int leaves(const void *at) {
  for (int i = 0; at && i < PLACES; i++) {
    if (places[i].at != at) continue;
    segment *s = &segments[places[i].of];
    places[i].at = NULL;
    KERNEL(SYS_munmap, at, s->size);
    s->attached--;
    forget(s);
    return 0;
  }
  return errno = EINVAL, -1;
}
EXPORT int shmdt(const void *at) {
  NEXT(shmdt);
  OFF(next(at));
  turn();
  int r = leaves(at);
  turn_end();
  return r;
}
/* At the turn. */
static int changes(segment *s, int what, struct shmid_ds *about) {
  if (what == IPC_RMID) {
    s->removed = true;
    forget(s);
    return 0;
  }
  memset(about, 0, sizeof *about);
  about->shm_segsz = s->size;
  about->shm_nattch = s->attached;
  return 0;
}
EXPORT int shmctl(int id, int what, struct shmid_ds *about) {
  NEXT(shmctl);
  OFF(next(id, what, about));
  if (what != IPC_RMID && what != IPC_STAT) return refused_memory("that is changed or listed");
  turn();
  bool there = id >= 0 && id < SEGMENTS && segments[id].bytes && (what == IPC_STAT || !segments[id].removed);
  int r = there ? changes(&segments[id], what, about) : -1;
  turn_end();
  return there ? r : (errno = EINVAL, -1);
}
