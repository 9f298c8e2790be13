/* The library's own memory: one reserve of addresses, so that the program's own are the same in a run and a rerun. It
 * is used while the run's lock is held, or before there are other threads. */
#define _GNU_SOURCE
#include "preload.h"

#include <string.h>
#include <sys/mman.h>
#include <sys/syscall.h>

/* Where a sanitizer looks, it is told what is in use. */
#ifdef __SANITIZE_ADDRESS__
#include <sanitizer/asan_interface.h>
#else
#define ASAN_POISON_MEMORY_REGION(at, size) ((void)(at), (void)(size))
#define ASAN_UNPOISON_MEMORY_REGION(at, size) ((void)(at), (void)(size))
#endif

/* Blocks are powers of two, each with its size before it; those that are free of one power are a list. */
enum { LEAST = 5, POWERS = 40, BEFORE = 16 };
typedef struct { size_t power, used; } before;
#define RESERVE (1ull << 37)

static char *next_block, *end;
static void *free_blocks[POWERS];
size_t heap_used, heap_limit = SIZE_MAX;

static void reserve(void) {
  for (uint64_t size = RESERVE; size >= 1 << 26; size /= 2) {
    long at = KERNEL(SYS_mmap, NULL, size, PROT_READ | PROT_WRITE, MAP_PRIVATE | MAP_ANONYMOUS | MAP_NORESERVE, -1, 0);
    if (at < 0 && at > -4096) continue;
    next_block = (char *)at;
    end = next_block + size;
    return;
  }
}

/* For how many bytes there are addresses. */
size_t heap_size(void) {
  if (!next_block) reserve();
  return (size_t)(end - next_block);
}

static int power_of(size_t size) {
  int power = LEAST;
  while (((size_t)1 << power) < size) power++;
  return power;
}

void *detio_heap_malloc(size_t size) {
  if (size > RESERVE / 2) return NULL;
  if (!next_block) reserve();
  int power = power_of(size + BEFORE);
  char *block = free_blocks[power];
  if (block) {
    ASAN_UNPOISON_MEMORY_REGION(block, (size_t)1 << power);
    memcpy(&free_blocks[power], block + BEFORE, sizeof(void *));
  } else {
    if (!next_block || (size_t)(end - next_block) < (size_t)1 << power) return NULL;
    block = next_block;
    next_block += (size_t)1 << power;
  }
  memcpy(block, &(before){(size_t)power, size}, BEFORE);
  heap_used += size;
  ASAN_POISON_MEMORY_REGION(block + BEFORE + size, ((size_t)1 << power) - BEFORE - size);
  return block + BEFORE;
}

static before before_of(const void *at) {
  before here;
  memcpy(&here, (const char *)at - BEFORE, BEFORE);
  return here;
}

void detio_heap_free(void *at) {
  if (!at) return;
  before here = before_of(at);
  ASAN_UNPOISON_MEMORY_REGION(at, sizeof(void *));
  memcpy(at, &free_blocks[here.power], sizeof(void *));
  free_blocks[here.power] = (char *)at - BEFORE;
  heap_used -= here.used;
  ASAN_POISON_MEMORY_REGION((char *)at - BEFORE, (size_t)1 << here.power);
}

void *detio_heap_calloc(size_t count, size_t size) {
  size_t all;
  if (__builtin_mul_overflow(count, size, &all)) return NULL;
  void *at = detio_heap_malloc(all);
  return at ? memset(at, 0, all) : NULL;
}

void *detio_heap_realloc(void *at, size_t size) {
  if (!at) return detio_heap_malloc(size);
  before here = before_of(at);
  if (size <= ((size_t)1 << here.power) - BEFORE) {
    memcpy((char *)at - BEFORE, &(before){here.power, size}, BEFORE);
    heap_used += size - here.used;
    ASAN_UNPOISON_MEMORY_REGION(at, size);
    ASAN_POISON_MEMORY_REGION((char *)at + size, ((size_t)1 << here.power) - BEFORE - size);
    return at;
  }
  void *new = detio_heap_malloc(size);
  if (new) memcpy(new, at, here.used), detio_heap_free(at);
  return new;
}
