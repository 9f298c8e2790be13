/* library THREADS COUNT WHAT WHO: makes so many calls in each of so many pthreads, by the library, and by the kernel
 * where WHO is kernel; prints nanoseconds of one call, of the clock and of the processor, and switches of threads.
 * WHAT is own (pread and pwrite of 8 bytes, each thread of a file of its own), one (all of one file), getfl, or host (a
 * read of 16 bytes of a file of the host). */
#include "detio_threads.h"

#include <fcntl.h>
#include <stdio.h>
#include <stdlib.h>
#include <string.h>
#include <sys/resource.h>
#include <time.h>
#include <unistd.h>

static detio_run run;
static long count;
static const char *what;
static bool by_kernel;

static double now(clockid_t clock) {
  struct timespec t;
  clock_gettime(clock, &t);
  return (double)t.tv_sec * 1e9 + (double)t.tv_nsec;
}

static int64_t call(size_t thread, detio_call asked, const void *text, size_t length) {
  uint8_t data[64];
  detio_reply reply;
  uint32_t code = detio_thread_call(&run, thread, &asked, text, length, NULL, 0, &reply, data, sizeof data);
  if (code || reply.kind == DETIO_FAILURE) {
    fprintf(stderr, "thread %zu: %s, error %u\n", thread, detio_code_name(code), code ? 0 : reply.error);
    exit(1);
  }
  return reply.first;
}

static void by_library(size_t thread, const char *path) {
  detio_call open = {.kind = *what == 'h' ? DETIO_HOST_OPEN : DETIO_OPEN, .choice = DETIO_READ_WRITE,
                     .flags = DETIO_CREATE};
  int64_t at = call(thread, open, path, strlen(path));
  for (long i = 0; i < count; i++) {
    if (*what == 'g') {
      call(thread, (detio_call){.kind = DETIO_GETFL, .descriptor = at}, NULL, 0);
    } else if (*what == 'h') {
      call(thread, (detio_call){.kind = DETIO_READ, .descriptor = at, .number = 16}, NULL, 0);
    } else if (i % 2) {
      call(thread, (detio_call){.kind = DETIO_PREAD, .descriptor = at, .number = 8}, NULL, 0);
    } else {
      call(thread, (detio_call){.kind = DETIO_PWRITE, .descriptor = at}, "01234567", 8);
    }
  }
  detio_thread_end(&run, thread);
}

static void kernel(const char *path) {
  char data[64];
  long done = 0;
  int at = open(path, O_RDWR | O_CREAT, 0600);
  for (long i = 0; i < count && done >= 0; i++) {
    if (*what == 'g') done = fcntl(at, F_GETFL);
    else if (*what == 'h') done = read(at, data, 16);
    else done = i % 2 ? pread(at, data, 8, 0) : pwrite(at, "01234567", 8, 0);
  }
  if (done < 0) exit(1);
}

static void *works(void *given) {
  size_t thread = (size_t)given;
  char path[64];
  snprintf(path, sizeof path, "%s/f%zu", by_kernel || *what == 'h' ? "." : "", strcmp(what, "one") ? thread : 0);
  if (by_kernel) kernel(path);
  else by_library(thread, path);
  return NULL;
}

int main(int words, char **word) {
  pthread_t started[DETIO_THREADS_MOST];
  struct rusage used;
  if (words != 5) return 2;
  size_t threads = strtoul(word[1], NULL, 10);
  count = atol(word[2]);
  what = word[3];
  by_kernel = !strcmp(word[4], "kernel");
  detio_settings settings = {.size = sizeof settings, .threads = threads, .patience = 1000, .door_cost = 100,
                             .version = 2, .room = 1u << 30};
  if (threads < 1 || threads > DETIO_THREADS_MOST || detio_run_begin(&run, &settings, 10)) return 1;
  double begun = now(CLOCK_MONOTONIC), worked = now(CLOCK_PROCESS_CPUTIME_ID), all = (double)count * (double)threads;
  for (size_t i = 0; i < threads; i++) {
    if (pthread_create(&started[i], NULL, works, (void *)i)) return 1;
  }
  for (size_t i = 0; i < threads; i++) pthread_join(started[i], NULL);
  double wall = now(CLOCK_MONOTONIC) - begun, cpu = now(CLOCK_PROCESS_CPUTIME_ID) - worked;
  getrusage(RUSAGE_SELF, &used);
  printf("%.0f %.0f %.2f\n", wall / all, cpu / all, (double)(used.ru_nvcsw + used.ru_nivcsw) / all);
  return 0;
}
