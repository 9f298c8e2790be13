/* What the processor counts: by both instructions, in two threads, with all signals blocked; and a fault beside that.
 */
#define _GNU_SOURCE
#include <pthread.h>
#include <setjmp.h>
#include <signal.h>
#include <stdio.h>
#include <stdlib.h>
#include <unistd.h>

static sigjmp_buf back;
static void faults(int number) { siglongjmp(back, number); }
static unsigned long count(void) {
  unsigned low, high;
  __asm__ volatile("rdtsc" : "=a"(low), "=d"(high));
  return (unsigned long)high << 32 | low;
}
static unsigned long count_too(void) {
  unsigned low, high, processor;
  __asm__ volatile("rdtscp" : "=a"(low), "=d"(high), "=c"(processor));
  return (unsigned long)high << 32 | low;
}
static void *counts(void *given) {
  sigset_t all;
  sigfillset(&all);
  pthread_sigmask(SIG_BLOCK, &all, NULL);
  for (int i = 0; i < 3; i++) printf("%s: %lu\n", (char *)given, count());
  return NULL;
}

int main(int number, char **words) {
  pthread_t t;
  unsigned long before = count(), after = count_too();
  printf("%lu %lu %d\n", before, after, before < after);
  pthread_create(&t, NULL, counts, "thread");
  counts("main");
  pthread_join(t, NULL);
  printf("%d\n", system("exit 3") >> 8);
  signal(SIGSEGV, faults);
  if (!sigsetjmp(back, 1)) printf("%d\n", *(volatile int *)8);
  printf("%lu\n", count());
  signal(SIGSEGV, SIG_DFL);
  fflush(stdout);
  if (number > 1 && words[1][0] == 'f') *(volatile int *)8 = 1;
  return 0;
}
