/* The processor's count of its ticks: the kernel has the instructions rdtsc and rdtscp come as a signal, and what they
 * would say is an outcome. */
#define _GNU_SOURCE
#include "preload.h"

#include <string.h>
#include <sys/prctl.h>
#include <sys/syscall.h>
#include <ucontext.h>

static bool traps;
bool counts_trap(void) { return traps; }

/* For a child that the library has no part in, and back: what this thread starts meanwhile has the instructions. */
void free_counts(bool free) {
  if (traps && (free || on)) KERNEL(SYS_prctl, PR_SET_TSC, free ? PR_TSC_ENABLE : PR_TSC_SIGSEGV);
}
void begin_counts(void) {
  traps = !KERNEL(SYS_prctl, PR_SET_TSC, PR_TSC_SIGSEGV);
  if (!traps) say("this kernel lets no library see rdtsc: what the processor counts is not recorded");
}

long count_at_host(uint8_t *out) {
  uint32_t low, high, processor;
  free_counts(true);
  __asm__ volatile("rdtscp" : "=a"(low), "=d"(high), "=c"(processor));
  free_counts(false);
  memcpy(out, &(uint64_t){(uint64_t)high << 32 | low}, sizeof(uint64_t));
  return 0;
}
bool answer_count(const siginfo_t *about, void *context) {
  greg_t *all = ((ucontext_t *)context)->uc_mcontext.gregs;
  const uint8_t *at = (const uint8_t *)all[REG_RIP];
  uint64_t count = 0;
  if (!traps || about->si_signo != SIGSEGV || about->si_code != SI_KERNEL) return false;
  bool plain = at[0] == 0x0f && at[1] == 0x31, with_processor = at[0] == 0x0f && at[1] == 0x01 && at[2] == 0xf9;
  if (!plain && !with_processor) return false;
  if (on && me >= 0 && !inside && me == (ender == NOBODY ? me : ender)) {
    slots[me].caller = (void *)at;
    (void)asks(ASK_COUNT, 0, NULL, 0, &count, sizeof count);
  } else {
    (void)count_at_host((uint8_t *)&count);
  }
  all[REG_RAX] = (uint32_t)count;
  all[REG_RDX] = (greg_t)(count >> 32);
  if (with_processor) all[REG_RCX] = 0;
  all[REG_RIP] += plain ? 2 : 3;
  return true;
}
