/* How threads are scheduled, which is no part of a run: it is set and asked at the host, in a rerun too, by the numbers
 * that threads have there. */
#define _GNU_SOURCE
#include "preload.h"

#include <sched.h>
#include <sys/resource.h>
#include <sys/syscall.h>
#include <unistd.h>

/* The number at the host of a thread by the number that the program was told: of the recording. */
static pid_t here(pid_t told) {
  for (int i = 0; told && i < SLOTS; i++)
    if (slots[i].state == LIVE && slots[i].tid == told) return slots[i].at_kernel;
  return told && told == getpid() ? (pid_t)KERNEL(SYS_getpid, 0) : told;
}
#define OF_THREAD(name, who, given, passed) \
  EXPORT int name given {                   \
    NEXT(name);                             \
    OFF(next passed);                       \
    who = here(who);                        \
    return next passed;                     \
  }
OF_THREAD(sched_setaffinity, pid, (pid_t pid, size_t size, const cpu_set_t *set), (pid, size, set))
OF_THREAD(sched_setscheduler, pid, (pid_t pid, int how, const struct sched_param *of), (pid, how, of))
OF_THREAD(sched_getscheduler, pid, (pid_t pid), (pid))
OF_THREAD(sched_setparam, pid, (pid_t pid, const struct sched_param *of), (pid, of))
OF_THREAD(sched_getparam, pid, (pid_t pid, struct sched_param *to), (pid, to))
OF_THREAD(sched_rr_get_interval, pid, (pid_t pid, struct timespec *to), (pid, to))
EXPORT int setpriority(__priority_which_t which, id_t who, int to) {
  NEXT(setpriority);
  OFF(next(which, who, to));
  return next(which, which == PRIO_PROCESS ? (id_t)here((pid_t)who) : who, to);
}
EXPORT int getpriority(__priority_which_t which, id_t who) {
  NEXT(getpriority);
  OFF(next(which, who));
  return next(which, which == PRIO_PROCESS ? (id_t)here((pid_t)who) : who);
}
