/* Time, chance, and what a process is: outcomes. */
#define _GNU_SOURCE
#include "preload.h"

#include <sched.h>
#include <stdlib.h>
#include <string.h>
#include <sys/random.h>
#include <sys/resource.h>
#include <sys/syscall.h>
#include <sys/sysinfo.h>
#include <sys/time.h>
#include <sys/times.h>
#include <sys/utsname.h>
#include <threads.h>
#include <unistd.h>

EXPORT int clock_gettime(clockid_t clock, struct timespec *to) {
  if (!takes_part()) {
    long r = KERNEL(SYS_clock_gettime, clock, to);
    return r < 0 ? (errno = (int)-r, -1) : 0;
  }
  NOTE_CALLER();
  return (int)asks(ASK_CLOCK, 0, NULL, clock, to, sizeof *to);
}
EXPORT int clock_getres(clockid_t clock, struct timespec *to) {
  NEXT(clock_getres);
  OFF(next(clock, to));
  struct timespec found;
  if (asks(ASK_RESOLUTION, 0, NULL, clock, &found, sizeof found)) return -1;
  if (to) *to = found;
  return 0;
}
EXPORT int timespec_getres(struct timespec *to, int base) {
  return base == TIME_UTC && !clock_getres(CLOCK_REALTIME, to) ? base : 0;
}
/* A clock of this process or thread has a name that is the same in each run; those of others have their numbers. */
EXPORT int clock_getcpuclockid(pid_t pid, clockid_t *to) {
  NEXT(clock_getcpuclockid);
  OFF(next(pid, to));
  if (pid && pid != getpid()) {
    uncovered("clock_getcpuclockid", "clock_getcpuclockid of another process is not covered: refused, in a rerun too");
    return ENOSYS;
  }
  *to = CLOCK_PROCESS_CPUTIME_ID;
  return 0;
}
EXPORT int pthread_getcpuclockid(pthread_t thread, clockid_t *to) {
  NEXT(pthread_getcpuclockid);
  OFF(next(thread, to));
  if (!pthread_equal(thread, pthread_self())) {
    uncovered("pthread_getcpuclockid",
              "pthread_getcpuclockid of another thread is not covered: refused, in a rerun too");
    return ENOSYS;
  }
  *to = CLOCK_THREAD_CPUTIME_ID;
  return 0;
}
EXPORT time_t time(time_t *to) {
  struct timespec t = {0, 0};
  (void)clock_gettime(CLOCK_REALTIME, &t);
  if (to) *to = t.tv_sec;
  return t.tv_sec;
}
EXPORT int gettimeofday(struct timeval *to, void *zone) {
  struct timespec t = {0, 0};
  (void)zone;
  if (clock_gettime(CLOCK_REALTIME, &t)) return -1;
  if (to) *to = (struct timeval){t.tv_sec, t.tv_nsec / 1000};
  return 0;
}
EXPORT int timespec_get(struct timespec *to, int base) {
  return base == TIME_UTC && !clock_gettime(CLOCK_REALTIME, to) ? base : 0;
}
EXPORT clock_t clock(void) {
  struct timespec t = {0, 0};
  if (clock_gettime(CLOCK_PROCESS_CPUTIME_ID, &t)) return -1;
  return t.tv_sec * CLOCKS_PER_SEC + t.tv_nsec / (1000000000 / CLOCKS_PER_SEC);
}
EXPORT clock_t times(struct tms *to) {
  NEXT(times);
  OFF(next(to));
  struct tms here;
  clock_t r = (clock_t)asks(ASK_TIMES, 0, NULL, 0, &here, sizeof here);
  if (to) *to = here;
  return r;
}
EXPORT int getrusage(__rusage_who_t who, struct rusage *to) {
  NEXT(getrusage);
  OFF(next(who, to));
  return (int)asks(ASK_USAGE, 0, NULL, who, to, sizeof *to);
}

/* Sleeps: waits that nobody else ends. */
static int sleeps_until(clockid_t clock, const struct timespec *until) {
  pthread_testcancel();
  do {
    turn();
    slots[me].light = LIGHTER;
    (void)wait_until(NULL, clock, until);
    if (is_interrupted(false)) return EINTR;
  } while (was_cut());
  return 0;
}
static int sleeps_for(const struct timespec *time, struct timespec *left) {
  struct timespec until = *time;
  if (time->tv_sec < 0 || time->tv_nsec < 0 || time->tv_nsec >= 1000000000) return EINVAL;
  if (!run.replays) {
    KERNEL(SYS_clock_gettime, CLOCK_MONOTONIC, &until);
    until.tv_sec += time->tv_sec;
    until.tv_nsec += time->tv_nsec;
    if (until.tv_nsec >= 1000000000) until.tv_sec++, until.tv_nsec -= 1000000000;
  }
  int code = sleeps_until(CLOCK_MONOTONIC, &until);
  if (code && left) {
    int64_t more = (until.tv_sec * (int64_t)1000000000 + until.tv_nsec) - now_in_recording();
    struct timespec rest = {more > 0 ? more / 1000000000 : 0, more > 0 ? more % 1000000000 : 0};
    (void)ask(&(question){.what = ASK_LEFT, .bytes = &rest, .length = sizeof rest, .room = sizeof rest}, left, NULL);
  }
  return code;
}
EXPORT int clock_nanosleep(clockid_t clock, int how, const struct timespec *time, struct timespec *left) {
  NEXT(clock_nanosleep);
  OFF(next(clock, how, time, left));
  if (clock == CLOCK_PROCESS_CPUTIME_ID)
    uncovered("clock_nanosleep", "a sleep by the processor's time is not covered: refused, in a rerun too");
  if (clock != CLOCK_REALTIME && clock != CLOCK_MONOTONIC && clock != CLOCK_BOOTTIME && clock != CLOCK_TAI)
    return EINVAL;
  return how & TIMER_ABSTIME ? sleeps_until(clock, time) : sleeps_for(time, left);
}
EXPORT int nanosleep(const struct timespec *time, struct timespec *left) {
  NEXT(nanosleep);
  OFF(next(time, left));
  int code = sleeps_for(time, left);
  return code ? (errno = code, -1) : 0;
}
EXPORT int thrd_sleep(const struct timespec *time, struct timespec *left) { return nanosleep(time, left); }
EXPORT int usleep(useconds_t micros) {
  NEXT(usleep);
  OFF(next(micros));
  return nanosleep(&(struct timespec){micros / 1000000, micros % 1000000 * 1000}, NULL);
}
EXPORT unsigned sleep(unsigned seconds) {
  NEXT(sleep);
  OFF(next(seconds));
  struct timespec left = {0, 0};
  if (!nanosleep(&(struct timespec){seconds, 0}, &left)) return 0;
  return (unsigned)left.tv_sec;
}

/* Chance. */
EXPORT ssize_t getrandom(void *to, size_t count, unsigned flags) {
  NEXT(getrandom);
  OFF(next(to, count, flags));
  size_t done = 0;
  while (done < count) {
    size_t piece = count - done < PIECE ? count - done : PIECE, n = 0;
    if (ask(&(question){.what = ASK_RANDOM, .a = flags, .room = piece}, (char *)to + done, &n) < 0)
      return done ? (ssize_t)done : -1;
    if (!n) break;
    done += n;
  }
  return (ssize_t)done;
}
EXPORT int getentropy(void *to, size_t count) {
  NEXT(getentropy);
  OFF(next(to, count));
  if (count > 256) return errno = EIO, -1;
  return getrandom(to, count, 0) == (ssize_t)count ? 0 : -1;
}
EXPORT void arc4random_buf(void *to, size_t count) {
  NEXT(arc4random_buf);
  if (takes_part()) (void)getrandom(to, count, 0);
  else next(to, count);
}
EXPORT uint32_t arc4random(void) {
  uint32_t value = 0;
  arc4random_buf(&value, sizeof value);
  return value;
}
EXPORT uint32_t arc4random_uniform(uint32_t bound) {
  uint32_t value, least = bound ? -bound % bound : 0;
  if (bound < 2) return 0;
  do value = arc4random(); while (value < least);
  return value % bound;
}

/* What the process is, and where it runs. */
#define NUMBER(name, type, which)                                    \
  EXPORT type name(void) {                                           \
    OFF((type)KERNEL(which, 0));                                     \
    return (type)asks(ASK_NUMBER, 0, NULL, which, NULL, 0);          \
  }
NUMBER(getpid, pid_t, SYS_getpid)
NUMBER(getppid, pid_t, SYS_getppid)
EXPORT pid_t gettid(void) {
  OFF((pid_t)KERNEL(SYS_gettid, 0));
  return slots[me].tid = (pid_t)asks(ASK_NUMBER, 0, NULL, SYS_gettid, NULL, 0);
}
/* As the kernel answers: how many bytes. */
ssize_t affinity(size_t size, void *to) {
  size_t there = 0;
  int64_t r = ask(&(question){.what = ASK_AFFINITY, .room = size < 1024 ? size : 1024}, to, &there);
  return r < 0 ? -1 : (ssize_t)there;
}
EXPORT int sched_getaffinity(pid_t pid, size_t size, cpu_set_t *to) {
  NEXT(sched_getaffinity);
  OFF(next(pid, size, to));
  ssize_t there = affinity(size, to);
  if (there < 0) return -1;
  memset((char *)to + there, 0, size - (size_t)there);
  return 0;
}
EXPORT int pthread_getaffinity_np(pthread_t thread, size_t size, cpu_set_t *to) {
  NEXT(pthread_getaffinity_np);
  OFF(next(thread, size, to));
  return sched_getaffinity(0, size, to) ? errno : 0;
}
static int processors(void) {
  cpu_set_t set;
  return sched_getaffinity(0, sizeof set, &set) ? 1 : CPU_COUNT(&set);
}
EXPORT int sched_getcpu(void) {
  NEXT(sched_getcpu);
  OFF(next());
  return 0;
}
EXPORT int getcpu(unsigned *processor, unsigned *node) {
  NEXT(getcpu);
  OFF(next(processor, node));
  if (processor) *processor = 0;
  if (node) *node = 0;
  return 0;
}
EXPORT int get_nprocs(void) {
  NEXT(get_nprocs);
  OFF(next());
  return processors();
}
EXPORT int get_nprocs_conf(void) {
  NEXT(get_nprocs_conf);
  OFF(next());
  return processors();
}
EXPORT int sysinfo(struct sysinfo *to) {
  NEXT(sysinfo);
  OFF(next(to));
  return (int)asks(ASK_SYSINFO, 0, NULL, 0, to, sizeof *to);
}
static long pages(bool available) {
  struct sysinfo s;
  if (sysinfo(&s)) return -1;
  return (long)((available ? s.freeram : s.totalram) * s.mem_unit / 4096);
}
EXPORT long sysconf(int what) {
  NEXT(sysconf);
  OFF(next(what));
  switch (what) {
  case _SC_NPROCESSORS_ONLN:
  case _SC_NPROCESSORS_CONF: return processors();
  case _SC_OPEN_MAX: return ORACLE;
  case _SC_PHYS_PAGES: return pages(false);
  case _SC_AVPHYS_PAGES: return pages(true);
  default: return next(what);
  }
}
EXPORT long get_phys_pages(void) { return sysconf(_SC_PHYS_PAGES); }
EXPORT long get_avphys_pages(void) { return sysconf(_SC_AVPHYS_PAGES); }
EXPORT int getloadavg(double to[], int count) {
  NEXT(getloadavg);
  OFF(next(to, count));
  struct sysinfo s;
  if (sysinfo(&s)) return -1;
  for (int i = 0; i < count && i < 3; i++) to[i] = (double)s.loads[i] / 65536.0;
  return count < 3 ? count : 3;
}
EXPORT int uname(struct utsname *to) {
  NEXT(uname);
  OFF(next(to));
  return (int)asks(ASK_UNAME, 0, NULL, 0, to, sizeof *to);
}
EXPORT int gethostname(char *to, size_t room) {
  NEXT(gethostname);
  OFF(next(to, room));
  struct utsname u;
  if (uname(&u)) return -1;
  strncpy(to, u.nodename, room);
  return strlen(u.nodename) < room ? 0 : (errno = ENAMETOOLONG, -1);
}
