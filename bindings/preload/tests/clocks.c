/* Time, chance and what a process is: values that only a rerun has again. */
#define _GNU_SOURCE
#include "said.h"

#include <netdb.h>
#include <pthread.h>
#include <sched.h>
#include <stdbool.h>
#include <stdlib.h>
#include <sys/auxv.h>
#include <sys/random.h>
#include <sys/resource.h>
#include <sys/syscall.h>
#include <sys/sysinfo.h>
#include <sys/time.h>
#include <sys/times.h>
#include <sys/utsname.h>
#include <threads.h>
#include <time.h>
#include <unistd.h>

static void bytes(const char *what, const unsigned char *at, size_t count) {
  printf("%s:", what);
  for (size_t i = 0; i < count; i++) printf(" %02x", at[i]);
  printf("\n");
}
static void show_time(const char *what, struct timespec t) {
  printf("%s: %ld.%09ld\n", what, (long)t.tv_sec, t.tv_nsec);
}

int main(void) {
  struct timespec t, before;
  struct timeval tv;
  struct tms tms;
  struct rusage used;
  struct sysinfo info;
  struct utsname host;
  cpu_set_t set;
  unsigned char random[16];
  double load[3];
  char name[100] = {0};
  clock_gettime(CLOCK_MONOTONIC, &before);
  show_time("monotonic", before);
  SAY(clock_gettime(CLOCK_REALTIME, &t));
  show_time("realtime", t);
  SAY(time(NULL));
  SAY(gettimeofday(&tv, NULL));
  printf("%ld.%06ld\n", (long)tv.tv_sec, (long)tv.tv_usec);
  SAY(timespec_get(&t, TIME_UTC));
  show_time("utc", t);
  SAY(clock());
  SAY(times(&tms));
  SAY(getrusage(RUSAGE_SELF, &used));
  SAY(used.ru_maxrss);
  SAY(nanosleep(&(struct timespec){0, 2000000}, NULL));
  SAY(usleep(2000));
  SAY(thrd_sleep(&(struct timespec){0, 1000}, NULL));
  SAY(sleep(0));
  clock_gettime(CLOCK_MONOTONIC, &t);
  t.tv_nsec += 1000000;
  if (t.tv_nsec >= 1000000000) t.tv_sec++, t.tv_nsec -= 1000000000;
  TELL(clock_nanosleep(CLOCK_MONOTONIC, TIMER_ABSTIME, &t, NULL));
  TELL(clock_nanosleep(CLOCK_MONOTONIC, 0, &(struct timespec){0, 1000}, NULL));
  clock_gettime(CLOCK_MONOTONIC, &t);
  bool slept = t.tv_sec > before.tv_sec || t.tv_nsec > before.tv_nsec + 4000000;
  SAY(getrandom(random, sizeof random, 0));
  bytes("getrandom", random, sizeof random);
  SAY(getentropy(random, 8));
  bytes("getentropy", random, 8);
  SAY(syscall(SYS_getrandom, random, 4, 0));
  bytes("syscall", random, 4);
  SAY(arc4random());
  arc4random_buf(random, 4);
  bytes("arc4random_buf", random, 4);
  SAY(arc4random_uniform(1000));
  bytes("AT_RANDOM", (unsigned char *)getauxval(AT_RANDOM), 16);
  clockid_t own = 0;
  unsigned processor = 7, node = 7;
  SAY(clock_getres(CLOCK_MONOTONIC, &t) + t.tv_sec * 1000000000 + t.tv_nsec);
  SAY(clock_getres(9999, NULL));
  SAY(timespec_getres(&t, TIME_UTC) + t.tv_sec * 1000000000 + t.tv_nsec);
  TELL(clock_getcpuclockid(0, &own));
  SAY(clock_gettime(own, &t));
  TELL(clock_getcpuclockid(1 << 22, &own));
  TELL(pthread_getcpuclockid(pthread_self(), &own));
  SAY(clock_gettime(own, &t));
  SAY(getcpu(&processor, &node) + (long)(processor + node));
  TELL(pthread_getaffinity_np(pthread_self(), sizeof set, &set));
  SAY(getpid());
  SAY(getppid());
  SAY(gettid());
  struct sched_param param;
  SAY(sched_getaffinity(0, sizeof set, &set));
  SAY(sched_setaffinity(gettid(), sizeof set, &set));
  SAY(sched_getscheduler(gettid()));
  SAY(sched_getparam(getpid(), &param));
  SAY(sched_setscheduler(gettid(), SCHED_OTHER, &param));
  SAY(sched_setparam(gettid(), &param));
  SAY(sched_rr_get_interval(gettid(), &t));
  SAY(setpriority(PRIO_PROCESS, (id_t)gettid(), getpriority(PRIO_PROCESS, (id_t)gettid())));
  SAY(syscall(SYS_gettid));
  SAY(syscall(SYS_getpid) == getpid());
  SAY(syscall(SYS_getppid) == getppid());
  SAY(syscall(SYS_clock_gettime, CLOCK_MONOTONIC, &t));
  show_time("by system call", t);
  SAY(syscall(SYS_clock_getres, CLOCK_MONOTONIC, &t) + t.tv_sec);
  SAY(syscall(SYS_gettimeofday, &tv, NULL));
  printf("%ld.%06ld\n", (long)tv.tv_sec, (long)tv.tv_usec);
  SAY(syscall(SYS_time, NULL));
  SAY(syscall(SYS_times, &tms));
  SAY(syscall(SYS_getrusage, RUSAGE_SELF, &used));
  SAY(used.ru_maxrss);
  SAY(syscall(SYS_sysinfo, &info));
  SAY(info.freeram);
  SAY(syscall(SYS_uname, &host));
  SAY(sched_getaffinity(0, sizeof set, &set));
  SAY(CPU_COUNT(&set));
  SAY(sched_getcpu());
  SAY(get_nprocs());
  SAY(get_nprocs_conf());
  SAY(sysconf(_SC_NPROCESSORS_ONLN));
  SAY(sysconf(_SC_PHYS_PAGES));
  SAY(sysconf(_SC_AVPHYS_PAGES));
  SAY(sysconf(_SC_PAGESIZE));
  SAY(sysinfo(&info));
  SAY(info.freeram);
  SAY(getloadavg(load, 3));
  printf("%f\n", load[0]);
  SAY(uname(&host));
  printf("%s\n", host.release);
  SAY(gethostname(name, sizeof name));
  printf("%s\n", name);
  struct addrinfo *found;
  TELL(getaddrinfo("localhost", "http", NULL, &found));
  printf("%p\n", malloc(100));
  return !slept;
}
