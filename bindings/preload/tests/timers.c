/* timerfd: a line for each call, as the kernel has it. */
#define _GNU_SOURCE
#include "said.h"

#include <poll.h>
#include <pthread.h>
#include <stdint.h>
#include <sys/epoll.h>
#include <sys/eventfd.h>
#include <sys/timerfd.h>
#include <time.h>
#include <unistd.h>

static struct itimerspec after(long millis, long every) {
  return (struct itimerspec){{0, every * 1000000}, {0, millis * 1000000}};
}
static long over(int fd) {
  uint64_t count = 0;
  return read(fd, &count, sizeof count) == sizeof count ? (long)count : -1;
}

static void alone(void) {
  int t = timerfd_create(CLOCK_MONOTONIC, TFD_NONBLOCK);
  struct itimerspec soon = after(20, 0), often = after(5, 5), none = after(0, 0), old;
  struct pollfd one = {t, POLLIN | POLLOUT, 0};
  SAY(timerfd_create(99, 0));
  SAY(timerfd_create(CLOCK_MONOTONIC, 1));
  SAY(timerfd_settime(0, 0, &soon, NULL));
  SAY(timerfd_settime(25, 0, &soon, NULL));
  SAY(timerfd_settime(t, 0, &(struct itimerspec){{0, 0}, {0, -1}}, NULL));
  SAY(timerfd_gettime(t, &old) + old.it_value.tv_nsec);
  SAY(poll(&one, 1, 5));
  SAY(over(t));
  SAY(timerfd_settime(t, 0, &soon, &old) + old.it_value.tv_nsec);
  SAY(timerfd_gettime(t, &old) + (old.it_value.tv_nsec > 0 && old.it_value.tv_nsec <= 20000000));
  SAY(poll(&one, 1, 2));
  SAY(poll(&one, 1, -1) + one.revents);
  SAY(over(t));
  SAY(over(t));
  SAY(timerfd_settime(t, 0, &often, NULL));
  usleep(23000);
  SAY(over(t) >= 3);
  SAY(timerfd_settime(t, 0, &none, &old) + (old.it_interval.tv_nsec == 5000000));
  SAY(poll(&one, 1, 12));
  SAY(timerfd_settime(t, TFD_TIMER_ABSTIME, &(struct itimerspec){{0, 0}, {0, 1}}, NULL));
  SAY(poll(&one, 1, 0) + one.revents);
  SAY(read(t, &old, 4));
  SAY(over(t));
  SAY(write(t, "12345678", 8));
  SAY(close(t));
}

static int t, e;
static void *sets(void *given) {
  struct itimerspec soon = after(10, 0);
  usleep(10000);
  return timerfd_settime(t, 0, &soon, NULL) ? given : NULL;
}
static void *writes(void *given) {
  usleep(10000);
  return eventfd_write(e, 1) ? given : NULL;
}
static void together(void) {
  pthread_t other;
  eventfd_t value;
  struct epoll_event found = {.events = EPOLLIN, .data.fd = 1};
  int at = epoll_create1(0);
  t = timerfd_create(CLOCK_REALTIME, 0);
  e = eventfd(0, 0);
  pthread_create(&other, NULL, sets, NULL);
  SAY(over(t));
  pthread_join(other, NULL);
  SAY(epoll_ctl(at, EPOLL_CTL_ADD, t, &found));
  found.data.fd = 2;
  SAY(epoll_ctl(at, EPOLL_CTL_ADD, e, &found));
  pthread_create(&other, NULL, sets, NULL);
  SAY(epoll_wait(at, &found, 1, -1) + found.data.fd);
  pthread_join(other, NULL);
  SAY(over(t));
  struct itimerspec late = {{0, 0}, {1000, 0}};
  SAY(timerfd_settime(t, 0, &late, NULL));
  pthread_create(&other, NULL, writes, NULL);
  SAY(epoll_wait(at, &found, 1, 60000) + found.data.fd);
  pthread_join(other, NULL);
  SAY(eventfd_read(e, &value));
  SAY(epoll_wait(at, &found, 1, 10));
}

/* A timer that is added to an epoll, or to its timers, while another thread waits there with a bound: that does not
 * ring before the wait is over. */
static int waited_at;
static void *adds(void *given) {
  struct epoll_event found = {.events = EPOLLIN, .data.fd = 3};
  usleep(20000);
  return epoll_ctl(waited_at, EPOLL_CTL_ADD, t, &found) ? given : NULL;
}
static void *adds_another(void *given) {
  struct epoll_event found = {.events = EPOLLIN, .data.fd = 4};
  usleep(20000);
  return epoll_ctl(waited_at, EPOLL_CTL_ADD, e, &found) ? given : NULL;
}
static void added(void) {
  pthread_t other;
  struct epoll_event found = {.data.fd = 0};
  struct itimerspec late = {{0, 0}, {1000, 0}};
  waited_at = epoll_create1(0);
  t = timerfd_create(CLOCK_MONOTONIC, 0);
  e = eventfd(0, 0);
  SAY(timerfd_settime(t, 0, &late, NULL));
  pthread_create(&other, NULL, adds, NULL);
  SAY(epoll_wait(waited_at, &found, 1, 60));
  pthread_join(other, NULL);
  pthread_create(&other, NULL, adds_another, NULL);
  SAY(epoll_wait(waited_at, &found, 1, 60));
  pthread_join(other, NULL);
  late = after(30, 0);
  SAY(timerfd_settime(t, 0, &late, NULL));
  SAY(epoll_wait(waited_at, &found, 1, 60000) + found.data.fd);
}

int main(void) {
  alone();
  together();
  added();
  return 0;
}
