/* eventfd and epoll: a line for each call, as the kernel has it. */
#define _GNU_SOURCE
#include "said.h"

#include <fcntl.h>
#include <poll.h>
#include <pthread.h>
#include <stdlib.h>
#include <sys/epoll.h>
#include <sys/eventfd.h>
#include <sys/socket.h>
#include <unistd.h>

static char bytes[64];

static void counters(void) {
  eventfd_t value = 0;
  uint64_t most = UINT64_MAX - 1;
  int e = eventfd(3, EFD_NONBLOCK), s = eventfd(2, EFD_SEMAPHORE | EFD_NONBLOCK);
  struct pollfd one = {e, POLLIN | POLLOUT, 0};
  SAY(eventfd(0, 12345));
  SAY(read(e, bytes, 4));
  SAY(eventfd_read(e, &value) + (long)value);
  SAY(eventfd_read(e, &value));
  SAY(poll(&one, 1, 0) + one.revents);
  SAY(eventfd_write(e, 7));
  SAY(poll(&one, 1, 0) + one.revents);
  SAY(write(e, &most, sizeof most));
  SAY(eventfd_read(e, &value) + (long)value);
  SAY(write(e, &most, sizeof most));
  SAY(poll(&one, 1, 0) + one.revents);
  SAY(write(e, "", 1));
  SAY(eventfd_read(s, &value) + (long)value);
  SAY(eventfd_read(s, &value) + (long)value);
  SAY(eventfd_read(s, &value));
  SAY(close(e) + close(s));
}

static void shows(const char *what, int at, int room, int millis) {
  struct epoll_event all[8];
  int n = epoll_wait(at, all, room, millis);
  if (n < 0) said(what, n);
  else printf("%s: %d", what, n);
  for (int i = 0; i < n; i++) printf(" %x of %d", all[i].events, all[i].data.fd);
  if (n >= 0) printf("\n");
}
#define SHOW(at, room, millis) shows("epoll_wait " #room " " #millis, at, room, millis)
static struct epoll_event *event(uint32_t events, int fd) {
  static struct epoll_event one;
  one = (struct epoll_event){.events = events, .data.fd = fd};
  return &one;
}

static void lists(void) {
  int p[2], q[2], at = epoll_create1(EPOLL_CLOEXEC), other = epoll_create(1), file = open("input.txt", O_RDONLY);
  if (pipe2(p, O_NONBLOCK) || socketpair(AF_UNIX, SOCK_STREAM | SOCK_NONBLOCK, 0, q)) exit(1);
  SAY(epoll_create(0));
  SAY(epoll_create1(99));
  SAY(fcntl(at, F_GETFD));
  SAY(epoll_ctl(at, EPOLL_CTL_ADD, file, event(EPOLLIN, 0)));
  SAY(epoll_ctl(file, EPOLL_CTL_ADD, p[0], event(EPOLLIN, 0)));
  SAY(epoll_ctl(at, EPOLL_CTL_ADD, 29, event(EPOLLIN, 0)));
  SAY(epoll_ctl(29, EPOLL_CTL_ADD, p[0], event(EPOLLIN, 0)));
  SAY(epoll_ctl(at, EPOLL_CTL_MOD, p[0], event(EPOLLIN, 1)));
  SAY(epoll_ctl(at, EPOLL_CTL_ADD, p[0], event(EPOLLIN, 1)));
  SAY(epoll_ctl(at, EPOLL_CTL_ADD, p[0], event(EPOLLIN, 1)));
  SHOW(at, 8, 0);
  SHOW(at, 8, 5);
  SHOW(at, 0, 0);
  SHOW(file, 8, 0);
  SAY(write(p[1], "abc", 3));
  SHOW(at, 8, -1);
  SHOW(at, 8, -1);
  SAY(epoll_ctl(at, EPOLL_CTL_ADD, q[0], event(EPOLLIN | EPOLLOUT, 2)));
  SHOW(at, 8, -1);
  SHOW(at, 1, -1);
  SAY(epoll_ctl(at, EPOLL_CTL_MOD, q[0], event(EPOLLIN | EPOLLRDHUP, 3)));
  SAY(close(q[1]));
  SAY(epoll_ctl(at, EPOLL_CTL_DEL, p[0], NULL));
  SHOW(at, 8, -1);
  SAY(close(q[0]));
  SHOW(at, 8, 0);
  SAY(epoll_ctl(other, EPOLL_CTL_ADD, p[0], event(EPOLLIN | EPOLLONESHOT, 4)));
  SHOW(other, 8, -1);
  SHOW(other, 8, 0);
  SAY(epoll_ctl(other, EPOLL_CTL_MOD, p[0], event(EPOLLIN | EPOLLET, 5)));
  SHOW(other, 8, -1);
  SHOW(other, 8, 0);
  SAY(write(p[1], "d", 1));
  SHOW(other, 8, -1);
  SAY(read(p[0], bytes, sizeof bytes));
  SHOW(other, 8, 0);
  SAY(epoll_pwait(other, event(0, 0), 1, 0, NULL));
  SAY(epoll_pwait2(other, event(0, 0), 1, &(struct timespec){0, 1000}, NULL));
  SAY(close(p[1]));
  SHOW(other, 8, -1);
  SAY(close(p[0]) + close(at) + close(other) + close(file));
}

static void *writes(void *given) {
  usleep(20000);
  return eventfd_write(*(int *)given, 5) ? given : NULL;
}
static int at, late;
static void *adds(void *given) {
  usleep(20000);
  return epoll_ctl(at, EPOLL_CTL_ADD, late, event(EPOLLIN, 7)) ? given : NULL;
}
static void waits(void) {
  pthread_t t;
  eventfd_t value = 0;
  int e = eventfd(0, 0);
  at = epoll_create1(0);
  late = eventfd(9, 0);
  pthread_create(&t, NULL, writes, &e);
  SAY(eventfd_read(e, &value) + (long)value);
  pthread_join(t, NULL);
  SAY(epoll_ctl(at, EPOLL_CTL_ADD, e, event(EPOLLIN, 6)));
  pthread_create(&t, NULL, writes, &e);
  SHOW(at, 8, 60000);
  pthread_join(t, NULL);
  SAY(eventfd_read(e, &value) + (long)value);
  pthread_create(&t, NULL, adds, NULL);
  SHOW(at, 8, -1);
  pthread_join(t, NULL);
}

int main(void) {
  counters();
  lists();
  waits();
  return 0;
}
