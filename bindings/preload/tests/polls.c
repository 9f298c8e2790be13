/* What pipes, pairs and doors are ready for: a line for each call, as the kernel has it. */
#define _GNU_SOURCE
#include "said.h"

#include <fcntl.h>
#include <netinet/in.h>
#include <poll.h>
#include <pthread.h>
#include <stdlib.h>
#include <sys/select.h>
#include <sys/socket.h>
#include <unistd.h>

static char bytes[65536];

static void ready(const char *what, int fd, short events, int millis) {
  struct pollfd one = {fd, events, 0};
  int n = poll(&one, 1, millis);
  printf("%s: %d", what, n);
  if (one.revents & POLLIN) printf(" in");
  if (one.revents & POLLOUT) printf(" out");
  if (one.revents & POLLHUP) printf(" hup");
  if (one.revents & POLLRDHUP) printf(" rdhup");
  if (one.revents & POLLERR) printf(" err");
  if (one.revents & POLLNVAL) printf(" nval");
  printf("\n");
}
#define READY(fd, events, millis) ready(#fd " " #events, fd, events, millis)

static void pipes(void) {
  int p[2];
  SAY(pipe2(p, O_NONBLOCK));
  READY(p[0], POLLIN, 0);
  READY(p[0], POLLIN, 5);
  READY(p[0], POLLOUT, 0);
  READY(p[1], POLLIN | POLLOUT, 0);
  SAY(write(p[1], "abc", 3));
  READY(p[0], POLLIN, -1);
  SAY(read(p[0], bytes, 2));
  READY(p[0], POLLIN, -1);
  SAY(read(p[0], bytes, 2));
  READY(p[0], POLLIN, 0);
  while (write(p[1], bytes, sizeof bytes) > 0) {
  }
  READY(p[1], POLLOUT, 0);
  READY(p[0], POLLIN, 0);
  while (read(p[0], bytes, sizeof bytes) > 0) {
  }
  READY(p[1], POLLOUT, 0);
  int again = dup(p[1]);
  SAY(write(p[1], "x", 1));
  SAY(close(p[1]));
  READY(p[0], POLLIN, 0);
  SAY(close(again));
  READY(p[0], POLLIN, 0);
  SAY(read(p[0], bytes, 9));
  READY(p[0], POLLIN, -1);
  SAY(close(p[0]));
  READY(p[0], POLLIN, -1);
  SAY(pipe(p));
  SAY(close(p[0]));
  READY(p[1], POLLOUT, -1);
  SAY(close(p[1]));
}

static void pairs(void) {
  int s[2];
  SAY(socketpair(AF_UNIX, SOCK_STREAM | SOCK_NONBLOCK, 0, s));
  READY(s[0], POLLIN | POLLOUT, 0);
  SAY(send(s[1], "abc", 3, 0));
  READY(s[0], POLLIN, -1);
  SAY(recv(s[0], bytes, 9, 0));
  READY(s[0], POLLIN, 0);
  SAY(shutdown(s[1], SHUT_WR));
  READY(s[0], POLLIN | POLLOUT | POLLRDHUP, 0);
  SAY(close(s[1]));
  READY(s[0], POLLIN | POLLRDHUP, 0);
  SAY(close(s[0]));
}

static void *writes(void *given) {
  usleep(20000);
  return write(*(int *)given, "late", 4) == 4 ? NULL : given;
}
static void waits(int listener) {
  for (int way = 0; way < 4; way++) {
    int p[2];
    pthread_t t;
    fd_set in;
    if (pipe(p)) exit(1);
    struct pollfd both[2] = {{p[0], POLLIN, 0}, {listener, POLLIN, 0}};
    pthread_create(&t, NULL, writes, &p[1]);
    FD_ZERO(&in);
    FD_SET(p[0], &in);
    if (way == 0) SAY(poll(both, 1, -1));
    if (way == 1) SAY(poll(both, 2, -1));
    if (way == 2) SAY(poll(both, 2, 60000));
    if (way == 3) SAY(select(p[0] + 1, &in, NULL, NULL, NULL));
    SAY(read(p[0], bytes, 9));
    pthread_join(t, NULL);
    SAY(poll(both, 2, 0));
    SAY(poll(both, 2, 5));
    FD_SET(p[0], &in);
    SAY(select(p[0] + 1, &in, NULL, NULL, &(struct timeval){0, 5000}));
    SAY(close(p[0]) + close(p[1]));
  }
}

/* More than there is room for: who reads is told of each part. */
static char much[100000];
static void *writes_much(void *given) {
  return write(*(int *)given, much, sizeof much) == sizeof much ? NULL : given;
}
static void bulk(void) {
  for (int way = 0; way < 2; way++) {
    int p[2];
    pthread_t t[2];
    void *failed[2];
    long all = 0;
    if (way ? socketpair(AF_UNIX, SOCK_STREAM, 0, p) : pipe(p)) exit(1);
    struct pollfd one = {p[0], POLLIN, 0};
    for (int i = 0; i < 2; i++) pthread_create(&t[i], NULL, writes_much, &p[1]);
    while (all < 2 * (long)sizeof much && poll(&one, 1, -1) == 1) all += read(p[0], bytes, sizeof bytes);
    for (int i = 0; i < 2; i++) pthread_join(t[i], &failed[i]);
    SAY(all);
    SAY(failed[0] || failed[1]);
    SAY(poll(&one, 1, 0));
    SAY(close(p[0]) + close(p[1]));
  }
}

/* A program that closes all numbers, as daemons do, closes its own alone: a message that comes later is its own too. */
static void closes_all(int first) {
  struct sockaddr_in to = {.sin_family = AF_INET, .sin_addr = {htonl(INADDR_LOOPBACK)}};
  socklen_t length = sizeof to;
  for (int fd = 40; fd < 1100; fd++) (void)close(fd);
  SAY(close(first)); /* so that a socket of the host may have a number that was closed */
  int it = socket(AF_INET, SOCK_DGRAM, 0);
  if (bind(it, (struct sockaddr *)&to, length) || getsockname(it, (struct sockaddr *)&to, &length)) exit(1);
  SAY(sendto(it, "a message", 9, 0, (struct sockaddr *)&to, length));
  READY(it, POLLIN, 5000);
  SAY(recv(it, bytes, 20, 0));
  SAY(close(it));
}

int main(void) {
  struct sockaddr_in to = {.sin_family = AF_INET, .sin_addr = {htonl(INADDR_LOOPBACK)}};
  setvbuf(stdout, NULL, _IOLBF, 0);
  int first = open("/dev/null", O_RDONLY);
  int listener = socket(AF_INET, SOCK_STREAM, 0);
  if (bind(listener, (struct sockaddr *)&to, sizeof to) || listen(listener, 1)) return 1;
  pipes();
  pairs();
  waits(listener);
  closes_all(first);
  bulk();
  return 0;
}
