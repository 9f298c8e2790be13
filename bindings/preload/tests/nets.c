/* Datagrams, sockets with names of files, version 6, and what they refuse. */
#define _GNU_SOURCE
#include "said.h"

#include <arpa/inet.h>
#include <fcntl.h>
#include <netdb.h>
#include <netinet/in.h>
#include <poll.h>
#include <pthread.h>
#include <stddef.h>
#include <stdlib.h>
#include <sys/socket.h>
#include <sys/syscall.h>
#include <sys/time.h>
#include <sys/uio.h>
#include <sys/un.h>
#include <unistd.h>

static char text[70000];
static struct sockaddr_in any = {.sin_family = AF_INET};
static struct sockaddr_in here(int fd) {
  struct sockaddr_in in;
  socklen_t length = sizeof in;
  SAY(getsockname(fd, (struct sockaddr *)&in, &length) + (int)length);
  return in;
}
static void times_out(int fd) {
  struct timeval soon = {0, 5000}, is;
  socklen_t length = sizeof is;
  SAY(setsockopt(fd, SOL_SOCKET, SO_RCVTIMEO, &soon, sizeof soon));
  SAY(recv(fd, text, 10, 0));
  SAY(getsockopt(fd, SOL_SOCKET, SO_RCVTIMEO, &is, &length) + (int)length);
  SAY(recv(fd, text, 10, MSG_DONTWAIT));
}
static void in_parts(int one, int other, struct sockaddr_in to) {
  struct iovec out[2] = {{"first", 5}, {"second", 6}}, in[3] = {{text, 3}, {text + 10, 4}, {text + 20, 10}};
  struct sockaddr_in from;
  struct msghdr m = {.msg_name = &to, .msg_namelen = sizeof to, .msg_iov = out, .msg_iovlen = 2};
  memset(text, 0, sizeof text);
  SAY(sendmsg(one, &m, 0));
  m = (struct msghdr){.msg_name = &from, .msg_namelen = sizeof from, .msg_iov = in, .msg_iovlen = 3};
  SAY(recvmsg(other, &m, 0));
  printf("%.3s %.4s %s %d\n", text, text + 10, text + 20, m.msg_flags);
  SAY(m.msg_namelen == sizeof from && from.sin_family == AF_INET);
  SAY(sendto(one, "too long for it", 15, 0, (struct sockaddr *)&to, sizeof to));
  m.msg_iovlen = 1;
  SAY(recvmsg(other, &m, MSG_TRUNC) + 100 * (m.msg_flags & MSG_TRUNC));
}
static void datagrams(void) {
  int one = socket(AF_INET, SOCK_DGRAM, 0), other = socket(AF_INET, SOCK_DGRAM | SOCK_CLOEXEC, 0);
  struct sockaddr_in to, from;
  socklen_t length = sizeof from;
  struct pollfd p = {other, POLLIN, 0};
  any.sin_addr.s_addr = htonl(INADDR_LOOPBACK);
  SAY(bind(one, (struct sockaddr *)&any, sizeof any));
  SAY(bind(other, (struct sockaddr *)&any, sizeof any));
  SAY(bind(other, (struct sockaddr *)&any, sizeof any));
  to = here(other);
  SAY(sendto(one, "hello", 5, 0, (struct sockaddr *)&to, sizeof to));
  SAY(poll(&p, 1, 1000) + p.revents);
  SAY(recvfrom(other, text, 100, 0, (struct sockaddr *)&from, &length));
  SAY(length == sizeof from && from.sin_port == here(one).sin_port);
  in_parts(one, other, to);
  times_out(other);
  SAY(connect(one, (struct sockaddr *)&to, sizeof to));
  SAY(send(one, text, 9000, 0));
  SAY(recv(other, text, sizeof text, 0));
  SAY(write(one, "abc", 3));
  SAY(recv(other, text, 2, MSG_PEEK));
  SAY(read(other, text, 2));
  SAY(send(one, text, 70000, 0));
  SAY(lseek(other, 0, SEEK_SET));
  SAY(fcntl(other, F_GETFD));
  SAY(fcntl(other, F_SETFL, O_NONBLOCK));
  SAY(read(other, text, 2));
  SAY(close(one));
  SAY(close(other));
}

static void *serves(void *given) {
  int fd = *(int *)given, got;
  char line[100];
  ssize_t n;
  for (int i = 0; i < 2; i++) {
    got = accept(fd, NULL, NULL);
    while ((n = read(got, line, sizeof line)) > 0) (void)!write(got, line, (size_t)n);
    close(got);
  }
  return given;
}
static void asks(const struct sockaddr *to, socklen_t length, int domain) {
  int fd = socket(domain, SOCK_STREAM, 0);
  SAY(connect(fd, to, length));
  SAY(write(fd, "question", 8));
  SAY(recv(fd, text, 8, MSG_WAITALL));
  SAY(shutdown(fd, SHUT_WR));
  SAY(read(fd, text, 8));
  SAY(close(fd));
}
static void streams(const struct sockaddr *at, socklen_t length, int domain) {
  int fd = socket(domain, SOCK_STREAM, 0), none = socket(domain, SOCK_STREAM, 0);
  struct sockaddr_storage is;
  socklen_t room = sizeof is;
  pthread_t t;
  SAY(bind(fd, at, length));
  SAY(connect(none, at, length));
  SAY(listen(fd, 5));
  SAY(getsockname(fd, (struct sockaddr *)&is, &room) + (int)room);
  pthread_create(&t, NULL, serves, &fd);
  asks((struct sockaddr *)&is, room, domain);
  asks((struct sockaddr *)&is, room, domain);
  pthread_join(t, NULL);
  SAY(close(fd));
  SAY(close(none));
}

/* An address that is none of the machine's: the kernel takes it for this host. */
static void elsewhere(void) {
  int server = socket(AF_INET, SOCK_STREAM, 0), far = socket(AF_INET, SOCK_STREAM, 0);
  int none = socket(AF_INET, SOCK_STREAM, 0);
  any.sin_addr.s_addr = htonl(INADDR_LOOPBACK);
  SAY(bind(server, (struct sockaddr *)&any, sizeof any));
  SAY(listen(server, 5));
  struct sockaddr_in to = here(server);
  to.sin_addr.s_addr = htonl(INADDR_ANY);
  SAY(connect(far, (struct sockaddr *)&to, sizeof to));
  int got = accept(server, NULL, NULL);
  SAY(write(far, "hello", 5));
  SAY(read(got, text, 10));
  SAY(connect(far, (struct sockaddr *)&to, sizeof to));
  close(got);
  close(server);
  SAY(read(far, text, 10));
  SAY(connect(none, (struct sockaddr *)&to, sizeof to));
  close(far);
  close(none);
}

/* Several messages with one call. */
static void several(int one, int other) {
  struct iovec out[3] = {{"first", 5}, {"second", 6}, {"third", 5}};
  struct iovec in[4] = {{text, 10}, {text + 10, 3}, {text + 20, 10}, {text + 30, 10}};
  struct mmsghdr all[4];
  struct timespec none = {0, 0}, wrong = {0, 1000000000};
  memset(all, 0, sizeof all), memset(text, 0, sizeof text);
  for (int i = 0; i < 3; i++) all[i].msg_hdr = (struct msghdr){.msg_iov = &out[i], .msg_iovlen = 1};
  SAY(sendmmsg(one, all, 3, 0));
  printf("%u %u %u\n", all[0].msg_len, all[1].msg_len, all[2].msg_len);
  SAY(sendmmsg(-1, all, 3, 0));
  for (int i = 0; i < 4; i++) all[i].msg_hdr = (struct msghdr){.msg_iov = &in[i], .msg_iovlen = 1};
  SAY(recvmmsg(other, all, 4, MSG_DONTWAIT, &wrong));
  SAY(recvmmsg(other, all, 4, 0, &none));
  SAY(recvmmsg(other, all + 1, 3, MSG_WAITFORONE, NULL));
  printf("%u %u %u %s %s %s %d\n", all[0].msg_len, all[1].msg_len, all[2].msg_len, text, text + 10, text + 20,
         all[1].msg_hdr.msg_flags == MSG_TRUNC);
  SAY(recvmmsg(other, all, 4, MSG_DONTWAIT, NULL));
}
/* A descriptor that another process sends. What is sent by system calls alone is not ours, and a rerun sends none. */
static void brought(void) {
  struct sockaddr_un to = {.sun_family = AF_UNIX, .sun_path = "brought"};
  int fd = socket(AF_UNIX, SOCK_DGRAM, 0);
  union { char bytes[CMSG_SPACE(sizeof(int))]; struct cmsghdr aligned; } control;
  struct iovec part = {"with one", 8};
  struct msghdr m = {.msg_name = &to, .msg_namelen = sizeof to, .msg_iov = &part, .msg_iovlen = 1,
                     .msg_control = &control, .msg_controllen = sizeof control};
  SAY(bind(fd, (struct sockaddr *)&to, sizeof to));
  long other = syscall(SYS_socket, AF_UNIX, SOCK_DGRAM, 0);
  CMSG_FIRSTHDR(&m)->cmsg_level = SOL_SOCKET, CMSG_FIRSTHDR(&m)->cmsg_type = SCM_RIGHTS;
  CMSG_FIRSTHDR(&m)->cmsg_len = CMSG_LEN(sizeof(int));
  memcpy(CMSG_DATA(CMSG_FIRSTHDR(&m)), &(int){(int)other}, sizeof(int));
  (void)syscall(SYS_sendmsg, other, &m, 0);
  part = (struct iovec){text, 100};
  m = (struct msghdr){.msg_iov = &part, .msg_iovlen = 1};
  SAY(recvmsg(fd, &m, 0));
  SAY(m.msg_flags == MSG_CTRUNC);
  SAY(close(fd));
  SAY(unlink("brought"));
}

static void hosts(void) {
  struct addrinfo hints = {.ai_flags = AI_CANONNAME, .ai_family = AF_INET, .ai_socktype = SOCK_STREAM}, *found;
  SAY(getaddrinfo("localhost", "80", &hints, &found));
  for (const struct addrinfo *it = found; it; it = it->ai_next) {
    char there[INET_ADDRSTRLEN];
    const struct sockaddr_in *in = (const struct sockaddr_in *)it->ai_addr;
    printf("%s %d %d %s\n", inet_ntop(AF_INET, &in->sin_addr, there, sizeof there), ntohs(in->sin_port),
           it->ai_socktype, it->ai_canonname ? it->ai_canonname : "-");
  }
  freeaddrinfo(found);
  SAY(getaddrinfo("localhost", "no such service", &hints, &found) == EAI_SERVICE);
  SAY(getaddrinfo("127.0.0.1", NULL, NULL, &found));
  freeaddrinfo(found);
}

int main(void) {
  struct sockaddr_un name = {.sun_family = AF_UNIX, .sun_path = "socket"};
  struct sockaddr_in6 six = {.sin6_family = AF_INET6, .sin6_addr = IN6ADDR_LOOPBACK_INIT};
  struct msghdr m = {.msg_control = text, .msg_controllen = 16};
  int pair[2];
  elsewhere();
  hosts();
  datagrams();
  SAY(unlink("socket"));
  streams((struct sockaddr *)&name, sizeof name, AF_UNIX);
  SAY(access("socket", F_OK));
  SAY(unlink("socket"));
  streams((struct sockaddr *)&six, sizeof six, AF_INET6);
  SAY(socketpair(AF_UNIX, SOCK_DGRAM, 0, pair));
  SAY(write(pair[0], "message", 7));
  SAY(write(pair[0], "another", 7));
  SAY(read(pair[1], text, 100));
  SAY(readv(pair[1], &(struct iovec){text, 3}, 1));
  several(pair[0], pair[1]);
  brought();
  errno = 0;
  SAY(sendmsg(pair[0], &m, 0) < 0);
  SAY(socket(AF_UNIX, 99, 0));
  SAY(socket(AF_INET6, SOCK_DGRAM, 99));
  return 0;
}
