/* A server and two clients at 127.0.0.1, all of one process. */
#define _GNU_SOURCE
#include "said.h"

#include <arpa/inet.h>
#include <fcntl.h>
#include <net/if.h>
#include <netinet/in.h>
#include <netinet/tcp.h>
#include <poll.h>
#include <pthread.h>
#include <sys/ioctl.h>
#include <sys/socket.h>
#include <sys/uio.h>
#include <unistd.h>

static struct sockaddr_in address;
static pthread_mutex_t m = PTHREAD_MUTEX_INITIALIZER;
static long answered;

static void *client(void *given) {
  char text[32], back[32];
  int s = socket(AF_INET, SOCK_STREAM, 0);
  if (connect(s, (struct sockaddr *)&address, sizeof address)) return (void *)-1;
  for (int i = 0; i < 5; i++) {
    int n = snprintf(text, sizeof text, "client %ld %d", (long)given, i);
    if (recv(s, back, 1, MSG_PEEK | MSG_DONTWAIT) != -1 || errno != EAGAIN) return (void *)-3;
    if (send(s, text, (size_t)n, MSG_NOSIGNAL) != n || recv(s, back, 7, MSG_PEEK) < 1 || memcmp(text, back, 1) ||
        recv(s, back, (size_t)n, MSG_WAITALL) != n || memcmp(text, back, (size_t)n))
      return (void *)-2;
    pthread_mutex_lock(&m);
    answered++;
    pthread_mutex_unlock(&m);
  }
  shutdown(s, SHUT_WR);
  long last = recv(s, back, sizeof back, 0);
  close(s);
  return (void *)last;
}

static void *serve(void *given) {
  int s = (int)(long)given;
  char text[32];
  for (ssize_t n; (n = read(s, text, sizeof text)) > 0;) {
    struct iovec part = {text, (size_t)n};
    struct msghdr message = {.msg_iov = &part, .msg_iovlen = 1};
    if (sendmsg(s, &message, 0) != n) break;
  }
  close(s);
  return NULL;
}

/* How long a connection waits, what is sent without a wait, and what is asked of interfaces. */
static void asks(int fd) {
  struct ifreq it = {.ifr_name = "lo"};
  SAY(ioctl(fd, SIOCGIFFLAGS, &it) + (it.ifr_flags & (IFF_LOOPBACK | IFF_UP)));
  SAY(ioctl(fd, SIOCGIFINDEX, &it) + it.ifr_ifindex);
  memset(it.ifr_name, '?', sizeof it.ifr_name);
  SAY(ioctl(fd, SIOCGIFNAME, &it) + strcmp(it.ifr_name, "lo"));
  strcpy(it.ifr_name, "none such");
  SAY(ioctl(fd, SIOCGIFMTU, &it));
}
static void limits(void) {
  struct sockaddr_in to = {.sin_family = AF_INET, .sin_addr.s_addr = htonl(INADDR_LOOPBACK)};
  socklen_t length = sizeof to;
  struct timeval soon = {0, 5000}, never = {0, 0};
  char text[9];
  int s = socket(AF_INET, SOCK_STREAM, 0), c = socket(AF_INET, SOCK_STREAM, 0), u = socket(AF_INET, SOCK_DGRAM, 0);
  SAY(bind(s, (struct sockaddr *)&to, sizeof to));
  SAY(listen(s, 1));
  SAY(setsockopt(s, SOL_SOCKET, SO_RCVTIMEO, &soon, sizeof soon));
  SAY(accept(s, NULL, NULL));
  SAY(getsockname(s, (struct sockaddr *)&to, &length));
  SAY(setsockopt(c, SOL_SOCKET, SO_RCVTIMEO, &soon, sizeof soon));
  asks(c);
  SAY(connect(c, (struct sockaddr *)&to, sizeof to));
  SAY(recv(c, text, sizeof text, 0));
  SAY(read(c, text, sizeof text));
  int a = accept(s, NULL, NULL);
  SAY(send(a, "abc", 3, MSG_DONTWAIT));
  SAY(fcntl(a, F_GETFL) & O_NONBLOCK);
  SAY(setsockopt(c, SOL_SOCKET, SO_RCVTIMEO, &never, sizeof never));
  SAY(recv(c, text, 1, 0));
  SAY(ioctl(c, FIONREAD, text) + *(int *)text);
  SAY(recv(c, text, sizeof text, 0));
  asks(c);
  asks(u);
  SAY(close(a) + close(c) + close(s) + close(u));
}

int main(void) {
  pthread_t clients[2], servers[2];
  struct sockaddr_in peer;
  socklen_t length = sizeof address;
  void *result;
  int value = 1;
  int s = socket(AF_INET, SOCK_STREAM | SOCK_CLOEXEC, 0);
  SAY(s);
  limits();
  SAY(setsockopt(s, SOL_SOCKET, SO_REUSEADDR, &value, sizeof value));
  address = (struct sockaddr_in){.sin_family = AF_INET, .sin_addr.s_addr = htonl(INADDR_LOOPBACK)};
  SAY(bind(s, (struct sockaddr *)&address, sizeof address));
  SAY(listen(s, 5));
  SAY(getsockname(s, (struct sockaddr *)&address, &length));
  SAY(ntohs(address.sin_port) != 0);
  SAY(getpeername(s, (struct sockaddr *)&peer, &(socklen_t){sizeof peer}));
  length = sizeof value;
  SAY(getsockopt(s, SOL_SOCKET, SO_TYPE, &value, &length));
  SAY(value);
  struct pollfd ready = {.fd = s, .events = POLLIN};
  SAY(poll(&ready, 1, 1));
  for (long i = 0; i < 2; i++) pthread_create(&clients[i], NULL, client, (void *)i);
  for (int i = 0; i < 2; i++) {
    length = sizeof peer;
    int c = accept(s, (struct sockaddr *)&peer, &length);
    if (ntohl(peer.sin_addr.s_addr) != INADDR_LOOPBACK || !peer.sin_port) c = -1;
    pthread_create(&servers[i], NULL, serve, (void *)(long)c);
  }
  for (int i = 0; i < 2; i++) pthread_join(servers[i], NULL);
  for (int i = 0; i < 2; i++) {
    pthread_join(clients[i], &result);
    SAY((long)result);
  }
  SAY(answered);
  SAY(fcntl(s, F_SETFL, O_NONBLOCK));
  SAY(accept4(s, NULL, NULL, 0));
  SAY(close(s));
  SAY(connect(s, (struct sockaddr *)&address, sizeof address));
  s = socket(AF_INET, SOCK_STREAM, 0);
  SAY(connect(s, (struct sockaddr *)&address, sizeof address));
  SAY(recv(1000, &value, 1, 0));
  return 0;
}
