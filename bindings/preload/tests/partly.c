/* Calls that the run covers, in ways that it does not: each fails with its error, or does nothing, and says so. */
#define _GNU_SOURCE
#include "said.h"

#include <arpa/inet.h>
#include <dirent.h>
#include <fcntl.h>
#include <net/if.h>
#include <netinet/in.h>
#include <poll.h>
#include <sys/ioctl.h>
#include <sys/shm.h>
#include <sys/socket.h>
#include <sys/time.h>
#include <sys/uio.h>
#include <sys/vfs.h>
#include <time.h>
#include <unistd.h>

static void sockets(void) {
  struct sockaddr_in to = {.sin_family = AF_INET, .sin_addr.s_addr = htonl(INADDR_LOOPBACK)};
  struct sockaddr_in far = {.sin_family = AF_INET, .sin_addr.s_addr = htonl(0xc0000201)}; /* 192.0.2.1, for examples */
  struct timeval soon = {0, 5000};
  struct ifconf all = {0};
  int bound = socket(AF_INET, SOCK_STREAM, 0), other = socket(AF_INET, SOCK_STREAM, 0), pair[2];
  SAY(bind(bound, (struct sockaddr *)&to, sizeof to));
  SAY(connect(bound, (struct sockaddr *)&to, sizeof to));
  SAY(bind(other, (struct sockaddr *)&far, sizeof far));
  SAY(setsockopt(other, SOL_SOCKET, SO_SNDTIMEO, &soon, sizeof soon));
  SAY(ioctl(other, SIOCGIFCONF, &all));
  SAY(socketpair(AF_UNIX, SOCK_STREAM, 0, pair));
  SAY(send(pair[0], "x", 1, MSG_OOB));
}

int main(void) {
  struct pollfd many[65];
  struct statfs about;
  struct iovec part = {&part, 1};
  char name[20];
  FILE *last = stdin;
  int f = open("made.txt", O_RDWR | O_CREAT, 0600), p[2];
  for (int i = 0; i < 65; i++) many[i] = (struct pollfd){-1, POLLIN, 0};
  sockets();
  SAY(ioctl(f, 0x5499, name));
  SAY(fcntl(f, F_GETOWN));
  SAY(fcntl(f, F_SETFL, O_ASYNC));
  SAY(preadv2(f, &part, 1, 0, RWF_HIPRI));
  SAY(pwritev2(f, &part, 1, 0, RWF_DSYNC));
  SAY(poll(many, 65, 0));
  SAY(pipe(p));
  SAY(fstatfs(p[0], &about));
  SAY(opendir("/run/room") != NULL);
  SAY(shmget(4711, 10, 0600));
  TELL(clock_nanosleep(CLOCK_PROCESS_CPUTIME_ID, 0, &(struct timespec){0, 1}, NULL));
  for (int i = 0; i < 70 && last; i++) {
    last = fdopen(f, "r");
    if (!last) SAY(-1);
  }
  return 0;
}
