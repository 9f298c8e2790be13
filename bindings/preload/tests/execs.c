/* execs: goes on as itself by each function of exec, stage by stage, and says what is left of the stage before. */
#define _GNU_SOURCE
#include "said.h"

#include <arpa/inet.h>
#include <fcntl.h>
#include <netinet/in.h>
#include <pthread.h>
#include <signal.h>
#include <stdbool.h>
#include <stdlib.h>
#include <string.h>
#include <sys/epoll.h>
#include <sys/socket.h>
#include <sys/stat.h>
#include <sys/time.h>
#include <unistd.h>

static volatile sig_atomic_t came;
static void handles(int number) { came += number; }

/* Numbers of files that go along: one for reading, one that it shares, one for appending; ends of pipes and pairs;
 * sockets; and one that does not go along. */
enum { INPUT = 5, SHARED = 9, OUTPUT = 4, READS = 20, WRITES = 12, ONLY = 14, LEFT = 7, RIGHT = 11, HOST = 16,
       DATAGRAMS = 18, GONE = 22, ALSO = 24 };

static void moves(int from, int to) {
  if (from != to) dup2(from, to), close(from);
}
static void opens(void) {
  int ends[2], address = 0;
  struct sockaddr_in at = {.sin_family = AF_INET};
  socklen_t length = sizeof at;
  at.sin_addr.s_addr = htonl(INADDR_LOOPBACK);
  moves(open("input.txt", O_RDONLY), INPUT);
  dup2(INPUT, SHARED);
  moves(open("left.txt", O_WRONLY | O_CREAT | O_APPEND, 0644), OUTPUT);
  if (pipe(ends)) abort();
  moves(ends[0], READS);
  moves(ends[1], WRITES);
  SAY(write(WRITES, "through a pipe", 14));
  if (pipe(ends)) abort();
  SAY(write(ends[1], "what was left\n", 14));
  close(ends[1]);
  moves(ends[0], ONLY);
  if (socketpair(AF_UNIX, SOCK_STREAM, 0, ends)) abort();
  moves(ends[0], LEFT);
  moves(ends[1], RIGHT);
  SAY(write(LEFT, "to the right", 12));
  SAY(write(RIGHT, "to the left", 11));
  SAY(fcntl(RIGHT, F_SETFL, O_NONBLOCK));
  moves(socket(AF_INET, SOCK_STREAM, 0), HOST);
  address |= bind(HOST, (struct sockaddr *)&at, sizeof at) | listen(HOST, 5);
  moves(socket(AF_INET, SOCK_DGRAM, 0), DATAGRAMS);
  address |= bind(DATAGRAMS, (struct sockaddr *)&at, sizeof at);
  address |= getsockname(DATAGRAMS, (struct sockaddr *)&at, &length);
  SAY(address);
  SAY(sendto(DATAGRAMS, "to itself", 9, 0, (struct sockaddr *)&at, sizeof at));
  moves(open("input.txt", O_RDONLY | O_CLOEXEC), GONE);
  fcntl(GONE, F_SETFD, FD_CLOEXEC);
  dup2(1, ALSO);
}

/* What is there after the first exec. */
static void looks(void) {
  static const int all[] = {0, 1, 2, INPUT, SHARED, OUTPUT, READS, WRITES, ONLY, LEFT, RIGHT, HOST, DATAGRAMS,
                            GONE, ALSO};
  char bytes[64];
  for (size_t i = 0; i < sizeof all / sizeof *all; i++) {
    bool standard = all[i] < 3 || all[i] == ALSO; /* has modes of its own without us */
    int flags = fcntl(all[i], F_GETFL) & (standard ? 0 : O_ACCMODE | O_NONBLOCK | O_APPEND);
    printf("%d: %d %x\n", all[i], fcntl(all[i], F_GETFD), (unsigned)flags);
    fflush(stdout);
  }
  SAY(dup(0) < 6);
#define READ(fd, n) memset(bytes, 0, sizeof bytes), SAY(read(fd, bytes, n)), puts(bytes)
  READ(READS, 64);
  READ(ONLY, 5);
  READ(ONLY, 64);
  READ(ONLY, 64);
  READ(LEFT, 64);
  READ(RIGHT, 64);
  READ(RIGHT, 64);
  READ(DATAGRAMS, 64);
  SAY(write(WRITES, "again", 5));
  READ(READS, 64);
  SAY(write(LEFT, "and again", 9));
  READ(RIGHT, 64);
  struct sockaddr_in at;
  socklen_t length = sizeof at;
  int one = socket(AF_INET, SOCK_STREAM, 0), other;
  SAY(getsockname(HOST, (struct sockaddr *)&at, &length));
  SAY(connect(one, (struct sockaddr *)&at, sizeof at));
  other = accept(HOST, NULL, NULL);
  SAY(write(other, "over the host", 13));
  READ(one, 64);
  SAY(write(ALSO, "also\n", 5));
  close(one), close(other), close(HOST), close(READS), close(LEFT), close(RIGHT), close(WRITES), close(ONLY);
  SAY(fcntl(READS, F_GETFD));
}

/* Signals that are ignored or blocked go along, and timers; handlers do not. */
static void arms(void) {
  sigset_t set;
  sigemptyset(&set);
  sigaddset(&set, SIGALRM);
  signal(SIGUSR1, SIG_IGN);
  signal(SIGUSR2, handles);
  sigprocmask(SIG_BLOCK, &set, NULL);
  setitimer(ITIMER_REAL, &(struct itimerval){{0, 0}, {0, 300000}}, NULL); /* long after the exec */
}
static void waits(void) {
  struct sigaction act;
  sigset_t set;
  sigaction(SIGUSR1, NULL, &act);
  SAY(act.sa_handler == SIG_IGN);
  sigaction(SIGUSR2, NULL, &act);
  SAY(act.sa_handler == SIG_DFL);
  sigprocmask(SIG_BLOCK, NULL, &set);
  SAY(sigismember(&set, SIGALRM));
  signal(SIGALRM, handles);
  sigemptyset(&set);
  SAY(sigsuspend(&set));
  SAY(came == SIGALRM);
}

static void *other(void *given) {
  SAY(execl("/bin/true", "true", NULL));
  return given;
}
/* What does not go on. */
static void fails(const char *self) {
  char *words[] = {"none", NULL};
  SAY(execv("/none", words));
  SAY(execv("", words));
  SAY(execv("/tmp", words));
  SAY(execv("input.txt", words));
  SAY(chmod("input.txt", 0755));
  SAY(execv("input.txt", words));
  SAY(execvp("detio-none", words));
  SAY(execv("input.txt/none", words));
  SAY(execveat(AT_FDCWD, "", words, environ, 0));
  (void)self;
}

int main(int count, char **words) {
  int stage = count > 1 ? atoi(words[1]) : 0;
  char next[16], line[8] = "";
  char self[4096], name[4200], tests[4200];
  snprintf(next, sizeof next, "%d", stage + 1);
  if (count > 1 && !strcmp(words[1], "threads")) {
    pthread_t t;
    pthread_create(&t, NULL, other, NULL);
    return pthread_join(t, NULL);
  }
  if (stage == 0) opens(), setenv("STARTED", "yes", 1);
  snprintf(self, sizeof self, "%s", stage ? getenv("SELF") : words[0]);
  if (stage == 0) setenv("SELF", self, 1), setenv("TESTS", count > 2 ? words[2] : "", 1);
  SAY(read(stage % 2 ? SHARED : INPUT, line, 3));
  printf("stage %d: %s %s %s %s", stage, strrchr(words[0], '/') ? "path" : words[0], getenv("STARTED"),
         getenv("LD_PRELOAD") ? getenv("LD_PRELOAD") : "none", line);
  fflush(stdout);
  snprintf(name, sizeof name, "stage %d\n", stage);
  SAY(write(OUTPUT, name, strlen(name)));
  char *all[] = {"own-name", next, NULL}, *variables[] = {"STARTED=again", name, tests, NULL};
  snprintf(name, sizeof name, "SELF=%s", self);
  snprintf(tests, sizeof tests, "TESTS=%s", getenv("TESTS"));
  switch (stage) {
  case 0: execv(self, all); break;
  case 1: looks(); execve(self, all, environ); break;
  case 2: fails(self); arms(); execl(self, self, next, NULL); break;
  case 3: waits(); SAY(mkdir("below", 0755)); SAY(chdir("below")); SAY(symlink(self, "itself"));
          execlp("./itself", "own-name", next, NULL); break;
  case 4: setenv("PATH", "/none:input.txt:.", 1); execvp("itself", all); break;
  case 5: execvpe("itself", all, variables); break;
  case 6: execle("itself", "own-name", next, NULL, variables); break;
  case 7: fexecve(open(self, O_RDONLY), all, variables); break;
  case 8: execveat(open(".", O_RDONLY), "itself", all, variables, 0); break;
  case 9: setenv("PATH", getenv("TESTS"), 1); execvp("goes-on", all); break;
  case 10: setenv("LD_PRELOAD", "libm.so.6", 1); execv(self, all); break;
  case 11: dup2(OUTPUT, 1); execl("/bin/cat", "cat", "/proc/self/comm", NULL); break;
  }
  perror("exec");
  return 1;
}
