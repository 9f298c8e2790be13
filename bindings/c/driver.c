/* Tests of detio_threads.h and detio_host.h, in a folder of their own: cc driver.c -I . -L ../out -ldetio -lpthread */
#include "checks.h"
#include "detio_host.h"
#include "detio_threads.h"

#include <arpa/inet.h>
#include <errno.h>
#include <fcntl.h>
#include <netinet/in.h>
#include <signal.h>
#include <stdio.h>
#include <stdlib.h>
#include <string.h>
#include <sys/socket.h>
#include <sys/stat.h>
#include <sys/time.h>
#include <time.h>
#include <unistd.h>

static uint8_t data[32768];
static const detio_settings one = SETTINGS(1, 1000, 2, 1 << 20);

static int64_t now(void) {
  struct timespec it;
  clock_gettime(CLOCK_MONOTONIC, &it);
  return (int64_t)it.tv_sec * 1000 + it.tv_nsec / 1000000;
}

static void sleeps(long milliseconds) {
  struct timespec it = {milliseconds / 1000, milliseconds % 1000 * 1000000};
  while (nanosleep(&it, &it) < 0 && errno == EINTR) {
  }
}

static void begins(detio_run *run, size_t threads, unsigned wait) {
  detio_settings settings = one;
  settings.threads = threads;
  CHECK(detio_run_begin(run, &settings, wait) == DETIO_DONE);
}

static uint32_t calls(detio_run *run, size_t thread, detio_call call, const char *text, detio_reply *reply) {
  return detio_thread_call(run, thread, &call, text, text ? strlen(text) : 0, NULL, 0, reply, data, sizeof data);
}

/* A call of thread 0 that is answered: its number, or less the number of its error. */
static int64_t made(detio_run *run, detio_call call, const char *text) {
  detio_reply reply;
  CHECK(calls(run, 0, call, text, &reply) == DETIO_DONE);
  if (reply.kind == DETIO_FAILURE) return -(int64_t)reply.error;
  return reply.kind == DETIO_NUMBER ? reply.first : (int64_t)reply.count;
}

/* ## Threads that wait */

typedef struct {
  detio_run *run;
  size_t thread;
  detio_call call;
  uint32_t code;
  detio_reply reply;
} caller;

static void *makes(void *given) {
  caller *it = given;
  it->code = calls(it->run, it->thread, it->call, NULL, &it->reply);
  return NULL;
}

/* A thread works, makes a call, and waits for the turn, which another does not give up. */
static pthread_t asks(caller *it, detio_run *run, size_t thread, uint32_t kind) {
  pthread_t started;
  *it = (caller){.run = run, .thread = thread, .call = {.kind = kind}};
  CHECK(detio_thread_work(run, thread, 100) == DETIO_DONE);
  CHECK(pthread_create(&started, NULL, makes, it) == 0);
  sleeps(50);
  return started;
}

static pthread_t waits(caller *it, detio_run *run) { return asks(it, run, 1, DETIO_PIPE); }

static void a_stop_ends_each_wait(void) {
  detio_run run;
  detio_run_end ended;
  caller it;
  begins(&run, 2, 10);
  pthread_t started = waits(&it, &run);
  detio_run_stop(&run, DETIO_STOP_MEMORY, 0);
  CHECK(pthread_join(started, NULL) == 0 && it.code == DETIO_STOPPED);
  CHECK(detio_run_finish(&run, &ended) == DETIO_DONE && ended.how == DETIO_FOR_MEMORY);
  detio_run_free(&run);
  begins(&run, 2, 10);
  started = waits(&it, &run);
  CHECK(detio_run_finish(&run, &ended) == DETIO_DONE && ended.how == DETIO_SOME_RUN);
  CHECK(pthread_join(started, NULL) == 0 && it.code == DETIO_OVER);
  detio_run_free(&run);
}

/* A thread whose last step is a work, or its end, lets the others go on. */
static void work_lets_others_go_on(void) {
  for (int ends = 0; ends < 2; ends++) {
    detio_run run;
    caller it;
    begins(&run, 2, 10);
    pthread_t started = waits(&it, &run);
    CHECK((ends ? detio_thread_end(&run, 0) : detio_thread_work(&run, 0, 1000)) == DETIO_DONE);
    CHECK(pthread_join(started, NULL) == 0 && it.code == DETIO_DONE && it.reply.kind == DETIO_PAIR);
    detio_run_free(&run);
  }
}

static void a_full_clock_ends_each_wait(void) {
  detio_run run;
  detio_run_end ended;
  caller it;
  detio_reply reply;
  begins(&run, 2, 10);
  pthread_t started = waits(&it, &run);
  CHECK(detio_thread_work(&run, 0, (UINT64_C(1) << 62) - 1) == DETIO_DONE);
  CHECK(pthread_join(started, NULL) == 0 && it.code == DETIO_DONE);
  CHECK(detio_thread_work(&run, 1, (UINT64_C(1) << 62) - 200) == DETIO_DONE);
  CHECK(detio_thread_end(&run, 1) == DETIO_DONE);
  CHECK(calls(&run, 0, (detio_call){.kind = DETIO_PIPE}, NULL, &reply) == DETIO_STOPPED);
  CHECK(detio_run_finish(&run, &ended) == DETIO_DONE && ended.how == DETIO_FOR_CLOCK_FULL);
  detio_run_free(&run);
}

/* The order of turns, by two threads of which the second comes first. */
static void calls_have_turns(void) {
  detio_run run;
  caller it;
  detio_reply reply;
  uint64_t turn = 7, clock = 7;
  begins(&run, 2, 10);
  pthread_t started = waits(&it, &run);
  CHECK(detio_thread_work(&run, 0, 200) == DETIO_DONE);
  CHECK(pthread_join(started, NULL) == 0 && it.code == DETIO_DONE && detio_thread_end(&run, 1) == DETIO_DONE);
  CHECK(calls(&run, 0, (detio_call){.kind = DETIO_GETFL}, NULL, &reply) == DETIO_DONE);
  CHECK(detio_thread_turn(&run, 1, &turn, &clock) == DETIO_DONE && turn == 1 && clock == 105);
  CHECK(detio_thread_turn(&run, 0, &turn, &clock) == DETIO_DONE && turn == 2 && clock == 203);
  CHECK(detio_thread_turn(&run, 2, &turn, &clock) == DETIO_NO_THREAD && turn == 2 && clock == 203);
  detio_run_free(&run);
}

/* Two that wait are granted by one look. The first takes an object, which costs more than the second's call does; but
 * the table that it let go is free for clocks alone that are not below its own. So clocks say the order. */
static void calls_at_one_clock_have_turns(void) {
  detio_run run;
  caller first, second;
  uint64_t turn = 0, clock = 0;
  begins(&run, 3, 10);
  pthread_t started[] = {asks(&first, &run, 0, DETIO_PIPE), asks(&second, &run, 1, DETIO_GETFL)};
  CHECK(detio_thread_end(&run, 2) == DETIO_DONE);
  for (int t = 0; t < 2; t++) CHECK(pthread_join(started[t], NULL) == 0);
  CHECK(detio_thread_turn(&run, 0, &turn, &clock) == DETIO_DONE && turn == 1 && clock == 105);
  CHECK(detio_thread_turn(&run, 1, &turn, &clock) == DETIO_DONE && turn == 2 && clock == 106);
  detio_run_free(&run);
}

/* A loop that tries its threads knows whether one moved: two that wait for each other come to the end of their
 * patience. */
static void a_loop_knows_whether_it_moved(void) {
  detio_run run;
  detio_settings settings = one;
  detio_reply reply;
  detio_call pipe = {.kind = DETIO_PIPE}, read = {.kind = DETIO_READ, .number = 9};
  uint32_t codes[2];
  int sweeps = 0;
  settings.threads = 2;
  settings.patience = 50;
  CHECK(detio_run_begin(&run, &settings, 10) == DETIO_DONE && detio_thread_work(&run, 1, 50) == DETIO_DONE);
  CHECK(detio_thread_start(&run, 0, &pipe, NULL, 0, NULL, 0, &reply, NULL, 0) == DETIO_DONE);
  for (size_t t = 0; t < 2; t++) codes[t] = detio_thread_start(&run, t, &read, NULL, 0, NULL, 0, &reply, data, 9);
  for (bool moved = true; moved; sweeps++) {
    moved = false;
    for (size_t t = 0; t < 2; t++) {
      if (codes[t] != DETIO_DONE) codes[t] = detio_thread_try(&run, t, &reply, data, 9);
      moved |= codes[t] == DETIO_MOVED;
    }
  }
  CHECK(codes[0] == DETIO_DONE || codes[1] == DETIO_DONE);
  CHECK(reply.kind == DETIO_FAILURE && reply.error == DETIO_EINTR && sweeps > 2);
  detio_run_free(&run);
}

/* ## Lines */

static void a_still_run_says_who_waits(void) {
  detio_run run;
  char line[200] = "";
  caller it;
  begins(&run, 3, 10);
  CHECK(detio_thread_end(&run, 2) == DETIO_DONE && detio_run_still(&run, 0, line, sizeof line) == 0);
  pthread_t started = waits(&it, &run);
  CHECK(detio_run_still(&run, 60000, line, sizeof line) == 0);
  size_t length = detio_run_still(&run, 0, line, sizeof line);
  CHECK(length == strlen(line) && !strcmp(line, "no event for 0 s: thread 0 is in no call (computing, or waiting for "
                                                "something outside of the run, which looks the same); thread 1 waits "
                                                "for the turn"));
  CHECK(detio_run_still(&run, 0, line, 10) == 9 && strlen(line) == 9);
  CHECK(detio_thread_end(&run, 0) == DETIO_DONE && pthread_join(started, NULL) == 0);
  CHECK(detio_run_still(&run, 0, line, sizeof line) == 0);
  detio_run_free(&run);
}

/* The log of a run that opens a host file, and writes to it or reads from it. */
static size_t recorded(bool writes, uint8_t *log, size_t room) {
  detio_run run;
  detio_run_end ended;
  size_t length;
  begins(&run, 1, 10);
  detio_call open = {.kind = DETIO_HOST_OPEN, .choice = DETIO_READ_WRITE, .flags = DETIO_CREATE};
  CHECK(made(&run, open, "driver.txt") == 0);
  if (writes) CHECK(made(&run, (detio_call){.kind = DETIO_WRITE}, "four") == 4);
  else CHECK(made(&run, (detio_call){.kind = DETIO_READ, .number = 20}, NULL) == 4);
  CHECK(detio_thread_end(&run, 0) == DETIO_DONE && detio_run_finish(&run, &ended) == DETIO_DONE);
  CHECK(detio_run_log(&run, 0, log, room, &length) == DETIO_DONE && length == ended.length);
  detio_run_free(&run);
  return length;
}

/* What a replay says whose thread opens, and then makes this call, if any. */
static void strays(const uint8_t *log, size_t length, detio_call then, const char *text, uint32_t code,
                   const char *said) {
  detio_run run;
  detio_run_end ended;
  detio_reply reply;
  char line[200] = "";
  CHECK(detio_run_replay(&run, log, length) == DETIO_DONE);
  CHECK(made(&run, (detio_call){.kind = DETIO_HOST_OPEN, .choice = DETIO_READ_WRITE}, "driver.txt") == 0);
  CHECK(detio_run_strayed(&run, line, sizeof line) == 0);
  if (then.kind) CHECK(calls(&run, 0, then, text, &reply) == code);
  detio_thread_end(&run, 0);
  CHECK(detio_run_finish(&run, &ended) == DETIO_DONE && ended.how != DETIO_ALL_ENDED);
  size_t count = detio_run_strayed(&run, line, sizeof line);
  if (count != strlen(said) || strcmp(line, said)) fprintf(stderr, "said: %s\n", line);
  CHECK(count == strlen(said) && !strcmp(line, said));
  detio_run_free(&run);
}

static void a_divergence_says_what_was_asked(void) {
  static uint8_t log[512];
  static const detio_call read = {.kind = DETIO_READ, .number = 20}, write = {.kind = DETIO_WRITE},
                          nothing = {.kind = 0}, listen = {.kind = DETIO_TCP_LISTEN, .number = 80};
  size_t length = recorded(true, log, sizeof log);
  strays(log, length, read, NULL, DETIO_DIVERGED,
         "thread 0, call 2, clock 208: asked read of 20 bytes; the log has write ok 4 of turn 105");
  strays(log, length, listen, NULL, DETIO_DIVERGED,
         "thread 0, call 2, clock 207: asked listen at port 80; the log has write ok 4 of turn 105");
  strays(log, length, nothing, NULL, 0, "thread 0 ended after call 1; the log has more of it: write ok 4 of turn 105");
  strays(log, length - 5 - 27, write, "seventeen", DETIO_END_OF_LOG,
         "thread 0, call 2, clock 208: asked write of 9 bytes; the log has no more of this thread");
  length = recorded(false, log, sizeof log);
  strays(log, length, write, "x", DETIO_DIVERGED,
         "thread 0, call 2, clock 208: asked write of 1 bytes; the log has read ok 4 of turn 105");
  CHECK(remove("driver.txt") == 0);
}

static void numbers_have_names(void) {
  CHECK(detio_version() == DETIO_VERSION);
  CHECK(!strcmp(detio_code_name(DETIO_DONE), "DETIO_DONE") && !strcmp(detio_code_name(DETIO_OVER), "DETIO_OVER"));
  CHECK(!strcmp(detio_code_name(DETIO_NO_ROOM), "DETIO_NO_ROOM") && !detio_code_name(18));
  CHECK(!strcmp(detio_code_name(DETIO_MOVED), "DETIO_MOVED") && !detio_code_name(UINT32_MAX));
  CHECK(!strcmp(detio_end_name(DETIO_ALL_ENDED), "ended") && !detio_end_name(7) && !detio_error_name(27));
  CHECK(!strcmp(detio_end_name(DETIO_FOR_DIVERGED), "stopped: the log diverged") && !detio_error_name(0));
}

/* ## The host */

static void nothing_is_no_text(void) {
  detio_run run;
  detio_reply reply;
  detio_call write = {.kind = DETIO_WRITE}, link = {.kind = DETIO_LINK};
  begins(&run, 1, 10);
  CHECK(detio_thread_call(&run, 0, &write, NULL, 5, NULL, 0, &reply, NULL, 0) == DETIO_NOT_A_CALL);
  CHECK(detio_thread_call(&run, 0, &link, "/a", 2, NULL, 5, &reply, NULL, 0) == DETIO_NOT_A_CALL);
  CHECK(calls(&run, 0, (detio_call){.kind = DETIO_PIPE}, NULL, &reply) == DETIO_DONE);
  detio_run_free(&run);
}

/* What the run has closed it does not close again; what it has open it closes; and a child inherits none of it. */
static void doors_are_closed_once(void) {
  detio_run run;
  detio_call open_file = {.kind = DETIO_HOST_OPEN, .choice = DETIO_WRITE_ONLY, .flags = DETIO_CREATE};
  int lowest = dup(0);
  CHECK(lowest >= 0 && close(lowest) == 0);
  begins(&run, 1, 10);
  for (int times = 0; times < 60; times++) {
    int64_t at = made(&run, open_file, "driver.txt");
    CHECK(at == 0 && (fcntl(lowest, F_GETFD) & FD_CLOEXEC) && made(&run, (detio_call){.kind = DETIO_CLOSE}, NULL) == 0);
  }
  CHECK(made(&run, open_file, "driver.txt") == 0 && made(&run, open_file, "driver.txt") == 1);
  CHECK(made(&run, (detio_call){.kind = DETIO_CLOSE}, NULL) == 0);
  int mine = open("driver.txt", O_WRONLY);
  CHECK(mine == lowest);
  CHECK(detio_thread_end(&run, 0) == DETIO_DONE);
  detio_run_free(&run);
  CHECK(write(mine, "mine", 4) == 4 && fcntl(lowest + 1, F_GETFD) < 0);
  CHECK(close(mine) == 0 && remove("driver.txt") == 0);
}

static void errors_of_the_host(void) {
  static const int host[] = {ENOENT, EACCES, EPERM, EEXIST, EAGAIN, EINTR, EPIPE, ECONNREFUSED, ECONNRESET, EADDRINUSE,
                             ETIMEDOUT, EINVAL, EMFILE, EIO};
  static const uint32_t here[] = {DETIO_ENOENT, DETIO_EACCES, DETIO_EACCES, DETIO_EEXIST, DETIO_EAGAIN, DETIO_EINTR,
                                  DETIO_EPIPE, DETIO_ECONNREFUSED, DETIO_ECONNRESET, DETIO_EADDRINUSE, DETIO_ETIMEDOUT,
                                  DETIO_EINVAL, DETIO_EIO, DETIO_EIO};
  for (size_t i = 0; i < sizeof host / sizeof *host; i++) CHECK(detio_host_error(host[i]) == here[i]);
}

static void a_path_has_no_zero_byte(void) {
  detio_run run;
  detio_reply reply;
  detio_call open = {.kind = DETIO_HOST_OPEN, .choice = DETIO_WRITE_ONLY, .flags = DETIO_CREATE};
  begins(&run, 1, 10);
  CHECK(detio_thread_call(&run, 0, &open, "dr\0x", 4, NULL, 0, &reply, NULL, 0) == DETIO_DONE);
  CHECK(reply.kind == DETIO_FAILURE && reply.error == DETIO_EINVAL && access("dr", F_OK) < 0);
  detio_run_free(&run);
  /* (the run refuses it before; so does the host, for whoever asks it without a run) */
  detio_outside asked = {.kind = DETIO_ASKS_OPEN, .length = 4, .call = open};
  detio_outcome came;
  memcpy(data, "dr\0x", 4);
  detio_host_reach(&asked, false, 0, 10, data, sizeof data, &came);
  CHECK(came.error == DETIO_EINVAL && access("dr", F_OK) < 0);
}

/* The address at which a descriptor listens or is connected. */
static struct sockaddr_in address_of(int at) {
  struct sockaddr_in it;
  socklen_t length = sizeof it;
  CHECK(getsockname(at, (struct sockaddr *)&it, &length) == 0);
  return it;
}

/* A listener of the test's own at 127.0.0.1, with this backlog: its port. */
static uint16_t listens(int *listener, int backlog) {
  struct sockaddr_in at = {.sin_family = AF_INET, .sin_addr = {htonl(INADDR_LOOPBACK)}};
  *listener = socket(AF_INET, SOCK_STREAM, 0);
  CHECK(*listener >= 0 && bind(*listener, (struct sockaddr *)&at, sizeof at) == 0 && listen(*listener, backlog) == 0);
  return ntohs(address_of(*listener).sin_port);
}

/* A listener is at 127.0.0.1 alone, and its port is free again at once. */
static void a_listener_is_local(void) {
  uint16_t port = 0;
  for (int times = 0; times < 2; times++) {
    detio_run run;
    int lowest = dup(0);
    CHECK(lowest >= 0 && close(lowest) == 0);
    begins(&run, 1, 10);
    CHECK(made(&run, (detio_call){.kind = DETIO_TCP_LISTEN, .number = port}, NULL) == 0);
    struct sockaddr_in at = address_of(lowest);
    CHECK(at.sin_addr.s_addr == htonl(INADDR_LOOPBACK) && (!port || port == ntohs(at.sin_port)));
    port = ntohs(at.sin_port);
    CHECK(made(&run, (detio_call){.kind = DETIO_TCP_CONNECT, .number = port}, NULL) == 1);
    CHECK(made(&run, (detio_call){.kind = DETIO_TCP_ACCEPT}, NULL) == 2);
    /* (the side that closes first keeps the port for a while) */
    CHECK(made(&run, (detio_call){.kind = DETIO_CLOSE, .descriptor = 2}, NULL) == 0);
    CHECK(made(&run, (detio_call){.kind = DETIO_CLOSE, .descriptor = 1}, NULL) == 0);
    detio_run_free(&run);
  }
}

/* A stream without room: with nonblock EAGAIN at once, and without it each wait has its bound. */
static void a_full_stream_has_a_bound(void) {
  detio_run run;
  detio_settings settings = one;
  static char bytes[32000];
  int listener;
  uint16_t port = listens(&listener, 5);
  settings.patience = 3;
  CHECK(detio_run_begin(&run, &settings, 30) == DETIO_DONE);
  CHECK(made(&run, (detio_call){.kind = DETIO_TCP_CONNECT, .number = port}, NULL) == 0);
  CHECK(made(&run, (detio_call){.kind = DETIO_SETFL, .flags = DETIO_NONBLOCK}, NULL) == 0);
  int64_t begun = now();
  CHECK(made(&run, (detio_call){.kind = DETIO_READ, .number = 1}, NULL) == -DETIO_EAGAIN);
  memset(bytes, 'x', sizeof bytes - 1);
  int64_t count;
  do count = made(&run, (detio_call){.kind = DETIO_WRITE}, bytes);
  while (count > 0);
  CHECK(count == -DETIO_EAGAIN && now() - begun < 9000);
  CHECK(made(&run, (detio_call){.kind = DETIO_SETFL}, NULL) == 0);
  do begun = now(), count = made(&run, (detio_call){.kind = DETIO_WRITE}, bytes);
  while (count > 0);
  CHECK(count == -DETIO_EINTR && now() - begun >= 60 && now() - begun < 9000);
  begun = now();
  CHECK(made(&run, (detio_call){.kind = DETIO_READ, .number = 1}, NULL) == -DETIO_EINTR);
  CHECK(now() - begun >= 60 && now() - begun < 9000);
  detio_run_free(&run);
  CHECK(close(listener) == 0);
}

/* A listener whose backlog is full: the connection is given up after its wait. */
static void a_connection_has_a_bound(void) {
  detio_run run;
  int listener, full[64], count = 0;
  uint16_t port = listens(&listener, 0);
  struct sockaddr_in at = address_of(listener);
  /* (so many that the kernel takes no more) */
  for (; count < 8; count++) {
    full[count] = socket(AF_INET, SOCK_STREAM, 0);
    CHECK(full[count] >= 0 && fcntl(full[count], F_SETFL, O_NONBLOCK) == 0);
    (void)connect(full[count], (struct sockaddr *)&at, sizeof at);
  }
  begins(&run, 1, 200);
  int64_t begun = now();
  CHECK(made(&run, (detio_call){.kind = DETIO_TCP_CONNECT, .number = port}, NULL) == -DETIO_ETIMEDOUT);
  CHECK(now() - begun >= 190 && now() - begun < 9000);
  while (count) close(full[--count]);
  CHECK(close(listener) == 0);
  CHECK(made(&run, (detio_call){.kind = DETIO_TCP_CONNECT, .number = port}, NULL) == -DETIO_ECONNREFUSED);
  detio_run_free(&run);
}

/* A FIFO: to be written to it waits for a reader, no longer than is said; to be read it is opened at once, and a read
 * waits for bytes, no longer than is said. */
static void a_fifo_has_a_bound(void) {
  detio_run run;
  detio_settings settings = one;
  detio_call writes = {.kind = DETIO_HOST_OPEN, .choice = DETIO_WRITE_ONLY}, reads = {.kind = DETIO_HOST_OPEN},
             read = {.kind = DETIO_READ, .number = 9};
  CHECK(mkfifo("driver-fifo", 0600) == 0);
  settings.patience = 2;
  CHECK(detio_run_begin(&run, &settings, 100) == DETIO_DONE);
  int64_t begun = now();
  CHECK(made(&run, writes, "driver-fifo") == -DETIO_ETIMEDOUT && now() - begun >= 100 && now() - begun < 9000);
  CHECK(made(&run, reads, "driver-fifo") == 0);
  begun = now();
  CHECK(made(&run, read, NULL) == -DETIO_EINTR && now() - begun >= 100 && now() - begun < 9000);
  CHECK(made(&run, writes, "driver-fifo") == 1);
  CHECK(made(&run, (detio_call){.kind = DETIO_WRITE, .descriptor = 1}, "late") == 4 && made(&run, read, NULL) == 4);
  CHECK(made(&run, (detio_call){.kind = DETIO_CLOSE, .descriptor = 1}, NULL) == 0 && made(&run, read, NULL) == 0);
  detio_run_free(&run);
  CHECK(remove("driver-fifo") == 0);
}

static volatile sig_atomic_t rang;
static void rings(int signal) {
  (void)signal;
  rang++;
}

/* Signals do not end a wait: an accept of 100 milliseconds has them, whatever comes. */
static void a_wait_outlasts_signals(void) {
  detio_run run;
  detio_settings settings = one;
  struct sigaction action = {.sa_handler = rings};
  struct itimerval often = {{0, 2000}, {0, 2000}}, never = {{0, 0}, {0, 0}};
  settings.patience = 1;
  CHECK(detio_run_begin(&run, &settings, 100) == DETIO_DONE && sigaction(SIGALRM, &action, NULL) == 0);
  CHECK(made(&run, (detio_call){.kind = DETIO_TCP_LISTEN}, NULL) == 0);
  CHECK(setitimer(ITIMER_REAL, &often, NULL) == 0);
  int64_t begun = now();
  CHECK(made(&run, (detio_call){.kind = DETIO_TCP_ACCEPT}, NULL) == -DETIO_EINTR);
  CHECK(now() - begun >= 99 && setitimer(ITIMER_REAL, &never, NULL) == 0 && rang);
  detio_run_free(&run);
}

int main(void) {
  alarm(60); /* what hangs ends */
  a_stop_ends_each_wait();
  work_lets_others_go_on();
  a_full_clock_ends_each_wait();
  calls_have_turns();
  calls_at_one_clock_have_turns();
  a_loop_knows_whether_it_moved();
  a_still_run_says_who_waits();
  a_divergence_says_what_was_asked();
  numbers_have_names();
  nothing_is_no_text();
  doors_are_closed_once();
  errors_of_the_host();
  a_path_has_no_zero_byte();
  a_listener_is_local();
  a_full_stream_has_a_bound();
  a_connection_has_a_bound();
  a_fifo_has_a_bound();
  a_wait_outlasts_signals();
  printf("the driver and the host are as they should be\n");
  return 0;
}
