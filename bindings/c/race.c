/* Two threads that deposit into one file: each reads the balance, works, and writes what it read and one more. Where
 * both read before either writes, a deposit is lost.
 *
 *     race record LOG     runs it, and keeps the log
 *     race replay LOG     the same run again
 *     race explore N      under N schedules, each made by a number: says at which a deposit is lost */
#define _POSIX_C_SOURCE 200809L
#include "detio_threads.h"

#include <stdio.h>
#include <stdlib.h>
#include <string.h>

enum { THREADS = 2 };

typedef struct {
  detio_run *run;
  size_t thread;
  uint64_t seed;
  uint32_t code;
} worker;

/* The next of the numbers of a seed. */
static uint64_t next(uint64_t *seed) {
  *seed += 0x9e3779b97f4a7c15u;
  uint64_t x = *seed;
  x = (x ^ (x >> 30)) * 0xbf58476d1ce4e5b9u;
  x = (x ^ (x >> 27)) * 0x94d049bb133111ebu;
  return x ^ (x >> 31);
}

/* A call; before it, in exploring, the thread works for a while, so that the others may come first. */
static int64_t call(worker *w, detio_call asked, const char *text, void *data, size_t room) {
  detio_reply reply = {0};
  if (w->code == DETIO_DONE && w->seed) w->code = detio_thread_work(w->run, w->thread, next(&w->seed) % 30);
  if (w->code == DETIO_DONE)
    w->code = detio_thread_call(w->run, w->thread, &asked, text, text ? strlen(text) : 0, NULL, 0, &reply, data, room);
  if (w->code != DETIO_DONE) return -1;
  if (reply.kind == DETIO_FAILURE) return -(int64_t)reply.error;
  return reply.kind == DETIO_NUMBER ? reply.first : (int64_t)reply.count;
}

static void *deposit(void *given) {
  worker *w = given;
  char balance[32] = {0};
  /* The second comes later, unless a schedule has it otherwise. */
  if (w->thread) w->code = detio_thread_work(w->run, w->thread, 20);
  int64_t at = call(w, (detio_call){.kind = DETIO_OPEN, .choice = DETIO_READ_WRITE, .flags = DETIO_CREATE}, "/balance",
                    NULL, 0);
  int64_t count = call(w, (detio_call){.kind = DETIO_PREAD, .descriptor = at, .number = 31}, NULL, balance, 31);
  balance[count > 0 ? count : 0] = 0;
  snprintf(balance, sizeof balance, "%d", atoi(balance) + 1);
  call(w, (detio_call){.kind = DETIO_PWRITE, .descriptor = at}, balance, NULL, 0);
  call(w, (detio_call){.kind = DETIO_CLOSE, .descriptor = at}, NULL, NULL, 0);
  if (w->code == DETIO_DONE && w->thread == 0) {
    /* What the host has of it. */
    int64_t host = call(w, (detio_call){.kind = DETIO_HOST_OPEN, .choice = DETIO_WRITE_ONLY,
                                        .flags = DETIO_CREATE | DETIO_TRUNCATE}, "race.txt", NULL, 0);
    call(w, (detio_call){.kind = DETIO_WRITE, .descriptor = host}, balance, NULL, 0);
    call(w, (detio_call){.kind = DETIO_CLOSE, .descriptor = host}, NULL, NULL, 0);
  }
  if (w->code == DETIO_DONE) w->code = detio_thread_end(w->run, w->thread);
  return strdup(balance);
}

/* The threads' run: the greatest balance that one of them wrote. */
static int played(detio_run *run, uint64_t seed) {
  pthread_t threads[THREADS];
  worker workers[THREADS];
  int greatest = 0;
  for (size_t t = 0; t < THREADS; t++) {
    workers[t] = (worker){run, t, seed ? seed * THREADS + t : 0, DETIO_DONE};
    pthread_create(&threads[t], NULL, deposit, &workers[t]);
  }
  for (size_t t = 0; t < THREADS; t++) {
    char *balance;
    pthread_join(threads[t], (void **)&balance);
    if (workers[t].code) fprintf(stderr, "thread %zu: code %u\n", t, workers[t].code);
    if (atoi(balance) > greatest) greatest = atoi(balance);
    free(balance);
  }
  return greatest;
}

static const detio_settings settings = {.size = sizeof(detio_settings), .threads = THREADS, .patience = 1000,
                                        .door_cost = 100, .version = 2, .room = 1 << 20};

static int kept(detio_run *run, const char *path) {
  detio_run_end ended;
  size_t length;
  static uint8_t log[1 << 20];
  if (detio_run_finish(run, &ended) || detio_run_log(run, 0, log, sizeof log, &length)) return 1;
  printf("ended %u, log of %zu bytes\n", ended.how, length);
  FILE *file = fopen(path, "wb");
  if (!file || fwrite(log, 1, length, file) != length || fclose(file)) return perror(path), 1;
  return 0;
}

int main(int argc, char **argv) {
  detio_run run;
  if (argc != 3) return fprintf(stderr, "race record LOG | replay LOG | explore N\n"), 2;
  if (!strcmp(argv[1], "record")) {
    if (detio_run_begin(&run, &settings, 10)) return 1;
    printf("balance %d\n", played(&run, 0));
    int status = kept(&run, argv[2]);
    detio_run_free(&run);
    return status;
  }
  if (!strcmp(argv[1], "replay")) {
    static uint8_t log[1 << 20];
    FILE *file = fopen(argv[2], "rb");
    if (!file) return perror(argv[2]), 1;
    size_t length = fread(log, 1, sizeof log, file);
    fclose(file);
    uint32_t code = detio_run_replay(&run, log, length);
    if (code) return fprintf(stderr, "no replay: code %u\n", code), 1;
    printf("balance %d\n", played(&run, 0));
    detio_run_free(&run);
    return 0;
  }
  for (uint64_t seed = 1; seed <= strtoull(argv[2], NULL, 10); seed++) {
    if (detio_run_begin(&run, &settings, 10)) return 1;
    int balance = played(&run, seed);
    if (balance != THREADS) printf("seed %llu: balance %d\n", (unsigned long long)seed, balance);
    detio_run_free(&run);
  }
  return 0;
}
