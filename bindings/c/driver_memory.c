/* A test of the driver in which one allocation after another is refused, as memory.c has it for detio.h: a run of calls
 * in memory and at the host comes to the same replies and the same log, whichever it is. Compiled as memory.c. */
#include "detio_threads.h"
#include "refusing.h"

#include <stdio.h>
#include <stdlib.h>
#include <string.h>

static uint8_t data[64];

/* Makes a call of thread 0: where memory was short, it is made again, or gone on with if it was asked. */
static detio_reply makes(detio_run *run, detio_call call, const char *text) {
  detio_reply reply = {0};
  size_t length = text ? strlen(text) : 0;
  counting = true;
  uint32_t code = detio_thread_call(run, 0, &call, text, length, NULL, 0, &reply, data, sizeof data);
  if (code == DETIO_NO_MEMORY) {
    code = detio_thread_call(run, 0, &call, text, length, NULL, 0, &reply, data, sizeof data);
    if (code == DETIO_WRONG_PHASE) code = detio_thread_resume(run, 0, &reply, data, sizeof data);
  }
  counting = false;
  CHECK(code == DETIO_DONE && reply.kind != DETIO_FAILURE);
  return reply;
}

/* Plays the calls, and says how long the log is. */
static size_t plays(detio_run *run) {
  detio_run_end ended;
  detio_call open = {.kind = DETIO_OPEN, .choice = DETIO_READ_WRITE, .flags = DETIO_CREATE};
  CHECK(makes(run, open, "/a").first == 0);
  CHECK(makes(run, (detio_call){.kind = DETIO_WRITE}, "memory").count == 6);
  detio_call host = {.kind = DETIO_HOST_OPEN, .choice = DETIO_READ_WRITE, .flags = DETIO_CREATE | DETIO_TRUNCATE};
  CHECK(makes(run, host, "driver-memory.txt").first == 1);
  CHECK(makes(run, (detio_call){.kind = DETIO_WRITE, .descriptor = 1}, "host").count == 4);
  CHECK(makes(run, (detio_call){.kind = DETIO_LSEEK, .descriptor = 1}, NULL).first == 0);
  CHECK(makes(run, (detio_call){.kind = DETIO_READ, .descriptor = 1, .number = 9}, NULL).count == 4);
  CHECK(!memcmp(data, "host", 4));
  CHECK(makes(run, (detio_call){.kind = DETIO_CLOSE, .descriptor = 1}, NULL).kind == DETIO_PLAIN);
  CHECK(detio_thread_end(run, 0) == DETIO_DONE && detio_run_finish(run, &ended) == DETIO_DONE);
  CHECK(ended.how == DETIO_ALL_ENDED);
  return ended.length;
}

int main(void) {
  static const detio_settings one = SETTINGS(1, 10, 2, 4096);
  static uint8_t log[4096];
  size_t ample = 0;
  long refusals = 0;
  do {
    detio_run run;
    size_t length;
    count = 0;
    CHECK(detio_run_begin(&run, &one, 10) == DETIO_DONE);
    length = plays(&run);
    if (!place) ample = length;
    CHECK(length == ample && detio_run_log(&run, 0, log, sizeof log, &length) == DETIO_DONE);
    detio_run_free(&run);
    CHECK(detio_run_replay(&run, log, length) == DETIO_DONE);
    CHECK(plays(&run) == ample);
    detio_run_free(&run);
    refusals += count >= place && place;
    place++;
  } while (place == 1 || count >= place - 1);
  CHECK(refusals > 20 && remove("driver-memory.txt") == 0);
  printf("%ld allocations of calls refused, one a run\n", refusals);
  return 0;
}
