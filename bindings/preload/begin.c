/* How a run begins and ends, and what is said of it. */
#define _GNU_SOURCE
#include "preload.h"

#include "about.h"

#include <stdio.h>
#include <stdlib.h>
#include <string.h>
#include <sys/auxv.h>
#include <sys/syscall.h>
#include <unistd.h>

/* One line on standard error, which begins `detio: `. */
static void say_line(const char *format, va_list given) {
  char line[1024] = "detio: ";
  int length = 7 + vsnprintf(line + 7, sizeof line - 8, format, given);
  if (length > (int)sizeof line - 2) length = sizeof line - 2;
  line[length] = '\n';
  KERNEL(SYS_write, 2, line, length + 1);
}

void say(const char *format, ...) {
  va_list given;
  va_start(given, format);
  say_line(format, given);
  va_end(given);
}

_Noreturn void ends(int status, const char *format, ...) {
  va_list given;
  va_start(given, format);
  say_line(format, given);
  va_end(given);
  KERNEL(SYS_exit_group, status);
  __builtin_unreachable();
}

/* Whether this kind of thing comes for the first time. */
static bool is_first(const char *kind) {
  enum { KINDS = 256 };
  static char said[KINDS][32];
  static int count;
  for (int i = 0; i < count; i++)
    if (!strncmp(said[i], kind, sizeof said[i] - 1)) return false;
  if (count < KINDS) strncpy(said[count++], kind, sizeof said[0] - 1);
  return true;
}
static void say_uncovered(const void *caller, const char *kind, const char *format, va_list given) {
  char line[640];
  place there;
  if (!is_first(kind)) return;
  vsnprintf(line, sizeof line, format, given);
  const char *at = caller ? place_of(caller, &there) : "its start";
  if (run.strict) ends(STRICT, "%s (at %s): --strict ends the run", line, at);
  say("%s (at %s)", line, at);
}
void uncovered(const char *kind, const char *format, ...) {
  va_list given;
  va_start(given, format);
  say_uncovered(me >= 0 ? slots[me].caller : NULL, kind, format, given);
  va_end(given);
}
void uncovered_at(const void *caller, const char *kind, const char *format, ...) {
  va_list given;
  va_start(given, format);
  say_uncovered(caller, kind, format, given);
  va_end(given);
}

/* The sixteen bytes by chance that the kernel hands a program are the same in each run. */
static void fix_chance(void) {
  void *there = (void *)getauxval(AT_RANDOM);
  uint64_t first = run.seed + 0x9e3779b97f4a7c15u;
  if (there) memcpy(there, (uint64_t[]){first, ~first}, 16);
}

/* A run is one process: what it starts does not have our variables. A program that goes on as another may preload
 * libraries for that. The C library is not asked, since a shell has functions of its own by these names. */
static bool is_variable(const char *entry, const char *name) {
  size_t length = strlen(name);
  return !strncmp(entry, name, length) && entry[length] == '=';
}
static void hide_variables(void) {
  size_t at = 0, kept = 0;
  const char *preloads = NULL;
  for (const char *it; run.goes_on && (it = next_value(about_program(), "variable", &at));)
    if (is_variable(it, "LD_PRELOAD")) preloads = it;
  for (char **it = environ; *it; it++) {
    bool loads = is_variable(*it, "LD_PRELOAD");
    if (loads && preloads) environ[kept++] = (char *)preloads;
    else if (!loads && !is_variable(*it, "DETIO_RUN") && !is_variable(*it, "DETIO_PAD")) environ[kept++] = *it;
  }
  environ[kept] = NULL;
}

/* After the destructors of all libraries: what was registered first is called last. */
int __cxa_atexit(void (*)(void *), void *, void *);
static void end(void *given) {
  (void)given;
  if (!on) return;
  if (takes_part()) (void)fflush(NULL);
  finish_run();
}

/* This library is the first to begin, also before the C library, and the last to end: what others do as they are loaded
 * is in the run. */
bool begun;
__attribute__((constructor(101))) static void begin(int count, char **words, char **variables) {
  (void)count, (void)words;
  environ = variables;
  if (!getenv("DETIO_RUN")) return;
  inside++;
  begin_callers();
  open_log();
  begin_turns();
  if (run.goes_on) begin_as_next();
  begin_descriptors();
  fix_chance();
  hide_variables();
  begin_processes();
  begin_counts();
  begin_signals();
  if (run.passes && !run.goes_on)
    say("paths below %s%s go to the host and are not recorded", run.passed[0], run.passes > 1 ? " and others" : "");
  if (run.replays) forbid_effects();
  if (run.strict) forbid_strangers();
  on = true;
  inside--;
  begin_files();
  begun = true;
  __cxa_atexit(end, NULL, NULL);
}
