/* Processes: how this one ends, and others, which the run does not cover. */
#define _GNU_SOURCE
#include "preload.h"

#include <fcntl.h>
#include <signal.h>
#include <spawn.h>
#include <stdio.h>
#include <stdlib.h>
#include <string.h>
#include <sys/syscall.h>
#include <sys/time.h>
#include <sys/wait.h>
#include <unistd.h>

/* The process ends at a turn. */
EXPORT _Noreturn void _exit(int status) {
  finish_run();
  KERNEL(SYS_exit_group, status);
  __builtin_unreachable();
}
EXPORT _Noreturn void _Exit(int status) { _exit(status); }
EXPORT _Noreturn void quick_exit(int status) {
  static void (*next)(int);
  if (!next) next = (void (*)(int))dlsym(RTLD_NEXT, "quick_exit");
  finish_run();
  next(status);
  __builtin_unreachable();
}

/* Other processes, which one log is not about. In a recording a child goes on without us; a rerun starts none. */
static void in_child(void) {
  free_counts(true);
  on = false;
  me = -1;
}
void begin_processes(void) { (void)pthread_atfork(NULL, NULL, in_child); }
static bool starts_none(const char *call) {
  if (run.replays) uncovered(call, "%s: a rerun starts no other process: refused", call);
  else
    uncovered(call, "%s: another process has no file or socket of the run, what it does is not recorded, and a rerun"
              " starts none", call);
  return run.replays;
}
EXPORT pid_t fork(void) {
  NEXT(fork);
  OFF(next());
  if (starts_none("fork")) return errno = ENOSYS, -1;
  return next(); /* handlers of pthread_atfork are the program's own code */
}
EXPORT pid_t vfork(void) { return fork(); }
EXPORT pid_t _Fork(void) { return fork(); }
/* A command is outside: what it says through a pipe, and its status, are outcomes. */
static long run_command(const void *command) {
  static int (*next)(const char *);
  if (!next) next = (int (*)(const char *))dlsym(RTLD_NEXT, "system");
  free_counts(true);
  long status = next(command);
  free_counts(false);
  return status;
}
EXPORT int system(const char *command) {
  NEXT(system);
  OFF(next(command));
  if (!command) return 1;
  uncovered("system", "system: of a command the status is recorded, and nothing else; a rerun starts none");
  return (int)ask(
      &(question){.what = ASK_CHILD, .b = (intptr_t)run_command, .bytes = command, .length = strlen(command) + 1}, NULL,
      NULL);
}

enum { COMMANDS = 16 };
static struct { FILE *ours, *real; } commands[COMMANDS];
EXPORT FILE *popen(const char *command, const char *how) {
  static FILE *(*next)(const char *, const char *);
  if (!next) next = (FILE * (*)(const char *, const char *))dlsym(RTLD_NEXT, "popen");
  OFF(next(command, how));
  uncovered("popen", "popen: of a command what its pipe has is recorded, and nothing else; a rerun starts none");
  int i = 0;
  while (i < COMMANDS && commands[i].ours) i++;
  if (i == COMMANDS) return errno = EMFILE, NULL;
  inside++;
  free_counts(true);
  FILE *real = run.replays ? NULL : next(command, how);
  free_counts(false);
  inside--;
  int fd = takes_door(real ? fileno_unlocked(real) : -1);
  FILE *ours = fd < 0 ? NULL : new_stream(fd, *how == 'w' ? "w" : "r");
  if (ours) commands[i].ours = ours, commands[i].real = real;
  return ours;
}
static long end_command(const void *at) {
  static int (*next)(FILE *);
  if (!next) next = (int (*)(FILE *))dlsym(RTLD_NEXT, "pclose");
  return next(*(FILE *const *)at);
}
EXPORT int pclose(FILE *file) {
  static int (*next)(FILE *);
  if (!next) next = (int (*)(FILE *))dlsym(RTLD_NEXT, "pclose");
  OFF(next(file));
  for (int i = 0; i < COMMANDS; i++) {
    if (!file || commands[i].ours != file) continue;
    (void)fclose(file);
    commands[i].ours = NULL;
    return (int)ask(&(question){.what = ASK_CHILD, .a = 1, .b = (intptr_t)end_command, .bytes = &commands[i].real},
                    NULL, NULL);
  }
  return next(file);
}
#define SPAWNS(name)                                                                                          \
  EXPORT int name(pid_t *child, const char *path, const posix_spawn_file_actions_t *actions,                  \
                  const posix_spawnattr_t *attr, char *const arguments[], char *const variables[]) {          \
    NEXT(name);                                                                                               \
    OFF(next(child, path, actions, attr, arguments, variables));                                              \
    if (starts_none(#name)) return ENOSYS;                                                                    \
    free_counts(true);                                                                                        \
    int code = next(child, path, actions, attr, arguments, variables);                                        \
    free_counts(false);                                                                                       \
    return code;                                                                                              \
  }
SPAWNS(posix_spawn)
SPAWNS(posix_spawnp)
EXPORT int daemon(int stays, int speaks) {
  NEXT(daemon);
  OFF(next(stays, speaks));
  if (starts_none("daemon")) return errno = ENOSYS, -1;
  free_counts(true);
  int code = next(stays, speaks);
  free_counts(false);
  return code;
}
