/* A program that goes on as another: the library is below that too, and its log goes on. */
#define _GNU_SOURCE
#include "preload.h"

#include "about.h"
#include "runs.h"

#include <fcntl.h>
#include <limits.h>
#include <stdio.h>
#include <stdlib.h>
#include <string.h>
#include <sys/mman.h>
#include <sys/stat.h>
#include <sys/syscall.h>
#include <unistd.h>

/* What the outside says: the directory, the path of the program, and where that leads. */
typedef struct { char directory[PATH_MAX], path[PATH_MAX], real[PATH_MAX]; } found;
enum { PADDED = 3 * 4096 }; /* bytes of our own variables, as of the launcher */

/* A path relative to a directory that is open, or of what is open itself. */
static long path_of_open(const question *q, char *path) {
  char link[32];
  snprintf(link, sizeof link, "/proc/self/fd/%d", q->at);
  long n = KERNEL(SYS_readlink, link, path, PATH_MAX - 1);
  if (n < 0) return n;
  path[n] = 0;
  if (*q->path) snprintf(path + n, (size_t)(PATH_MAX - n), "/%s", q->path);
  return 0;
}
/* Of a recording: 0, an error below 0, or why the run cannot go on as this program. */
long look_for_program(const question *q, uint8_t *out) {
  found *to = (found *)out;
  char path[PATH_MAX];
  struct stat status;
  long code = 0;
  memset(to, 0, sizeof *to);
  if (q->at == AT_FDCWD || *q->path == '/') snprintf(to->path, sizeof to->path, "%s", q->path);
  else code = path_of_open(q, to->path);
  if (!code) code = KERNEL(SYS_faccessat2, AT_FDCWD, to->path, X_OK, AT_EACCESS);
  if (!code) code = KERNEL(SYS_newfstatat, AT_FDCWD, to->path, &status, 0);
  if (code) return code;
  if (!S_ISREG(status.st_mode)) return -EACCES;
  code = KERNEL(SYS_getcwd, to->directory, sizeof to->directory);
  if (code < 0) return code;
  if (!realpath(to->path, to->real)) return -errno;
  memcpy(path, to->path, sizeof path);
  enum runs is = look_at_program(path);
  return is == NOT_READ ? -errno : is == NO_PROGRAM ? -ENOEXEC : (long)is;
}

static void add_number(entries *to, const char *key, uint64_t value) {
  char text[32];
  snprintf(text, sizeof text, "%lu", value);
  add_entry(to, key, text);
}
static void add_all(entries *to, const entries *from, const char *const keys[]) {
  for (size_t k = 0, at = 0; keys[k]; k++, at = 0)
    for (const char *it; (it = next_value(from, keys[k], &at));) add_entry(to, keys[k], it);
}
/* What the launcher would hand over, and how far the run has come. */
static void add_next(entries *to, const found *at, char *const *words, char *const *variables) {
  static const char *const starts[] = {"mode", "log", "force", "stop-at", NULL};
  static const char *const settings[] = {"threads", "memory", "pass",   "seed",         "fault", "overlap",
                                         "parallel", "strict", "wait-forever", "fixed", NULL};
  uint64_t clock = 0;
  add_all(to, about_start(), starts);
  add_kept(to);
  add_earlier(to);
  (void)detio_clock(&machine, (size_t)me, &clock);
  add_number(to, "clock", clock + 1);
  add_number(to, "calls", slots[me].calls);
  add_number(to, "outsides", outsides);
  if (timer_is_set) add_number(to, "timer", 1);
  add_entry(to, "program", at->path);
  for (; words && *words; words++) add_entry(to, "argument", *words);
  add_entry(to, "directory", at->directory);
  for (; variables && *variables; variables++) add_entry(to, "variable", *variables);
  add_all(to, about_program(), settings);
}
static uint64_t handed_number(const char *key) {
  const char *value = first_value(about_start(), key);
  return value ? strtoull(value, NULL, 10) : 0;
}
void begin_as_next(void) {
  uint64_t clock = handed_number("clock");
  for (size_t i = 0; i < run.threads; i++)
    if (detio_work(&machine, i, clock)) ends(OURS, "the machine takes no more work");
  slots[me].calls = handed_number("calls");
  outsides = handed_number("outsides");
  timer_is_set = handed_number("timer");
}

/* The next program's variables, with ours, which are as long in each run, together with `more` bytes. */
static char **with_ours(char *const *variables, int settings_file, size_t more) {
  static char preload[2 * PATH_MAX], number_of_file[32], padding[PADDED];
  Dl_info own;
  size_t there = 0, kept = 0;
  const char *also = NULL;
  while (variables && variables[there]) there++;
  char **all = detio_heap_malloc((there + 4) * sizeof *all);
  if (!all || !dladdr((void *)with_ours, &own)) ends(OURS, "out of memory");
  for (size_t i = 0; i < there; i++) {
    bool preloads = !strncmp(variables[i], "LD_PRELOAD=", 11);
    if (preloads) also = variables[i] + 11;
    else all[kept++] = variables[i];
  }
  snprintf(preload, sizeof preload, "LD_PRELOAD=%s%s%s", own.dli_fname, also ? ":" : "", also ? also : "");
  snprintf(number_of_file, sizeof number_of_file, "DETIO_RUN=%d", settings_file);
  memset(padding, '.', sizeof padding - 1);
  memcpy(padding, "DETIO_PAD=", 10);
  size_t ours = strlen(preload) + strlen(number_of_file) - (also ? strlen(also) : 0) + more;
  padding[ours < PADDED - 16 ? PADDED - 1 - ours : 15] = 0;
  all[kept++] = preload;
  all[kept++] = number_of_file;
  all[kept++] = padding;
  all[kept] = NULL;
  return all;
}
_Noreturn static void become(const found *at, char *const *words, char *const *variables) {
  static char *const none[] = {NULL};
  entries next = {.text = detio_heap_malloc(ABOUT_ROOM), .room = ABOUT_ROOM};
  if (!next.text) ends(OURS, "out of memory");
  add_next(&next, at, words, variables);
  if (next.full) ends(OURS, "arguments and environment are longer than %d bytes", ABOUT_ROOM);
  int handed = (int)KERNEL(SYS_memfd_create, "detio", 0);
  if (handed < 0 || KERNEL(SYS_write, handed, next.text, next.length) != (long)next.length ||
      KERNEL(SYS_lseek, handed, 0, SEEK_SET))
    ends(OURS, "the settings cannot be handed over");
  char *place = (char *)KERNEL(SYS_mmap, PATH_PLACE, PATH_MAX, PROT_READ | PROT_WRITE,
                               MAP_PRIVATE | MAP_ANONYMOUS | MAP_FIXED_NOREPLACE, -1, 0);
  if (place != (char *)PATH_PLACE) ends(OURS, "there is no place for the path of the next program");
  if (run.replays) KERNEL(SYS_chdir, at->directory);
  /* A name that the program made is not there in a rerun. */
  bool there = !run.replays || !KERNEL(SYS_faccessat, AT_FDCWD, at->path, X_OK);
  snprintf(place, PATH_MAX, "%s", there ? at->path : at->real);
  char **all = with_ours(variables, handed, strlen(place));
  free_counts(true);
  long error = KERNEL(SYS_execve, place, words ? words : none, all);
  ends(OURS, "the run does not go on as %s: %s", at->path, strerror((int)-error));
}

/* Only what the run can be below goes on: -1 with an error. */
static int refused_for(const char *path, const char *why) {
  uncovered("exec", "exec of %s: %s: refused, in a rerun too", path, why);
  return errno = ENOSYS, -1;
}
static int goes_on_as(int at, const char *path, char *const *words, char *const *variables, int how) {
  found to;
  if (!path) return errno = EFAULT, -1;
  if (how & ~AT_EMPTY_PATH) return refused_for(path, "these flags are not covered");
  if (!*path && !(how & AT_EMPTY_PATH)) return errno = ENOENT, -1;
  if (others_alive()) return refused_for(path, "other threads of the program are there");
  if (run.memory) return refused_for(path, "files below --mem do not go along");
  if (run.strict) return refused_for(path, "the filter of --strict would stay below it");
  int64_t code = ask(&(question){.what = ASK_EXEC, .at = real_of(at), .path = path, .a = how, .room = sizeof to}, &to,
                     NULL);
  if (code < 0) return -1;
  if (code == STATIC) return refused_for(path, "it is linked statically, so no call of it can be recorded");
  if (code == ANOTHER_USER) return refused_for(path, "it runs as another user or group");
  become(&to, words, variables);
}

EXPORT int execveat(int at, const char *path, char *const words[], char *const variables[], int how) {
  NEXT(execveat);
  OFF(next(at, path, words, variables, how));
  return goes_on_as(at, path, words, variables, how);
}
EXPORT int fexecve(int fd, char *const words[], char *const variables[]) {
  NEXT(fexecve);
  OFF(next(fd, words, variables));
  return goes_on_as(fd, "", words, variables, AT_EMPTY_PATH);
}
EXPORT int execve(const char *path, char *const words[], char *const variables[]) {
  NEXT(execve);
  OFF(next(path, words, variables));
  return goes_on_as(AT_FDCWD, path, words, variables, 0);
}
EXPORT int execv(const char *path, char *const words[]) { return execve(path, words, environ); }

/* What is no program is a script of the shell. */
static int execute_or_script(const char *path, char *const *words, char *const *variables) {
  size_t count = 0;
  (void)goes_on_as(AT_FDCWD, path, words, variables, 0);
  if (errno != ENOEXEC) return -1;
  while (words[count]) count++;
  char *all[count + 3];
  all[0] = "/bin/sh";
  all[1] = (char *)path;
  for (size_t i = 1; i <= count; i++) all[i + 1] = words[i];
  if (count < 2) all[2] = NULL;
  return goes_on_as(AT_FDCWD, all[0], all, variables, 0);
}
static int execute_by_path(const char *name, char *const *words, char *const *variables) {
  const char *places = getenv("PATH");
  char path[PATH_MAX];
  bool denied = false;
  if (!*name) return errno = ENOENT, -1;
  if (strchr(name, '/')) return execute_or_script(name, words, variables);
  if (!places) places = "/bin:/usr/bin";
  for (const char *at = places; at; at = strchr(at, ':') ? strchr(at, ':') + 1 : NULL) {
    int length = (int)strcspn(at, ":");
    if (snprintf(path, sizeof path, "%.*s%s%s", length, at, length ? "/" : "", name) >= (int)sizeof path) continue;
    (void)execute_or_script(path, words, variables);
    denied = denied || errno == EACCES;
    if (errno != EACCES && errno != ENOENT && errno != ENOTDIR && errno != ESTALE) return -1;
  }
  if (denied) errno = EACCES;
  return -1;
}
EXPORT int execvpe(const char *name, char *const words[], char *const variables[]) {
  NEXT(execvpe);
  OFF(next(name, words, variables));
  return execute_by_path(name, words, variables);
}
EXPORT int execvp(const char *name, char *const words[]) { return execvpe(name, words, environ); }

/* Words one by one, up to NULL: `words` has them, and `rest` is after them. */
#define GATHER(first)                                                     \
  va_list rest, again;                                                    \
  va_start(rest, first);                                                  \
  va_copy(again, rest);                                                   \
  size_t count = 0;                                                       \
  for (const char *word = first; word; word = va_arg(again, const char *)) count++; \
  va_end(again);                                                          \
  char *words[count + 1];                                                 \
  words[0] = (char *)first;                                               \
  for (size_t i = 1; i <= count; i++) words[i] = va_arg(rest, char *)
EXPORT int execl(const char *path, const char *first, ...) {
  GATHER(first);
  va_end(rest);
  return execv(path, words);
}
EXPORT int execlp(const char *path, const char *first, ...) {
  GATHER(first);
  va_end(rest);
  return execvp(path, words);
}
EXPORT int execle(const char *path, const char *first, ...) {
  GATHER(first);
  char *const *variables = va_arg(rest, char *const *);
  va_end(rest);
  return execve(path, words, variables);
}
