/* detio-launch run|rerun: begins a program under the preload library beside it. It becomes the program, so signals and
 * the status are the program's own. */
#define _GNU_SOURCE
#include "about.h"
#include "runs.h"

#include <errno.h>
#include <fcntl.h>
#include <limits.h>
#include <stdarg.h>
#include <stdio.h>
#include <stdlib.h>
#include <string.h>
#include <sys/mman.h>
#include <sys/personality.h>
#include <sys/stat.h>
#include <unistd.h>

enum { DIFFERS = 124, OURS = 125, CANNOT_RUN = 126, NOT_FOUND = 127 };
enum { PADDED = 8192 }; /* bytes of our own variables, so that the program's stack is in the same place */

extern char **environ;

typedef struct {
  bool reruns, force;
  const char *log, *threads, *memory, *seed, *fault, *stop;
  bool overlap, parallel, strict, waits_forever;
  const char *passed[16], *kept[256];
  int passes, keeps;
  char **words; /* the program and its arguments, or NULL */
} options;

static char text[ABOUT_ROOM], logged_text[ABOUT_ROOM];
static entries about = {.text = text, .room = ABOUT_ROOM}, logged = {.text = logged_text, .room = ABOUT_ROOM};

_Noreturn static void fails(int status, const char *format, ...) {
  va_list given;
  va_start(given, format);
  fputs("detio: ", stderr);
  vfprintf(stderr, format, given);
  fputc('\n', stderr);
  exit(status);
}

static const char usage[] =
    "usage: detio run [--log L] [--force] [--threads N] [--mem PREFIX] [--pass PREFIX].. [--seed S] [--fault K]\n"
    "                 [--overlap] [--parallel] [--strict] [--wait-forever] [--env NAME]..\n"
    "                 -- PROGRAM [ARGS]..\n"
    "       detio rerun --log L [--force] [--stop-at THREAD,CALL] [-- PROGRAM [ARGS]..]\n"
    "`detio help run` and `detio help rerun` say what each word does\n";

/* A whole number from `least` to `most`, as it was written. */
static const char *number(const char *option, const char *value, unsigned long long least, unsigned long long most) {
  char *end = NULL;
  errno = 0;
  unsigned long long found = *value >= '0' && *value <= '9' ? strtoull(value, &end, 10) : 0;
  if (!end || *end || errno || found < least || found > most)
    fails(OURS, "%s takes a whole number from %llu to %llu, and not %s", option, least, most, value);
  return value;
}
static const char *prefix(const char *option, const char *value) {
  if (*value != '/') fails(OURS, "%s takes a path from the root, and not %s", option, value);
  return value;
}

/* A thread and a number of its calls. */
static const char *thread_and_call(const char *option, const char *value) {
  const char *comma = strchr(value, ',');
  char thread[8] = "";
  if (comma && comma - value < (long)sizeof thread) memcpy(thread, value, (size_t)(comma - value));
  (void)number(option, thread, 0, 15);
  (void)number(option, comma ? comma + 1 : "", 1, UINT64_MAX);
  return value;
}

/* The value of an option, as its own word or after `=`: whether this word is the option. */
static bool takes(const char *option, char **words, int *at, const char **value) {
  size_t length = strlen(option);
  if (strncmp(words[*at], option, length)) return false;
  if (words[*at][length] == '=') return *value = words[*at] + length + 1, true;
  if (words[*at][length]) return false;
  if (!words[*at + 1]) fails(OURS, "%s takes a value\n%s", option, usage);
  return *value = words[++*at], true;
}

/* Options of `run` alone: whether this word is one. */
static bool run_option(options *to, char **words, int *at) {
  const char *value = NULL;
  if (takes("--threads", words, at, &value)) to->threads = number("--threads", value, 1, 16);
  else if (takes("--mem", words, at, &value)) to->memory = prefix("--mem", value);
  else if (takes("--seed", words, at, &value)) to->seed = number("--seed", value, 0, UINT64_MAX);
  else if (takes("--fault", words, at, &value)) to->fault = number("--fault", value, 1, UINT64_MAX);
  else if (takes("--pass", words, at, &value)) {
    if (to->passes == 16) fails(OURS, "--pass stands at most 16 times");
    to->passed[to->passes++] = prefix("--pass", value);
  } else if (takes("--env", words, at, &value)) {
    if (to->keeps == 256) fails(OURS, "--env stands at most 256 times");
    to->kept[to->keeps++] = value;
  } else if (!strcmp(words[*at], "--overlap")) to->overlap = true;
  else if (!strcmp(words[*at], "--parallel")) to->parallel = true;
  else if (!strcmp(words[*at], "--strict")) to->strict = true;
  else if (!strcmp(words[*at], "--wait-forever")) to->waits_forever = true;
  else return false;
  return true;
}

static void read_options(options *to, char **words) {
  int at = 1;
  if (!words[at] || (strcmp(words[at], "run") && strcmp(words[at], "rerun"))) fails(OURS, "run or rerun?\n%s", usage);
  to->reruns = !strcmp(words[at++], "rerun");
  for (; words[at] && strcmp(words[at], "--"); at++) {
    if (!strcmp(words[at], "--force")) to->force = true;
    else if (!strcmp(words[at], "--help")) fputs(usage, stdout), exit(0);
    else if (takes("--log", words, &at, &to->log)) continue;
    else if (to->reruns && takes("--stop-at", words, &at, &to->stop)) (void)thread_and_call("--stop-at", to->stop);
    else if (to->reruns || !run_option(to, words, &at))
      fails(OURS, "%s is no option of %s; the program stands after --\n%s", words[at], words[1], usage);
  }
  if (words[at] && words[at + 1]) to->words = words + at + 1;
  if (!to->reruns && !to->words) fails(OURS, "run takes a program after --\n%s", usage);
  if (to->reruns && !to->log) fails(OURS, "rerun takes --log\n%s", usage);
}

/* The path of a program, as execvp looks for it. */
static void find_program(const char *word, char *path) {
  const char *places = getenv("PATH");
  if (strchr(word, '/')) {
    snprintf(path, PATH_MAX, "%s", word);
    return;
  }
  for (const char *at = places ? places : "/usr/bin:/bin"; at; at = strchr(at, ':') ? strchr(at, ':') + 1 : NULL) {
    int length = (int)strcspn(at, ":");
    snprintf(path, PATH_MAX, "%.*s/%s", length ? length : 1, length ? at : ".", word);
    struct stat status;
    if (!access(path, X_OK) && !stat(path, &status) && S_ISREG(status.st_mode)) return;
  }
  fails(NOT_FOUND, "%s is not found", word);
}

/* A program that can be run, and loads libraries, also ours; or a script of such a program. */
static void look_at(const char *program) {
  char path[PATH_MAX];
  snprintf(path, sizeof path, "%s", program);
  switch (look_at_program(path)) {
  case NOT_READ: fails(errno == ENOENT ? NOT_FOUND : CANNOT_RUN, "%s cannot be run: %s", path, strerror(errno));
  case NO_PROGRAM: fails(CANNOT_RUN, "%s is not a program of this machine", path);
  case ANOTHER_USER: fails(CANNOT_RUN, "%s runs as another user or group, so it loads no library of ours", path);
  case STATIC: fails(CANNOT_RUN, "%s is linked statically, so no call of it can be recorded", path);
  default: return;
  }
}

/* An absolute path of the log, which another process may open. */
static const char *log_path(const options *given) {
  static char path[2 * PATH_MAX], here[PATH_MAX];
  const char *name = given->words ? strrchr(given->words[0], '/') : NULL;
  name = name ? name + 1 : given->words ? given->words[0] : "";
  if (!getcwd(here, sizeof here)) fails(OURS, "there is no working directory: %s", strerror(errno));
  const char *log = given->log;
  if (log && *log == '/') snprintf(path, sizeof path, "%s", log);
  else if (log) snprintf(path, sizeof path, "%s/%s", here, log);
  else snprintf(path, sizeof path, "%s/%s.detio-log", here, name);
  return path;
}

/* The program, its arguments, the directory and the environment, as they are now. */
static void add_program(const options *given) {
  char path[PATH_MAX], here[PATH_MAX];
  find_program(given->words[0], path);
  add_entry(&about, "program", path);
  for (char **word = given->words; *word; word++) add_entry(&about, "argument", *word);
  if (!getcwd(here, sizeof here)) fails(OURS, "there is no working directory: %s", strerror(errno));
  add_entry(&about, "directory", here);
  for (char **it = environ; *it; it++) {
    size_t length = strcspn(*it, "=");
    bool keeps = !given->keeps && (length != 1 || **it != '_') && strncmp(*it, "LD_PRELOAD=", 11);
    for (int i = 0; i < given->keeps; i++)
      keeps = keeps || (!strncmp(given->kept[i], *it, length) && !given->kept[i][length]);
    if (keeps) add_entry(&about, "variable", *it);
  }
}

static void add_settings(const options *given) {
  add_entry(&about, "threads", given->threads ? given->threads : "16");
  if (given->memory) add_entry(&about, "memory", given->memory);
  for (int i = 0; i < given->passes; i++) add_entry(&about, "pass", given->passed[i]);
  if (given->seed) add_entry(&about, "seed", given->seed);
  if (given->fault) add_entry(&about, "fault", given->fault);
  if (given->overlap) add_entry(&about, "overlap", "yes");
  if (given->parallel) add_entry(&about, "parallel", "yes");
  if (given->strict) add_entry(&about, "strict", "yes");
  if (given->waits_forever) add_entry(&about, "wait-forever", "yes");
}

/* The same addresses in each run, where the kernel lets us. */
static bool fix_addresses(void) {
  int now = personality(0xffffffff);
  return now >= 0 && personality((unsigned)now | ADDR_NO_RANDOMIZE) >= 0;
}

static void make_log(const options *given, const char *path) {
  int log = open(path, O_WRONLY | O_CREAT | O_CLOEXEC | (given->force ? O_TRUNC : O_EXCL), 0600);
  if (log < 0 && errno == EEXIST) fails(OURS, "%s is there already: --force writes it over, --log takes another", path);
  if (log < 0) fails(OURS, "%s cannot be written: %s", path, strerror(errno));
  if (fchmod(log, 0600)) fails(OURS, "%s cannot be kept from others: %s", path, strerror(errno));
  close(log);
}

/* What the log says of its program. */
static void read_log(const char *path) {
  struct stat status;
  int from = open(path, O_RDONLY | O_CLOEXEC);
  if (from < 0 || fstat(from, &status)) fails(OURS, "%s cannot be read: %s", path, strerror(errno));
  uint8_t *bytes = status.st_size ? mmap(NULL, (size_t)status.st_size, PROT_READ, MAP_PRIVATE, from, 0) : NULL;
  if (bytes == MAP_FAILED) fails(OURS, "%s cannot be read: %s", path, strerror(errno));
  if (!bytes) fails(DIFFERS, "%s is empty: its recording ended before it began", path);
  if (!about_in_log(bytes, (size_t)status.st_size, &logged))
    fails(DIFFERS, "%s is not the log of a program, or is torn before it says which", path);
  munmap(bytes, (size_t)status.st_size);
  close(from);
}

/* A rerun is of the program of the log, or of another that is given. */
static void compare_program(const options *given) {
  static const char *const keys[] = {"program", "argument", "directory", "variable", NULL};
  static const char *const settings[] = {"threads", "memory",   "pass",  "seed", "fault",
                                         "overlap", "parallel", "strict", "wait-forever", "fixed", NULL};
  size_t at;
  if (given->words) {
    add_program(given);
    const char *then, *now;
    bool differs = first_difference(&logged, &about, keys, &then, &now);
    if (differs)
      fprintf(stderr, "detio: this is not the program of the log: here is %s, the log has %s\n", now ? now : "nothing",
              then ? then : "nothing");
    if (differs && !given->force) exit(DIFFERS);
  }
  for (int k = 0; !given->words && keys[k]; k++) {
    at = 0;
    for (const char *it; (it = next_value(&logged, keys[k], &at));) add_entry(&about, keys[k], it);
  }
  for (int k = 0; settings[k]; k++) {
    at = 0;
    for (const char *it; (it = next_value(&logged, settings[k], &at));) add_entry(&about, settings[k], it);
  }
}

/* The values of one key, ended by NULL. */
static char **values(const char *key, size_t more) {
  size_t at = 0, count = 0;
  while (next_value(&about, key, &at)) count++;
  char **found = calloc(count + more + 1, sizeof *found);
  if (!found) fails(OURS, "out of memory");
  at = count = 0;
  for (const char *it; (it = next_value(&about, key, &at));) found[count++] = (char *)it;
  return found;
}

/* The environment of the program: its own, and ours, which are as long in each run. */
static char **variables(int settings_file) {
  static char preload[PATH_MAX + 16], number_of_file[32], padding[PADDED];
  char **all = values("variable", 3);
  size_t count = 0;
  ssize_t length = readlink("/proc/self/exe", preload + 11, PATH_MAX - 32);
  if (length < 0) fails(OURS, "the launcher does not find itself: %s", strerror(errno));
  preload[11 + length] = 0;
  memcpy(preload, "LD_PRELOAD=", 11);
  strcpy(strrchr(preload, '/') + 1, "libdetio_preload.so");
  if (access(preload + 11, R_OK)) fails(OURS, "%s cannot be read: %s", preload + 11, strerror(errno));
  snprintf(number_of_file, sizeof number_of_file, "DETIO_RUN=%d", settings_file);
  memset(padding, '.', sizeof padding - 1);
  memcpy(padding, "DETIO_PAD=", 10);
  padding[PADDED - 1 - strlen(preload) - strlen(number_of_file)] = 0;
  while (all[count]) count++;
  all[count++] = preload;
  all[count++] = number_of_file;
  all[count] = padding;
  return all;
}

int main(int count, char **words) {
  options given = {0};
  (void)count;
  read_options(&given, words);
  const char *path = log_path(&given);
  bool fixed = fix_addresses();
  add_entry(&about, "mode", given.reruns ? "rerun" : "run");
  add_entry(&about, "log", path);
  if (given.force) add_entry(&about, "force", "yes");
  if (given.stop) add_entry(&about, "stop-at", given.stop);
  if (given.reruns) {
    read_log(path);
    compare_program(&given);
  } else {
    add_program(&given);
    add_settings(&given);
    if (fixed) add_entry(&about, "fixed", "yes");
  }
  const char *program = first_value(&about, "program"), *directory = first_value(&about, "directory");
  if (!program || !directory || about.full)
    fails(OURS, "arguments and environment are too long, or the log lacks them");
  look_at(program);
  if (!given.reruns) make_log(&given, path);
  if (!fixed) fputs("detio: the kernel does not fix addresses: a rerun of a program that uses them differs\n", stderr);
  if (given.reruns && chdir(directory)) (void)!chdir("/");
  int settings_file = memfd_create("detio", 0);
  if (settings_file < 0 || write(settings_file, about.text, about.length) != (ssize_t)about.length ||
      lseek(settings_file, 0, SEEK_SET))
    fails(OURS, "the settings cannot be handed over: %s", strerror(errno));
  execve(program, values("argument", 0), variables(settings_file));
  fails(errno == ENOENT ? NOT_FOUND : CANNOT_RUN, "%s cannot be run: %s", program, strerror(errno));
}
