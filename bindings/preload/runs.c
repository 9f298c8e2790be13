#define _GNU_SOURCE
#ifdef DETIO_COVERAGE
#include "coverage.h"
#endif
#include "runs.h"

#include <elf.h>
#include <errno.h>
#include <fcntl.h>
#include <limits.h>
#include <stdbool.h>
#include <stdio.h>
#include <string.h>
#include <sys/stat.h>
#include <unistd.h>

/* The interpreter of a script whose first bytes these are, or NULL. */
static const char *interpreter(char *bytes, ssize_t length) {
  if (length < 3 || memcmp(bytes, "#!", 2)) return NULL;
  bytes[length] = 0;
  char *first = bytes + 2 + strspn(bytes + 2, " \t");
  first[strcspn(first, " \t\n")] = 0;
  return *first == '/' ? first : NULL;
}

/* A program that is no script. */
static enum runs look_at_file(int from) {
  struct stat status;
  Elf64_Ehdr head;
  Elf64_Phdr part;
  bool loads = false;
  ssize_t n = pread(from, &head, sizeof head, 0);
  if (n >= 2 && !memcmp(&head, "#!", 2)) return RUNS;
  if (n != sizeof head || memcmp(head.e_ident, ELFMAG, SELFMAG) || head.e_ident[EI_CLASS] != ELFCLASS64)
    return NO_PROGRAM;
  for (int i = 0; i < head.e_phnum; i++)
    if (pread(from, &part, sizeof part, (off_t)(head.e_phoff + (size_t)i * head.e_phentsize)) == sizeof part)
      loads = loads || part.p_type == PT_INTERP;
  if (fstat(from, &status)) return NOT_READ;
  if (((status.st_mode & S_ISUID) && status.st_uid != geteuid()) ||
      ((status.st_mode & S_ISGID) && status.st_gid != getegid()))
    return ANOTHER_USER;
  return loads ? RUNS : STATIC;
}

enum runs look_at_program(char *path) {
  for (int depth = 0;; depth++) {
    char first[256];
    int from = open(path, O_RDONLY | O_CLOEXEC);
    if (from < 0) return NOT_READ;
    const char *by = depth < 4 ? interpreter(first, read(from, first, sizeof first - 1)) : NULL;
    enum runs is = by ? RUNS : look_at_file(from);
    int error = errno;
    close(from);
    errno = error;
    if (!by) return is;
    snprintf(path, PATH_MAX, "%s", by);
  }
}
