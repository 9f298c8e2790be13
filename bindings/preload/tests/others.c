/* Calls on a FILE that few programs make: a line for each, as the C library has it. */
#define _GNU_SOURCE
#include "said.h"

#include <dlfcn.h>
#include <execinfo.h>
#include <fcntl.h>
#include <stdarg.h>
#include <stdlib.h>
#include <unistd.h>

char *read_line(char *) __asm__("gets");
char *__gets_chk(char *, size_t), *__fgets_unlocked_chk(char *, size_t, int, FILE *);
size_t __fread_unlocked_chk(void *, size_t, size_t, size_t, FILE *);
/* A new program does not link to this one. */
typedef int old_scan(FILE *, const char *, va_list, int *);
/* Headers have these as their own code. */
typedef int asks_stream(FILE *);
static void *named(const char *name) {
  void *found = dlsym(RTLD_DEFAULT, name);
  return found ? found : dlvsym(RTLD_DEFAULT, name, "GLIBC_2.2.5");
}

static int scans(FILE *f, const char *format, ...) {
  va_list given;
  int error = 7;
  va_start(given, format);
  int count = ((old_scan *)named("_IO_vfscanf"))(f, format, given, &error);
  va_end(given);
  return count + 10 * error;
}

int main(void) {
  char line[64] = "";
  fpos64_t place;
  int number = 0;
  asks_stream *ends = named("feof_unlocked"), *failed = named("ferror_unlocked");
  SAY(read_line(line) ? atoi(line) : -1);
  SAY(__gets_chk(line, sizeof line) ? atoi(line) : -1);
  FILE *f = fopen("made.txt", "w+");
  setbuffer(f, NULL, 0);
  SAY(putw(0x41424344, f));
  SAY(fputs("123\nsecond line\n", f));
  rewind(f);
  SAY(getw(f));
  SAY(fgetpos64(f, &place));
  SAY(scans(f, "%d", &number));
  SAY(number);
  SAY(fsetpos64(f, &place));
  SAY(__fgets_unlocked_chk(line, sizeof line, 10, f) ? atoi(line) : -1);
  SAY(__fread_unlocked_chk(line, sizeof line, 1, 6, f));
  SAY(ends(f) + failed(f));
  SAY(__fread_unlocked_chk(line, sizeof line, 1, 60, f));
  SAY(ends(f) != 0);
  clearerr_unlocked(f);
  SAY(ends(f) + failed(f));
  SAY(fclose(f));
  int fd = open("made.txt", O_RDWR | O_TRUNC);
  void *here = (void *)main;
  backtrace_symbols_fd(&here, 1, fd);
  SAY(lseek(fd, 0, SEEK_CUR) > 0);
  SAY(unlink("made.txt"));
  return 0;
}
