/* stdio by its other names, and standard input. */
#define _GNU_SOURCE
#define __NO_INLINE__ /* headers have some of these as macros too */
#include "said.h"

#include <stdarg.h>
#include <stdlib.h>

int __printf_chk(int, const char *, ...), __fprintf_chk(FILE *, int, const char *, ...);
int __dprintf_chk(int, int, const char *, ...);
int __vprintf_chk(int, const char *, va_list), __vfprintf_chk(FILE *, int, const char *, va_list);
int __vdprintf_chk(int, int, const char *, va_list), fflush_unlocked(FILE *);
char *__fgets_chk(char *, size_t, int, FILE *);
size_t __fread_chk(void *, size_t, size_t, size_t, FILE *);
/* Headers give the functions that scan other names. */
int plain_scanf(const char *, ...) __asm__("scanf"), plain_fscanf(FILE *, const char *, ...) __asm__("fscanf");
int plain_vscanf(const char *, va_list) __asm__("vscanf");
int plain_vfscanf(FILE *, const char *, va_list) __asm__("vfscanf");
int new_scanf(const char *, ...) __asm__("__isoc99_scanf");
int new_fscanf(FILE *, const char *, ...) __asm__("__isoc99_fscanf");
int new_vscanf(const char *, va_list) __asm__("__isoc99_vscanf");
int new_vfscanf(FILE *, const char *, va_list) __asm__("__isoc99_vfscanf");

static int by_list(int which, FILE *f, const char *s, ...) {
  va_list a;
  va_start(a, s);
  int n = which == 0   ? vprintf(s, a)
          : which == 1 ? __vprintf_chk(1, s, a)
          : which == 2 ? __vfprintf_chk(f, 1, s, a)
          : which == 3 ? vdprintf(1, s, a)
          : which == 4 ? __vdprintf_chk(1, 1, s, a)
          : which == 5 ? plain_vscanf(s, a)
          : which == 6 ? new_vscanf(s, a)
          : which == 7 ? plain_vfscanf(f, s, a) : new_vfscanf(f, s, a);
  va_end(a);
  return n;
}

/* A stream that somebody kept from before the run begins. */
static FILE *kept;
static void keeps(void) { kept = stdout; }
__attribute__((section(".preinit_array"), used)) static void (*const early)(void) = keeps;

static void prints(void) {
  SAY(fprintf(kept, "%s\n", "kept"));
  SAY(__printf_chk(1, "%d %s\n", 1, "printf"));
  SAY(__fprintf_chk(stdout, 1, "%d %s\n", 2, "fprintf"));
  for (int i = 0; i < 5; i++) {
    fflush(stdout);
    SAY(by_list(i, stdout, "%d %s\n", i, "list"));
  }
  fflush(stdout);
  SAY(__dprintf_chk(1, 1, "%s\n", "dprintf"));
  SAY(putchar('a'));
  SAY(putchar_unlocked('b'));
  SAY(putc_unlocked('c', stdout));
  SAY(fputc_unlocked('d', stdout));
  SAY(fputs_unlocked("ef\n", stdout) >= 0);
  SAY(fwrite_unlocked("gh\n", 1, 3, stdout));
  SAY(fflush_unlocked(stdout));
}

static void scans(void) {
  int n = 0, m = 0;
  char *got = NULL, line[100];
  size_t room = 0;
  SAY(plain_scanf("%d", &n));
  SAY(new_scanf("%d", &m));
  SAY(n * 1000 + m);
  SAY(plain_fscanf(stdin, "%d", &n));
  SAY(new_fscanf(stdin, "%d", &m));
  SAY(n * 1000 + m);
  for (int i = 5; i < 9; i++) {
    SAY(by_list(i, stdin, "%d", &n));
    SAY(n);
  }
  SAY(getchar());
  SAY(getchar_unlocked());
  SAY(getc_unlocked(stdin));
  SAY(fgetc_unlocked(stdin));
  SAY(fgets_unlocked(line, sizeof line, stdin) != NULL);
  SAY(__fgets_chk(line, sizeof line, 10, stdin) != NULL);
  SAY(getline(&got, &room, stdin));
  SAY(__getdelim(&got, &room, '3', stdin));
  SAY(fread_unlocked(line, 1, 4, stdin));
  SAY(__fread_chk(line, sizeof line, 1, 4, stdin));
  printf("%.4s %s\n", line, got);
  SAY(fileno_unlocked(stdin));
  SAY(fileno(kept));
  SAY(ferror(stdin));
}

static void places(void) {
  fpos_t at;
  char line[20] = {0};
  FILE *f = fopen64("written.txt", "w+");
  SAY(ftrylockfile(f));
  funlockfile(f);
  setlinebuf(f);
  SAY(fputs("one\ntwo\n", f) >= 0);
  SAY(ftello(f));
  SAY(ftello64(f));
  SAY(fseeko64(f, 1, SEEK_SET));
  SAY(fgetpos(f, &at));
  SAY(fgets(line, sizeof line, f) != NULL);
  SAY(fsetpos(f, &at));
  SAY(fgetc(f));
  SAY(fclose(f));
  f = freopen64("written.txt", "a", fopen("written.txt", "r"));
  setbuf(f, NULL);
  SAY(fputc('x', f));
  SAY(fclose(f));
  f = tmpfile64();
  SAY(fputs("gone", f));
  SAY(fclose(f));
  SAY(remove("written.txt"));
}

int main(void) {
  prints();
  scans();
  places();
  return 0;
}
