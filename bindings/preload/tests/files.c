/* stdio: what is written and read, by threads too. */
#define _GNU_SOURCE
#include "said.h"

#include <pthread.h>
#include <stdarg.h>
#include <stdlib.h>
#include <unistd.h>

static FILE *shared;
static void *prints(void *given) {
  for (int i = 0; i < 50; i++) {
    flockfile(shared);
    fprintf(shared, "%ld", (long)given);
    putc('.', shared);
    funlockfile(shared);
    usleep(10);
  }
  return NULL;
}
static int formats(FILE *f, const char *s, ...) {
  va_list a;
  va_start(a, s);
  int n = vfprintf(f, s, a);
  va_end(a);
  return n;
}

int main(void) {
  char line[100], *got = NULL;
  size_t room = 0;
  int number = 0;
  FILE *f = fopen("written.txt", "w+");
  SAY(fprintf(f, "%d lines\n", 3));
  SAY(fputs("second\n", f));
  SAY(fputc('t', f));
  SAY(putc('h', f));
  SAY(fwrite("ird\n", 1, 4, f));
  SAY(formats(f, "%s\n", "fourth"));
  SAY(ftell(f));
  SAY(fflush(f));
  SAY(fseek(f, 0, SEEK_SET));
  SAY(fscanf(f, "%d", &number));
  SAY(number);
  SAY(fgets(line, sizeof line, f) != NULL);
  SAY(getline(&got, &room, f));
  SAY(getc(f));
  SAY(ungetc('T', f));
  SAY(fgetc(f));
  SAY(fread(line, 1, 4, f));
  SAY(getdelim(&got, &room, 't', f));
  SAY(feof(f));
  rewind(f);
  SAY(fseeko(f, -3, SEEK_END));
  SAY(fread(line, 1, 100, f));
  SAY(feof(f) != 0);
  clearerr(f);
  SAY(feof(f));
  SAY(fileno(f) > 2);
  SAY(fclose(f));
  SAY(fopen("none.txt", "r") == NULL);
  said("fopen", -1);
  f = fopen("written.txt", "a");
  SAY(setvbuf(f, NULL, _IONBF, 0));
  SAY(fputs("more\n", f));
  SAY(fclose(f));
  f = freopen("again.txt", "w+", fopen("written.txt", "r"));
  SAY(fputs("once more\n", f) >= 0);
  f = freopen("again.txt", "r", f);
  SAY(fgets(line, sizeof line, f) != NULL);
  SAY(ftell(f));
  SAY(fclose(f));
  SAY(remove("again.txt"));
  f = freopen("written.txt", "r", stdin);
  SAY(f == stdin);
  SAY(fgets(line, sizeof line, stdin) != NULL);
  printf("%s", line);
  SAY(scanf("%99s", line));
  puts(line);
  f = tmpfile();
  SAY(fputs("gone", f));
  rewind(f);
  SAY(fgets(line, sizeof line, f) != NULL);
  SAY(fclose(f));
  SAY(dprintf(1, "%s\n", "straight"));
  pthread_t t[3];
  int digits = 0, points = 0;
  shared = fopen("written.txt", "w+");
  for (long i = 0; i < 3; i++) pthread_create(&t[i], NULL, prints, (void *)i);
  for (int i = 0; i < 3; i++) pthread_join(t[i], NULL);
  rewind(shared);
  for (int c = getc(shared), was = '.'; c != EOF; was = c, c = getc(shared))
    digits += c != '.', points += c == '.' && was != '.';
  printf("%d %d\n", digits, points);
  SAY(fclose(shared));
  f = popen("echo said; exit 3", "r");
  SAY(fgets(line, sizeof line, f) != NULL);
  printf("%s", line);
  SAY(pclose(f) >> 8);
  errno = ENOENT;
  perror("perror");
  SAY(remove("written.txt"));
  return 0;
}
