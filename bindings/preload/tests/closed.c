/* Three threads, a pipe and a file below /run: nothing comes from outside. */
#include <fcntl.h>
#include <pthread.h>
#include <stdio.h>
#include <string.h>
#include <sys/stat.h>
#include <unistd.h>

static pthread_mutex_t m = PTHREAD_MUTEX_INITIALIZER;
static int ends[2];

static void *writes(void *given) {
  char text[8];
  for (int i = 0; i < 20; i++) {
    pthread_mutex_lock(&m);
    int n = snprintf(text, sizeof text, "%ld%d ", (long)given, i % 10);
    int fd = open("/run/file", O_WRONLY | O_CREAT | O_APPEND, 0600);
    if (write(ends[1], text, (size_t)n) != n || write(fd, text, (size_t)n) != n) return (void *)1;
    close(fd);
    pthread_mutex_unlock(&m);
  }
  return NULL;
}

int main(void) {
  pthread_t t[3];
  char text[4096];
  struct stat s;
  if (mkdir("/run/room", 0700) || pipe(ends)) return 1;
  for (long i = 0; i < 3; i++) pthread_create(&t[i], NULL, writes, (void *)i);
  for (int i = 0; i < 3; i++) pthread_join(t[i], NULL);
  close(ends[1]);
  ssize_t n = read(ends[0], text, sizeof text);
  printf("%.*s\n", (int)n, text);
  if (rename("/run/file", "/run/room/moved") || stat("/run/room/moved", &s) || s.st_size != n) return 2;
  if (unlink("/run/room/moved") || rmdir("/run/room")) return 3;
  return 0;
}
