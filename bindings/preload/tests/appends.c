/* Eight threads append to one file of the host, each by a descriptor of its own. */
#include <fcntl.h>
#include <pthread.h>
#include <stdio.h>
#include <unistd.h>

static void *appends(void *given) {
  char line[16];
  int fd = open("appended.txt", O_WRONLY | O_CREAT | O_APPEND, 0600);
  for (int i = 0; i < 40; i++) {
    int n = snprintf(line, sizeof line, "%ld %d\n", (long)given, i);
    if (write(fd, line, (size_t)n) != n) return (void *)1;
  }
  return NULL;
}

int main(void) {
  pthread_t t[8];
  void *result;
  for (long i = 0; i < 8; i++) pthread_create(&t[i], NULL, appends, (void *)i);
  for (int i = 0; i < 8; i++)
    if (pthread_join(t[i], &result) || result) return 1;
  return 0;
}
