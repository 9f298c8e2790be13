/* Prints what it reads of a file of the host, piece by piece, until it is killed or the file ends. */
#include <fcntl.h>
#include <pthread.h>
#include <stdio.h>
#include <unistd.h>

static void *reads(void *given) {
  char text[16];
  int fd = open("input.txt", O_RDONLY);
  for (int i = 0; read(fd, text, sizeof text) > 0; i++) {
    printf("%ld %d %.8s\n", (long)given, i, text);
    fflush(stdout);
    usleep(200);
  }
  return NULL;
}

int main(void) {
  pthread_t t[3];
  for (long i = 0; i < 3; i++) pthread_create(&t[i], NULL, reads, (void *)i);
  for (int i = 0; i < 3; i++) pthread_join(t[i], NULL);
  return 0;
}
