/* Three threads print, each at its own pace, to standard output without a buffer. */
#include <pthread.h>
#include <stdio.h>
#include <unistd.h>

static void *prints(void *given) {
  volatile long sum = 0;
  for (int i = 0; i < 100; i++) {
    for (int k = 0; k < 2000 * (int)(1 + ((long)given + i) % 3); k++) sum = sum + k;
    char line[32];
    int length = snprintf(line, sizeof line, "%ld %d\n", (long)given, i);
    if (i % 3 == 0) printf("%s", line);
    else if (write(1, line, (size_t)length) != length) return (void *)1;
    if (i % 10 == 0) usleep(100);
  }
  return NULL;
}

int main(void) {
  pthread_t t[3];
  setvbuf(stdout, NULL, _IONBF, 0);
  for (long i = 0; i < 3; i++) pthread_create(&t[i], NULL, prints, (void *)i);
  for (int i = 0; i < 3; i++) pthread_join(t[i], NULL);
  return 0;
}
