/* Functions that are looked up by their names: in the C library itself, and in what comes after a library. */
#define _GNU_SOURCE
#include "said.h"

#include <dlfcn.h>
#include <pthread.h>
#include <stdlib.h>
#include <time.h>
#include <unistd.h>

static pthread_mutex_t lock = PTHREAD_MUTEX_INITIALIZER;
static char order[300];
static int count;
static void *works(void *given) {
  for (int i = 0; i < 60; i++) {
    pthread_mutex_lock(&lock);
    order[count++] = *(const char *)given;
    pthread_mutex_unlock(&lock);
    usleep((unsigned)(order[count - 1] % 7) * 10);
  }
  return given;
}

int main(void) {
  void *library = dlopen("libc.so.6", RTLD_LAZY | RTLD_NOLOAD), *none = dlopen("libm.so.6", RTLD_LAZY);
  int (*begins)(pthread_t *, const pthread_attr_t *, void *(*)(void *), void *) =
      (int (*)(pthread_t *, const pthread_attr_t *, void *(*)(void *), void *))dlsym(library, "pthread_create");
  int (*clock)(clockid_t, struct timespec *) = (int (*)(clockid_t, struct timespec *))dlsym(library, "clock_gettime");
  time_t (*now)(time_t *) = (time_t(*)(time_t *))dlsym(library, "time");
  void *(*again)(void *, const char *) = (void *(*)(void *, const char *))dlsym(library, "dlsym");
  struct timespec time;
  pthread_t threads[3];
  clock(CLOCK_REALTIME, &time);
  printf("%ld %ld\n", (long)time.tv_nsec, (long)now(NULL));
  for (int i = 0; i < 3; i++) begins(&threads[i], NULL, works, &"abc"[i]);
  for (int i = 0; i < 3; i++) pthread_join(threads[i], NULL);
  printf("%s\n", order);
  SAY(begins == pthread_create && again(library, "getpid") == (void *)getpid);
  SAY(dlsym(RTLD_DEFAULT, "clock_gettime") == (void *)clock);
  SAY(dlsym(library, "strlen") != NULL && dlsym(none, "cos") != NULL);
  SAY(dlsym(library, "none such") == NULL && strstr(dlerror(), "none such") != NULL);
  SAY(dlsym(RTLD_NEXT, "none such") == NULL && dlerror() != NULL && dlerror() == NULL);
  return 0;
}
