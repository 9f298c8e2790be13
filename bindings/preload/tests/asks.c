/* asks WHAT: asks the outside for one thing, in a function of its own. */
#include <fcntl.h>
#include <stdio.h>
#include <stdlib.h>
#include <sys/stat.h>
#include <time.h>
#include <unistd.h>

__attribute__((noinline)) static int asks(int what) {
  struct stat status;
  struct timespec now;
  char bytes[64];
  switch (what) {
  case 1: return stat("input.txt", &status);
  case 2: return stat("data.txt", &status);
  case 3: return clock_gettime(CLOCK_REALTIME, &now);
  case 4: return open("input.txt", O_RDONLY);
  case 5: return (int)read(0, bytes, sizeof bytes);
  default: return 0;
  }
}

int main(int count, char **words) {
  int result = asks(count > 1 ? atoi(words[1]) : 0);
  printf("%d\n", result);
  return 0;
}
