// Two threads deposit one coin each into an account, which is a file: `bank FILE`. The status is 1 where one is lost.
#include <fcntl.h>
#include <pthread.h>
#include <stdio.h>
#include <stdlib.h>
#include <unistd.h>

static int account;

static int balance(void) {
  char digits[20] = "";
  return pread(account, digits, sizeof digits - 1, 0) > 0 ? atoi(digits) : 0;
}

static void *deposit(void *nothing) {
  char digits[20];
  int count = snprintf(digits, sizeof digits, "%d", balance() + 1);
  if (pwrite(account, digits, count, 0) != count) perror("deposit");
  return nothing;
}

int main(int count, char **words) {
  pthread_t clerks[2];
  account = open(count > 1 ? words[1] : "account.txt", O_RDWR | O_CREAT | O_TRUNC, 0600);
  for (int i = 0; i < 2; i++) pthread_create(&clerks[i], NULL, deposit, NULL);
  for (int i = 0; i < 2; i++) pthread_join(clerks[i], NULL);
  printf("balance %d\n", balance());
  return balance() != 2;
}
