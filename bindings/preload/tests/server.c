/* server CLIENTS: adds numbers under names, for so many clients at a port that it prints, and keeps a journal. */
#define _GNU_SOURCE
#include <arpa/inet.h>
#include <fcntl.h>
#include <netinet/in.h>
#include <pthread.h>
#include <stdio.h>
#include <stdlib.h>
#include <string.h>
#include <sys/socket.h>
#include <unistd.h>

static pthread_mutex_t m = PTHREAD_MUTEX_INITIALIZER;
static long values[8];
static unsigned digest;
static int journal;

static void *serve(void *given) {
  int s = (int)(long)given;
  FILE *in = fdopen(s, "r");
  char line[64], reply[64];
  while (fgets(line, sizeof line, in)) {
    int name = 0;
    long number = 0;
    if (sscanf(line, "%d %ld", &name, &number) != 2) break;
    pthread_mutex_lock(&m);
    int length = snprintf(reply, sizeof reply, "%ld\n", values[name & 7] += number);
    for (int i = 0; i < length; i++) digest = digest * 31 + (unsigned char)reply[i];
    if (write(journal, line, strlen(line)) < 0) exit(3);
    pthread_mutex_unlock(&m);
    if (send(s, reply, (size_t)length, MSG_NOSIGNAL) != length) break;
  }
  fclose(in);
  return NULL;
}

int main(int count, char **words) {
  struct sockaddr_in at = {.sin_family = AF_INET, .sin_addr.s_addr = htonl(INADDR_LOOPBACK)};
  socklen_t length = sizeof at;
  int clients = count > 1 ? atoi(words[1]) : 1, s = socket(AF_INET, SOCK_STREAM, 0);
  pthread_t t[16];
  if (clients > 14 || bind(s, (struct sockaddr *)&at, sizeof at) || listen(s, 16)) return 1;
  getsockname(s, (struct sockaddr *)&at, &length);
  journal = open("journal.txt", O_WRONLY | O_CREAT | O_APPEND, 0600);
  printf("port %d\n", ntohs(at.sin_port));
  fflush(stdout);
  for (int i = 0; i < clients; i++) pthread_create(&t[i], NULL, serve, (void *)(long)accept(s, NULL, NULL));
  for (int i = 0; i < clients; i++) pthread_join(t[i], NULL);
  printf("digest %08x\n", digest);
  return 0;
}
