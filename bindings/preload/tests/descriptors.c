/* Calls on descriptors: a line for each, as the kernel has it. */
#define _GNU_SOURCE
#include "said.h"

#include <fcntl.h>
#include <poll.h>
#include <stdlib.h>
#include <sys/file.h>
#include <sys/ioctl.h>
#include <sys/mman.h>
#include <sys/select.h>
#include <sys/sendfile.h>
#include <sys/socket.h>
#include <sys/stat.h>
#include <sys/uio.h>
#include <sys/syscall.h>
#include <unistd.h>

static char bytes[100000];

static void opening(void) {
  SAY(open("input.txt", O_RDONLY));
  SAY(open("none.txt", O_RDONLY));
  SAY(open("input.txt", O_WRONLY | O_CREAT | O_EXCL, 0600));
  SAY(open("input.txt", O_RDONLY | O_DIRECTORY));
  SAY(open("input.txt/below", O_RDONLY));
  SAY(open(".", O_RDONLY | O_DIRECTORY));
  SAY(openat(4, "input.txt", O_RDONLY));
  SAY(openat(3, "input.txt", O_RDONLY));
  SAY(openat(30, "input.txt", O_RDONLY));
  SAY(open(".", O_WRONLY));
  SAY(creat("made.txt", 0640));
  SAY(close(6));
  SAY(close(5));
  SAY(close(4));
  SAY(close(4));
  SAY(close(100));
  SAY(close(-1));
  SAY(read(100, bytes, 1));
  SAY(read(4, bytes, 1));
  SAY(fcntl(31, F_GETFD));
  SAY(open64("input.txt", O_RDONLY));
  SAY(openat64(AT_FDCWD, "input.txt", O_RDONLY));
  SAY(close_range(4, 5, 0));
  SAY(close(4));
  SAY(close(3));
}

static void moving(void) {
  struct iovec parts[2] = {{bytes, 3}, {bytes + 10, 4}};
  int f = open("made.txt", O_RDWR | O_TRUNC);
  SAY(write(f, "hello world", 11));
  SAY(lseek(f, 0, SEEK_SET));
  SAY(read(f, bytes, 5));
  SAY(lseek(f, -2, SEEK_CUR));
  SAY(lseek(f, 2, SEEK_END));
  SAY(lseek(f, -1, SEEK_SET));
  SAY(lseek(f, 4, SEEK_DATA));
  SAY(lseek(f, 4, SEEK_HOLE));
  SAY(lseek(f, 11, SEEK_DATA));
  SAY(lseek(f, 30, SEEK_HOLE));
  SAY(lseek(f, 0, 99));
  SAY(pread(f, bytes, 20, 6));
  SAY(pread64(f, bytes, 20, 100));
  SAY(pread(f, bytes, 1, -1));
  SAY(pwrite(f, "WORLD", 5, 6));
  SAY(pwrite64(f, "!", 1, 11));
  SAY(lseek64(f, 0, SEEK_SET));
  SAY(readv(f, parts, 2));
  printf("%.3s|%.4s\n", bytes, bytes + 10);
  SAY(writev(f, parts, 2));
  SAY(preadv(f, parts, 2, 2));
  SAY(pwritev(f, parts, 2, 40));
  SAY(ftruncate(f, 70000));
  SAY(lseek(f, 0, SEEK_END));
  SAY(pread(f, bytes, sizeof bytes, 0));
  SAY(lseek(f, 0, SEEK_SET));
  SAY(read(f, bytes, sizeof bytes));
  SAY(read(f, bytes, 1));
  TELL(posix_fallocate(f, 0, 80000));
  SAY(fallocate(f, FALLOC_FL_KEEP_SIZE, 0, 200000));
  SAY(fallocate(f, 99999, 0, 1));
  SAY(lseek(f, 0, SEEK_END));
  SAY(fsync(f));
  SAY(fdatasync(f));
  TELL(posix_fadvise(f, 0, 0, POSIX_FADV_SEQUENTIAL));
  SAY(readahead(f, 0, 10));
  SAY(flock(f, LOCK_EX));
  struct flock lock = {.l_type = F_WRLCK, .l_whence = SEEK_SET};
  SAY(fcntl(f, F_SETLK, &lock));
  SAY(ftruncate(f, 12));
  SAY(fchmod(f, 0600));
  SAY(fchown(f, (uid_t)-1, (gid_t)-1));
  SAY(close(f));
}

static void numbers(void) {
  int f = open("made.txt", O_RDWR | O_APPEND | O_CLOEXEC);
  SAY(fcntl(f, F_GETFD));
  SAY(fcntl(f, F_GETFL) & (O_ACCMODE | O_APPEND | O_NONBLOCK));
  SAY(fcntl(f, F_SETFL, O_NONBLOCK));
  SAY(fcntl(f, F_GETFL) & (O_ACCMODE | O_APPEND | O_NONBLOCK));
  SAY(fcntl(f, F_SETFD, 0));
  SAY(fcntl(f, F_GETFD));
  SAY(dup(f));
  SAY(dup2(f, 9));
  SAY(dup2(f, f));
  SAY(dup2(20, 9));
  SAY(dup3(f, 10, O_CLOEXEC));
  SAY(dup3(f, f, 0));
  SAY(fcntl(10, F_GETFD));
  SAY(fcntl(f, F_DUPFD, 12));
  SAY(fcntl(f, F_DUPFD_CLOEXEC, 12));
  SAY(lseek(9, 4, SEEK_SET));
  SAY(lseek(13, 0, SEEK_CUR));
  SAY(isatty(f));
  SAY(ioctl(f, FIONBIO, &(int){0}));
  SAY(fcntl(f, F_GETFL) & (O_ACCMODE | O_APPEND | O_NONBLOCK));
  SAY(ioctl(f, FIOCLEX, NULL));
  SAY(fcntl(f, F_GETFD));
  SAY(ioctl(f, FIONCLEX, NULL));
  SAY(fcntl(f, F_GETFD));
  SAY(ioctl(f, TIOCGWINSZ, bytes));
  SAY(ioctl(21, TIOCGWINSZ, bytes));
  closefrom(3);
  SAY(close(f));
  SAY(open("made.txt", O_RDONLY));
  SAY(open("/dev/fd/3", O_RDONLY));
  SAY(open("/dev/null", O_RDWR));
  SAY(write(5, "x", 1));
  SAY(read(5, bytes, 1));
  closefrom(3);
}

static void pairs(void) {
  int p[2], s[2];
  struct pollfd fds[2];
  fd_set in;
  SAY(pipe(p));
  SAY(fcntl(p[0], F_GETPIPE_SZ) > 0 && fcntl(p[0], F_GETPIPE_SZ) == fcntl(p[1], F_GETPIPE_SZ));
  SAY(fcntl(open("input.txt", O_RDONLY), F_GETPIPE_SZ));
  closefrom(p[1] + 1);
  SAY(ioctl(p[0], FIONREAD, bytes));
  SAY(*(int *)bytes);
  SAY(write(p[1], "there", 5));
  SAY(ioctl(p[0], FIONREAD, bytes));
  SAY(*(int *)bytes);
  SAY(read(p[0], bytes, 5));
  SAY(ioctl(p[0], TIOCGWINSZ, bytes));
  SAY(pipe2(s, O_NONBLOCK | O_CLOEXEC));
  printf("%d %d %d %d\n", p[0], p[1], s[0], s[1]);
  SAY(read(s[0], bytes, 1));
  SAY(write(p[1], "abc", 3));
  SAY(read(p[0], bytes, 10));
  SAY(write(s[1], bytes, 3));
  fds[0] = (struct pollfd){s[0], POLLIN, 0};
  SAY(poll(fds, 1, 100));
  SAY(fds[0].revents);
  FD_ZERO(&in);
  FD_SET(s[0], &in);
  SAY(select(s[0] + 1, &in, NULL, NULL, NULL));
  SAY(FD_ISSET(s[0], &in) != 0);
  SAY(ppoll(fds, 1, &(struct timespec){0, 0}, NULL));
  SAY(pselect(s[0] + 1, &in, NULL, NULL, &(struct timespec){0, 0}, NULL));
  unsigned long short_set[2] = {1ul << s[0], 7};
  SAY(select(s[0] + 1, (fd_set *)short_set, NULL, NULL, &(struct timeval){0, 0}));
  SAY(short_set[1]);
  fds[0].fd = 25;
  SAY(poll(fds, 1, 0));
  SAY(fds[0].revents == POLLNVAL);
  SAY(poll(NULL, 0, 1));
  SAY(lseek(p[0], 0, SEEK_SET));
  SAY(close(p[1]));
  SAY(read(p[0], bytes, 1));
  SAY(socketpair(AF_UNIX, SOCK_STREAM, 0, p));
  SAY(send(p[0], "xy", 2, 0));
  SAY(recv(p[1], bytes, 10, 0));
  SAY(shutdown(p[0], SHUT_WR));
  SAY(recv(p[1], bytes, 10, 0));
  closefrom(3);
}

/* The last number is the library's own. */
static void none_there(void) {
  SAY(read(31, bytes, 1));
  SAY(write(31, bytes, 1));
  SAY(lseek(31, 0, SEEK_SET));
  SAY(ftruncate(31, 0));
  SAY(dup(31));
  SAY(fcntl(31, F_GETFL));
}

static void copying(void) {
  none_there();
  int from = open("input.txt", O_RDONLY), to = open("copied.txt", O_RDWR | O_CREAT | O_TRUNC, 0600);
  off_t at = 2;
  SAY(sendfile(to, from, NULL, 6));
  SAY(sendfile(to, from, &at, 6));
  SAY(at);
  off64_t there = 1, here = 20;
  int p[2], other = open("other.txt", O_RDWR | O_CREAT | O_TRUNC, 0600);
  (void)!pipe(p);
  SAY(copy_file_range(from, NULL, other, NULL, 5, 0));
  SAY(copy_file_range(from, &there, other, &here, 9, 0));
  SAY(there * 1000 + here);
  SAY(copy_file_range(from, NULL, p[1], NULL, 5, 0));
  SAY(copy_file_range(from, NULL, 20, NULL, 5, 0));
  SAY(copy_file_range(from, NULL, other, NULL, 5, 7));
  SAY(copy_file_range(from, NULL, other, NULL, 1 << 20, 0));
  SAY(splice(from, &there, p[1], NULL, 12, 0));
  SAY(splice(p[0], NULL, other, NULL, 100, 0));
  SAY(splice(p[0], NULL, other, NULL, 100, SPLICE_F_NONBLOCK));
  SAY(splice(p[0], &there, other, NULL, 100, 0));
  SAY(splice(from, NULL, other, NULL, 100, 0));
  SAY(splice(20, NULL, other, NULL, 100, 0));
  SAY(pread(other, bytes, sizeof bytes - 1, 0));
  printf("%.20s\n", bytes + 20);
  SAY(lseek(other, 0, SEEK_END));
  SAY(unlink("other.txt"));
  SAY(lseek(from, 6, SEEK_SET));
  close(other), close(p[0]), close(p[1]);
  char *all = mmap(NULL, 4096, PROT_READ, MAP_PRIVATE, from, 0);
  printf("%.6s\n", all == MAP_FAILED ? "failed" : all);
  char *shared = mmap(NULL, 4096, PROT_READ, MAP_SHARED, to, 0);
  printf("%.12s\n", shared == MAP_FAILED ? "failed" : shared);
  SAY(munmap(all, 4096));
  SAY(mmap(NULL, 4096, PROT_READ, MAP_PRIVATE, 17, 0) == MAP_FAILED);
  SAY(lseek(to, 0, SEEK_SET));
  SAY(dup2(to, 0));
  SAY(read(0, bytes, 100));
  SAY(open("/dev/stdin", O_RDONLY));
  SAY(unlink("copied.txt"));
  SAY(unlink("made.txt"));
}

/* As libuv closes. */
static void closed_by_number(void) {
  int fd = dup(1);
  SAY(syscall(SYS_close, fd));
  SAY(fcntl(fd, F_GETFD));
  SAY(syscall(SYS_close, fd));
}

int main(void) {
  setvbuf(stdout, NULL, _IOFBF, 65536);
  opening();
  closed_by_number();
  moving();
  numbers();
  pairs();
  copying();
  return 0;
}
