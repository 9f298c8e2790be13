/* A net below a rerun: the kernel refuses what would reach outside, whoever asks. A rerun's own way past it are writes
 * to standard output and standard error alone. */
#define _GNU_SOURCE
#include "preload.h"

#include <fcntl.h>
#include <linux/audit.h>
#include <linux/filter.h>
#include <linux/seccomp.h>
#include <sched.h>
#include <signal.h>
#include <string.h>
#include <sys/prctl.h>
#include <sys/syscall.h>
#include <ucontext.h>

#define LOAD(field) BPF_STMT(BPF_LD | BPF_W | BPF_ABS, offsetof(struct seccomp_data, field))
#define ARGUMENT(i) (offsetof(struct seccomp_data, args) + 8 * (i))
#define TRAP BPF_STMT(BPF_RET | BPF_K, SECCOMP_RET_TRAP)
#define ALLOW BPF_STMT(BPF_RET | BPF_K, SECCOMP_RET_ALLOW)

/* Calls that have no place in a rerun at all. */
static const int forbidden[] = {
    SYS_unlink, SYS_unlinkat, SYS_rename, SYS_renameat, SYS_renameat2, SYS_mkdir, SYS_mkdirat, SYS_rmdir, SYS_link,
    SYS_linkat, SYS_symlink, SYS_symlinkat, SYS_mknod, SYS_mknodat, SYS_truncate, SYS_chmod, SYS_fchmodat,
    SYS_chown, SYS_lchown, SYS_fchownat, SYS_utime, SYS_utimes, SYS_utimensat, SYS_futimesat, SYS_setxattr,
    SYS_lsetxattr, SYS_removexattr, SYS_lremovexattr, SYS_creat, SYS_socket, SYS_connect, SYS_bind, SYS_listen,
    SYS_sendto, SYS_sendmsg, SYS_fork, SYS_vfork, SYS_execveat, SYS_mount, SYS_umount2, SYS_ptrace,
    SYS_process_vm_writev, SYS_shmget, SYS_msgget, SYS_mq_open, SYS_mq_unlink, SYS_io_uring_setup, SYS_reboot,
    SYS_sethostname, SYS_settimeofday, SYS_clock_settime};
enum { FORBIDDEN = sizeof forbidden / sizeof *forbidden };

/* The call that was refused is said once, and fails. */
static void refuse(int number, siginfo_t *about, void *context) {
  ucontext_t *at = context;
  (void)number;
  char what[32];
  int length = 0, n = about->si_syscall;
  for (int divisor = 1000; divisor; divisor /= 10)
    if (n >= divisor || divisor == 1) what[length++] = (char)('0' + n / divisor % 10);
  what[length] = 0;
  const void *from = (const void *)at->uc_mcontext.gregs[REG_RIP];
  bool known = is_in(&own_code, from) || is_in(&c_library, from) || is_in(&loader, from);
  if (known || !run.strict)
    uncovered_at(known && me >= 0 ? slots[me].caller : from, what, "system call %s reaches outside: a rerun refuses it",
                 what);
  else
    uncovered_at(from, what, "system call %s goes around the library: refused, in a rerun too", what);
  at->uc_mcontext.gregs[REG_RAX] = -ENOSYS;
}

static size_t forbid(struct sock_filter *at, long call) {
  at[0] = (struct sock_filter)BPF_JUMP(BPF_JMP | BPF_JEQ | BPF_K, (uint32_t)call, 0, 1);
  at[1] = (struct sock_filter)TRAP;
  return 2;
}
/* .. where this argument has one of these bits, or (not) this value. */
static size_t forbid_where(struct sock_filter *at, long call, int argument, uint16_t how, uint32_t value, bool not) {
  struct sock_filter program[] = {
      BPF_JUMP(BPF_JMP | BPF_JEQ | BPF_K, (uint32_t)call, 0, 4),
      BPF_STMT(BPF_LD | BPF_W | BPF_ABS, ARGUMENT(argument)),
      BPF_JUMP(BPF_JMP | how | BPF_K, value, not, !not),
      TRAP,
      LOAD(nr)};
  memcpy(at, program, sizeof program);
  return sizeof program / sizeof *program;
}

/* .. but where the run goes on as another program. */
static size_t forbid_programs(struct sock_filter *at) {
  struct sock_filter program[] = {
      BPF_JUMP(BPF_JMP | BPF_JEQ | BPF_K, SYS_execve, 0, 6),
      BPF_STMT(BPF_LD | BPF_W | BPF_ABS, ARGUMENT(0)),
      BPF_JUMP(BPF_JMP | BPF_JEQ | BPF_K, (uint32_t)PATH_PLACE, 0, 3),
      BPF_STMT(BPF_LD | BPF_W | BPF_ABS, ARGUMENT(0) + 4),
      BPF_JUMP(BPF_JMP | BPF_JEQ | BPF_K, (uint32_t)(PATH_PLACE >> 32), 0, 1),
      ALLOW,
      TRAP};
  memcpy(at, program, sizeof program);
  return sizeof program / sizeof *program;
}

/* Lays a filter below the process, which stays there for programs that the run goes on as: whether the kernel does. */
static bool filter(struct sock_filter *program, size_t length) {
  struct sigaction act = {.sa_sigaction = refuse, .sa_flags = SA_SIGINFO | SA_NODEFER};
  struct sock_fprog all = {.len = (unsigned short)length, .filter = program};
  inside++;
  bool there = !sigaction(SIGSYS, &act, NULL) && !prctl(PR_SET_NO_NEW_PRIVS, 1, 0, 0, 0) &&
               (run.goes_on || !KERNEL(SYS_seccomp, SECCOMP_SET_MODE_FILTER, 0, &all));
  inside--;
  return there;
}

void forbid_effects(void) {
  static struct sock_filter program[2 * FORBIDDEN + 64];
  size_t n = 0;
  uint32_t self = (uint32_t)KERNEL(SYS_getpid, 0);
  if (run.passes) return; /* paths below --pass go to the host */
  program[n++] = (struct sock_filter)LOAD(arch); /* calls by another convention have other numbers */
  program[n++] = (struct sock_filter)BPF_JUMP(BPF_JMP | BPF_JEQ | BPF_K, AUDIT_ARCH_X86_64, 1, 0);
  program[n++] = (struct sock_filter)TRAP;
  program[n++] = (struct sock_filter)LOAD(nr);
  program[n++] = (struct sock_filter)BPF_JUMP(BPF_JMP | BPF_JGE | BPF_K, 0x40000000, 0, 1);
  program[n++] = (struct sock_filter)TRAP;
  for (size_t i = 0; i < FORBIDDEN; i++) n += forbid(program + n, forbidden[i]);
  n += forbid_programs(program + n);
  n += forbid_where(program + n, SYS_open, 1, BPF_JSET, O_ACCMODE | O_CREAT | O_TRUNC, false);
  n += forbid_where(program + n, SYS_openat, 2, BPF_JSET, O_ACCMODE | O_CREAT | O_TRUNC, false);
  n += forbid(program + n, SYS_openat2);
  n += forbid_where(program + n, SYS_kill, 0, BPF_JEQ, self, true);
  n += forbid_where(program + n, SYS_tgkill, 0, BPF_JEQ, self, true);
  n += forbid_where(program + n, SYS_rt_sigqueueinfo, 0, BPF_JEQ, self, true);
  n += forbid_where(program + n, SYS_clone, 0, BPF_JSET, CLONE_THREAD, true);
  /* clone3 has its flags in memory: the C library goes on by clone */
  program[n++] = (struct sock_filter)BPF_JUMP(BPF_JMP | BPF_JEQ | BPF_K, SYS_clone3, 0, 1);
  program[n++] = (struct sock_filter)BPF_STMT(BPF_RET | BPF_K, SECCOMP_RET_ERRNO | ENOSYS);
  program[n++] = (struct sock_filter)ALLOW;
  if (!filter(program, n))
    say("this kernel has no filter of system calls: what is not covered may reach outside in a rerun");
}

/* Allows calls that are made within these addresses, whose upper halves are the same. */
static size_t allow_within(struct sock_filter *at, const range *r) {
  enum { LOW = offsetof(struct seccomp_data, instruction_pointer), HIGH = LOW + 4 };
  struct sock_filter program[] = {
      BPF_STMT(BPF_LD | BPF_W | BPF_ABS, HIGH),
      BPF_JUMP(BPF_JMP | BPF_JEQ | BPF_K, (uint32_t)(r->first >> 32), 0, 4),
      BPF_STMT(BPF_LD | BPF_W | BPF_ABS, LOW),
      BPF_JUMP(BPF_JMP | BPF_JGE | BPF_K, (uint32_t)r->first, 0, 2),
      BPF_JUMP(BPF_JMP | BPF_JGT | BPF_K, (uint32_t)r->end, 1, 0),
      ALLOW};
  memcpy(at, program, sizeof program);
  return sizeof program / sizeof *program;
}

/* Of a strict run: the kernel refuses calls that are made elsewhere than in the C library, its loader or here. */
void forbid_strangers(void) {
  static struct sock_filter program[64];
  const range *places[] = {&own_code, &c_library, &loader, &kernel_code};
  size_t n = 0;
  bool there = true;
  for (size_t i = 0; i < sizeof places / sizeof *places; i++) {
    if (places[i]->end && places[i]->first >> 32 != places[i]->end >> 32) there = false;
    if (places[i]->end) n += allow_within(program + n, places[i]);
  }
  program[n++] = (struct sock_filter)TRAP;
  if (!there || !filter(program, n))
    say("this kernel has no filter of system calls: those that go around the library are not seen");
}
