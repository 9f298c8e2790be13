/* The C library's other names of functions that we have: a program may be linked to them. Each goes on to the name that
 * it stands for. */
#define ALIAS(name, of)                                                                                    \
  __asm__(".text\n.globl " #name "\n.type " #name ", @function\n" #name ":\n  jmp " #of "@PLT\n.size " #name \
          ", . - " #name "\n")

/* descriptors.c */
ALIAS(__close, close);
ALIAS(__dup2, dup2);
ALIAS(__fcntl, fcntl);
ALIAS(__lseek, lseek);
ALIAS(__open, open);
ALIAS(__open64, open64);
ALIAS(__pipe, pipe);
ALIAS(__poll, poll);
ALIAS(__pread64, pread64);
ALIAS(__pwrite64, pwrite64);
ALIAS(__read, read);
ALIAS(__select, select);
ALIAS(__write, write);
ALIAS(llseek, lseek64);

/* sockets.c */
ALIAS(__connect, connect);
ALIAS(__send, send);

/* threads.c and locks.c */
ALIAS(__pthread_key_create, pthread_key_create);
ALIAS(__pthread_mutex_lock, pthread_mutex_lock);
ALIAS(__pthread_mutex_trylock, pthread_mutex_trylock);
ALIAS(__pthread_mutex_unlock, pthread_mutex_unlock);
ALIAS(__pthread_once, pthread_once);
ALIAS(__pthread_rwlock_rdlock, pthread_rwlock_rdlock);
ALIAS(__pthread_rwlock_tryrdlock, pthread_rwlock_tryrdlock);
ALIAS(__pthread_rwlock_trywrlock, pthread_rwlock_trywrlock);
ALIAS(__pthread_rwlock_unlock, pthread_rwlock_unlock);
ALIAS(__pthread_rwlock_wrlock, pthread_rwlock_wrlock);
ALIAS(__sched_yield, sched_yield);
ALIAS(pthread_yield, sched_yield);

/* clocks.c and identity.c */
ALIAS(__getpgid, getpgid);
ALIAS(__getpid, getpid);
ALIAS(__gettimeofday, gettimeofday);
ALIAS(__nanosleep, nanosleep);
ALIAS(__setpgid, setpgid);
ALIAS(__sysconf, sysconf);

/* names.c */
ALIAS(__statfs, statfs);

/* process.c and refused.c */
ALIAS(__clone, clone);
ALIAS(__fork, fork);
ALIAS(__sigsuspend, sigsuspend);
ALIAS(__vfork, vfork);
ALIAS(gsignal, raise);
ALIAS(_IO_popen, popen);

/* signals.c */
ALIAS(__sigaction, sigaction);
ALIAS(__sysv_signal, sysv_signal);
ALIAS(bsd_signal, signal);
ALIAS(ssignal, signal);

/* files.c */
ALIAS(__backtrace_symbols_fd, backtrace_symbols_fd);
ALIAS(_IO_fclose, fclose);
ALIAS(_IO_fdopen, fdopen);
ALIAS(_IO_feof, feof);
ALIAS(_IO_ferror, ferror);
ALIAS(_IO_fflush, fflush);
ALIAS(_IO_fgetpos, fgetpos);
ALIAS(_IO_fgetpos64, fgetpos64);
ALIAS(_IO_fgets, fgets);
ALIAS(_IO_flockfile, flockfile);
ALIAS(_IO_fopen, fopen);
ALIAS(_IO_fprintf, fprintf);
ALIAS(_IO_fputs, fputs);
ALIAS(_IO_fread, fread);
ALIAS(_IO_fsetpos, fsetpos);
ALIAS(_IO_fsetpos64, fsetpos64);
ALIAS(_IO_ftell, ftell);
ALIAS(_IO_ftrylockfile, ftrylockfile);
ALIAS(_IO_funlockfile, funlockfile);
ALIAS(_IO_fwrite, fwrite);
ALIAS(_IO_getc, getc);
ALIAS(_IO_gets, gets);
ALIAS(_IO_printf, printf);
ALIAS(_IO_putc, putc);
ALIAS(_IO_puts, puts);
ALIAS(_IO_setbuffer, setbuffer);
ALIAS(_IO_setvbuf, setvbuf);
ALIAS(_IO_ungetc, ungetc);
ALIAS(_IO_vfprintf, vfprintf);
ALIAS(__vfscanf, vfscanf);
