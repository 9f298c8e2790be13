// Preloaded by tools/sweep into the program: counts its allocations, reads and writes, notes each read and write in the
// file that DETIO_FAULTS names, and has one of them fail, as DETIO_FAULT says: `a 7` refuses allocation 7, `e 3` has read or
// write 3 fail with EIO, `s 3` has it move one byte. With `t 2` thread 2 cannot be started. All are counted from 1.
#define _GNU_SOURCE
#include <dlfcn.h>
#include <errno.h>
#include <fcntl.h>
#include <pthread.h>
#include <stdatomic.h>
#include <stdio.h>
#include <stdlib.h>
#include <string.h>
#include <sys/mman.h>
#include <sys/socket.h>
#include <sys/syscall.h>
#include <unistd.h>

enum { NOTES = 4000, PATH = 240 };

struct note {
    char what; // 'r' or 'w'; 0 where there is no note
    int descriptor;
    unsigned long asked;
    char path[PATH];
};

static struct noted {
    atomic_ulong allocations, moves;
    struct note notes[NOTES];
} *noted;
static char fault;
static unsigned long at;
static atomic_ulong threads;

extern void *__libc_malloc(size_t);
extern void *__libc_realloc(void *, size_t);

__attribute__((constructor)) static void begin(void)
{
    const char *file = getenv("DETIO_FAULTS"), *word = getenv("DETIO_FAULT");
    int to = file ? open(file, O_RDWR | O_CLOEXEC) : -1;
    void *room = to < 0 ? MAP_FAILED : mmap(NULL, sizeof *noted, PROT_READ | PROT_WRITE, MAP_SHARED, to, 0);
    if (word)
        sscanf(word, "%c %lu", &fault, &at);
    if (room != MAP_FAILED)
        noted = room;
    if (to >= 0)
        close(to);
}

static int is_refused(void)
{
    return noted && atomic_fetch_add(&noted->allocations, 1) + 1 == at && fault == 'a';
}

void *malloc(size_t size)
{
    if (is_refused()) {
        errno = ENOMEM;
        return NULL;
    }
    return __libc_malloc(size);
}

void *realloc(void *old, size_t size)
{
    if (is_refused()) {
        errno = ENOMEM;
        return NULL;
    }
    return __libc_realloc(old, size);
}

int pthread_create(pthread_t *thread, const pthread_attr_t *attributes, void *(*run)(void *), void *with)
{
    static int (*real)(pthread_t *, const pthread_attr_t *, void *(*)(void *), void *);
    if (atomic_fetch_add(&threads, 1) + 1 == at && fault == 't')
        return EAGAIN;
    if (!real)
        *(void **)&real = dlsym(RTLD_NEXT, "pthread_create");
    return real(thread, attributes, run, with);
}

// Notes a read or write, and answers how many bytes it may move, or -1 where it is to fail.
static long room_of(char what, int descriptor, size_t asked)
{
    if (!noted)
        return (long)asked;
    unsigned long number = atomic_fetch_add(&noted->moves, 1) + 1;
    if (number <= NOTES) {
        struct note *note = &noted->notes[number - 1];
        char link[40];
        snprintf(link, sizeof link, "/proc/self/fd/%d", descriptor);
        long length = readlink(link, note->path, PATH - 1);
        note->path[length < 0 ? 0 : length] = 0;
        note->descriptor = descriptor;
        note->asked = asked;
        note->what = what;
    }
    if (number != at || (fault != 'e' && fault != 's'))
        return (long)asked;
    return fault == 'e' ? -1 : asked ? 1 : 0;
}

static long refused(void)
{
    errno = EIO;
    return -1;
}

ssize_t read(int descriptor, void *to, size_t count)
{
    long room = room_of('r', descriptor, count);
    return room < 0 ? refused() : syscall(SYS_read, descriptor, to, room);
}

ssize_t write(int descriptor, const void *from, size_t count)
{
    long room = room_of('w', descriptor, count);
    return room < 0 ? refused() : syscall(SYS_write, descriptor, from, room);
}

ssize_t recv(int descriptor, void *to, size_t count, int flags)
{
    long room = room_of('r', descriptor, count);
    return room < 0 ? refused() : syscall(SYS_recvfrom, descriptor, to, room, flags, NULL, NULL);
}

ssize_t send(int descriptor, const void *from, size_t count, int flags)
{
    long room = room_of('w', descriptor, count);
    return room < 0 ? refused() : syscall(SYS_sendto, descriptor, from, room, flags, NULL, 0);
}
