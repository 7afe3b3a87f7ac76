/* Loaded before a program, it counts the program's requests for memory and its calls of the system, and has some of them fail.
 *
 * COUNTED names a file of `struct counts`, which is shared, so that it holds what was counted however the program ends. REFUSED is
 * one of these, where the error is a number of errno.h, and a call without an error moves one byte only:
 *
 *     read 3 once 5      the third call of the class `read` fails
 *     read 3 ever 5      the third one and all behind it
 *     read 3 long 5      the third one and nine behind it
 *     read 3 each 5      each third one
 *     read 3 once        the third one reads one byte
 *
 * bench/refused.py builds it:  cc -shared -fPIC -O2 -o refused.so refused.c -ldl
 */
#define _GNU_SOURCE
#include <dlfcn.h>
#include <errno.h>
#include <fcntl.h>
#include <stdarg.h>
#include <stdint.h>
#include <stdio.h>
#include <stdlib.h>
#include <string.h>
#include <sys/epoll.h>
#include <sys/mman.h>
#include <sys/socket.h>
#include <sys/stat.h>
#include <sys/syscall.h>
#include <unistd.h>

enum { MEMORY, READ, WRITE, SYNC, ACCEPT, RECV, SEND, OPEN, NAME, WAIT, SEAT, CLASSES };

static const char *const classes[CLASSES] = {"memory", "read", "write", "sync", "accept", "recv", "send", "open", "name", "wait", "seat"};

struct counts {
    int64_t calls[CLASSES];
    int64_t refused;  /* calls that failed or were cut to one byte */
    int64_t held;     /* pieces of memory that were given and aren't given back */
    int64_t files;    /* files that are open at the end, and weren't at the beginning */
    int64_t ended;    /* the program ended by itself */
};

static struct counts *told;
static int class = CLASSES, code;
static long from;
static char how[8];

extern void *__libc_malloc(size_t), *__libc_calloc(size_t, size_t), *__libc_realloc(void *, size_t);
extern void __libc_free(void *);

static int open_files(void) {
    int count = 0;
    for (int fd = 0; fd < 1024; fd++)
        count += fcntl(fd, F_GETFD) >= 0;
    return count;
}

__attribute__((constructor)) static void begin(void) {
    const char *file = getenv("COUNTED"), *refused = getenv("REFUSED");
    char name[16];
    int fd;
    if (refused && sscanf(refused, "%15s %ld %7s %d", name, &from, how, &code) >= 3)
        for (class = 0; class < CLASSES && strcmp(name, classes[class]);)
            class++;
    if (!file || (fd = syscall(SYS_openat, AT_FDCWD, file, O_RDWR)) < 0)
        return;
    void *shared = mmap(NULL, sizeof *told, PROT_READ | PROT_WRITE, MAP_SHARED, fd, 0);
    syscall(SYS_close, fd);
    if (shared == MAP_FAILED)
        return;
    told = shared;
    told->files = -open_files();
}

__attribute__((destructor)) static void end(void) {
    if (!told)
        return;
    told->files += open_files();
    told->ended = 1;
}

/* Whether this call of a class is refused. */
static int is_met(int called) {
    if (!told)
        return 0;
    long number = ++told->calls[called];
    if (called != class || number < from)
        return 0;
    if (!strcmp(how, "once") && number > from)
        return 0;
    if (!strcmp(how, "long") && number > from + 9)
        return 0;
    if (!strcmp(how, "each") && number % from)
        return 0;
    told->refused++;
    return 1;
}

/* Whether it fails. Where it moves bytes it may be cut to one. */
static int fails(int called, size_t *count) {
    if (!is_met(called))
        return 0;
    if (!code && count) {
        *count = *count > 0;
        return 0;
    }
    errno = code;
    return 1;
}

static void *held(void *given) {
    if (told && given)
        told->held++;
    return given;
}

void *malloc(size_t size) { return fails(MEMORY, NULL) ? NULL : held(__libc_malloc(size)); }

void *calloc(size_t count, size_t size) { return fails(MEMORY, NULL) ? NULL : held(__libc_calloc(count, size)); }

void *realloc(void *old, size_t size) {
    if (fails(MEMORY, NULL))
        return NULL;
    return old ? __libc_realloc(old, size) : held(__libc_realloc(old, size));
}

void free(void *given) {
    if (told && given)
        told->held--;
    __libc_free(given);
}

#define NEXT(call) ((__typeof__(&call))dlsym(RTLD_NEXT, #call))

ssize_t read(int fd, void *bytes, size_t count) { return fails(READ, &count) ? -1 : NEXT(read)(fd, bytes, count); }

ssize_t pread(int fd, void *bytes, size_t count, off_t at) { return fails(READ, &count) ? -1 : NEXT(pread)(fd, bytes, count, at); }

ssize_t pread64(int fd, void *bytes, size_t count, off64_t at) { return pread(fd, bytes, count, at); }

ssize_t write(int fd, const void *bytes, size_t count) { return fails(WRITE, &count) ? -1 : NEXT(write)(fd, bytes, count); }

int fsync(int fd) { return fails(SYNC, NULL) ? -1 : NEXT(fsync)(fd); }

int accept4(int fd, struct sockaddr *from_whom, socklen_t *length, int flags) {
    return fails(ACCEPT, NULL) ? -1 : NEXT(accept4)(fd, from_whom, length, flags);
}

ssize_t recv(int fd, void *bytes, size_t count, int flags) { return fails(RECV, &count) ? -1 : NEXT(recv)(fd, bytes, count, flags); }

ssize_t send(int fd, const void *bytes, size_t count, int flags) { return fails(SEND, &count) ? -1 : NEXT(send)(fd, bytes, count, flags); }

int open(const char *name, int flags, ...) {
    va_list more;
    va_start(more, flags);
    int mode = flags & O_CREAT ? va_arg(more, int) : 0;
    va_end(more);
    return fails(OPEN, NULL) ? -1 : NEXT(open)(name, flags, mode);
}

int statx(int fd, const char *restrict name, int flags, unsigned mask, struct statx *restrict into) {
    return fails(NAME, NULL) ? -1 : NEXT(statx)(fd, name, flags, mask, into);
}

int fchmod(int fd, mode_t mode) { return fails(NAME, NULL) ? -1 : NEXT(fchmod)(fd, mode); }

int rename(const char *name, const char *other) { return fails(NAME, NULL) ? -1 : NEXT(rename)(name, other); }

int unlink(const char *name) { return fails(NAME, NULL) ? -1 : NEXT(unlink)(name); }

char *realpath(const char *restrict name, char *restrict into) { return fails(NAME, NULL) ? NULL : NEXT(realpath)(name, into); }

int epoll_wait(int fd, struct epoll_event *events, int most, int timeout) {
    return fails(WAIT, NULL) ? -1 : NEXT(epoll_wait)(fd, events, most, timeout);
}

int epoll_ctl(int fd, int change, int other, struct epoll_event *event) {
    return fails(SEAT, NULL) ? -1 : NEXT(epoll_ctl)(fd, change, other, event);
}

int setsockopt(int fd, int level, int name, const void *value, socklen_t length) {
    return fails(SEAT, NULL) ? -1 : NEXT(setsockopt)(fd, level, name, value, length);
}

int bind(int fd, const struct sockaddr *address, socklen_t length) { return fails(SEAT, NULL) ? -1 : NEXT(bind)(fd, address, length); }

int listen(int fd, int backlog) { return fails(SEAT, NULL) ? -1 : NEXT(listen)(fd, backlog); }
