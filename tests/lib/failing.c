/* failing.c - a library that stands before the C library, and has calls of one kind fail: CALL names the kind, NTH is
 * the number of the one that fails (0: every one; -4: the fourth, and every one behind it), ERROR the errno that it
 * gives, PORT the UDP port of its socket (0: any file), and WHILE a file as long as which is there calls are counted and
 * fail (none: always). Every other call goes to the system. SHIFT names a file with the seconds by which the clock is set
 * ahead of the system's (none: 0). Of the sleeps of a second or more the first SLEEPS of each thread last a millisecond,
 * and the next one until a call was counted or the file is there that UNTIL names (none: each lasts as asked).
 * cc -shared -fPIC -o failing.so failing.c */
#define _GNU_SOURCE
#include <dlfcn.h>
#include <errno.h>
#include <fcntl.h>
#include <netinet/in.h>
#include <pthread.h>
#include <stdatomic.h>
#include <stdlib.h>
#include <string.h>
#include <sys/socket.h>
#include <sys/syscall.h>
#include <time.h>
#include <unistd.h>

static atomic_long calls;

static long number(const char *name) {
    const char *text = getenv(name);
    return text ? atol(text) : 0;
}

static int is_at(int fd, long port) {
    struct sockaddr_in bound;
    socklen_t len = sizeof bound;
    return !getsockname(fd, (void *)&bound, &len) && len == sizeof bound && ntohs(bound.sin_port) == port;
}

static int fails(const char *call, int fd) {
    const char *wanted = getenv("CALL");
    long nth = number("NTH"), port = number("PORT");
    const char *file = getenv("WHILE");
    if (!wanted || strcmp(wanted, call) || (port && !is_at(fd, port)) || (file && access(file, F_OK))) return 0;
    long made = atomic_fetch_add(&calls, 1) + 1;
    if (nth > 0 ? made != nth : made < -nth) return 0;
    errno = number("ERROR");
    return 1;
}

ssize_t recvfrom(int fd, void *room, size_t len, int flags, struct sockaddr *from, socklen_t *size) {
    return fails("recvfrom", fd) ? -1 : syscall(SYS_recvfrom, fd, room, len, flags, from, size);
}

ssize_t sendto(int fd, const void *octets, size_t len, int flags, const struct sockaddr *to, socklen_t size) {
    return fails("sendto", fd) ? -1 : syscall(SYS_sendto, fd, octets, len, flags, to, size);
}

int socket(int domain, int type, int protocol) {
    return fails("socket", -1) ? -1 : syscall(SYS_socket, domain, type, protocol);
}

int bind(int fd, const struct sockaddr *address, socklen_t size) {
    return fails("bind", fd) ? -1 : syscall(SYS_bind, fd, address, size);
}

int setsockopt(int fd, int level, int option, const void *value, socklen_t size) {
    return fails("setsockopt", fd) ? -1 : syscall(SYS_setsockopt, fd, level, option, value, size);
}

ssize_t read(int fd, void *room, size_t len) { return fails("read", fd) ? -1 : syscall(SYS_read, fd, room, len); }

ssize_t write(int fd, const void *octets, size_t len) {
    return fails("write", fd) ? -1 : syscall(SYS_write, fd, octets, len);
}

ssize_t pwrite64(int fd, const void *octets, size_t len, off64_t at) {
    return fails("pwrite", fd) ? -1 : syscall(SYS_pwrite64, fd, octets, len, at);
}

ssize_t pwrite(int fd, const void *octets, size_t len, off_t at) { return pwrite64(fd, octets, len, at); }

int fdatasync(int fd) { return fails("fdatasync", fd) ? -1 : syscall(SYS_fdatasync, fd); }

int fsync(int fd) { return fails("fsync", fd) ? -1 : syscall(SYS_fsync, fd); }

static long shift(void) {
    const char *file = getenv("SHIFT");
    char text[24] = "";
    if (!file) return 0;
    int fd = syscall(SYS_openat, AT_FDCWD, file, O_RDONLY);
    if (fd < 0) return 0;
    syscall(SYS_read, fd, text, sizeof text - 1);
    syscall(SYS_close, fd);
    return atol(text);
}

int clock_gettime(clockid_t clock, struct timespec *now) {
    if (clock == CLOCK_REALTIME && fails("clock_gettime", -1)) return -1;
    int status = syscall(SYS_clock_gettime, clock, now);
    if (!status && clock == CLOCK_REALTIME) now->tv_sec += shift();
    return status;
}

int nanosleep(const struct timespec *asked, struct timespec *left) {
    static _Thread_local long slept;
    const char *until = getenv("UNTIL");
    const struct timespec moment = {0, 1000000};
    if (!until || asked->tv_sec < 1 || slept > number("SLEEPS")) return syscall(SYS_nanosleep, asked, left);
    do syscall(SYS_nanosleep, &moment, NULL);
    while (slept == number("SLEEPS") && !atomic_load(&calls) && access(until, F_OK));
    slept++;
    return 0;
}

int pthread_create(pthread_t *thread, const pthread_attr_t *how, void *(*work)(void *), void *given) {
    if (fails("pthread_create", -1)) return errno;
    return ((__typeof__(&pthread_create))dlsym(RTLD_NEXT, "pthread_create"))(thread, how, work, given);
}
