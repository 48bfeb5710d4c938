/* tickless.c - a library that stands before the C library, and has a sleep of a second or more last until two threads or
 * fewer are left. So a server makes no tick between its first one and its receivers' ends.
 * cc -shared -fPIC -o tickless.so tickless.c */
#define _GNU_SOURCE
#include <dirent.h>
#include <sys/syscall.h>
#include <time.h>
#include <unistd.h>

static int threads(void) {
    int found = 0;
    DIR *tasks = opendir("/proc/self/task");
    if (!tasks) return 0;
    for (struct dirent *one; (one = readdir(tasks));) found += one->d_name[0] != '.';
    closedir(tasks);
    return found;
}

int nanosleep(const struct timespec *asked, struct timespec *left) {
    do syscall(SYS_nanosleep, asked, left);
    while (asked->tv_sec >= 1 && threads() > 2);
    return 0;
}
