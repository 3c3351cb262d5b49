/* What stands before the C library while a check runs a service: a socket gets a hundredth of each time that the program asks for, and the
   times are noted, in milliseconds, in the file that the variable SHORT_PATIENCE names. */
#define _GNU_SOURCE
#include <dlfcn.h>
#include <fcntl.h>
#include <stdio.h>
#include <stdlib.h>
#include <sys/socket.h>
#include <sys/time.h>
#include <unistd.h>

static void note(const char *kind, long milliseconds) {
    char line[64];
    int length = snprintf(line, sizeof line, "%s %ld\n", kind, milliseconds);
    int file = open(getenv("SHORT_PATIENCE"), O_WRONLY | O_APPEND | O_CLOEXEC);
    if (file < 0 || write(file, line, (size_t)length) != length) abort();
    close(file);
}

int setsockopt(int file, int level, int name, const void *value, socklen_t size) {
    int (*set)(int, int, int, const void *, socklen_t) = (int (*)(int, int, int, const void *, socklen_t))dlsym(RTLD_NEXT, "setsockopt");
    if (level != SOL_SOCKET || (name != SO_RCVTIMEO && name != SO_SNDTIMEO)) return set(file, level, name, value, size);
    const struct timeval *asked = value;
    long milliseconds = asked->tv_sec * 1000 + asked->tv_usec / 1000;
    note(name == SO_RCVTIMEO ? "read" : "write", milliseconds);
    struct timeval given = {milliseconds / 100000, milliseconds % 100000 * 10};
    return set(file, level, name, &given, sizeof given);
}
