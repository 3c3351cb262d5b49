/* What stands before the C library while a check runs a service: its clocks say so many milliseconds more, or less, as the file that the
   variable OTHER_CLOCKS names has as two numbers of eight bytes, for the boot clock and the wall clock. */
#define _GNU_SOURCE
#include <fcntl.h>
#include <stdint.h>
#include <stdlib.h>
#include <sys/syscall.h>
#include <time.h>
#include <unistd.h>

static int64_t moved(clockid_t clock) {
    int64_t both[2];
    int file = open(getenv("OTHER_CLOCKS"), O_RDONLY | O_CLOEXEC);
    if (file < 0 || read(file, both, sizeof both) != sizeof both) abort();
    close(file);
    return both[clock == CLOCK_REALTIME];
}

int clock_gettime(clockid_t clock, struct timespec *time) {
    int status = (int)syscall(SYS_clock_gettime, clock, time);
    if (status == 0) {
        int64_t said = (int64_t)time->tv_sec * 1000 + time->tv_nsec / 1000000 + moved(clock);
        time->tv_sec = said / 1000 - (said % 1000 < 0);
        time->tv_nsec = (said % 1000 + 1000 * (said % 1000 < 0)) * 1000000;
    }
    return status;
}
