"""Threads take turns beside busy loops, and are stopped wherever they are, and none of them waits for good.

The program of `crates/turn_list`, which `rt run` leaves there, has 64, 32 and 3 threads append to one list, each
thread in turns of its own. In each of three rounds they take 300,000 turns on all processors and as many on one of
them, beside two busy loops for each processor, which the check ends; and then, 20 times and with nothing of the
check's beside, 20,000 turns with a library before the C library that stops each thread that the program starts again
and again, wherever it is, but not while it sleeps or wakes another: so also behind its turn, before it looks at the
mark of those that sleep, and between a look and the sleep or the wake. Each run has to end within the 120 seconds of
a stored run, with each thread's entries in their order. Some sleeps have to end at once: there the mark was set, and
whoever passed a turn took it away, before the thread slept. In what orders all this can come is looked at by
`turn_orders`; this is the program itself, and chance."""
import functools
import os
import pathlib
import subprocess

from keystore.cases import Case, needs_compiler, times
from keystore.harness import TOP, busy_loops

CRATE = "crates/turn_list"
PROGRAM = TOP / CRATE / "out/turn_list"
THREADS = (64, 32, 3)
SECONDS = 120
ROUNDS, TURNS, STOPPED_TURNS, STOPPED_RUNS = 3, 300_000, 20_000, 20

# A thread runs for some microseconds, at random, and is then stopped for some, at random.
STOPPING = """
#define _GNU_SOURCE
#include <dlfcn.h>
#include <errno.h>
#include <linux/futex.h>
#include <pthread.h>
#include <signal.h>
#include <stdarg.h>
#include <stdatomic.h>
#include <stdio.h>
#include <stdlib.h>
#include <sys/syscall.h>
#include <time.h>
#include <unistd.h>
enum { RUNS_FOR = 10, STOPS_FOR = 50 };
struct start { void *(*run)(void *); void *with; };
static long (*call)(long, ...);
static int (*create)(pthread_t *, const pthread_attr_t *, void *(*)(void *), void *);
static atomic_long ended_at_once;
static sigset_t stopping;
static __thread unsigned seed;
static __thread timer_t timer;
static struct timespec below(int microseconds) {
    return (struct timespec){0, 1000 * (1 + rand_r(&seed) % microseconds)};
}
static void run_for_a_while(void) { timer_settime(timer, 0, &(struct itimerspec){.it_value = below(RUNS_FOR)}, NULL); }
static void stop(int signal) {
    int before = errno;
    struct timespec time = below(STOPS_FOR);
    nanosleep(&time, NULL);
    run_for_a_while();
    errno = before;
}
static void *run(void *start) {
    struct start it = *(struct start *)start;
    struct sigevent event = {.sigev_notify = SIGEV_THREAD_ID, .sigev_signo = SIGUSR1};
    free(start);
    event._sigev_un._tid = seed = gettid();
    if (timer_create(CLOCK_MONOTONIC, &event, &timer)) abort();
    run_for_a_while();
    void *found = it.run(it.with);
    pthread_sigmask(SIG_BLOCK, &stopping, NULL);
    timer_delete(timer);
    return found;
}
int pthread_create(pthread_t *thread, const pthread_attr_t *attributes, void *(*its_run)(void *), void *with) {
    struct start *start = malloc(sizeof *start);
    if (!start) return EAGAIN;
    *start = (struct start){its_run, with};
    return create(thread, attributes, run, start);
}
long syscall(long number, ...) {
    va_list words;
    long word[6];
    va_start(words, number);
    for (int place = 0; place < 6; place++) word[place] = va_arg(words, long);
    va_end(words);
    if (number != SYS_futex) return call(number, word[0], word[1], word[2], word[3], word[4], word[5]);
    pthread_sigmask(SIG_BLOCK, &stopping, NULL);
    long found = call(number, word[0], word[1], word[2], word[3], word[4], word[5]);
    if ((word[1] & FUTEX_CMD_MASK) == FUTEX_WAIT && found == -1 && errno == EAGAIN) ended_at_once++;
    pthread_sigmask(SIG_UNBLOCK, &stopping, NULL);
    return found;
}
__attribute__((constructor)) static void begin(void) {
    call = (long (*)(long, ...))dlsym(RTLD_NEXT, "syscall");
    create = (int (*)(pthread_t *, const pthread_attr_t *, void *(*)(void *), void *))
        dlsym(RTLD_NEXT, "pthread_create");
    sigemptyset(&stopping);
    sigaddset(&stopping, SIGUSR1);
    sigaction(SIGUSR1, &(struct sigaction){.sa_handler = stop, .sa_flags = SA_RESTART}, NULL);
}
/* The program ends by _exit. */
void _exit(int status) {
    dprintf(2, "%ld", ended_at_once);
    call(SYS_exit_group, status);
    __builtin_unreachable();
}
"""


def library_in(folder):
    """The library that stops threads, and tells on standard error how many sleeps ended at once."""
    source, library = pathlib.Path(folder) / "stopping.c", pathlib.Path(folder) / "stopping.so"
    source.write_text(STOPPING, encoding="utf-8")
    subprocess.run(["cc", "-shared", "-fPIC", "-O1", "-o", library, source, "-ldl"], check=True)
    return library


def check_run(program, threads, turns, library=None, processors=None):
    """One run, which has to end well. Gives what it wrote on standard error."""
    each = turns // threads
    words = [program, "lock", str(each), str(threads)]
    environment = {**os.environ, "LD_PRELOAD": str(library)} if library else None
    pinned = functools.partial(os.sched_setaffinity, 0, processors) if processors else None
    try:
        run = subprocess.run(
            words, capture_output=True, text=True, check=False, timeout=SECONDS, env=environment, preexec_fn=pinned
        )
    except subprocess.TimeoutExpired:
        raise AssertionError(f"{threads} threads have not ended in {SECONDS} seconds")
    if run.stdout != f"{threads} threads: {threads * each} entries, each thread's own in their order\n":
        raise AssertionError(f"{threads} threads came to {run.stdout.rstrip()}, status {run.returncode}")
    return run.stderr


class TurnWaits(Case):
    def setUp(self):
        self.assertTrue(PROGRAM.exists(), f"there is no program yet: run `rt run` in {CRATE}")

    def test_beside_busy_loops_on_all_processors_and_on_one(self):
        processors = os.sched_getaffinity(0)
        with busy_loops(2 * len(processors)):
            for threads in THREADS * ROUNDS * times():
                check_run(PROGRAM, threads, TURNS)
                check_run(PROGRAM, threads, TURNS, processors={min(processors)})

    @needs_compiler
    def test_stopped_wherever_they_are(self):
        library = library_in(self.folder)
        stopped = THREADS * STOPPED_RUNS * ROUNDS * times()
        ended_at_once = sum(int(check_run(PROGRAM, threads, STOPPED_TURNS, library)) for threads in stopped)
        self.assertGreater(
            ended_at_once, 0, "no sleep ended at once: nothing is shown of a mark that is taken away before the sleep"
        )
