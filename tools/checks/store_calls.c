/* What stands before the C library while a check runs the program: each call that reaches the file `store.ks`, or syncs a folder, is
   noted, in its order, with each reply that is written between them; and one of these calls, or each from it on, ends as the check says.

   The notes lie in a file that is shared with the check, whose name the variable STORE_CALLS has. Where STORE_BYTES has the name of a file,
   the bytes of each write are put behind those that it has. */
#include "store_file.h"
#include <errno.h>
#include <signal.h>
#include <stdarg.h>
#include <stdint.h>
#include <stdlib.h>
#include <sys/mman.h>
#include <sys/socket.h>
#include <sys/stat.h>

enum { MOST_NOTES = 1 << 16 };

/* How a call ends. */
enum how {
    GOES_WELL,
    FAILS,          /* with EIO, and nothing is done */
    FAILS_ON,       /* the same, and so does each call behind it */
    HAS_NO_ROOM,    /* a write, with ENOSPC, when a half is written */
    IS_SHORT,       /* a write says that it wrote a half, which is no fault */
    DIES_BEFORE,    /* the process ends before the call */
    DIES_BEHIND     /* the process ends behind it */
};

/* As keystore/store_calls.py reads and writes it. */
static struct {
    uint64_t calls;    /* how many calls there were by now */
    uint64_t notes;    /* how many notes, which are those of the calls and of the replies */
    uint64_t at;       /* the number of the call that ends otherwise */
    uint64_t how;
    struct {
        uint64_t kind, place, count;
    } note[MOST_NOTES];
} *noted;

static void stop(const char *text) {
    fprintf(stderr, "store_calls.c: %s\n", text);
    abort();
}

static void note(char kind, uint64_t place, uint64_t count) {
    if (!noted) {
        int file = (int)syscall(SYS_openat, AT_FDCWD, getenv("STORE_CALLS"), O_RDWR | O_CLOEXEC, 0);
        void *shared = mmap(NULL, sizeof *noted, PROT_READ | PROT_WRITE, MAP_SHARED, file, 0);
        if (shared == MAP_FAILED) stop("no file for the notes");
        close(file);
        noted = shared;
    }
    uint64_t number = __atomic_fetch_add(&noted->notes, 1, __ATOMIC_SEQ_CST);
    if (number >= MOST_NOTES) stop("too many calls");
    noted->note[number].kind = (unsigned char)kind;
    noted->note[number].place = place;
    noted->note[number].count = count;
}

/* Keeps the bytes of a write. */
static void keep(const void *bytes, size_t count) {
    static int file = -1;
    const char *path = getenv("STORE_BYTES");
    if (!path) return;
    if (file < 0) file = (int)syscall(SYS_openat, AT_FDCWD, path, O_WRONLY | O_APPEND | O_CLOEXEC, 0);
    if (syscall(SYS_write, file, bytes, count) != (long)count) stop("bytes that cannot be kept");
}

static void die(void) {
    kill(getpid(), SIGKILL);
    for (;;) pause();
}

/* Notes a call, and says how it ends. */
static enum how next_call(char kind, uint64_t place, uint64_t count) {
    note(kind, place, count);
    uint64_t number = __atomic_fetch_add(&noted->calls, 1, __ATOMIC_SEQ_CST);
    if (noted->how == FAILS_ON && number >= noted->at) return FAILS;
    if (number != noted->at) return GOES_WELL;
    if (noted->how == DIES_BEFORE) die();
    return (enum how)noted->how;
}

/* What a call answers that was made as it is, behind which the process may end. */
static long made(enum how how, long answer) {
    if (how == DIES_BEHIND) die();
    return answer;
}

static int failed(int fault) {
    errno = fault;
    return -1;
}

static int is_socket(int file) {
    int kind;
    socklen_t length = sizeof kind;
    return getsockopt(file, SOL_SOCKET, SO_TYPE, &kind, &length) == 0;
}

/* ---- The store */

static int opened(const char *path, int flags, mode_t mode) {
    if (!ends_with_store(path, strlen(path))) return (int)syscall(SYS_openat, AT_FDCWD, path, flags, mode);
    enum how how = next_call('o', 0, 0);
    if (how == FAILS) return failed(EIO);
    return (int)made(how, syscall(SYS_openat, AT_FDCWD, path, flags, mode));
}

static ssize_t put(int file, const void *bytes, size_t count, off_t at) {
    if (!is_store(file)) return syscall(SYS_pwrite64, file, bytes, count, at);
    enum how how = next_call('w', (uint64_t)at, count);
    keep(bytes, count);
    if (how == FAILS) return failed(EIO);
    if (how == HAS_NO_ROOM || how == IS_SHORT) count /= 2;
    ssize_t written = count ? syscall(SYS_pwrite64, file, bytes, count, at) : 0;
    return how == HAS_NO_ROOM ? failed(ENOSPC) : made(how, written);
}

static ssize_t get(int file, void *bytes, size_t count, off_t at) {
    if (!is_store(file)) return syscall(SYS_pread64, file, bytes, count, at);
    enum how how = next_call('r', (uint64_t)at, count);
    if (how == FAILS) return failed(EIO);
    return made(how, syscall(SYS_pread64, file, bytes, count, at));
}

static int is_folder(int file) {
    struct stat data;
    return syscall(SYS_fstat, file, &data) == 0 && S_ISDIR(data.st_mode);
}

static int synced(int file, long call) {
    int folder = is_folder(file);
    if (!folder && !is_store(file)) return (int)syscall(call, file);
    enum how how = next_call(folder ? 'f' : 's', 0, 0);
    if (how == FAILS) return failed(EIO);
    return (int)made(how, syscall(call, file));
}

static int cut(int file, off_t size) {
    if (!is_store(file)) return (int)syscall(SYS_ftruncate, file, size);
    enum how how = next_call('c', (uint64_t)size, 0);
    if (how == FAILS) return failed(EIO);
    return (int)made(how, syscall(SYS_ftruncate, file, size));
}

int open(const char *path, int flags, ...) {
    va_list more;
    va_start(more, flags);
    mode_t mode = flags & (O_CREAT | O_TMPFILE) ? va_arg(more, mode_t) : 0;
    va_end(more);
    return opened(path, flags, mode);
}

int open64(const char *path, int flags, ...) __attribute__((alias("open")));

int flock(int file, int operation) {
    if (!is_store(file)) return (int)syscall(SYS_flock, file, operation);
    enum how how = next_call('k', 0, 0);
    if (how == FAILS) return failed(EIO);
    return (int)made(how, syscall(SYS_flock, file, operation));
}

int statx(int file, const char *restrict path, int flags, unsigned mask, struct statx *restrict data) {
    int by_path = ends_with_store(path, strlen(path));
    if (!by_path && !(*path == 0 && is_store(file))) return (int)syscall(SYS_statx, file, path, flags, mask, data);
    enum how how = next_call(by_path ? 'p' : 'l', 0, 0);
    if (how == FAILS) return failed(EIO);
    return (int)made(how, syscall(SYS_statx, file, path, flags, mask, data));
}

/* ---- Replies: what is written to the standard output, or to a socket */

ssize_t write(int file, const void *bytes, size_t count) {
    if (file == STDOUT_FILENO || is_socket(file)) note('a', 0, count);
    return syscall(SYS_write, file, bytes, count);
}

ssize_t send(int file, const void *bytes, size_t count, int flags) {
    note('a', 0, count);
    return syscall(SYS_sendto, file, bytes, count, flags, NULL, 0);
}
