/* What the libraries have in common that stand before the C library while a check runs the program: which descriptor is that of a
   store, and the calls that reach one, each handed on to what a library makes of it. */
#define _GNU_SOURCE
#include <fcntl.h>
#include <stdio.h>
#include <string.h>
#include <sys/syscall.h>
#include <unistd.h>

static ssize_t put(int file, const void *bytes, size_t count, off_t at);
static ssize_t get(int file, void *bytes, size_t count, off_t at);
static int synced(int file, long call);
static int cut(int file, off_t size);

static int ends_with_store(const char *path, size_t length) {
    static const char name[] = "store.ks";
    size_t least = sizeof name - 1;
    return length >= least && memcmp(path + length - least, name, least) == 0 && (length == least || path[length - least - 1] == '/');
}

static int is_store(int file) {
    char link[64], path[4096];
    snprintf(link, sizeof link, "/proc/self/fd/%d", file);
    ssize_t length = readlink(link, path, sizeof path);
    return length > 0 && ends_with_store(path, (size_t)length);
}

ssize_t pwrite(int file, const void *bytes, size_t count, off_t at) { return put(file, bytes, count, at); }
ssize_t pwrite64(int file, const void *bytes, size_t count, off_t at) { return put(file, bytes, count, at); }
ssize_t pread(int file, void *bytes, size_t count, off_t at) { return get(file, bytes, count, at); }
ssize_t pread64(int file, void *bytes, size_t count, off_t at) { return get(file, bytes, count, at); }
int fsync(int file) { return synced(file, SYS_fsync); }
int fdatasync(int file) { return synced(file, SYS_fdatasync); }
int ftruncate(int file, off_t size) { return cut(file, size); }
int ftruncate64(int file, off_t size) { return cut(file, size); }
