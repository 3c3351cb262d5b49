/* What stands before the C library while tools/checks/test_lost_syncs.py runs a program: a disk below the file of a store, as Linux has one
   below its memory of files.

   The file `store.ks` is that memory: what a read gives. What the disk has stands in a file that is shared with the tool, with a
   mark at each byte that is still to be written. A sync that goes well brings the marked bytes to the disk. One that fails brings
   none, or those of some blocks; the marks go all the same, and the file stays as it is: the fault is told once, and what was lost
   counts as written. Where the system is asked to let go of what it remembers, each byte without a mark is what the disk has.

   Of a store, whose file has holes, it has some ranges, one behind the other; the tool says which. Reads, writes, cuts and syncs are
   numbered over all runs, and the tool says what each does. */
#include "store_file.h"
#include <errno.h>
#include <stdint.h>
#include <stdlib.h>
#include <sys/mman.h>
#include <sys/stat.h>

enum { MOST_CALLS = 4096, MOST_BYTES = 1 << 18, RANGES = 4, BLOCK = 512 };

/* What a call does: it goes well; it fails, a write having written all of its piece and a sync having brought nothing; it fails with
   nothing done; with a greater number it fails with a part done. */
enum { GOES_WELL = 0, FAILS = 1, FAILS_WITH_NOTHING = 2, MOST = 255 };

/* As tools/checks/test_lost_syncs.py reads and writes it. */
static struct {
    uint64_t calls;                    /* how many there were */
    uint64_t size;                     /* of the disk, in bytes */
    uint64_t end;                      /* behind the last mark */
    uint64_t cut;                      /* one more than the size to which the file was cut since the last sync, or 0 */
    struct {
        uint64_t place, count;         /* where it begins in the file, and its bytes */
    } range[RANGES];
    unsigned char does[MOST_CALLS];    /* what each call does */
    unsigned char kinds[MOST_CALLS];   /* what each call was: a letter */
    unsigned char disk[MOST_BYTES];
    unsigned char marks[MOST_BYTES];
} *disk;
static unsigned char bytes_of_file[MOST_BYTES];

static void stop(const char *text) {
    fprintf(stderr, "lost_syncs.c: %s\n", text);
    abort();
}

/* What the next call does. */
static int next_call(char kind) {
    if (!disk) {
        int file = open(getenv("LOST_SYNCS"), O_RDWR | O_CLOEXEC);
        void *shared = mmap(NULL, sizeof *disk, PROT_READ | PROT_WRITE, MAP_SHARED, file, 0);
        if (shared == MAP_FAILED) stop("no disk");
        close(file);
        disk = shared;
    }
    if (disk->calls == MOST_CALLS) stop("too many calls");
    disk->kinds[disk->calls] = kind;
    return disk->does[disk->calls++];
}

static int failed(void) {
    errno = EIO;
    return -1;
}

/* Where the byte of a place of the file stands among those of the ranges. */
static size_t index_of(uint64_t place) {
    size_t before = 0;
    for (int it = 0; it < RANGES; before += disk->range[it++].count)
        if (place >= disk->range[it].place && place - disk->range[it].place < disk->range[it].count)
            return before + (size_t)(place - disk->range[it].place);
    stop("a place of a store that is not known");
    return 0;
}

/* The place of such a byte. */
static uint64_t place_of(size_t at) {
    for (int it = 0; it < RANGES; at -= disk->range[it++].count)
        if (at < disk->range[it].count) return disk->range[it].place + at;
    stop("a byte of no place");
    return 0;
}

static size_t most_bytes(void) {
    size_t most = 0;
    for (int it = 0; it < RANGES; it++) most += disk->range[it].count;
    return most;
}

/* How many bytes of a range a file of this length has. */
static size_t within(int it, uint64_t length) {
    uint64_t place = disk->range[it].place, count = disk->range[it].count;
    return length <= place ? 0 : (size_t)(length - place < count ? length - place : count);
}

/* Reads the ranges of the file, and gives its length. */
static uint64_t read_file(int file) {
    off_t length = lseek(file, 0, SEEK_END);
    size_t at = 0;
    for (int it = 0; it < RANGES; at += disk->range[it++].count) {
        size_t count = within(it, (uint64_t)length);
        if (syscall(SYS_pread64, file, bytes_of_file + at, count, disk->range[it].place) != (long)count) stop("a store that cannot be read");
    }
    return (uint64_t)length;
}

static void write_file(int file, uint64_t length) {
    size_t at = 0;
    for (int it = 0; it < RANGES; at += disk->range[it++].count) {
        size_t count = within(it, length);
        if (syscall(SYS_pwrite64, file, bytes_of_file + at, count, disk->range[it].place) != (long)count) stop("a store that cannot be written");
    }
}

static ssize_t put(int file, const void *bytes, size_t count, off_t at) {
    if (!is_store(file)) return syscall(SYS_pwrite64, file, bytes, count, at);
    int does = next_call('w');
    size_t front = does < FAILS_WITH_NOTHING ? count : count * (size_t)(does - FAILS_WITH_NOTHING) / (MOST - FAILS_WITH_NOTHING);
    ssize_t written = syscall(SYS_pwrite64, file, bytes, front, at);
    if (written != (ssize_t)front) stop("a store that cannot be written");
    size_t first = index_of((uint64_t)at), end = first + front;
    if (front && index_of((uint64_t)at + front - 1) != end - 1) stop("a write over two ranges");
    memset(disk->marks + first, 1, front);
    if (front && end > disk->end) disk->end = end;
    return does == GOES_WELL ? written : failed();
}

static ssize_t get(int file, void *bytes, size_t count, off_t at) {
    if (is_store(file) && next_call('r') != GOES_WELL) return failed();
    return syscall(SYS_pread64, file, bytes, count, at);
}

/* Whether the block of a place comes to the disk in a sync that does so. */
static int comes(int does, size_t at) {
    return does == GOES_WELL || (does > FAILS_WITH_NOTHING && ((unsigned)does * 2654435761u >> (at / BLOCK % 32) & 1));
}

static int synced(int file, long call) {
    if (!is_store(file)) return (int)syscall(call, file);
    int does = next_call('s');
    uint64_t length = read_file(file);
    if (does == GOES_WELL && disk->cut && disk->size >= disk->cut) {
        for (size_t at = 0; at < most_bytes(); at++)
            if (place_of(at) >= disk->cut - 1) disk->disk[at] = 0;
        disk->size = disk->cut - 1;
    }
    for (size_t at = 0; at < disk->end; at++)
        if (disk->marks[at] && place_of(at) < length && comes(does, at)) {
            disk->disk[at] = bytes_of_file[at];
            if (place_of(at) >= disk->size) disk->size = place_of(at) + 1;
        }
    memset(disk->marks, 0, disk->end);
    disk->end = disk->cut = 0;
    return does == GOES_WELL ? 0 : failed();
}

static int cut(int file, off_t size) {
    if (!is_store(file)) return (int)syscall(SYS_ftruncate, file, size);
    if (next_call('c') != GOES_WELL) return failed();
    if (syscall(SYS_ftruncate, file, size) != 0) stop("a store that cannot be cut");
    for (size_t at = 0; at < disk->end; at++)
        if (place_of(at) >= (uint64_t)size) disk->marks[at] = 0;
    if (!disk->cut || disk->cut > (uint64_t)size + 1) disk->cut = (uint64_t)size + 1;
    return 0;
}

/* The system lets go of a range, or of all from a place on where its length is 0. Bytes past the disk's end read as 00. */
static int advised(int file, off_t at, off_t count, int advice) {
    if (advice != POSIX_FADV_DONTNEED || !is_store(file)) return 0;
    next_call('d');
    uint64_t length = read_file(file);
    uint64_t end = count && (uint64_t)(at + count) < length ? (uint64_t)(at + count) : length;
    for (size_t it = 0; it < most_bytes(); it++) {
        uint64_t place = place_of(it);
        if (place >= (uint64_t)at && place < end && !disk->marks[it]) bytes_of_file[it] = place < disk->size ? disk->disk[it] : 0;
    }
    write_file(file, length);
    return 0;
}

int posix_fadvise(int file, off_t at, off_t count, int advice) { return advised(file, at, count, advice); }
int posix_fadvise64(int file, off_t at, off_t count, int advice) { return advised(file, at, count, advice); }
