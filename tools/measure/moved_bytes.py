"""Runs a built program and says how many bytes its functions clear and copy by the C library, in pieces of 256 bytes
and more.

    tools/ks measure moved_bytes [--per N] [--most N] PROGRAM [WORD..] < INPUT

A function clears its locals when it is entered and copies what goes by value, so a large value that goes through
many functions costs its size at each. With `--per N` the bytes are given for each of N calls. A row is a function
with what it does, the size of the piece, how often, and the bytes of it. It needs a C compiler, `cc`, and `nm`; the
counts come with a run to its end."""
import bisect
import os
import subprocess
import tempfile

from keystore.harness import parser_of

LIBRARY = r"""
#include <stddef.h>
#include <stdint.h>
#include <stdio.h>
#include <stdlib.h>
#include <sys/syscall.h>
#include <unistd.h>
#include <dlfcn.h>
enum { ROWS = 16384, LEAST = 256 };
static struct row { const char *what; uintptr_t at; size_t size; unsigned long count; } rows[ROWS];
static void note(const char *what, void *at, size_t size) {
    if (size < LEAST) return;
    for (unsigned i = ((uintptr_t)at * 31 + size) % ROWS, left = ROWS; left; i = (i + 1) % ROWS, left--) {
        struct row *it = &rows[i];
        if (!it->count) { it->what = what; it->at = (uintptr_t)at; it->size = size; }
        if (it->what == what && it->at == (uintptr_t)at && it->size == size) { it->count++; return; }
    }
}
void *memset(void *to, int byte, size_t size) {
    note("clears", __builtin_return_address(0), size);
    for (size_t i = 0; i < size; i++) ((volatile char *)to)[i] = (char)byte;
    return to;
}
static void *moved(void *to, const void *from, size_t size) {
    volatile char *a = to; const volatile char *b = from;
    if (a <= b) for (size_t i = 0; i < size; i++) a[i] = b[i];
    else for (size_t i = size; i--;) a[i] = b[i];
    return to;
}
void *memcpy(void *to, const void *from, size_t size) {
    note("copies", __builtin_return_address(0), size);
    return moved(to, from, size);
}
void *memmove(void *to, const void *from, size_t size) {
    note("copies", __builtin_return_address(0), size);
    return moved(to, from, size);
}
static void tell(void) {
    FILE *out = fopen(getenv("MOVED_BYTES"), "w");
    for (int i = 0; out && i < ROWS; i++) if (rows[i].count) {
        Dl_info in;
        int known = dladdr((void *)rows[i].at, &in);
        fprintf(out, "%s %zu %lu %lx %s\n", rows[i].what, rows[i].size, rows[i].count,
            (unsigned long)(rows[i].at - (known ? (uintptr_t)in.dli_fbase : 0)), known ? in.dli_fname : "?");
    }
    if (out) fclose(out);
}
void _exit(int status) { tell(); syscall(SYS_exit_group, status); __builtin_unreachable(); }
"""


def counts_of(words):
    """What a run of these words clears and copies: for each place, what it does there, the size, how often, and the
    place in its file."""
    with tempfile.TemporaryDirectory() as room:
        source, library, told = f"{room}/moved.c", f"{room}/moved.so", f"{room}/told"
        with open(source, "w", encoding="utf-8") as out:
            out.write(LIBRARY)
        subprocess.run(
            ["cc", "-D_GNU_SOURCE", "-O1", "-fno-builtin", "-shared", "-fPIC", "-o", library, source, "-ldl"],
            check=True,
        )
        subprocess.run(
            words,
            env={**os.environ, "LD_PRELOAD": library, "MOVED_BYTES": told},
            stdout=subprocess.DEVNULL,
            check=False,
        )
        with open(told, encoding="utf-8") as rows:
            for row in rows:
                what, size, count, place, file = row.split()
                yield what, int(size), int(count), int(place, 16), file


def names_in(program):
    """The places of a program's functions, in their order, and their names."""
    said = subprocess.run(["nm", "-n", "--defined-only", program], capture_output=True, text=True, check=True).stdout
    rows = [line.split(" ", 2) for line in said.splitlines()]
    return [int(it[0], 16) for it in rows], [it[2] for it in rows]


def main():
    parser = parser_of(__doc__)
    parser.add_argument("--per", type=int, default=1)
    parser.add_argument("--most", type=int, default=20)
    parser.add_argument("program")
    parser.add_argument("words", nargs="*")
    given = parser.parse_args()
    places, names = names_in(given.program)
    rows = list(counts_of([given.program, *given.words]))
    for what in ("clears", "copies"):
        print(f"{what} {sum(it[1] * it[2] for it in rows if it[0] == what) / given.per:,.0f} bytes")
    for what, size, count, place, file in sorted(rows, key=lambda it: -it[1] * it[2])[: given.most]:
        is_own = os.path.realpath(file) == os.path.realpath(given.program)
        name = names[bisect.bisect(places, place) - 1] if is_own else file
        print(f"{size * count / given.per:12,.0f}  {what} {size:7,} {count / given.per:10,.2f} times  {name}")
    return 0
