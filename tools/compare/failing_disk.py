"""Makes random scripts, runs the program over each on a disk that fails now and then, and compares its reply lines with
those of second_model.py.

    tools/ks compare failing_disk SEED COUNT [--program PATH]

The scripts are those of random_scripts.py. A library that is loaded before the C library lets reads, writes and syncs
of the store fail from the first reply on, some one after another; a write that fails may have written a front, and one
that goes well may be short. Which change failed is told by the replies 4, and what became of it by the settled lines:
the model takes both as they are told, and all other replies have to be its own. What has to be so of them is looked at
too: a 4 comes only at a call that would have been admitted and writes a record, at a restart, or where something waits
to be settled; and a settled line stands before each reply of a call other than leave and disconnect where something
waits, and nowhere else.

Then read_store.py reads the store that is left: its keys and grants are the model's, with the change that waits or
without it. It needs a C compiler, `cc`. The exit status is 1 where a script differs."""
import collections
import copy
import os
import subprocess
import tempfile
import threading
from pathlib import Path

from dialog import Told
from keystore.harness import add_program, parser_of
from compare.random_scripts import MOST_SECONDS, shown
from keystore.store import lasting_in
from keystore.store_bytes import StoreBytes
from keystore.scratch import scratch_folder
from keystore.lists import write_list
from keystore.script_events import Malformed, event_of
from make.script_maker import Maker, without_drawn
from model.second_model import Service, reply_line, text_of

FAILING = """
#define _GNU_SOURCE
#include <dlfcn.h>
#include <errno.h>
#include <stdlib.h>
#include <sys/types.h>
#include <unistd.h>
static int is_armed, is_failing;
static unsigned long state;
static unsigned drawn(unsigned below) {
    if (!state) state = strtoul(getenv("FAILING_SEED"), NULL, 10) * 2 + 1;
    state = state * 6364136223846793005ul + 1442695040888963407ul;
    return (unsigned)(state >> 33) % below;
}
static int fails(void) {
    if (!is_armed) return 0;
    is_failing = is_failing ? drawn(3) != 0 : drawn(24) == 0;
    return is_failing;
}
static void *next(const char *name) { return dlsym(RTLD_NEXT, name); }
ssize_t write(int file, const void *bytes, size_t count) {
    if (file == 1) is_armed = 1;
    return ((ssize_t (*)(int, const void *, size_t))next("write"))(file, bytes, count);
}
static ssize_t put(int file, const void *bytes, size_t count, off_t at) {
    ssize_t (*put_all)(int, const void *, size_t, off_t) =
        (ssize_t (*)(int, const void *, size_t, off_t))next("pwrite");
    if (fails()) {
        size_t front = drawn(count + 1);
        if (front) put_all(file, bytes, front, at);
        errno = EIO;
        return -1;
    }
    if (is_armed && count > 1 && drawn(8) == 0) count = 1 + drawn(count - 1);
    return put_all(file, bytes, count, at);
}
static ssize_t get(int file, void *bytes, size_t count, off_t at) {
    if (fails()) { errno = EIO; return -1; }
    return ((ssize_t (*)(int, void *, size_t, off_t))next("pread"))(file, bytes, count, at);
}
static int synced(int file, const char *name) {
    if (fails()) { errno = EIO; return -1; }
    return ((int (*)(int))next(name))(file);
}
ssize_t pwrite(int file, const void *bytes, size_t count, off_t at) { return put(file, bytes, count, at); }
ssize_t pwrite64(int file, const void *bytes, size_t count, off_t at) { return put(file, bytes, count, at); }
ssize_t pread(int file, void *bytes, size_t count, off_t at) { return get(file, bytes, count, at); }
ssize_t pread64(int file, void *bytes, size_t count, off_t at) { return get(file, bytes, count, at); }
int fsync(int file) { return synced(file, "fsync"); }
int fdatasync(int file) { return synced(file, "fdatasync"); }
"""
FAULT = text_of({"code": 4})
SETTLED = {b'{"settled":"kept"}': True, b'{"settled":"lost"}': False}
# Acts that settle nothing, such as make a key, and such as write a record where they are admitted.
UNSETTLING = {"leave", "disconnect"}
MAKING = {"generateKey", "importKey", "importWrappedKey"}
WRITING = MAKING | {"deleteKey", "grant", "ungrant", "clearNamespace", "userRemoved"}


class Differs(Exception):
    """What the program tells is not what the model wants."""


def library_in(folder):
    """The library that lets calls of the store fail."""
    source, library = Path(folder) / "failing.c", Path(folder) / "failing.so"
    source.write_text(FAILING, encoding="utf-8")
    subprocess.run(["cc", "-shared", "-fPIC", "-O1", "-o", library, source, "-ldl"], check=True)
    return library


def told_by(run, line):
    """The settled line that stands before the reply to a line, or None, and the reply; None where the run has ended."""
    try:
        run.stdin.write(line + b"\n")
        run.stdin.flush()
    except BrokenPipeError:
        return None, None
    told = run.stdout.readline().removesuffix(b"\n")
    if told in SETTLED:
        return told, run.stdout.readline().removesuffix(b"\n")
    return None, told or None


def served(program, maker, folder, library, seed):
    """What a run over a script tells: each line as it was sent, its settled line and its reply."""
    environment = {**os.environ, "LD_PRELOAD": str(library), "FAILING_SEED": str(seed)}
    words = [program, "run", "--fresh", "--slots", str(maker.slots)]
    told, rows = Told(), []
    with subprocess.Popen(
        words, stdin=subprocess.PIPE, stdout=subprocess.PIPE, stderr=subprocess.DEVNULL, cwd=folder, env=environment
    ) as run:
        timer = threading.Timer(MOST_SECONDS, run.kill)
        timer.start()
        for line in maker.lines:
            settled, reply = told_by(run, told.filled(line))
            rows.append((line, settled, reply))
            if reply is None:
                break
            told.note(reply)
        run.stdin.close()
        status = run.wait()
        timer.cancel()
    return rows, status


def blobs_of(service):
    return [key.blob for key in service.store.made]


def writes(event, service):
    """Whether an event writes a record where it is admitted."""
    if event["act"] == "finish":
        operation = service.operations.get(event["op"])
        return operation is not None and operation.key is not None and operation.key.uses is not None
    if event["act"] == "upgradeKey":
        changed = copy.deepcopy(service)
        return changed.reply(event)["code"] == 0 and blobs_of(changed) != blobs_of(service)
    return event["act"] in WRITING and not (event["act"] in MAKING and event["key"]["domain"] == 3)


def faulted(service, event, settled):
    """The reply 4 of an event, by the model."""
    if service.waiting is not None and settled is None:
        service.pass_over()
        return FAULT
    if event["act"] != "restart" and not writes(event, service):
        raise Differs("a 4 at an act that writes no record")
    reply = service.fault(event)
    if reply["code"] != 0:
        raise Differs(f"a 4 at a call that is refused, with {reply}")
    return FAULT


def wanted(service, line, settled, reply):
    """The reply that the model wants to a line, with what the run told of the disk."""
    try:
        event = event_of(line)
    except Malformed:
        if settled is not None:
            raise Differs("a settled line before a line that is no event") from None
        return reply_line(service, line)
    settles = service.waiting is not None and event["act"] not in UNSETTLING
    if settled is not None and not settles:
        raise Differs("a settled line where nothing is settled")
    if settled is not None:
        service.settle(SETTLED[settled])
    if reply == FAULT:
        if event["act"] in UNSETTLING:
            raise Differs("a 4 at an act that calls no disk")
        return faulted(service, event, settled if settles else None)
    if settles and settled is None:
        raise Differs("no settled line, though something waited")
    return reply_line(service, line)


def compare(rows, slots, store=None):
    """The service behind what a run told, by the model over a store, a fresh one where none is given, or what differs
    first."""
    service, told = Service(slots=slots, store=store), Told()
    for place, (line, settled, reply) in enumerate(rows):
        spoken = told.filled(line)
        try:
            if reply is None:
                raise Differs("no line")
            wants = wanted(service, spoken, settled, reply)
            if without_drawn(reply) != without_drawn(wants):
                raise Differs(f"wanted  {shown(wants)}")
        except Differs as it:
            return service, f"line {place + 1}  {shown(line)}\n  given   {shown(settled)} {shown(reply)}\n  {it}"
        told.note(reply if reply == FAULT else wants)
    return service, None


def left_by(lines, versions):
    """The model's store behind lines on a system."""
    service = Service(versions=versions)
    for line in lines:
        reply_line(service, line)
    return service.store


def kept_in(store):
    """The keys, with their lists, and the grants of a model's store."""
    keys = {
        key.number: (key.domain, key.nspace, key.alias, key.uses or 0, write_list(key.params))
        for key in store.live.values()
    }
    return keys, {grant.number: (grant.key.number, grant.uid, grant.bits) for grant in store.grants.values()}


def left_in(store):
    """The same of what the bytes of a store stand for, or None where they stand for none."""
    lasting, wrong = lasting_in(store)
    if wrong is not None:
        return None
    keys = {
        key["id"]: (key["domain"], key["nspace"], key["alias"], key["left"], key["list"]) for key in lasting.keys
    }
    return keys, {row["grant"]: (row["key"], row["uid"], row["bits"]) for row in lasting.grants}


def main():
    parser = parser_of(__doc__)
    parser.add_argument("seed", type=int, metavar="SEED")
    parser.add_argument("count", type=int, metavar="COUNT")
    add_program(parser)
    words = parser.parse_args()
    program = words.program
    differing, tally = 0, collections.Counter()
    with tempfile.TemporaryDirectory() as tools:
        library = library_in(tools)
        for number in range(1, words.count + 1):
            maker = Maker(f"{words.seed} {number}")
            maker.script()
            with scratch_folder() as folder:
                rows, status = served(program, maker, folder, library, words.seed * 1000 + number)
                service, fault = compare(rows, maker.slots)
                left = left_in(StoreBytes.read(Path(folder) / "store.ks"))
            stores = [kept_in(store) for store in (service.store, service.waiting) if store is not None]
            if fault is None and status != 0:
                fault = f"status {status}"
            if fault is None and left not in stores:
                fault = "the store has other keys or grants"
            if fault is not None:
                differing += 1
                print(f"script {number}: {fault}")
            tally.update(it for _, *pair in rows for it in pair if it in SETTLED or it == FAULT)
            tally["lines"] += len(rows)
    told = ", ".join(
        f"{count} {name if isinstance(name, str) else name.decode()}" for name, count in sorted(tally.items(), key=str)
    )
    print(f"{words.count} scripts, {told}: {differing} differ")
    return 1 if differing > 0 else 0
