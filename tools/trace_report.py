#!/usr/bin/env python3
"""Tells what a trace has: which acts came how often and how they were answered, by app and by key, and what looks
odd in it.

    python3 tools/trace_report.py [--json] < TRACE

A trace is what `run .. --trace` writes (docs/FORMATS.md, "Traces"). It is read as it stands, and whether its answers
are those of the rules is not asked here. Told are the answers of each act, by code and rule; the calls of each uid; of
each key that was made its name, its calls, its finishes and the bytes that they gave, and with a limit how many uses
are left; the operations that are open at the end; the entries at which a clock went back; and the answers that tell of
a disk, of memory or of the random device, each with the number of its first entry. Entries count from 1. It ends with
status 1 at the first line that is none of a trace."""
import collections
import dataclasses
import json
import sys

from keystore.harness import parser_of
from keystore.lists import ListFault, read_list
from keystore.script_events import Malformed
from keystore_client import NAMES
from model.rules import ENDING
from model.trace_lines import entry_of

APP, GRANT, SELINUX, BLOB, KEY_ID = range(5)
DEVICE_FAULT, UNSETTLED, NO_MEMORY, NO_ENTROPY = 4, 8, -41, 1005
TOLD = {
    DEVICE_FAULT: "the disk failed",
    UNSETTLED: "a change was not settled",
    NO_MEMORY: "want of memory",
    NO_ENTROPY: "no random bytes",
}
NO_CLIENT = "no client"
MAKING = {"generateKey", "importKey", "importWrappedKey"}


@dataclasses.dataclass
class Key:
    """A key that was made in this trace."""

    number: int
    owner: list
    alias: str
    limit: int | None
    calls: int = 0
    finishes: int = 0
    bytes_out: int = 0
    ended: bool = False

    @property
    def left(self):
        return None if self.limit is None else self.limit - self.finishes


def shown(alias):
    return alias.decode(errors="backslashreplace")


def limit_in(params):
    """The use limit of a list, or None."""
    try:
        return read_list(params).get("USAGE_COUNT_LIMIT", [None])[0]
    except ListFault:
        return None


class Report:
    """What was found in the entries so far."""

    def __init__(self):
        self.entries = 0
        self.answers = collections.defaultdict(collections.Counter)
        self.uids = collections.defaultdict(collections.Counter)
        self.settled = collections.Counter()
        self.clients, self.names, self.grants, self.keys = {}, {}, {}, {}
        self.operations, self.tickets = {}, {}
        self.faults, self.went_back = {}, []
        self.last = None

    def add(self, entry):
        self.entries += 1
        if isinstance(entry, bool):
            self.settled["kept" if entry else "lost"] += 1
            return
        event, _, reply = entry
        self.look_at_clocks(event)
        code = reply["code"]
        answer = NAMES.get(code, "OK") + (f" {reply['rule']}" if "rule" in reply else "")
        self.answers[event["act"]][answer] += 1
        uid = event["uid"] if event["act"] == "connect" else self.clients.get(event.get("client"))
        self.uids[NO_CLIENT if uid is None else uid][event["act"]] += 1
        if code in TOLD:
            first, count = self.faults.get(code, (self.entries, 0))
            self.faults[code] = first, count + 1
        key = self.key_of(event, uid)
        if key is not None:
            key.calls += 1
        if code == 0:
            self.admit(event, reply, uid, key)
        elif reply.get("rule") in ENDING:
            self.operations.pop(event["op"], None)

    def look_at_clocks(self, event):
        reading = event["boot"], event["wall"]
        if (
            self.last is not None
            and event["act"] != "restart"
            and any(now < past for now, past in zip(reading, self.last))
        ):
            self.went_back.append(self.entries)
        self.last = reading

    def name_of(self, descriptor, uid):
        """Under which name a key stands, as its owner and its alias."""
        owner = (APP, uid) if descriptor["domain"] == APP else (SELINUX, descriptor["nspace"])
        return owner, descriptor["alias"]

    def key_of(self, event, uid):
        """The key that an event is on, where this trace has it."""
        if "op" in event:
            return self.operations.get(event["op"], (None,))[0]
        descriptor = event.get("key")
        if descriptor is None or event["act"] in MAKING:
            return None
        if descriptor["domain"] == GRANT:
            return self.grants.get(descriptor["nspace"])
        if descriptor["domain"] == KEY_ID:
            return self.keys.get(descriptor["nspace"])
        return self.names.get(self.name_of(descriptor, uid))

    def admit(self, event, reply, uid, key):
        """What an admitted event leaves."""
        act = event["act"]
        if act == "connect":
            self.clients[reply["client"]] = event["uid"]
        elif act == "restart":
            self.clients, self.operations, self.tickets = {}, {}, {}
        elif act == "disconnect":
            self.operations = {op: it for op, it in self.operations.items() if it[1] != event["client"]}
        elif "key" in reply and act in MAKING:
            self.make(event, reply["key"], uid)
        elif act == "createOperation":
            self.operations.pop(reply.get("pruned"), None)
            self.operations[reply["op"]] = key, event["client"]
        elif act == "grant":
            self.grants[reply["grant"]] = key
        elif act == "deleteKey":
            self.end(key)
        elif act in ("clearNamespace", "userRemoved"):
            self.end_many(event)
        elif act == "abort":
            self.operations.pop(event["op"], None)
        elif "ticket" in reply:
            self.enter(event, reply["ticket"], key)
        elif act == "leave":
            self.leave(event["ticket"], reply)

    def make(self, event, number, uid):
        name = self.name_of(event["key"], uid)
        self.end(self.names.get(name))
        made = Key(number, list(name[0]), shown(name[1]), limit_in(event["params"]))
        self.keys[number] = self.names[name] = made

    def end(self, key):
        if key is not None:
            key.ended = True
            self.names = {name: it for name, it in self.names.items() if it is not key}

    def end_many(self, event):
        for key in list(self.names.values()):
            domain, nspace = key.owner
            user = domain == APP and event.get("user") == nspace // 100_000
            if user or [domain, nspace] == [event.get("domain"), event.get("nspace")]:
                self.end(key)

    def enter(self, event, ticket, key):
        self.tickets[ticket] = event, key
        if event["act"] == "finish" and key is not None:
            key.finishes += 1
            if key.left == 0:
                self.end(key)

    def leave(self, ticket, reply):
        event, key = self.tickets.pop(ticket, (None, None))
        if event is None or event["act"] != "finish":
            return
        self.operations.pop(event["op"], None)
        if key is not None:
            key.bytes_out += len(reply.get("out", "")) // 2

    def told(self):
        return {
            "entries": self.entries,
            "settled": dict(self.settled),
            "answers": {act: dict(answers) for act, answers in sorted(self.answers.items())},
            "uids": {str(uid): dict(acts) for uid, acts in sorted(self.uids.items(), key=lambda it: str(it[0]))},
            "keys": [dataclasses.asdict(key) | {"left": key.left} for key in self.keys.values()],
            "open operations": sorted(self.operations),
            "clocks that went back": self.went_back,
            "faults": {TOLD[code]: {"first": first, "count": count} for code, (first, count) in self.faults.items()},
        }


def counts_of(counts):
    return ", ".join(f"{name} {count}" for name, count in sorted(counts.items()))


def lines_of(told):
    """The report for people."""
    yield f"{told['entries']} entries"
    if told["settled"]:
        yield f"settled: {counts_of(told['settled'])}"
    yield from (f"{act}: {counts_of(answers)}" for act, answers in told["answers"].items())
    yield from (f"{uid if uid == NO_CLIENT else f'uid {uid}'}: {counts_of(acts)}" for uid, acts in told["uids"].items())
    for key in told["keys"]:
        left = "" if key["limit"] is None else f", {key['left']} of {key['limit']} uses left"
        ended = ", ended" if key["ended"] else ""
        done = f"{key['calls']} calls, {key['finishes']} finishes, {key['bytes_out']} bytes out"
        yield f"key {key['number']} {key['alias']!r}: {done}{left}{ended}"
    if told["open operations"]:
        yield f"open at the end: {', '.join(map(str, told['open operations']))}"
    if told["clocks that went back"]:
        yield f"a clock went back at: {', '.join(map(str, told['clocks that went back']))}"
    yield from (f"{name}: {fault['count']}, first at {fault['first']}" for name, fault in told["faults"].items())


def main():
    parser = parser_of(__doc__)
    parser.add_argument("--json", action="store_true", help="for machines")
    words = parser.parse_args()
    report = Report()
    for number, line in enumerate(sys.stdin.buffer, 1):
        try:
            report.add(entry_of(line.removesuffix(b"\n")))
        except Malformed:
            print(f"line {number} is none of a trace", file=sys.stderr)
            return 1
    told = report.told()
    print(json.dumps(told) if words.json else "\n".join(lines_of(told)))
    return 0


if __name__ == "__main__":
    sys.exit(main())
