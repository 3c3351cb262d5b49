"""A second model of the rules: reads a script on standard input and writes the reply lines.

    tools/ks compare second_model [--fail N,N,..] [--slots N] [--trace] [--os N] [--patch N] < SCRIPT

It is written from docs/RULES.md's rules, apart from the proved code, so that the two can be compared. Its entropy
counts 00, 01 .. ff, 00 ..; the draws whose numbers --fail gives, counted from 1, fail. AES, its modes, GCM and KW are
those of the Python package `cryptography`, the macs those of the standard library. Memory is never wanting here, and
the limits of a line and of a script, which end the program's run, are not looked at. keystore/script_events.py reads
the lines, rules.py has the rules of lists and lengths, keys.py the keys and grants, blobs.py their blobs, tokens.py
the tokens, entropy.py the draws, and outputs.py the outputs. Each reply is written before the next line is read. No disk stands behind it:
failing_disk.py tells it which changes failed, and what the settled lines say of them. With --trace it writes
the lines of a trace in place of replies."""
from __future__ import annotations

import collections
import copy
import json
import sys
from collections.abc import Callable, Collection, Iterator
from dataclasses import replace
from typing import Any

from keystore.harness import parser_of
from keystore.lists import Params, write_list
from keystore.script_events import Malformed, event_of
from model.blobs import NONCE_BYTES as BLOB_NONCE_BYTES, Sealed, opened_blob, sealed_blob
from model.entropy import Entropy
from model.keys import (
    GENERATED,
    IMPORTED,
    SECURELY_IMPORTED,
    KeyStore,
    Owner,
    has_alias,
    is_blob,
    is_shared,
    is_stored,
    kept_list,
    owner_of,
    with_versions,
)
from model.outputs import front, raw_output, whole_output
from model.rules import (
    ENDING,
    check_begin,
    check_new,
    check_opened,
    check_sealed_for,
    check_step,
    check_upgrade,
    check_versions,
    is_authenticated_each,
    opened_text,
    plan_of,
    read_params,
    versions_in,
)
from model.tokens import Tokens, fits
from model.trace_lines import acted_line
from model.values import (
    APP,
    BLOB,
    CHALLENGE_BYTES,
    DELETE,
    DEMO_ROOT,
    DEMO_SEAL_KEY,
    DEMO_VERSIONS,
    GET_INFO,
    MANAGE_BLOB,
    MAY_GRANT,
    MOST_STEP_BYTES,
    MOST_UID,
    MOST_USER,
    NONCE_BYTES,
    REBIND,
    REQ_FORCED_OP,
    SELINUX,
    SYSTEM_UID,
    UIDS_OF_A_USER,
    USE,
    BeginFacts,
    Denied,
    Key,
    Operation,
    one,
)

# An event and a reply, by their members.
Event = dict[str, Any]
Reply = dict[str, Any]


class Service:
    """A run with so many slots over a store, a fresh one where none is given; the draws with the numbers `failing`,
    counted from 1, fail."""

    def __init__(
        self,
        failing: Collection[int] = (),
        slots: int = 16,
        store: KeyStore | None = None,
        versions: tuple[int, int] = DEMO_VERSIONS,
    ) -> None:
        self.entropy = Entropy(failing)
        self.slots = slots
        self.uids: list[int | None] = []
        self.store = KeyStore() if store is None else store
        self.begun = 0
        self.tickets = 0
        self.step = 0
        self.seal_key = DEMO_SEAL_KEY
        self.root = DEMO_ROOT
        self.versions = versions
        self.waiting: KeyStore | None = None
        self.begin_boot()

    def begin_boot(self) -> None:
        """What lasts until the next restart is new; the numbers go on."""
        self.uids = [None for _ in self.uids]
        self.operations: dict[int, Operation] = {}
        self.out: dict[int, Operation] = {}
        self.tokens = Tokens()
        self.is_early_over = False
        self.unlocked: set[int] = set()
        self.begins: collections.Counter[int] = collections.Counter()

    def uid_of(self, client: int) -> int | None:
        """The uid of a client that is connected, or None."""
        return self.uids[client - 1] if 1 <= client <= len(self.uids) else None

    def open_count(self, uid: int) -> int:
        """How many operations of a uid are open, idle and busy."""
        return sum(operation.uid == uid for operation in self.operations.values())

    def victim(self, uid: int, is_forced: bool) -> int | None:
        """The operation that gives way to a begin of a uid, or None where none does."""
        idle = [operation for operation in self.operations.values() if operation.work is None]
        maluses = [(self.open_count(o.uid) + (self.step - o.touched).bit_length(), -o.touched, o.number) for o in idle]
        if not maluses or not is_forced and max(maluses)[0] <= self.open_count(uid) + 1:
            return None
        return max(maluses)[2]

    def reply(self, event: Event) -> Reply:
        """The reply to an event, as its fields by name."""
        answers = {
            "connect": self.connect,
            "disconnect": self.disconnect,
            "generateKey": self.make_key,
            "importKey": self.make_key,
            "importWrappedKey": self.make_key,
            "createOperation": self.create_operation,
            "updateAad": self.enter,
            "update": self.enter,
            "finish": self.enter,
            "leave": self.leave,
            "abort": self.abort,
            "upgradeKey": self.upgrade_key,
            "getKeyEntry": self.get_key_entry,
            "deleteKey": self.delete_key,
            "grant": self.grant,
            "ungrant": self.ungrant,
            "getNumberOfEntries": self.get_number_of_entries,
            "listEntriesBatched": self.list_entries_batched,
            "clearNamespace": self.clear_namespace,
            "userRemoved": self.user_removed,
            "addAuthToken": self.add_auth_token,
            "deviceLocked": self.device_locked,
            "deviceUnlocked": self.device_unlocked,
            "earlyBootEnded": self.early_boot_ended,
            "restart": self.restart,
        }
        self.step += 1
        try:
            return {"code": 0, **answers[event["act"]](event)}
        except Denied as denied:
            if denied.rule is None:
                return {"code": denied.code}
            return {"code": denied.code, "rule": denied.rule}

    # A disk that fails.

    def fault(self, event: Event) -> Reply:
        """The step of an event that would be admitted and whose change failed on the disk: what settling may keep
        waits. Gives the reply that it would have got."""
        changed = copy.deepcopy(self)
        reply = changed.reply(event)
        self.step += 1
        self.entropy = changed.entropy
        if event["act"] == "restart":
            return reply
        self.waiting = changed.store
        if event["act"] == "finish":
            del self.operations[event["op"]]
        return reply

    def pass_over(self) -> None:
        """The step of an event that is not made, since settling failed."""
        self.step += 1

    def settle(self, is_kept: bool) -> None:
        """Settles the change that waits, which is an entry of its own; operations use the same keys then."""
        self.step += 1
        if is_kept:
            assert self.waiting is not None
            self.store = self.waiting
            for operation in self.operations.values():
                if operation.key is not None:
                    operation.key = self.store.made[operation.key.number - 1]
        self.waiting = None

    def connect(self, event: Event) -> Reply:
        self.uids.append(event["uid"])
        return {"client": len(self.uids)}

    def disconnect(self, event: Event) -> Reply:
        client = event["client"]
        if self.uid_of(client) is None:
            raise Denied(20, "A1")
        if any(operation.client == client and operation.work is not None for operation in self.operations.values()):
            raise Denied(19, "A10")
        self.uids[client - 1] = None
        self.operations = {number: o for number, o in self.operations.items() if o.client != client}
        return {}

    # Keys.

    def uid_to_make(self, event: Event) -> int:
        """The uid of a client that may make a key under a name, by K1 to K3."""
        uid = self.uid_of(event["client"])
        descriptor = event["key"]
        if uid is None:
            raise Denied(20, "K1")
        if not has_alias(descriptor) and descriptor["domain"] != BLOB or descriptor["blob"] is not None:
            raise Denied(20, "K2")
        wanted = {SELINUX: REBIND, BLOB: MANAGE_BLOB}.get(descriptor["domain"], 0)
        if wanted and not (self.store.row(uid, descriptor["nspace"]) or 0) & wanted:
            raise Denied(6, "K3")
        return uid

    def wrapping_key(self, uid: int, event: Event) -> Sealed:
        """What opens of the key under which another one comes wrapped, by K18 to K21."""
        descriptor = event["wrapping"]
        if not is_stored(descriptor):
            raise Denied(20, "K18")
        self.check_row(uid, descriptor["domain"], descriptor["nspace"], "K18")
        key, bits = self.store.access(uid, descriptor)
        if key is None:
            raise Denied(7, "K19")
        if not bits & USE:
            raise Denied(6, "K20")
        asked = read_params(event["unwrapping"], "K21")
        opened = opened_blob(self.seal_key, key.blob, "K21")
        check_opened(asked, opened, self.root, "K21")
        check_versions(opened.params, self.versions, "K21")
        return opened

    def material_given(self, uid: int, event: Event) -> tuple[bytes | None, int]:
        """The material of a new key, or None for one that is generated, and where it comes from."""
        if event["act"] == "importWrappedKey":
            return opened_text(self.wrapping_key(uid, event), event["wrapped"]), SECURELY_IMPORTED
        return (None, GENERATED) if event["act"] == "generateKey" else (event["material"], IMPORTED)

    def make_key(self, event: Event) -> Reply:
        """Generates a key, or imports it, in the clear or wrapped."""
        uid = self.uid_to_make(event)
        descriptor = event["key"]
        given, origin = self.material_given(uid, event)
        params = read_params(event["params"], "K4")
        check_new(event, params, given, self.is_early_over)
        owner = owner_of(uid, descriptor["domain"], descriptor["nspace"])
        if descriptor["domain"] != BLOB:
            self.store.check_place(owner, descriptor["alias"])
        material = self.entropy.draw(one(params, "KEY_SIZE") // 8) if given is None else given
        kept = kept_list(params, given, origin, event["wall"], self.versions)
        sealed = Sealed(self.root, one(params, "APPLICATION_ID"), one(params, "APPLICATION_DATA"), kept, material)
        blob = sealed_blob(self.seal_key, self.entropy.draw(BLOB_NONCE_BYTES), sealed)
        if descriptor["domain"] == BLOB:
            return {"blob": blob.hex()}
        return {"key": self.store.put(owner, descriptor["alias"], kept, blob)}

    def check_row(self, uid: int, domain: int, nspace: int, rule: str) -> None:
        """B3, A4 and what K18 has of it, for namespaces."""
        if domain == SELINUX and self.store.row(uid, nspace) is None:
            raise Denied(6, rule)

    def key_to_use(self, event: Event) -> Key | None:
        """The key of a begin, or None for a blob, by B1 to B5."""
        uid = self.uid_of(event["client"])
        descriptor = event["key"]
        if uid is None:
            raise Denied(20, "B1")
        if not is_stored(descriptor) and not is_blob(descriptor):
            raise Denied(20, "B2")
        self.check_row(uid, descriptor["domain"], descriptor["nspace"], "B3")
        key, bits = self.store.access(uid, descriptor)
        if descriptor["domain"] == BLOB and not bits & MANAGE_BLOB:
            raise Denied(6, "B3")
        if key is None and descriptor["domain"] != BLOB:
            raise Denied(7, "B4")
        if not bits & USE or event["forced"] and not bits & REQ_FORCED_OP:
            raise Denied(6, "B5")
        return key

    def key_of_call(self, event: Event, has_form: Callable[[Event], bool], permission: int) -> tuple[Key, int]:
        """The key of a call on a stored key and what the caller may do with it, by A1 to A6."""
        uid = self.uid_of(event["client"])
        descriptor = event["key"]
        if uid is None:
            raise Denied(20, "A1")
        if not has_form(descriptor):
            raise Denied(20, "A2")
        self.check_row(uid, descriptor["domain"], descriptor["nspace"], "A4")
        key, bits = self.store.access(uid, descriptor)
        if key is None:
            raise Denied(7, "A5")
        if not bits & permission:
            raise Denied(6, "A6")
        return key, bits

    def key_to_upgrade(self, event: Event) -> Key | None:
        """The key of an upgrade, or None for a blob, by A1 to A6."""
        descriptor = event["key"]
        if descriptor["domain"] != BLOB:
            return self.key_of_call(event, is_stored, REBIND)[0]
        uid = self.uid_of(event["client"])
        if uid is None:
            raise Denied(20, "A1")
        if not is_blob(descriptor):
            raise Denied(20, "A2")
        if not (self.store.row(uid, descriptor["nspace"]) or 0) & MANAGE_BLOB:
            raise Denied(6, "A6")
        return None

    def upgrade_key(self, event: Event) -> Reply:
        """Seals a key anew over its list with the versions of the device's system, where the list has others."""
        key = self.key_to_upgrade(event)
        asked = read_params(event["params"], "A11")
        blob = event["key"]["blob"] if key is None else key.blob
        opened = opened_blob(self.seal_key, blob, "A12")
        check_sealed_for(asked, opened, self.root, "A13")
        kept = with_versions(opened.params, self.versions)
        longer = len(write_list(kept)) - len(write_list(opened.params))
        check_upgrade(opened.params, len(write_list(kept)), len(blob) + longer, self.versions)
        if versions_in(opened.params) != self.versions:
            nonce = self.entropy.draw(BLOB_NONCE_BYTES)
            blob = sealed_blob(self.seal_key, nonce, replace(opened, params=kept))
            if key is not None:
                key.params, key.blob = kept, blob
        return {"blob": blob.hex()} if key is None else {}

    def get_key_entry(self, event: Event) -> Reply:
        key, _ = self.key_of_call(event, is_stored, GET_INFO)
        alias = key.alias.decode()
        uses = {} if key.uses is None else {"uses": key.uses}
        return {
            "key": key.number,
            "domain": key.domain,
            "nspace": key.nspace,
            "alias": alias,
            "list": write_list(key.params).hex(),
            **uses,
        }

    def delete_key(self, event: Event) -> Reply:
        key, _ = self.key_of_call(event, is_stored, DELETE)
        self.store.end([key])
        return {}

    def grant(self, event: Event) -> Reply:
        key, bits = self.key_of_call(event, is_shared, MAY_GRANT)
        if event["bits"] & MAY_GRANT or event["bits"] & ~bits:
            raise Denied(6, "A8")
        return {"grant": self.store.grant(key, event["uid"], event["bits"])}

    def ungrant(self, event: Event) -> Reply:
        key, _ = self.key_of_call(event, is_shared, MAY_GRANT)
        grant = self.store.grant_to(key, event["uid"])
        if grant is None:
            raise Denied(7, "A9")
        del self.store.grants[grant.number]
        return {}

    # Owners.

    def owner_to_list(self, event: Event) -> Owner:
        """Whose keys a call counts or lists, by A1 to A6."""
        uid = self.uid_of(event["client"])
        domain, nspace = event["domain"], event["nspace"]
        if uid is None:
            raise Denied(20, "A1")
        if domain not in (APP, SELINUX):
            raise Denied(20, "A2")
        self.check_row(uid, domain, nspace, "A4")
        if domain == SELINUX and not (self.store.row(uid, nspace) or 0) & GET_INFO:
            raise Denied(6, "A6")
        return owner_of(uid, domain, nspace)

    def get_number_of_entries(self, event: Event) -> Reply:
        return {"count": len(self.store.keys_of(self.owner_to_list(event)))}

    def list_entries_batched(self, event: Event) -> Reply:
        keys = self.store.listing(self.owner_to_list(event), event["past"])
        return {"entries": [[key.alias.decode(), key.number] for key in keys]}

    def check_system(self, event: Event, has_form: bool) -> None:
        """A1 to A3."""
        uid = self.uid_of(event["client"])
        if uid is None:
            raise Denied(20, "A1")
        if not has_form:
            raise Denied(20, "A2")
        if uid != SYSTEM_UID:
            raise Denied(6, "A3")

    def clear_namespace(self, event: Event) -> Reply:
        domain, nspace = event["domain"], event["nspace"]
        self.check_system(event, domain == APP and nspace <= MOST_UID or domain == SELINUX)
        self.store.clear((domain, nspace))
        return {}

    def user_removed(self, event: Event) -> Reply:
        self.check_system(event, event["user"] <= MOST_USER)
        self.store.remove_user(event["user"])
        return {}

    # The device, its users and their tokens.

    def add_auth_token(self, event: Event) -> Reply:
        token = event["token"]
        self.check_system(event, has_form=True)
        if not self.tokens.is_right(token):
            raise Denied(-30, "A7")
        self.tokens.add(token)
        for operation in self.operations.values():
            if operation.challenge == token["challenge"] and fits(token, operation.kept):
                operation.is_shown = True
        return {}

    def device_locked(self, event: Event) -> Reply:
        self.check_system(event, event["user"] <= MOST_USER)
        self.unlocked.discard(event["user"])
        return {}

    def device_unlocked(self, event: Event) -> Reply:
        self.check_system(event, event["user"] <= MOST_USER)
        self.unlocked.add(event["user"])
        return {}

    def early_boot_ended(self, event: Event) -> Reply:
        self.check_system(event, has_form=True)
        self.is_early_over = True
        return {}

    def restart(self, event: Event) -> Reply:
        self.begin_boot()
        if event["root"] is not None:
            self.root = event["root"]
        return {}

    # Operations.

    def begin_facts(self, event: Event, uid: int, key: Key | None, kept: Params) -> BeginFacts:
        """What B23 and B10 to B16 read, of a begin on a key, or on a blob, which has no begins before."""
        user = uid // UIDS_OF_A_USER
        return BeginFacts(
            kept=kept,
            versions=self.versions,
            wall=event["wall"],
            user=user,
            is_early_over=self.is_early_over,
            is_unlocked=user in self.unlocked,
            is_timely=self.tokens.is_timely(kept, event["boot"]),
            begins=0 if key is None else self.begins[key.number],
        )

    def place_of(self, uid: int, is_forced: bool) -> int | None:
        """The operation that gives its place to a begin, or None where there is a free one, by B22."""
        if len(self.operations) < self.slots:
            return None
        pruned = self.victim(uid, is_forced)
        if pruned is None:
            raise Denied(18, "B22")
        return pruned

    def create_operation(self, event: Event) -> Reply:
        key = self.key_to_use(event)
        uid = self.uid_of(event["client"])
        assert uid is not None
        asked = read_params(event["params"], "B6")
        opened = opened_blob(self.seal_key, event["key"]["blob"] if key is None else key.blob)
        check_opened(asked, opened, self.root)
        kept = opened.params
        check_begin(asked, self.begin_facts(event, uid, key, kept))
        plan = plan_of(asked, kept)
        pruned = self.place_of(uid, event["forced"])
        nonce = one(asked, "NONCE") if plan.mode in NONCE_BYTES else None
        told = {} if pruned is None else {"pruned": pruned}
        if plan.mode in NONCE_BYTES and nonce is None:
            nonce = self.entropy.draw(NONCE_BYTES[plan.mode])
            told["nonce"] = nonce.hex()
        challenge = None
        if is_authenticated_each(kept):
            challenge = told["challenge"] = int.from_bytes(self.entropy.draw(CHALLENGE_BYTES), "big")
        if pruned is not None:
            del self.operations[pruned]
        self.begun += 1
        if key is not None:
            self.begins[key.number] += 1
        begun = Operation(
            self.begun, event["client"], uid, key, kept, opened.material, plan, nonce, challenge, self.step
        )
        self.operations[self.begun] = begun
        return {"op": self.begun, **told}

    def own_operation(self, event: Event) -> Operation:
        """The open operation of a step, by S1 and S2."""
        operation = self.operations.get(event["op"])
        if operation is None or operation.client != event["client"]:
            raise Denied(-28, "S1")
        if operation.work is not None:
            raise Denied(19, "S2")
        return operation

    def enter(self, event: Event) -> Reply:
        """Lets a step that breaks no rule go out with its operation."""
        operation = self.own_operation(event)
        if len(event["input"]) > MOST_STEP_BYTES or len(event.get("signature") or b"") > MOST_STEP_BYTES:
            raise Denied(21, "S3")
        try:
            check_step(operation, event)
        except Denied as denied:
            if denied.rule in ENDING:
                del self.operations[operation.number]
            raise
        if event["act"] == "finish" and operation.key is not None and operation.key.uses is not None:
            self.store.use(operation.key)
        self.tickets += 1
        self.out[self.tickets] = operation
        operation.work = event
        operation.touched = self.step
        return {"ticket": self.tickets}

    def leave(self, event: Event) -> Reply:
        """Brings back what went out, with its output."""
        operation = self.out.pop(event["ticket"], None)
        if operation is None:
            raise Denied(1006)
        work = operation.work
        assert work is not None
        operation.work = None
        operation.touched = self.step
        if work["act"] == "updateAad":
            operation.additional += work["input"]
            return {}
        if work["act"] == "update":
            return self.update(operation, work)
        del self.operations[operation.number]
        return self.finish(operation, work)

    def update(self, operation: Operation, work: Event) -> Reply:
        before = front(operation.plan, len(operation.text))
        operation.text += work["input"]
        after = front(operation.plan, len(operation.text))
        return {"out": raw_output(operation, operation.text)[before:after].hex()}

    def finish(self, operation: Operation, work: Event) -> Reply:
        before = front(operation.plan, len(operation.text))
        output = whole_output(operation, operation.text + work["input"], work["signature"])
        return {"out": output[before:].hex()}

    def abort(self, event: Event) -> Reply:
        del self.operations[self.own_operation(event).number]
        return {}


def text_of(reply: Reply) -> bytes:
    return json.dumps(reply, ensure_ascii=False, separators=(",", ":"), sort_keys=True).encode()


def acts_of(service: Service, event: Event) -> Iterator[tuple[Event, bytes, Reply]]:
    """What a line's event makes of the service, with the leave that follows an enter which is not held: each event
    with the bytes that were drawn for it and its reply."""
    service.entropy.taken()
    reply = service.reply(event)
    yield event, service.entropy.taken(), reply
    if "ticket" in reply and not event["hold"]:
        leave = {"act": "leave", "boot": event["boot"], "wall": event["wall"], "ticket": reply["ticket"]}
        yield leave, b"", service.reply(leave)


def reply_line(service: Service, line: bytes) -> bytes:
    """The reply to a line of a script, both bytes without LF."""
    try:
        event = event_of(line)
    except Malformed:
        return text_of({"code": 20, "rule": "L1"})
    *_, (_, _, reply) = acts_of(service, event)
    return text_of(reply)


def trace_lines(service: Service, line: bytes) -> list[bytes]:
    """The lines of a trace for a line of a script, all bytes without LF; none where it spells no event."""
    try:
        event = event_of(line)
    except Malformed:
        return []
    return [acted_line(*acted) for acted in acts_of(service, event)]


def numbers_of(text: str) -> set[int]:
    """The numbers of a text that has commas between them."""
    return {int(number) for number in text.split(",")}


def main() -> None:
    parser = parser_of(__doc__)
    parser.add_argument("--fail", type=numbers_of, default=set(), metavar="N,N,..", help="draws that fail, from 1")
    parser.add_argument("--slots", type=int, default=16, metavar="N", help="how many operations may be open")
    parser.add_argument("--trace", action="store_true", help="writes the lines of a trace in place of replies")
    for name, place, what in (("--os", 0, "operating system"), ("--patch", 1, "patches")):
        form = {"type": int, "default": DEMO_VERSIONS[place], "metavar": "N"}
        parser.add_argument(name, help=f"the version of the device's {what}", **form)
    words = parser.parse_args()
    service = Service(words.fail, words.slots, versions=(words.os, words.patch))
    for line in sys.stdin.buffer:
        text = line.removesuffix(b"\n")
        lines = trace_lines(service, text) if words.trace else [reply_line(service, text)]
        sys.stdout.buffer.write(b"".join(it + b"\n" for it in lines))
        sys.stdout.buffer.flush()
