"""All 1,024 slots taken, each by an operation of another uid, and the second model's replies to that.

With all idle a begin prunes the one that was touched longest ago. With a work held on each none gives way, also not to
a begin that is forced. The works come back in the reverse order, and amid them three clients go, each as soon as its
operation is idle: three begins then find a slot, and a fourth prunes. Every operation that is open ends with its
mac."""
import importlib
import json

from keystore.cases import Case, needs_ciphers
from keystore.lines import GRANT, OK, PARAMS, Rows, begin, broken, call, named, numbered
from keystore.runs import check_replies
from model.values import MOST_SLOTS, SYSTEM_UID

# The clients in their order: one for each slot, one more, and the system, which may force a begin.
UIDS = [*range(10001, 10002 + MOST_SLOTS), SYSTEM_UID]
ONE_MORE, SYSTEM = MOST_SLOTS + 1, MOST_SLOTS + 2
GONE = [901, 513, 101]
IS_BUSY = broken(19, "A10")
HAS_NO_PLACE = broken(18, "B22")
# The mac of "Hi There" under twenty bytes 0b: RFC 4231.
FIRST, REST = "4869", "205468657265"
HI_THERE = {"code": 0, "out": "b0344c61d8db38535ca8afceaf0bf12b881dc200c9833da726e9376c2e32cff7"}


def key_of(client):
    """The key that all share: its owner's name of it, and a grant's number to the others."""
    return named("k") if client == 1 else numbered(GRANT, client - 1)


def fill(rows):
    """An operation of each client but the last two, and one more in the place of the first."""
    rows.key(1, "k", PARAMS)
    for client in range(2, ONE_MORE + 1):
        line = call(1, "grant", key=named("k"), uid=UIDS[client - 1], bits=256)
        rows.put(line, {"code": 0, "grant": client - 1})
    for client in range(1, ONE_MORE):
        rows.begins(begin(client, key_of(client)))
    rows.begins(begin(ONE_MORE, key_of(ONE_MORE)), pruned=1)
    rows.put(call(1, "update", op=1, input=FIRST), broken(-28, "S1"))


def hold(rows):
    """A work of each operation, whose number is its client's, goes out: none gives way."""
    for ticket, client in enumerate(range(2, ONE_MORE + 1), 1):
        rows.put(call(client, "update", op=client, input=FIRST, hold=True), {"code": 0, "ticket": ticket})
    rows.key(SYSTEM, "k", PARAMS)
    rows.put(begin(1, key_of(1)), HAS_NO_PLACE)
    rows.put(begin(SYSTEM, named("k"), forced=True), HAS_NO_PLACE)


def leave(rows):
    """The works come back, the last first, and three clients go once theirs is back."""
    for client in range(ONE_MORE, 1, -1):
        if client in GONE:
            rows.put(call(client, "disconnect"), IS_BUSY)
        rows.put({"t": [0, 1000], "do": "leave", "ticket": client - 1}, {"code": 0, "out": ""})
        if client in GONE:
            rows.put(call(client, "disconnect"), OK)
            rows.put(call(client, "update", op=client, input=REST), broken(-28, "S1"))


def begin_again(rows):
    """Three begins find the slots of those that went, and the next one prunes: the client of operation 1,025 has two
    by then, and that one is the oldest of all. Gives the new operations, each with its client."""
    begun = [(rows.begins(begin(client, key_of(client))), client) for client in (1, 2, ONE_MORE)]
    return [*begun, (rows.begins(begin(1, key_of(1)), pruned=ONE_MORE), 1)]


def end(rows, begun):
    """Each operation that is open ends with the mac of its own text."""
    for client in range(2, ONE_MORE):
        if client not in GONE:
            rows.put(call(client, "finish", op=client, input=REST), HI_THERE)
    for number, client in begun:
        rows.put(call(client, "finish", op=number, input=FIRST + REST), HI_THERE)


def script():
    """The lines of the script, and their replies."""
    rows = Rows(UIDS)
    fill(rows)
    hold(rows)
    leave(rows)
    end(rows, begin_again(rows))
    asked = [json.dumps(line, separators=(",", ":")) for line, _ in rows.rows]
    return asked, [json.dumps(reply, separators=(",", ":"), sort_keys=True) for _, reply in rows.rows]


class FullSlots(Case):
    def test_the_program_answers_so(self):
        check_replies(self.program, *script(), "--slots", str(MOST_SLOTS))

    @needs_ciphers
    def test_the_second_model_answers_so(self):
        model = importlib.import_module("model.second_model")
        service = model.Service(slots=MOST_SLOTS)
        for number, (line, wanted) in enumerate(zip(*script()), 1):
            self.assertEqual(model.reply_line(service, line.encode()).decode(), wanted, f"line {number}: {line}")
