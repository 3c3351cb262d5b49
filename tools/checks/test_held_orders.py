"""Works of six operations of two clients that are held give the same bytes in every order of their holds and leaves.

Six holds and six leaves stand in 10,395 orders where the operations are told apart by the order of their holds
alone. Each is taken with another of the 720 ways in which the operations can stand for the holds; with `--times N`
with N of them, and from 720 on with all, which are 7,484,400 orders and some half an hour. The second client's texts
are those of the first one, cut otherwise: a sealing and an opening by the second test case of the GCM specification,
and the first mac of RFC 4231."""
import itertools

from keystore.cases import Case, times
from keystore.runs import check_replies

START = '{"t":[0,1000],'
AES = (
    '[["PURPOSE",0],["PURPOSE",1],["ALGORITHM",32],["BLOCK_MODE",32],["PADDING",1],["MIN_MAC_LENGTH",96],'
    '["CALLER_NONCE",true],["NO_AUTH_REQUIRED",true]]'
)
MAC = '[["PURPOSE",2],["ALGORITHM",128],["DIGEST",4],["MIN_MAC_LENGTH",64],["NO_AUTH_REQUIRED",true]]'
GCM = '[["PURPOSE",%d],["BLOCK_MODE",32],["PADDING",1],["MAC_LENGTH",128],["NONCE","000000000000000000000000"]]'
SIGN = '[["PURPOSE",2],["MAC_LENGTH",256]]'
ZEROS, SEALED, TAG = "00" * 16, "0388dace60b6a392f328c2b971b2fe78", "ab6e47d42cec13bdf53a67b21257bddf"
SECRET, HI_THERE, KNOWN_MAC = (
    "0b" * 20,
    "4869205468657265",
    "b0344c61d8db38535ca8afceaf0bf12b881dc200c9833da726e9376c2e32cff7",
)
# A client, its key's alias, an operation's parameters, the held text with what it gives, and the rest with what that
# gives.
OPERATIONS = [
    (1, "a", GCM % 0, ZEROS[:10], SEALED[:10], ZEROS[10:], SEALED[10:] + TAG),
    (1, "a", GCM % 1, SEALED + TAG[:8], ZEROS[:8], TAG[8:], ZEROS[8:]),
    (1, "m", SIGN, HI_THERE[:6], "", HI_THERE[6:], KNOWN_MAC),
    (2, "a", GCM % 0, ZEROS, SEALED, "", TAG),
    (2, "a", GCM % 1, SEALED[:2], "", SEALED[2:] + TAG, ZEROS),
    (2, "m", SIGN, HI_THERE, "", "", KNOWN_MAC),
]
# A script has fewer than 2^30 bytes, and an order's lines some 2,100.
ORDERS_A_SCRIPT = 50_000


def orders_of(places):
    """The ways in which holds and leaves stand in so many places, the holds in turn: of each hold its own place and
    its leave's."""
    if not places:
        yield ()
        return
    for leave in range(1, len(places)):
        for rest in orders_of(places[1:leave] + places[leave + 1 :]):
            yield ((places[0], places[leave]), *rest)


def steps_of(order):
    """The holds by their numbers, each at its place and again at that of its leave."""
    steps = [0] * 12
    for number, (hold, leave) in enumerate(order):
        steps[hold] = steps[leave] = number
    return steps


def start():
    """Two clients with the keys that the operations are on."""
    asked = [f'{START}"do":"connect","uid":{uid}}}' for uid in (10001, 10002)]
    for client in (1, 2):
        for alias, params, secret in (("a", AES, ZEROS), ("m", MAC, SECRET)):
            asked.append(
                f'{START}"c":{client},"do":"importKey","key":{{"domain":0,"alias":"{alias}"}},"params":{params},'
                f'"format":3,"material":"{secret}"}}'
            )
    return asked, [f'{{"client":{n},"code":0}}' for n in (1, 2)] + [f'{{"code":0,"key":{n}}}' for n in range(1, 5)]


BEGINS = [
    f'{START}"c":{client},"do":"createOperation","key":{{"domain":0,"alias":"{alias}"}},"params":{params}}}'
    for client, alias, params, *_ in OPERATIONS
]


def add_order(asked, wanted, steps, ways, before):
    """The lines of one order behind so many, and their replies: each order begins six operations and gives twelve
    tickets."""
    op, ticket = 6 * before + 1, 12 * before + 1
    asked += BEGINS
    wanted += [f'{{"code":0,"op":{op + i}}}' for i in range(6)]
    held = 0
    for number in steps:
        row = OPERATIONS[ways[number]]
        if number == held:
            held += 1
            asked.append(f'{START}"c":{row[0]},"do":"update","op":{op + ways[number]},"input":"{row[3]}","hold":true}}')
            wanted.append(f'{{"code":0,"ticket":{ticket + number}}}')
        else:
            asked.append(f'{START}"do":"leave","ticket":{ticket + number}}}')
            wanted.append(f'{{"code":0,"out":"{row[4]}"}}')
    for i, row in enumerate(OPERATIONS):
        asked.append(f'{START}"c":{row[0]},"do":"finish","op":{op + i},"input":"{row[5]}"}}')
        wanted.append(f'{{"code":0,"out":"{row[6]}"}}')


def check_orders(program, orders):
    """A run answers a script of these orders as it must."""
    asked, wanted = start()
    for before, (steps, ways) in enumerate(orders):
        add_order(asked, wanted, steps, ways, before)
    check_replies(program, asked, wanted)


def pairs(turns):
    """Each order with so many of the ways."""
    ways = list(itertools.permutations(range(6)))
    orders = [steps_of(order) for order in orders_of(tuple(range(12)))]
    for turn in range(min(turns, len(ways))):
        yield from zip(orders, itertools.cycle(ways[turn:] + ways[:turn]))


class HeldOrders(Case):
    def test_every_order_of_holds_and_leaves(self):
        left = pairs(times())
        while script := list(itertools.islice(left, ORDERS_A_SCRIPT)):
            check_orders(self.program, script)

    def test_there_are_as_many_orders_as_that(self):
        self.assertEqual(len(list(pairs(1))), 10_395)
