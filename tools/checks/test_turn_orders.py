"""Every order in which the steps of threads can come: from each state that they come to, all of them get their turns of
the lock, and see the level that they wait for.

It is a model of `enter`, `leave`, `catch_up`, `sleep_while_out` and `wake_sleepers` of `crates/turn_lock`
(`src/lock`), whose steps are those that read or write a word that threads share, or sleep, or wake. A thread that has
looked in vain looks again or goes to sleep, whichever of the two, so that the number of looks is no matter; of several
that sleep, any is the one that is woken, and one may wake for no reason, on which nobody can count. Three threads take
two turns each; and some take turns while others take none, look at the level that each turn tells before it is passed,
and sleep while one is out. Then it walks the same with one step left out or moved, in some ways, in each of which some
order must leave a thread asleep for good: so the walk would see it. What the program does beside it is looked at by
`turn_waits`."""
import collections
import unittest

from keystore.cases import each

# A thread: its kind, its next step, the turn that it saw served, whether it has slept, and how many turns it still
# takes, or the level that it waits for. What all share: the next turn, the turn that is served, the mark of those that
# sleep, and the level, which is how many turns have told one.
Thread = collections.namedtuple("Thread", "kind step served slept left")
Shared = collections.namedtuple("Shared", "next served mark level")
ENDED = "ended"

# One takes turns, one takes turns and wakes all behind each, and one looks and takes none. Where each begins, and where
# one goes on that wakes.
TAKES, WAKES_ALL, LOOKS = "takes", "wakes_all", "looks"
START = {TAKES: "see_served", WAKES_ALL: "see_served", LOOKS: "see_level"}
BEHIND_SLEEP = {"asleep": "see_served", "asleep_beside": "mark_behind"}


def begun(kind, left):
    """A thread at its beginning, and behind each turn or sleep that it is done with."""
    return Thread(kind, START[kind] if left else ENDED, 0, False, left)


# The threads that are walked together.
TAKERS = (begun(TAKES, 2),) * 3
LOOKERS = (begun(TAKES, 1),) * 2 + (begun(LOOKS, 2),) * 2
ALL_WOKEN = (begun(WAKES_ALL, 1), begun(TAKES, 1)) + (begun(LOOKS, 2),) * 2


def see_served(thread, shared):
    yield thread._replace(step="see_next", served=shared.served), shared


def see_next(thread, shared):
    if shared.next == thread.served:
        yield thread._replace(step="draw"), shared
    else:
        yield from in_vain(thread, shared)


def draw(thread, shared):
    if shared.next == thread.served:
        yield thread._replace(step="mark_again" if thread.slept else "tell"), shared._replace(next=shared.next + 1)
    else:
        yield from in_vain(thread, shared)


def in_vain(thread, shared):
    """It looks again, or goes to sleep."""
    yield thread._replace(step="see_served", served=0), shared
    yield thread._replace(step="mark", slept=True), shared


def mark_again(thread, shared):
    yield thread._replace(step="tell"), shared._replace(mark=True)


def mark(thread, shared):
    yield thread._replace(step="look_once_more"), shared._replace(mark=True)


def look_once_more(thread, shared):
    yield thread._replace(step="sleep" if shared.served == thread.served else "see_served"), shared


def sleep(thread, shared):
    """It sleeps on the mark, and so not where the mark has been taken away."""
    yield thread._replace(step="asleep" if shared.mark else "see_served"), shared


def tell(thread, shared):
    yield thread._replace(step="leave"), shared._replace(level=shared.level + 1)


def leave(thread, shared):
    yield thread._replace(step="see_mark"), shared._replace(served=shared.served + 1)


def see_mark(thread, shared):
    yield (thread._replace(step="take_mark") if shared.mark else left(thread)), shared


def take_mark(thread, shared):
    yield thread._replace(step="wake"), shared._replace(mark=False)


def wake(thread, shared):
    """It wakes another: `states_after` sees to it."""
    yield left(thread), shared


def left(thread):
    """The thread behind its turn, or behind its sleep beside one."""
    if thread.kind == WAKES_ALL:
        return thread._replace(step="take_mark_of_all")
    return begun(thread.kind, thread.left - (thread.kind == TAKES))


# ---- behind a turn, all are woken


def take_mark_of_all(thread, shared):
    yield thread._replace(step="wake_all"), shared._replace(mark=False)


def wake_all(thread, shared):
    """It wakes all: `states_after` sees to it."""
    yield begun(thread.kind, thread.left - 1), shared


# ---- one that takes no turn looks, and sleeps while one is out


def see_level(thread, shared):
    if shared.level >= thread.left:
        yield begun(thread.kind, 0), shared
    else:
        yield thread._replace(step="see_served_beside"), shared


def see_served_beside(thread, shared):
    yield thread._replace(step="see_next_beside", served=shared.served), shared


def see_next_beside(thread, shared):
    if shared.next == thread.served:
        yield begun(thread.kind, thread.left), shared
    else:
        yield thread._replace(step="mark_beside"), shared


def mark_beside(thread, shared):
    yield thread._replace(step="look_once_more_beside"), shared._replace(mark=True)


def look_once_more_beside(thread, shared):
    yield thread._replace(step="sleep_beside" if shared.served == thread.served else "mark_behind"), shared


def sleep_beside(thread, shared):
    yield thread._replace(step="asleep_beside" if shared.mark else "mark_behind"), shared


def mark_behind(thread, shared):
    yield thread._replace(step="see_served_behind"), shared._replace(mark=True)


def see_served_behind(thread, shared):
    """Where the turn was passed it wakes another, as one does that passes a turn."""
    if shared.served == thread.served:
        yield begun(thread.kind, thread.left), shared
    else:
        yield thread._replace(step="see_mark", served=0), shared


STEPS = {
    it.__name__: it
    for it in (
        *(see_served, see_next, draw, mark_again, mark, look_once_more, sleep),
        *(tell, leave, see_mark, take_mark, wake, take_mark_of_all, wake_all),
        *(see_level, see_served_beside, see_next_beside, mark_beside, look_once_more_beside, sleep_beside),
        *(mark_behind, see_served_behind),
    )
}


# ---- the same with an error


def no_mark_again(thread, shared):
    yield thread._replace(step="tell"), shared


def no_look_once_more(thread, shared):
    yield thread._replace(step="sleep"), shared


def sleep_on_served(thread, shared):
    """It sleeps on the word of the turn that is served, and so whatever the mark is."""
    yield thread._replace(step="asleep" if shared.served == thread.served else "see_served"), shared


def see_mark_and_wake(thread, shared):
    yield (thread._replace(step="wake") if shared.mark else left(thread)), shared


def wake_first(thread, shared):
    yield thread._replace(step="take_mark"), shared


def take_mark_last(thread, shared):
    yield left(thread), shared._replace(mark=False)


def no_mark_seen(thread, shared):
    yield left(thread), shared


def no_look_once_more_beside(thread, shared):
    yield thread._replace(step="sleep_beside"), shared


def no_mark_behind(thread, shared):
    yield from see_served_behind(thread, shared)


def no_wake_behind(thread, shared):
    yield begun(thread.kind, thread.left), shared


# Each with the threads among which some then waits for good.
ERRORS = {
    "nobody is woken": (TAKERS, {"see_mark": no_mark_seen}),
    "who was woken sets no mark for the others": (TAKERS, {"mark_again": no_mark_again}),
    "who goes to sleep does not look once more": (TAKERS, {"look_once_more": no_look_once_more}),
    "a thread sleeps on the turn that is served": (TAKERS, {"sleep": sleep_on_served}),
    "the mark is taken away behind the wake": (
        TAKERS,
        {"see_mark": see_mark_and_wake, "wake": wake_first, "take_mark": take_mark_last},
    ),
    "who sleeps beside a turn does not look once more": (LOOKERS, {"look_once_more_beside": no_look_once_more_beside}),
    "who wakes beside a turn sets no mark for the others": (LOOKERS, {"mark_behind": no_mark_behind}),
    "who wakes beside a turn wakes no other": (LOOKERS, {"see_served_behind": no_wake_behind}),
}


def woken(thread):
    return thread._replace(step=BEHIND_SLEEP[thread.step], served=thread.served if thread.kind == LOOKS else 0)


def with_woken(others, step):
    """What becomes of the others: one or all of those that sleep are woken, where the step wakes and some sleep."""
    sleeping = {it for it in others if it.step in BEHIND_SLEEP}
    if step == "wake_all":
        yield [woken(it) if it in sleeping else it for it in others]
    elif step == "wake" and sleeping:
        for one in sleeping:
            rest = list(others)
            rest[rest.index(one)] = woken(one)
            yield rest
    else:
        yield others


def states_after(state, steps):
    """The states that one step of one thread leads to. Threads are alike, so a state has them in order."""
    threads, shared = state
    for place, thread in enumerate(threads):
        if thread.step not in steps or thread in threads[:place]:
            continue
        others = threads[:place] + threads[place + 1 :]
        for after, words in steps[thread.step](thread, shared):
            for rest in with_woken(others, thread.step):
                yield tuple(sorted((after, *rest))), words


def awake_for_no_reason(state):
    """The states in which one that sleeps has woken by itself."""
    threads, shared = state
    for place, thread in enumerate(threads):
        if thread.step in BEHIND_SLEEP:
            yield tuple(sorted((*threads[:place], woken(thread), *threads[place + 1 :]))), shared


def states_before(start, steps):
    """All states that can come, and of each those from which a step of a thread that does not sleep leads to it."""
    before, ahead = {start: []}, [start]
    while ahead:
        state = ahead.pop()
        led_to = list(states_after(state, steps))
        for after in (*led_to, *awake_for_no_reason(state)):
            if after not in before:
                before[after] = []
                ahead.append(after)
        for after in led_to:
            before[after].append(state)
    return before


def can_be_stuck(threads, steps):
    """Whether a state can come from which the end cannot."""
    start = tuple(sorted(threads)), Shared(0, 0, False, 0)
    before = states_before(start, steps)
    ahead = [state for state in before if all(it.step == ENDED for it in state[0])]
    ends = set(ahead)
    while ahead:
        for state in before[ahead.pop()]:
            if state not in ends:
                ends.add(state)
                ahead.append(state)
    return len(ends) < len(before)


class TurnOrders(unittest.TestCase):
    def test_no_thread_waits_for_good(self):
        self.assertFalse(can_be_stuck(TAKERS, STEPS))

    def test_none_that_sleeps_beside_a_turn_waits_for_good(self):
        self.assertFalse(can_be_stuck(LOOKERS, STEPS))

    def test_none_waits_for_good_where_all_are_woken(self):
        self.assertFalse(can_be_stuck(ALL_WOKEN, STEPS))


@each(ERRORS.items())
class WithAnError(unittest.TestCase):
    """Some thread waits for good, so that the walk would see it."""

    def show(self, case):
        threads, changed = case
        self.assertTrue(can_be_stuck(threads, {**STEPS, **changed}))
