#!/usr/bin/env python3
"""Searches every order of the steps of a few workers that wait, sleep, park and are let in again, as `crates/turn_desk` has them.

    tests/waiting_model.py [--workers N] [--jobs N] [--most N] [--fault NAME]     with no words: all that is named below, and each fault

No proof speaks of waiting, so this stands in for one, for few workers: in each state that can be reached, the run can still end
with every worker through. A worker that looks again and again counts as one that waits for the word to change, and none wakes for
no reason. When a worker parks, lets another one in, gives up or finds other work is left open, so each choice is tried. But no end
may rest on such a choice: from each state the run has to end also where none parks or gives up any more, and none lets another one in
before it is through. From `--most` active ones on, one that enters parks at once, and none is let in before its time. With a fault planted the search
has to find a state from which some worker never gets on; where it finds none, the status is 1.
"""
import argparse
import sys
from array import array

NEAR = 1  # 2 in bells.rt, which needs one worker more to be reached
FAR = NEAR + 1
BELLS = FAR + 1  # 16 in bells.rt: more than FAR, so that of those who share a bell one at a time asks

FAULTS = {
    "no_second_look": "a pass that asked sleeps without a look at the ticket served",
    "next_not_rung": "who ends a turn rings for the third pass alone",
    "word_not_changed": "who rings wakes and leaves the word as it was",
    "drawn_read_early": "who ends a turn reads the tickets drawn before it ends",
    "last_parks": "the last active worker may park",
    "end_wakes_nobody": "a worker that has ended lets nobody in",
    "end_counted_late": "a worker that has ended lets all in before it is counted out",
    "asks_after_parking": "a worker that parks asks to be woken after its bit is set",
    "parks_in_two_steps": "a worker sets its bit and lowers the count in two steps",
    "enters_parked": "a worker that finds no room sets its bit without a look at who is active then",
}

# A worker is (step, x, y): what it does next, with what it has to remember.
(ENTER, READY, DRAW, LOOK, ASK, ASKED, SLEEP, ASLEEP, TURN, ENDS, RING, QUIET, WAKE, WORK, PARK_ASK, PARK_LOOK, PARK_SET, PARK_LATE,
 PARK_SLEEP, PARKED, LET_LOOK, LET_SET, LET_RING, LET_QUIET, LET_WAKE, LEAVE, THROUGH, COUNT_LATE, ENTERS, BIT_ALONE, LET_ROOM) = range(31)
WAITING = LOOK, ASK, ASKED, SLEEP, ASLEEP, TURN  # it has a ticket
# What a turn is for, and what follows once its rings are done.
TAKE, COMMIT = 0, 1
TO_READY, TO_WORK, TO_LEAVE = range(3)
# Whom a worker lets in: one; all, and goes on with its job; all, and is through.
ONE, ALL, LAST = range(3)


class Model:
    def __init__(self, workers, jobs, most, fault):
        self.most, self.fault = most, fault
        # the workers, the ticket served as a bell, the bells, those of the parked, how many are active and who is parked,
        # the jobs left, those that are worked, and whether the run is stopped
        self.first = ((ENTER, 0, 0),) * workers, 0, (0,) * BELLS, (0,) * workers, (0, 0), (jobs, 0, False)

    def steps(self, state):
        """The states that may follow, and whether the worker that goes on has the choice not to go there."""
        ws, served, bells, own, word, run = state
        fault = self.fault
        drawn = sum(1 for w in ws if w[0] in WAITING)
        for i, (step, x, y) in enumerate(ws):
            def to(w, served=served, bells=bells, own=own, word=word, run=run, ws=ws, choice=False):
                return (put(ws, i, w), served, bells, own, word, run), choice

            if step == ENTER:  # the first worker never parks
                crowded = word[0] >= self.most and i > 0
                if crowded and fault == "enters_parked":
                    yield to((BIT_ALONE, 0, 0), own=put(own, i, 1))
                else:
                    yield to((ENTERS, crowded, 0))
            elif step == ENTERS:
                yield to((PARK_ASK if x else READY, 0, 0), word=(word[0] + 1, word[1]))
            elif step == BIT_ALONE:
                yield to((PARK_SLEEP, 0, 0), word=(word[0], word[1] | 1 << i))
            elif step == READY:
                yield to((DRAW, TAKE, 0))
                yield to((LET_ROOM, ONE, 0), choice=True)
                if i > 0:
                    yield to((PARK_ASK, 0, 0), choice=True)
            elif step == LET_ROOM:  # x: whom
                yield to((LET_LOOK, x, 0) if word[0] < self.most else self.let(x))
            elif step == DRAW:  # x: what for; y: the turns before its own
                yield to((LOOK, x, drawn))
            elif step in (LOOK, ASKED):
                if y == 0:
                    left = drawn if fault == "drawn_read_early" else 0
                    yield to((TURN, (x, left), 0))
                elif y <= FAR:
                    yield to((ASK if step == LOOK else SLEEP, x, y))
            elif step == ASK:
                yield to((SLEEP if fault == "no_second_look" else ASKED, x, y), bells=put(bells, (served + y) % BELLS, 1))
            elif step == SLEEP:
                yield to((ASLEEP if bells[(served + y) % BELLS] else LOOK, x, y))
            elif step == TURN:
                yield from self.turn(to, state, *x)
            elif step == ENDS:  # x: what follows; y: the ended ticket, as a bell, and the turns served since
                yield to(self.rung(x, y[0], drawn + y[1]))
            elif step == RING:  # y: the bells that are still to be rung
                if not y:
                    yield to(((READY, 0, 0), (WORK, 0, 0), (LEAVE, 0, 0))[x])
                elif bells[y[0]]:
                    yield to((QUIET, x, y))
                else:
                    yield to((RING, x, y[1:]))
            elif step == QUIET:
                yield to((WAKE, x, y), bells=bells if fault == "word_not_changed" else put(bells, y[0], 0))
            elif step == WAKE:
                woken = tuple((LOOK, w[1], w[2]) if w[0] == ASLEEP and (served + w[2]) % BELLS == y[0] else w for w in ws)
                yield to((RING, x, y[1:]), ws=woken)
            elif step == WORK:  # where the kind of job is another one, it lets all in first
                yield to((DRAW, COMMIT, 0))
                yield to((LET_ROOM, ALL, 0), choice=True)
            elif step == PARK_ASK:
                yield to((PARK_LOOK, 0, 0), own=own if fault == "asks_after_parking" else put(own, i, 1))
            elif step == PARK_LOOK:
                if word[0] > (0 if fault == "last_parks" else 1):
                    yield to((PARK_SET, word, 0))
                else:
                    yield to((DRAW, TAKE, 0), own=put(own, i, 0))
            elif step == PARK_SET:  # x: the word that it saw
                after = (word[0] - 1, word[1] | 1 << i)
                if fault == "parks_in_two_steps":
                    yield to((COUNT_LATE, 0, 0), word=(word[0], after[1]))
                elif word == x:
                    yield to((PARK_LATE if fault == "asks_after_parking" else PARK_SLEEP, 0, 0), word=after)
                else:
                    yield to((DRAW, TAKE, 0), own=put(own, i, 0))
            elif step == COUNT_LATE:
                yield to((PARK_SLEEP, 0, 0), word=(word[0] - 1, word[1]))
            elif step == PARK_LATE:
                yield to((PARK_SLEEP, 0, 0), own=put(own, i, 1))
            elif step == PARK_SLEEP:
                yield to((PARKED, 0, 0) if own[i] else (DRAW, TAKE, 0))
            elif step == LET_LOOK:  # x: whom
                if word[1]:
                    yield to((LET_SET, x, word))
                else:
                    yield to(self.let(x))
            elif step == LET_SET:
                if word == y:
                    who = (y[1] & -y[1]).bit_length() - 1
                    yield to((LET_RING, x, who), word=(y[0] + 1, y[1] & y[1] - 1))
                else:
                    yield to((LET_LOOK, x, 0))
            elif step == LET_RING:
                yield to((LET_QUIET, x, y) if own[y] else self.let_more(x))
            elif step == LET_QUIET:
                yield to((LET_WAKE, x, y), own=own if fault == "word_not_changed" else put(own, y, 0))
            elif step == LET_WAKE:
                woken = put(ws, y, (PARK_SLEEP, 0, 0)) if ws[y][0] == PARKED else ws
                yield to(self.let_more(x), ws=woken)
            elif step == LEAVE:
                if fault == "end_counted_late" and not x:
                    yield to((LET_LOOK, LAST, 0))
                else:
                    w = (THROUGH, 0, 0) if fault in ("end_wakes_nobody", "end_counted_late") else (LET_ROOM, LAST, 0)
                    yield to(w, word=(word[0] - 1, word[1]))

    def let(self, whom):
        if whom == ONE:
            return DRAW, TAKE, 0
        if whom == ALL:
            return DRAW, COMMIT, 0
        return (LEAVE, 1, 0) if self.fault == "end_counted_late" else (THROUGH, 0, 0)

    def let_more(self, whom):
        return self.let(whom) if whom == ONE else (LET_ROOM, whom, 0)

    def rung(self, what, ended, left):
        rung = ()
        if left > 1 and self.fault != "next_not_rung":
            rung += ((ended + 1) % BELLS,)
        if left > NEAR + 1:
            rung += ((ended + NEAR + 1) % BELLS,)
        return RING, what, rung

    # The turn and its end, as one step: nobody else is in turn.
    def turn(self, to, state, what, left):
        ws, served, _, _, _, (jobs, worked, stopped) = state
        if what == COMMIT:  # its job is done, or it gives up and stops the run
            ends = [(TO_READY, (jobs, worked - 1, stopped), False), (TO_LEAVE, (jobs, worked - 1, True), True)]
        elif jobs and not stopped:
            ends = [(TO_WORK, (jobs - 1, worked + 1, stopped), False)]
        else:  # there is nothing to do, now or ever
            ends = [(TO_READY if worked and not stopped else TO_LEAVE, (jobs, worked, stopped), False)]
        after = tuple((w[0], w[1], w[2] - 1) if w[0] in WAITING else
                      (ENDS, w[1], (w[2][0], min(w[2][1] + 1, FAR + 1))) if w[0] == ENDS else w for w in ws)
        for end, run, choice in ends:
            w = self.rung(end, served, left) if self.fault == "drawn_read_early" else (ENDS, end, (served, 1))
            yield to(w, served=(served + 1) % BELLS, run=run, ws=after, choice=choice)


def put(row, at, value):
    return row[:at] + (value,) + row[at + 1:]


class Names:
    """Gives each value a number."""

    def __init__(self):
        self.values, self.numbers = [], {}

    def number(self, value):
        if value not in self.numbers:
            self.numbers[value] = len(self.values)
            self.values.append(value)
        return self.numbers[value]


def search(model):
    """How many states there are, and one from which no end can be reached, or None."""
    parts, packed = Names(), Names()

    def pack(state):
        return array("i", [*map(parts.number, state[0]), parts.number(state[1:])]).tobytes()

    def unpack(text):
        *ws, rest = (parts.values[k] for k in array("i", text))
        return (tuple(ws), *rest)

    packed.number(pack(model.first))
    heads, tails, reached, at = array("i"), array("i"), [], 0
    while at < len(packed.values):
        state = unpack(packed.values[at])
        if all(w[0] == THROUGH for w in state[0]):
            reached.append(at)
        for after, is_choice in model.steps(state):
            number = packed.number(pack(after))
            if not is_choice:
                heads.append(number)
                tails.append(at)
        at += 1
    # back from the ends
    starts = array("i", bytes(4 * (at + 1)))
    for head in heads:
        starts[head + 1] += 1
    for k in range(at):
        starts[k + 1] += starts[k]
    places, before = array("i", starts), array("i", bytes(4 * len(heads)))
    for head, tail in zip(heads, tails):
        before[places[head]] = tail
        places[head] += 1
    can_end = bytearray(at)
    for k in reached:
        can_end[k] = 1
    while reached:
        k = reached.pop()
        for tail in before[starts[k]:starts[k + 1]]:
            if not can_end[tail]:
                can_end[tail] = 1
                reached.append(tail)
    lost = can_end.find(0)
    return at, None if lost < 0 else unpack(packed.values[lost])


def main():
    words = argparse.ArgumentParser(description=__doc__.splitlines()[0])
    words.add_argument("--workers", type=int)
    words.add_argument("--jobs", type=int, default=2)
    words.add_argument("--most", type=int, default=99)
    words.add_argument("--fault", choices=FAULTS)
    words = words.parse_args()
    if words.workers:
        runs = [(words.workers, words.jobs, words.most, words.fault)]
    else:
        runs = [(2, 3, 99, None), (2, 3, 1, None), *((2, 2, 1 if fault == "enters_parked" else 99, fault) for fault in FAULTS), (3, 1, 99, None), (3, 1, 2, None)]
    failed = False
    for workers, jobs, most, fault in runs:
        count, lost = search(Model(workers, jobs, most, fault))
        bad = (lost is None) == (fault is not None)
        failed |= bad
        what = f"fault {fault}: {FAULTS[fault]}" if fault else "as it is"
        print(f"{workers} workers, {jobs} jobs, {f'{most} active at most, ' if most < workers else ''}{what}: {count} states, {'one can hang' if lost else 'each can end'}{'  WRONG' if bad else ''}", flush=True)
    sys.exit(failed)


if __name__ == "__main__":
    main()
