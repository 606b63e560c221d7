#!/usr/bin/env python3
"""What `replay`, `make` and `drill` print, worked out from the rules of docs/using/REPLAY.md and docs/model, by no code of the program.

    tests/replay_model.py plan.json schedule [--workers N] [--bundle N] [--chunk N] [--attempts N]      prints it, and ends with its status
    tests/replay_model.py --cases FILE [FILE ..]       compares it with the commands `replay`, `make` and `drill` of files of cases

A run under a schedule is the one of run_model.py but for what takes jobs and works them: here slots do, as the lines say. Elements, windows,
marks, panes, side inputs, triggers and texts are those of run_model.py, and so is how a range of a plan from version 2 on is broken. The plan has to
be one that the program accepts. Where something differs the status is 1.
"""
import argparse
import pathlib
import re
import sys

import run_model
from run_model import GLOBAL, NO_PANE, Element, Piece, Poison, on_element, on_timer, text

LONGEST_SCHEDULE = 1048576
FORMS = {
    "take": r"take (\d\d?)",
    "claim": r"claim (\d\d?)",
    "run": r"run (\d\d?)",
    "split": r"split (\d\d?) (\d{1,7}) (\d{1,7})",
    "commit": r"commit (\d\d?)",
    "fail": r"fail (\d\d?)",
    "drain": r"drain",
}


class Refused(Exception):
    """The schedule isn't followed; carries what the note says of it."""


# ---- what a slot has


class RangeWork:
    """A piece that a slot reads. Its present end is that of the piece, whose `seen` stays as it was at the take."""

    def __init__(self, piece):
        self.piece, self.node, self.is_spent = piece, piece.node, piece.is_spent()
        self.next, self.attempted, self.was_refused = piece.start, None, False
        self.arrivals, self.seen, self.emitted, self.fault = [], piece.seen, 0, None

    def may_claim(self):
        return self.fault is None and not self.was_refused and not self.is_spent

    def may_run(self):
        return False

    def may_commit(self):
        return self.fault is None

    def may_fail(self):
        return not self.is_spent

    def last(self):
        """The last attempted position, or the one before the range."""
        return self.piece.start - 1 if self.attempted is None else self.attempted


class WholeWork:
    """A batch of panes or a job of a key, which is run at once."""

    def __init__(self, node):
        self.node, self.was_run, self.arrivals, self.fault = node, False, [], None

    def may_claim(self):
        return False

    def may_run(self):
        return not self.was_run

    def may_commit(self):
        return self.was_run and self.fault is None

    def may_fail(self):
        return True


class BatchWork(WholeWork):
    def __init__(self, panes, attempts):
        super().__init__(panes[0].node)
        self.panes, self.attempts = panes, attempts


class KeyWork(WholeWork):
    def __init__(self, cell, inputs):
        super().__init__(cell.node)
        self.cell, self.inputs, self.state, self.log = cell, inputs, cell.state, []


# ---- the lines


class Replay(run_model.Run):
    """A run by slots, which do what lines say."""

    def __init__(self, plan, workers=4, **options):
        # Batches that were given back, the oldest panes first.
        self.works, self.returned, self.done, self.is_stopped, self.dropped = [None] * workers, [], [], False, 0
        super().__init__(plan, **options)

    # -- what is asked before a line

    def line(self, line):
        """The word of a line and its numbers, or nothing."""
        found = next((found for word, form in FORMS.items() if (found := re.fullmatch(form, line, re.ASCII))), None)
        if found is None:
            return None
        word, numbers = line.split(" ")[0], [int(number) for number in found.groups()]
        return None if word == "split" and not (numbers[1] <= numbers[2] and 1 <= numbers[2] <= 1000000) else (word, numbers)

    def is_allowed(self, word, numbers):
        if word == "drain":
            return not any(self.works)
        if numbers[0] >= len(self.works):
            return False
        work = self.works[numbers[0]]
        if word in ("take", "split"):
            return word == "split" or work is None
        return work is not None and getattr(work, f"may_{word}")()

    def follow(self, schedule):
        """What the lines of a schedule print."""
        lines = schedule.decode("latin-1").split("\n")
        if lines[-1] == "":
            lines.pop()
        return "".join(self.do(number, line) + "\n" for number, line in enumerate(lines, 1))

    def do(self, number, line):
        read = self.line(line)
        if read is None:
            raise Refused(f"line {number}")
        if not self.is_allowed(*read):
            raise Refused(f"not allowed {number}")
        word, numbers = read
        return getattr(self, f"do_{word}")(*numbers)

    # -- each line

    def do_take(self, slot):
        work, answer = self.next_job()
        self.works[slot] = work
        return f"take {slot} {answer}"

    def next_job(self):
        if self.is_stopped:
            return None, "stopped"
        for find in (self.next_batch, self.next_key, self.next_range):
            work, answer = find()
            if work:
                return work, answer
        return None, "nothing" if any(self.works) else "finished"

    def next_batch(self):
        node = min((pane.node for pane in [*self.panes, *(pane for panes, _ in self.returned for pane in panes)]), default=None)
        back = [batch for batch in self.returned if batch[0][0].node == node]
        if back:
            batch = min(back, key=lambda batch: batch[0][0].number)
            self.returned.remove(batch)
            work = BatchWork(*batch)
        elif node is not None:
            work = BatchWork(sorted((pane for pane in self.panes if pane.node == node), key=lambda pane: pane.number)[: self.bundle], 0)
            self.panes = [pane for pane in self.panes if pane not in work.panes]
        else:
            return None, ""
        return work, f"batch {node} {len(work.panes)}"

    def next_key(self):
        busy = [work.cell for work in self.works if isinstance(work, KeyWork)]
        ready = (cell for cell in self.cells.values() if cell not in busy and (cell.waiting or self.is_due(cell)))
        # The cells stand in the order of their numbers.
        cell = min(ready, key=lambda cell: cell.node, default=None)
        if cell is None:
            return None, ""
        inputs = cell.waiting[: self.bundle]
        return KeyWork(cell, inputs), f"key {cell.node} {len(inputs) or 1}"

    def next_range(self):
        piece = min(self.pieces, key=Piece.order, default=None)
        if piece is None:
            return None, ""
        self.pieces.remove(piece)
        return RangeWork(piece), f"range {piece.node} {piece.item} {piece.start} {piece.end}"

    def do_claim(self, slot):
        work = self.works[slot]
        position = work.attempted = work.next
        work.was_refused = position >= work.piece.end
        if work.was_refused:
            return f"claim {slot} {position} false"
        try:
            self.read_position(work, position)
        except Poison as poison:
            work.fault = poison
        return f"claim {slot} {position} {'faulted' if work.fault else 'true'}"

    def read_position(self, work, position):
        item = self.plan.items[work.node][work.piece.item]
        values, declared = self.call(work.node, item.emission, position)
        for value, time in values:
            work.arrivals += self.plan.chain(work.node, Element(value, time, GLOBAL, NO_PANE))
        estimator = self.plan.nodes[work.node].get("estimator", "none")
        if estimator == "monotonic" or isinstance(estimator, dict):
            work.seen = max([work.seen, *(time for _, time in values)])
        elif estimator == "declared" and declared is not None:
            work.seen = max(work.seen, declared)
        work.emitted += bool(values)
        work.next = item.next(position)

    def do_run(self, slot):
        work = self.works[slot]
        work.was_run = True
        try:
            self.run_key(work) if isinstance(work, KeyWork) else self.run_batch(work)
        except Poison as poison:
            work.fault = poison
        return f"run {slot} {'faulted' if work.fault else 'ok'}"

    def run_batch(self, work):
        for pane in work.panes:
            work.arrivals += self.plan.chain(work.node, pane.element)

    def run_key(self, work):
        node, cell = self.plan.nodes[work.node], work.cell
        for element, _ in work.inputs:
            work.log.append(("element", element.time, text(element.value)))
            work.state, values = self.call(work.node, on_element, node, cell.key, element, work.state)
            self.put_out(work, values, element.time, element.pane)
        if not work.inputs:
            time = cell.state.timer
            work.log.append(("timer", 0, time))
            work.state, values = self.call(work.node, on_timer, node, cell.key, work.state)
            self.put_out(work, values, time, NO_PANE)

    def put_out(self, work, values, time, pane):
        for value in values:
            work.arrivals += self.plan.chain(work.node, Element(value, time, work.cell.span, pane))

    def do_split(self, slot, part, whole):
        work = self.works[slot]
        if not isinstance(work, RangeWork) or work.is_spent:
            return f"split {slot} none"
        piece, last = work.piece, work.last()
        at = last + max(1, (piece.end - last) * part // whole)
        if at >= piece.end:
            return f"split {slot} none"
        self.pieces.append(Piece(piece.node, piece.item, at, piece.end, piece.seen))
        piece.end = at
        return f"split {slot} {at}"

    def do_commit(self, slot):
        work, self.works[slot] = self.works[slot], None
        if isinstance(work, RangeWork):
            self.commit_range(work)
        elif isinstance(work, KeyWork):
            self.commit_key(work)
        panes, dropped = self.panes_fired, self.dropped
        self.commit(work.arrivals)
        return f"commit {slot} panes {self.panes_fired - panes} drops {self.dropped - dropped}"

    def commit_range(self, work):
        piece, end = work.piece, work.piece.end
        if work.is_spent:
            self.set_aside(piece)
            return
        is_done = piece.start == end or work.attempted is not None and work.attempted >= end - 1
        if not is_done:
            end = work.last() + 1
            self.pieces.append(Piece(piece.node, piece.item, end, piece.end, work.seen))
        self.done.append((piece.node, piece.item, piece.start, end))

    def commit_key(self, work):
        cell, timer = work.cell, work.state.timer
        if timer is None:
            cell.timer_hold = None
        elif timer != cell.state.timer:
            cell.timer_hold = max(timer, self.mark_out[cell.node])
        cell.state, cell.attempts, cell.waiting = work.state, 0, cell.waiting[len(work.inputs):]
        cell.log += work.log

    def do_fail(self, slot):
        work, self.works[slot] = self.works[slot], None
        if isinstance(work, RangeWork):
            attempts = work.piece.attempts = work.piece.attempts + 1
            if attempts >= self.limit and self.plan.version > 1:
                self.pieces += work.piece.broken(work.attempted, work.fault.at if work.fault else work.node)
                return f"fail {slot} retry"
            self.pieces.append(work.piece)
        elif isinstance(work, BatchWork):
            attempts = work.attempts + 1
            self.returned.append((work.panes, attempts))
        else:
            attempts = work.cell.attempts = work.cell.attempts + 1
        self.is_stopped |= attempts >= self.limit
        return f"fail {slot} {'spent' if attempts >= self.limit else 'retry'}"

    def do_drain(self):
        *_, last = self.drained()
        return "drain spent" if last == "take 0 stopped" else "drain finished"

    def drained(self):
        """What a drain would print if each of its lines did, line by line."""
        while True:
            yield self.do_take(0)
            work = self.works[0]
            if work is None:
                return
            if work.may_run():
                yield self.do_run(0)
            while work.may_claim() and work.emitted < self.bundle:
                yield self.do_claim(0)
            yield self.do_fail(0) if work.fault else self.do_commit(0)

    # -- what holds the marks, and what is dropped

    def holds(self, at, node):
        works = [work for work in self.works if work is not None and work.node == at]
        if node["kind"] == "source":
            pieces = [*(piece for piece in self.pieces if piece.node == at), *(work.piece for work in works)]
            return [piece.mark(node.get("estimator", "none")) for piece in pieces]
        if node["kind"] == "group":
            panes = [*self.panes, *(pane for panes, _ in self.returned for pane in panes), *(pane for work in works for pane in work.panes)]
            return [pane.hold for pane in panes if pane.node == at]
        return super().holds(at, node)

    def arrive_at_group(self, node, element, came):
        self.dropped += self.mark_in[node] >= element.span[1] + self.lateness(node)
        super().arrive_at_group(node, element, came)

    # -- the end of the text

    def ending(self):
        live = [work.piece for work in self.works if isinstance(work, RangeWork)]
        lines = ["--"]
        lines += ["done {} {} {} {}".format(*done) for done in sorted(self.done)]
        for word, pieces in (("live", live), ("pending", self.pieces)):
            lines += [f"{word} {piece.node} {piece.item} {piece.start} {piece.end}" for piece in sorted(pieces, key=Piece.order)]
        lines += ["dead {} {} {}".format(*dead) for dead in sorted(self.dead)]
        if not self.is_finished():
            return "".join(line + "\n" for line in lines)
        return "".join(line + "\n" for line in [*lines, "--"]) + self.rendering()

    def is_finished(self):
        ready = any(cell.waiting or self.is_due(cell) for cell in self.cells.values())
        return not (self.is_stopped or any(self.works) or self.panes or self.returned or ready or self.pieces)


# ---- the commands


def answer(document, read, schedule, workers=4, bundle=64, chunk=65536, attempts=3):
    """The status, the text and the note of `replay`."""
    if len(schedule) > LONGEST_SCHEDULE:
        return 10, "", f"bad schedule: length {len(schedule)}\n"
    try:
        replay = Replay(run_model.Plan(document, read), workers, bundle=bundle, chunk=chunk, attempts=attempts)
    except Absent as absent:
        return 4, "", f"no source: {text(absent.args[0].encode())}\n"
    try:
        return 0, replay.follow(schedule) + replay.ending(), ""
    except Refused as refused:
        return 10, "", f"bad schedule: {refused}\n"


class Absent(Exception):
    """There is no file of this name."""


def made_text(count, number):
    return "".join(run_model.made_line(number, position).decode() + "\n" for position in range(count))


def drilled(count, number):
    """The summary of made lines, grouped by key and minute: each pane has all its numbers."""
    panes, total = set(), 0
    for position in range(count):
        time, key, part = run_model.made_line(number, position).split(b"\t")
        panes.add((int(time) // 60000, key))
        total += int(part)
    return f"lines {count}\npanes {len(panes)}\nvalues {count}\nsum {total}\n"


# ---- beside the cases


def options_of(words):
    """The positional words of a command, and its options."""
    positional, options, words = [], {}, list(words)
    while words:
        word = words.pop(0)
        if word == "--":
            return positional + words, options
        if word.startswith("--"):
            name, _, value = word.partition("=")
            options[name[2:]] = int(value or words.pop(0))
        else:
            positional.append(word)
    return positional, options


def is_modelled(case):
    return case.words[:1] in (["replay"], ["make"], ["drill"]) and not case.fails and case.status in (0, 4, 10)


def answer_of(case):
    def read(name):
        if name not in case.files:
            raise Absent(name)
        return case.files[name]

    (command, *words), options = options_of(case.words)
    if command == "make":
        return 0, made_text(*map(int, words)), ""
    if command == "drill":
        return 0, drilled(*map(int, words)), ""
    try:
        document, schedule = (read(name) for name in words)
    except Absent as absent:
        return 4, "", f"no source: {text(absent.args[0].encode())}\n"
    return answer(document, read, schedule, **options)


def compare_cases(paths):
    count = differences = 0
    for path in paths:
        for at, case in run_model.cases_of(path):
            if not is_modelled(case):
                continue
            count += 1
            status, out, note = answer_of(case)
            if (status, out.encode(), note.encode()) != (case.status, case.out, case.note):
                differences += 1
                print(f"{path}:{at}: the model gives status {status}\n{out}{note}")
    print(f"{count} cases compared with the model, {differences} differ")
    return 1 if differences or not count else 0


def main():
    words = argparse.ArgumentParser(description=__doc__.splitlines()[0])
    words.add_argument("plan", nargs="?", help="a plan document, whose files are read in the folder of the call")
    words.add_argument("schedule", nargs="?", help="the lines that say what the slots do")
    words.add_argument("--workers", type=int, default=4)
    words.add_argument("--bundle", type=int, default=64)
    words.add_argument("--chunk", type=int, default=65536)
    words.add_argument("--attempts", type=int, default=3)
    words.add_argument("--cases", nargs="+", metavar="FILE", help="files of command cases")
    words = words.parse_args()
    if words.cases:
        return compare_cases(words.cases)
    if not words.schedule:
        sys.exit(__doc__)
    read = lambda name: pathlib.Path(name).read_bytes()
    options = {name: getattr(words, name) for name in ("workers", "bundle", "chunk", "attempts")}
    status, out, note = answer(pathlib.Path(words.plan).read_text(), read, read(words.schedule), **options)
    sys.stdout.write(out)
    sys.stderr.write(note)
    return status


if __name__ == "__main__":
    sys.exit(main())
