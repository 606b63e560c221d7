#!/usr/bin/env python3
"""What `run` prints by one worker, worked out from the rules of docs/model and docs/using alone, by no code of the program.

    tests/run_model.py plan.json [--bundle N] [--chunk N] [--attempts N]     prints it, and ends with its status
    tests/run_model.py --combine plan.json [the same]       prints what `combine` does
    tests/run_model.py --cases FILE [FILE ..]       compares it with the commands `run` and `combine` of files of cases
    tests/run_model.py --beside ./beam_run [--runs N] [--seed S] [--stateful] [--dead] [--three]
                                                            and with runs of random plans of random_runs.py
    tests/run_model.py --beside ./beam_run --combine [--runs N] [--seed S]      and with `combine` of random plans by several workers

One worker takes batches of panes first, then jobs of keys, then pieces, each in their order, so the rules determine the whole text,
whatever the estimators and triggers are. The model is as plain as it can be, and slow: after each commit it looks at all cells.
A plan of version 2 goes on without a position whose work fails `--attempts` times: the range that failed is broken around it, and it is tried
alone as often again, and then set aside. Its line stands at the end of the text.
A plan of version 3 does so too. Each of its side inputs is read as five nodes, and whether a tree of a trigger holds is asked of the tree itself.
Where early panes are cut depends on the commits: these are those of one worker.
What `combine` prints, it works out without watermarks and tables: it lists the parts of each key and window, and folds them at the end. Of two things
that are wrong several workers may tell another one.
The plan has to be one that the program accepts. Where something differs the status is 1.
"""
import argparse
import json
import pathlib
import random
import re
import sys
import tempfile

LEAST_TIME, GREATEST_TIME, FINAL = -9223372036854775, 9223372036854775, 2**63 - 1
GLOBAL = LEAST_TIME, GREATEST_TIME + 1
TIMINGS = "EARLY", "ON_TIME", "LATE", "UNKNOWN"
EARLY, ON_TIME, LATE, UNKNOWN = range(4)
NO_PANE = UNKNOWN, 0
BARRIERS = "group", "stateful", "write"


class Poison(Exception):
    """Work that fails, with the node whose function or source it is."""

    def __init__(self, at=None):
        super().__init__(at)
        self.at = at


class Spent(Exception):
    """The last attempt of a job has failed; carries the note."""


# ---- values: None, an int, bytes, a pair as a tuple, a sequence as a list


def varint(number):
    number %= 2**64
    groups = bytearray()
    while number > 127:
        groups.append(number % 128 + 128)
        number //= 128
    groups.append(number)
    return bytes(groups)


def spelled(value):
    """The bytes by which values are ordered and told apart."""
    match value:
        case None:
            return b"\x00"
        case int():
            return b"\x01" + varint(value)
        case bytes():
            return b"\x02" + varint(len(value)) + value
        case tuple():
            return b"\x03" + b"".join(map(spelled, value))
        case list():
            return b"\x04" + varint(len(value)) + b"".join(map(spelled, value))


def text(value):
    if value is None:
        return "null"
    if isinstance(value, int):
        return str(value)
    if isinstance(value, bytes):
        return '"' + "".join(map(letter, value)) + '"'
    if isinstance(value, tuple):
        return f"({text(value[0])},{text(value[1])})"
    return "[" + ",".join(map(text, value)) + "]"


def letter(byte):
    short = {0x0A: "\\n", 0x0D: "\\r", 0x09: "\\t", 0x22: '\\"', 0x5C: "\\\\"}
    return short.get(byte) or (chr(byte) if 0x20 <= byte <= 0x7E else f"\\x{byte:02x}")


def read_value(line):
    """The value that a text writes."""
    value, end = value_at(line, 0)
    assert end == len(line), line
    return value


def value_at(line, at):
    if line.startswith("null", at):
        return None, at + 4
    if line[at] == '"':
        blob = re.compile(r'"((?:[^"\\]|\\.)*)"').match(line, at)
        return unescaped(blob[1]), blob.end()
    if line[at] not in "([":
        number = re.compile(r"-?\d+").match(line, at)
        return int(number[0]), number.end()
    items, end = [], at + 1
    while line[end] not in ")]":
        item, end = value_at(line, end + (line[end] == ","))
        items.append(item)
    return tuple(items) if line[at] == "(" else items, end + 1


def unescaped(text):
    short = {"n": "\n", "r": "\r", "t": "\t"}
    letter = lambda found: chr(int(found[1][1:], 16)) if found[1][0] == "x" else short.get(found[1], found[1])
    return re.sub(r"\\(x..|.)", letter, text.encode().decode("latin-1")).encode("latin-1")


def is_number(value):
    return isinstance(value, int)


def fits(number):
    return -(2**63) <= number < 2**63


class Element:
    def __init__(self, value, time, span, pane):
        self.value, self.time, self.span, self.pane = value, time, span, pane

    def key_and_part(self):
        return self.value if isinstance(self.value, tuple) else (None, self.value)

    def order(self):
        timing, index = self.pane
        return *self.span, index, timing, self.time, spelled(self.value)

    def line(self):
        start, end = self.span
        return f"{start}\t{end}\t{TIMINGS[self.pane[0]]}\t{self.pane[1]}\t{text(self.value)}\n"


def last_time(span):
    return min(span[1] - 1, GREATEST_TIME)


# ---- sources


def read_time(digits):
    bare = digits[1:] if digits[:1] == b"-" else digits
    if not 1 <= len(bare) <= 16 or not bare.isdigit():
        raise Poison
    time = int(digits)
    if not LEAST_TIME <= time <= GREATEST_TIME:
        raise Poison
    return time


def timed(line):
    """The timed values of a line, and the mark that it declares."""
    if line[:1] == b"!":
        return [], read_time(line[1:])
    head, tab, rest = line.partition(b"\t")
    if not tab:
        raise Poison
    return [(rest, read_time(head))], None


def made_line(number, position):
    at = position + number
    return f"{100 * position + 37 * at % 100}\tk{(7 * position + number) % 16}\t{at % 1000}".encode()


class Item:
    """What a source reads of one file or of its count."""

    def __init__(self, node, content):
        self.node, self.work, self.content = node, node["work"], content
        self.length = node["count"] if content is None else len(content)

    def next(self, position):
        if self.content is None:
            return position + 1
        end = self.content.find(b"\n", position)
        return self.length if end < 0 else end + 1

    def emission(self, position):
        """The timed values of a position and the mark that it declares."""
        if self.work == "Count":
            return [(position, position * self.node["number"])], None
        if self.work == "Made":
            return timed(made_line(self.node["number"], position))
        if position > 0 and self.content[position - 1] != 0x0A:
            return [], None
        line, ended, _ = self.content[position:].partition(b"\n")
        if ended and line[-1:] == b"\r":
            line = line[:-1]
        return ([(line, LEAST_TIME)], None) if self.work == "Lines" else timed(line)


# ---- functions


def words_of(blob):
    other = bytes(byte if chr(byte).isalnum() and byte < 128 else 0x20 for byte in blob)
    return other.split()


def digits_of(blob):
    bare = blob[1:] if blob[:1] == b"-" else blob
    if not 1 <= len(bare) <= 19 or not bare.isdigit() or not fits(int(blob)):
        raise Poison
    return int(blob)


def the(form, value):
    if not isinstance(value, form):
        raise Poison
    return value


def numbers(items):
    if not all(map(is_number, items)):
        raise Poison
    return items


def outputs(node, value):
    """The values that a function gives of one."""
    match node["work"]:
        case "KeyField":
            before, _, after = the(bytes, value).partition(b"\t")
            return [(before, after)]
        case "Words":
            return words_of(the(bytes, value))
        case "Field":
            fields = the(bytes, value).split(b"\t")
            if node["number"] >= len(fields):
                raise Poison
            return [fields[node["number"]]]
        case "KeepPrefix":
            return [value] if isinstance(value, bytes) and value.startswith(node["text"].encode()) else []
        case "Shift":
            return [value]
        case "Tag":
            return [(None, (node["number"], value))]
        case "JoinList" | "JoinSingle" | "JoinLookup":
            return joined(node["work"], value)
    key, part = the(tuple, value)
    match node["work"]:
        case "FieldInt":
            return [(key, digits_of(the(bytes, part)))]
        case "Swap":
            return [(part, key)]
        case "Values":
            return [part]
        case "SumSeq":
            total = sum(numbers(the(list, part)))
            if not fits(total):
                raise Poison
            return [(key, total)]
        case "CountSeq":
            return [(key, len(the(list, part)))]
        case "MaxSeq":
            return [(key, max(numbers(the(list, part)), default=None))]
        case "Unseq":
            return [(key, item) for item in the(list, part)]
    raise AssertionError(node["work"])


def joined(join, value):
    """What a join gives of the tagged values of a window: one pair for each main value."""
    key, parts = the(tuple, value)
    if key is not None or not all(map(is_tagged, the(list, parts))):
        raise Poison
    mains, views = ([value for tag, value in parts if tag == wanted] for wanted in (1, 0))
    if join == "JoinList":
        return [(main, ascending(views)) for main in mains]
    if join == "JoinSingle":
        if mains and len(views) != 1:
            raise Poison
        return [(main, views[0]) for main in mains]
    if not all(isinstance(value, tuple) for value in mains + views):
        raise Poison
    found = {}
    for key, part in views:
        found.setdefault(spelled(key), []).append(part)
    return [(main, ascending(found.get(spelled(main[0]), []))) for main in mains]


def is_tagged(part):
    return isinstance(part, tuple) and is_number(part[0]) and part[0] in (0, 1)


# ---- state: what a call does to the state and the timer of a key cell, and what it puts out. Only timer 0 is ever set.


class State:
    def __init__(self, bag=(), number=None, timer=None):
        self.bag, self.number, self.timer = tuple(bag), number, timer


def on_element(node, key, element, state):
    part = element.key_and_part()[1]
    match node["work"]:
        case "Dedupe":
            if spelled(part) in map(spelled, state.bag):
                return state, []
            return State(bag=(*state.bag, part)), [(key, part)]
        case "RunningSum":
            total = (state.number or 0) + (part if is_number(part) else 2**64)
            if not fits(total):
                raise Poison
            return State(number=total), [(key, total)]
        case "BatchUntil":
            bag = *state.bag, part
            if len(bag) == node["number"]:
                return State(), [(key, ascending(bag))]
            return State(bag=bag, timer=last_time(element.span)), []
        case "LatestThenEmit":
            if state.number is None or state.number <= element.time:
                state = State(bag=(part,), number=element.time)
            return State(state.bag, state.number, min(state.number + node["number"], GREATEST_TIME)), []
    raise AssertionError(node["work"])


def on_timer(node, key, state):
    if node["work"] == "BatchUntil":
        return State(), [(key, ascending(state.bag))] if state.bag else []
    return State(), [(key, part) for part in state.bag]


def ascending(parts):
    return sorted(parts, key=spelled)


# ---- windows


def windows_at(strategy, time):
    if strategy == "global":
        return [GLOBAL]
    (kind, length), = strategy.items()
    if kind == "sessions":
        return [(time, time + length)]
    length, period = length if kind == "sliding" else (length, length)
    starts, start = [], time - time % period
    while start > time - length:
        starts.append(start)
        start -= period
    return [(start, start + length) for start in reversed(starts)]


def merged(spans):
    """The sessions that these spans make."""
    made = []
    for start, end in sorted(set(spans)):
        if made and start < made[-1][1]:
            made[-1] = made[-1][0], max(made[-1][1], end)
        else:
            made.append((start, end))
    return made


# ---- triggers


def holds(tree, unseen, past):
    """Whether a tree of a trigger is met by so many entries that no pane has shown, so long after the end of the window."""
    (word, of), = tree.items()
    match word:
        case "count":
            return unseen >= of
        case "mark":
            return past >= of
        case "first":
            return any(holds(it, unseen, past) for it in of)
        case "all":
            return all(holds(it, unseen, past) for it in of)
    raise AssertionError(word)


# ---- the plan

JOINS = {"list": "JoinList", "single": "JoinSingle", "lookup": "JoinLookup"}


def read_as(node):
    """The nodes as which a node of a document is read. The last one has its name, and the others names that no document gives."""
    if node["kind"] != "side":
        return [node]
    name = node["name"]
    main, view, both, group = ((name, part) for part in ("main", "view", "both", "group"))
    return [
        {"name": main, "kind": "pardo", "work": "Tag", "number": 1, "input": node["input"]},
        {"name": view, "kind": "pardo", "work": "Tag", "number": 0, "input": [node["view"]]},
        {"name": both, "kind": "flatten", "input": [main, view]},
        {"name": group, "kind": "group", "input": [both]},
        {"name": name, "kind": "pardo", "work": JOINS[node["mode"]], "input": [group]},
    ]


class Plan:
    def __init__(self, document, read):
        document = json.loads(document)
        self.version, self.nodes = document["beam"], [made for node in document["nodes"] for made in read_as(node)]
        names = {node["name"]: at for at, node in enumerate(self.nodes)}
        self.inputs = [[names[name] for name in node.get("input", [])] for node in self.nodes]
        self.followers = [[to for to, inputs in enumerate(self.inputs) for it in inputs if it == at] for at in range(len(self.nodes))]
        self.items = {at: self.items_of(node, read) for at, node in enumerate(self.nodes) if node["kind"] == "source"}
        self.strategies = []
        for node, inputs in zip(self.nodes, self.inputs):
            self.strategies.append(self.strategy_of(node, inputs))

    @staticmethod
    def items_of(node, read):
        if node["work"] in ("Lines", "TimedLines"):
            return [Item(node, read(name)) for name in node["files"]]
        return [Item(node, None)]

    def strategy_of(self, node, inputs):
        """The strategy after a node: what a Group of sessions puts out is kept as it is."""
        if node["kind"] == "source":
            return "global"
        if node["kind"] == "window":
            return node["windows"]
        above = self.strategies[inputs[0]]
        return "kept" if node["kind"] == "group" and merges(above) else above

    def chain(self, at, element):
        """The barriers and elements that an output of a node comes to."""
        for to in self.followers[at]:
            node = self.nodes[to]
            if node["kind"] in BARRIERS:
                yield to, element
                continue
            for output in self.through(to, node, element):
                yield from self.chain(to, output)

    @staticmethod
    def through(at, node, element):
        if node["kind"] == "flatten":
            return [element]
        if node["kind"] == "window":
            return [Element(element.value, element.time, span, element.pane) for span in windows_at(node["windows"], element.time)]
        try:
            values = outputs(node, element.value)
        except Poison:
            raise Poison(at) from None
        time = min(element.time + node["number"], GREATEST_TIME) if node["work"] == "Shift" else element.time
        return [Element(value, time, element.span, element.pane) for value in values]


def merges(strategy):
    return isinstance(strategy, dict) and "sessions" in strategy


# ---- what stands while a plan is run


class Piece:
    def __init__(self, node, item, start, end, seen=LEAST_TIME, attempts=0):
        self.node, self.item, self.start, self.end, self.seen, self.attempts = node, item, start, end, seen, attempts
        # Of a spent piece the node at which its only position failed.
        self.spent_at = None

    def is_spent(self):
        return self.spent_at is not None

    def broken(self, attempted, at):
        """What is left of it where it failed as often as it may, for a plan of version 2: the last attempted position alone, and what lies
        around it. A position that was alone is spent; an empty range stays as it is, with no attempts."""
        part = lambda start, end: Piece(self.node, self.item, start, end, self.seen)
        if self.start == self.end:
            return [part(self.start, self.end)]
        if self.end - self.start == 1:
            self.spent_at = at
            return [self]
        alone = self.start if attempted is None else min(attempted, self.end - 1)
        cuts = (self.start, alone), (alone, alone + 1), (alone + 1, self.end)
        return [part(start, end) for start, end in cuts if start < end]

    def order(self):
        return self.node, self.item, self.start, self.end, self.seen, self.attempts

    def mark(self, estimator):
        if estimator == "none":
            return LEAST_TIME
        if isinstance(estimator, dict):
            return max(LEAST_TIME, self.seen - estimator["lag"])
        return self.seen


class Pane:
    def __init__(self, number, node, element, hold):
        self.number, self.node, self.element, self.hold = number, node, element, hold


class Entry:
    def __init__(self, element, commit):
        self.element, self.commit, self.shown = element, commit, False

    def belongs(self, span):
        start, end = self.element.span
        return span[0] <= start and end <= span[1]


class KeyGroup:
    """The cells of a key at a Group."""

    def __init__(self):
        self.spans, self.entries, self.panes, self.on_time = [], [], {}, set()


class KeyCell:
    def __init__(self, node, key, span):
        self.node, self.key, self.span = node, key, span
        self.state, self.timer_hold = State(), None
        self.waiting, self.log, self.attempts = [], [], 0


class Run:
    def __init__(self, plan, bundle=64, chunk=65536, attempts=3):
        self.plan, self.bundle, self.limit = plan, bundle, attempts
        self.pieces = [
            Piece(node, number, start, min(start + chunk, item.length))
            for node, items in plan.items.items() for number, item in enumerate(items) for start in range(0, item.length, chunk)
        ]
        # The position that was read last.
        self.attempted = None
        self.panes, self.panes_fired, self.batch_attempts = [], 0, 0
        self.groups, self.cells, self.written, self.commits = {}, {}, {}, 0
        # The node, item and position of what is set aside, and the node at which it failed.
        self.dead = []
        count = len(plan.nodes)
        self.mark_in, self.mark_out = [LEAST_TIME] * count, [LEAST_TIME] * count
        self.compute_marks()

    # -- jobs

    def work(self):
        while self.work_batch() or self.work_key() or self.work_piece():
            pass

    def failed(self, node, item, poison, attempts):
        if attempts >= self.limit:
            raise Spent(f"work fault: node {node} item {item} at {poison.at} attempt {attempts} call\n")
        return attempts

    def work_batch(self):
        if not self.panes:
            return False
        node = min(pane.node for pane in self.panes)
        batch = sorted((pane for pane in self.panes if pane.node == node), key=lambda pane: pane.number)[: self.bundle]
        try:
            arrivals = [came for pane in batch for came in self.plan.chain(node, pane.element)]
        except Poison as poison:
            self.batch_attempts = self.failed(node, batch[0].number, poison, self.batch_attempts + 1)
            return True
        self.batch_attempts = 0
        self.panes = [pane for pane in self.panes if pane not in batch]
        self.commit(arrivals)
        return True

    def work_key(self):
        ready = (cell for cell in self.cells.values() if cell.waiting or self.is_due(cell))
        # The cells stand in the order of their numbers.
        cell = min(ready, key=lambda cell: cell.node, default=None)
        if cell is None:
            return False
        number = list(self.cells.values()).index(cell)
        node = self.plan.nodes[cell.node]
        inputs, state, log, arrivals = cell.waiting[: self.bundle], cell.state, [], []
        try:
            for element, _ in inputs:
                state, values = self.call(cell.node, on_element, node, cell.key, element, state)
                log.append(("element", element.time, text(element.value)))
                for value in values:
                    arrivals += self.plan.chain(cell.node, Element(value, element.time, cell.span, element.pane))
            if not inputs:
                time = state.timer
                state, values = self.call(cell.node, on_timer, node, cell.key, state)
                log.append(("timer", 0, time))
                for value in values:
                    arrivals += self.plan.chain(cell.node, Element(value, time, cell.span, NO_PANE))
        except Poison as poison:
            cell.attempts = self.failed(cell.node, number, poison, cell.attempts + 1)
            return True
        if state.timer is None:
            cell.timer_hold = None
        elif state.timer != cell.state.timer:
            cell.timer_hold = max(state.timer, self.mark_out[cell.node])
        cell.state, cell.attempts, cell.waiting = state, 0, cell.waiting[len(inputs):]
        cell.log += log
        self.commit(arrivals)
        return True

    def is_due(self, cell):
        return cell.state.timer is not None and cell.state.timer <= self.mark_in[cell.node]

    @staticmethod
    def call(at, function, *words):
        try:
            return function(*words)
        except Poison:
            raise Poison(at) from None

    def work_piece(self):
        if not self.pieces:
            return False
        piece = min(self.pieces, key=Piece.order)
        if piece.is_spent():
            self.pieces.remove(piece)
            self.set_aside(piece)
            self.commit([])
            return True
        try:
            arrivals, seen, left = self.read(piece)
        except Poison as poison:
            self.fail_piece(piece, poison)
            return True
        self.pieces.remove(piece)
        if left < piece.end:
            self.pieces.append(Piece(piece.node, piece.item, left, piece.end, seen))
        self.commit(arrivals)
        return True

    def fail_piece(self, piece, poison):
        piece.attempts += 1
        if self.plan.version == 1 or piece.attempts < self.limit:
            self.failed(piece.node, piece.item, poison, piece.attempts)
        else:
            self.pieces.remove(piece)
            self.pieces += piece.broken(self.attempted, poison.at)

    def set_aside(self, piece):
        self.dead.append((piece.node, piece.item, piece.start, piece.spent_at))

    def read(self, piece):
        """What a bundle of a piece brings, what it has seen, and where what is left of the piece begins."""
        item, estimator = self.plan.items[piece.node][piece.item], self.plan.nodes[piece.node].get("estimator", "none")
        arrivals, seen, emitted, at = [], piece.seen, 0, piece.start
        while at < piece.end:
            self.attempted = at
            values, declared = self.call(piece.node, item.emission, at)
            for value, time in values:
                arrivals += self.plan.chain(piece.node, Element(value, time, GLOBAL, NO_PANE))
                if estimator == "monotonic" or isinstance(estimator, dict):
                    seen = max(seen, time)
            if estimator == "declared" and declared is not None:
                seen = max(seen, declared)
            emitted += bool(values)
            if emitted == self.bundle:
                return arrivals, seen, at + 1
            at = item.next(at)
        return arrivals, seen, piece.end

    # -- commits

    def commit(self, arrivals):
        self.commits += 1
        came = {}
        for node, element in arrivals:
            kind = self.plan.nodes[node]["kind"]
            if kind == "write":
                self.written.setdefault(node, []).append(element)
            elif kind == "stateful":
                self.arrive_at_state(node, element)
            else:
                self.arrive_at_group(node, element, came)
        self.merge_sessions(came)
        self.compute_marks()

    def arrive_at_state(self, node, element):
        key = element.key_and_part()[0]
        name = node, spelled(key), element.span
        if name not in self.cells:
            self.cells[name] = KeyCell(node, key, element.span)
        self.cells[name].waiting.append((element, max(element.time, self.mark_out[node])))

    def lateness(self, node):
        return self.plan.nodes[node].get("lateness", 0)

    def arrive_at_group(self, node, element, came):
        if self.mark_in[node] >= element.span[1] + self.lateness(node):
            return
        key = element.key_and_part()[0]
        name = node, spelled(key)
        group = self.groups.setdefault(name, KeyGroup())
        group.key = key
        group.entries.append(Entry(element, self.commits))
        came.setdefault(name, []).append(element.span)

    def merge_sessions(self, came):
        for name, spans in came.items():
            group, node = self.groups[name], name[0]
            above = self.plan.strategies[self.plan.inputs[node][0]]
            if not merges(above):
                group.spans += [span for span in dict.fromkeys(spans) if span not in group.spans]
                continue
            is_past = lambda span: self.mark_in[node] >= span[1] + self.lateness(node)
            past = [span for span in group.spans if is_past(span)]
            group.spans = past + merged([span for span in group.spans if not is_past(span)] + spans)

    def compute_marks(self):
        before = list(self.mark_out)
        for at, node in enumerate(self.plan.nodes):
            self.mark_in[at] = min((self.mark_out[it] for it in self.plan.inputs[at]), default=FINAL)
            if node["kind"] == "group":
                self.fire(at, before[at])
            self.mark_out[at] = min([self.mark_in[at], *self.holds(at, node)])

    def holds(self, at, node):
        if node["kind"] == "source":
            return [piece.mark(node.get("estimator", "none")) for piece in self.pieces if piece.node == at]
        if node["kind"] == "group":
            return [pane.hold for pane in self.panes if pane.node == at]
        mine = [cell for cell in self.cells.values() if cell.node == at]
        return [hold for cell in mine for _, hold in cell.waiting] + [cell.timer_hold for cell in mine if cell.timer_hold is not None]

    def fire(self, at, mark_before):
        is_merging = merges(self.plan.strategies[self.plan.inputs[at][0]])
        for (node, _), group in sorted(self.groups.items()):
            if node != at:
                continue
            fired, shown, alike = [], [], {}
            for entry in group.entries:
                alike.setdefault(entry.element.span, []).append(entry)
            for span in sorted(group.spans):
                belong = [entry for entry in group.entries if entry.belongs(span)] if is_merging else alike[span]
                unseen = [entry for entry in belong if not entry.shown]
                timing = self.timing(at, span, span in group.on_time, len(unseen))
                if timing is None:
                    continue
                if timing == ON_TIME:
                    group.on_time.add(span)
                held = belong if self.plan.nodes[at].get("mode") == "accumulating" else unseen
                parts = ascending([entry.element.key_and_part()[1] for entry in held])
                index = group.panes.get(span, 0)
                group.panes[span] = index + 1
                fired.append(Element((group.key, parts), last_time(span), span, (timing, index)))
                shown += belong
            for entry in shown:
                entry.shown = True
            for element in fired:
                self.panes.append(Pane(self.panes_fired, at, element, max(element.time, mark_before)))
                self.panes_fired += 1

    def timing(self, at, span, was_on_time, unseen):
        node, mark = self.plan.nodes[at], self.mark_in[at]
        past = mark - span[1]
        if not was_on_time:
            return ON_TIME if past >= 0 else EARLY if self.is_early(node, unseen, past) else None
        if unseen >= 1 and (self.is_late(node, unseen, past) or past >= self.lateness(at)):
            return LATE
        return None

    @staticmethod
    def is_early(node, unseen, past):
        if "early_when" in node:
            return unseen >= 1 and holds(node["early_when"], unseen, past)
        return "early" in node and unseen >= node["early"]

    @staticmethod
    def is_late(node, unseen, past):
        return holds(node["late_when"], unseen, past) if "late_when" in node else unseen >= node.get("late", 1)

    # -- the text

    def rendering(self):
        writes = [at for at, node in enumerate(self.plan.nodes) if node["kind"] == "write"]
        lines = []
        for at in writes:
            if len(writes) > 1:
                node = self.plan.nodes[at]
                lines.append(f"# {text(node.get('label', node['name']).encode())}\n")
            lines += [element.line() for element in sorted(self.written.get(at, []), key=Element.order)]
        for (at, _, span), cell in sorted(self.cells.items(), key=lambda named: named[0]):
            if self.plan.nodes[at].get("log"):
                for entry in cell.log:
                    lines.append("\t".join(map(str, ("log", at, *span, text(cell.key), *entry))) + "\n")
        return "".join(lines + [dead_line(*dead) for dead in sorted(self.dead)])


def dead_line(*dead):
    return "\t".join(map(str, ("dead", *dead))) + "\n"


def answer(document, read, bundle=64, chunk=65536, attempts=3):
    """The status, the text and the note of `run` by one worker."""
    run = Run(Plan(document, read), bundle, chunk, attempts)
    try:
        run.work()
    except Spent as spent:
        return 6, "", str(spent)
    return 0, run.rendering(), ""


# ---- what `combine` prints


FOLDING = "SumSeq", "CountSeq", "MaxSeq"
DEFAULT_TRIGGER = {"early": None, "late": 1, "lateness": 0, "mode": "discarding"}


def is_lifted(plan):
    """Whether a Group and its function are combined: the rules of a check list, one after another."""
    groups = [at for at, node in enumerate(plan.nodes) if node["kind"] == "group"]
    if plan.version != 1 or len(groups) != 1 or any(node["kind"] == "stateful" for node in plan.nodes):
        return False
    group = plan.nodes[groups[0]]
    if any(group.get(key, usual) != usual for key, usual in DEFAULT_TRIGGER.items()) or merges(plan.strategies[plan.inputs[groups[0]][0]]):
        return False
    taking = [plan.nodes[at].get("work") for at in plan.followers[groups[0]]]
    return len(taking) == 1 and taking[0] in FOLDING and not any(is_written_past(plan, at) for at in plan.items)


def is_written_past(plan, at):
    """Whether a Write takes what a node puts out, with no Group between."""
    kinds = [(to, plan.nodes[to]["kind"]) for to in plan.followers[at]]
    return any(kind == "write" or kind != "group" and is_written_past(plan, to) for to, kind in kinds)


def combined(document, read, bundle=64, chunk=65536, attempts=3):
    """The status, the text and the note of `combine` by one worker."""
    plan = Plan(document, read)
    if not is_lifted(plan):
        return 11, "", "not lifted: 1 shape\n"
    run, parts = Run(plan, bundle, chunk, attempts), {}
    group = next(at for at, node in enumerate(plan.nodes) if node["kind"] == "group")
    function = plan.followers[group][0]
    fault = lambda node, item, poison: (6, "", f"work fault: node {node} item {item} at {poison.at} attempt {attempts} call\n")
    for piece in run.pieces:
        while piece.start < piece.end:
            try:
                arrivals, _, piece.start = run.read(piece)
            except Poison as poison:
                return fault(piece.node, piece.item, poison)
            for _, element in arrivals:
                key, part = element.key_and_part()
                if plan.nodes[function]["work"] != "CountSeq" and not is_number(part):
                    return 11, "", "not lifted: 2 part\n"
                parts.setdefault((element.span, spelled(key)), []).append((key, part))
    for (span, _), pairs in sorted(parts.items()):
        try:
            value, = outputs(plan.nodes[function], (pairs[0][0], [part for _, part in pairs]))
        except Poison:
            return 11, "", "not lifted: 3 sum\n"
        try:
            for to, element in plan.chain(function, Element(value, last_time(span), span, (ON_TIME, 0))):
                run.written.setdefault(to, []).append(element)
        except Poison as poison:
            return fault(function, 0, poison)
    return 0, run.rendering(), ""


# ---- what any number of workers print


class Printed:
    """The written lines of each Write, the logs, and the positions that are set aside, of a text."""

    def __init__(self, plan, out):
        self.written, self.logs, self.dead = {}, {}, set()
        writes = [at for at, node in enumerate(plan.nodes) if node["kind"] == "write"]
        if len(writes) == 1:
            self.written[writes[0]] = []
        for line in out.splitlines():
            cells = line.split("\t")
            if line.startswith("# "):
                self.written[writes[len(self.written)]] = []
            elif cells[0] == "log":
                at, start, end = map(int, cells[1:4])
                self.logs.setdefault((at, (start, end), cells[4]), []).append(cells[5:])
            elif cells[0] == "dead":
                self.dead.add(tuple(map(int, cells[1:4])))
            else:
                self.written[max(self.written)].append(cells)


def log_fault(document, read, out):
    """What is wrong with the logs of a run, or nothing. The calls of each log have to be legal in their order, and what sources and
    calls put out has to come to each node once, where nothing comes to it from a Group. Each stateful node has to have a log."""
    plan = Plan(document, read)
    printed, came = Printed(plan, out), {}
    bring = lambda at, element: [came.setdefault(to, []).append(brought) for to, brought in plan.chain(at, element)]
    for at, number, item in all_items(plan):
        for position in positions(item):
            if (at, number, position) not in printed.dead:
                spread(at, item, position, bring)
    arrived = {}
    for (at, span, key), calls in printed.logs.items():
        state = State()
        for kind, number, rest in calls:
            if kind == "timer":
                if number != "0" or state.timer != int(rest):
                    return f"node {at} key {key}: no timer is set at {rest}"
                time, (state, values) = state.timer, on_timer(plan.nodes[at], read_value(key), state)
            else:
                element = Element(read_value(rest), int(number), span, NO_PANE)
                arrived.setdefault(at, []).append((span, number, rest))
                if text(element.key_and_part()[0]) != key:
                    return f"node {at} key {key}: {rest} has another key"
                time, (state, values) = element.time, on_element(plan.nodes[at], read_value(key), element, state)
            for value in values:
                bring(at, Element(value, time, span, NO_PANE))
        if state.timer is not None:
            return f"node {at} key {key}: the timer at {state.timer} is left"
    for at, node in enumerate(plan.nodes):
        if node["kind"] not in ("stateful", "write") or comes_from_group(plan, at):
            continue
        if node["kind"] == "stateful":
            there, wanted = arrived.get(at, []), [(element.span, str(element.time), text(element.value)) for element in came.get(at, [])]
        else:
            there, wanted = printed.written[at], [[*map(str, element.span), text(element.value)] for element in came.get(at, [])]
            there = [[start, end, value] for start, end, _, _, value in there]
        if sorted(there) != sorted(wanted):
            return f"what came to node {at}"
    return None


def dead_lines(document, read):
    """The lines of the positions whose work fails whenever it is done: those that a whole run of a plan sets aside, from version 2 on."""
    plan, lines = Plan(document, read), []
    for at, number, item in all_items(plan):
        for position in positions(item):
            try:
                spread(at, item, position, lambda *brought: list(plan.chain(*brought)))
            except Poison as poison:
                lines.append(dead_line(at, number, position, poison.at))
    return lines


def all_items(plan):
    return [(at, number, item) for at, items in plan.items.items() for number, item in enumerate(items)]


def positions(item):
    position = 0
    while position < item.length:
        yield position
        position = item.next(position)


def spread(at, item, position, bring):
    for value, time in Run.call(at, item.emission, position)[0]:
        bring(at, Element(value, time, GLOBAL, NO_PANE))


def comes_from_group(plan, at):
    above = [(it, plan.nodes[it]["kind"]) for it in plan.inputs[at]]
    return any(kind == "group" or kind != "stateful" and comes_from_group(plan, it) for it, kind in above)


# ---- beside the cases

REPEATED = re.compile(r"\{(\d+)\*([^{}]*)\}")


class Case:
    """A block that runs a command: its words, its files and what is wanted."""

    def __init__(self, words):
        self.words, self.files, self.status, self.out, self.note, self.fails = words, {}, 0, b"", b"", False

    def add(self, line):
        kind, _, rest = line.partition(" ")
        if kind == "file":
            name, text = (unescaped(quoted) for quoted in re.findall(r'"((?:[^"\\]|\\.)*)"', rest))
            self.files[name.decode()] = text
        elif kind == "status":
            self.status = int(rest)
        elif kind in ("out", "note"):
            setattr(self, kind, getattr(self, kind) + unescaped(rest))
        else:
            self.fails |= kind in ("fail", "kit", "first")

    def is_modelled(self):
        if self.words[:1] not in (["run"], ["combine"]) or self.fails:
            return False
        return self.status in (0, 11) or self.note.endswith(b" call\n")

    def difference(self):
        numbers = {word[2:]: int(number) for word, number in zip(self.words, self.words[1:]) if word in ("--bundle", "--chunk", "--attempts")}
        plan = self.words[self.words.index("--") + 1] if "--" in self.words else self.words[1]
        if self.words[0] == "combine":
            # A plan that isn't lifted is told before a file of it is opened.
            read = lambda name: self.files.get(name, b"")
            status, out, note = combined(self.files[plan], read, **numbers)
        else:
            status, out, note = answer(self.files[plan], self.files.get, **numbers)
        if (status, out.encode(), note.encode()) != (self.status, self.out, self.note):
            return f"the model gives status {status}\n{out}{note}"
        return None


def cases_of(path):
    """The blocks of a file that run a command, each with its line."""
    case = None
    text = REPEATED.sub(lambda part: int(part[1]) * part[2], pathlib.Path(path).read_text())
    for at, line in enumerate(text.splitlines(), 1):
        if line.startswith("command "):
            case, start = Case(line.split(" ")[1:]), at
        elif line == "end" and case is not None:
            yield start, case
            case = None
        elif case is not None:
            case.add(line)


def compare_cases(paths):
    count = differences = 0
    for path in paths:
        for at, case in cases_of(path):
            if not case.is_modelled():
                continue
            count += 1
            found = case.difference()
            if found is not None:
                differences += 1
                print(f"{path}:{at}: {found}")
    print(f"{count} cases compared with the model, {differences} differ")
    return 1 if differences or not count else 0


# ---- beside the program


def compare(words):
    import random_runs

    program, runs, seed, combine = random_runs.Program(words.beside, 120), words.runs, words.seed, words.combine
    kinds = random_runs.STATEFUL_KINDS if words.stateful else random_runs.kinds_of(words)
    differences = 0
    for number in range(seed, seed + runs):
        choose = random.Random(number)
        plan = random_runs.Plan(choose)
        choose.choice(kinds)(plan)
        bundle, chunk, attempts = choose.choice([1, 2, 7, 64]), random_runs.any_chunk(choose, plan), choose.choice([1, 2, 3])
        workers = choose.choice(random_runs.WORKERS) if combine else 1
        wanted = (combined if combine else answer)(plan.document(), plan.read, bundle, chunk, attempts)
        words = ["--workers", str(workers), "--bundle", str(bundle), "--chunk", str(chunk), "--attempts", str(attempts)]
        with tempfile.TemporaryDirectory(prefix="run_model_") as name:
            random_runs.write_plan(plan, pathlib.Path(name))
            ended = program.run(name, words, "combine" if combine else "run")
        if (ended.status, ended.out.decode(), ended.note.decode()) != wanted:
            differences += 1
            kept = pathlib.Path(tempfile.mkdtemp(prefix=f"run_model_{number}_"))
            random_runs.write_plan(plan, kept)
            (kept / "wanted").write_text(wanted[1] + wanted[2])
            print(f"seed {number}: {' '.join(words)} in {kept}: status {ended.status}, {wanted[0]} is wanted", flush=True)
    print(f"{runs} plans compared with the model, {differences} differ")
    return 1 if differences else 0


def main():
    words = argparse.ArgumentParser(description=__doc__.splitlines()[0])
    words.add_argument("plan", nargs="?", help="a plan document, whose files are read in the folder of the call")
    words.add_argument("--bundle", type=int, default=64)
    words.add_argument("--chunk", type=int, default=65536)
    words.add_argument("--attempts", type=int, default=3)
    words.add_argument("--cases", nargs="+", metavar="FILE", help="files of command cases")
    words.add_argument("--beside", metavar="PROGRAM", help="the built program")
    words.add_argument("--runs", type=int, default=500)
    words.add_argument("--seed", type=int, default=1)
    words.add_argument("--stateful", action="store_true", help="plans with stateful nodes alone")
    words.add_argument("--dead", action="store_true", help="plans of version 2 alone")
    words.add_argument("--three", action="store_true", help="plans of version 3 alone")
    words.add_argument("--combine", action="store_true", help="combine in place of run")
    words = words.parse_args()
    if words.cases:
        return compare_cases(words.cases)
    if words.beside:
        return compare(words)
    if not words.plan:
        sys.exit(__doc__)
    read = lambda name: pathlib.Path(name).read_bytes()
    document = pathlib.Path(words.plan).read_text()
    prints = combined if words.combine else answer
    status, out, note = prints(document, read, words.bundle, words.chunk, words.attempts)
    sys.stdout.write(out)
    sys.stderr.write(note)
    return status


if __name__ == "__main__":
    sys.exit(main())
