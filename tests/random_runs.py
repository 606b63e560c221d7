#!/usr/bin/env python3
"""Runs random small plans with several workers, and compares each run with the one of a single worker.

    tests/random_runs.py ./beam_run [--runs N] [--seed S] [--seconds N] [--load] [--dead] [--three] [--combine]

Run number i is made from the seed S + i alone, so `--runs 1 --seed` with the seed of a difference repeats it; what it ran is kept
in a folder that is named then. `--load` keeps all processors busy meanwhile. A run that takes more than `--seconds` counts as one that
doesn't end. The status is 1 where there was any difference.

How two runs are compared (the plan decides it):

text    With no estimator or a sound one, and no early panes, each window of a Group fires once with all its parts, and all that
        is written stands in ascending order. So the rules determine the whole text. A side input waits for its window, so below one
        that takes early panes apart they do too.
cells   Early panes depend on which bundles were committed first, but each part is shown exactly once. So the plan takes its
        panes apart, and the windows and values that were written are compared as a bag, whatever the panes' timings and indexes.
        Late panes of a Group that drops nothing are like them.
values  The same in sessions, where the window of an early pane isn't determined either: only the values are compared.
status  An estimator that isn't sound may drop lines, and which ones depends on the order of the commits. The text is not compared.
note    A line is poison: nothing is written, and as it is the only one, the note says the same of it.
fault   Several things are poison, and which fails first isn't determined. Of the note only `work fault` is compared.
inputs  Below a stateful node the order of a key's elements tells, and that isn't determined. But nothing is dropped there, so the bag
        of the elements that came to a stateful node is, where the node reads sources alone: these lines of its log are compared. And
        the logs have to account for themselves: their calls are legal, and what they put out came to the nodes below (run_model.py).
alone   One worker reads in the order of the files. Without an estimator no timer is due before all is read, and while the key and the
        windows stay the same, the calls of each key are determined: several runs by one worker, at other bundles and chunks, print the
        same text. Several workers are compared as in `inputs`.
settled The same, and what is put out at the end doesn't depend on the order of the elements either: what is written is compared too.

Some plans are of version 2, over files with bad lines, or with functions that don't take all that comes; with `--dead` all are. They are compared in
the same ways, and each run has its own `--attempts`. Whatever else is compared, what each run sets aside has to be the positions that run_model.py
finds to fail whenever they are worked, with their nodes.

Some plans are of version 3, with side inputs and with trees that say when panes fire; with `--three` all are. Some of their files have bad lines too.

With `--combine` it runs `combine` by several workers on random plans that can be combined, or just can't:

combined  What `combine` prints is the text of `run` by one worker, without the plan's estimators: nothing is late then.
poison    One line is poison, or what a sum gives is for the functions below it. The end is that of `run`, but that of a batch of panes the note
          tells the sum's node and item 0.
refused   A plan of another form, parts that are no numbers, or a sum that leaves 64 bits: status 11 with the note of that.

`tests/run_model.py` works out what one worker prints, and what `combine` prints, and compares it with the same plans.
"""
import argparse
import json
import multiprocessing
import os
import pathlib
import random
import re
import subprocess
import sys
import tempfile

import run_model

KEYS = ["a", "b", "c", "dd", "key", ""]
STRATEGIES = ["fixed", "sliding", "sessions", "global"]
MOVING = ["fixed", "fixed", "fixed", "sliding", "sliding", "sessions", "global"]  # mostly windows that end while lines are read
APART = ["fixed", "sliding", "global"]  # windows that don't merge
MODES = ["list", "single", "lookup"]
NODES_OF_A_SIDE, MOST_NODES = 5, 64
WORKERS = [1, 2, 3, 4, 4, 8, 16]
STATEFUL = ["inputs", "alone", "settled"]  # how plans with stateful nodes are compared
TEXT, NUMBER, DIGITS = "text", "number", "digits"
LINE = "line"  # a text `key TAB digits`


def pair(key, part):
    return ("pair", key, part)


def pane(key, part):
    return ("pane", key, part)


class Plan:
    """A plan that grows node by node. Each open end has a name, the form of its values and its windows."""

    def __init__(self, choose):
        self.choose = choose
        self.version = 1
        self.nodes = []
        self.files = {}
        self.compared = "text"

    def add(self, kind, inputs, **keys):
        name = f"n{len(self.nodes)}"
        node = {"name": name, "kind": kind, **keys}
        if kind != "source":
            node["input"] = inputs
        self.nodes.append(node)
        return name

    def document(self):
        return json.dumps({"beam": self.version, "nodes": self.nodes})

    def numbered(self):
        """Each node with the number by which a run tells it, which goes by the nodes as which those of the document are read."""
        number = -1
        for node in self.nodes:
            number += NODES_OF_A_SIDE if node["kind"] == "side" else 1
            yield number, node

    def has_room(self):
        """Whether one more side input leaves room for what a plan has below it."""
        *_, (last, _) = self.numbered()
        return last + NODES_OF_A_SIDE + 25 <= MOST_NODES

    def read(self, name):
        return self.files[name].encode()


class End:
    def __init__(self, name, form, windows="global", grouped=False):
        self.name = name
        self.form = form
        self.windows = windows
        self.grouped = grouped


# ---- sources


def timed_lines(choose, ordered):
    """Lines in the order of their times, or out of order, and by how much they are late at most."""
    count = choose.choice([0, 1, 3, 20, 60, 150])
    times = [choose.randrange(-50_000, 400_000) for _ in range(count)]
    if ordered:
        times.sort()
    late, greatest = 0, None
    for time in times:
        greatest = time if greatest is None else max(greatest, time)
        late = max(late, greatest - time)
    return times, late


def line_text(choose, keys=KEYS):
    return f"{choose.choice(keys)}\t{choose.randrange(-20, 100)}"


def file_of_timed_lines(plan, declares, ordered):
    choose = plan.choose
    times, late = timed_lines(choose, ordered)
    lines = []
    for at, time in enumerate(times):
        lines.append(f"{time}\t{line_text(choose)}")
        # A mark that no later line of the file is earlier than.
        if declares and choose.random() < 0.3:
            lines.append(f"!{min(times[at + 1:], default=time)}")
    return write_lines(plan, lines), late


def write_lines(plan, lines):
    name = f"f{len(plan.files)}"
    plan.files[name] = text_of_lines(plan.choose, lines)
    return name


def text_of_lines(choose, lines):
    end = choose.choice(["\n", "\r\n"])
    text = "".join(line + end for line in lines)
    return text[: -len(end)] if lines and choose.random() < 0.2 else text


def timed_source(plan, sound=True):
    choose = plan.choose
    estimator = choose.choice(["none", "none", "monotonic", "lag", "declared"]) if sound else choose.choice(["monotonic", "lag"])
    ordered = sound and estimator == "monotonic" or choose.random() < 0.3
    files, late = [], 0
    for _ in range(choose.choice([1, 1, 2, 3])):
        file, late_there = file_of_timed_lines(plan, estimator == "declared", ordered)
        files.append(file)
        late = max(late, late_there)
    keys = {"work": "TimedLines", "files": files}
    if estimator == "lag":
        keys["estimator"] = {"lag": late + choose.randrange(3) if sound else late // 3}
    elif estimator != "none" or choose.random() < 0.5:
        keys["estimator"] = estimator
    return End(plan.add("source", [], **keys), LINE)


def lines_source(plan):
    lines = [line_text(plan.choose) for _ in range(plan.choose.choice([0, 1, 5, 50, 150]))]
    return End(plan.add("source", [], work="Lines", files=[write_lines(plan, lines)]), LINE)


def count_source(plan):
    keys = {"count": plan.choose.choice([0, 1, 7, 100, 200]), "number": plan.choose.choice([0, 1, 999, 60_000])}
    # The times ascend, so a monotonic estimator is sound.
    if plan.choose.random() < 0.3:
        keys["estimator"] = "monotonic"
    return End(plan.add("source", [], work="Count", **keys), NUMBER)


def made_source(plan):
    keys = {"count": plan.choose.choice([0, 1, 40, 150]), "number": plan.choose.randrange(1000)}
    return End(plan.add("source", [], work="Made", **keys), LINE)


def any_source(plan):
    return plan.choose.choice([timed_source, timed_source, timed_source, lines_source, count_source, made_source])(plan)


def quiet_source(plan):
    """A source of lines whose mark stays the least one until all is read."""
    end = plan.choose.choice([timed_source, timed_source, lines_source, made_source])(plan)
    plan.nodes[-1].pop("estimator", None)
    return end


# ---- nodes


def changes(end):
    """The functions that take values of this form, with what they give."""
    found = []
    form = end.form
    if not end.grouped:
        # Below a Group a Shift could pass the greatest time, where it stays.
        found.append(({"work": "Shift", "number": 1500}, form))
    if form in (TEXT, DIGITS, LINE):
        found.append(({"work": "Words"}, TEXT))
        found.append(({"work": "KeepPrefix", "text": "a"}, TEXT if form == DIGITS else form))
        found.append(({"work": "Field", "number": 0}, TEXT))
    if form == LINE:
        found.append(({"work": "KeyField"}, pair(TEXT, DIGITS)))
        found.append(({"work": "Field", "number": 1}, DIGITS))
    elif form in (TEXT, DIGITS):
        found.append(({"work": "KeyField"}, pair(TEXT, TEXT)))
    elif isinstance(form, tuple):
        kind, key, part = form
        if kind == "pair":
            found.append(({"work": "Swap"}, pair(part, key)))
            found.append(({"work": "Values"}, part))
            if part == DIGITS:
                found.append(({"work": "FieldInt"}, pair(key, NUMBER)))
        else:
            found.append(({"work": "CountSeq"}, pair(key, NUMBER)))
            found.append(({"work": "Unseq"}, pair(key, part)))
            if part == NUMBER:
                found.append(({"work": "SumSeq"}, pair(key, NUMBER)))
                found.append(({"work": "MaxSeq"}, pair(key, NUMBER)))
    return found


def add_function(plan, end):
    keys, form = plan.choose.choice(changes(end))
    return End(plan.add("pardo", [end.name], **keys), form, end.windows, end.grouped)


def add_key(plan, end):
    """Goes on to pairs of a key and digits, where the values are lines."""
    if end.form != LINE:
        return end
    return End(plan.add("pardo", [end.name], work="KeyField"), pair(TEXT, DIGITS), end.windows, end.grouped)


def add_window(plan, end, strategies=STRATEGIES):
    choose = plan.choose
    strategy = choose.choice(strategies)
    length = choose.choice([1000, 7777, 60_000])
    if strategy == "sliding":
        windows = {"sliding": [length, max(1, length // choose.choice([1, 2, 3]))]}
    elif strategy == "global":
        windows = "global"
    else:
        windows = {strategy: length}
    return End(plan.add("window", [end.name], windows=windows), end.form, json.dumps(windows), end.grouped)


def add_group(plan, end, **keys):
    choose, cuts = plan.choose, keys.keys() & {"early", "early_when", "late_when", "mode"}
    # Where nothing is late, these change nothing.
    if choose.random() < 0.2:
        keys.setdefault("lateness", choose.randrange(100_000))
    if choose.random() < 0.2 and "late_when" not in keys:
        keys.update({"late_when": tree(choose, LATE_MARKS)} if plan.version == 3 and choose.random() < 0.5 else {"late": choose.randrange(1, 5)})
    if choose.random() < 0.2 and not cuts:
        keys["mode"] = choose.choice(["discarding", "accumulating"])
    windows = "kept" if "sessions" in end.windows else end.windows
    return End(plan.add("group", [end.name], **keys), form_of_panes(end.form), windows, True)


EARLY_MARKS = [-1, -500, -1000, -5000, -30_000, -60_000, -1_000_000, -31_536_000_000_000]
LATE_MARKS = [0, 1, 500, 5000, 60_000, 1_000_000, 31_536_000_000_000]


def tree(choose, marks, depth=None):
    """When panes of a trigger fire, so deep at most."""
    depth = depth or choose.choice([1, 2, 2, 3])
    if depth == 1:
        return choose.choice([{"count": choose.choice([1, 2, 3, 5, 20])}, {"mark": choose.choice(marks)}])
    return {choose.choice(["first", "all"]): [tree(choose, marks, choose.randrange(1, depth)) for _ in range(choose.choice([1, 2, 2, 3]))]}


def is_read_apart(end):
    """Whether lookup takes these values: a key and a part."""
    return isinstance(end.form, tuple)


def add_side(plan, main, view, mode):
    """Each main value with the values of the view in its window, or with the only one, or with those of its key."""
    name = plan.add("side", [main.name], view=view.name, mode=mode)
    if mode == "single":
        form = pair(main.form, view.form)
    else:
        form = pane(main.form, view.form if mode == "list" else key_and_part(view.form)[1])
    return End(name, form, main.windows, True)


def add_single(plan, main):
    """A side input of how many values there are in the window, which is one number wherever there is a main value."""
    view = main
    while isinstance(view.form, tuple):
        form = view.form[2] if view.form[0] == "pair" else "parts"
        view = End(plan.add("pardo", [view.name], work="Values"), form, main.windows, True)
    counts = plan.add("pardo", [plan.add("group", [view.name])], work="CountSeq")
    return add_side(plan, main, End(counts, pair("no key", NUMBER)), "single")


def add_any_side(plan, main, ends):
    """A side input of these, where the plan has room for it, and what it gives isn't too much."""
    choose = plan.choose
    if "sessions" in main.windows or not plan.has_room():
        return main
    if plan.compared == "text" and choose.random() < 0.25:
        return add_single(plan, main)
    view = choose.choice([end for end in ends if end.windows == main.windows])
    mode = choose.choice(["list", "lookup", "lookup"] if is_read_apart(main) and is_read_apart(view) else ["list"])
    mains, values = most_of(plan, main.name)[0], most_of(plan, view.name)[1]
    return add_side(plan, main, view, mode) if mains * values <= 30_000 else main


def most_of(plan, name):
    """How many values a node gives at most, and how many leaves they have, roughly."""
    node = next(node for node in plan.nodes if node["name"] == name)
    if node["kind"] == "source":
        lines = sum(plan.files[file].count("\n") + 1 for file in node["files"]) if "files" in node else node["count"]
        return lines, 2 * lines
    above = [most_of(plan, it) for it in node["input"]]
    values, leaves = map(sum, zip(*above))
    if node["kind"] == "side":
        return values, leaves + values * most_of(plan, node["view"])[1]
    if node["kind"] == "window" and "sliding" in node["windows"]:
        return 3 * values, 3 * leaves
    return (leaves, 2 * leaves) if node.get("work") in ("Unseq", "Words") else (values, leaves)


def add_stateful(plan, end, works=None):
    """A stateful node that finds no poison. Sessions have no state, since they merge."""
    choose = plan.choose
    key, part = key_and_part(end.form)
    works = works or ["Dedupe", "BatchUntil", "LatestThenEmit", *["RunningSum"] * 2 * (part == NUMBER)]
    work = choose.choice(works)
    keys = {"log": True} if choose.random() < 0.9 else {}
    if work == "BatchUntil":
        keys["number"] = choose.choice([1, 2, 2, 3, 5, 1_000_000])
    elif work == "LatestThenEmit":
        keys["number"] = choose.choice([1, 500, 60_000, 31_536_000_000_000])
    name = plan.add("stateful", [end.name], work=work, **keys)
    # A timer of the global window has the greatest time, which a Shift doesn't pass.
    return End(name, pane(key, part) if work == "BatchUntil" else pair(key, part), end.windows, True)


def key_and_part(form):
    if not isinstance(form, tuple):
        return "no key", form
    kind, key, part = form
    return key, part if kind == "pair" else "parts"


def form_of_panes(form):
    return pane(*key_and_part(form))


def add_flatten(plan, ends):
    """All ends of the form and windows of one of them, as one end."""
    first = plan.choose.choice(ends)
    alike = [end for end in ends if end.form == first.form and end.windows == first.windows][:8]
    names = [end.name for end in alike]
    return End(plan.add("flatten", names), first.form, first.windows, any(end.grouped for end in alike))


def add_node(plan, ends):
    """One more node. It may leave the end that it takes from open."""
    choose = plan.choose
    step = choose.random()
    if step < 0.15:
        return ends + [add_flatten(plan, ends)]
    at = choose.randrange(len(ends))
    end = ends[at]
    if plan.version == 3 and choose.random() < 0.3:
        grown = add_any_side(plan, end, ends)
    elif step < 0.6:
        grown = add_function(plan, end) if changes(end) else add_window(plan, end)
    elif step < 0.8:
        grown = add_window(plan, end)
    else:
        grown = add_group(plan, end)
    return ends + [grown] if choose.random() < 0.2 else ends[:at] + [grown] + ends[at + 1 :]


def add_writes(plan, ends):
    for end in ends:
        keys = {"label": plan.choose.choice(["x", "panes"])} if plan.choose.random() < 0.5 else {}
        plan.add("write", [end.name], **keys)


# ---- plans


def text_plan(plan):
    choose = plan.choose
    ends = [any_source(plan) for _ in range(choose.choice([1, 1, 2, 3]))]
    for _ in range(choose.randrange(1, 12)):
        ends = add_node(plan, ends)
    add_writes(plan, ends)


def panes_plan(plan):
    """The pipeline of the command `panes`, with several files."""
    end = add_group(plan, add_window(plan, add_key(plan, timed_source(plan))))
    add_writes(plan, [end])


def two_groups_plan(plan):
    end = End(plan.add("pardo", [add_key(plan, timed_source(plan)).name], work="FieldInt"), pair(TEXT, NUMBER))
    end = add_group(plan, add_window(plan, end, ["fixed", "sliding", "global"]))
    end = End(plan.add("pardo", [end.name], work="SumSeq"), pair(TEXT, NUMBER), end.windows, True)
    end = End(plan.add("pardo", [end.name], work="Swap"), pair(NUMBER, TEXT), end.windows, True)
    if plan.choose.random() < 0.5:
        end = add_window(plan, end)
    add_writes(plan, [add_group(plan, end)])


def early_plan(plan):
    end = add_window(plan, add_key(plan, timed_source(plan)))
    plan.compared = "values" if "sessions" in end.windows else "cells"
    end = add_group(plan, end, early=plan.choose.randrange(1, 5))
    add_writes(plan, [End(plan.add("pardo", [end.name], work="Unseq"), pair(TEXT, DIGITS))])


def unsound_plan(plan):
    plan.compared = "status"
    end = add_group(plan, add_window(plan, add_key(plan, timed_source(plan, sound=False))))
    add_writes(plan, [end])


def poison_plan(plan):
    """A plan whose first file has one line that is no timed line, or a part that is no number."""
    choose = plan.choose
    plan.compared = "note"
    end = add_key(plan, timed_source(plan))
    bad = choose.choice(["no time", "1000\ta\tno number"])
    if bad != "no time":
        end = End(plan.add("pardo", [end.name], work="FieldInt"), pair(TEXT, NUMBER))
    lines = plan.files["f0"].splitlines()
    lines.insert(choose.randrange(len(lines) + 1), bad)
    if choose.random() < 0.3:
        lines.insert(choose.randrange(len(lines) + 1), "!")
        plan.compared = "fault"
    plan.files["f0"] = "".join(line + "\n" for line in lines)
    add_writes(plan, [add_group(plan, add_window(plan, end))])


def poison_panes_plan(plan):
    """Panes of texts can't be added up."""
    plan.compared = "fault"
    end = add_group(plan, add_window(plan, add_key(plan, made_source(plan))))
    plan.nodes[0]["count"] = 40
    end = End(plan.add("pardo", [end.name], work="SumSeq"), pair(TEXT, NUMBER), end.windows, True)
    add_writes(plan, [end])


def keyed_ends(plan, sources, as_numbers):
    """Pairs of all these sources in one collection of windows that state may have."""
    end = sources[0] if len(sources) == 1 else add_flatten(plan, sources)
    end = add_key(plan, end)
    if as_numbers:
        end = End(plan.add("pardo", [end.name], work="FieldInt"), pair(TEXT, NUMBER))
    return add_window(plan, end, ["fixed", "sliding", "global"])


def may_group(plan, end):
    """Whether no timer gives anything behind the end of its window, which a Group may drop or not, by the order of the jobs."""
    return end.windows == '"global"' or all(node.get("work") != "LatestThenEmit" for node in plan.nodes)


def add_with_its_key(plan, end):
    """One more node that leaves keys and windows as they are."""
    if plan.choose.random() < 0.65 or not may_group(plan, end):
        return add_stateful(plan, end)
    end = add_group(plan, end)
    works = ["CountSeq", "Unseq"] + (["SumSeq", "MaxSeq"] if end.form[2] == NUMBER else [])
    work = plan.choose.choice(works)
    form = pair(end.form[1], end.form[2] if work == "Unseq" else NUMBER)
    return End(plan.add("pardo", [end.name], work=work), form, end.windows, True)


def alone_plan(plan):
    choose = plan.choose
    plan.compared = "alone"
    sources = [quiet_source(plan) for _ in range(choose.choice([1, 1, 2, 3]))]
    end = add_stateful(plan, keyed_ends(plan, sources, choose.random() < 0.7))
    for _ in range(choose.choice([0, 1, 1, 2])):
        end = add_with_its_key(plan, end)
    add_writes(plan, [end])


def settled_plan(plan):
    choose = plan.choose
    plan.compared = "settled"
    work = choose.choice(["Dedupe", "BatchUntil", "LatestThenEmit"])
    # Of several elements at the latest time the last one stays, so no two of a key may have one time.
    sources = [made_source(plan)] if work == "LatestThenEmit" else [quiet_source(plan) for _ in range(choose.choice([1, 2, 3]))]
    plan.nodes[0].pop("estimator", None)
    end = add_stateful(plan, keyed_ends(plan, sources, choose.random() < 0.5), [work])
    if work == "BatchUntil":
        plan.nodes[-1]["number"] = 1_000_000
    if choose.random() < 0.5 and may_group(plan, end):
        end = add_group(plan, end)
    add_writes(plan, [end])


def inputs_plan(plan):
    """Stateful nodes anywhere: below several sources, sound or not, below Groups and below one another."""
    choose = plan.choose
    plan.compared = "inputs"
    ends = [timed_source(plan, sound=choose.random() < 0.6) if choose.random() < 0.6 else any_source(plan) for _ in range(choose.choice([1, 1, 2]))]
    for _ in range(choose.randrange(2, 9)):
        at = choose.randrange(len(ends))
        if choose.random() < 0.35 and "sessions" not in ends[at].windows:
            ends = ends[:at] + [add_stateful(plan, ends[at])] + ends[at + 1 :]
        else:
            ends = add_node(plan, ends)
    at = choose.randrange(len(ends))
    if not any(node["kind"] == "stateful" for node in plan.nodes) and "sessions" not in ends[at].windows:
        ends[at] = add_stateful(plan, ends[at])
    add_writes(plan, ends)


def poison_state_plan(plan):
    """Parts that are no numbers, or numbers whose sum 64 bits don't hold, can't be added up."""
    choose = plan.choose
    plan.compared = "fault"
    end = add_key(plan, timed_source(plan))
    if choose.random() < 0.5:
        end = End(plan.add("pardo", [end.name], work="FieldInt"), pair(TEXT, NUMBER))
    greatest = 2**63 - 1
    lines = plan.files["f0"].splitlines()
    for _ in range(2):
        lines.insert(choose.randrange(len(lines) + 1), f"{choose.randrange(1000)}\ta\t{greatest}")
    plan.files["f0"] = "".join(line + "\n" for line in lines)
    add_writes(plan, [add_stateful(plan, add_window(plan, end, ["global"]), ["RunningSum"])])


STATEFUL_KINDS = [alone_plan, alone_plan, settled_plan, inputs_plan, inputs_plan, poison_state_plan]
FIRST_KINDS = [text_plan] * 6 + [panes_plan, two_groups_plan, two_groups_plan, early_plan, unsound_plan, poison_plan, poison_panes_plan, *STATEFUL_KINDS]


# ---- plans of version 2

BAD_TIMES = ["", "no time", "12345678901234567", "9223372036854776", " 5", "+5"]
BAD_LINES = [*BAD_TIMES, "1000", "!", "!no time", "!1000\ta", *(f"{time}\ta\t1" for time in BAD_TIMES)]


def change_timed_lines(plan, change):
    """Writes the files of timed lines anew, with the lines that a change makes of theirs."""
    for node in plan.nodes:
        for name in node["files"] if node.get("work") == "TimedLines" else []:
            plan.files[name] = text_of_lines(plan.choose, change(plan.files[name].splitlines()))


def with_bad_lines(choose, lines):
    for _ in range(choose.choice([0, 1, 1, 2, 5])):
        lines.insert(choose.randrange(len(lines) + 1), choose.choice(BAD_LINES))
    return lines


def with_bad_parts(choose, lines):
    """The same with parts that are no numbers any more. The times stay, so an estimator is as sound as it was."""
    return [line + "x" if line[0] != "!" and choose.random() < 0.1 else line for line in lines]


def dead_plan(plan):
    """A plan of any kind, whose files have lines that are none."""
    choose = plan.choose
    choose.choice([kind for kind in FIRST_KINDS if kind is not poison_plan])(plan)
    plan.version = 2
    change_timed_lines(plan, lambda lines: with_bad_lines(choose, lines))


def bad_parts_plan(plan):
    """Sums of the parts that are numbers."""
    choose = plan.choose
    plan.version = 2
    end = add_key(plan, timed_source(plan))
    change_timed_lines(plan, lambda lines: with_bad_lines(choose, with_bad_parts(choose, lines)))
    end = End(plan.add("pardo", [end.name], work="FieldInt"), pair(TEXT, NUMBER))
    ends = [end] if choose.random() < 0.3 else []
    end = add_group(plan, add_window(plan, end))
    ends.append(End(plan.add("pardo", [end.name], work="SumSeq"), pair(TEXT, NUMBER), end.windows, True))
    add_writes(plan, ends)


def bad_fields_plan(plan):
    """Lines that have too few fields for one of two functions, or for both."""
    choose = plan.choose
    plan.version = 2
    lines = ["\t".join(choose.choice(KEYS) for _ in range(choose.randrange(1, 5))) for _ in range(choose.choice([1, 5, 30]))]
    source = plan.add("source", [], work="Lines", files=[write_lines(plan, lines)])
    ends = [End(plan.add("pardo", [source], work="Field", number=choose.randrange(4)), TEXT) for _ in range(2)]
    add_writes(plan, [add_group(plan, add_window(plan, end)) for end in ends])


def bad_numbers_plan(plan):
    """Numbers are no texts: beside what comes of other lines each of them is set aside."""
    choose = plan.choose
    plan.version = 2
    numbers = plan.add("source", [], work="Count", count=choose.choice([1, 7, 30]), number=choose.choice([0, 999]))
    lines = lines_source(plan)
    both = plan.add("flatten", [numbers, lines.name] if choose.random() < 0.5 else [lines.name, numbers, numbers])
    add_writes(plan, [End(plan.add("pardo", [both], work=choose.choice(["KeyField", "Words"])), TEXT)])


DEAD_KINDS = [dead_plan] * 7 + [bad_parts_plan, bad_parts_plan, bad_fields_plan, bad_numbers_plan]


# ---- plans of version 3


def of_version_3(grow):
    """The same as a plan of version 3, with bad lines in some files where the plan has an end."""

    def plan_of_version_3(plan):
        plan.version = 3
        grow(plan)
        if plan.choose.random() < 0.3 and plan.compared != "fault":
            change_timed_lines(plan, lambda lines: with_bad_lines(plan.choose, lines))

    return plan_of_version_3


def keyed(plan, end, as_numbers):
    """Pairs, where values are lines: with parts that are numbers, if wanted."""
    end = add_key(plan, end)
    if not as_numbers or end.form != pair(TEXT, DIGITS):
        return end
    return End(plan.add("pardo", [end.name], work="FieldInt"), pair(TEXT, NUMBER), end.windows, end.grouped)


def sides_plan(plan):
    """Lines, and one or two views of the same windows."""
    choose = plan.choose
    ends = [keyed(plan, any_source(plan), choose.random() < 0.5) for _ in range(choose.choice([1, 2, 2, 3]))]
    ends[0] = add_window(plan, ends[0], APART)
    windows = plan.nodes[-1]["windows"]
    ends[1:] = [End(plan.add("window", [end.name], windows=windows), end.form, ends[0].windows) for end in ends[1:]]
    if choose.random() < 0.3:
        ends[0] = End(add_group(plan, ends[0]).name, form_of_panes(ends[0].form), ends[0].windows, True)
    for _ in range(choose.choice([1, 1, 2, 3])):
        ends[0] = add_any_side(plan, ends[0], ends[1:] if len(ends) > 1 and choose.random() < 0.8 else ends)
    for _ in range(choose.choice([0, 0, 1, 2])):
        ends[0] = add_function(plan, ends[0]) if changes(ends[0]) and choose.random() < 0.7 else add_group(plan, ends[0])
    add_writes(plan, ends if choose.random() < 0.2 else ends[:1])


def prices_plan(plan):
    """Made lines, and one value for each second of them. Behind them a second may have several values, or none."""
    choose = plan.choose
    main = keyed(plan, made_source(plan), choose.random() < 0.5)
    times = [1000 * second + choose.randrange(1000) for second in range(16)] + [choose.randrange(20_000, 30_000) for _ in range(10)]
    lines = [f"{time}\t{line_text(choose)}" for time in times]
    choose.shuffle(lines)
    values = End(plan.add("source", [], work="TimedLines", files=[write_lines(plan, lines)]), LINE)
    windows = {"fixed": 1000}
    main, values = (End(plan.add("window", [end.name], windows=windows), end.form, json.dumps(windows)) for end in (main, values))
    add_writes(plan, [add_side(plan, main, values, "single")])


def cut_views_plan(plan):
    """Early panes that are taken apart again, as a main input, a view or both: a side input waits for all of them."""
    choose = plan.choose
    end = add_window(plan, keyed(plan, moving_source(plan, True), choose.random() < 0.5), APART)
    cut = add_group(plan, end, early_when=tree(choose, EARLY_MARKS))
    cut = End(plan.add("pardo", [cut.name], work="Unseq"), end.form, end.windows, True)
    main, view = choose.choice([(cut, cut), (end, cut), (cut, end)])
    end = add_any_side(plan, main, [view])
    add_writes(plan, [end] if end is not cut else [add_group(plan, end)])


def moving_source(plan, sound):
    """One file of lines that ascend, or step back now and then: its mark moves while it is read."""
    choose = plan.choose
    if choose.random() < 0.2:
        return timed_source(plan, sound)
    stretch, back = choose.choice([20_000, 100_000, 400_000]), choose.choice([0, 500, 5000, 60_000] if sound else [5000, 60_000, 60_000])
    times = sorted(choose.randrange(stretch) for _ in range(choose.choice([10, 80, 80, 150])))
    # Many stand at the end of a window, or at a mark before or behind it.
    step = choose.choice([1, 500, 500])
    times = [(time - choose.randrange(back + 1) * choose.choice([0, 1])) // step * step for time in times]
    late = max(0, *(max(times[:at]) - time for at, time in enumerate(times) if at))
    lag = late if sound else choose.choice([0, 0, late // 3])
    own_keys = KEYS[: choose.choice([1, 1, 1, 2, len(KEYS)])]
    lines = [f"{time}\t{line_text(choose, own_keys)}" for time in times]
    keys = {"files": [write_lines(plan, lines)], "estimator": {"lag": lag} if lag else "monotonic"}
    return End(plan.add("source", [], work="TimedLines", **keys), LINE)


def trees_plan(plan):
    """Panes that fire when a tree is met. Where estimators aren't sound nothing is dropped, by so great a lateness."""
    choose = plan.choose
    sound = choose.random() < 0.4
    end = add_window(plan, keyed(plan, moving_source(plan, sound), False), MOVING)
    plan.compared = "values" if "sessions" in end.windows else "cells"
    keys = {"early_when": tree(choose, EARLY_MARKS)} if choose.random() < 0.8 else {"mode": "discarding"}
    if not sound:
        keys |= {"lateness": 31_536_000_000_000, "late_when": tree(choose, LATE_MARKS)}
    end = add_group(plan, end, **keys)
    add_writes(plan, [End(plan.add("pardo", [end.name], work="Unseq"), pair(TEXT, DIGITS))])


def any_panes_plan(plan):
    """Trees, lateness and modes of any kind, and side inputs of what they give."""
    choose = plan.choose
    plan.compared = "status"
    sources = [moving_source(plan, choose.random() < 0.2) for _ in range(choose.choice([1, 1, 1, 2]))]
    end = sources[0] if len(sources) == 1 else add_flatten(plan, sources)
    end = add_window(plan, add_key(plan, end), MOVING)
    keys = {"mode": choose.choice(["discarding", "accumulating"]), "lateness": choose.choice([0, 500, 5000, 60_000, 1_000_000])}
    if choose.random() < 0.8:
        keys |= {"early_when": tree(choose, EARLY_MARKS)}
    if choose.random() < 0.8:
        keys |= {"late_when": tree(choose, LATE_MARKS)}
    ends = [end, add_group(plan, end, **keys)]
    for _ in range(choose.choice([0, 0, 1, 2])):
        at = choose.randrange(len(ends))
        ends[at] = add_any_side(plan, ends[at], ends)
    add_writes(plan, ends[1:] if choose.random() < 0.7 else ends)


def poison_side_plan(plan):
    """A side input that doesn't take its values: no single one, or values without a key, looked up."""
    choose = plan.choose
    plan.compared = "fault"
    lines = add_window(plan, full_source(plan), APART)
    pairs = add_key(plan, lines)
    if choose.random() < 0.3:
        nothing = plan.add("source", [], work="Count", count=0, number=1)
        view = End(plan.add("window", [nothing], windows=plan.nodes[1]["windows"]), NUMBER, lines.windows)
    else:
        view = choose.choice([lines, pairs])
    main = choose.choice([lines, pairs])
    is_taken = is_read_apart(main) and (is_read_apart(view) or view.form == NUMBER)
    end = add_side(plan, main, view, "single" if is_taken else choose.choice(["single", "lookup"]))
    add_writes(plan, [add_group(plan, end) if choose.random() < 0.3 else end])


def other_plan(plan):
    plan.choose.choice([prices_plan, poison_side_plan, inputs_plan])(plan)


GROWN = [text_plan, sides_plan, sides_plan, cut_views_plan, trees_plan, trees_plan, any_panes_plan, any_panes_plan, other_plan]
THIRD_KINDS = [of_version_3(grow) for grow in GROWN]
KINDS = FIRST_KINDS + DEAD_KINDS + THIRD_KINDS


# ---- plans for combine


def before_group(plan):
    """What comes to the only Group: of one source or several, with functions, windows and branches that end before it."""
    choose = plan.choose
    if choose.random() < 0.15:
        ends = [count_source(plan)]
    else:
        # Estimators have no say, so they needn't be sound.
        any_timed = lambda plan: timed_source(plan, sound=choose.random() < 0.5)
        ends = [choose.choice([any_timed, any_timed, lines_source, made_source])(plan) for _ in range(choose.choice([1, 1, 2, 3]))]
    if len(ends) > 1 or choose.random() < 0.1:
        inputs = [end.name for end in ends]
        ends = [End(plan.add("flatten", inputs + [choose.choice(inputs)] * (choose.random() < 0.2)), ends[0].form)]
    end = ends[0]
    if choose.random() < 0.6:
        end = add_key(plan, end)
        if end.form == pair(TEXT, DIGITS) and choose.random() < 0.8:
            end = End(plan.add("pardo", [end.name], work="FieldInt"), pair(TEXT, NUMBER))
    for _ in range(choose.randrange(4)):
        grown = add_window(plan, end, APART) if choose.random() < 0.5 or not changes(end) else add_function(plan, end)
        # Some nodes lead nowhere.
        end = end if choose.random() < 0.1 else grown
    return end


def folded(plan, end, works=("SumSeq", "CountSeq", "MaxSeq")):
    """The only Group and its function. The default trigger may be written out."""
    choose = plan.choose
    key, part = key_and_part(end.form)
    default = {"late": 1, "lateness": 0, "mode": "discarding"}
    name = plan.add("group", [end.name], **{word: default[word] for word in default if choose.random() < 0.2})
    work = choose.choice([work for work in works if part == NUMBER or work == "CountSeq"] or list(works))
    return End(plan.add("pardo", [name], work=work), pair(key, NUMBER), end.windows, True)


def behind_fold(plan, end):
    """Writes of what is folded, and of what functions and windows make of it."""
    choose, ends = plan.choose, [end]
    for _ in range(choose.choice([0, 0, 1, 2, 4])):
        at = choose.randrange(len(ends))
        grown = add_window(plan, ends[at]) if choose.random() < 0.3 or not changes(ends[at]) else add_function(plan, ends[at])
        ends = ends + [grown] if choose.random() < 0.5 else ends[:at] + [grown] + ends[at + 1 :]
    add_writes(plan, ends)


def combined_plan(plan):
    plan.compared = "combined"
    behind_fold(plan, folded(plan, before_group(plan)))


def poison_line_plan(plan):
    """One line that is no timed line, or a part that is no number."""
    choose = plan.choose
    plan.compared = "poison"
    end = add_key(plan, timed_source(plan))
    end = End(plan.add("pardo", [end.name], work="FieldInt"), pair(TEXT, NUMBER))
    lines = plan.files["f0"].splitlines()
    lines.insert(choose.randrange(len(lines) + 1), choose.choice(["no time", "!", "1000\ta\tno number"]))
    plan.files["f0"] = "".join(line + "\n" for line in lines)
    behind_fold(plan, folded(plan, add_window(plan, end, APART)))


def poison_sum_plan(plan):
    """What a sum gives is no text, so KeyField takes none of it."""
    plan.compared = "poison"
    end = End(plan.add("pardo", [add_key(plan, full_source(plan)).name], work="FieldInt"), pair(TEXT, NUMBER))
    end = folded(plan, add_window(plan, end, APART))
    below = plan.add("pardo", [end.name], work=plan.choose.choice(["KeyField", "Words"]))
    add_writes(plan, [end] if plan.choose.random() < 0.5 else [end, End(below, TEXT)])


def full_source(plan):
    """A source that gives something."""
    end = made_source(plan)
    plan.nodes[-1]["count"] = 40
    return end


def part_plan(plan):
    """Parts of the Group that are no numbers."""
    plan.compared = "refused 2 part"
    end = add_window(plan, add_key(plan, full_source(plan)), APART)
    behind_fold(plan, folded(plan, end, ["SumSeq", "MaxSeq"]))


def sum_plan(plan):
    """A sum that 64 bits don't hold, of parts that each fit."""
    choose = plan.choose
    plan.compared = "refused 3 sum"
    sign = choose.choice(["", "-"])
    lines = [f"{choose.randrange(1000)}\ta\t{sign}{choose.choice([2**63 - 1, 2**62 + 1])}" for _ in range(choose.choice([2, 3]))]
    lines += [f"{choose.randrange(1000)}\tb\t{choose.randrange(-100, 100)}" for _ in range(choose.randrange(20))]
    choose.shuffle(lines)
    end = End(plan.add("source", [], work="TimedLines", files=[write_lines(plan, lines)]), LINE)
    end = End(plan.add("pardo", [add_key(plan, end).name], work="FieldInt"), pair(TEXT, NUMBER))
    behind_fold(plan, folded(plan, add_window(plan, end, ["global"]), ["SumSeq"]))


def other_shape_plan(plan):
    """A plan that breaks one rule of those that can be combined."""
    choose = plan.choose
    plan.compared = "refused 1 shape"
    rules = ["version", "trigger", "sessions", "stateful", "past", "follower", "function", "second", "none"]
    end, broken = before_group(plan), choose.choice(rules)
    if broken == "version":
        plan.version = choose.choice([2, 3])
    if broken == "sessions":
        end = add_window(plan, end, ["sessions"])
    if broken == "past":
        plan.add("write", [end.name])
    if broken == "stateful":
        end = add_stateful(plan, end)
    if broken == "none":
        add_writes(plan, [end])
        return
    end = folded(plan, end)
    group = next(node for node in plan.nodes if node["kind"] == "group")
    if broken == "trigger":
        group.update(choose.choice([{"early": 1}, {"late": 2}, {"lateness": 1}, {"mode": "accumulating"}]))
    if broken == "follower":
        plan.add(*choose.choice([("write", [group["name"]]), ("flatten", [group["name"]])]))
    if broken == "function":
        plan.nodes[-1]["work"] = "Unseq"
    if broken == "second":
        end = add_group(plan, end)
    behind_fold(plan, End(end.name, TEXT if broken == "function" else end.form, end.windows, True))


COMBINE_KINDS = [combined_plan] * 10 + [poison_line_plan, poison_sum_plan, part_plan, sum_plan, other_shape_plan, other_shape_plan]


def kinds_of(words):
    """The kinds of plans that these words of a command ask for."""
    return COMBINE_KINDS if words.combine else DEAD_KINDS if words.dead else THIRD_KINDS if words.three else KINDS


def random_plan(choose, kinds=KINDS):
    plan = Plan(choose)
    choose.choice(kinds)(plan)
    return plan


# ---- runs


class Ended:
    def __init__(self, status, out, note):
        self.status = status
        self.out = out
        self.note = note


class Program:
    def __init__(self, path, seconds):
        self.path = str(pathlib.Path(path).resolve())
        self.seconds = seconds

    def run(self, folder, options, command="run", plan="plan.json"):
        words = [self.path, command, plan, *options]
        try:
            done = subprocess.run(words, cwd=folder, capture_output=True, timeout=self.seconds)
        except subprocess.TimeoutExpired:
            return Ended("no end", b"", b"")
        return Ended(done.returncode, done.stdout, done.stderr)


def bag_of(out, columns):
    """These columns of each line, of the window's start and end, the timing, the index and the value."""
    lines = [line.split(b"\t", 4) for line in out.splitlines() if not line.startswith(b"dead\t")]
    return sorted([line[at] for at in columns] for line in lines)


def dead_of(out):
    """The lines of what is set aside."""
    return [line + b"\n" for line in out.splitlines() if line.startswith(b"dead\t")]


def dead_as_wanted(plan, out):
    return dead_of(out) == [line.encode() for line in run_model.dead_lines(plan.document(), plan.read)]


def reads_sources_alone(plan, node):
    above = [other for other in plan.nodes if other["name"] in node.get("input", [])]
    return all(other["kind"] not in ("group", "stateful", "side") and reads_sources_alone(plan, other) for other in above)


def inputs_of(plan, out):
    """The lines of the elements that came to stateful nodes which read sources alone."""
    nodes = [b"%d" % at for at, node in plan.numbered() if node["kind"] == "stateful" and reads_sources_alone(plan, node)]
    lines = [line.split(b"\t") for line in out.splitlines()]
    return sorted(line for line in lines if line[0] == b"log" and line[1] in nodes and line[5] == b"element")


def written(out):
    """What was written: its order is that of the times, and which of two equal values came first isn't determined."""
    return sorted(line for line in out.splitlines() if not line.startswith(b"log\t"))


def difference(plan, compared, one, several):
    """What differs, or nothing."""
    if one.status != several.status:
        return f"status {one.status} and {several.status}, notes {one.note!r} and {several.note!r}"
    if one.status not in ((6,) if compared in ("note", "fault") else (0,)):
        return f"status {one.status}, note {one.note!r}"
    if one.status == 0 and not (dead_as_wanted(plan, one.out) and dead_as_wanted(plan, several.out)):
        return "what is set aside"
    if compared == "text" and one.out != several.out:
        return "the texts"
    if compared == "cells" and bag_of(one.out, [0, 1, 4]) != bag_of(several.out, [0, 1, 4]):
        return "the windows and values that were written"
    if compared == "values" and bag_of(one.out, [4]) != bag_of(several.out, [4]):
        return "the values that were written"
    if compared in STATEFUL and inputs_of(plan, one.out) != inputs_of(plan, several.out):
        return "what came to stateful nodes"
    if compared in STATEFUL and all(node.get("log") for node in plan.nodes if node["kind"] == "stateful"):
        fault = run_model.log_fault(plan.document(), plan.read, several.out.decode())
        if fault is not None:
            return fault
    if compared == "settled" and written(one.out) != written(several.out):
        return "what was written"
    if compared == "note" and one.note != several.note:
        return f"notes {one.note!r} and {several.note!r}"
    if compared == "fault" and not (one.note.startswith(b"work fault: ") and several.note.startswith(b"work fault: ")):
        return f"notes {one.note!r} and {several.note!r}"
    if compared in ("note", "fault") and (one.out or several.out):
        return "something was written"
    return None


def write_plan(plan, folder):
    (folder / "plan.json").write_text(plan.document())
    for name, text in plan.files.items():
        (folder / name).write_bytes(text.encode())


def any_chunk(choose, plan):
    """How long pieces are. A mark moves while the last piece of a source is read, and trees of triggers ask for marks that move."""
    return choose.choice([7, 64, 1000, 65536] if plan.version < 3 else [64, 1000, 65536, 65536, 65536])


def random_options(choose, plan, workers):
    bundle = choose.choice([1, 2, 7, 64])
    # Some fifty pieces of all files together at most, since each piece costs several turns at the lock.
    chunk = max(choose.choice([1, 5, 64, 1000, 4096]), sum(map(len, plan.files.values())) // 50)
    attempts = ["--attempts", str(choose.choice([1, 2, 3, 7]))] if plan.version > 1 else []
    return ["--workers", str(workers), "--bundle", str(bundle), "--chunk", str(chunk), *attempts]


def comparisons(choose, plan):
    """By what a run by one worker is compared with which other runs."""
    if plan.compared in ("alone", "settled"):
        yield from (("text", random_options(choose, plan, 1)) for _ in range(2))
    yield plan.compared, random_options(choose, plan, choose.choice([2, 3, 4, 4, 8, 16]))


def first_difference(program, folder, choose, plan):
    one = program.run(folder, ["--workers", "1"])
    for compared, options in comparisons(choose, plan):
        found = difference(plan, compared, one, program.run(folder, options))
        if found is not None:
            return f"{found}; {' '.join(options)}"
    return None


def first_difference_combined(program, folder, choose, plan):
    """What differs between `combine` and what it should print, by several numbers of workers, or nothing."""
    if plan.compared.startswith("refused "):
        wanted = Ended(11, b"", f"not lifted: {plan.compared.removeprefix('refused ')}\n".encode())
    else:
        for node in plan.nodes:
            node.pop("estimator", None)
        (folder / "unhurried.json").write_text(plan.document())
        wanted = program.run(folder, ["--workers", "1"], plan="unhurried.json")
        # The sums go on as one job.
        group = next(at for at, node in enumerate(plan.nodes) if node["kind"] == "group")
        wanted.note = re.sub(rb"node %d item \d+" % group, b"node %d item 0" % (group + 1), wanted.note)
        if wanted.status != (6 if plan.compared == "poison" else 0):
            return f"run ends with status {wanted.status}, note {wanted.note!r}"
    for workers in (choose.choice(WORKERS), choose.choice(WORKERS)):
        options = random_options(choose, plan, workers)
        got = program.run(folder, options, "combine")
        if (got.status, got.out, got.note) != (wanted.status, wanted.out, wanted.note):
            what = "the texts" if got.status == wanted.status else f"status {got.status}, {wanted.status} is wanted"
            return f"{what}, notes {got.note!r} and {wanted.note!r}; combine {' '.join(options)}"
    return None


def try_seed(program, seed, kinds):
    """How the plan of the seed was compared, and what differs; the plan stays in a folder then."""
    choose = random.Random(seed)
    plan = random_plan(choose, kinds)
    with tempfile.TemporaryDirectory(prefix="random_runs_") as name:
        folder = pathlib.Path(name)
        write_plan(plan, folder)
        found = (first_difference_combined if kinds is COMBINE_KINDS else first_difference)(program, folder, choose, plan)
        if found is None:
            return plan.compared, None
    kept = pathlib.Path(tempfile.mkdtemp(prefix=f"random_runs_{seed}_"))
    write_plan(plan, kept)
    return plan.compared, f"{found} in {kept}"


def keep_busy():
    while True:
        pass


def busy_processes():
    processes = [multiprocessing.Process(target=keep_busy, daemon=True) for _ in range(os.cpu_count() or 1)]
    for process in processes:
        process.start()
    return processes


def main():
    words = argparse.ArgumentParser(description="Compares runs of several workers with runs of one.")
    words.add_argument("program", help="the built program")
    words.add_argument("--runs", type=int, default=500)
    words.add_argument("--seed", type=int, default=1)
    words.add_argument("--seconds", type=float, default=120)
    words.add_argument("--load", action="store_true", help="keeps all processors busy meanwhile")
    words.add_argument("--dead", action="store_true", help="plans of version 2 alone")
    words.add_argument("--three", action="store_true", help="plans of version 3 alone")
    words.add_argument("--combine", action="store_true", help="compares combine with run")
    words = words.parse_args()
    program = Program(words.program, words.seconds)
    kinds = kinds_of(words)
    busy = busy_processes() if words.load else []
    counts, differences = {}, 0
    for seed in range(words.seed, words.seed + words.runs):
        compared, found = try_seed(program, seed, kinds)
        counts[compared] = counts.get(compared, 0) + 1
        if found is not None:
            differences += 1
            print(f"seed {seed} ({compared}): {found}", flush=True)
    for process in busy:
        process.terminate()
    kinds = ", ".join(f"{count} by {compared}" for compared, count in sorted(counts.items()))
    print(f"{words.runs} plans compared ({kinds}), {differences} differ")
    return 1 if differences else 0


if __name__ == "__main__":
    sys.exit(main())
