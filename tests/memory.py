#!/usr/bin/env python3
"""Measures the memory of a built program against the rule of docs/using/PLAN.md: tests/memory.py PROGRAM

Each row of the rule's table is tried on growing inputs by one worker. What a run takes beyond the row `the run itself`, for each
line, window, byte or bundle, may be at most what the row says, at every size, and at the largest one at least half of it: so the
rule stays near. The sizes are such that a run takes more memory than this script, whose own the system counts as well: what takes
little is tried on more lines.
"""
import json
import os
import pathlib
import re
import subprocess
import sys
import tempfile

ROOT = pathlib.Path(__file__).resolve().parent.parent
SIZES = (140_000, 270_000, 500_000)


def plan(files, *nodes, version=1, **source):
    """A plan of timed lines and nodes that each take from the one before."""
    made = [{"name": "in", "kind": "source", "work": "TimedLines", "files": files, **source}]
    for number, node in enumerate([*nodes, {"kind": "write"}]):
        made.append({"name": f"n{number}", "input": [made[-1]["name"]], **node})
    return json.dumps({"beam": version, "nodes": made})


def most_memory(program, words):
    """The most bytes of memory that a run held."""
    run = subprocess.Popen([program, *words], stdout=subprocess.DEVNULL)
    _, status, usage = os.wait4(run.pid, 0)
    run.returncode = status
    if status:
        sys.exit(f"memory: {words} ended with {status}")
    return usage.ru_maxrss * 1024


def grouped(line):
    """A run of `panes` over so many lines."""

    def words(count, folder):
        path = folder / "lines.tsv"
        with open(path, "w") as file:
            file.writelines(line(at) for at in range(count))
        return ["panes", str(path), "60000", "--workers", "1"]

    return words


def stateful(work, line, *before, **node):
    """A run of one stateful node over so many lines, with the functions before it."""

    def words(count, folder):
        path = folder / "lines.tsv"
        with open(path, "w") as file:
            file.writelines(line(at) for at in range(count))
        functions = [{"kind": "pardo", "work": name} for name in ("KeyField", *before)]
        (folder / "plan.json").write_text(plan([str(path)], *functions, {"kind": "stateful", "work": work, **node}))
        return ["run", str(folder / "plan.json"), "--workers", "1"]

    return words


def joined(count, folder):
    """A side input of so many main elements, each of which has one value in the view."""
    paths = [folder / "lines.tsv", folder / "view.tsv"]
    for path, number in zip(paths, (count, 10)):
        with open(path, "w") as file:
            file.writelines(f"{at}\tk{at % 10}\t{at}\n" for at in range(number))
    nodes = [{"name": path.name, "kind": "source", "work": "TimedLines", "files": [str(path)]} for path in paths]
    nodes += [{"name": f"key of {path.name}", "kind": "pardo", "work": "KeyField", "input": [path.name]} for path in paths]
    nodes.append({"name": "side", "kind": "side", "input": [nodes[2]["name"]], "view": nodes[3]["name"], "mode": "lookup"})
    nodes.append({"name": "out", "kind": "write", "input": ["side"]})
    (folder / "plan.json").write_text(json.dumps({"beam": 3, "nodes": nodes}))
    return ["run", str(folder / "plan.json"), "--workers", "1"]


def combined(line):
    """A sum of each key by `combine`, over so many lines."""

    def words(count, folder):
        path = folder / "lines.tsv"
        with open(path, "w") as file:
            file.writelines(line(at) for at in range(count))
        functions = [{"kind": "pardo", "work": name} for name in ("KeyField", "FieldInt")]
        (folder / "plan.json").write_text(plan([str(path)], *functions, {"kind": "group"}, {"kind": "pardo", "work": "SumSeq"}))
        return ["combine", str(folder / "plan.json"), "--workers", "1"]

    return words


def filtered(*words, **source):
    """A run of six nodes that keeps nothing, each of whose lines is a bundle."""

    def made(count, folder):
        path = folder / "lines.tsv"
        with open(path, "w") as file:
            file.writelines(f"{at}\ta\tx\n" for at in range(count))
        filters = [{"kind": "pardo", "work": "KeepPrefix", "text": "no"}] * 4
        (folder / "plan.json").write_text(plan([str(path)], *filters, **source))
        return ["run", str(folder / "plan.json"), "--workers", "1", "--bundle", "1", *words]

    return made


def set_aside(count, folder):
    """A run over bad lines alone, each of which is set aside."""
    path = folder / "lines.tsv"
    with open(path, "w") as file:
        file.writelines(f"bad {at}\n" for at in range(count))
    (folder / "plan.json").write_text(plan([str(path)], {"kind": "pardo", "work": "KeyField"}, {"kind": "group"}, version=2))
    return ["run", str(folder / "plan.json"), "--workers", "1"]


# How each row of the table is tried, and what stands in a line beside what is measured.
TRIED = {
    "each line grouped": (grouped(lambda at: f"{at % 60000}\tkey\t{at}\n"), ()),
    "each key and window": (grouped(lambda at: f"0\tk{at}\tx\n"), ("each line grouped",)),
    "each part of more than 22 bytes": (grouped(lambda at: f"{at % 60000}\tkey\t{at:028}\n"), ("each line grouped",)),
    "each byte of a part above 22": (
        grouped(lambda at: f"{at % 60000}\tkey\t{at:0272}\n"), ("each line grouped", "each part of more than 22 bytes"),
    ),
    "each bundle": (filtered(), ()),
    "what a bundle adds that moves a watermark": (filtered("--chunk", "1000000000", estimator="monotonic"), ("each bundle",)),
    "each position that is set aside": (set_aside, ()),
    "each call of a stateful node": (stateful("LatestThenEmit", lambda at: f"{at}\tkey\t{at}\n", number=1000), ()),
    "what such a call gives": (stateful("RunningSum", lambda at: f"{at}\tkey\t1\n", "FieldInt"), ("each call of a stateful node",)),
    "each key and window of a stateful node": (
        stateful("Dedupe", lambda at: f"{at}\tk{at}\tx\n"), ("each call of a stateful node", "what such a call gives"),
    ),
    "each element that comes to a `side`": (joined, ()),
    "each key and window that is combined": (combined(lambda at: f"{at}\tk{at}\t1\n"), ()),
}
UNITS = {"each byte of a part above 22": 250}
LITTLE = {"each bundle": 4}


def rule():
    """The rows of the table: what is counted, and its bytes."""
    text = (ROOT / "docs/using/PLAN.md").read_text()
    rows = dict(re.findall(r"^\| ([a-z][^|]*) \| (\d+) \|$", text[text.index("## Memory"):], re.M))
    return {name: int(rows[name]) for name in ("the run itself", *TRIED)}


def main():
    if len(sys.argv) != 2:
        sys.exit(__doc__)
    program, most, wrong = os.path.abspath(sys.argv[1]), rule(), 0
    with tempfile.TemporaryDirectory() as path:
        folder = pathlib.Path(path)
        for name, (words, beside) in TRIED.items():
            sizes = [LITTLE.get(name, 1) * size for size in SIZES]
            for size in sizes:
                taken = (most_memory(program, words(size, folder)) - most["the run itself"]) / size - sum(most[other] for other in beside)
                taken /= UNITS.get(name, 1)
                is_near = taken <= most[name] and (size != sizes[-1] or taken >= most[name] / 2)
                wrong += not is_near
                print(f"memory: {name}: {taken:.1f} of {most[name]} at {size}{'' if is_near else '  WRONG'}")
    print(f"memory: {wrong} wrong")
    return 1 if wrong else 0


if __name__ == "__main__":
    sys.exit(main())
