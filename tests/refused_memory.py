#!/usr/bin/env python3
"""Refuses memory to a built program, and counts how often it survived that and how often it told it.

    tests/refused_memory.py PROGRAM [--seconds N] [--processors N]

`panes` and plans of `examples/`, one of them over 2000 lines, are run by one worker and by four. Each allocation is refused alone, and from each one on
all are. So is the start of each thread, and all that takes the process above a bound. A run has to end within `--seconds` (60): with
its whole text, or with no text and the note of status 8. Where it was the name of a file that found no place, the opening has failed, and the
note may be that of status 5. Needs `cc`, and takes some minutes. The status is 1 where a run went wrong, and such runs are printed.
"""
import argparse
import re
import resource
import sys

from failing import ALL, ROOT, SOURCE_FAULT, Program, Table, each

NO_MEMORY = "12"
NO_THREAD = "11"  # as where there may be no more threads
PART = re.compile(rb'"[^"]*"')


def commands(program):
    """What each command shows, its words, and whether its text is the same however it is worked."""
    lines = program.folder / "lines.tsv"
    lines.write_bytes(program.run(["make", "2000", "7"]).text)
    plan = program.folder / "plan.json"
    plan.write_text((ROOT / "examples/access_log/plan.json").read_text().replace("examples/access_log/access.tsv", str(lines)))
    return [
        ("panes", ["panes", "examples/visits.tsv", "60000"], True),
        ("a group", ["run", "examples/late/plan.json"], True),
        ("a stateful node", ["run", "examples/state/once/plan.json"], True),
        ("sessions", ["run", "examples/sessions/plan.json"], True),
        ("accumulating early panes", ["run", "examples/modes/plan.json"], False),
        ("two sources", ["run", "examples/two_sources/plan.json"], True),
        ("2000 lines", ["run", str(plan)], True),
    ]


def told_of(text, same):
    """The text, or where commits decide its panes which parts are in each window."""
    if same:
        return text
    lines = [line.split(b"\t") for line in text.splitlines()]
    return {(*line[:-3], part) for line in lines for part in PART.findall(line[-1])}


def came_of(ran, whole, same):
    if ran.status == 0 and not ran.note and ran.text.endswith(b"\n") and told_of(ran.text, same) == told_of(whole, same):
        return "survived"
    if not ran.text and ((ran.status, ran.note) == (8, b"no memory\n") or (ran.status == 5 and SOURCE_FAULT.fullmatch(ran.note))):
        return "told"
    return "wrong"


def bounded(size):
    """Has a process take so many bytes of memory at most."""
    return lambda: resource.setrlimit(resource.RLIMIT_AS, (size, size))


def bounds(program):
    """Bounds from the least that the program can be loaded with to 1 GB."""
    size = 1 << 20
    while size < 1 << 30:
        if program.run(["help"], preexec_fn=bounded(size)).status == 0:
            yield size
        size += size // 50


def injections(program, words):
    """What is refused, and how a run has it refused."""
    for number in range(program.run(words, "memory").calls):
        yield "one allocation", {"call": "memory", "first": number, "last": number + 1, "how": NO_MEMORY}
        yield "all from one on", {"call": "memory", "first": number, "last": ALL, "how": NO_MEMORY}
    for number in range(program.run(words, "thread").calls):
        yield "one thread", {"call": "thread", "first": number, "last": number + 1, "how": NO_THREAD}
        yield "all threads from one on", {"call": "thread", "first": number, "last": ALL, "how": NO_THREAD}
    for size in bounds(program):
        yield "all above a bound of the process", {"preexec_fn": bounded(size)}


def main():
    reader = argparse.ArgumentParser(description=__doc__.split("\n")[0])
    reader.add_argument("program")
    reader.add_argument("--seconds", type=int, default=60)
    reader.add_argument("--processors", type=int, default=2)
    given = reader.parse_args()
    program = Program(given.program, given.seconds)
    table = Table()
    for name, command, same in commands(program):
        whole = program.run([*command, "--workers", "1"]).text
        for workers in ("1", "4"):
            words = [*command, "--workers", workers]
            for (what, how), ran in each(given.processors, lambda run: program.run(words, **run[1]), injections(program, words)):
                if ran.failed or "preexec_fn" in how:
                    table.add(f"{name}, by {workers}: {what}", came_of(ran, whole, same), [*words, how], ran)
    return table.print()


if __name__ == "__main__":
    sys.exit(main())
