#!/usr/bin/env python3
"""Has reads, writes and openings of a built program fail, and counts how often it survived that and how often it told it.

    tests/outside_fails.py PROGRAM [--seconds N] [--processors N]

Each opening, each question for what a file is, each read and each write of several commands fails, once, as often as `--attempts` allows and
one time less, and from then on always: with an error of the system, with 0 bytes, or short. With fewer failures than attempts the whole text
is right, and so it is after short reads and writes. Else the note of status 5, 6 or 7 is, with no text but that which the writes before took.
Then files are cut short, replaced and removed under a run, and its streams are full, closed or given up. A run has to end within `--seconds`
(60). Needs `cc`, and takes a minute or two. The status is 1 where a run went wrong, and such runs are printed.
"""
import argparse
import collections
import errno
import json
import os
import re
import resource
import subprocess
import sys

from failing import ALL, ROOT, SOURCE_FAULT, Program, Ran, Table, each

ATTEMPTS = 3  # what a command has that doesn't say it
WORK_FAULT = re.compile(rb"work fault: node \d+ item \d+ at \d+ attempt (\d+) read\n")
NO_SOURCE = re.compile(rb'no source: "[^"]*"\n')
ERRORS = {
    "open": ["EIO", "EACCES", "EMFILE", "ENOENT", "EINTR"],
    "stat": ["EIO", "ENOENT"],
    "read": ["EIO", "EINTR", "none", "short"],
    "write": ["EIO", "ENOSPC", "EPIPE", "EINTR", "none", "short"],
}
RETRIED = [("open", "EINTR"), ("read", "EINTR")]  # the program's library makes these calls again, so they are no failures

# A run whose calls of a kind fail, so many from the first on; a write takes at most so many bytes. Else it prints the whole text. It is alone
# where its jobs are worked one after another, so that failures in a row are of one job.
Injection = collections.namedtuple("Injection", "call error words whole alone attempts most first times")


def commands(folder):
    """Commands that open, read and write, and whether each is alone."""
    folder.joinpath("plan.json").write_text((ROOT / "examples/replay/late/plan.json").read_text())
    folder.joinpath("drain").write_text("drain\n")
    lines = str(folder / "lines.tsv")
    for workers in ("1", "4"):
        alone = workers == "1"
        yield ["panes", lines, "60000", "--workers", workers], alone
        yield ["run", "examples/words/plan.json", "--workers", workers], alone
        yield ["run", "examples/two_sources/plan.json", "--workers", workers], False
        yield ["combine", "examples/access_log/plan.json", "--workers", workers], alone
    yield ["replay", str(folder / "plan.json"), str(folder / "drain")], True
    yield ["drill", "200", "7"], True
    yield ["make", "20", "7"], True


def injections(program, folder):
    """Each call of each command fails with each error, and once short, as often as tells."""
    for words, alone in commands(folder):
        whole = program.run(words).text
        for attempts in (1, ATTEMPTS, 5):
            if words[0] == "make" and attempts != ATTEMPTS:
                continue
            told = words if words[0] == "make" else [*words, "--attempts", str(attempts)]
            for call, errors in ERRORS.items():
                most = max(1, len(whole) // 20) if call == "write" else 0
                for first in range(program.run(told, call, most=most).calls):
                    for error in errors:
                        for times in sorted({1, attempts - 1, attempts, ALL} - {0}):
                            if times < ALL or (call, error) not in RETRIED:
                                yield Injection(call, error, told, whole, alone, attempts, most, first, times)


def row_of(injection):
    """The row of the table."""
    if injection.error == "short" or (injection.call, injection.error) in RETRIED:
        return f"{injection.call}: {injection.error}"
    often = {injection.attempts: "as often as may be", ALL: "always"}.get(injection.times, "less often")
    return f"{injection.call}: {injection.error}, {often}"


def inject(program, injection):
    call, error, words, *_, most, first, times = injection
    how = str(getattr(errno, error)) if error.startswith("E") else error
    return program.run(words, call, first, first + times, how, most)


def came_of(injection, ran):
    """What came of a run, of which a call failed."""
    call, error, words, whole, alone, attempts, most, first, _ = injection
    failures = 0 if error == "short" or (call, error) in RETRIED else ran.failed
    exactly = alone or call == "write"
    if ran.status == 0 and not ran.note and ran.text == whole:
        return "wrong" if exactly and failures >= attempts else "survived"
    if error == "ENOENT" and ran.status == 4:
        return "told" if not ran.text and NO_SOURCE.fullmatch(ran.note) else "wrong"
    if call == "write":
        told = (ran.status, ran.note) == (7, b"sink fault\n") and ran.text == whole[: first * most]
    elif words[0] == "replay" and ran.status == 0:
        told = call == "read" and ran.text.startswith(b"drain spent\n--\n")
    elif ran.status == 5:
        told = not ran.text and SOURCE_FAULT.fullmatch(ran.note)
    else:
        fault = WORK_FAULT.fullmatch(ran.note)
        told = not ran.text and ran.status == 6 and fault and int(fault[1]) == attempts
    return "told" if told and (failures == attempts if exactly else failures >= attempts) else "wrong"


class Files:
    """Two files of lines and a plan that reads both, of which the first is changed while a run stands still."""

    def __init__(self, folder, text):
        self.text = text
        self.first, self.second, self.plan = (folder / name for name in ("first.tsv", "second.tsv", "both.json"))
        nodes = [{"name": path.stem, "kind": "source", "work": "Lines", "files": [str(path)]} for path in (self.first, self.second)]
        nodes.append({"name": "both", "kind": "flatten", "input": ["first", "second"]})
        nodes.append({"name": "out", "kind": "write", "input": ["both"]})
        self.plan.write_text(json.dumps({"beam": 1, "nodes": nodes}))
        self.second.write_bytes(text)

    def restore(self):
        self.remove()
        self.first.write_bytes(self.text)

    def remove(self):
        if self.first.is_dir():
            self.first.rmdir()
        self.first.unlink(missing_ok=True)

    def change(self, how):
        if how == "cut short":
            os.truncate(self.first, len(self.text) // 2)
        elif how == "longer":
            os.truncate(self.first, len(self.text) + 9)
        elif how == "another one":
            other = self.first.with_suffix(".new")
            other.write_bytes(self.text)
            other.rename(self.first)
        else:
            self.remove()
            if how == "a folder":
                self.first.mkdir()


def changes(files):
    """A file that changes while a run stands still: how, before which call of which command, and the status and the note then."""
    name = json.dumps(str(files.first))
    absent = f"no source: {name}\n"
    read = r"work fault: node 0 item 0 at \d+ attempt 3 read\n"
    length = len(files.text)
    panes = ["panes", str(files.first), "60000", "--workers"]
    yield "removed", "before it is opened", [*panes, "1"], "open", 0, 4, absent
    yield "a folder", "before it is opened", [*panes, "1"], "open", 0, 6, read
    yield "removed", "at the second opening", [*panes, "4"], "stat", 2, 4, absent
    yield "a folder", "at the second opening", [*panes, "4"], "stat", 2, 5, "source fault: kit 1\n"
    yield "another one", "at the second opening", [*panes, "4"], "stat", 2, 0, ""
    yield "cut short", "at the second opening", [*panes, "4"], "stat", 2, 9, f"file changed: {name} {length} {length // 2}\n"
    yield "longer", "at the second opening", [*panes, "4"], "stat", 2, 9, f"file changed: {name} {length} {length + 9}\n"
    for workers in "14":
        yield "cut short", f"before it is read, by {workers}", [*panes, workers], "read", 0, 6, read
        yield "cut short", f"while it is read, by {workers}", [*panes, workers], "read", 1, 6, read
        yield "longer", f"before it is read, by {workers}", [*panes, workers], "read", 0, 0, ""
    both = ["run", str(files.plan), "--workers", "1"]
    for how in ("removed", "a folder", "another one", "cut short"):
        yield how, "at an opening anew", both, "stat", 6, 6, read
    yield "longer", "at an opening anew", both, "stat", 6, 0, ""


def change_files(program, table, files):
    for how, when, words, call, number, status, note in changes(files):
        files.restore()
        whole = program.run(words).text
        ran = program.run(words, call, number, number + 1, "stop", at_stop=lambda _run: files.change(how))
        right = ran.status == status and re.fullmatch(note.encode(), ran.note) and ran.text == (whole if status == 0 else b"")
        table.add(f"the file is {how} {when}", ("survived" if status == 0 else "told") if right else "wrong", words, ran)


def odd_files(program, table, files):
    """What is no file, where a source, a plan or a schedule is named, and files that are one too many for the system."""
    files.restore()
    pipe = program.folder / "pipe"
    os.mkfifo(pipe)
    for what, name in (("a folder", program.folder), ("a pipe", pipe), ("a device", "/dev/zero")):
        for place, words in (("source", ["panes", name, "60000"]), ("plan", ["run", name]), ("schedule", ["replay", files.plan, name])):
            ran = program.run(words)
            table.add(f"the {place} is {what}", "told" if ran[:3] == (5, b"", b"source fault: kit 0\n") else "wrong", words, ran)
    words = ["panes", files.first, "60000", "--workers", "4"]
    for kit in range(4):
        most = 3 + kit
        ran = program.run(words, "stat", 0, 1, "stop", at_stop=lambda run: resource.prlimit(run, resource.RLIMIT_NOFILE, (most, most)))
        table.add("the system opens no more files", "told" if ran[:3] == (5, b"", b"source fault: kit %d\n" % kit) else "wrong", words, ran)


def odd_streams(program, table, files):
    """Standard output that is full, closed, given up or bounded, and standard error that is."""
    files.restore()
    words = ["run", str(files.plan)]
    whole = program.run(words).text
    read_end, closed = os.pipe()
    os.close(read_end)
    kept = program.folder / "kept"
    bound = {"preexec_fn": lambda: resource.setrlimit(resource.RLIMIT_FSIZE, (5000, 5000)), "restore_signals": False}
    with open("/dev/full", "wb") as full, open(kept, "wb") as file:
        for row, streams in (
            ("a full device", {"stdout": full}),
            ("a closed pipe", {"stdout": closed}),
            ("closed", {"preexec_fn": lambda: os.close(1)}),
            ("a file that may not grow", {"stdout": file, **bound}),
        ):
            ran = program.run(words, **streams)
            right = (ran.status, ran.note) == (7, b"sink fault\n") and ran.text == b"" and whole.startswith(kept.read_bytes())
            table.add(f"standard output is {row}", "told" if right else "wrong", words, ran)
        for row, streams in (("a full device", {"stderr": full}), ("a closed pipe", {"stderr": closed}), ("closed", {"preexec_fn": lambda: os.close(2)})):
            for status, words in ((4, ["panes", "no/file", "60000"]), (2, ["run"]), (0, ["make", "20", "7"])):
                ran = program.run(words, **streams)
                right = ran.status == status and ran.text == (program.run(words).text if status == 0 else b"")
                table.add(f"standard error is {row}", "survived" if right else "wrong", words, ran)


def part_read(program, table, files):
    """A reader that takes a part of the text and ends."""
    files.restore()
    words = ["run", files.plan, "--workers", "1"]
    run = subprocess.Popen([program.name, *words], stdout=subprocess.PIPE, stderr=subprocess.PIPE)
    front = run.stdout.read(1000)
    run.stdout.close()
    note = run.stderr.read()
    ran = Ran(run.wait(program.seconds), front, note, 0, 0)
    table.add("standard output is read in part", "told" if ran[:3] == (7, front, b"sink fault\n") else "wrong", words, ran)


def main():
    reader = argparse.ArgumentParser(description=__doc__.split("\n")[0])
    reader.add_argument("program")
    reader.add_argument("--seconds", type=int, default=60)
    reader.add_argument("--processors", type=int, default=2)
    given = reader.parse_args()
    program = Program(given.program, given.seconds)
    text = program.run(["make", "20000", "7"]).text
    program.folder.joinpath("lines.tsv").write_bytes(text)
    table = Table()
    for injection, ran in each(given.processors, lambda injection: inject(program, injection), injections(program, program.folder)):
        if ran.failed:
            table.add(row_of(injection), came_of(injection, ran), [*injection.words, "call", injection.first], ran)
    files = Files(program.folder, text)
    for scenes in (change_files, odd_files, odd_streams, part_read):
        scenes(program, table, files)
    return table.print()


if __name__ == "__main__":
    sys.exit(main())
