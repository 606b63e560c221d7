#!/usr/bin/env python3
"""Runs the commands that the documents show, and compares: tests/sessions.py PROGRAM [DRAWING PROGRAM]

A command is a line `$ ..` of a block, with the lines below it that it needs to be whole; what stands below is what it
writes, where a last line `..` leaves the rest out. PROGRAM stands for ./beam_run. The commands of a document run one
after another in a folder that looks like the top of the repository. Where `cat NAME` or `head -N NAME` is shown of a file
that isn't there, what is shown is the file: so documents tell of their inputs. A command inside a line of text, of those
that `WITHIN` names and without words in capitals but between quotes, has to end with status 0. From a command on whose tool isn't here, the rest of its
document isn't run, and the last line says so.
"""
import os
import pathlib
import re
import shutil
import subprocess
import sys
import tempfile

ROOT = pathlib.Path(__file__).resolve().parent.parent
TOOLS = ("jq", "mlr", "gnuplot", "mawk", "gawk", "xxd", "dot", "iconv", "python3", "awk")
SHOWN = re.compile(r"(?:cat|head -(?:n )?\d+) ([A-Za-z0-9_.-]+)")
WITHIN = re.compile(r"`((?:\./beam_run (?:run|combine|panes|replay|make|drill)|awk -F\S+|df|grep|iconv|jq|mlr|sed|tests/plans.sh) [^`]*)`")


def blocks(lines):
    """The blocks of a document and the commands within its lines: line number, lines without their indent."""
    block, fence, blank = None, False, True
    for number, line in enumerate([*lines, ""], 1):
        if line.lstrip().startswith("```"):
            fence = not fence
            if block:
                yield block
            block = (number + 1, []) if fence else None
        elif fence or ((blank or block) and line.startswith("    ")):
            block = block or (number, [])
            block[1].append(line)
        else:
            if block:
                yield block
            block = None
            for command in WITHIN.findall(line):
                if not re.search(r"\b[A-Z]{2,}\b", re.sub("'[^']*'", "", command)):
                    yield number, ["$ " + command, None]
        blank = not line.strip()


def is_whole(command):
    done = subprocess.run(["bash", "-nc", command], capture_output=True)
    return done.returncode == 0 and not done.stderr


def sessions(block):
    """Each command of a block: its line number, itself, and the lines that are shown of what it writes."""
    number, lines = block
    if None not in lines:
        indent = min((len(line) - len(line.lstrip(" ")) for line in lines if line.strip()), default=0)
        lines = [line[indent:] for line in lines]
    at = 0
    while at < len(lines):
        if lines[at] is None or not lines[at].startswith("$ "):
            at += 1
            continue
        start, command = at, lines[at][2:]
        at += 1
        while not is_whole(command) and at < len(lines):
            command += "\n" + lines[at]
            at += 1
        shown = []
        while at < len(lines) and (lines[at] is None or not lines[at].startswith("$ ")):
            shown.append(lines[at])
            at += 1
        yield number + start, command, shown


def is_as_shown(shown, got):
    lines = got.split("\n")
    if not got.endswith("\n") and got:
        return False
    if shown and shown[-1] == "..":
        return lines[: len(shown) - 1] == shown[:-1]
    return lines[:-1] == shown


class Folder:
    """A folder that looks like the top of the repository."""

    def __init__(self, path, programs):
        self.path = path
        for entry in ROOT.iterdir():
            if entry.name not in (".git", "beam_run", "beam_draw"):
                (path / entry.name).symlink_to(entry)
        for name, program in zip(("beam_run", "beam_draw"), programs):
            (path / name).symlink_to(pathlib.Path(program).resolve())
        self.env = {**os.environ, "LC_ALL": "C.UTF-8", "BEAM_RUN": str(path / "beam_run")}

    def run(self, command):
        done = subprocess.run(
            ["bash", "-c", command], cwd=self.path, env=self.env, stdin=subprocess.DEVNULL,
            stdout=subprocess.PIPE, stderr=subprocess.STDOUT, timeout=300,
        )
        return done.returncode, done.stdout.decode("utf-8", "backslashreplace")


def missing_tool(command, programs):
    if "./beam_draw" in command and len(programs) < 2:
        return "./beam_draw"
    return next((tool for tool in TOOLS if re.search(rf"\b{tool}\b", command) and not shutil.which(tool)), None)


def run_document(name, programs, counts):
    """The faults of a document, and how many of its commands were run."""
    found = [session for block in blocks((ROOT / name).read_text().splitlines()) for session in sessions(block)]
    if not found:
        return
    with tempfile.TemporaryDirectory() as path:
        folder = Folder(pathlib.Path(path), programs)
        for number, command, shown in found:
            tool = missing_tool(command, programs)
            if tool:
                counts["not run"].append(f"{name}:{number} on, for want of {tool}")
                return
            made = SHOWN.fullmatch(command)
            if made and not (folder.path / made[1]).exists():
                (folder.path / made[1]).write_text("".join(line + "\n" for line in shown))
            status, got = folder.run(command)
            counts["run"] += 1
            if None in shown:
                if status:
                    yield f"{name}:{number}: {command} ends with status {status}: {got[:200]}"
            elif not is_as_shown(shown, got):
                yield f"{name}:{number}: this writes something else: {command}\n" + "".join(f"    {line}\n" for line in got.splitlines()[:20])


def main():
    programs = sys.argv[1:]
    if not 1 <= len(programs) <= 2:
        sys.exit(__doc__)
    documents = sorted(
        str(path.relative_to(ROOT)) for path in ROOT.rglob("*.md") if not {"out", ".git"} & set(path.relative_to(ROOT).parts)
    )
    counts = {"run": 0, "not run": []}
    faults = [fault for name in documents for fault in run_document(name, programs, counts)]
    for fault in faults:
        print(fault.rstrip("\n"))
    for rest in counts["not run"]:
        print(f"sessions: not run: {rest}")
    print(f"sessions: {counts['run']} commands run, {len(faults)} wrong")
    return 1 if faults else 0


if __name__ == "__main__":
    sys.exit(main())
