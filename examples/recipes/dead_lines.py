#!/usr/bin/env python3
"""Finds the lines that a run set aside: dead_lines.py list|take PLAN TEXT

TEXT is what `run PLAN` printed, or - for standard input. The files of the plan have to be as they were then.
`list` prints each line with its file, its number there, and the node that couldn't take it. `take` prints the lines alone,
byte for byte, each with its line end. What stands on standard error is no line of a file; the status is then 1.
"""
import json
import os
import sys


def positions_of(text):
    """The dead positions of a text: the places of their source and file, the offset, and the place of the node that failed."""
    for line in text:
        if not line.endswith(b"\n"):
            sys.exit("the text was cut: its last line has no end")
        fields = line.split(b"\t")
        if fields[0] == b"dead" and len(fields) == 5:
            yield tuple(map(int, fields[1:]))


def lines_at(name, offsets):
    """The lines that begin at these offsets of a file, with their numbers. The offsets ascend."""
    offsets, at = iter(offsets), 0
    wanted = next(offsets, None)
    with open(name, "rb") as file:
        for number, line in enumerate(file, 1):
            if wanted is None:
                return
            while wanted is not None and wanted < at + len(line):
                yield (number, line) if wanted == at else (number, None)
                wanted = next(offsets, None)
            at += len(line)
    while wanted is not None:
        yield None, None
        wanted = next(offsets, None)


def nodes_of(plan):
    """The nodes by the numbers that a run prints. A node `side` has five of them."""
    nodes = json.load(open(plan, encoding="utf-8"))["nodes"]
    return [node for node in nodes for _ in range(5 if node.get("kind") == "side" else 1)]


def main():
    words = sys.argv[1:]
    if len(words) != 3 or words[0] not in ("list", "take"):
        sys.exit(__doc__)
    command, plan, text = words
    nodes = nodes_of(plan)
    with sys.stdin.buffer if text == "-" else open(text, "rb") as file:
        dead = list(positions_of(file))
    if any(max(node, at) >= len(nodes) or item >= len(nodes[node].get("files", [0])) for node, item, _, at in dead):
        sys.exit(f"{text}: isn't what {plan} printed")
    by_file = {}
    for node, item, offset, at in dead:
        by_file.setdefault((node, item), []).append((offset, at))
    out, status = sys.stdout.buffer, 0
    for (node, item), found in by_file.items():
        files = nodes[node].get("files")
        if files is None:
            print(f"{nodes[node]['name']}: has no file, its positions are {', '.join(str(offset) for offset, _ in found)}", file=sys.stderr)
            status = 1
            continue
        for (offset, at), (number, line) in zip(found, lines_at(files[item], [offset for offset, _ in found])):
            if line is None:
                print(f"{files[item]}: no line begins at {offset}", file=sys.stderr)
                status = 1
            elif command == "take":
                out.write(line if line.endswith(b"\n") else line + b"\n")
            else:
                shown = line.removesuffix(b"\n").removesuffix(b"\r")
                out.write(f"{files[item]}:{number}: {nodes[at]['name']}: ".encode() + shown + b"\n")
    out.flush()
    return status


if __name__ == "__main__":
    try:
        sys.exit(main())
    except BrokenPipeError:
        os._exit(141)
    except OSError as fault:
        sys.exit(str(fault))
    except (ValueError, LookupError, TypeError):
        sys.exit(f"{sys.argv[2]}: no plan")
