#!/usr/bin/env python3
"""The jobs of run.py in plain Python: groups.py JOB FILE"""
import re
import sys
from collections import Counter, defaultdict

MINUTE, GAP = 60_000, 10_000
GLOBAL = -9223372036854775, 9223372036854776


def order(text):
    return len(text), text


def events(file):
    for line in file:
        time, key, part = line.rstrip("\n").split("\t", 2)
        yield int(time), key, part


def pane(start, end, value):
    return f"{start}\t{end}\tON_TIME\t0\t{value}\n"


def grouped(lines):
    """The parts of each minute and key, in their order."""
    groups = defaultdict(list)
    for time, key, part in lines:
        groups[time - time % MINUTE, key].append(part)
    for start, key in sorted(groups, key=lambda group: (group[0], order(group[1]))):
        parts = '","'.join(sorted(groups[start, key], key=order))
        yield pane(start, start + MINUTE, f'("{key}",["{parts}"])')


def panes(file):
    return grouped(events(file))


def keep(file):
    return grouped(event for event in events(file) if event[1].startswith("keep"))


def sums(file):
    groups = defaultdict(int)
    for time, key, part in events(file):
        groups[time - time % MINUTE, key] += int(part)
    for start, key in sorted(groups, key=lambda group: (group[0], order(group[1]))):
        yield pane(start, start + MINUTE, f'("{key}",{groups[start, key]})')


def sessions(file):
    times = defaultdict(list)
    for time, key, _ in events(file):
        times[key].append(time)
    found = []
    for key, moments in times.items():
        moments.sort()
        first = last = moments[0]
        count = 0
        for moment in moments:
            if moment >= last + GAP:
                found.append((first, last + GAP, key, count))
                first, count = moment, 0
            last = moment
            count += 1
        found.append((first, last + GAP, key, count))
    found.sort(key=lambda session: (session[0], session[1], order(session[2])))
    return (pane(start, end, f'("{key}",{count})') for start, end, key, count in found)


def words(file):
    counts = Counter()
    for line in file:
        counts.update(re.findall("[A-Za-z0-9]+", line))
    return (pane(*GLOBAL, f'("{word}",{counts[word]})') for word in sorted(counts, key=order))


def main():
    job, name = sys.argv[1:]
    with open(name, encoding="latin-1") as file:
        sys.stdout.writelines({"panes": panes, "keep": keep, "sums": sums, "sessions": sessions, "words": words}[job](file))


main()
