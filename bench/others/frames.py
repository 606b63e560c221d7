#!/usr/bin/env python3
"""The jobs of run.py with pandas: frames.py JOB FILE"""
import csv
import sys

import pandas

MINUTE, GAP = 60_000, 10_000
GLOBAL = -9223372036854775, 9223372036854776


def order(texts):
    return sorted(texts, key=lambda text: (len(text), text))


def events(name, number=False):
    """Keys are categories in the order that is wanted, so that grouping sorts by it."""
    frame = pandas.read_csv(
        name, sep="\t", header=None, names=["time", "key", "part"], quoting=csv.QUOTE_NONE, na_filter=False, encoding="latin-1",
        dtype={"time": "int64", "key": "category", "part": "int64" if number else "str"},
    )
    frame["key"] = frame["key"].cat.reorder_categories(order(frame["key"].cat.categories), ordered=True)
    return frame


def with_minutes(frame):
    return frame.assign(start=frame["time"] - frame["time"] % MINUTE)


def write(rows):
    sys.stdout.writelines(f"{start}\t{end}\tON_TIME\t0\t{value}\n" for start, end, value in rows)


def write_groups(frame):
    frame = with_minutes(frame).assign(length=frame["part"].str.len()).sort_values(["start", "key", "length", "part"], kind="mergesort")
    parts = frame.groupby(["start", "key"], observed=True)["part"].agg('","'.join)
    write((start, start + MINUTE, f'("{key}",["{joined}"])') for (start, key), joined in zip(parts.index, parts.values))


def panes(name):
    write_groups(events(name))


def keep(name):
    frame = events(name)
    write_groups(frame[frame["key"].str.startswith("keep")])


def sums(name):
    totals = with_minutes(events(name, number=True)).groupby(["start", "key"], observed=True)["part"].sum()
    write((start, start + MINUTE, f'("{key}",{total})') for (start, key), total in zip(totals.index, totals.values))


def sessions(name):
    frame = events(name).sort_values(["key", "time"], kind="mergesort")
    begins = (frame["key"] != frame["key"].shift()) | (frame["time"] >= frame["time"].shift() + GAP)
    of_session = frame["time"].groupby(begins.cumsum().to_numpy())
    found = frame[begins].assign(end=of_session.last().to_numpy() + GAP, count=of_session.size().to_numpy()).sort_values(["time", "end", "key"])
    write((start, end, f'("{key}",{count})') for start, end, key, count in found[["time", "end", "key", "count"]].itertuples(index=False))


def words(name):
    with open(name, encoding="latin-1") as file:
        lines = pandas.Series(file.readlines())
    counts = lines.str.findall("[A-Za-z0-9]+").explode().value_counts()
    write((*GLOBAL, f'("{word}",{counts[word]})') for word in order(counts.index))


def main():
    job, name = sys.argv[1:]
    {"panes": panes, "keep": keep, "sums": sums, "sessions": sessions, "words": words}[job](name)


main()
