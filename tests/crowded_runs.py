#!/usr/bin/env python3
"""Runs small jobs by many workers on a machine that has other work, and compares each with the run by one worker.

    tests/crowded_runs.py ./beam_run [--runs N] [--seed S] [--loops N] [--seconds N] [--most N]

Each run takes one of four jobs at random, 2 to 16 workers, bundles of 1 to 64 elements and chunks of 64 to 65536 bytes, and is
preceded by a run by one worker with the same options. Both have to print the same bytes and to end within `--seconds`. `--loops`
endless loops keep processors busy meanwhile (four). Printed are the shares of the times, and the worst, of runs by one worker of at
least a hundredth of a second. The status is 1 where two texts differ, a run doesn't end, or one takes more than `--most` times (10)
as long as by one worker.
"""
import argparse
import json
import multiprocessing
import os
import pathlib
import random
import subprocess
import sys
import tempfile
import time

WORKERS = [2, 3, 4, 6, 8, 12, 16]
BUNDLES = [1, 2, 3, 8, 64]
LEAST_SECONDS = 0.01


def spin():
    while True:
        pass


def write_lines(choose, name, count):
    lines = (f"{index * 10 + choose.randrange(4000)}\tk{choose.randrange(100)}\t{index}\n" for index in range(count))
    pathlib.Path(name).write_text("".join(lines))


def write_plan(name, windows, functions):
    nodes = [{"name": "in", "kind": "source", "work": "TimedLines", "files": ["lines.tsv"]}]
    for work, keys in functions:
        nodes.append({"name": f"n{len(nodes)}", "kind": "pardo", "work": work, "input": [nodes[-1]["name"]], **keys})
    nodes.append({"name": "window", "kind": "window", "windows": windows, "input": [nodes[-1]["name"]]})
    nodes.append({"name": "group", "kind": "group", "input": ["window"]})
    nodes.append({"name": "out", "kind": "write", "input": ["group"]})
    pathlib.Path(name).write_text(json.dumps({"beam": 1, "nodes": nodes}))


def jobs():
    choose = random.Random(7)
    write_lines(choose, "lines.tsv", 8000)
    write_plan("filter.json", {"fixed": 60000}, [("KeepPrefix", {"text": "k7"}), ("KeyField", {})])
    write_plan("sessions.json", {"sessions": 500}, [("KeyField", {})])
    write_plan("sliding.json", {"sliding": [60000, 20000]}, [("KeyField", {})])
    return [["panes", "lines.tsv", "60000"], ["run", "filter.json"], ["run", "sessions.json"], ["run", "sliding.json"]]


def timed(program, words, seconds):
    """The text of a run and how long it took, or no text where it doesn't end."""
    start = time.perf_counter()
    try:
        done = subprocess.run([program, *words], capture_output=True, timeout=seconds)
    except subprocess.TimeoutExpired:
        return None, seconds
    return (done.returncode, done.stdout, done.stderr), time.perf_counter() - start


def options(choose):
    return ["--bundle", str(choose.choice(BUNDLES)), "--chunk", str(2 ** choose.randrange(6, 17))]


def compare(program, runs, seed, seconds):
    """The shares of the times, and how many runs differ or don't end."""
    kinds, shares, wrong = jobs(), [], 0
    for number in range(runs):
        choose = random.Random(seed + number)
        words = choose.choice(kinds) + options(choose)
        workers = choose.choice(WORKERS)
        alone, least = timed(program, [*words, "--workers", "1"], seconds)
        many, took = timed(program, [*words, "--workers", str(workers)], seconds)
        if many is None or alone is None or many != alone:
            wrong += 1
            print(f"seed {seed + number}: {' '.join(words)} --workers {workers}: {'differs' if many and alone else 'does not end'}", flush=True)
        elif least >= LEAST_SECONDS:
            shares.append((took / least, seed + number, workers, words, least))
    return sorted(shares), wrong


def main():
    words = argparse.ArgumentParser(description=__doc__.splitlines()[0])
    words.add_argument("program", help="the built program")
    words.add_argument("--runs", type=int, default=10_000)
    words.add_argument("--seed", type=int, default=1)
    words.add_argument("--loops", type=int, default=4)
    words.add_argument("--seconds", type=float, default=120)
    words.add_argument("--most", type=float, default=10)
    given = words.parse_args()
    program = os.path.abspath(given.program)
    loops = [multiprocessing.Process(target=spin, daemon=True) for _ in range(given.loops)]
    for loop in loops:
        loop.start()
    with tempfile.TemporaryDirectory() as folder:
        os.chdir(folder)
        shares, wrong = compare(program, given.runs, given.seed, given.seconds)
        os.chdir("/")
    for loop in loops:
        loop.kill()
    if shares:
        at = lambda part: shares[min(len(shares) - 1, int(len(shares) * part))][0]
        print(f"times one worker: median {at(0.5):.2f}, nine of ten below {at(0.9):.2f}, 999 of 1000 below {at(0.999):.2f}")
        for share, seed, workers, job, least in shares[-5:]:
            print(f"  {share:.1f}: seed {seed}, {' '.join(job)} --workers {workers}, one worker {least:.3f} s")
    slow = sum(share > given.most for share, *_ in shares)
    print(f"{given.runs} runs, {wrong} differ or do not end, {slow} take more than {given.most:g} times one worker")
    return 1 if wrong or slow else 0


if __name__ == "__main__":
    sys.exit(main())
