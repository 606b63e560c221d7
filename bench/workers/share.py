#!/usr/bin/env python3
"""How long jobs take by several workers, times one worker: bench/workers/share.py PROGRAM [--mb N] [--runs N] [--loops N] [JOB ..]

Each job is run by 1, 2, 4, 8 and 16 workers in shuffled order, `--runs` times (5), beside `--loops` endless loops (0). Printed are, for
each number of workers, the best and the median time over those of one worker, then how often files were read by four workers at most
for one read by one. All texts of a job have to be the same; the status is 1 where they aren't.
"""
import argparse
import json
import multiprocessing
import os
import pathlib
import random
import statistics
import subprocess
import sys
import tempfile
import time

WORKERS = [1, 2, 4, 8, 16]


def spin():
    while True:
        pass


def write_timed(choose, name, size, key, value):
    lines, written, moment = [], 0, 1_700_000_000_000
    while written < size:
        moment += 10
        lines.append(f"{moment - choose.randrange(4000)}\t{key(len(lines))}\t{value(len(lines))}\n")
        written += len(lines[-1])
    pathlib.Path(name).write_text("".join(lines))


def write_words(choose, name, size):
    words = ["".join(choose.choices("abcdefghijklmnopqrstuvwxyz", k=choose.randrange(2, 11))) for _ in range(50_000)]
    lines, written = [], 0
    while written < size:
        picked = (words[int(len(words) * choose.random() * choose.random() * choose.random())] for _ in range(choose.randrange(6, 14)))
        lines.append(" ".join(picked) + "\n")
        written += len(lines[-1])
    pathlib.Path(name).write_text("".join(lines))


def write_plan(name, source, *nodes):
    made = [{"name": "in", "kind": "source", **source}]
    for number, node in enumerate([*nodes, {"kind": "write"}]):
        made.append({"name": f"n{number}", "input": [made[-1]["name"]], **node})
    pathlib.Path(name).write_text(json.dumps({"beam": 1, "nodes": made}))
    return ["run", name]


def function(work, **settings):
    return {"kind": "pardo", "work": work, **settings}


def jobs_of(size):
    """The words of each command, by its name. Files are written to the current folder."""
    choose = random.Random(7)
    timed, text = {"work": "TimedLines", "files": ["lines"]}, {"work": "Lines", "files": ["text"]}
    write_timed(choose, "lines", size, lambda at: f"user{choose.randrange(1000)}", lambda at: f"value{at}")
    write_timed(choose, "access", size, lambda at: f"/page/{choose.randrange(200)}", lambda at: choose.randrange(1, 100_000))
    write_timed(choose, "one_in_a_hundred", size, lambda at: f"{'drop' if at % 100 else 'keep'}{at % 16}", lambda at: f"value{at % 1000}")
    write_timed(choose, "small", size / 10, lambda at: f"k{at % 100}", lambda at: f"v{at}")
    write_words(choose, "text", size)
    minute, group, everything = {"kind": "window", "windows": {"fixed": 60000}}, {"kind": "group"}, {"kind": "window", "windows": "global"}
    counted = [everything, group, function("CountSeq")]
    access = {"work": "TimedLines", "files": ["access"], "estimator": {"lag": 5000}}
    kept = {"work": "TimedLines", "files": ["one_in_a_hundred"]}
    return {
        "panes": ["panes", "lines", "60000"],
        "sum": write_plan("sum", access, function("KeyField"), function("FieldInt"), minute, group, function("SumSeq")),
        "drill": ["drill", str(int(size / 100)), "7"],
        "lines": write_plan("count", text, *counted),
        "words": write_plan("words", text, function("Words"), *counted),
        "wordcount": write_plan("wordcount", text, function("Words"), function("KeyField"), *counted),
        "filter": write_plan("filter", kept, function("KeepPrefix", text="keep"), function("KeyField"), minute, group),
        "much_work": write_plan("much_work", text, function("Words"), function("KeepPrefix", text="zzzz"), *counted),
        "sessions": write_plan("sessions", timed, function("KeyField"), {"kind": "window", "windows": {"sessions": 5000}}, group, function("CountSeq")),
        "bundle1": ["panes", "small", "60000", "--bundle", "1"],
        "tiny_chunk": ["panes", "small", "60000", "--chunk", "16"],
    }


def run(program, words, workers):
    """Seconds, the text, and how many reads the process made."""
    start = time.perf_counter()
    process = subprocess.Popen([program, *words, "--workers", str(workers)], stdout=open("out", "wb"))
    os.waitid(os.P_PID, process.pid, os.WEXITED | os.WNOWAIT)
    seconds = time.perf_counter() - start
    counts = dict(line.split(": ") for line in pathlib.Path(f"/proc/{process.pid}/io").read_text().splitlines())
    if process.wait() != 0:
        sys.exit(f"{' '.join(words)} ended with {process.returncode}")
    return seconds, pathlib.Path("out").read_bytes(), int(counts["syscr"])


def measure(program, words, runs, choose):
    times, texts, reads = {count: [] for count in WORKERS}, set(), dict.fromkeys(WORKERS, 0)
    for _ in range(runs):
        for count in choose.sample(WORKERS, len(WORKERS)):
            seconds, text, calls = run(program, words, count)
            reads[count] = max(reads[count], calls)
            times[count].append(seconds)
            texts.add(text)
    return times, len(texts) == 1, reads


def main():
    options = argparse.ArgumentParser(description=__doc__, formatter_class=argparse.RawDescriptionHelpFormatter)
    options.add_argument("program")
    options.add_argument("jobs", nargs="*")
    options.add_argument("--mb", type=float, default=20)
    options.add_argument("--runs", type=int, default=5)
    options.add_argument("--loops", type=int, default=0)
    given = options.parse_args()
    program = os.path.abspath(given.program)
    loops = [multiprocessing.Process(target=spin, daemon=True) for _ in range(given.loops)]
    with tempfile.TemporaryDirectory() as folder:
        os.chdir(folder)
        jobs = jobs_of(given.mb * 1e6)
        for loop in loops:
            loop.start()
        print("job: one worker's best, then for each number of workers best / median over it" + "; reads by 4 for 1")
        equal = True
        for name in given.jobs or jobs:
            times, same, reads = measure(program, jobs[name], given.runs, random.Random(1))
            equal &= same
            best, median = min(times[1]), statistics.median(times[1])
            shares = [f"{count}: {min(times[count]) / best:.2f} / {statistics.median(times[count]) / median:.2f}" for count in WORKERS[1:]]
            print(f"{name:11} {best:6.3f} s | {' | '.join(shares)} | {reads[4] / reads[1]:.2f}{'' if same else ' TEXTS DIFFER'}", flush=True)
        for loop in loops:
            loop.terminate()
        os.chdir("/")
    sys.exit(0 if equal else 1)


main()
