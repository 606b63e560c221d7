#!/usr/bin/env python3
"""Times five jobs by the program, and by what people would use instead: bench/others/run.py [PROGRAM]

    bench/others/run.py ./beam_run --megabytes 20 --rounds 3 --jobs panes,sums --tools "beam_run|mawk" --processor

panes     lines grouped by key and minute, with all parts: `panes FILE 60000`
keep      the same of the keys that begin with "keep", one in a hundred
sums      the bytes of each path and minute of an access log
sessions  how many lines each session of a key has, with a gap of ten seconds
words     how often each word comes

All tools of a job take turns. Each has to print the same bytes as the first one. Given are the best seconds, from start to end, with the output in a
file, and the peak memory of the largest process in MB. With --processor the seconds are those of processors, of all threads and processes together: on a
busy machine these tell more. What isn't installed is left out: mawk, gawk, Miller, python3, pandas and java.
"""
import argparse
import filecmp
import json
import os
import pathlib
import random
import re
import shutil
import subprocess
import sys
import tempfile

HERE = pathlib.Path(__file__).resolve().parent
JOBS = {"panes": "events", "keep": "events", "sums": "access", "sessions": "events", "words": "text"}
LETTERS = "abcdefghijklmnopqrstuvwxyz0123456789"


# ---- inputs, the same for the same size


def events(choose, part):
    """Lines 10 ms apart and up to 4 s out of order, of a thousand keys, of which the first ones come more often."""
    time = 1_700_000_000_000
    while True:
        time += 10
        key = int(1000 * choose.random() ** 2)
        name = f"keep{key}" if choose.random() < 0.01 else f"user{key}"
        yield f"{time - int(4000 * choose.random())}\t{name}\t{part(choose)}\n"


def some_text(choose):
    return "v" + "".join(choose.choices(LETTERS, k=choose.randrange(8, 24)))


def some_bytes(choose):
    return str(choose.randrange(1, 100_000))


def text(choose):
    vocabulary = ["".join(choose.choices(LETTERS[:26], k=choose.randrange(2, 11))) for _ in range(50_000)]
    while True:
        line = [vocabulary[int(50_000 * choose.random() * choose.random() ** 2)] for _ in range(choose.randrange(6, 14))]
        yield " ".join(line) + choose.choice([".\n", ", then\n", "\n"])


def write_input(path, name, size):
    choose = random.Random(7)
    lines = {"events": lambda: events(choose, some_text), "access": lambda: events(choose, some_bytes), "text": lambda: text(choose)}[name]()
    with open(path, "w") as file:
        written = 0
        while written < size:
            written += file.write(next(lines))


# ---- the plans


def plan(job, path):
    nodes = [{"name": "in", "kind": "source", "work": "Lines" if job == "words" else "TimedLines", "files": [str(path)]}]

    def add(kind, **keys):
        nodes.append({"name": f"n{len(nodes)}", "kind": kind, "input": [nodes[-1]["name"]], **keys})

    if job == "words":
        add("pardo", work="Words")
    if job == "keep":
        add("pardo", work="KeepPrefix", text="keep")
    add("pardo", work="KeyField")
    if job == "sums":
        add("pardo", work="FieldInt")
    if job != "words":
        add("window", windows={"sessions": 10_000} if job == "sessions" else {"fixed": 60_000})
    add("group")
    if job in ("sums", "sessions", "words"):
        add("pardo", work="SumSeq" if job == "sums" else "CountSeq")
    add("write")
    return json.dumps({"beam": 1, "nodes": nodes})


# ---- the tools


def has_pandas(python):
    return subprocess.run([python, "-c", "import pandas"], stderr=subprocess.DEVNULL).returncode == 0


def tools(program, job, path, folder):
    """The words of each tool for the job."""
    if job == "panes":
        words = [program, "panes", path, "60000"]
    else:
        (folder / f"{job}.json").write_text(plan(job, path))
        words = [program, "run", str(folder / f"{job}.json")]
    found = {f"beam_run, {count} worker{'s' * (count > 1)}": [*words, "--workers", str(count)] for count in (1, 4)}
    if job in ("sums", "words"):
        combine = [program, "combine", *words[2:]]
        found |= {f"combine, {count} worker{'s' * (count > 1)}": [*combine, "--workers", str(count)] for count in (1, 4)}
    for awk in ("mawk", "gawk"):
        if shutil.which(awk):
            found[f"{awk} and sort"] = [str(HERE / "awk.sh"), awk, job, path]
    if shutil.which("mlr"):
        found["Miller"] = [str(HERE / "miller.sh"), job, path]
    found["python"] = [sys.executable, str(HERE / "groups.py"), job, path]
    for python in filter(has_pandas, dict.fromkeys([sys.executable, "/usr/bin/python3"])):
        found.setdefault("pandas", [python, str(HERE / "frames.py"), job, path])
    if shutil.which("javac"):
        if not (folder / "Groups.class").exists():
            subprocess.run(["javac", "-d", str(folder), str(HERE / "Groups.java")], check=True)
        found["java"] = ["java", "-cp", str(folder), "Groups", job, path]
    return found


def run_once(words, out, of_processor):
    """Seconds, and MB of the largest process."""
    with open(out, "wb") as file, tempfile.NamedTemporaryFile("r") as told:
        done = subprocess.run(["/usr/bin/time", "-o", told.name, "-f", "%e %U %S %M", *words], stdout=file)
        if done.returncode:
            sys.exit(f"others: {' '.join(words)} ended with {done.returncode}")
        seconds, user, system, memory = map(float, told.read().split())
    return user + system if of_processor else seconds, memory / 1024


def measure(found, rounds, folder, of_processor):
    """The best seconds and the most memory of each tool."""
    best, first = {}, folder / "first"
    for at in range(rounds):
        names = list(found)
        if at:
            random.Random(at).shuffle(names)
        for name in names:
            seconds, memory = run_once(found[name], folder / "out", of_processor)
            if not first.exists():
                os.replace(folder / "out", first)
            elif not filecmp.cmp(first, folder / "out", shallow=False):
                sys.exit(f"others: {name} prints something else: {first} and {folder / 'out'}")
            least, most = best.get(name, (seconds, memory))
            best[name] = min(least, seconds), max(most, memory)
    first.unlink()
    return best


def main():
    words = argparse.ArgumentParser(description=__doc__.splitlines()[0])
    words.add_argument("program", nargs="?", default=str(HERE.parents[1] / "beam_run"))
    words.add_argument("--megabytes", type=int, default=20)
    words.add_argument("--rounds", type=int, default=3)
    words.add_argument("--jobs", default=",".join(JOBS))
    words.add_argument("--tools", default="", help="a regular expression; only tools whose names have it are run")
    words.add_argument("--processor", action="store_true", help="tell the seconds of processors")
    given = words.parse_args()
    program = os.path.abspath(given.program)
    subprocess.run([program, "help"], stdout=subprocess.DEVNULL, check=True)
    with tempfile.TemporaryDirectory() as name:
        folder, table = pathlib.Path(name), {}
        for job in given.jobs.split(","):
            path = folder / JOBS[job]
            if not path.exists():
                write_input(path, JOBS[job], given.megabytes * 1_000_000)
            found = {name: words for name, words in tools(program, job, str(path), folder).items() if re.search(given.tools, name)}
            table[job] = measure(found, given.rounds, folder, given.processor)
            print(f"{job}: all print the same", file=sys.stderr, flush=True)
    print("| seconds, MB | " + " | ".join(table) + " |\n|" + "---|" * (len(table) + 1))
    for name in dict.fromkeys(name for best in table.values() for name in best):
        cells = ("{:.2f}, {:.0f}".format(*best[name]) if name in best else "" for best in table.values())
        print(f"| {name} | " + " | ".join(cells) + " |")


if __name__ == "__main__":
    main()
