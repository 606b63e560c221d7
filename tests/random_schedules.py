#!/usr/bin/env python3
"""Runs random small plans under random schedules, and compares what `replay` prints with what it should.

    tests/random_schedules.py ./beam_run [--runs N] [--seed S] [--seconds N] [--dead] [--three]

A schedule is random lines that are allowed where they stand, by up to four slots: takes, claims, runs, splits, commits, tries that fail. Then
each slot gives up or commits what it has, and the rest is drained. Each schedule is run twice, the second time with the drain spelled out in
single lines. Compared are
- both texts, line by line, with those of tests/replay_model.py, which also says what is allowed and what a drain does;
- the two texts behind their first `--`: the ranges and what is written are the same;
- where the rules determine the whole text of a plan (random_runs.py: `text`), what is written with what `run` prints; from version 2 on
  only if the schedule sets aside what a run does, since a line `fail` may set aside a good position too.

With `--dead` all plans are of version 2, and with `--three` of version 3.

Run number i is made from the seed S + i alone, so `--runs 1 --seed` with the seed of a difference repeats it; the plan, both schedules and what
was wanted stay in a folder that is named then. The status is 1 where there was any difference.
"""
import argparse
import pathlib
import random
import subprocess
import sys
import tempfile

import random_runs
import replay_model
import run_model


class Schedule:
    """Lines that grow beside the model, which works each of them as it comes."""

    def __init__(self, replay):
        self.replay, self.lines, self.printed = replay, [], []

    def add(self, line):
        self.lines.append(line)
        self.printed.append(self.replay.do(len(self.lines), line))

    def with_drain(self):
        return text_of([*self.lines, "drain"])

    def with_lines(self):
        """The same with the lines that the drain stands for: what each prints begins with it."""
        return text_of(self.lines + [" ".join(printed.split(" ")[:2]) for printed in self.replay.drained()])


def text_of(lines):
    return "".join(line + "\n" for line in lines).encode()


def random_line(choose, replay):
    slot = choose.randrange(len(replay.works))
    work = replay.works[slot]
    name = choose.choice([f"{slot}", f"{slot}", f"{slot:02}"])
    if choose.random() < 0.12:
        whole = choose.choice([1, 2, 3, 10, 1000000])
        return f"split {name} {choose.randint(0, whole)} {whole}"
    if work is None:
        return f"take {name}"
    if (choose.random() < 0.06 or work.fault) and work.may_fail():
        return f"fail {name}"
    if work.may_run():
        return f"run {name}"
    if work.may_claim() and choose.random() < 0.8:
        return f"claim {name}"
    return f"commit {name}"


def random_schedule(choose, replay):
    schedule = Schedule(replay)
    for _ in range(choose.choice([0, 5, 20, 60, 120])):
        if replay.is_stopped or replay.is_finished():
            break
        schedule.add(random_line(choose, replay))
    for slot in range(len(replay.works)):
        settle(choose, schedule, slot)
    return schedule


def settle(choose, schedule, slot):
    """Lines after which the slot has no job."""
    work = schedule.replay.works[slot]
    if work is not None and work.may_run() and choose.random() < 0.8:
        schedule.add(f"run {slot}")
    if work is not None:
        schedule.add(f"commit {slot}" if work.may_commit() else f"fail {slot}")


class Case:
    """A plan with its options, and a schedule in both forms."""

    def __init__(self, seed, kinds):
        choose = random.Random(seed)
        self.plan = random_runs.random_plan(choose, kinds)
        self.options = {
            "workers": choose.choice([1, 2, 3, 4]), "bundle": choose.choice([1, 2, 7, 64]),
            # A drain works each bad line twice as often.
            "chunk": random_runs.any_chunk(choose, self.plan), "attempts": choose.choice([1, 2, 3, 1000 if self.plan.version == 1 else 10]),
        }
        schedule = random_schedule(choose, replay_model.Replay(self.model(), **self.options))
        self.with_drain, self.with_lines = schedule.with_drain(), schedule.with_lines()

    def model(self):
        return run_model.Plan(self.plan.document(), self.plan.read)

    def wanted(self, schedule):
        return replay_model.answer(self.plan.document(), self.plan.read, schedule, **self.options)

    def words(self, *names):
        return [word for name in names for word in (f"--{name}", str(self.options[name]))]

    def write(self, folder):
        random_runs.write_plan(self.plan, folder)
        (folder / "options").write_text(" ".join(self.words(*self.options)) + "\n")
        for name, schedule in (("drain", self.with_drain), ("lines", self.with_lines)):
            (folder / name).write_bytes(schedule)
            (folder / f"{name}.wanted").write_text(self.wanted(schedule)[1])


class Program:
    def __init__(self, path, seconds):
        self.path, self.seconds = str(pathlib.Path(path).resolve()), seconds

    def run(self, folder, *words):
        """The status, the text and the note."""
        try:
            done = subprocess.run([self.path, *words], cwd=folder, capture_output=True, timeout=self.seconds)
        except subprocess.TimeoutExpired:
            return "no end", "", ""
        return done.returncode, done.stdout.decode(), done.stderr.decode()


def behind(text, times):
    """What stands behind so many lines `--`."""
    return text.split("--\n", times)[-1]


def difference(program, folder, case):
    """What differs, or nothing."""
    texts = []
    for name, schedule in (("drain", case.with_drain), ("lines", case.with_lines)):
        wanted, got = case.wanted(schedule), program.run(folder, "replay", "plan.json", name, *case.words(*case.options))
        if got != wanted:
            return f"{name}: status {got[0]}, note {got[2]!r}, and {wanted[0]} is wanted" + first_line(got[1], wanted[1])
        texts.append(got[1])
    if behind(texts[0], 1) != behind(texts[1], 1):
        return "what stands behind -- differs"
    written = behind(texts[0], 2)
    if case.plan.compared == "text" and texts[0].count("--\n") == 2 and random_runs.dead_as_wanted(case.plan, written.encode()):
        run = program.run(folder, "run", "plan.json", "--workers", "1")
        if run != (0, written, ""):
            return "what is written isn't what run prints"
    return None


def first_line(got, wanted):
    for number, (one, other) in enumerate(zip(got.splitlines(), wanted.splitlines()), 1):
        if one != other:
            return f"; line {number} is {one!r}, and {other!r} is wanted"
    return ""


def try_seed(program, seed, kinds, counts):
    case = Case(seed, kinds)
    counts["lines"] += case.with_lines.count(b"\n")
    counts["whole"] += case.wanted(case.with_drain)[1].count("--\n") == 2
    with tempfile.TemporaryDirectory(prefix="random_schedules_") as name:
        case.write(pathlib.Path(name))
        found = difference(program, name, case)
    if found is None:
        return True
    kept = pathlib.Path(tempfile.mkdtemp(prefix=f"random_schedules_{seed}_"))
    case.write(kept)
    print(f"seed {seed}: {found}; in {kept}", flush=True)
    return False


def main():
    words = argparse.ArgumentParser(description="Compares replays of random schedules with a model, and with themselves.")
    words.add_argument("program", help="the built program")
    words.add_argument("--runs", type=int, default=200)
    words.add_argument("--seed", type=int, default=1)
    words.add_argument("--seconds", type=float, default=120)
    words.add_argument("--dead", action="store_true", help="plans of version 2 alone")
    words.add_argument("--three", action="store_true", help="plans of version 3 alone")
    words.set_defaults(combine=False)
    words = words.parse_args()
    kinds = random_runs.kinds_of(words)
    program, counts = Program(words.program, words.seconds), {"lines": 0, "whole": 0}
    differences = sum(not try_seed(program, seed, kinds, counts) for seed in range(words.seed, words.seed + words.runs))
    print(f"{words.runs} schedules of {counts['lines']} lines replayed twice, {counts['whole']} to the end of the run, {differences} differ")
    return 1 if differences else 0


if __name__ == "__main__":
    sys.exit(main())
