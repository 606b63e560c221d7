#!/usr/bin/env python3
"""How the time and memory of a built program grow with its work: tests/growth.py PROGRAM [SHAPE ..]

Each shape is run at a size and at four times that size, the better of RUNS runs (2), by one worker where it doesn't say how many.
Four times the work may take at most 5.2 times the time, 5.6 times where most of it is sorting, and 5.2 times the memory; below
MARGIN seconds or MB (0.15, 20) the difference tells nothing. WORKERS=N runs all shapes by N workers. The status is 1 where a shape grows
faster or doesn't end with 0.
"""
import json
import os
import pathlib
import random
import subprocess
import sys
import tempfile
import time

RUNS = int(os.environ.get("RUNS", "2"))
LIMIT, LIMIT_OF_SORTS = 5.2, 5.6
MARGIN_SECONDS, MARGIN_MB = 0.15, 20
SHAPES = {}


def shape(size, sorts=False):
    """A function that writes the input of so many lines, and answers the words of the command."""

    def add(make):
        SHAPES[make.__name__] = (make, size, LIMIT_OF_SORTS if sorts else LIMIT)
        return make

    return add


def timed(times, key=lambda at: "k", part=lambda at: "v", name="lines"):
    with open(name, "w") as file:
        file.writelines(f"{moment}\t{key(at)}\t{part(at)}\n" for at, moment in enumerate(times))


def plan(*nodes, source=None, version=1):
    """Each node takes what the one before it gives, where it doesn't say what it takes."""
    made = [{"name": "in", "kind": "source", "work": "TimedLines", "files": ["lines"], **(source or {})}]
    for number, node in enumerate([*nodes, {"kind": "write"}]):
        made.append({"name": f"n{number}", "input": [made[-1]["name"]], **node})
    with open("plan", "w") as file:
        json.dump({"beam": version, "nodes": made}, file)
    return ["run", "plan"]


def counted(windows, source=None, version=1, **group):
    """Counts of each key and window."""
    return plan(
        {"kind": "pardo", "work": "KeyField"},
        {"kind": "window", "windows": windows},
        {"kind": "group", **group},
        {"kind": "pardo", "work": "CountSeq"},
        source=source,
        version=version,
    )


def sessions(gap):
    return counted({"sessions": gap})


# ---- what users have


@shape(200_000, sorts=True)
def many_keys(n):
    timed((at * 10 for at in range(n)), key=lambda at: f"k{at % 1000}")
    return ["panes", "lines", "60000"]


@shape(100_000, sorts=True)
def a_key_a_line(n):
    timed(range(n), key=lambda at: f"k{at}")
    return ["panes", "lines", "60000"]


@shape(100_000, sorts=True)
def a_window_a_line(n):
    timed(at * 1000 for at in range(n))
    return ["panes", "lines", "1000"]


@shape(200_000, sorts=True)
def one_window(n):
    timed(random.randrange(60_000) for _ in range(n))
    return ["panes", "lines", "60000"]


@shape(4_000)
def sliding_windows(n):
    timed((at * 10 for at in range(n)), key=lambda at: f"k{at % 100}")
    return counted({"sliding": [100_000, 1000]})


@shape(40_000)
def sessions_of_many_keys(n):
    timed((at * 10 for at in range(n)), key=lambda at: f"k{at % 997}")
    return sessions(5000)


@shape(20_000)
def sessions_in_order(n):
    timed(at * 1000 for at in range(n))
    return sessions(100)


@shape(20_000)
def one_long_session(n):
    timed(at * 10 for at in range(n))
    return sessions(100)


@shape(40_000)
def late_lines(n):
    timed((at * 10 if at % 2 else 0 for at in range(n)), key=lambda at: f"k{at % 100}")
    words = counted({"fixed": 1000}, source={"estimator": "monotonic"}, lateness=10**9)
    return [*words, "--chunk", "1000000000"]


@shape(40_000)
def early_panes(n):
    timed(range(n), key=lambda at: f"k{at % 10}")
    return counted({"fixed": 10**9}, early=1)


@shape(40_000)
def early_panes_by_trees(n):
    """A pane a line: the tree asks for a line, or 32 of them at a mark that is never reached before the end."""
    timed(range(n), key=lambda at: f"k{at % 10}")
    never = {"all": [{"count": 32}, {"mark": -1}]}
    return counted({"fixed": 10**9}, version=3, early_when={"first": [{"count": 1}, *[never] * 15]})


@shape(20_000)
def early_marks(n):
    """Each window fires at a mark before its end, and then at its end."""
    timed(at * 1000 for at in range(n))
    words = counted({"fixed": 2000}, source={"estimator": "monotonic"}, version=3, early_when={"first": [{"mark": -1500}, {"count": 1000}]})
    return [*words, "--chunk", "1000000000", "--bundle", "1"]


def with_side_input(n, views, mode, windows, view_key=lambda at: f"k{at}"):
    """So many lines, each with what a view of so many lines has for it."""
    timed((at * 10 for at in range(n)), key=lambda at: f"k{at % views}")
    timed((at * 10 * n // views for at in range(views)), key=view_key, part=lambda at: f"p{at}", name="views")
    return plan(
        {"kind": "pardo", "work": "KeyField"},
        {"kind": "window", "windows": windows},
        {"kind": "source", "work": "TimedLines", "files": ["views"], "input": []},
        {"kind": "pardo", "work": "KeyField"},
        {"kind": "window", "windows": windows},
        {"kind": "side", "input": ["n1"], "view": "n4", "mode": mode},
        version=3,
    )


@shape(25_000, sorts=True)
def a_view_looked_up(n):
    """One window of many lines, and a view that has one value for each key: a hundredth of the lines."""
    return with_side_input(n, n // 100, "lookup", "global")


@shape(10_000, sorts=True)
def a_large_view_looked_up(n):
    """As many values as lines, each asked for once."""
    return with_side_input(n, n, "lookup", "global")


@shape(10_000, sorts=True)
def a_view_of_other_keys(n):
    """No line finds a value."""
    return with_side_input(n, n, "lookup", "global", view_key=lambda at: f"other{at}")


@shape(25_000, sorts=True)
def one_value_for_all_lines(n):
    return with_side_input(n, 1, "single", "global")


@shape(20_000, sorts=True)
def a_view_in_each_window(n):
    """Each window of ten lines has ten values, which each line lists."""
    return with_side_input(n, n, "list", {"fixed": 100})


def set_aside(n, every):
    """So many lines, of which every so many-th is bad and set aside."""
    with open("lines", "w") as file:
        file.writelines(f"{at * 10}\tk{at % 100}\tv\n" if (at + 1) % every else f"bad {at}\n" for at in range(n))
    return plan({"kind": "pardo", "work": "KeyField"}, {"kind": "group"}, {"kind": "pardo", "work": "CountSeq"}, version=2)


@shape(200_000)
def a_bad_line_in_11(n):
    return set_aside(n, 11)


@shape(100_000)
def bad_lines_alone(n):
    return set_aside(n, 1)


def combined(windows):
    """Sums of each key and window, by `combine`."""
    words = plan(
        {"kind": "pardo", "work": "KeyField"},
        {"kind": "pardo", "work": "FieldInt"},
        {"kind": "window", "windows": windows},
        {"kind": "group"},
        {"kind": "pardo", "work": "SumSeq"},
    )
    return ["combine", *words[1:]]


@shape(400_000)
def combined_sums(n):
    timed((at * 10 for at in range(n)), key=lambda at: f"k{at % 100}", part=lambda at: at)
    return combined({"fixed": 60_000})


@shape(100_000, sorts=True)
def combined_keys_a_line(n):
    timed(range(n), key=lambda at: f"k{at}", part=lambda at: at)
    return combined("global")


@shape(10_000)
def combined_sliding_windows(n):
    timed((at * 10 for at in range(n)), key=lambda at: f"k{at % 100}", part=lambda at: at)
    return combined({"sliding": [100_000, 1000]})


@shape(40_000)
def combined_bundles_a_line(n):
    timed((at * 10 for at in range(n)), key=lambda at: f"k{at % 100}", part=lambda at: at)
    return [*combined({"fixed": 60_000}), "--bundle", "1", "--chunk", "16"]


def stateful(work, source=None, **node):
    """A function with state on what comes with each key."""
    nodes = [{"kind": "pardo", "work": "KeyField"}]
    if work == "RunningSum":
        nodes.append({"kind": "pardo", "work": "FieldInt"})
    return plan(*nodes, {"kind": "stateful", "work": work, **node}, source=source)


def totals(n, keys):
    timed(range(n), key=lambda at: f"k{at % keys}", part=lambda at: 1)
    return stateful("RunningSum")


@shape(100_000)
def totals_of_10_keys(n):
    return totals(n, 10)


@shape(100_000)
def totals_of_1000_keys(n):
    return totals(n, 1000)


@shape(100_000, sorts=True)
def totals_of_100000_keys(n):
    return totals(n, 100_000)


@shape(50_000, sorts=True)
def values_of_one_key_once(n):
    timed(range(n), part=lambda at: f"v{at}")
    return stateful("Dedupe")


@shape(50_000, sorts=True)
def values_of_many_keys_once(n):
    timed(range(n), key=lambda at: f"k{at // 4}", part=lambda at: f"v{at % 2}")
    return stateful("Dedupe")


@shape(50_000, sorts=True)
def one_large_batch(n):
    timed(range(n), part=lambda at: f"v{at * 7919 % n}")
    return stateful("BatchUntil", number=1_000_000)


@shape(20_000, sorts=True)
def timers_one_after_another(n):
    """Each key's timer is due as the lines behind its own are read."""
    timed((at * 10 for at in range(n)), key=lambda at: f"k{at}")
    words = stateful("LatestThenEmit", source={"estimator": "monotonic"}, number=5000)
    return [*words, "--chunk", "1000000000"]


@shape(20_000, sorts=True)
def timers_at_the_end(n):
    timed((at * 10 for at in range(n)), key=lambda at: f"k{at}")
    return stateful("LatestThenEmit", number=5000)


@shape(20_000, sorts=True)
def windows_of_one_key_with_timers(n):
    timed(at * 1000 for at in range(n))
    return plan(
        {"kind": "pardo", "work": "KeyField"},
        {"kind": "window", "windows": {"fixed": 1000}},
        {"kind": "stateful", "work": "BatchUntil", "number": 2},
        source={"estimator": "monotonic"},
    ) + ["--chunk", "1000000000"]


# ---- runs under schedules, and made lines


def scheduled(count, *lines):
    """These lines under which so many made lines are worked."""
    made = {"work": "Made", "count": count, "number": 7}
    counted({"fixed": 60_000}, source=made)
    nodes = json.loads(pathlib.Path("plan").read_text())
    del nodes["nodes"][0]["files"]
    pathlib.Path("plan").write_text(json.dumps(nodes))
    pathlib.Path("schedule").write_text("".join(f"{line}\n" for line in lines))
    return ["replay", "plan", "schedule"]


@shape(30_000)
def claims_of_a_schedule(n):
    return [*scheduled(n, "take 0", *["claim 0"] * n, "commit 0", "drain"), "--chunk", "1000000000"]


@shape(10_000)
def commits_of_a_schedule(n):
    return scheduled(n, *["take 0", "claim 0", "commit 0"] * n, "drain")


@shape(15_000)
def empty_commits_of_a_schedule(n):
    """Each leaves an empty range that is done, equal to those before it."""
    return scheduled(1, *["take 0", "commit 0"] * n)


@shape(5_000)
def tries_that_fail(n):
    return scheduled(n, *["take 0", "claim 0", "fail 0", "take 0", "claim 0", "commit 0"] * n)


@shape(100_000)
def a_drain(n):
    return scheduled(n, "drain")


@shape(200_000)
def a_drill(n):
    return ["drill", str(n), "7"]


@shape(250_000)
def made_lines(n):
    return ["make", str(n), "7"]


@shape(64)
def many_files(n):
    names = [f"file{at}" for at in range(n)]
    for name in names:
        pathlib.Path(name).write_text("1\tk\tv\n" * 2000)
    return counted({"fixed": 1000}, source={"files": names})


@shape(400)
def long_lines(n):
    timed(range(n), part=lambda at: "y" * 70_000)
    return ["panes", "lines", "1000"]


# ---- what was made to be slow


@shape(8_000_000)
def one_line(n):
    pathlib.Path("lines").write_text("1\tk\t" + "x" * n + "\n")
    return ["panes", "lines", "1000"]


@shape(10_000)
def sessions_after_one_far_ahead(n):
    timed([10**12, *(at * 1000 for at in range(n))])
    return sessions(100)


@shape(10_000)
def sessions_backwards(n):
    timed((n - at) * 1000 for at in range(n))
    return sessions(100)


@shape(10_000)
def sessions_in_any_order(n):
    timed(random.randrange(n) * 1000 for _ in range(n))
    return sessions(100)


@shape(10_000)
def sessions_from_both_ends(n):
    timed((at if at % 2 else 2 * n - at) * 1000 for at in range(n))
    return [*sessions(100), "--bundle", "1000000"]


@shape(10_000)
def sessions_that_merge_in_pairs(n):
    timed((at // 2 * 1000 if at < n else (at - n) * 1000 + 500 for at in range(2 * n)))
    return sessions(600)


@shape(40_000)
def a_bundle_a_line(n):
    timed((at * 10 for at in range(n)), key=lambda at: f"k{at % 100}")
    return ["panes", "lines", "60000", "--bundle", "1"]


@shape(20_000)
def tiny_pieces(n):
    timed((at * 10 for at in range(n)), key=lambda at: f"k{at % 100}")
    return ["panes", "lines", "60000", "--chunk", "16"]


@shape(100_000)
def one_bundle(n):
    timed((at * 10 for at in range(n)), key=lambda at: f"k{at % 100}")
    return ["panes", "lines", "60000", "--bundle", "1000000", "--chunk", "1099511627776"]


@shape(20_000)
def windows_backwards_one_by_one(n):
    timed((n - at) * 1000 for at in range(n))
    return ["panes", "lines", "1000", "--bundle", "1", "--chunk", "1", "--workers", "16"]


def run(program, words):
    """Seconds, MB and status of one run."""
    begun = time.time()
    process = subprocess.Popen([program, *words], stdout=subprocess.DEVNULL, stderr=subprocess.DEVNULL)
    _, status, usage = os.wait4(process.pid, 0)
    process.returncode = status
    return time.time() - begun, usage.ru_maxrss // 1024, os.waitstatus_to_exitcode(status)


def measured(program, make, size):
    random.seed(7)
    words = make(size)
    if "--workers" not in words and words[0] != "make":
        words = [*words, "--workers", os.environ.get("WORKERS", "1")]
    runs = [run(program, words) for _ in range(RUNS)]
    return min(seconds for seconds, _, _ in runs), min(memory for _, memory, _ in runs), max(status for _, _, status in runs)


def main():
    program, *wanted = sys.argv[1:]
    program = os.path.abspath(program)
    failed = False
    with tempfile.TemporaryDirectory() as folder:
        os.chdir(folder)
        for name, (make, size, limit) in SHAPES.items():
            if wanted and name not in wanted:
                continue
            (seconds, memory, status), (more_seconds, more_memory, more_status) = (
                measured(program, make, size),
                measured(program, make, 4 * size),
            )
            times = more_seconds / max(seconds, MARGIN_SECONDS)
            memories = more_memory / max(memory, MARGIN_MB)
            is_bad = status or more_status or times > limit or memories > LIMIT
            failed = failed or is_bad
            print(
                f"{name:30} {size:9} lines {seconds:7.2f} s {memory:5} MB | 4 times {more_seconds:7.2f} s {more_memory:5} MB"
                f" | {times:5.1f} {memories:5.1f}{'  grows too fast' if is_bad else ''}",
                flush=True,
            )
        os.chdir("/")
    sys.exit(1 if failed else 0)


if __name__ == "__main__":
    main()
