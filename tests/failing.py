"""Runs a program with calls of the system failing, for the scripts beside it: failing.c has the calls and how they fail."""
import collections
import concurrent.futures
import os
import pathlib
import re
import signal
import struct
import subprocess
import tempfile

ROOT = pathlib.Path(__file__).resolve().parent.parent
ALL = 1 << 40  # more calls than any run makes
SHOWN = 20  # so many of the runs that went wrong are printed
SOURCE_FAULT = re.compile(rb"source fault: kit \d+\n")

# What a run answered, how many calls of the kind it made, and how many of them failed. The status is None where it didn't end.
Ran = collections.namedtuple("Ran", "status text note calls failed")


class Program:
    """A program, with a folder for what is built and written."""

    def __init__(self, name, seconds):
        self.name = os.path.abspath(name)
        self.seconds = seconds
        self.kept = tempfile.TemporaryDirectory()
        self.folder = pathlib.Path(self.kept.name)
        self.library = self.folder / "failing.so"
        subprocess.run(["cc", "-O1", "-shared", "-fPIC", "-o", self.library, ROOT / "tests/failing.c"], check=True)

    def run(self, words, call="none", first=0, last=0, how="5", most=0, at_stop=None, **streams):
        """Runs it with the calls from `first` on and before `last` failing. Where they stop it, `at_stop` is called with its number before it goes on."""
        with tempfile.NamedTemporaryFile(dir=self.folder) as counts:
            counts.write(bytes(16))
            counts.flush()
            told = {"FAIL_CALL": call, "FAIL_FROM": str(first), "FAIL_TO": str(last), "FAIL_HOW": how, "FAIL_MOST": str(most)}
            environment = {"LD_PRELOAD": str(self.library), "FAIL_COUNTS": counts.name, **told}
            given = {"stdin": subprocess.DEVNULL, "stdout": subprocess.PIPE, "stderr": subprocess.PIPE, "cwd": ROOT, **streams}
            run = subprocess.Popen([self.name, *words], env=environment, **given)
            if at_stop:
                _, status = os.waitpid(run.pid, os.WUNTRACED)
                assert os.WIFSTOPPED(status), f"{words} never made call {first} of {call}"
                at_stop(run.pid)
                run.send_signal(signal.SIGCONT)
            try:
                text, note = run.communicate(timeout=self.seconds)
                status = run.returncode
            except subprocess.TimeoutExpired:
                run.kill()
                text, note = run.communicate()
                status = None
            return Ran(status, text or b"", note or b"", *struct.unpack("qq", pathlib.Path(counts.name).read_bytes()))


class Table:
    """Counts of what came of the runs of each row, and the runs that went wrong."""

    def __init__(self):
        self.rows = collections.defaultdict(collections.Counter)
        self.wrong = []

    def add(self, row, came, words, ran):
        self.rows[row]["injected"] += 1
        self.rows[row][came] += 1
        if came == "wrong":
            text = f"{len(ran.text)} bytes, .. {ran.text[-100:]}"
            self.wrong.append(f"{row}: {' '.join(map(str, words))}: status {ran.status}, note {ran.note}, text {text}, {ran.failed} failures")

    def print(self):
        columns = ["injected", "survived", "told", "wrong"]
        width = max(len(row) for row in self.rows)
        print(f"{'':{width}}", *(f"{column:>9}" for column in columns))
        for row, counts in [*sorted(self.rows.items()), ("all", sum(self.rows.values(), collections.Counter()))]:
            print(f"{row:{width}}", *(f"{counts[column]:9}" for column in columns))
        for run in self.wrong[:SHOWN]:
            print("WRONG", run)
        return 1 if self.wrong else 0


def each(processors, answer, runs):
    """Each run and its answer, several at once."""
    with concurrent.futures.ThreadPoolExecutor(processors) as pool:
        yield from pool.map(lambda run: (run, answer(run)), runs)
