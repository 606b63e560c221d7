#!/usr/bin/env python3
"""Tries what the launcher beam_run shows of a long run on a terminal: tests/progress.py

The launcher runs a stand-in for the program, in a tree of its own, on a terminal that this script holds. Takes a minute.
"""
import os
import pathlib
import pty
import re
import select
import shutil
import signal
import subprocess
import sys
import tempfile
import time

ROOT = pathlib.Path(__file__).resolve().parent.parent
SIZE = 40_000_000
# Reads the file of its last word for three seconds, works for one, then writes ten lines in one second, and ends with 3.
STAND_IN = """#!/usr/bin/python3
import os, signal, sys, time
if signal.getsignal(signal.SIGINT) == signal.default_int_handler:
    signal.signal(signal.SIGINT, signal.SIG_DFL)
file = open(sys.argv[-1], "rb", buffering=0) if len(sys.argv) > 2 else sys.stdin.buffer
while file.read(1_000_000):
    time.sleep(0.075)
time.sleep(1)
for number in range(10):
    os.write(1, b"pane %d\\n" % number)
    time.sleep(0.1)
sys.exit(3)
"""
PANES = [f"pane {number}" for number in range(10)]
FAULTS = []


class Terminal:
    """A command of a shell on a terminal of its own, and what has come to the terminal so far."""

    def __init__(self, folder, command, **env):
        self.pid, self.fd = pty.fork()
        if self.pid == 0:
            os.chdir(folder)
            os.execve("/bin/bash", ["bash", "-c", command], {**os.environ, **env})
        self.text = b""

    def read_for(self, seconds):
        end = time.monotonic() + seconds
        while (left := end - time.monotonic()) > 0 and select.select([self.fd], [], [], left)[0]:
            try:
                self.text += os.read(self.fd, 65536)
            except OSError:
                break
        return self

    def end(self, seconds=20):
        """The status of the shell, and all lines that came. What was written over is gone, as on a real terminal."""
        self.read_for(seconds)
        _, status = os.waitpid(self.pid, 0)
        os.close(self.fd)
        lines = self.text.decode().replace("\r\n", "\n").split("\n")
        return os.waitstatus_to_exitcode(status), [line.rsplit("\r\x1b[K", 1)[-1] for line in lines if line]


def check(what, is_so, *seen):
    if not is_so:
        FAULTS.append(what)
        print(f"progress: {what}: {seen}")


def is_running(folder):
    """Whether some process runs the stand-in of this folder."""
    for path in pathlib.Path("/proc").glob("[0-9]*/cmdline"):
        try:
            if str(folder).encode() in path.read_bytes():
                return True
        except OSError:
            pass
    return False


def is_sleeping(folder):
    """Whether some process still has this folder, as a sleep of the launcher would."""
    for path in pathlib.Path("/proc").glob("[0-9]*/cwd"):
        try:
            if path.readlink() == folder:
                return True
        except OSError:
            pass
    return False


def try_all(folder):
    run = Terminal(folder, "./beam_run panes 60000 lines >out.txt").read_for(3)
    check("how much is read is shown", re.search(rb"beam_run: \d+ of 40 MB read, 2 s", run.text), run.text)
    status, lines = run.end()
    check("that all is read is shown", b"all read" in run.text, run.text)
    check("that panes are written is shown", b"MB of panes written" in run.text, run.text)
    check("the status is the program's", status == 3, status)
    check("nothing is left on the terminal", not "".join(lines), lines)
    check("nothing is added to the output", (folder / "out.txt").read_text().split("\n")[:-1] == PANES)

    (folder / "plan.json").write_text('{"beam": 1, "nodes": [{"name": "in",\n "files": ["lines",\n "lines"]}]}')
    run = Terminal(folder, "./beam_run run plan.json lines >/dev/null").read_for(3)
    run.end()
    check("the files of a plan are counted", b" of 120 MB read" in run.text, run.text)

    for command in ("./beam_run panes 60000 lines", "./beam_run panes 60000 lines | cat"):
        status, lines = Terminal(folder, command).end()
        shown = [line for line in lines if line.startswith("beam_run: ")]
        check("panes on the terminal stay whole", shown and [line for line in lines if line not in shown] == PANES, command, lines)

    begun = time.monotonic()
    status, lines = Terminal(folder, "./beam_run panes 60000 /dev/null | cat").end()
    check("a run that ends soon is not held up", time.monotonic() - begun < 3, time.monotonic() - begun)
    check("and nothing is left behind", not is_sleeping(folder))

    status, lines = Terminal(folder, "./beam_run panes <lines >out.txt").end()
    check("a standard input is handed on", status == 3, status, lines)

    run = Terminal(folder, "./beam_run panes 60000 lines >out.txt").read_for(2.6)
    os.write(run.fd, b"\x03")
    status, lines = run.end(3)
    check("Ctrl-C ends the run", status in (-signal.SIGINT, 130) and not is_running(folder), status)
    check("Ctrl-C leaves nothing on the line", not "".join(lines), lines)

    run = Terminal(folder, "exec ./beam_run panes 60000 lines >out.txt").read_for(2.6)
    os.kill(run.pid, signal.SIGTERM)
    status, lines = run.end(3)
    check("a signal ends the run", status in (-signal.SIGTERM, 143) and not is_running(folder), status)

    status, lines = Terminal(folder, "./beam_run panes 60000 lines >out.txt", BEAM_PROGRESS="0").end()
    check("BEAM_PROGRESS=0 turns it off", (status, lines) == (3, []), status, lines)
    done = subprocess.run(["./beam_run", "panes", "60000", "lines"], cwd=folder, capture_output=True)
    check("nothing is shown where there is no terminal", (done.returncode, done.stderr) == (3, b""), done)


def main():
    with tempfile.TemporaryDirectory() as path:
        folder = pathlib.Path(path)
        out = folder / "crates/beam_run/out"
        out.mkdir(parents=True)
        shutil.copy(ROOT / "beam_run", folder)
        (folder / "crates.txt").touch()
        with open(folder / "lines", "wb") as file:
            file.truncate(SIZE)
        (out / "beam_run").write_text(STAND_IN)
        (out / "beam_run").chmod(0o755)
        try_all(folder)
    print(f"progress: {len(FAULTS)} wrong")
    return 1 if FAULTS else 0


if __name__ == "__main__":
    sys.exit(main())
