#!/usr/bin/env python3
"""Measures what the sign of life costs: the same commands with and without a terminal for standard error.

A feed of small samples is recorded, and the file is checked, shown into nothing and repaired; each
command once where standard error is a terminal that is read meanwhile, and once where it is
`/dev/null`, in turn. The median of the ratios of processor time is told for each command, with how
many lines came. A line must come where a command took longer than a second by the clock, and each is
taken off the terminal at the end.
"""

import argparse
import os
import pty
import statistics
import subprocess
import sys
import tempfile
import threading
import time
from pathlib import Path

TOP = Path(__file__).resolve().parent.parent
# How many times the processor time without a terminal.
LIMIT = 1.05


class Failed(Exception):
    """A command that doesn't end as it must."""


def run(words, folder, terminal):
    """The processor time of a command, its seconds by the clock, and what came on the terminal, if there is one."""
    (folder / "out.xdf").unlink(missing_ok=True)
    heard = []
    if terminal:
        ours, errors = pty.openpty()

        def listen():
            try:
                while piece := os.read(ours, 65536):
                    heard.append(piece)
            except OSError:
                pass

        listener = threading.Thread(target=listen)
        listener.start()
    else:
        errors = os.open(os.devnull, os.O_WRONLY)
    begun = time.monotonic()
    with open(os.devnull, "wb") as null:
        started = subprocess.Popen(words, cwd=folder, stdout=null, stderr=errors)
        os.close(errors)
        _, status, used = os.wait4(started.pid, 0)
    seconds = time.monotonic() - begun
    started.returncode = os.waitstatus_to_exitcode(status)
    if terminal:
        listener.join()
        os.close(ours)
    if started.returncode != 0:
        raise Failed(f"{words[1:]} ends with {started.returncode}")
    return used.ru_utime + used.ru_stime, seconds, b"".join(heard)


def judge(name, seconds, heard):
    """How many lines of a sign of life came; fails where one is missing or stays on the terminal."""
    lines = heard.count(b"\r\x1b[K")
    if seconds > 1.1 and lines < 2:
        raise Failed(f"{name} ran for {seconds:.1f} s and showed no life")
    if lines and not heard.endswith(b"\r\x1b[K"):
        raise Failed(f"{name} leaves its line on the terminal")
    if lines > 2 * seconds + 1:
        raise Failed(f"{name} wrote {lines} lines in {seconds:.1f} s")
    return max(lines - 1, 0)


def main():
    parser = argparse.ArgumentParser(description=__doc__.splitlines()[0])
    parser.add_argument("--program", default=str(TOP / "crates/record_cli/out/record_cli"))
    parser.add_argument("--megabytes", type=float, default=300, help="the size of the feed, in millions of bytes")
    parser.add_argument("--repeats", type=int, default=7)
    options = parser.parse_args()
    program = str(Path(options.program).resolve())
    good = True
    with tempfile.TemporaryDirectory(prefix="life-", dir="/dev/shm") as scratch:
        folder = Path(scratch)
        channels = 4
        count = int(options.megabytes * 1e6 / (1 + 2 * channels))
        subprocess.run([sys.executable, TOP / "bench/make_feed.py", folder / "one", "--format", "int16", "--channels",
                        str(channels), "--samples", str(count), "--stamp-every", "0"], check=True)
        (folder / "plan").write_text("mode turns\nring 512\nbatch 512\nfeed 1 doc one.xml file one.feed\n")
        try:
            for words in (["record", "plan", "out.xdf"], ["check", "in.xdf"], ["show", "in.xdf"],
                          ["repair", "in.xdf", "out.xdf"]):
                ratios, lines = [], 0
                for _ in range(options.repeats):
                    with_life, seconds, heard = run([program, *words], folder, True)
                    lines += judge(words[0], seconds, heard)
                    without, _, _ = run([program, *words], folder, False)
                    ratios.append(with_life / without)
                if words[0] == "record":
                    (folder / "out.xdf").rename(folder / "in.xdf")
                    (folder / "one.feed").unlink()
                ratio = statistics.median(ratios)
                good &= ratio <= LIMIT
                print(f"{words[0]}: {ratio:.3f} times the processor time without a terminal (at most {LIMIT:g}); "
                      f"{lines} lines in {options.repeats} runs, the last of {seconds:.1f} s")
        except Failed as failed:
            print(f"FAILED: {failed}")
            return 1
    return 0 if good else 1


if __name__ == "__main__":
    sys.exit(main())
