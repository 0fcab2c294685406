#!/usr/bin/env python3
"""Measures three captured feeds by threads against the same by turns, on two processors.

The two take turns in one run, and the ratios of their medians are printed. By threads may take
at most the time by turns, by the clock on the wall, and at most 1.3 times its processor time.
A smaller recording of the same kind is judged by bench/judge.py in both modes first. Status 1
tells that a limit isn't met, or that a recording is wrong.
"""

import argparse
import os
import statistics
import subprocess
import sys
import tempfile
import time
from pathlib import Path

sys.dont_write_bytecode = True
import judge
import make_feed

TOP = Path(__file__).resolve().parent.parent
WALL_LIMIT, PROCESSOR_LIMIT = 1.0, 1.3
FEEDS = ("--format float32 --channels 64", "--format double64 --channels 8 --stamp-every 10 --order 4321",
         "--format int16 --channels 2 --stamp-every 0")


def make(folder, megabytes, ring, kinds=FEEDS):
    """Makes the feeds, each with so many bytes, and a plan of each mode."""
    lines = [f"ring {ring}"]
    for number, words in enumerate(kinds, 1):
        options = make_feed.parser().parse_args([str(folder / str(number)), *words.split()])
        options.samples = int(megabytes * 1e6 / make_feed.sample_size(options))
        make_feed.make(options)
        lines.append(f"feed {number} doc {number}.xml file {number}.feed")
    for mode in ("turns", "threads"):
        (folder / mode).write_text("\n".join([f"mode {mode}", *lines]) + "\n")


def record(program, folder, mode, processors):
    """Seconds by the clock and of the processors."""
    (folder / "out.xdf").unlink(missing_ok=True)
    with (folder / "lines").open("wb") as lines:
        began = time.monotonic()
        run = subprocess.Popen([program, "record", mode, "out.xdf"], cwd=folder, stdout=lines,
                               preexec_fn=lambda: os.sched_setaffinity(0, processors))
        _, status, usage = os.wait4(run.pid, 0)
        wall = time.monotonic() - began
    run.returncode = os.waitstatus_to_exitcode(status)
    if run.returncode != 0:
        sys.exit(f"failed: mode {mode}, status {run.returncode}\n{(folder / 'lines').read_text()}")
    return wall, usage.ru_utime + usage.ru_stime


def judge_both(program, folder, processors):
    for mode in ("turns", "threads"):
        record(program, folder, mode, processors)
        try:
            judge.judge(folder / mode, folder / "out.xdf", (folder / "lines").read_text())
        except judge.Wrong as wrong:
            sys.exit(f"failed: mode {mode}: {wrong}")


def compare(program, folder, processors, repeats):
    """The median seconds of each mode: by the clock, of the processors."""
    found = {"turns": [], "threads": []}
    for _ in range(repeats):
        for mode, pairs in found.items():
            pairs.append(record(program, folder, mode, processors))
    return {mode: [statistics.median(each) for each in zip(*pairs)] for mode, pairs in found.items()}


def main():
    words = argparse.ArgumentParser(description=__doc__, formatter_class=argparse.RawDescriptionHelpFormatter)
    words.add_argument("--program", type=Path, default=TOP / "crates/record_cli/out/record_cli", help="the recorder")
    words.add_argument("--megabytes", type=float, default=100, help="the bytes of each feed, in millions")
    words.add_argument("--ring", type=int, default=4096)
    words.add_argument("--kind", type=int, choices=(1, 2, 3), help="all three feeds of this one kind of the three")
    words.add_argument("--repeats", type=int, default=7)
    words.add_argument("--scratch", default="/dev/shm", help="a folder of a file system in memory")
    options = words.parse_args()
    program, processors = options.program.resolve(), sorted(os.sched_getaffinity(0))[:2]
    with tempfile.TemporaryDirectory(dir=options.scratch, prefix="threads-") as name:
        folder = Path(name)
        make(folder, 1, 100)
        judge_both(program, folder, processors)
        kinds = (FEEDS[options.kind - 1],) * 3 if options.kind else FEEDS
        make(folder, options.megabytes, options.ring, kinds)
        found = compare(program, folder, processors, options.repeats)
    print(f"Medians of {options.repeats} runs on {len(processors)} processors; 3 feeds of {options.megabytes} MB.\n")
    print("| | By turns, s | By threads, s | times | Limit | |\n|---|--:|--:|--:|--:|---|")
    met = True
    for what, turns, threads, limit in zip(("wall clock", "processor"), found["turns"], found["threads"],
                                           (WALL_LIMIT, PROCESSOR_LIMIT)):
        ratio = threads / max(turns, 1e-6)
        met &= ratio <= limit
        print(f"| {what} | {turns:.3f} | {threads:.3f} | {ratio:.2f} | {limit} | {'met' if ratio <= limit else 'not met'} |")
    if not met:
        sys.exit("a limit isn't met")


if __name__ == "__main__":
    main()
