#!/usr/bin/env python3
"""Measures a live recording by threads: what it costs, and how soon a sample is in the file.

One feed of 500 samples a second for 30 seconds, by TCP from this process, one sample a piece.
The recorder may take at most 2% of a processor, and a sample has to be in the file at most
100 ms after it was sent. The file is watched while it grows, a look each millisecond or two,
so a time is late by that much at most. At the end bench/judge.py judges the recording. Status
1 tells that a limit isn't met, or that the recording is wrong.
"""

import argparse
import os
import statistics
import subprocess
import sys
import tempfile
import time
from pathlib import Path

sys.dont_write_bytecode = True
import judge
import outlets

TOP = Path(__file__).resolve().parent.parent
SHARE_LIMIT, DELAY_LIMIT = 0.02, 0.1
LOOK = 0.001


class Tail:
    """The file of a recording of one feed, which loses nothing, read as it grows."""

    def __init__(self, path, number):
        self.path, self.number, self.data, self.place, self.file = path, number, b"", 4, None
        self.seen = []

    def look(self):
        """Reads what is new, and notes the time for each sample that is now whole in the file."""
        if self.file is None:
            if not self.path.exists():
                return
            self.file = self.path.open("rb")
        new = self.file.read()
        if new:
            now = time.monotonic()
            self.data += new
            self.seen += [now] * self.whole_samples()

    def whole_samples(self):
        """Goes past the chunks that are whole; how many samples of the feed are in them."""
        found = 0
        while self.place < len(self.data):
            width = self.data[self.place]
            start = self.place + 1 + width
            end = start + int.from_bytes(self.data[self.place + 1:start], "little")
            if start > len(self.data) or end > len(self.data):
                break
            tag, stream = self.data[start], int.from_bytes(self.data[start + 2:start + 6], "little")
            if tag == 3 and stream == self.number:
                width = self.data[start + 6]
                found += int.from_bytes(self.data[start + 7:start + 7 + width], "little")
            self.place = end
        return found


def measure(program, folder, outlet):
    """Records; the status, the lines, the processor's seconds, and when each sample was in the file."""
    tail = Tail(folder / "out.xdf", outlet.feed.number)
    with (folder / "lines").open("wb") as lines:
        run = subprocess.Popen([program, "record", "plan", "out.xdf"], cwd=folder, stdout=lines)
    began = time.monotonic()
    while True:
        ended, status, usage = os.wait4(run.pid, os.WNOHANG)
        tail.look()
        if ended:
            break
        time.sleep(LOOK)
    run.returncode = os.waitstatus_to_exitcode(status)
    seconds = usage.ru_utime + usage.ru_stime
    return run.returncode, (folder / "lines").read_text(), seconds, time.monotonic() - began, tail.seen


def say(seconds, took, delays):
    """Prints what was measured; whether both limits are met."""
    share, worst = seconds / took, max(delays)
    print(f"processor {seconds:.3f} s in {took:.1f} s: {100 * share:.2f}% of one, at most {100 * SHARE_LIMIT:.0f}%")
    print(f"from sending to being in the file: median {1000 * statistics.median(delays):.1f} ms, "
          f"longest {1000 * worst:.1f} ms, at most {1000 * DELAY_LIMIT:.0f} ms")
    return share <= SHARE_LIMIT and worst <= DELAY_LIMIT


def main():
    words = argparse.ArgumentParser(description=__doc__, formatter_class=argparse.RawDescriptionHelpFormatter)
    words.add_argument("--program", type=Path, default=TOP / "crates/record_cli/out/record_cli", help="the recorder")
    words.add_argument("--rate", type=float, default=500, help="samples a second")
    words.add_argument("--seconds", type=float, default=30)
    words.add_argument("--format", default="float32")
    words.add_argument("--channels", type=int, default=8)
    words.add_argument("--mode", choices=["threads", "turns"], default="threads")
    words.add_argument("--scratch", default="/dev/shm", help="a folder of a file system in memory")
    options = words.parse_args()
    feed = outlets.Feed(1, options.format, options.channels, int(options.rate * options.seconds))
    outlet = outlets.Outlet(feed, lambda feed: outlets.steady(feed, options.rate))
    with tempfile.TemporaryDirectory(dir=options.scratch, prefix="live-") as name:
        folder = Path(name)
        outlets.start(folder, [outlet], options.mode)
        status, lines, seconds, took, seen = measure(options.program.resolve(), folder, outlet)
        outlets.finish(folder, [outlet])
        if status != 0:
            sys.exit(f"failed: status {status}\n{lines}")
        try:
            judge.judge(folder / "plan", folder / "out.xdf", lines)
        except judge.Wrong as wrong:
            sys.exit(f"failed: {wrong}")
    # the first piece is the reply and the test samples
    sent = [when for when, _ in outlet.times[1:]]
    if len(seen) != len(sent):
        sys.exit(f"failed: {len(sent)} samples were sent, and {len(seen)} are in the file")
    if not say(seconds, took, [late - early for early, late in zip(sent, seen)]):
        sys.exit("a limit isn't met")


if __name__ == "__main__":
    main()
