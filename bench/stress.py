#!/usr/bin/env python3
"""Presses the recorder by threads, and judges each recording to the sample.

First 64 feeds by TCP from this process for a minute, with a ring so small that each feed
loses samples. Then 200 recordings of chance plans: formats, orders, rings, batches, limits,
pieces cut anywhere, pauses, and feeds that break off within a sample. bench/judge.py judges
each by what the outlets sent. A run that fails leaves its folder, and its seed makes it again.
"""

import argparse
import random
import shutil
import subprocess
import sys
import tempfile
import time
from pathlib import Path

sys.dont_write_bytecode = True
import judge
import make_feed
import outlets

TOP = Path(__file__).resolve().parent.parent
FEEDS, RATE, BURST = 64, 1000, 50


class Failed(Exception):
    """A recording that isn't as it must be."""


def record(program, folder, timeout):
    """Runs the recorder over the plan of a folder; its status and its lines."""
    (folder / "out.xdf").unlink(missing_ok=True)
    done = subprocess.run([program, "record", "plan", "out.xdf"], cwd=folder, stdout=subprocess.PIPE, text=True,
                          timeout=timeout)
    return done.returncode, done.stdout


def record_and_judge(program, folder, served, timeout):
    """Records what the outlets serve, which were started; the streams as the file has them."""
    status, lines = record(program, folder, timeout)
    if status not in (0, 1):
        raise Failed(f"status {status}\n{lines}")
    outlets.finish(folder, served)
    try:
        streams = judge.judge(folder / "plan", folder / "out.xdf", lines)
    except judge.Wrong as wrong:
        raise Failed(str(wrong)) from wrong
    if (status == 0) != all(stream.end in ("whole", "limit") for stream in streams):
        raise Failed(f"status {status}\n{lines}")
    return streams


def many_feeds(program, folder, seconds):
    """64 feeds in bursts that no ring of two samples holds."""
    served = []
    for number in range(1, FEEDS + 1):
        form = ("int16", "float32", "double64", "string")[number % 4]
        feed = outlets.Feed(number, form, 1 + number % 3, int(RATE * seconds), (1234, 4321)[number % 2], text_bytes=8)
        served.append(outlets.Outlet(feed, lambda feed: outlets.steady(feed, RATE, BURST)))
    outlets.start(folder, served, ring=2, batch=512)
    began = time.monotonic()
    streams = record_and_judge(program, folder, served, 10 * seconds + 60)
    whole = [stream.number for stream in streams if stream.lost == 0]
    if whole:
        raise Failed(f"these feeds lost nothing: {whole}")
    total, lost = sum(len(stream.texts) for stream in streams), sum(stream.lost for stream in streams)
    print(f"{FEEDS} feeds, {time.monotonic() - began:.0f} s with the judging: {total} samples, "
          f"{lost} lost, each feed some", flush=True)


def chance_feed(chance, number, seed):
    """An outlet of a chance feed, and the limit of samples in the plan or none."""
    samples = chance.choice((0, 1, chance.randint(2, 100), chance.randint(100, 2000)))
    feed = outlets.Feed(number, chance.choice(list(make_feed.SIZES)), chance.randint(1, 5), samples,
                        chance.choice((1234, 4321)), chance.choice((0, 1, 10)), chance.randint(0, 200), seed)
    own = random.Random(f"{seed} pieces {number}")
    most, pause = chance.choice((5, 300, 5000)), chance.choice((0, 0.0005, 0.01))
    if most == 5:
        pause = 0
    cut = chance.randint(0, len(feed.data)) if chance.random() < 0.3 else None
    limit = chance.randint(1, samples + 10) if chance.random() < 0.3 else None
    return outlets.Outlet(feed, lambda feed: outlets.odd(feed, own, most, pause), cut), limit


def chance_plan(program, folder, seed):
    """A recording of a chance plan; how many samples it had and lost."""
    chance = random.Random(seed)
    made = [chance_feed(chance, number, seed) for number in chance.sample(range(1, 65536), chance.randint(1, 6))]
    limits = {outlet.feed.number: limit for outlet, limit in made}
    served = [outlet for outlet, _ in made]
    outlets.start(folder, served, ring=chance.choice((1, 2, 7, 100, 4096)), batch=chance.choice((1, 3, 64, 512)),
                  limits=limits)
    streams = record_and_judge(program, folder, served, 120)
    return sum(len(stream.texts) for stream in streams), sum(stream.lost for stream in streams)


def chance_plans(options, scratch):
    total = lost = 0
    for seed in range(options.seed, options.seed + options.runs):
        folder = scratch / f"seed-{seed}"
        folder.mkdir()
        try:
            had, missed = chance_plan(options.program, folder, seed)
        except (Failed, OSError, subprocess.TimeoutExpired) as fault:
            raise Failed(f"seed {seed}: {fault}") from fault
        total, lost = total + had, lost + missed
        shutil.rmtree(folder)
    print(f"{options.runs} chance plans: {total} samples, {lost} lost", flush=True)


def main():
    words = argparse.ArgumentParser(description=__doc__, formatter_class=argparse.RawDescriptionHelpFormatter)
    words.add_argument("--program", type=Path, default=TOP / "crates/record_cli/out/record_cli", help="the recorder")
    words.add_argument("--seconds", type=float, default=60, help="how long the 64 feeds go on; 0: not at all")
    words.add_argument("--runs", type=int, default=200, help="how many chance plans")
    words.add_argument("--seed", type=int, default=1, help="the seed of the first of them; the next has the next number")
    words.add_argument("--scratch", default="/dev/shm", help="a folder of a file system in memory")
    options = words.parse_args()
    options.program = options.program.resolve()
    scratch = Path(tempfile.mkdtemp(dir=options.scratch, prefix="stress-"))
    try:
        if options.seconds > 0:
            (scratch / "many").mkdir()
            many_feeds(options.program, scratch / "many", options.seconds)
            shutil.rmtree(scratch / "many")
        chance_plans(options, scratch)
    except Failed as fault:
        sys.exit(f"failed: {fault}\nits files are in {scratch}")
    shutil.rmtree(scratch)


if __name__ == "__main__":
    main()
