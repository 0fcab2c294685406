#!/usr/bin/env python3
"""Records small plans with each call to the outside failing in turn, and judges what is left.

bench/failing.c is preloaded into the recorder and lets the first call of a kind fail, then the
second, and so on, until a run meets no failure; in both modes and for each plan. The status must
be one that docs/MANUAL.md has for such a failure, the lines must go with it, and so must the
output: it is as it was, or the whole recording, or a front of one, in which each feed has its
first samples but those that the ledger names. Whole ones by turns are judged by
example/expected.py, all others by bench/judge.py.

It prints a line for each kind and mode. Status 1 tells that a difference was found; what the
first one of each line left then stays in the folder that is told.
"""

import argparse
import collections
import os
import random
import shutil
import struct
import subprocess
import sys
import tempfile
import time
from concurrent.futures import ThreadPoolExecutor
from pathlib import Path

sys.dont_write_bytecode = True
import judge
import make_feed
from judge import Wrong, expected

TOP = Path(__file__).resolve().parent.parent
EXAMPLE = TOP / "example"
OUT, GOOD_ENDS, MODES = "out.xdf", ("whole", "limit"), ("turns", "threads")
SECONDS, PAUSE, MOST_RUNS = 60, 3000, 20000


class Kind:
    """Calls that fail and how they do; whether reads and writes are cut into small pieces, whether by
    threads the feeds come slowly, so that the file grows by many batches, and whether standard output
    takes nothing."""

    def __init__(self, calls, how, cut=False, slow=False, mute=False):
        self.calls, self.how, self.cut, self.slow, self.mute = calls, how, cut, slow, mute


KINDS = {
    "allocation": Kind("allocation", "fail", slow=True),
    "memory": Kind("allocation", "on"),
    "open": Kind("open", "fail"),
    "look": Kind("look", "fail"),
    "read": Kind("read", "fail", cut=True),
    "read-again": Kind("read", "interrupted", cut=True),
    "write": Kind("write", "fail", cut=True, slow=True),
    "full": Kind("write", "on", slow=True),
    "short-write": Kind("write", "short", slow=True),
    "half-write": Kind("write", "half", slow=True),
    "write-again": Kind("write", "interrupted", cut=True),
    "line": Kind("line", "fail"),
    "short-line": Kind("line", "short"),
    "half-line": Kind("line", "half"),
    "line-again": Kind("line", "interrupted"),
    "sync": Kind("sync", "fail"),
    "open-unsaid": Kind("open", "fail", mute=True),
    "write-unsaid": Kind("write", "fail", mute=True),
    "sync-unsaid": Kind("sync", "fail", mute=True),
    "thread": Kind("thread", "fail"),
    "no-thread": Kind("thread", "on"),
}
SPOILS = ("byte", "chunk", "sample", "tail")


class Case:
    """A plan in a folder of its own. `feeds` are the id, the document, the bytes and the limit of each;
    `piece` is what a read or a write takes at most where they are cut."""

    def __init__(self, name, ring, batch, feeds, piece=997, is_there=False):
        self.name, self.ring, self.batch, self.feeds, self.piece = name, ring, batch, feeds, piece
        self.before = b"" if is_there else None
        self.has_texts = any(expected.shape(document)[1] == 0 for _, document, _, _ in feeds)
        self.streams = [self.stream(feed, feed[2]) for feed in feeds]

    def stream(self, feed, data):
        number, document, _, limit = feed
        return (number, document, *expected.feed_of(data, *expected.shape(document), limit))

    def streams_broken(self, name, before):
        """The same where the read behind so many bytes of the feed of this name fails."""
        found = []
        for feed, stream in zip(self.feeds, self.streams):
            if name == f"{feed[0]}.feed":
                *stream, end = self.stream(feed, feed[2][:before])
                stream = (*stream, "read-fault" if end.split()[0] in ("whole", "torn-reply", "torn-sample") else end)
            found.append(stream)
        return found

    def write(self, folder, mode):
        lines = [f"mode {mode}", f"ring {self.ring}", f"batch {self.batch}"]
        for number, document, data, limit in self.feeds:
            (folder / f"{number}.xml").write_bytes(document)
            (folder / f"{number}.feed").write_bytes(data)
            lines.append(f"feed {number} doc {number}.xml file {number}.feed" + (f" limit {limit}" if limit else ""))
        (folder / "plan").write_text("\n".join(lines) + "\n")


def example_feed(number, name, samples, torn=0, limit=None):
    """The first samples of a feed of the example, and so many bytes of the next one."""
    document, data = (EXAMPLE / f"{name}.xml").read_bytes(), (EXAMPLE / f"{name}.feed").read_bytes()
    reply = data.partition(b"\r\n\r\n")[0]
    place, order = len(reply) + 4, expected.byte_order(reply)
    for _ in range(2 + samples):
        _, place = expected.sample_at(data, place, *expected.shape(document), order)
    return number, document, data[:place + torn], limit


def made_feed(number, words, limit=None, cut=None):
    """A feed as bench/make_feed.py makes it."""
    with tempfile.TemporaryDirectory(prefix="faults-") as folder:
        stem = f"{folder}/feed"
        make_feed.make(make_feed.parser().parse_args([stem, *words.split()]))
        return number, Path(stem + ".xml").read_bytes(), Path(stem + ".feed").read_bytes()[:cut], limit


def long_feed(number):
    """Texts of which one is too long for a chunk with others."""
    texts = [make_text(length) for length in (5, expected.GROUP_LIMIT + 70000, 0, 9)]
    feed = make_feed.reply(1234) + 2 * b"\x01\x01\x00" + b"".join(texts)
    return number, make_feed.document(1, "string").encode(), feed, None


def make_text(length):
    return b"\x01\x04" + struct.pack("<I", length) + b"a" * length


def fixed_cases():
    return [
        Case("numbers", 40, 16, [example_feed(1, "eeg", 120), example_feed(3, "breath", 150)]),
        Case("texts", 8, 4, [example_feed(1, "eeg", 30), example_feed(2, "markers", 12),
                             example_feed(3, "breath", 40)]),
        Case("overrun", 3, 7, [example_feed(7, "eeg", 40), example_feed(5, "markers", 12),
                               example_feed(65535, "breath", 50)], is_there=True),
        Case("torn", 16, 8, [example_feed(1, "markers", 8, torn=11), example_feed(2, "eeg", 50, torn=1),
                             example_feed(3, "breath", 90, limit=33)], is_there=True),
        Case("long", 2, 2, [long_feed(9), example_feed(4, "breath", 10)], piece=400000),
        Case("large", 48, 48, [made_feed(1, "--format double64 --channels 8 --order 4321 --samples 1100"),
                               made_feed(2, "--format int16 --samples 600 --stamp-every 0"),
                               made_feed(3, "--format int8 --samples 0")], piece=20000),
    ]


def chance_case(seed):
    chance, feeds = random.Random(seed), []
    for number in chance.sample(range(1, 65536), chance.randint(1, 4)):
        samples = chance.choice((0, 1, chance.randint(2, 40), chance.randint(20, 80)))
        words = (f"--format {chance.choice(list(make_feed.SIZES))} --channels {chance.randint(1, 4)} "
                 f"--order {chance.choice((1234, 4321))} --stamp-every {chance.choice((0, 1, 10))} "
                 f"--samples {samples} --text-bytes {chance.randint(0, 60)}")
        cut = chance.randint(300, 2000) if chance.random() < 0.3 else None
        feeds.append(made_feed(number, words, chance.choice((None, None, chance.randint(1, 90))), cut))
    return Case(f"seed {seed}", chance.choice((1, 2, 7, 30)), chance.choice((1, 3, 10, 64)), feeds,
                chance.choice((137, 997)), chance.random() < 0.5)


class Run:
    """What a run of the recorder left."""

    def __init__(self, program, library, folder, kind, mode, at, case):
        out, report, self.mute = folder / OUT, folder.with_suffix(".report"), kind.mute
        out.unlink(missing_ok=True)
        if case.before is not None:
            out.write_bytes(case.before)
        there = {*os.listdir(folder), OUT}
        words = {"LD_PRELOAD": library, "FAIL_REPORT": report,
                 "FAIL_KIND": kind.calls, "FAIL_HOW": kind.how, "FAIL_AT": at}
        is_slow = kind.slow and mode == "threads"
        if kind.cut or is_slow:
            words["FAIL_PIECE"] = case.piece
        if is_slow:
            words["FAIL_PAUSE"] = PAUSE
        if kind.mute:
            words["FAIL_LINES"] = "all"
        try:
            done = subprocess.run([program, "record", "plan", OUT], cwd=folder, stdout=subprocess.PIPE,
                                  stderr=subprocess.PIPE, timeout=SECONDS,
                                  env={**os.environ, **{name: str(word) for name, word in words.items()}})
        except subprocess.TimeoutExpired as late:
            raise Wrong(f"it went on for {SECONDS} seconds") from late
        self.status, self.lines, self.said = done.returncode, done.stdout.decode("latin-1"), done.stderr
        self.out = out.read_bytes() if out.exists() else None
        self.more = set(os.listdir(folder)) - there
        self.counted, self.touched, self.before, name = struct.unpack("<QQQ64s", report.read_bytes())
        self.name = name.rstrip(b"\0").decode()


def allowed(case, kind, run, own):
    """The statuses that the manual has for such a failure; `own` is that of a run without one."""
    harmless = kind.how in ("interrupted", "half") or (kind.how == "short" and run.touched < 2)
    if run.touched == 0 or harmless:
        return {own}
    if kind.calls == "read":
        return {own} if run.name.endswith(".feed") else {4}
    if kind.calls == "open":
        # Where no new file can be made, an empty one that is there is taken.
        return {4, own} if case.before is not None and run.name in (OUT, "./") else {4}
    # An input that there is no memory to remember by can't be opened.
    return {"allocation": {own, 9, 4}, "look": {4}, "write": {5}, "line": {8}, "sync": {5}, "thread": {own}}[kind.calls]


def want_lines(run, *found):
    found = ("",) if run.mute else found
    if run.lines not in found:
        raise Wrong(f"status {run.status} with the lines {run.lines!r}, and not {found[0]!r}")


def listed_of(case, streams):
    return [judge.Stream(*stream, case.ring) for stream in streams]


def judge_whole(case, mode, run, streams):
    """The output must be a whole recording; the lines that go with it."""
    if run.out is None:
        raise Wrong("there is no output")
    said = judge.read_file(judge.File(run.out), listed_of(case, streams), case.batch)
    if mode == "turns":
        model, model_said = expected.recording(case.ring, case.batch, streams)
        if (model, model_said) != (run.out, said):
            raise Wrong(f"{differs(run.out, model)} the recording by turns")
    return said


def differs(out, model):
    place = next((k for k, (one, other) in enumerate(zip(out, model)) if one != other), min(len(out), len(model)))
    return f"from {place} on it isn't"


def judge_front(case, mode, run, streams):
    """The output must be a front of a recording; by turns there is only one."""
    if run.out is None:
        raise Wrong("there is no output")
    try:
        judge.read_file(judge.File(run.out), listed_of(case, streams), case.batch)
    except judge.Ends:
        pass
    if mode == "turns":
        model, _ = expected.recording(case.ring, case.batch, streams)
        if not model.startswith(run.out):
            raise Wrong(f"{differs(run.out, model)} a front of the recording by turns")


def is_whole(case, mode, run, streams):
    try:
        judge_whole(case, mode, run, streams)
        return True
    except Wrong:
        return False


def judge_no_memory(case, mode, run, streams):
    """The output is as it was or a front; with numbers alone no memory is taken while the file is written."""
    if run.out == case.before:
        want_lines(run, "fault 9\n", "")
        return
    want_lines(run, "fault 9\n")
    judge_front(case, mode, run, streams)
    if not case.has_texts and not is_whole(case, mode, run, streams):
        raise Wrong("memory ran out in the midst of a recording of numbers")


def judge_sentence(kind, run):
    """On standard error stands one sentence for each refusal, if there is memory for it, and for a read of a feed that failed."""
    there = run.said != b""
    if there and not (run.said.endswith(b"\n") and run.said.count(b"\n") == 1 and run.said.strip()):
        raise Wrong(f"no sentence: {run.said!r}")
    broken = kind.calls == "read" and kind.how == "fail" and run.touched
    if run.status >= 2 and not there and kind.calls != "allocation":
        raise Wrong(f"status {run.status} without a sentence")
    if run.status < 2 and there != bool(broken):
        raise Wrong(f"status {run.status} with {run.said!r}")


def judge_run(case, mode, kind, run, spoil=None):
    """Raises Wrong, or answers what the output is."""
    broken = kind.calls == "read" and kind.how == "fail" and run.touched
    streams = case.streams_broken(run.name, run.before) if broken else case.streams
    own = 0 if all(end.split()[0] in GOOD_ENDS for *_, end in streams) else 1
    run.out, streams = spoiled(run.out, streams, spoil)
    may = allowed(case, kind, run, own)
    if kind.mute:
        may = {8 if status in (0, 1) else status for status in may}
    if run.status not in may:
        raise Wrong(f"status {run.status}, and not {' or '.join(map(str, sorted(may)))}; {run.name} {run.lines!r}")
    if run.more:
        raise Wrong(f"there came more files: {run.more}")
    judge_sentence(kind, run)
    if run.status in (0, 1):
        want_lines(run, judge_whole(case, mode, run, streams))
    elif run.status == 4:
        want_lines(run, "fault 4\n")
        if run.out != case.before:
            raise Wrong("status 4, and the output isn't as it was")
    elif run.status == 5 and kind.calls == "sync":
        want_lines(run, judge_whole(case, mode, run, streams) + "fault 5\n")
    elif run.status == 5:
        want_lines(run, "fault 5\n")
        judge_front(case, mode, run, streams)
    elif run.status == 8:
        said = judge_whole(case, mode, run, streams)
        if not said.startswith(run.lines):
            raise Wrong(f"the lines {run.lines!r} don't begin {said!r}")
    elif run.status == 9:
        judge_no_memory(case, mode, run, streams)
    if run.out == case.before:
        return "as it was"
    return "whole" if run.status not in (5, 9) or is_whole(case, mode, run, streams) else "a front"


def spoiled(out, streams, spoil):
    """What the judgement has to find: a wrong output, or feeds that are others than those recorded."""
    if spoil == "sample":
        return out, [(number, document, texts[:-1] + [texts[-1][:-1] + b"?"] if texts else texts, end)
                     for number, document, texts, end in streams]
    if not out or spoil is None:
        return out, streams
    if spoil == "byte":
        place = len(out) // 2
        return out[:place] + bytes([out[place] ^ 1]) + out[place + 1:], streams
    if spoil == "tail":
        return out + b"\x00", streams
    place = 4
    while place + 16 < len(out):
        size, behind = judge.File(out).number(place)
        if out[behind] == 3:
            return out[:place] + out[behind + size:], streams
        place = behind + size
    return out, streams


class Found:
    """What the runs of one kind and mode came to."""

    def __init__(self):
        self.runs, self.first = 0, None
        self.statuses, self.outputs = collections.Counter(), collections.Counter()


def sweep(options, library, scratch, name, mode):
    """Each call of one kind fails in turn, in each plan."""
    kind, found = KINDS[name], Found()
    for place, case in enumerate(options.cases):
        folder = scratch / f"{name}-{mode}-{place}"
        folder.mkdir()
        case.write(folder, mode)
        for at in range(1, MOST_RUNS):
            found.runs += 1
            try:
                run = Run(options.program, library, folder, kind, mode, at, case)
                found.statuses[run.status] += 1
                found.outputs[judge_run(case, mode, kind, run, options.spoil)] += 1
            except Wrong as wrong:
                if found.first is None:
                    found.first = f"plan {case.name}, call {at}: {wrong}"
                    shutil.copytree(folder, scratch / f"found-{name}-{mode}")
                if "seconds" in str(wrong):
                    break
            if run.touched == 0:
                break
        shutil.rmtree(folder)
    return found


def row(name, mode, found):
    statuses, outputs = (", ".join(f"{what}: {count}" for what, count in sorted(counts.items()))
                         for counts in (found.statuses, found.outputs))
    return f"| {name} | {mode} | {found.runs} | {statuses} | {outputs} | {found.first or 'none'} |"


def sweep_all(options, library, scratch):
    """Prints the table; whether there was no difference."""
    print("| Kind | Mode | Runs | Statuses | Outputs | The first difference |\n|---|---|--:|---|---|---|", flush=True)
    pairs = [(name, mode) for name in options.kind or KINDS for mode in options.mode or MODES]
    good = True
    with ThreadPoolExecutor(options.jobs) as jobs:
        work = [jobs.submit(sweep, options, library, scratch, *pair) for pair in pairs]
        for pair, each in zip(pairs, work):
            found = each.result()
            good &= found.first is None
            print(row(*pair, found), flush=True)
    return good


def main():
    words = argparse.ArgumentParser(description=__doc__, formatter_class=argparse.RawDescriptionHelpFormatter)
    words.add_argument("--program", type=Path, default=TOP / "crates/record_cli/out/record_cli", help="the recorder")
    words.add_argument("--kind", action="append", choices=list(KINDS), help="all where none is named")
    words.add_argument("--mode", action="append", choices=MODES, help="both where none is named")
    words.add_argument("--case", action="append", help="only this of the fixed plans; may be given again")
    words.add_argument("--plans", type=int, default=4, help="how many chance plans beside the fixed ones")
    words.add_argument("--seed", type=int, default=1, help="the seed of the first; the next has the next number")
    words.add_argument("--jobs", type=int, default=2, help="how many lines are worked on at once")
    words.add_argument("--spoil", choices=SPOILS, help="a trial of the judgement, which must find it: a byte of each "
                       "output is turned, a chunk left out, a feed's last sample another, a byte added")
    words.add_argument("--scratch", default="/dev/shm", help="a folder of a file system in memory")
    options = words.parse_args()
    options.program = options.program.resolve()
    options.cases = [case for case in fixed_cases() if not options.case or case.name in options.case]
    options.cases += [chance_case(options.seed + k) for k in range(options.plans)]
    scratch = Path(tempfile.mkdtemp(dir=options.scratch, prefix="faults-"))
    library = scratch / "failing.so"
    subprocess.run(["gcc", "-std=c11", "-O2", "-shared", "-fPIC", "-o", library, TOP / "bench/failing.c"], check=True)
    began = time.monotonic()
    good = sweep_all(options, library, scratch)
    print(f"\n{len(options.cases)} plans, {time.monotonic() - began:.0f} s")
    if not good:
        sys.exit(f"failed: there are differences; what they left is in {scratch}")
    shutil.rmtree(scratch)


if __name__ == "__main__":
    main()
