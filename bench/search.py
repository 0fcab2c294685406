#!/usr/bin/env python3
"""Tries `repair --search` on damaged files, and measures it.

First files of chance chunks that are damaged in chance ways: bytes overwritten, changed, left out,
put in, cut off. What the repair must write and say is worked out here from docs/FORMAT.md alone.
Then some of them with one call to the outside failing: the first of its kind, the second, and so on.
Then a recording of some 300 MB: the search over 100 damaged places beside the plain repair of the
undamaged file, and the search over random bytes beside `grep -c` of the boundary's bytes.
"""

import argparse
import os
import random
import re
import statistics
import struct
import subprocess
import sys
import tempfile
from pathlib import Path

TOP = Path(__file__).resolve().parent.parent
BOUNDARY = bytes.fromhex("43A546DCCBF5410FB30ED5467383CBE4")
SIZES = {b"int8": 1, b"int16": 2, b"int32": 4, b"int64": 8, b"float32": 4, b"double64": 8, b"string": 0}
LENGTH_LIMIT = 67108864
# The limits: how many times the processor time of the plain repair, and of grep.
REPAIR_LIMIT, GREP_LIMIT = 2.0, 4.0


class Failed(Exception):
    """A repair that isn't as it must be."""


# ---- what must be kept, by docs/FORMAT.md


def number_at(b, p, end):
    """The variable-length integer at p and the place behind it, or None where none stands whole before the end."""
    if p >= end or b[p] not in (1, 4, 8) or p + 1 + b[p] > end:
        return None
    behind = p + 1 + b[p]
    return int.from_bytes(b[p + 1 : behind], "little"), behind


def shape_of(document):
    """The channels and the bytes of a value that a header document tells, or None."""
    counts = re.search(rb"<channel_count>(.{0,22})", document, re.S)
    forms = re.search(rb"<channel_format>(.{0,30})", document, re.S)
    count = counts and re.match(rb"([0-9]{1,5})</channel_count>", counts[1])
    form = forms and re.match(rb"(int8|int16|int32|int64|float32|double64|string)</channel_format>", forms[1])
    if not count or not form or not 1 <= int(count[1]) <= 4096:
        return None
    return int(count[1]), SIZES[form[1]]


def samples_end(b, p, end, shape, count):
    """The place behind so many samples, or None."""
    channels, size = shape
    for _ in range(count):
        if p >= end or b[p] not in (0, 8):
            return None
        p += 1 + b[p]
        if size:
            p += channels * size
        else:
            for _ in range(channels):
                text = number_at(b, p, end)
                if text is None:
                    return None
                p = text[1] + text[0]
        if p > end:
            return None
    return p


def whole_at(b, p, known):
    """The place behind the whole chunk at p, or None; a header makes its stream known."""
    length = number_at(b, p, len(b))
    if length is None or not 2 <= length[0] <= LENGTH_LIMIT or length[1] + length[0] > len(b):
        return None
    end = length[1] + length[0]
    (tag,), q = struct.unpack_from("<H", b, length[1]), length[1] + 2
    if tag in (2, 3, 6):
        if end - q < 4:
            return None
        (stream,) = struct.unpack_from("<I", b, q)
        if tag == 2:
            shape = shape_of(b[q + 4 : end])
            if stream in known or shape is None:
                return None
            known[stream] = shape
            return end
        if stream not in known:
            return None
        if tag == 3:
            count = number_at(b, q + 4, end)
            if count is None or samples_end(b, count[1], end, known[stream], count[0]) != end:
                return None
    if tag == 4 and end - q != 20:
        return None
    if tag == 5 and b[q:end] != BOUNDARY:
        return None
    return end


def salvage(b):
    """The chunks that are kept, their number, and how many bytes are skipped."""
    kept, known, p, skipped = [b[:4]], {}, 4, 0
    while p < len(b):
        end = whole_at(b, p, known)
        if end is not None:
            kept.append(b[p:end])
        else:
            found = b.find(BOUNDARY, p)
            end = len(b) if found < 0 else found + 16
            skipped += end - p
        p = end
    return b"".join(kept), len(kept) - 1, skipped


# ---- chance files


def number(chance, n):
    fits = [width for width in (1, 4, 8) if n < 256**width]
    width = fits[0] if chance.random() < 0.8 else chance.choice(fits)
    return bytes([width]) + n.to_bytes(width, "little")


def chunk(chance, tag, content):
    return number(chance, 2 + len(content)) + struct.pack("<H", tag) + content


def document(channels, form):
    return b"<info><channel_count>%d</channel_count><channel_format>%s</channel_format></info>" % (channels, form)


def some_bytes(chance, most):
    """Bytes among which a boundary's come often, whole or in part."""
    parts = [chance.randbytes(chance.randrange(most + 1))]
    while chance.random() < 0.3:
        first = chance.choice((0, 0, 0, 1, 8))
        parts += [BOUNDARY[first : chance.choice((16, 16, 15, 7))], chance.randbytes(chance.randrange(4))]
    return b"".join(parts)


def samples(chance, stream, shape):
    channels, size = shape
    count = chance.choice((0, 1, 2, 5, 40))
    parts = [struct.pack("<I", stream), number(chance, count)]
    for _ in range(count):
        parts.append(b"\0" if chance.random() < 0.5 else b"\x08" + chance.randbytes(8))
        for _ in range(channels):
            text = some_bytes(chance, 20) if size == 0 else chance.randbytes(size)
            parts.append(number(chance, len(text)) + text if size == 0 else text)
    return chunk(chance, 3, b"".join(parts))


def chance_file(chance):
    """The magic and some chunks: the headers first, mostly."""
    streams = {n: (chance.choice((1, 1, 2, 8)), chance.choice(list(SIZES))) for n in range(chance.choice((1, 2, 3)))}
    chunks = [chunk(chance, 1, b"<info><version>1.0</version></info>")]
    chunks += [chunk(chance, 2, struct.pack("<I", n) + document(*shape)) for n, shape in streams.items()]
    for _ in range(chance.randrange(30)):
        n = chance.choice(list(streams))
        channels, form = streams[n]
        kind = chance.random()
        if kind < 0.55:
            chunks.append(samples(chance, n, (channels, SIZES[form])))
        elif kind < 0.75:
            chunks.append(chunk(chance, 5, BOUNDARY))
        elif kind < 0.85:
            chunks.append(chunk(chance, 4, struct.pack("<I", n) + chance.randbytes(16)))
        elif kind < 0.92:
            chunks.append(chunk(chance, 6, struct.pack("<I", n) + b"<info/>"))
        else:
            chunks.append(chunk(chance, chance.choice((0, 7, 1, 65535)), some_bytes(chance, 40)))
    return b"XDF:" + b"".join(chunks)


def damage(chance, b):
    """The file with some of its bytes otherwise, behind the magic."""
    b = bytearray(b)
    for _ in range(chance.choice((0, 1, 1, 1, 2, 3, 6))):
        if len(b) < 6:
            break
        at, size = chance.randrange(4, len(b)), chance.choice((1, 1, 2, 8, 64))
        kind = chance.randrange(6)
        if kind == 0:
            b[at : at + size] = bytes(len(b[at : at + size]))
        elif kind == 1:
            b[at : at + size] = chance.randbytes(len(b[at : at + size]))
        elif kind == 2:
            b[at] ^= 1 << chance.randrange(8)
        elif kind == 3:
            del b[at : at + size]
        elif kind == 4:
            # (now and then so many that the search takes several pieces, with a boundary near the end of one)
            many = chance.randbytes(max(0, 65_536 * chance.randrange(1, 3) - at + chance.randrange(-40, 40)))
            b[at:at] = some_bytes(chance, size) if chance.random() < 0.8 else many + some_bytes(chance, size)
        else:
            del b[at:]
    return bytes(b)


def run(program, words, folder):
    done = subprocess.run([program, *words], cwd=folder, stdout=subprocess.PIPE, text=True)
    return done.returncode, done.stdout


def try_files(program, folder, count, seed):
    skips = 0
    for n in range(count):
        b = damage(random.Random(seed + n), chance_file(random.Random(seed + n)))
        want, chunks, skipped = salvage(b)
        skips += skipped > 0
        (folder / "in.xdf").write_bytes(b)
        (folder / "out.xdf").unlink(missing_ok=True)
        status, lines = run(program, ["repair", "--search", "in.xdf", "out.xdf"], folder)
        said = f"kept {chunks} bytes {len(want)} skipped {skipped}\n"
        if (status, lines) != (int(skipped > 0), said) or (folder / "out.xdf").read_bytes() != want:
            raise Failed(f"seed {seed + n}: status {status}, {lines.strip()}, and not {said.strip()}")
    print(f"{count} chance files, of which {skips} have damage: no difference")


# ---- with one call failing

# The calls that fail, how, and the statuses that this may have; `done` stands for 0 and 1. Where there is no room to
# remember the input, it can't be opened; and the half of one byte is all of it.
KINDS = [("allocation", "fail", (9, 4, "done")), ("read", "fail", (4,)), ("read", "interrupted", ("done",)),
         ("write", "fail", (5,)), ("write", "short", (5, "done")), ("write", "half", ("done",)),
         ("write", "interrupted", ("done",)), ("line", "fail", (8,)), ("open", "fail", (4,)),
         ("look", "fail", (4,)), ("sync", "fail", (5,))]


def judge(kind, status, lines, out, want, said, allowed):
    """What is wrong with a repair of which a call failed, or None."""
    told = "done" if status in (0, 1) else status
    if told not in allowed:
        return f"status {status}"
    whole = out == want
    if not want.startswith(out or b""):
        return "the output is no front of what is kept"
    if told == "done" and not (whole and lines == said):
        return "done, and not all of it"
    if told == 8 and not (whole and said.startswith(lines)):
        return "the output isn't whole, or the line is another"
    if told == 5 and lines != (said + "fault 5\n" if kind == "sync" else "fault 5\n"):
        return "another line"
    if told == 5 and kind == "sync" and not whole:
        return "the output isn't whole"
    # (where the words of the command line find no room, nothing is said)
    if told in (4, 9) and lines != f"fault {told}\n" and not (told == 9 and out is None and lines == ""):
        return "another line"
    return None


def try_faults(program, folder, count, seed):
    library = folder / "failing.so"
    done = subprocess.run(["gcc", "-std=c11", "-O2", "-shared", "-fPIC", "-o", library, TOP / "bench/failing.c", "-ldl"],
                          capture_output=True, text=True)
    if done.returncode != 0:
        raise Failed(f"failing.c isn't built:\n{done.stderr}")
    runs = 0
    for n in range(count):
        b = damage(random.Random(seed + n), chance_file(random.Random(seed + n)))
        want, chunks, skipped = salvage(b)
        said = f"kept {chunks} bytes {len(want)} skipped {skipped}\n"
        (folder / "in.xdf").write_bytes(b)
        for kind, how, allowed in KINDS:
            for at in range(1, 1000):
                (folder / "out.xdf").unlink(missing_ok=True)
                (folder / "report").unlink(missing_ok=True)
                words = {"LD_PRELOAD": library, "FAIL_REPORT": folder / "report", "FAIL_KIND": kind, "FAIL_HOW": how,
                         "FAIL_AT": at, "FAIL_PIECE": 50}
                ran = subprocess.run([program, "repair", "--search", "in.xdf", "out.xdf"], cwd=folder,
                                     stdout=subprocess.PIPE, stderr=subprocess.PIPE, text=True,
                                     env={**os.environ, **{name: str(word) for name, word in words.items()}})
                touched = struct.unpack_from("<QQ", (folder / "report").read_bytes())[1]
                if touched == 0:
                    break
                out = folder / "out.xdf"
                wrong = judge(kind, ran.returncode, ran.stdout, out.read_bytes() if out.exists() else None, want, said,
                              allowed)
                # a refusal has one sentence, if there is memory for it
                least = 0 if kind == "allocation" else 1
                if not wrong and ran.returncode >= 2 and not least <= ran.stderr.count("\n") <= 1:
                    wrong = f"no sentence but {ran.stderr!r}"
                if wrong:
                    raise Failed(f"seed {seed + n}, {kind} {how} {at}: {wrong}, with {ran.stdout!r}")
                runs += 1
    print(f"{runs} searches with a call failing: no difference")


# ---- what it takes


def processor_time(words, folder, statuses):
    """The processor time in seconds of a program, and its status."""
    with open(os.devnull, "wb") as null:
        started = subprocess.Popen(words, cwd=folder, stdout=null, env={**os.environ, "LC_ALL": "C"})
        _, status, used = os.wait4(started.pid, 0)
    started.returncode = os.waitstatus_to_exitcode(status)
    if started.returncode not in statuses:
        raise Failed(f"{words[:3]} ends with {started.returncode}")
    return used.ru_utime + used.ru_stime


def compare(name, one, other, limit, repeats):
    """How many times the time of the other the one takes: the median of some pairs."""
    times = [(one(), other()) for _ in range(repeats)]
    ratio = statistics.median(a / b for a, b in times)
    mine, its = (statistics.median(column) for column in zip(*times))
    print(f"{name}: {mine:.3f} s beside {its:.3f} s, {ratio:.2f} times (at most {limit:g})")
    return ratio <= limit


def make_recording(program, folder, megabytes):
    """A recording of 32 channels of some MB, as the recorder writes it."""
    channels = 32
    count = int(megabytes * 1e6 / (9 + 4 * channels))
    subprocess.run([sys.executable, TOP / "bench/make_feed.py", folder / "one", "--channels", str(channels),
                    "--samples", str(count)], check=True)
    (folder / "plan").write_text("mode turns\nring 512\nbatch 512\nfeed 1 doc one.xml file one.feed\n")
    status, lines = run(program, ["record", "plan", "whole.xdf"], folder)
    if status != 0:
        raise Failed(f"record says {status}: {lines}")
    (folder / "one.feed").unlink()


def measure(program, folder, options):
    make_recording(program, folder, options.megabytes)
    whole = (folder / "whole.xdf").read_bytes()
    damaged = bytearray(whole)
    step = (len(whole) - 1000) // options.places
    for n in range(options.places):
        at = 1000 + n * step + step // 2
        damaged[at : at + 64] = bytes(64)
    (folder / "damaged.xdf").write_bytes(damaged)
    chance, pieces = random.Random(1), len(whole) // 1_000_000
    (folder / "random.xdf").write_bytes(b"XDF:" + b"".join(chance.randbytes(1_000_000) for _ in range(pieces)))
    del whole, damaged

    def repair(words, statuses):
        (folder / "out.xdf").unlink(missing_ok=True)
        return processor_time([program, "repair", *words, "out.xdf"], folder, statuses)

    good = compare(f"search over {options.places} damaged places beside repair of the whole file",
                   lambda: repair(["--search", "damaged.xdf"], (1,)), lambda: repair(["whole.xdf"], (0,)),
                   REPAIR_LIMIT, options.repeats)
    status, lines = run(program, ["repair", "--search", "damaged.xdf", "again.xdf"], folder)
    print(f"of {(folder / 'damaged.xdf').stat().st_size} bytes {lines.strip()}")
    grep = ["grep", "-c", "-a", "-F", "-e", BOUNDARY, "random.xdf"]
    good &= compare("search over random bytes beside grep -c of the boundary's bytes",
                    lambda: repair(["--search", "random.xdf"], (1,)), lambda: processor_time(grep, folder, (0, 1)),
                    GREP_LIMIT, options.repeats)
    return good


def main():
    parser = argparse.ArgumentParser(description=__doc__.splitlines()[0])
    parser.add_argument("--program", default=str(TOP / "crates/record_cli/out/record_cli"))
    parser.add_argument("--files", type=int, default=5000, help="how many chance files are tried")
    parser.add_argument("--faults", type=int, default=40, help="how many of them with calls that fail")
    parser.add_argument("--seed", type=int, default=1)
    parser.add_argument("--megabytes", type=float, default=300, help="the size of the file that is measured; 0 for none")
    parser.add_argument("--places", type=int, default=100, help="how many places of it are damaged")
    parser.add_argument("--repeats", type=int, default=5)
    options = parser.parse_args()
    program = str(Path(options.program).resolve())
    with tempfile.TemporaryDirectory(prefix="search-") as scratch:
        try:
            try_files(program, Path(scratch), options.files, options.seed)
            try_faults(program, Path(scratch), options.faults, options.seed)
            good = options.megabytes == 0 or measure(program, Path(scratch), options)
        except Failed as failed:
            print(f"FAILED: {failed}")
            return 1
    return 0 if good else 1


if __name__ == "__main__":
    sys.exit(main())
