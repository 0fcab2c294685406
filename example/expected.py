#!/usr/bin/env python3
"""What the recorder must say of a plan by turns, and the file that it must write.

    expected.py PLAN [OUT]

prints the lines, and with OUT writes the file. It is worked out from the rules of
docs/FORMAT.md alone: whole lists and slices, no buffers and no ring. So it is a check
of the recorder that shares nothing with it. It knows plans of captured feeds whose
replies are accepted, and isn't made for large ones.
"""

import re
import struct
import sys
from pathlib import Path

SIZES = {"int8": 1, "int16": 2, "int32": 4, "int64": 8, "float32": 4, "double64": 8, "string": 0}
VERSION = b'<?xml version="1.0"?><info><version>1.0</version></info>'
LEDGER = (b'<?xml version="1.0"?><info><name>overruns</name><type>ledger</type><channel_count>3'
          b"</channel_count><nominal_srate>0</nominal_srate><channel_format>int64</channel_format></info>")
FOOTER = '<?xml version="1.0"?><info><sample_count>%d</sample_count><overruns>%d</overruns></info>'
BOUNDARY = bytes.fromhex("43A546DCCBF5410FB30ED5467383CBE4")
GROUP_LIMIT, BOUNDARY_AFTER, TEXT_LIMIT = 1048576, 65536, 16777216


class End(Exception):
    """How a feed ends where no further sample stands whole."""


def number(n):
    """A variable-length integer of the least width."""
    width = 1 if n < 2**8 else 4 if n < 2**32 else 8
    return bytes([width]) + n.to_bytes(width, "little")


def chunk(tag, content):
    return number(2 + len(content)) + struct.pack("<H", tag) + content


def samples_chunk(stream, texts):
    return chunk(3, struct.pack("<I", stream) + number(len(texts)) + b"".join(texts))


def row(stream, first, count):
    return b"\x00" + struct.pack("<qqq", stream, first, count)


def read_plan(text):
    plan = {"ring": 4096, "batch": 512, "mode": "threads"}
    feeds = []
    for line in text.split("\n"):
        words = line.rstrip("\r").split()
        if not words or line.startswith("#"):
            continue
        if words[0] == "feed":
            assert words[2] == "doc" and words[4] == "file", "not a captured feed"
            feeds.append((int(words[1]), words[3], words[5], int(words[7]) if len(words) == 8 else None))
        else:
            plan[words[0]] = words[1] if words[0] == "mode" else int(words[1])
    assert plan["mode"] == "turns", "not by turns"
    return plan["ring"], plan["batch"], feeds


def shape(document):
    count = re.search(rb"<channel_count>(\d{1,5})</channel_count>", document)
    form = re.search(rb"<channel_format>(\w+)</channel_format>", document)
    return int(count[1]), SIZES[form[1].decode()]


def byte_order(reply):
    lines = reply.decode("latin-1").split("\r\n")
    fields = {name.strip().lower(): value.split(";")[0].strip()
              for name, _, value in (line.partition(":") for line in lines[1:] if ":" in line)}
    agreed = fields.get("data-protocol-version") == "110" and fields.get("suppress-subnormals", "0") == "0"
    assert agreed and re.fullmatch(r"LSL/1\d\d 2\d\d( .*)?", lines[0]), "a refused reply"
    return {"1234": "little", "4321": "big"}[fields["byte-order"]]


def sample_at(feed, at, channels, size, order):
    """The text in a file of the sample that begins at `at`, and where the next begins."""
    place = at

    def take(count):
        nonlocal place
        if place + count > len(feed):
            raise End(f"torn-sample {at}")
        place += count
        return feed[place - count:place]

    def in_file_order(text):
        return text if order == "little" else text[::-1]

    tag = take(1)[0]
    if tag not in (1, 2):
        raise End(f"bad-tag {at} {tag}")
    text = b"\x00" if tag == 1 else b"\x08" + in_file_order(take(8))
    room = TEXT_LIMIT
    for _ in range(channels):
        if size:
            text += in_file_order(take(size))
            continue
        start, width = place, take(1)[0]
        if width not in (1, 2, 4, 8):
            raise End(f"bad-width {start} {width}")
        length = int.from_bytes(take(width), order)
        if length > room:
            raise End(f"sample-too-long {start}")
        room -= length
        text += number(length) + take(length)
    return text, place


def feed_of(feed, channels, size, limit):
    """The texts of the samples of a feed, and its end."""
    texts = []
    try:
        reply, empty_line, _ = feed.partition(b"\r\n\r\n")
        if not empty_line:
            raise End("torn-reply")
        order, place = byte_order(reply), len(reply) + 4
        for _ in range(2):
            _, place = sample_at(feed, place, channels, size, order)
        while True:
            if len(texts) == limit:
                raise End("limit")
            if place == len(feed):
                raise End("whole")
            text, place = sample_at(feed, place, channels, size, order)
            texts.append(text)
    except End as end:
        return texts, str(end)


def groups(texts):
    """The texts of a run, divided into the longest groups that a chunk may have."""
    found, total = [], 0
    for text in texts:
        if not found or total + len(text) > GROUP_LIMIT:
            found.append([])
            total = 0
        found[-1].append(text)
        total += len(text)
    return found


def body(ring, batch, lists):
    """The Samples chunks by turns, and the rows. `lists` are pairs of an id and its samples."""
    chunks, rows, expected = [], [], {}
    for first in range(0, max([len(texts) for _, texts in lists], default=0), batch):
        for stream, texts in lists:
            end = min(first + batch, len(texts))
            kept = max(first, end - ring)
            if kept >= end:
                continue
            missing = kept - expected.get(stream, 0)
            if missing:
                rows.append((stream, kept - missing, missing))
                chunks.append(samples_chunk(0, [row(*rows[-1])]))
            chunks += [samples_chunk(stream, group) for group in groups(texts[kept:end])]
            expected[stream] = end
    return chunks, rows


def recording(ring, batch, streams):
    """The file and the lines. `streams` are an id, its document, its samples and its end each."""
    heads = [chunk(1, VERSION), chunk(2, struct.pack("<I", 0) + LEDGER)]
    heads += [chunk(2, struct.pack("<I", stream) + document) for stream, document, _, _ in streams]
    middle, rows = body(ring, batch, [(stream, texts) for stream, _, texts, _ in streams])
    out, chunks, mark, lines = bytearray(b"XDF:" + b"".join(heads)), len(heads), 0, []
    for text in middle:
        out += text
        chunks += 1
        if len(out) - mark >= BOUNDARY_AFTER:
            out += chunk(5, BOUNDARY)
            chunks += 1
            mark = len(out)
    out += chunk(6, struct.pack("<I", 0) + (FOOTER % (len(rows), 0)).encode())
    for stream, _, texts, end in streams:
        lost = sum(count for named, _, count in rows if named == stream)
        out += chunk(6, struct.pack("<I", stream) + (FOOTER % (len(texts) - lost, lost)).encode())
        lines.append(f"feed {stream} received {len(texts)} kept {len(texts) - lost} lost {lost} end {end}\n")
    lines.append(f"recorded bytes {len(out)} chunks {chunks + 1 + len(streams)}\n")
    return bytes(out), "".join(lines)


def main(plan_path, out_path=None):
    ring, batch, feeds = read_plan(Path(plan_path).read_text())
    streams = []
    for stream, doc_path, feed_path, limit in feeds:
        document = Path(doc_path).read_bytes()
        streams.append((stream, document, *feed_of(Path(feed_path).read_bytes(), *shape(document), limit)))
    out, lines = recording(ring, batch, streams)
    print(lines, end="")
    if out_path:
        Path(out_path).write_bytes(out)


if __name__ == "__main__":
    if len(sys.argv) not in (2, 3):
        sys.exit("expected.py PLAN [OUT]")
    main(*sys.argv[1:])
