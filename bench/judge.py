#!/usr/bin/env python3
"""Says whether a recording of either mode is one that docs/FORMAT.md allows, to the sample.

    judge.py PLAN OUT LINES [FOLDER]

By threads the batches are free, so there is no one file to compare with. What each feed has
is worked out by the rules of example/expected.py. Then the file is gone over from its front:
each byte of it must be what must stand there, once it is known which samples a chunk has and
what a row of the ledger names. A feed `tcp` is judged by what its outlet sent, which is in
FOLDER/ID.feed; the plan's folder where none is named.
"""

import struct
import sys
from pathlib import Path

sys.dont_write_bytecode = True
sys.path.insert(0, str(Path(__file__).resolve().parent.parent / "example"))
import expected


class Wrong(Exception):
    """What is wrong with a recording."""


class Ends(Wrong):
    """The bytes are over where more of the recording must stand; up to there nothing is wrong."""


class Stream:
    """A feed: what it has, and how far the file has come. `most_lost` is what its ring may drop."""

    def __init__(self, number, document, texts, end, ring):
        self.number, self.document, self.texts, self.end = number, document, texts, end
        self.most_lost = max(0, len(texts) - ring)
        self.next = self.kept = self.lost = 0


def read_plan(text):
    """The ring, the batch, and the feeds: id, document, captured bytes or none, limit."""
    settings, feeds = {"ring": 4096, "batch": 512}, []
    for line in text.split("\n"):
        words = line.split()
        if not words or line.startswith("#"):
            continue
        if words[0] != "feed":
            settings[words[0]] = words[1] if words[0] == "mode" else int(words[1])
            continue
        captured = words[5] if words[4] == "file" else None
        limit = int(words[-1]) if words[-2] == "limit" else None
        feeds.append((int(words[1]), words[3], captured, limit))
    return settings["ring"], settings["batch"], feeds


def streams_of(feeds, ring, base, folder):
    found = []
    for number, doc, captured, limit in feeds:
        document = (base / doc).read_bytes()
        feed = base / captured if captured else folder / f"{number}.feed"
        texts, end = expected.feed_of(feed.read_bytes(), *expected.shape(document), limit)
        found.append(Stream(number, document, texts, end, ring))
    return found


class File:
    """A recording's bytes, gone over from the front."""

    def __init__(self, data):
        self.data, self.place, self.chunks, self.mark = data, 0, 0, 0

    def want(self, text, what):
        found = self.data[self.place:self.place + len(text)]
        if not text.startswith(found):
            raise Wrong(f"at {self.place} isn't {what}")
        if len(found) < len(text):
            raise Ends(f"the file ends before {what}" if not found else f"at {self.place} the file ends in {what}")
        self.place += len(text)

    def want_chunk(self, tag, content, what):
        self.want(expected.chunk(tag, content), what)
        self.chunks += 1

    def number(self, place):
        """A number of variable length, and the place behind it."""
        if place == len(self.data):
            raise Ends(f"at {place} the file ends")
        width = self.data[place]
        if width not in (1, 4, 8):
            raise Wrong(f"at {place} is no length")
        if place + 1 + width > len(self.data):
            raise Ends(f"at {place} the file ends in a length")
        return int.from_bytes(self.data[place + 1:place + 1 + width], "little"), place + 1 + width

    def ends_in(self, place, fronts, what):
        """The bytes are over; what is there from `place` on must begin one of these."""
        found = self.data[place:]
        if not any(front.startswith(found[:len(front)]) for front in fronts):
            raise Wrong(f"at {place} is no {what}")
        raise Ends(f"at {self.place} the file ends in a {what}")

    def head(self, streams):
        """The tag, the stream and the place of the content of the chunk that comes next in the body."""
        if self.place == len(self.data):
            raise Ends("the file ends without its footers")
        _, place = self.number(self.place)
        if place + 6 > len(self.data):
            heads = [(3, 0), (6, 0), *((3, number) for number in streams)]
            self.ends_in(place, [struct.pack("<HI", *head) for head in heads], "chunk")
        return struct.unpack_from("<HI", self.data, place) + (place + 6,)

    def end_chunk(self):
        """Behind a chunk of samples a boundary stands where one is due."""
        if self.place - self.mark >= expected.BOUNDARY_AFTER:
            self.want_chunk(5, expected.BOUNDARY, "the boundary that is due")
            self.mark = self.place


def row_chunk(named, first, count):
    return expected.samples_chunk(0, [expected.row(named, first, count)])


def read_row(file, streams, at):
    """A row, which must name what comes next of a stream; and the stream."""
    _, place = file.number(at)
    if place + 25 > len(file.data):
        fronts = [row_chunk(stream.number, stream.next, 1)[:-8] for stream in streams.values()]
        file.ends_in(file.place, fronts, "row")
    named, first, count = struct.unpack_from("<qqq", file.data, place + 1)
    file.want(row_chunk(named, first, count), "one row of the ledger")
    file.chunks += 1
    stream = streams.get(named)
    if stream is None or first != stream.next or not 1 <= count < len(stream.texts) - first:
        raise Wrong(f"before {file.place} a row names {count} from {first} of stream {named}")
    stream.next += count
    stream.lost += count
    if stream.lost > stream.most_lost:
        raise Wrong(f"before {file.place} a row makes it {stream.lost} lost of stream {named}")
    file.end_chunk()
    return stream


def read_samples(file, stream, at, batch):
    """A chunk of samples, which must be the next ones of its stream, and no more than a batch."""
    count, _ = file.number(at)
    texts = stream.texts[stream.next:stream.next + count]
    if not 1 <= count <= batch or len(texts) != count:
        raise Wrong(f"at {file.place} are {count} samples of stream {stream.number} from {stream.next} on")
    if count > 1 and sum(map(len, texts)) > expected.GROUP_LIMIT:
        raise Wrong(f"the chunk at {file.place} is too long")
    head = struct.pack("<I", stream.number) + expected.number(count)
    file.want_chunk(3, head + b"".join(texts), f"stream {stream.number} from {stream.next} on")
    stream.next += count
    stream.kept += count
    file.end_chunk()


def read_body(file, streams, batch):
    """All up to the footers; the number of rows."""
    rows, named = 0, None
    while True:
        tag, number, at = file.head(streams)
        if tag != 3:
            break
        if number == 0:
            if named is not None:
                raise Wrong(f"the row before {file.place} has no sample behind it")
            named = read_row(file, streams, at)
            rows += 1
            continue
        if number not in streams or named not in (None, streams[number]):
            raise Wrong(f"at {file.place} are samples of stream {number}")
        read_samples(file, streams[number], at, batch)
        named = None
    if named is not None:
        raise Wrong(f"the row before {file.place} has no sample behind it")
    return rows


def read_file(file, listed, batch):
    """Goes over a file to its end. Raises Wrong, or answers the lines that go with it."""
    file.want(b"XDF:", "the magic")
    file.want_chunk(1, expected.VERSION, "the file's header")
    file.want_chunk(2, struct.pack("<I", 0) + expected.LEDGER, "the ledger's header")
    for stream in listed:
        file.want_chunk(2, struct.pack("<I", stream.number) + stream.document, f"the header of stream {stream.number}")
    rows = read_body(file, {stream.number: stream for stream in listed}, batch)
    for stream in listed:
        if stream.next != len(stream.texts):
            raise Wrong(f"stream {stream.number}: {stream.kept} kept and {stream.lost} lost of {len(stream.texts)}")
    file.want_chunk(6, struct.pack("<I", 0) + (expected.FOOTER % (rows, 0)).encode(), "the ledger's footer")
    said = []
    for stream in listed:
        footer = (expected.FOOTER % (stream.kept, stream.lost)).encode()
        file.want_chunk(6, struct.pack("<I", stream.number) + footer, f"the footer of stream {stream.number}")
        said.append(f"feed {stream.number} received {len(stream.texts)} kept {stream.kept} lost {stream.lost} "
                    f"end {stream.end}\n")
    if file.place != len(file.data):
        raise Wrong(f"at {file.place} the file goes on")
    said.append(f"recorded bytes {file.place} chunks {file.chunks}\n")
    return "".join(said)


def judge(plan_path, out, lines, folder=None):
    """Raises Wrong, or answers the streams as the file has them."""
    plan_path = Path(plan_path)
    ring, batch, feeds = read_plan(plan_path.read_text())
    listed = streams_of(feeds, ring, plan_path.parent, Path(folder or plan_path.parent))
    said = read_file(File(Path(out).read_bytes()), listed, batch)
    if lines != said:
        raise Wrong(f"the lines are\n{lines}and not\n{said}")
    return listed


if __name__ == "__main__":
    if len(sys.argv) not in (4, 5):
        sys.exit("judge.py PLAN OUT LINES [FOLDER]")
    try:
        judge(sys.argv[1], sys.argv[2], Path(sys.argv[3]).read_text(), *sys.argv[4:])
    except Wrong as wrong:
        sys.exit(f"wrong: {wrong}")
