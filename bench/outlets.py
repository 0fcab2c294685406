#!/usr/bin/env python3
"""Outlets of one process, by TCP on loopback, as a recorder meets them in a lab.

    outlets.py FOLDER --feeds 3 --samples 5000 --rate 500

writes FOLDER/plan and the header documents, says `ready`, and then serves each feed once. An
outlet reads a request up to its empty line, and answers with the reply, two test samples and
the samples, at a rate or as fast as they go, in pieces of odd sizes with pauses where a seed
is given. What an outlet sent is in FOLDER/ID.feed once all are done, and FOLDER/captured is a
plan by turns of these files. So bench/judge.py and example/expected.py can judge what was
recorded. The same words give the same feeds, in the same pieces.

    (cd FOLDER && record_cli record plan out.xdf)

The other scripts take its classes.
"""

import argparse
import random
import socket
import struct
import sys
import threading
import time
from pathlib import Path

sys.dont_write_bytecode = True
import make_feed

REQUEST_LIMIT = 65536
PIECE = 65536


def reply(uid, order):
    lines = ["LSL/110 200 OK", f"UID: {uid}", f"Byte-Order: {order}", "Suppress-Subnormals: 0",
             "Data-Protocol-Version: 110", "", ""]
    return "\r\n".join(lines).encode()


class Feed:
    """All that an outlet may send, and where each sample ends in it."""

    def __init__(self, number, form="int16", channels=1, samples=1000, order=1234, stamp_every=1, text_bytes=20,
                 seed=0):
        self.number, self.form, self.channels, self.uid = number, form, channels, f"uid-{number}"
        options = argparse.Namespace(format=form, channels=channels, order=order, stamp_every=stamp_every,
                                     text_bytes=text_bytes)
        chance = random.Random(f"{seed} {number}")
        texts = [make_feed.sample(chance, options, k) for k in range(samples)]
        text = reply(self.uid, order) + 2 * make_feed.sample(chance, options, 0)
        self.head, self.ends, place = len(text), [], len(text)
        for each in texts:
            place += len(each)
            self.ends.append(place)
        self.data = text + b"".join(texts)

    def document(self):
        return make_feed.document(self.channels, self.form)


def at_once(feed):
    """Pieces of a feed, each with the pause before it: no pauses."""
    for first in range(0, len(feed.data), PIECE):
        yield 0, feed.data[first:first + PIECE]


def steady(feed, rate, burst=1):
    """Bursts of so many samples, at so many samples a second. Where a pause was too long, the next are shorter."""
    yield 0, feed.data[:feed.head]
    start, place = time.monotonic(), feed.head
    for last in range(burst, len(feed.ends) + burst, burst):
        end = feed.ends[min(last, len(feed.ends)) - 1]
        yield start + last / rate - time.monotonic(), feed.data[place:end]
        place = end


def odd(feed, chance, most, pause):
    """Pieces of up to so many bytes, cut anywhere, with some pauses of up to so many seconds."""
    place = 0
    while place < len(feed.data):
        count = chance.choice((1, 2, chance.randint(1, 40), chance.randint(1, most)))
        yield chance.random() * pause if chance.random() < 0.3 else 0, feed.data[place:place + count]
        place += count


class Outlet(threading.Thread):
    """Serves one feed once. `sent` is how many of its bytes went out, `times` when each piece did."""

    def __init__(self, feed, pieces, cut=None):
        super().__init__(daemon=True)
        self.feed, self.pieces, self.cut = feed, pieces, len(feed.data) if cut is None else cut
        self.request, self.sent, self.times, self.fault = b"", 0, [], None
        self.listener = socket.create_server(("127.0.0.1", 0))
        self.port = self.listener.getsockname()[1]

    def run(self):
        try:
            peer, _ = self.listener.accept()
            self.listener.close()
            with peer:
                self.serve(peer)
        except OSError as fault:
            # a recorder that has all it wants closes the connection
            self.fault = fault

    def serve(self, peer):
        peer.setsockopt(socket.IPPROTO_TCP, socket.TCP_NODELAY, 1)
        while b"\r\n\r\n" not in self.request:
            got = peer.recv(4096)
            if not got or len(self.request) > REQUEST_LIMIT:
                raise OSError("no request")
            self.request += got
        wanted = f"LSL:streamfeed/110 {self.feed.uid}\r\n".encode()
        if not self.request.startswith(wanted):
            peer.sendall(b"LSL/110 404 Not found\r\n\r\n")
            raise OSError(f"another request: {self.request[:60]}")
        for pause, piece in self.pieces(self.feed):
            if pause > 0:
                time.sleep(pause)
            piece = piece[:self.cut - self.sent]
            if not piece:
                break
            self.times.append((time.monotonic(), self.sent + len(piece)))
            peer.sendall(piece)
            self.sent += len(piece)


def start(folder, outlets, mode="threads", ring=4096, batch=512, limits=None):
    """Writes the plan and the header documents, and starts the outlets."""
    lines = [f"mode {mode}", f"ring {ring}", f"batch {batch}"]
    for outlet in outlets:
        feed = outlet.feed
        (folder / f"{feed.number}.xml").write_text(feed.document())
        limit = (limits or {}).get(feed.number)
        lines.append(f"feed {feed.number} doc {feed.number}.xml tcp 127.0.0.1 {outlet.port} {feed.uid}"
                     + (f" limit {limit}" if limit else ""))
        outlet.start()
    (folder / "plan").write_text("\n".join(lines) + "\n")


def finish(folder, outlets, timeout=60):
    """Waits for the outlets, and writes what each sent, and the plan of that. An outlet whose recorder went
    away may have sent less than it tried to."""
    for outlet in outlets:
        outlet.join(timeout)
        if outlet.is_alive():
            raise OSError(f"outlet {outlet.feed.number} still serves")
        sent = outlet.times[-1][1] if outlet.times else 0
        (folder / f"{outlet.feed.number}.feed").write_bytes(outlet.feed.data[:sent])
    lines = []
    for line in (folder / "plan").read_text().splitlines():
        words = line.split()
        if words[0] == "mode":
            line = "mode turns"
        elif words[0] == "feed":
            line = " ".join([*words[:4], "file", f"{words[1]}.feed", *words[8:]])
        lines.append(line)
    (folder / "captured").write_text("\n".join(lines) + "\n")


def parser():
    words = argparse.ArgumentParser(description=__doc__, formatter_class=argparse.RawDescriptionHelpFormatter)
    words.add_argument("folder", type=Path)
    words.add_argument("--feeds", type=int, default=1)
    words.add_argument("--format", choices=list(make_feed.SIZES), default="int16")
    words.add_argument("--channels", type=int, default=1)
    words.add_argument("--order", type=int, choices=[1234, 4321], default=1234)
    words.add_argument("--samples", type=int, default=1000)
    words.add_argument("--rate", type=float, default=0, help="samples a second; 0: as fast as they go")
    words.add_argument("--burst", type=int, default=1, help="how many samples go out together at a rate")
    words.add_argument("--seed", type=int, help="odd pieces and pauses by this seed, and no rate")
    words.add_argument("--limit", type=int, help="the limit of samples in the plan")
    words.add_argument("--mode", choices=["threads", "turns"], default="threads")
    words.add_argument("--ring", type=int, default=4096)
    words.add_argument("--batch", type=int, default=512)
    return words


def pieces_of(options, number):
    if options.seed is not None:
        return lambda feed: odd(feed, random.Random(f"{options.seed} {number}"), 4000, 0.005)
    if options.rate > 0:
        return lambda feed: steady(feed, options.rate, options.burst)
    return at_once


def main():
    options = parser().parse_args()
    options.folder.mkdir(parents=True, exist_ok=True)
    numbers = range(1, options.feeds + 1)
    outlets = [Outlet(Feed(number, options.format, options.channels, options.samples, options.order,
                           seed=options.seed or 0), pieces_of(options, number)) for number in numbers]
    limits = dict.fromkeys(numbers, options.limit)
    start(options.folder, outlets, options.mode, options.ring, options.batch, limits)
    print("ready", flush=True)
    finish(options.folder, outlets, timeout=None)
    for outlet in outlets:
        print(f"feed {outlet.feed.number} bytes {outlet.sent} of {outlet.cut}"
              + (f" {outlet.fault}" if outlet.fault else ""))


if __name__ == "__main__":
    main()
