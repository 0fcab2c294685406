#!/usr/bin/env python3
"""A small LSL outlet that serves the three feeds of this folder, to try a recorder without an instrument.

    outlet.py [--pace] HOST PORT

listens at HOST, a name or an address of version 4, at three ports, one for each stream as
liblsl has it: PORT for `eeg`, PORT + 2 for `markers`, PORT + 4 for `breath`; or, where PORT is
0, at three that are free. It prints a line for each: name, host, port, uid. With PORT 16572
the ports are those that the header documents tell. It serves until Ctrl-C.

Each connection has a thread. `LSL:fullinfo` is answered by the header document, and
`LSL:streamfeed/110 UID` by the captured feed as it lies here, from its reply on, and then the
connection is closed. Another uid is answered by 404, and any other line by nothing. Not as
with liblsl, each client gets the feed from its beginning, whenever it comes. With `--pace`
the samples go out in about the time that their stamps tell; else as fast as they can.
"""

import argparse
import re
import socketserver
import struct
import sys
import threading
import time
from pathlib import Path

sys.dont_write_bytecode = True
import expected

HERE = Path(__file__).resolve().parent
NAMES = ["eeg", "markers", "breath"]
LINE_LIMIT, LINES_LIMIT, PATIENCE = 4098, 65, 10


def paced(feed, document):
    """Pieces of a feed, each with the second at which it goes out: its head, and then from stamp to stamp."""
    channels, size = expected.shape(document)
    reply, _, _ = feed.partition(b"\r\n\r\n")
    order, place = expected.byte_order(reply), len(reply) + 4
    for _ in range(2):
        _, place = expected.sample_at(feed, place, channels, size, order)
    start, due, first = 0, 0, None
    while place < len(feed):
        text, end = expected.sample_at(feed, place, channels, size, order)
        if text[0] == 8:
            stamp = struct.unpack("<d", text[1:9])[0]
            first = stamp if first is None else first
            yield due, feed[start:place]
            start, due = place, stamp - first
        place = end
    yield due, feed[start:]


class Service(socketserver.StreamRequestHandler):
    """Answers one connection."""

    timeout = PATIENCE
    disable_nagle_algorithm = True

    def handle(self):
        try:
            self.answer(self.rfile.readline(LINE_LIMIT).rstrip(b"\r\n"))
        except OSError:
            # a client that has all it wants closes the connection
            pass

    def answer(self, line):
        if line == b"LSL:fullinfo":
            self.wfile.write(self.server.document)
        elif line.startswith(b"LSL:streamfeed/110 ") and self.read_header_lines():
            if line.split(b" ", 1)[1].strip() == self.server.uid:
                self.send_feed()
            else:
                self.wfile.write(b"LSL/110 404 Not found\r\n\r\n")

    def read_header_lines(self):
        """Whether the request has its empty line. What the header lines ask for changes nothing."""
        return any(self.rfile.readline(LINE_LIMIT) == b"\r\n" for _ in range(LINES_LIMIT))

    def send_feed(self):
        self.connection.settimeout(None)
        feed, began = self.server.feed, time.monotonic()
        pieces = paced(feed, self.server.document) if self.server.pace else [(0, feed)]
        for due, piece in pieces:
            time.sleep(max(0, began + due - time.monotonic()))
            self.wfile.write(piece)


class Outlet(socketserver.ThreadingTCPServer):
    """One stream at a port of its own."""

    allow_reuse_address = True
    daemon_threads = True

    def __init__(self, host, port, name, pace):
        super().__init__((host, port), Service)
        self.document, self.feed = ((HERE / f"{name}.{end}").read_bytes() for end in ("xml", "feed"))
        self.uid, self.pace = re.search(rb"<uid>(.*?)</uid>", self.document)[1], pace


def main():
    words = argparse.ArgumentParser(description=__doc__, formatter_class=argparse.RawDescriptionHelpFormatter)
    words.add_argument("host")
    words.add_argument("port", type=int)
    words.add_argument("--pace", action="store_true", help="send the samples in about the time that their stamps tell")
    options = words.parse_args()
    outlets = []
    for number, name in enumerate(NAMES):
        port = options.port and options.port + 2 * number
        try:
            outlets.append(Outlet(options.host, port, name, options.pace))
        except (OSError, OverflowError) as fault:
            sys.exit(f"outlet.py: can't listen at {options.host} {port}: {fault}")
    for name, outlet in zip(NAMES, outlets):
        print(name, options.host, outlet.server_address[1], outlet.uid.decode(), flush=True)
        threading.Thread(target=outlet.serve_forever, daemon=True).start()
    try:
        threading.Event().wait()
    except KeyboardInterrupt:
        pass


if __name__ == "__main__":
    main()
