#!/usr/bin/env python3
"""Captures a stream of an LSL outlet by TCP: its header document and its feed.

    capture.py HOST PORT UID OUT

HOST, PORT and UID are as in a plan's feed with `tcp`: PORT is the stream's `v4data_port`, or its
`v6data_port` for an address of version 6. The outlet is asked for its full info, the header
document, which goes into OUT.xml as it is; and, by a second connection, for the stream, with
the request that the recorder sends (docs/FORMAT.md). All that comes goes into OUT.feed, reply
and all, until the outlet closes the connection or Ctrl-C. So these lines of a plan record it:

    mode turns
    feed 1 doc OUT.xml file OUT.feed

Where the outlet refuses, no file is made. A file that has bytes is left as it is.
"""

import re
import socket
import sys
from pathlib import Path

SIZES = {b"int8": 1, b"int16": 2, b"int32": 4, b"int64": 8, b"float32": 4, b"double64": 8, b"string": 0}
REQUEST = ("LSL:streamfeed/110 {}\r\nNative-Byte-Order: 1234\r\nHas-IEEE754-Floats: 1\r\nSupports-Subnormals: 1\r\n"
           "Value-Size: {}\r\nData-Protocol-Version: 110\r\nMax-Buffer-Length: 36000\r\nMax-Chunk-Length: 0\r\n\r\n")
EMPTY_LINE = b"\r\n\r\n"
DOCUMENT_LIMIT, REPLY_LIMIT, PIECE, PATIENCE = 1048576, 266370, 65536, 10


class Refused(Exception):
    """Why there is no capture, or why it ends."""


def full_info(host, port):
    """The header document: all that comes until the outlet closes."""
    document = b""
    with socket.create_connection((host, port), PATIENCE) as peer:
        peer.sendall(b"LSL:fullinfo\r\n")
        while len(document) <= DOCUMENT_LIMIT and (piece := peer.recv(PIECE)):
            document += piece
    return document


def value_size(document):
    """The size of a value, 0 for texts, if the recorder finds a shape in the document."""
    count = re.search(rb"<channel_count>(?:([0-9]{1,5})</channel_count>)?", document)
    form = re.search(rb"<channel_format>(?:(\w+)</channel_format>)?", document)
    shaped = count and 1 <= int(count[1] or 0) <= 4096 and form and form[1] in SIZES
    if not shaped or len(document) > DOCUMENT_LIMIT:
        raise Refused("the full info is no header document: it tells no channel count or no format, or is too long")
    return SIZES[form[1]]


def read_reply(peer, uid, document):
    """All bytes that came with the reply, if it is of this stream."""
    got = b""
    while EMPTY_LINE not in got and len(got) <= REPLY_LIMIT and (piece := peer.recv(PIECE)):
        got += piece
    lines = got.partition(EMPTY_LINE)[0].split(b"\r\n")
    status = re.fullmatch(rb"LSL/([0-9]{1,9}) ([0-9]{1,9})(?: .*)?", lines[0], re.DOTALL)
    if not status:
        raise Refused("the answer is no reply of an LSL outlet")
    found = re.search(rb"<uid>([^<]*)</uid>", document)
    told = found[1].decode("latin-1") if found else "missing"
    if int(status[1]) >= 200 or int(status[2]) >= 300:
        raise Refused(f"{lines[0].decode('latin-1')}; the uid in the header document is {told}")
    if EMPTY_LINE not in got:
        raise Refused("the reply has no end")
    fields = {name.strip().lower(): value.split(b";")[0].strip()
              for name, _, value in (line.partition(b":") for line in lines[1:])}
    if fields.get(b"data-protocol-version") != b"110":
        raise Refused("the reply isn't of data protocol 1.10")
    if fields.get(b"uid") != uid.encode() or told != uid:
        raise Refused("the reply or the header document is of another stream")
    return got


def put(file, text):
    """Writes all of it behind what the file has, so none is emptied. There is no buffer that an end could lose."""
    try:
        while text:
            text = text[file.write(text):]
    except OSError as fault:
        raise Refused(f"{file.name}: {fault}") from fault


def capture(host, port, uid, out):
    outputs = [Path(f"{out}.xml"), Path(f"{out}.feed")]
    for path in outputs:
        if path.is_file() and path.stat().st_size:
            raise Refused(f"{path}: is there already and has bytes, and is left as it is")
    document = full_info(host, port)
    request = REQUEST.format(uid, value_size(document)).encode()
    with socket.create_connection((host, port), PATIENCE) as peer:
        peer.sendall(request)
        piece = read_reply(peer, uid, document)
        # an instrument at rest is waited for
        peer.settimeout(None)
        with outputs[0].open("ab", buffering=0) as xml, outputs[1].open("ab", buffering=0) as feed:
            put(xml, document)
            try:
                while piece:
                    put(feed, piece)
                    piece = peer.recv(PIECE)
            except KeyboardInterrupt:
                pass


def main(host, port, uid, out):
    try:
        if not re.fullmatch("[0-9]{1,5}", port) or not 1 <= int(port) <= 65535:
            raise Refused(f"{port}: a port is a number from 1 to 65535")
        capture(host, int(port), uid, out)
    except KeyboardInterrupt:
        sys.exit("capture.py: stopped before the reply")
    except Refused as fault:
        sys.exit(f"capture.py: {fault}")
    except (OSError, UnicodeError) as fault:
        where = "" if getattr(fault, "filename", None) else f"{host} {port}: "
        sys.exit(f"capture.py: {where}{fault}")


if __name__ == "__main__":
    if len(sys.argv) != 5:
        sys.exit("capture.py HOST PORT UID OUT")
    main(*sys.argv[1:])
