#!/usr/bin/env python3
"""Makes a large captured feed and its header document.

    make_feed.py NAME --format float32 --channels 64 --samples 1000000

writes NAME.feed and NAME.xml. A block of at most 4096 samples of chance bytes is made once
and repeated, so a feed is made about as fast as it is written. The same words give the
same bytes.
"""

import argparse
import random
import struct

SIZES = {"int8": 1, "int16": 2, "int32": 4, "int64": 8, "float32": 4, "double64": 8, "string": 0}
BLOCK = 4096
START = 653215.25


def document(channels, form):
    return (f'<?xml version="1.0"?>\n<info>\n\t<name>bench</name>\n\t<type>Bench</type>\n'
            f"\t<channel_count>{channels}</channel_count>\n\t<channel_format>{form}</channel_format>\n"
            f"\t<nominal_srate>1000.000000000000</nominal_srate>\n\t<desc />\n</info>\n")


def reply(order):
    lines = ["LSL/110 200 OK", "UID: bench", f"Byte-Order: {order}", "Suppress-Subnormals: 0",
             "Data-Protocol-Version: 110", "", ""]
    return "\r\n".join(lines).encode()


def sample(chance, options, number):
    """The sample of this number, as it stands in a feed."""
    mark = ">" if options.order == 4321 else "<"
    stamped = options.stamp_every and number % options.stamp_every == 0
    text = b"\x02" + struct.pack(mark + "d", START + number / 1000) if stamped else b"\x01"
    size = SIZES[options.format]
    if size:
        return text + chance.randbytes(size * options.channels)
    for _ in range(options.channels):
        length = chance.randint(0, 2 * options.text_bytes)
        text += (b"\x01" + bytes([length]) if length < 256 else struct.pack(mark + "BH", 2, length))
        text += bytes(chance.choices(range(97, 123), k=length))
    return text


def make(options):
    chance = random.Random(1)
    texts = [sample(chance, options, k) for k in range(BLOCK)]
    block = b"".join(texts)
    with open(options.name + ".xml", "w", encoding="ascii") as out:
        out.write(document(options.channels, options.format))
    with open(options.name + ".feed", "wb") as out:
        out.write(reply(options.order) + texts[0] + texts[1])
        for _ in range(options.samples // BLOCK):
            out.write(block)
        out.write(b"".join(texts[:options.samples % BLOCK]))


def sample_size(options):
    """About how many bytes a sample has."""
    if options.format == "string":
        values = options.channels * (2 + options.text_bytes)
    else:
        values = options.channels * SIZES[options.format]
    return 1 + (8 / options.stamp_every if options.stamp_every else 0) + values


def parser():
    words = argparse.ArgumentParser(description=__doc__, formatter_class=argparse.RawDescriptionHelpFormatter)
    words.add_argument("name")
    words.add_argument("--format", choices=list(SIZES), default="float32")
    words.add_argument("--channels", type=int, default=1)
    words.add_argument("--samples", type=int, default=1000000)
    words.add_argument("--stamp-every", type=int, default=1, help="each so manyth sample has a stamp; 0: none")
    words.add_argument("--text-bytes", type=int, default=20, help="the mean length of a text")
    words.add_argument("--order", type=int, choices=[1234, 4321], default=1234)
    return words


if __name__ == "__main__":
    make(parser().parse_args())
