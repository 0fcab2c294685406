#!/usr/bin/env python3
"""Makes the header documents and the feeds of this folder: eight seconds of a session.

Three streams, as the Lab Streaming Layer hands them out: brain waves, markers and a belt's
breath. What this script writes is what lies beside it, byte for byte, on every machine.
"""

import math
import struct
from pathlib import Path

START = 653215.25  # seconds of the clock of the machine that recorded
MARKERS = [
    "session start", "fixation", "stimulus face_03.png", "response left 412 ms",
    "fixation", "stimulus house_11.png", "response right 388 ms",
    "fixation", "stimulus face_07.png", "no response",
    '{"block": 1, "trials": 3, "hits": 2, "note": "' + "blinks a lot, " * 16 + 'go on"}',
    "session end",
]


def document(name, kind, channels, rate, form, source, uid, port, labels):
    """A header document in the form that liblsl gives it, tabs and all."""
    fields = [
        ("name", name), ("type", kind), ("channel_count", channels), ("channel_format", form),
        ("source_id", source), ("nominal_srate", rate), ("version", "1.100000000000000"),
        ("created_at", "653103.0276170000"), ("uid", uid), ("session_id", "default"),
        ("hostname", "lab-3"), ("v4address", ""), ("v4data_port", port), ("v4service_port", port),
        ("v6address", ""), ("v6data_port", port + 1), ("v6service_port", port + 1),
    ]
    lines = ['<?xml version="1.0"?>', "<info>"]
    lines += [f"\t<{key}>{value}</{key}>" if value != "" else f"\t<{key} />" for key, value in fields]
    lines += ["\t<desc>", "\t\t<channels>"]
    for label, unit in labels:
        lines += ["\t\t\t<channel>", f"\t\t\t\t<label>{label}</label>", f"\t\t\t\t<unit>{unit}</unit>",
                  f"\t\t\t\t<type>{kind}</type>", "\t\t\t</channel>"]
    lines += ["\t\t</channels>", "\t</desc>", "</info>", ""]
    return "\n".join(lines)


def reply(uid, order):
    """What an outlet answers to who asks for its samples."""
    lines = ["LSL/110 200 OK", f"UID: {uid}", f"Byte-Order: {order}", "Suppress-Subnormals: 0",
             "Data-Protocol-Version: 110", "", ""]
    return "\r\n".join(lines).encode()


def sample(mark, stamp, values, code):
    """A sample of a feed. `mark` is `<` or `>`, the byte order; `code` a number's format, or `s`."""
    text = b"\x01" if stamp is None else b"\x02" + struct.pack(mark + "d", stamp)
    for value in values:
        if code != "s":
            text += struct.pack(mark + code, value)
            continue
        words = value.encode()
        short = len(words) < 256
        text += struct.pack(mark + ("BB" if short else "BI"), 1 if short else 4, len(words)) + words
    return text


def test_samples(mark, channels, code, base):
    """The two samples of a test pattern that come before the first real one."""
    text = b""
    for offset in (4, 2):
        values = [(base + offset + c) * (1 if c % 2 == 0 else -1) for c in range(channels)]
        if code == "s":
            values = [str(10 + c) for c in range(channels)]
        text += sample(mark, 123456.789, values, code)
    return text


def wave(seconds, channel):
    """A channel's tension in microvolts, in the converter's steps of 1/32, so that no platform differs."""
    alpha = 18 * math.sin(2 * math.pi * 10.3 * seconds + 0.4 * channel)
    drift = 6 * math.sin(2 * math.pi * 0.7 * seconds + channel)
    return round(32 * (alpha + drift)) / 32


def breath(seconds):
    return round(9000 * math.sin(2 * math.pi * 0.3 * seconds))


def eeg_feed(uid):
    """Each of the 2000 samples has its stamp."""
    feed = reply(uid, "1234") + test_samples("<", 8, "f", 0)
    for k in range(2000):
        feed += sample("<", START + k / 250, [wave(k / 250, c) for c in range(8)], "f")
    return feed


def marker_feed(uid):
    feed = reply(uid, "1234") + test_samples("<", 1, "s", 0)
    for k, text in enumerate(MARKERS):
        feed += sample("<", START + 2 * k / 3, [text], "s")
    return feed


def breath_feed(uid):
    """The belt sends its 800 samples by tens, and stamps the first of each ten. Its highest byte comes first."""
    feed = reply(uid, "4321") + test_samples(">", 1, "h", 257)
    for k in range(800):
        stamp = START + k / 100 if k % 10 == 0 else None
        feed += sample(">", stamp, [breath(k / 100)], "h")
    return feed


def main():
    here = Path(__file__).parent
    places = ["Fp1", "Fp2", "C3", "C4", "P3", "P4", "O1", "O2"]
    streams = [
        ("eeg", eeg_feed, "3f0c2a52-8f1e-4b67-9a35-0d6f1c7e2b91",
         ("Amplifier", "EEG", 8, "250.0000000000000", "float32", "amplifier-0042"), [(p, "microvolts") for p in places]),
        ("markers", marker_feed, "b7e0d914-25c3-4f0a-8c1d-93a4e6f27d58",
         ("Stimuli", "Markers", 1, "0.000000000000000", "string", "stimuli-lab-3"), [("marker", "none")]),
        ("breath", breath_feed, "60d5b8c7-e94a-4d23-b1f6-5a7c08e3d4f2",
         ("Belt", "Respiration", 1, "100.0000000000000", "int16", "belt-7"), [("chest", "steps")]),
    ]
    for number, (name, feed, uid, about, labels) in enumerate(streams):
        text = document(*about, uid, 16572 + 2 * number, labels)
        (here / f"{name}.xml").write_bytes(text.encode())
        (here / f"{name}.feed").write_bytes(feed(uid))


if __name__ == "__main__":
    main()
