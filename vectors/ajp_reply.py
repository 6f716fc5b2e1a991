#!/usr/bin/env python3
"""Payloads of an AJPv1.3 container, each with what it says or the first place that cannot be read.

Written from the public AJPv1.3 protocol reference ("Response Packet Structure", "Data Types") and apart from the
program's own code. It has two rules that the reference does not: a chunk may lack its last zero byte, and the length
FFFF is an absent string, which reads as an empty one.

    python3 vectors/ajp_reply.py > crates/checks/data/wire/reply.txt
"""

from ajp_data import Data, Refused, print_row

NAMES = {
    0xA001: "Content-Type", 0xA002: "Content-Language", 0xA003: "Content-Length", 0xA004: "Date",
    0xA005: "Last-Modified", 0xA006: "Location", 0xA007: "Set-Cookie", 0xA008: "Set-Cookie2",
    0xA009: "Servlet-Engine", 0xA00A: "Status", 0xA00B: "WWW-Authenticate",
}


class Reader(Data):
    def string(self):
        length = self.integer()
        return b"" if length == 0xFFFF else self.text(length)

    def name(self):
        at = self.at
        first = self.integer()
        if first == 0xFFFF:
            return b""
        if first < 0xA000:
            return self.text(first)
        if first not in NAMES:
            raise Refused("BadCode", at)
        return NAMES[first].encode()

    def end(self, said):
        if self.at < len(self.payload):
            raise Refused("Extra", self.at)
        return f"Ok({said})"


def shown(text):
    return "Bytes { items: [" + ", ".join(str(byte) for byte in text) + "] }"


def head(reader):
    status = reader.integer()
    message = reader.string()
    at = reader.at
    count = reader.integer()
    if count > 100:
        raise Refused("TooMany", at)
    pairs = []
    for _ in range(count):
        name = reader.name()
        pairs.append(f"({shown(name)}, {shown(reader.string())})")
    listed = "ListOf { items: [" + ", ".join(pairs) + "] }"
    return reader.end(f"Headers(ReplyParts {{ status: {status}, message: {shown(message)}, headers: {listed} }})")


def chunk(reader):
    length = reader.integer()
    if reader.at + length > len(reader.payload):
        raise Refused("Short", len(reader.payload))
    data = reader.payload[reader.at:reader.at + length]
    reader.at += length
    if reader.at < len(reader.payload):
        if reader.payload[reader.at] != 0:
            raise Refused("BadMark", reader.at)
        reader.at += 1
    return reader.end(f"Chunk({shown(data)})")


def decode(payload):
    reader = Reader(payload)
    try:
        code = reader.byte()
        if code == 3:
            return chunk(reader)
        if code == 4:
            return head(reader)
        if code == 5:
            reuse = "true" if reader.byte() == 1 else "false"
            return reader.end(f"End {{ reuse: {reuse} }}")
        if code == 6:
            return reader.end(f"Ask({reader.integer()})")
        if code == 9:
            return reader.end("Pong")
        raise Refused("BadCode", 0)
    except Refused as refused:
        return refused.text


def string(text):
    return len(text).to_bytes(2, "big") + text + b"\0"


WHOLE = [
    b"\x04\x00\xc8" + string(b"OK") + b"\x00\x05"
    + b"\xa0\x01" + string(b"text/plain") + b"\xa0\x0b" + string(b"Basic")
    + string(b"X-Powered-By") + string(b"") + string(b"date") + b"\xff\xff" + b"\xff\xff" + string(b"\x00\xff"),
    b"\x04\x01\x30\xff\xff\x00\x00",
    b"\x03\x00\x05hello\x00",
    b"\x03\x00\x00",
    b"\x05\x01",
    b"\x06\x1f\xfa",
    b"\x09",
]


def payloads():
    for whole in WHOLE:
        for end in range(len(whole) + 1):
            yield whole[:end]
        for at in range(len(whole)):
            for other in (0x00, 0xFF, 0xA0):
                yield whole[:at] + bytes([other]) + whole[at + 1:]
        for extra in (b"\x00", b"\x01"):
            yield whole + extra
    for code in range(256):
        yield bytes([code])
    for code in range(0xA000, 0xA010):
        yield b"\x04\x00\xc8\x00\x00\x00\x00\x01" + code.to_bytes(2, "big") + string(b"v")


print("# Payloads of a container, by the AJPv1.3 reference. Made by vectors/ajp_reply.py. The kinds are those of messages.txt.")
print_row("each payload is read, or refused at its first bad place", ["kind payload"], dict.fromkeys(payloads()), decode)
