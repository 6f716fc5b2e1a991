"""The data types of AJPv1.3 that both directions read: bytes, integers and texts, and the first place that cannot be read; and rows of
payloads.

Written from the public AJPv1.3 protocol reference ("Data Types") and apart from the program's own code.
"""


class Refused(Exception):
    def __init__(self, kind, at):
        self.text = f"Err({kind} {{ at: {at} }})"


class Data:
    """A payload, and the place that is read next."""

    def __init__(self, payload):
        self.payload = payload
        self.at = 0

    def byte(self):
        if self.at >= len(self.payload):
            raise Refused("Short", len(self.payload))
        self.at += 1
        return self.payload[self.at - 1]

    def integer(self):
        if self.at + 2 > len(self.payload):
            raise Refused("Short", len(self.payload))
        self.at += 2
        return int.from_bytes(self.payload[self.at - 2:self.at], "big")

    def text(self, length):
        end = self.at + length
        if end >= len(self.payload):
            raise Refused("Short", len(self.payload))
        if self.payload[end] != 0:
            raise Refused("BadMark", end)
        text = self.payload[self.at:end]
        self.at = end + 1
        return text


def spelled(data):
    """Bytes as the text of a row spells them."""
    plain = {0x0D: "\\r", 0x0A: "\\n", 0x09: "\\t", 0x20: "\\s", 0x5C: "\\x5c"}
    return "".join(plain.get(byte) or (chr(byte) if 0x20 < byte < 0x7F else f"\\x{byte:02x}") for byte in data) or "\\e"


def print_row(name, keys, payloads, told):
    """A row that is done once for each payload, of which it wants what is told."""
    print(f"\nrow {name}")
    for key in [*keys, "bytes \\1", "output \\2"]:
        print(key)
    for payload in payloads:
        print(f"with {spelled(payload)} => {told(payload)}")
