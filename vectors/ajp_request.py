#!/usr/bin/env python3
"""Payloads of Forward Requests, each with what it says or the first place that cannot be read, and what is written for it.

Written from the public AJPv1.3 protocol reference ("Request Packet Structure", "Data Types") and apart from the program's
own code. It has four rules that the reference does not: the length FFFF is an absent string, which only the remote host
and a value may be; more than 100 headers are refused; an integer from A000 on in a name's place is a code; a method
without a code is written before any other attribute that stores one, else as the last attribute.

    python3 vectors/ajp_request.py > crates/checks/data/wire/request.txt
"""

from ajp_data import Data, Refused, print_row, spelled

METHODS = (
    "OPTIONS GET HEAD POST PUT DELETE TRACE PROPFIND PROPPATCH MKCOL COPY MOVE LOCK UNLOCK ACL REPORT VERSION-CONTROL "
    "CHECKIN CHECKOUT UNCHECKOUT SEARCH MKWORKSPACE UPDATE LABEL MERGE BASELINE-CONTROL MKACTIVITY"
).split()

NAMES = (
    "accept accept-charset accept-encoding accept-language authorization connection content-type content-length cookie "
    "cookie2 host pragma referer user-agent"
).split()

PLAIN = {1, 2, 3, 4, 5, 6, 7, 8, 9, 12, 13}
NAMED, KEY_SIZE, STORED, END = 10, 11, 13, 255


class Reader(Data):
    def string(self, absent=False):
        start = self.at
        length = self.integer()
        if length == 0xFFFF:
            if absent:
                return b""
            raise Refused("Absent", start)
        return self.text(length)

    def boolean(self):
        value = self.byte()
        if value > 1:
            raise Refused("BadBoolean", self.at - 1)
        return value == 1

    def header(self):
        start = self.at
        first = self.integer()
        if first == 0xFFFF:
            raise Refused("Absent", start)
        if first >= 0xA000:
            if not 0xA001 <= first <= 0xA00E:
                raise Refused("BadCode", start)
            name = NAMES[first - 0xA001].encode()
        else:
            name = self.text(first)
        return name, self.string(absent=True)

    def attribute(self):
        code = self.byte()
        if code == END:
            return None
        if code == NAMED:
            return code, self.string(), self.string(absent=True)
        if code == KEY_SIZE:
            return code, self.integer()
        if code in PLAIN:
            return code, self.string()
        raise Refused("BadCode", self.at - 1)


def read(payload):
    reader = Reader(payload)
    if reader.byte() != 2:
        raise Refused("BadCode", 0)
    code = reader.byte()
    if code != 0xFF and not 1 <= code <= 27:
        raise Refused("BadCode", 1)
    request = {"method": METHODS[code - 1].encode() if code != 0xFF else None}
    for field in ("protocol", "uri", "remote_addr", "remote_host", "server"):
        request[field] = reader.string(absent=field == "remote_host")
    request["port"] = reader.integer()
    request["ssl"] = reader.boolean()
    start = reader.at
    count = reader.integer()
    if count > 100:
        raise Refused("TooMany", start)
    request["headers"] = [reader.header() for _ in range(count)]
    request["attributes"] = []
    while (attribute := reader.attribute()) is not None:
        if request["method"] is None and attribute[0] == STORED:
            request["method"] = attribute[1]
        else:
            request["attributes"].append(attribute)
    if request["method"] is None:
        raise Refused("BadCode", reader.at - 1)
    if reader.at != len(payload):
        raise Refused("Extra", reader.at)
    return request


def integer(n):
    return n.to_bytes(2, "big")


def string(text):
    return integer(len(text)) + text + b"\0"


def attribute_bytes(attribute):
    code, *held = attribute
    return bytes([code]) + b"".join(integer(part) if isinstance(part, int) else string(part) for part in held)


def packet(request):
    coded = request["method"].decode("latin-1") in METHODS
    attributes = list(request["attributes"])
    if not coded:
        place = next((i for i, a in enumerate(attributes) if a[0] == STORED), len(attributes))
        attributes.insert(place, (STORED, request["method"]))
    payload = bytes([2, METHODS.index(request["method"].decode()) + 1 if coded else 0xFF])
    for field in ("protocol", "uri", "remote_addr", "remote_host", "server"):
        payload += string(request[field])
    payload += integer(request["port"]) + bytes([request["ssl"]]) + integer(len(request["headers"]))
    for name, value in request["headers"]:
        known = name.decode("latin-1").lower()
        payload += integer(0xA001 + NAMES.index(known)) if known in NAMES else string(name)
        payload += string(value)
    payload += b"".join(map(attribute_bytes, attributes)) + bytes([END])
    return b"\x12\x34" + integer(len(payload)) + payload


def shown_bytes(text):
    return f"Bytes {{ items: [{', '.join(map(str, text))}] }}"


def shown_attribute(attribute):
    if attribute[0] == NAMED:
        return f"Named({shown_bytes(attribute[1])}, {shown_bytes(attribute[2])})"
    if attribute[0] == KEY_SIZE:
        return f"KeySize({attribute[1]})"
    return f"Plain({attribute[0]}, {shown_bytes(attribute[1])})"


def shown(payload):
    try:
        request = read(payload)
    except Refused as refused:
        return refused.text
    fields = [f"{field}: {shown_bytes(request[field])}" for field in ("method", "protocol", "uri", "remote_addr", "remote_host", "server")]
    fields += [f"port: {request['port']}", f"ssl: {str(request['ssl']).lower()}"]
    headers = ", ".join(f"({shown_bytes(name)}, {shown_bytes(value)})" for name, value in request["headers"])
    attributes = ", ".join(map(shown_attribute, request["attributes"]))
    fields += [f"headers: ListOf {{ items: [{headers}] }}", f"attributes: ListOf {{ items: [{attributes}] }}"]
    return f"Ok(Forward {{ {', '.join(fields)} }})"


def payload_of(method, headers=(), attributes=(), host=b"\0\0\0", count=None, ssl=1):
    head = bytes([2, method]) + string(b"H") + string(b"/") + string(b"a") + host + string(b"s") + b"\x1f\x90" + bytes([ssl])
    return head + integer(len(headers) if count is None else count) + b"".join(headers) + b"".join(attributes) + bytes([END])


ABSENT = b"\xff\xff"
HEADERS = [b"\xa0\x0b" + string(b"h"), string(b"x") + string(b"yz"), b"\xa0\x07" + ABSENT]
ATTRIBUTES = [b"\x05" + string(b"q"), b"\x0a" + string(b"n") + string(b"v"), b"\x0a" + string(b"n") + ABSENT, b"\x0b\x01\x00"]
CODED = payload_of(2, HEADERS, ATTRIBUTES + [b"\x0d" + string(b"M")], host=ABSENT)
OTHER = payload_of(255, HEADERS[:2], [b"\x0c" + string(b"w"), b"\x0d" + string(b"M"), b"\x0d" + string(b"N"), b"\x01" + string(b"c")], host=string(b"t"), ssl=0)


def read_rows():
    for whole in (CODED, OTHER):
        yield from (whole[:length] for length in range(len(whole) + 1))
        yield whole + b"\0"
        yield whole + b"\xff"
        for place in range(len(whole)):
            for byte in (0x00, 0xFF, 0xA0):
                yield whole[:place] + bytes([byte]) + whole[place + 1:]
    yield from (payload_of(code) for code in range(256))
    yield from (payload_of(1, [integer(code) + string(b"v")]) for code in [0xA000, *range(0xA001, 0xA011), 0xBFFF, 0xFFFE, 0xFFFF])
    yield from (payload_of(1, [string(name.encode()) + string(b"v")]) for name in ["Host", "HOST", "host", "x-host", ""])
    yield from (payload_of(1, attributes=[bytes([code]) + string(b"v")]) for code in range(255))
    yield payload_of(1, attributes=[b"\x05" + ABSENT])
    yield payload_of(1, attributes=[b"\x0a" + ABSENT + string(b"v")])
    yield payload_of(1, attributes=[b"\x0b\xff\xff"])
    yield payload_of(1, [b"\xa0\x01" + string(b"")] * 100)
    yield payload_of(1, [b"\xa0\x01" + string(b"")] * 101)
    yield payload_of(1, count=0xFFFF)
    yield payload_of(255)
    yield payload_of(255) + b"\0"


def write_rows():
    yield CODED
    yield OTHER
    for method in METHODS:
        yield payload_of(255, attributes=[b"\x0d" + string(method.encode())])
        yield payload_of(255, attributes=[b"\x0d" + string(method.lower().encode()), b"\x05" + string(b"q")])
    for name in NAMES:
        for spelled in (name, name.upper(), name.title()):
            yield payload_of(2, [string(spelled.encode()) + string(b"v")])
        yield payload_of(2, [string((name + "s").encode()) + ABSENT])
    yield payload_of(255, attributes=[b"\x0d" + string(b"M"), b"\x0d" + string(b"GET"), b"\x0d" + string(b"N")])
    yield payload_of(255, attributes=[b"\x01" + string(b"c"), b"\x0d" + string(b"M"), b"\x05" + string(b"q"), b"\x0d" + string(b"N")])
    yield payload_of(255, attributes=[b"\x0d" + string(b"")])
    for code in sorted(PLAIN):
        yield payload_of(2, attributes=[bytes([code]) + string(b"v")])
    yield payload_of(2, attributes=[b"\x0a" + string(b"") + string(b"")])
    yield payload_of(2, attributes=[b"\x0b\xff\xff"])


def rewritten(payload):
    return f'"{spelled(packet(read(payload)))}"'


print("# Forward Requests, by the AJPv1.3 reference. Made by vectors/ajp_request.py. The kinds are those of requests.txt.")
print_row("each payload is read, or refused at its first bad place", ["kind payload"], read_rows(), shown)
print_row("each request is written again", ["kind rewrite", "most 4294967295"], write_rows(), rewritten)
