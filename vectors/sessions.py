#!/usr/bin/env python3
"""Sessions of one client with members, each with what its client gets, what each member gets, and how it ends.

Written from RFC 9112, the public AJPv1.3 protocol reference, the Tomcat Connectors reference and the rules of
docs/FORMATS.md and docs/DECISIONS.md, and apart from the program's own code: what is wanted of a row is put together by
hand from packets and lines.

    python3 vectors/sessions.py sessions > crates/checks/data/session/sessions.txt
    python3 vectors/sessions.py failing > crates/checks/data/session/failing.txt
    python3 vectors/sessions.py replies > crates/checks/data/session/replies.txt
    python3 vectors/sessions.py places > crates/checks/data/session/places.txt
    python3 vectors/sessions.py member_places > crates/checks/data/session/member_places.txt
"""
import email.utils
import re
import sys
import textwrap

import pages

REASONS = {
    400: "Bad Request", 403: "Forbidden", 404: "Not Found", 413: "Content Too Large",
    431: "Request Header Fields Too Large", 500: "Internal Server Error", 501: "Not Implemented", 502: "Bad Gateway",
    503: "Service Unavailable",
}

# Why a status worker refuses a request, with the status and the words of its answer.
REFUSALS = {
    "Closed": (403, "this status worker is closed, since users or addresses are named for it"),
    "ReadOnly": (403, "this status worker is read only"),
    "BadQuery": (400, "the query means no command"),
    "UnknownName": (404, "no balancer or member has this name"),
    "BadValue": (400, "the value is out of its range"),
    "TooWide": (400, "the values together are too wide for a journal"),
    "Full": (500, "the journal is full"),
}

# ---- how a row is written


def spelled(data):
    """Bytes as the text of a row spells them."""
    if not data:
        return "\\e"
    out = []
    for place, byte in enumerate(data):
        edge = place in (0, len(data) - 1)
        if byte == 0x20 and edge:
            out.append("\\s")
        elif byte == 0x7C:
            out.append("\\x7c")
        elif byte == 0x26:
            out.append("\\x26")
        else:
            out.append(told_byte(byte))
    return "".join(out)


def short(text):
    """A text with what is repeated often written once, between `\\{` and `*N\\}`."""
    once = lambda run: f"\\{{{run[1]}*{len(run[0]) // len(run[1])}\\}}"
    return re.sub(r"([^{}]{20,300}?)\1{19,}", once, re.sub(r"([a-z])\1{39,}", once, text))


def text_lines(key, text):
    """A text in the line of its key, and below it where a part of it is repeated."""
    first, *parts = short(text).split("\\{")
    lines = [f"{key} {first}" if first else key]
    for part in parts:
        inside, rest = part.split("\\}", 1)
        piece, count = inside.rsplit("*", 1)
        lines += [f"times {count} {piece}"] + ([f"+{rest}"] if rest else [])
    return lines


def told_byte(byte):
    plain = {0x0D: "\\r", 0x0A: "\\n", 0x09: "\\t", 0x5C: "\\x5c"}
    if byte in plain:
        return plain[byte]
    return chr(byte) if 0x20 <= byte <= 0x7E else f"\\x{byte:02x}"


def told(data):
    return '"' + "".join(told_byte(byte) for byte in data) + '"'


# ---- packets of AJPv1.3

METHODS = {"OPTIONS": 1, "GET": 2, "HEAD": 3, "POST": 4, "PUT": 5, "DELETE": 6}
CODED = {"content-type": 0xA007, "content-length": 0xA008, "cookie": 0xA009, "connection": 0xA006, "host": 0xA00B}


def integer(value):
    return value.to_bytes(2, "big")


def string(text):
    data = text if isinstance(text, bytes) else text.encode()
    return integer(len(data)) + data + b"\0"


def to_member(payload):
    return b"\x12\x34" + integer(len(payload)) + payload


def forward(method="GET", path="/", headers=(("Host", "localhost"),), host="localhost", port=80, old=False, query=None,
            route=None, secret=None):
    out = bytes([2, METHODS.get(method, 0xFF)]) + string("HTTP/1.0" if old else "HTTP/1.1") + string(path)
    out += string("127.0.0.1") * 2 + string(host) + integer(port) + b"\0" + integer(len(headers))
    for name, value in headers:
        code = CODED.get(name.lower())
        out += (integer(code) if code else string(name)) + string(value)
    if query is not None:
        out += b"\x05" + string(query)
    if route is not None:
        out += b"\x06" + string(route)
    if secret is not None:
        out += b"\x0c" + string(secret)
    if method not in METHODS:
        out += b"\x0d" + string(method)
    return to_member(out + b"\xff")


def body(piece):
    return to_member(integer(len(piece)) + piece) if piece else to_member(b"")


def from_member(payload):
    return b"AB" + integer(len(payload)) + payload


REPLY_CODES = {"content-length": 0xA003, "content-type": 0xA001}


def send_headers(status=200, message="OK", headers=()):
    out = b"\x04" + integer(status) + string(message) + integer(len(headers))
    for name, value in headers:
        code = REPLY_CODES.get(name.lower())
        out += (integer(code) if code else string(name)) + string(value)
    return from_member(out)


def chunk(data):
    return from_member(b"\x03" + string(data))


def ask(most):
    return from_member(b"\x06" + integer(most))


def end(reuse=True):
    return from_member(b"\x05" + bytes([reuse]))


def sized(text, status=200, message="OK", reuse=True):
    """A whole reply with a length."""
    head = send_headers(status, message, [("Content-Length", str(len(text)))])
    return head + (chunk(text) if text else b"") + end(reuse)


HI = sized(b"hi")
CPING, CPONG = to_member(b"\x0a"), from_member(b"\x09")

# ---- what a client sends and gets


def request(method="GET", path="/", headers=(("Host", "localhost"),), data=b"", old=False):
    lines = "".join(f"{name}: {value}\r\n" for name, value in headers)
    return f"{method} {path} HTTP/1.{0 if old else 1}\r\n{lines}\r\n".encode() + data


def reply(text=b"hi", status=200, message="OK", headers=None, last=False):
    pairs = [("Content-Length", str(len(text)))] if headers is None else headers
    lines = "".join(f"{name}: {value}\r\n" for name, value in pairs)
    close = "Connection: close\r\n" if last else ""
    return f"HTTP/1.1 {status} {message}\r\n{lines}{close}\r\n".encode() + text


def own(status, head_only=False, words=""):
    """An answer of the connector's own; that to a refused request of a status worker has words in a second line."""
    page = f"{status} {REASONS[status]}\n".encode() + (words + "\n").encode() * (words != "")
    lines = f"Content-Type: text/plain\r\nContent-Length: {len(page)}\r\nConnection: close\r\n\r\n"
    return f"HTTP/1.1 {status} {REASONS[status]}\r\n{lines}".encode() + (b"" if head_only else page)


def own_len(status):
    return len(f"{status} {REASONS[status]}\n")


def refusal(why, head_only=False):
    status, words = REFUSALS[why]
    return own(status, head_only, words)


def refusal_row(path, why, method="GET"):
    status, words = REFUSALS[why]
    sent = 0 if method == "HEAD" else own_len(status) + len(words) + 1
    return f"{method} {path} {status} {sent} -"


def dated(at, answer, before="Connection: close"):
    """The answer with the moment of its head, before that line; where it has none, at the end of its lines."""
    line = f"Date: {email.utils.formatdate(at, usegmt=True)}\r\n".encode()
    head, empty, rest = answer.partition(b"\r\n\r\n")
    front, close, more = (head + b"\r\n").partition(before.encode() + b"\r\n")
    return front + line + close + more + b"\r\n" + rest


CONTINUE = b"HTTP/1.1 100 Continue\r\n\r\n"
GET = request()

# ---- rows


def closed(requests, why):
    return f"Closed {{ requests: {requests}, why: {why} }}"


def own_end(requests, status):
    return closed(requests, f"Own({status})")


def refusal_end(requests, why):
    return closed(requests, f"Refused({why})")


class Row:
    """A session, and what is wanted of it."""

    def __init__(self, name, client, links, ends, talks=(), gets=b"", rows=(), desk="", workers=None, map_="/*=w1\n",
                 words="-", ways="", faults=0):
        self.name, self.client, self.links, self.ends, self.talks = name, client, links, ends, talks
        self.gets, self.rows, self.desk, self.words, self.ways = gets, rows, desk, words, ways
        self.workers = ONE if workers is None else workers
        self.map = map_
        self.faults = faults

    def wanted(self):
        parts = [self.ends]
        parts += [f"row {row}" for row in self.rows]
        for member, sent, kept in self.talks:
            parts.append(f"to 0.{member} {told(sent)}" + (" kept" if kept else ""))
        parts.append(f"client {told(self.gets)}")
        if self.faults:
            parts.append(f"faults {self.faults}")
        if self.desk:
            parts.append(self.desk)
        return " ".join(parts)

    def head(self, of_member):
        """The lines of a row but its bytes and its output."""
        lines = [f"ways {self.ways}"] if self.ways else []
        lines += [f"words {self.words}"] if self.words != "-" else []
        lines += [f"workers {spelled(self.workers.encode())}", f"map {spelled(self.map.encode())}"]
        lines += text_lines("client", spelled(self.client)) if of_member else []
        for link in self.links[1:] if of_member else self.links:
            lines += text_lines("link", spelled(link))
        return lines

    def texts(self, of_member):
        """The bytes that come in the row's ways, and what comes out."""
        return spelled(self.links[0] if of_member else self.client), self.wanted()


def print_group(name, rows, of_member):
    """Rows of one name that differ at most in their bytes and in what comes out."""
    print(f"\nrow {name}")
    print("\n".join(rows[0].head(of_member)))
    texts = [row.texts(of_member) for row in rows]
    differs = [len({text[side] for text in texts}) > 1 for side in (0, 1)]
    for side, key in enumerate(("bytes", "output")):
        print("\n".join([f"{key} \\{side + 1 if differs[0] else 1}"] if differs[side] else text_lines(key, texts[0][side])))
    for text in texts if any(differs) else []:
        print("with " + " => ".join(text[side] for side in (0, 1) if differs[side]))


def may_join(rows, row, of_member):
    """Whether a row without a name of its own is done by a line `with` of these."""
    texts = [text for one in [*rows, row] for text in one.texts(of_member)]
    return rows[0].head(of_member) == row.head(of_member) and all(short(text) == text and " => " not in text for text in texts)


def print_rows(parts, of_member, is_asked):
    """The rows of these parts, with a comment for each part of a file."""
    title, name, rows = None, None, []
    for row in (row for part in parts for row in part()):
        if isinstance(row, str):
            joined, title, named = False, row, row
        elif not is_asked(row):
            continue
        else:
            joined, named = not row.name and rows and may_join(rows, row, of_member), row.name or name
        if rows and not joined:
            print_group(name, rows, of_member)
            rows = []
        if not isinstance(row, str):
            if title and row.name:
                print(f"\n# {title}")
            title = None
            rows.append(row)
        name = named
    print_group(name, rows, of_member)


ONE = "worker.list=w1\nworker.w1.retries=1\n"


def members(*names, options=None, more="", retries=1):
    """A balancer lb with these members, each with as many talks a round."""
    lines = ["worker.list=lb", "worker.lb.type=lb", "worker.lb.balance_workers=" + ",".join(names)]
    for name in names:
        lines.append(f"worker.{name}.retries={retries}")
        if options is not None:
            lines.append(f"worker.{name}.recovery_options={options}")
    return "\n".join(lines) + "\n" + more


LB = "/*=lb\n"
HOST = (("Host", "localhost"),)

STATUS = """worker.list=lb,jkstatus
worker.template.type=ajp13
worker.template.lbfactor=1
worker.template.socket_timeout=60
worker.node1.reference=worker.template
worker.node1.host=localhost
worker.node1.port=8109
worker.node2.reference=worker.template
worker.node2.host=localhost
worker.node2.port=8209
worker.node2.activation=disabled
worker.lb.type=lb
worker.lb.balance_workers=node1,node2
worker.lb.sticky_session=1
worker.jkstatus.type=status
"""
READ_ONLY = "worker.jkstatus.read_only=true\n"
PRIMES = (
    "worker.list=lb,jkstatus\nworker.jkstatus.type=status\nworker.lb.type=lb\nworker.lb.balance_workers=a,b,c\n"
    "worker.a.lbfactor=65521\nworker.b.lbfactor=65519\nworker.c.lbfactor=1\n"
)
PAGE = b"jk status\nlb lb R 2 0\nnode1 A ok 0 0 1 0 -\nnode2 D ok 0 0 1 0 -\n"
DOUBLED = b"jk status\nlb lb R 2 1\nnode1 A ok 0 0 2 0 -\nnode2 D ok 0 0 1 0 -\n"


def nodes(next_=0, factor=1):
    """The balancer of these sites as its table and its figures show it."""
    first, second = pages.member("node1", factor=factor, address="localhost:8109"), pages.member("node2", "D", address="localhost:8209")
    return [dict(type="lb", name="lb", method="R", next=next_, members=[first, second])]


HTML = "text/html; charset=utf-8"
PROM = "text/plain; version=0.0.4; charset=utf-8"


def page(text, last=False, head_only=False, kind="text/plain"):
    lines = f"HTTP/1.1 200 OK\r\nContent-Type: {kind}\r\nContent-Length: {len(text)}\r\n"
    return (lines + ("Connection: close\r\n" if last else "") + "\r\n").encode() + (b"" if head_only else text)


def done(name, ends=None, **more):
    """A GET of / that the one member answers with `hi`."""
    row = dict(client=GET, links=[HI], talks=[(0, forward(), True)], gets=reply(), rows=["GET / 200 2 w1"], desk="next 2 w1 ok")
    row.update(more)
    return Row(name, ends=ends or closed(1, "ByClient"), **row)


def refused(name, client, status, **more):
    """A head that is refused before it is mounted."""
    return Row(name, client, [], own_end(0, status), gets=own(status), rows=[f"refused {status} {own_len(status)} -"], desk="next 0 w1 ok", **more)


def answered(name, path, why, workers, desk="next 0 node1 ok node2 ok", method="GET"):
    """A status worker's request that is refused."""
    return Row(name, request(method, path), [], refusal_end(0, why), gets=refusal(why, method == "HEAD"), rows=[refusal_row(path, why, method)],
               desk=desk, workers=workers, map_="/jk=jkstatus\n/*=lb\n")


def paged(name, path, text, kind="text/plain", method="GET", old=False, workers=STATUS + READ_ONLY, desk="next 0 node1 ok node2 ok"):
    sent = 0 if method == "HEAD" else len(text)
    return Row(name, request(method, path, old=old), [], closed(1, "Last" if old else "ByClient"), gets=page(text, old, method == "HEAD", kind),
               rows=[f"{method} {path}{' old' if old else ''} 200 {sent} jkstatus"], desk=desk, workers=workers, map_="/jk=jkstatus\n/*=lb\n")


def post(headers, data, **more):
    return request("POST", "/", HOST + tuple(headers), data, **more)


LENGTH = lambda data: (("Content-Length", str(len(data))),)
CHUNKED = (("Transfer-Encoding", "chunked"),)
FIVE = b"3\r\nabc\r\n2;x=y\r\nde\r\n0\r\n\r\n"
BROKEN = b"3\r\nabc\r\nzz\r\nde\r\n0\r\n\r\n"
EACH = "whole bytes each"


def posted(name, headers, data, link, sent, ends=None, gets=None, rows=("POST / 200 2 w1",), kept=True, then=(), **more):
    """A POST to the one member, which gets its packet and then these bytes; and the talks after it."""
    packet = forward("POST", headers=HOST + tuple(headers))
    row = dict(desk="next 2 w1 ok")
    row.update(more)
    return Row(name, post(headers, data), [link], ends or closed(1, "ByClient"), talks=[(0, packet + sent, kept), *then],
               gets=reply() if gets is None else gets, rows=rows, **row)


def plain_sessions():
    unsized = send_headers() + chunk(b"hi") + end()
    yield "a reply goes to its client"
    yield done("a reply with a length", ways=EACH)
    yield done("a reply without a length", links=[unsized],
               gets=b"HTTP/1.1 200 OK\r\nTransfer-Encoding: chunked\r\n\r\n2\r\nhi\r\n0\r\n\r\n")
    old = request(old=True)
    yield done("a reply without a length to a client of HTTP/1.0", closed(1, "Last"), client=old, links=[unsized],
               talks=[(0, forward(old=True), True)], gets=b"HTTP/1.1 200 OK\r\nConnection: close\r\n\r\nhi", rows=["GET / old 200 2 w1"])
    head = request("HEAD")
    line = reply(b"", headers=[("Content-Length", "2")])
    yield done("HEAD, to which the member sends no body", client=head, links=[send_headers(headers=[("Content-Length", "2")]) + end()],
               talks=[(0, forward("HEAD"), True)], gets=line, rows=["HEAD / 200 0 w1"])
    yield done("HEAD, to which the member sends a body", client=head, talks=[(0, forward("HEAD"), True)], gets=line, rows=["HEAD / 200 0 w1"])
    yield done("204 loses its length", links=[sized(b"", 204, "No Content")], gets=b"HTTP/1.1 204 No Content\r\n\r\n", rows=["GET / 204 0 w1"])
    yield done("304 keeps its length", links=[send_headers(304, "Not Modified", [("Content-Length", "2")]) + end()],
               gets=b"HTTP/1.1 304 Not Modified\r\nContent-Length: 2\r\n\r\n", rows=["GET / 304 0 w1"])
    yield done("a link that may not serve again", links=[sized(b"hi", reuse=False)], talks=[(0, forward(), False)])
    yield "a request goes whole to its member"
    yield done("a query", client=request(path="/a?b=c"), talks=[(0, forward(path="/a", query="b=c"), True)], rows=["GET /a?b=c 200 2 w1"])
    yield done("a method without a code", client=request("PATCH"), talks=[(0, forward("PATCH"), True)], rows=["PATCH / 200 2 w1"])
    yield done("a secret", workers=ONE + "worker.w1.secret=s\n", talks=[(0, forward(secret="s"), True)])
    six = (("Host", "[::1]:81"),)
    yield done("an address of version 6 with its port", client=request(headers=six), talks=[(0, forward(headers=six, host="[::1]", port=81), True)])
    six = (("Host", "[::1]"),)
    yield done("an address of version 6 without one", client=request(headers=six), talks=[(0, forward(headers=six, host="[::1]"), True)])
    large = (("Host", "localhost"), ("X", "x" * 8200))
    yield Row("a packet that is larger than the member takes", request(headers=large), [], own_end(0, 413), gets=own(413),
              rows=["GET / 413 22 -"], desk="next 2 w1 ok")
    yield "several requests of one client"
    yield done("ten in one write", closed(10, "ByClient"), client=GET * 10, links=[HI * 10], talks=[(0, forward(), True)] * 10, gets=reply() * 10,
               rows=["GET / 200 2 w1"] * 10, desk="next 20 w1 ok", ways="whole bytes")
    who = request(path="/who", headers=(("Host", "h"),))
    yield done("the second is of HTTP/1.0", closed(2, "Last"), client=who + request(path="/who", headers=(), old=True), links=[sized(b"n1\n") * 2],
               talks=[(0, forward(path="/who", headers=(("Host", "h"),), host="h"), True), (0, forward(path="/who", headers=(), old=True), True)],
               gets=reply(b"n1\n") + reply(b"n1\n", last=True), rows=["GET /who 200 3 w1", "GET /who old 200 3 w1"], desk="next 4 w1 ok", ways=EACH)
    closing = HOST + (("Connection", "keep-alive, Close"),)
    yield done("the first says that it is the last", closed(1, "Last"), client=request(headers=closing) + GET, talks=[(0, forward(headers=closing), True)],
               gets=reply(last=True))
    yield done("the 1,000th is the last", closed(1000, "Last"), client=GET * 1001, links=[HI * 1000], talks=[(0, forward(), True)] * 1000,
               gets=reply() * 999 + reply(last=True), rows=["GET / 200 2 w1"] * 1000, desk="next 2000 w1 ok")
    yield Row("no byte", b"", [], closed(0, "ByClient"), desk="next 0 w1 ok")
    yield Row("empty lines alone", b"\r\n\n\r\n", [], closed(0, "ByClient"), desk="next 0 w1 ok", ways=EACH)
    yield Row("half a head", b"GET /a HTT", [], "Truncated { requests: 0 }", desk="next 0 w1 ok", ways=EACH)
    yield done("half a head after a request", "Truncated { requests: 1 }", client=GET + b"GET", ways=EACH)


def bodies():
    piece = b"x" * 8187
    yield "a request's body"
    yield posted("is sent in pieces", LENGTH(piece), piece, ask(100) + ask(100) + HI, body(piece[:8186]) + body(b"x") + body(b""), ways="whole ends")
    yield posted("is asked for where it is chunked", CHUNKED, FIVE, ask(8186) + ask(8186) + HI, body(b"abcde") + body(b""), ways=EACH)
    yield posted("is asked for in pieces of three", CHUNKED, FIVE, ask(3) + ask(0) + HI, body(b"abc") + body(b"de"), ways=EACH)
    yield posted("is asked for after the head", CHUNKED, FIVE, send_headers(headers=[("Content-Length", "2")]) + ask(8186) + chunk(b"hi") + end(),
                 body(b"abcde"), ways=EACH)
    yield posted("is asked for beyond its end", LENGTH(b"abc"), b"abc", ask(10) + HI, body(b"abc") + body(b""), ways=EACH)
    yield posted("is read to its end where nobody asks for it", CHUNKED, FIVE + GET, HI * 2, b"", closed(2, "ByClient"), gets=reply() * 2, then=[(0, forward(), True)],
                 rows=["POST / 200 2 w1", "GET / 200 2 w1"], desk="next 4 w1 ok", ways=EACH)
    yield posted("has a bad chunk line after the reply", CHUNKED, BROKEN, HI, b"", closed(1, "Unread"), ways=EACH)
    yield posted("ends within it after the reply", CHUNKED, b"3\r\nab", HI, b"", "Truncated { requests: 1 }", ways=EACH)
    yield posted("has a bad chunk line before a byte of the reply", CHUNKED, BROKEN, ask(8186), b"", own_end(0, 400), gets=own(400), rows=["POST / 400 16 -"],
                 kept=False, ways=EACH)
    begun = send_headers(headers=[("Content-Length", "10")]) + chunk(b"xyz")
    yield posted("has a bad chunk line after a byte of the reply", CHUNKED, BROKEN, begun + ask(8186), b"", closed(0, "Cut"),
                 gets=reply(b"xyz", headers=[("Content-Length", "10")]), rows=["POST / 200 3 w1"], kept=False, ways=EACH)
    yield posted("ends within it", CHUNKED, b"3\r\nab", ask(8186), b"", "Truncated { requests: 0 }", gets=b"", rows=[], kept=False, ways=EACH)
    yield Row("ends within its first piece", post(LENGTH(b"hello"), b"he"), [], "Truncated { requests: 0 }", desk="next 0 w1 ok", ways=EACH)
    hi = HOST + (("Content-Length", "2"), ("Expect", "100-continue"))
    yield "a client that waits for 100 Continue"
    yield done("gets it once its request is mounted", client=request("POST", "/e", hi, b"hi"),
               talks=[(0, forward("POST", "/e", hi) + body(b"hi"), True)], gets=CONTINUE + reply(), rows=["POST /e 200 2 w1"], ways=EACH)
    yield Row("doesn't where it is mounted nowhere", request("POST", "/e", hi, b"hi"), [], own_end(0, 404), gets=own(404), rows=["POST /e 404 14 -"],
              map_="/a=w1\n", desk="next 0 w1 ok")
    yield done("doesn't without a body", client=request("GET", "/", HOST + (("Expect", "100-continue"),)),
               talks=[(0, forward(headers=HOST + (("Expect", "100-continue"),)), True)])
    yield done("doesn't with HTTP/1.0", closed(1, "Last"), client=request("POST", "/", hi, b"hi", old=True),
               talks=[(0, forward("POST", "/", hi, old=True) + body(b"hi"), True)], gets=reply(last=True), rows=["POST / old 200 2 w1"])


def heads():
    yield "a head is refused"
    yield refused("no Host in HTTP/1.1", request(headers=()), 400)
    yield refused("two Hosts", request(headers=HOST * 2), 400)
    yield refused("a length and a coding", request(headers=HOST + LENGTH(b"") + CHUNKED), 400)
    yield refused("another coding", request(headers=HOST + (("Transfer-Encoding", "gzip"),)), 501)
    yield refused("CONNECT", request("CONNECT", "localhost:80"), 501)
    yield refused("a length of 2^40", request(headers=HOST + (("Content-Length", "1099511627776"),)), 413)
    yield refused("101 headers", request(headers=HOST + (("a", "b"),) * 100), 431)
    yield refused("a path that goes up", request(path="/a/../b"), 400)
    yield refused("half an escape", request(path="/%zz"), 400)
    yield refused("no request line", b"hello\r\n\r\n", 400)
    yield Row("a path that is mounted nowhere", GET, [], own_end(0, 404), gets=own(404), rows=["GET / 404 14 -"], map_="/a=w1\n", desk="next 0 w1 ok")
    yield Row("HEAD of a path that is mounted nowhere", request("HEAD"), [], own_end(0, 404), gets=own(404, True), rows=["HEAD / 404 0 -"],
              map_="/a=w1\n", desk="next 0 w1 ok")
    yield done("after a request", own_end(1, 400), client=GET + request(headers=()), gets=reply() + own(400), rows=["GET / 200 2 w1", "refused 400 16 -"])


EXAMPLE = 784111777
EARLY = 59


def moments():
    said = f"dated={EXAMPLE}"
    # a hold at this moment begins with a Maintain, since the Books stand at the first second
    due = dict(words=said, desk="next 3 w1 ok")
    yield "answers tell the moment at which their head was read"
    yield done("a reply whose member tells none", gets=dated(EXAMPLE, reply()), **due)
    own_date = send_headers(headers=[("Date", "Mon, 07 Nov 1994 08:49:37 GMT"), ("Content-Length", "2")]) + chunk(b"hi") + end()
    yield done("a reply whose member tells its own", links=[own_date],
               gets=reply(headers=[("Date", "Mon, 07 Nov 1994 08:49:37 GMT"), ("Content-Length", "2")]), **due)
    unsized = send_headers() + chunk(b"hi") + end()
    yield done("before the lines that tell how the body ends", links=[unsized],
               gets=dated(EXAMPLE, b"HTTP/1.1 200 OK\r\nTransfer-Encoding: chunked\r\n\r\n2\r\nhi\r\n0\r\n\r\n", "Transfer-Encoding: chunked"), **due)
    yield done("two requests, the second refused", own_end(1, 400), client=GET + request(headers=()), gets=dated(EXAMPLE, reply()) + dated(EXAMPLE, own(400)),
               rows=["GET / 200 2 w1", "refused 400 16 -"], **due)
    yield done("within the first minute no Maintain is due", gets=dated(EARLY, reply()), words=f"dated={EARLY}")
    yield Row("a head that is refused", request(headers=()), [], own_end(0, 400), gets=dated(EXAMPLE, own(400)), rows=["refused 400 16 -"],
              desk="next 0 w1 ok", words=said)
    yield Row("HEAD of a path that is mounted nowhere", request("HEAD"), [], own_end(0, 404), gets=dated(EXAMPLE, own(404, True)),
              rows=["HEAD / 404 0 -"], map_="/a=w1\n", desk="next 0 w1 ok", words=said)
    yield Row("a status worker's page", request(path="/jk"), [], closed(1, "ByClient"), gets=dated(EXAMPLE, page(PAGE)), rows=["GET /jk 200 %d jkstatus" % len(PAGE)],
              desk="next 0 node1 ok node2 ok", workers=STATUS, map_="/jk=jkstatus\n/*=lb\n", words=said)
    yield Row("a query that means no command", request(path="/jk?cmd=list&cmd=list"), [], refusal_end(0, "BadQuery"), gets=dated(EXAMPLE, refusal("BadQuery")),
              rows=[refusal_row("/jk?cmd=list&cmd=list", "BadQuery")], desk="next 0 node1 ok node2 ok", workers=STATUS, map_="/jk=jkstatus\n/*=lb\n", words=said)
    yield done("none after the year 9999", words="dated=253402300800", desk="next 3 w1 ok")


def balanced(name, links, talks, ends=None, gets=None, rows=None, desk="", options=None, client=GET, more="", retries=1, **kept):
    """A request to a balancer with the members a and b."""
    site = members("a", "b", options=options, more=more, retries=retries)
    return Row(name, client, links, ends or closed(1, "ByClient"), talks, reply() if gets is None else gets, rows, desk, site,
               kept.pop("map_", LB), **kept)


def on(member, method="GET", kept=True, sent=True, **more):
    packet = forward(method, route="ab"[member], **more)
    return (member, packet if sent else b"", kept)


def others():
    yield "a member dies once it has the request"
    lost = dict(ends=own_end(0, 502), gets=own(502), desk="next 2 a error b ok")
    by_b = dict(desk="next 4 a error b ok")
    dead = on(0, "POST", False)
    posts = dict(client=request("POST"))
    yield balanced("with option 1 a POST isn't sent again", [b"", HI], [dead], rows=["POST / 502 16 -"], options=1, **posts, **lost)
    yield balanced("without it another member answers", [b"", HI], [dead, on(1, "POST")], rows=["POST / 200 2 b"], options=0, **posts, **by_b)
    yield balanced("with options 1 and 16 a GET is sent again", [b"", HI], [on(0, kept=False), on(1)], rows=["GET / 200 2 b"], options=17, **by_b)
    begun = send_headers(headers=[("Content-Length", "2")])
    yield balanced("with option 2 it isn't after the head", [begun, HI], [on(0, kept=False)], rows=["GET / 502 16 -"], options=2, **lost)
    yield balanced("with options 1, 2 and 16 it is", [begun, HI], [on(0, kept=False), on(1)], rows=["GET / 200 2 b"], options=19, **by_b)
    yield balanced("with options 1 and 8 a HEAD is sent again", [b"", begun + end()], [on(0, "HEAD", False), on(1, "HEAD")], rows=["HEAD / 200 0 b"], options=9,
                   client=request("HEAD"), gets=reply(b"", headers=[("Content-Length", "2")]), **by_b)
    yield balanced("a dial that fails", [HI], [on(0, kept=False, sent=False), on(1)], rows=["GET / 200 2 b"], options=1, words="dial=0", **by_b)
    yield done("a second talk with the same member", links=[b"", HI], talks=[(0, forward(), False), (0, forward(), True)], workers="worker.list=w1\nworker.w1.host=h\n")
    yield balanced("after a byte of the reply", [send_headers(headers=[("Content-Length", "10")]) + chunk(b"xyz"), HI], [on(0, kept=False)], closed(0, "Cut"),
                   gets=reply(b"xyz", headers=[("Content-Length", "10")]), rows=["GET / 200 3 a"], desk="next 2 a error b ok")
    yield "a status counts as a failure"
    down = sized(b"hi", 503, "Down")
    listed = "worker.a.fail_on_status=503\n"
    yield balanced("and another member answers", [down, HI], [on(0, kept=False), on(1)], rows=["GET / 200 2 b"], more=listed, **by_b)
    yield balanced("and none may", [down, HI], [on(0, kept=False)], own_end(0, 503), own(503), ["GET / 503 24 -"], "next 2 a error b ok", 2, more=listed)
    yield balanced("but not against the member", [down, HI], [on(0, kept=False), on(1)], rows=["GET / 200 2 b"], more="worker.a.fail_on_status=-503\n",
                   desk="next 4 a ok b ok")
    yield "a status counts as a failure, and a member may have two talks"
    yield balanced("it has one, and another member answers", [down, HI], [on(0, kept=False), on(1)], rows=["GET / 200 2 b"], more=listed, options=0, retries=2, **by_b)
    yield balanced("it has one, and none may answer", [down, HI], [on(0, kept=False)], own_end(0, 503), own(503), ["GET / 503 24 -"], "next 2 a error b ok", 2,
                   more=listed, retries=2)
    yield balanced("it has one that doesn't count against it", [down, HI], [on(0, kept=False), on(1)], rows=["GET / 200 2 b"],
                   more="worker.a.fail_on_status=-503\n", options=0, retries=2, desk="next 4 a ok b ok")
    yield "a session stays with its member"
    of = lambda route: HOST + (("Cookie", f"JSESSIONID=x.{route}"),)
    yield balanced("b has it", [HI], [on(1, headers=of("b"))], rows=["GET / 200 2 b"], client=request(headers=of("b")), desk="next 2 a ok b ok")
    forced = dict(more="worker.lb.sticky_session_force=true\n")
    yield balanced("which failed before, and the balancer forces it", [b"", HI], [on(0, kept=False), on(1)], own_end(1, 500), reply() + own(500),
                   ["GET / 200 2 b", "GET / 500 26 -"], "next 5 a error b ok", client=GET + request(headers=of("a")), **forced)
    yield balanced("which failed before, and another one may have it", [b"", HI * 2], [on(0, kept=False), on(1), on(1, headers=of("a"))], closed(2, "ByClient"),
                   reply() * 2, ["GET / 200 2 b"] * 2, "next 6 a error b ok", client=GET + request(headers=of("a")))
    yield "a mount has terms"
    to = lambda member: [(member, forward(path="/x/y", headers=of("a"), route="ab"[member]), True)]
    asked = request(path="/x/y", headers=of("a"))
    for name, terms, member in (("disabled for new sessions", "disabled=a", 0), ("disabled, and sessions count for nothing", "sticky_ignore=1;disabled=a", 1),
                                ("stopped", "stopped=a", 1)):
        yield balanced(name, [HI], to(member), rows=[f"GET /x/y 200 2 {'ab'[member]}"], client=asked, map_=f"/x/*=lb;{terms}\n", desk="next 2 a ok b ok")
    yield Row("both stopped", asked, [], own_end(0, 503), gets=own(503), rows=["GET /x/y 503 24 -"], workers=members("a", "b"), map_="/x/*=lb;stopped=a,b\n",
              desk="next 1 a ok b ok")
    yield "a journal is full"
    yield done("at the second request", own_end(1, 500), client=GET * 2, gets=reply() + own(500), rows=["GET / 200 2 w1", "GET / 500 26 -"],
               desk="next 281474976710656 w1 ok", words="first=281474976710654")
    yield "a link is pinged"
    pinged = "worker.list=w1\nworker.w1.retries=1\nworker.w1.ping_mode="
    twice = dict(client=GET * 2, gets=reply() * 2, rows=["GET / 200 2 w1"] * 2, desk="next 4 w1 ok", ends=closed(2, "ByClient"))
    yield done("before each request", links=[(CPONG + HI) * 2], talks=[(0, CPING + forward(), True)] * 2, workers=pinged + "P\n", **twice)
    yield done("where it is new", links=[CPONG + HI * 2], talks=[(0, CPING + forward(), True), (0, forward(), True)], workers=pinged + "C\n", **twice)


def status_workers():
    yield "a status worker shows its page"
    yield paged("of all balancers", "/jk", PAGE)
    yield paged("of one", "/jk?cmd=list&w=lb", PAGE)
    yield paged("to HEAD without a body", "/jk", PAGE, method="HEAD")
    yield paged("and ends the session of HTTP/1.0", "/jk", PAGE, old=True)
    yield paged("after a change", "/jk?cmd=update&w=lb&sw=node1&vwf=2", DOUBLED, workers=STATUS, desk="next 1 node1 ok node2 ok")
    yield "a status worker's page is written as its query says"
    table = pages.table(nodes(), False).encode()
    yield paged("as a table", "/jk?mime=html", table, HTML)
    yield paged("as a table with forms", "/jk?mime=html", pages.table(nodes(), True).encode(), HTML, workers=STATUS)
    yield paged("as a table after a change", "/jk?cmd=update&w=lb&sw=node1&vwf=2&mime=html", pages.table(nodes(1, 2), True).encode(), HTML, workers=STATUS,
                desk="next 1 node1 ok node2 ok")
    yield paged("as a table to HEAD", "/jk?mime=html", table, HTML, method="HEAD")
    yield paged("as figures", "/jk?mime=prom", pages.figures(nodes()).encode(), PROM)
    yield paged("as lines", "/jk?mime=txt", PAGE)
    yield paged("as lines where the value is another", "/jk?mime=xml", PAGE)
    yield "a status worker refuses"
    change = "/jk?cmd=update&w=lb&sw=node1&vwf="
    yield answered("a change where it is read only", change + "2", "ReadOnly", STATUS + READ_ONLY)
    yield answered("and to HEAD without its words", change + "2", "ReadOnly", STATUS + READ_ONLY, method="HEAD")
    yield answered("a member that isn't there", "/jk?cmd=update&w=lb&sw=node9&vwf=2", "UnknownName", STATUS)
    yield answered("a factor of 0", change + "0", "BadValue", STATUS)
    yield answered("an update of nothing", "/jk?cmd=update&w=lb&sw=node1", "BadQuery", STATUS + READ_ONLY)
    yield answered("a name twice", "/jk?cmd=list&cmd=list", "BadQuery", STATUS + READ_ONLY)
    yield answered("a balancer that isn't there", "/jk?w=other", "UnknownName", STATUS + READ_ONLY)
    yield answered("factors that make too wide a unit", "/jk?cmd=update&w=lb&sw=c&vwf=65497", "TooWide", PRIMES, "next 0 a ok b ok c ok")
    yield "a status worker for which users are named refuses"
    for name, path in (("its page", "/jk"), ("a change", change + "2"), ("a query that means no command", "/jk?cmd=no")):
        yield answered(name, path, "Closed", STATUS + "worker.jkstatus.user=admin\n")
    yield "a journal is full, and a status worker refuses"
    first, second = change + "2", change + "3"
    full = DOUBLED.replace(b"R 2 1\n", b"R 2 281474976710656\n")
    yield Row("the change that has no number", request(path=first) + request(path=second), [], refusal_end(1, "Full"), gets=page(full) + refusal("Full"),
              rows=[f"GET {first} 200 {len(full)} jkstatus", refusal_row(second, "Full")], desk="next 281474976710656 node1 ok node2 ok", workers=STATUS,
              map_="/jk=jkstatus\n/*=lb\n", words="first=281474976710655")


def waiting():
    """A client whose next read would wait is left where a request is whole and nothing of the next one came."""
    one = len(GET)
    both = dict(client=GET * 2, links=[HI * 2], talks=[(0, forward(), True)] * 2, gets=reply() * 2, rows=["GET / 200 2 w1"] * 2, desk="next 4 w1 ok")
    yield "a client that waits is left after a whole request"
    yield done("after a reply", closed(1, "Idle"), words=f"waits={one}")
    yield done("after the second of two", closed(2, "Idle"), words=f"waits={2 * one}", **both)
    sent = post(LENGTH(b"hello"), b"hello")
    yield posted("after a body that its member took", LENGTH(b"hello"), b"hello", HI, body(b"hello"), closed(1, "Idle"), words=f"waits={len(sent)}")
    shown = request(path="/jk")
    yield Row("after a page", shown, [], closed(1, "Idle"), gets=page(PAGE), rows=[f"GET /jk 200 {len(PAGE)} jkstatus"], desk="next 0 node1 ok node2 ok",
              workers=STATUS + READ_ONLY, map_="/jk=jkstatus\n/*=lb\n", words=f"waits={len(shown)}")
    yield "a client that waits is not left"
    yield done("before its first request", words="waits=0")
    yield done("where the next request came with this one", closed(2, "ByClient"), words=f"waits={one}", **both)
    yield done("where a part of the next request came", "Truncated { requests: 1 }", client=GET + GET[:5], words=f"waits={one + 5}")
    old = request(old=True)
    yield done("after its last request", closed(1, "Last"), client=old, talks=[(0, forward(old=True), True)], gets=reply(last=True), rows=["GET / old 200 2 w1"],
               words=f"waits={len(old)}")
    yield refused("after an answer of the connector's own", request(headers=()), 400, words=f"waits={len(request(headers=()))}")
    yield "a client is told what is awaited of it"
    yield done("each head", words="awaits", desk="next 2 w1 ok client Client Client")
    yield posted("a body", LENGTH(b"hello"), b"hello", HI, body(b"hello"), words="awaits", desk="next 2 w1 ok client Client Body Client")
    yield done("no head after its last request", closed(1, "Last"), client=old, talks=[(0, forward(old=True), True)], gets=reply(last=True), rows=["GET / old 200 2 w1"],
               words="awaits", desk="next 2 w1 ok client Client")


def own_answers():
    """A session for each own answer that comes after its mount was found: how to make its row, the rows of the requests before it, and its name."""
    def of(status, make):
        def made(**more):
            row = make(**more)
            row.answer = status
            return row
        return made

    large = request(headers=(("Host", "localhost"), ("X", "x" * 8200)))
    strict = ONE + "worker.w1.recovery_options=1\n"
    down = sized(b"hi", 503, "Down")
    forced = request(headers=HOST + (("Cookie", "JSESSIONID=x.a"),))

    def bad_line(**more):
        row = dict(ends=own_end(0, 400), gets=own(400), rows=["POST / 400 16 -"], kept=False)
        row.update(more)
        return posted("", CHUNKED, BROKEN, ask(8186), b"", **row)

    def too_large(**more):
        return Row("", large, [], **{**dict(ends=own_end(0, 413), gets=own(413), rows=["GET / 413 22 -"], desk="next 2 w1 ok"), **more})

    def broken(**more):
        return done("", **{**dict(ends=own_end(0, 502), links=[b"AA\0\1"], talks=[(0, forward(), False)], gets=own(502), rows=["GET / 502 16 -"], workers=strict), **more})

    def listed(**more):
        site = members("a", "b", options=2, more="worker.a.fail_on_status=503\n")
        row = dict(ends=own_end(0, 503), gets=own(503), rows=["GET / 503 24 -"], desk="next 2 a error b ok")
        return Row("", GET, [down, HI], talks=[on(0, kept=False)], workers=site, map_=LB, **{**row, **more})

    def nobody(**more):
        row = dict(ends=own_end(0, 503), gets=own(503), rows=["GET / 503 24 -"], desk="next 1 a ok b ok")
        return Row("", GET, [], workers=members("a", "b"), map_="/*=lb;stopped=a,b\n", **{**row, **more})

    def must_stay(**more):
        site = members("a", "b", more="worker.lb.sticky_session_force=true\n")
        row = dict(ends=own_end(1, 500), gets=reply() + own(500), rows=["GET / 200 2 b", "GET / 500 26 -"], desk="next 5 a error b ok")
        return Row("", GET + forced, [b"", HI], talks=[on(0, kept=False), on(1)], workers=site, map_=LB, **{**row, **more})

    def full(**more):
        row = dict(ends=own_end(1, 500), client=GET * 2, gets=reply() + own(500), rows=["GET / 200 2 w1", "GET / 500 26 -"],
                   desk="next 281474976710656 w1 ok", words="first=281474976710654")
        return done("", **{**row, **more})

    yield of(400, bad_line), [], "400 for a bad chunk line"
    yield of(413, too_large), [], "413"
    yield of(502, broken), [], "502"
    yield of(503, listed), [], "503 for a status that counts as a failure"
    yield of(503, nobody), [], "503 without a member"
    yield of(500, must_stay), ["GET / 200 2 b"], "500 for a session that must stay"
    yield of(500, full), ["GET / 200 2 w1"], "500 of a full journal"


def failing():
    yield "a body breaks the grammar of chunks"
    broken = dict(ends=own_end(0, 400), gets=own(400), rows=["POST / 400 16 -"], kept=False)
    yield posted("by 11 digits", CHUNKED, b"00000000003\r\nabc\r\n0\r\n\r\n", ask(8186), b"", **broken)
    yield posted("by 257 bytes after a semicolon", CHUNKED, b"3;" + b"x" * 257 + b"\r\nabc\r\n0\r\n\r\n", ask(8186), b"", **broken)
    yield posted("by a trailer of 16,385 bytes", CHUNKED, b"3\r\nabc\r\n0\r\na: " + b"x" * 16380 + b"\r\n\r\n", ask(8186), b"", **broken)
    yield "a head is too big"
    yield refused("16,384 bytes without an empty line", b"a" * 16384, 431)
    yield "a reply breaks the protocol, and no other try is allowed"
    strict = ONE + "worker.w1.recovery_options=1\n"
    head = send_headers(headers=[("Content-Length", "2")])
    for name, link in (("another mark", b"AA\0\1"), ("a packet above 8,192 bytes", b"AB\xff\xff"), ("an empty packet", b"AB\0\0"), ("a second head", head * 2),
                       ("a chunk before the head", chunk(b"hi")), ("an end before the head", end()), ("status 199", send_headers(199)),
                       ("a name with a space", send_headers(headers=[("a b", "c")])), ("a value with a line's end", send_headers(headers=[("a", "b\nc")])),
                       ("more than the length", send_headers(headers=[("Content-Length", "3")]) + chunk(b"abcd")), ("no end", head)):
        yield done(name, own_end(0, 502), links=[link], talks=[(0, forward(), False)], gets=own(502), rows=["GET / 502 16 -"], workers=strict)
    yield "a read of the client fails"
    yield Row("within its head", GET, [], "ClientFault { requests: 0 }", desk="next 0 w1 ok", ways="reads", faults=1)
    yield done("after a reply", "ClientFault { requests: 1 }", ways="stop", faults=1)
    packet = post(LENGTH(b"hello"), b"hello")
    first = len(packet) - 5
    yield Row("within its body", packet, [], "ClientFault { requests: 0 }", desk="next 0 w1 ok", ways=f"read@{first}..{len(packet)}", faults=1)
    yield "a write to the client fails after so many bytes"
    whole = reply()
    for place in range(len(whole)):
        yield done("", "ClientFault { requests: 0 }", gets=whole[:place], rows=[], ways=f"write@{place}", faults=1)
    yield "a flush of what a client was written fails, numbered from 0"
    yield done("of a reply", "ClientFault { requests: 0 }", rows=[], words="unflushed=0")
    yield done("of the second of two", "ClientFault { requests: 1 }", client=GET * 2, links=[HI * 2], talks=[(0, forward(), True)] * 2, gets=reply() * 2,
               desk="next 4 w1 ok", words="unflushed=1")
    yield Row("of an own answer", request(headers=()), [], "ClientFault { requests: 0 }", gets=own(400), desk="next 0 w1 ok", words="unflushed=0")
    yield Row("of a page", request(path="/jk"), [], "ClientFault { requests: 0 }", gets=page(PAGE), workers=STATUS + READ_ONLY, map_="/jk=jkstatus\n/*=lb\n",
              desk="next 0 node1 ok node2 ok", words="unflushed=0")
    yield "a write of 100 Continue fails after so many bytes"
    hi = HOST + (("Content-Length", "2"), ("Expect", "100-continue"))
    for place in range(len(CONTINUE)):
        yield Row("", request("POST", "/e", hi, b"hi"), [], "ClientFault { requests: 0 }", gets=CONTINUE[:place], desk="next 0 w1 ok", ways=f"write@{place}", faults=1)
    yield "a write of an own answer fails after so many bytes"
    for place in (0, 1, len(own(400)) - 1):
        yield Row("", request(headers=()), [], "ClientFault { requests: 0 }", gets=own(400)[:place], desk="next 0 w1 ok", ways=f"write@{place}", faults=1)
    for twin, kept, what in own_answers():
        yield f"a write of {what} fails after so many bytes, and its flush"
        row = twin()
        requests, before = len(kept), row.gets[:len(row.gets) - len(own(row.answer))]
        lost = dict(ends=f"ClientFault {{ requests: {requests} }}", rows=kept)
        for place in (0, 1, len(own(row.answer)) - 1):
            at = len(before) + place
            yield twin(gets=row.gets[:at], ways=f"write@{at}", faults=1, **lost)
        yield twin(words=" ".join([*row.words.replace("-", "").split(), f"unflushed={requests}"]), **lost)
    yield "a write of a page fails after so many bytes"
    for place in (0, 1, len(page(PAGE)) - 1):
        yield Row("", request(path="/jk"), [], "ClientFault { requests: 0 }", gets=page(PAGE)[:place], workers=STATUS + READ_ONLY, map_="/jk=jkstatus\n/*=lb\n",
                  desk="next 0 node1 ok node2 ok", ways=f"write@{place}", faults=1)


def replies():
    unserved = dict(ends=own_end(0, 503), talks=[(0, forward(), False)], gets=own(503), rows=["GET / 503 24 -"], desk="next 3 w1 ok")
    broken = dict(ends=closed(0, "Cut"), talks=[(0, forward(), False)])
    yield "a reply comes in two reads, or byte for byte"
    yield done("to a GET", ways="each bytes")
    piece = b"x" * 8187
    yield posted("to a body in pieces", LENGTH(piece), piece, ask(100) + ask(100) + HI, body(piece[:8186]) + body(b"x") + body(b""), ways="each bytes")
    yield "a reply breaks off after so many bytes"
    for place in range(len(HI)):
        yield done("", links=[HI[:place]], **(unserved if place < 30 else broken))
    yield "a read of the reply fails after so many bytes"
    yield done("before a byte of it was passed", ways="read@0..30", **unserved)
    yield done("after one", ways="read@30..36", **broken)
    yield "a write of the request fails after so many bytes"
    for place in (0, 1, 40, 76):
        yield done("", ways=f"write@{place}", **{**unserved, "talks": [(0, forward()[:place], False)]})


def place(number, what, member=False, *args, **more):
    """A row of `places`; with `member` it is one whose first link has the way."""
    row = balanced(f"{number}. {what}", [HI, HI], *args, **more)
    row.by_member = member
    return row


def places():
    """One call fails at each place in turn, in a session of one request to a balancer with the members a and b."""
    by_b = dict(rows=["GET / 200 2 b"], desk="next 4 a error b ok")
    sent, lost = [on(0, kept=False), on(1)], [on(0, kept=False)]
    bad = dict(ends=own_end(0, 502), gets=own(502), rows=["GET / 502 16 -"], desk="next 2 a error b ok")
    gone = dict(ends="ClientFault { requests: 0 }", rows=[], desk="next 2 a ok b ok", faults=1)
    yield "one call fails at each place in turn"
    yield place(1, "the client's read at 0", False, [], "ClientFault { requests: 0 }", b"", [], "next 0 a ok b ok", 0, ways="read@0", faults=1)
    unsent = [on(0, kept=False, sent=False), on(1)]
    yield place(2, "the dial to a", False, unsent, options=0, words="dial=0", **by_b)
    yield place(3, "the write to a at 0, since the packet wasn't written whole", True, unsent, options=1, ways="write@0", **by_b)
    yield place(4, "the read from a at 0", True, sent, options=0, ways="read@0", **by_b)
    yield place(4, "with options 1", True, lost, options=1, ways="read@0", **bad)
    yield place(5, "the read from a at 20", True, sent, options=0, ways="read@20", **by_b)
    yield place(5, "with options 2", True, lost, options=2, ways="read@20", **bad)
    yield place(6, "the read from a at 30", True, lost, closed(0, "Cut"), rows=["GET / 200 2 a"], options=0, ways="read@30", desk="next 2 a error b ok")
    for number, at in ((7, 0), (8, 17)):
        yield place(number, f"the write to the client at {at}", False, [on(0)], gets=reply()[:at], options=0, ways=f"write@{at}", **gone)
        yield place(number, "with options 4", False, lost, gets=reply()[:at], options=4, ways=f"write@{at}", **gone)


def comment(text):
    return textwrap.fill(text, 132, initial_indent="# ", subsequent_indent="# ", break_on_hyphens=False)


def head_of(what):
    """The head of a file."""
    theirs = "the bytes are what the client sends, and each `link` is what a link that is dialled has to come"
    if what in ("replies", "member_places"):
        theirs = "`client` is what the client sends, the bytes are what the first link to a member has to come, and each `link` is that of one after it"
    yield "# Sessions of one client, by RFC 9112, the AJPv1.3 reference, the Tomcat Connectors reference and docs/FORMATS.md."
    yield "# Made by vectors/sessions.py.\n#"
    yield comment(
        "The `words` are `first=N` for the number of the Books' first entry, `dial=N` where that dial, from 0, fails, `client=N` where the client's write "
        "fails after N bytes, `waits=N` where its next read would wait once N bytes were read, `unflushed=N` where that flush to it, from 0, fails, and "
        "`dated=N` where answers tell their moment and the clock is at N. With `awaits` the row ends with what the client's link was told to await. "
        f"`workers` and `map` are the two files of the site, {theirs}. What comes out is how the session ended, each row of the log as "
        "`row METHOD TARGET STATUS BODY WORKER`, each talk as `to LB.MEMBER SENT`, with `kept` where its link was, what the `client` got, and each "
        "balancer by its next number and its members with their states.")
    if what == "places":
        yield "#\n" + comment("One call fails in each row. Those of the first link to a member stand in member_places.txt, and those of a door and of "
                              "a shelf in crates/serve_checks/data/serve/places.txt.")
    if what == "member_places":
        yield "#\n# One call of the first link fails in each row. Those of the client, and the dial, stand in places.txt."


def main(what):
    parts = {"sessions": [plain_sessions, bodies, heads, moments, others, status_workers, waiting], "failing": [failing], "replies": [replies], "places": [places], "member_places": [places]}[what]
    print("\n".join(head_of(what)))
    print_rows(parts, what in ("replies", "member_places"), lambda row: "places" not in what or row.by_member == (what == "member_places"))


if __name__ == "__main__":
    main(sys.argv[1])
