#!/usr/bin/env python3
"""Rows of `dry`: what a client sends, what a member has to say, and the three lines that come out.

Written from RFC 9110, RFC 9112 and the public AJPv1.3 protocol reference, and apart from the program's own code: packets
are built as the reference spells them, and replies as HTTP frames them. Own rules are the answers of the connector itself,
the order of a request's attributes, and which member is asked (docs/FORMATS.md).

    python3 vectors/dry.py > crates/plain_checks/data/plain/dry.txt
"""
from sessions import READ_ONLY, STATUS

METHODS = (
    "OPTIONS GET HEAD POST PUT DELETE TRACE PROPFIND PROPPATCH MKCOL COPY MOVE LOCK UNLOCK ACL REPORT VERSION-CONTROL "
    "CHECKIN CHECKOUT UNCHECKOUT SEARCH MKWORKSPACE UPDATE LABEL MERGE BASELINE-CONTROL MKACTIVITY"
).split()

ASKED = (
    "accept accept-charset accept-encoding accept-language authorization connection content-type content-length cookie "
    "cookie2 host pragma referer user-agent"
).split()

SAID = (
    "content-type content-language content-length date last-modified location set-cookie set-cookie2 servlet-engine status "
    "www-authenticate"
).split()

TEXTS = {
    400: "Bad Request", 403: "Forbidden", 404: "Not Found", 413: "Content Too Large", 431: "Request Header Fields Too Large",
    500: "Internal Server Error", 501: "Not Implemented", 502: "Bad Gateway", 503: "Service Unavailable",
}

# ---- AJPv1.3


def integer(number):
    return number.to_bytes(2, "big")


def string(text):
    text = text.encode() if isinstance(text, str) else text
    return integer(len(text)) + text + b"\0"


def named(codes, name):
    return integer(0xA001 + codes.index(name.lower())) if name.lower() in codes else string(name)


def to_container(payload):
    return b"\x12\x34" + integer(len(payload)) + payload


def from_container(payload):
    return b"AB" + integer(len(payload)) + payload


def host_of(headers):
    hosts = [value for name, value in headers if name.lower() == "host"]
    if not hosts or not hosts[0]:
        return "localhost", 80
    server, colon, port = hosts[0].rpartition(":")
    if not colon or "]" in port:
        return hosts[0], 80
    return server, int(port) if port else 80


def forward(method, target, headers, route=None, secret=None, old=False):
    path, mark, query = target.partition("?")
    server, port = host_of(headers)
    code = METHODS.index(method) + 1 if method in METHODS else 255
    out = bytes([2, code]) + string("HTTP/1.0" if old else "HTTP/1.1") + string(path)
    out += string("127.0.0.1") + string("127.0.0.1") + string(server) + integer(port) + b"\0" + integer(len(headers))
    out += b"".join(named(ASKED, name) + string(value.strip(" \t")) for name, value in headers)
    out += b"\x05" + string(query) if mark else b""
    out += b"\x06" + string(route) if route else b""
    out += b"\x0c" + string(secret) if secret else b""
    out += b"\x0d" + string(method) if code == 255 else b""
    return to_container(out + b"\xff")


def data(piece):
    return to_container(integer(len(piece)) + piece) if piece else to_container(b"")


def head(status, message, headers):
    fields = b"".join(named(SAID, name) + string(value) for name, value in headers)
    return from_container(b"\x04" + integer(status) + string(message) + integer(len(headers)) + fields)


def chunk(piece):
    return from_container(b"\x03" + string(piece))


def ask(most):
    return from_container(b"\x06" + integer(most))


END = from_container(b"\x05\x01")
CLOSE = from_container(b"\x05\x00")

# ---- HTTP


def request(method, target, headers, old=False, body=b""):
    lines = [f"{method} {target} HTTP/1.{0 if old else 1}"] + [f"{name}: {value}" for name, value in headers]
    return ("\r\n".join(lines) + "\r\n\r\n").encode() + body


def answer(status, message, headers, pieces=(), old=False, bare=False, last=False):
    """A reply as its client has it: without hop-by-hop fields, and framed by its length, by chunks or by closing."""
    bare = bare or status in (204, 304)
    kept = [(name, value) for name, value in headers if name.lower() not in ("connection", "keep-alive", "transfer-encoding")]
    if status == 204:
        kept = [(name, value) for name, value in kept if name.lower() != "content-length"]
    measured = any(name.lower() == "content-length" for name, value in kept)
    framed = not bare and not measured and not old
    lines = [f"HTTP/1.1 {status} {message}"] + [f"{name}: {value}" for name, value in kept]
    lines += ["Transfer-Encoding: chunked"] if framed else []
    lines += ["Connection: close"] if last else []
    out = ("\r\n".join(lines) + "\r\n\r\n").encode()
    if bare:
        return out
    if not framed:
        return out + b"".join(pieces)
    return out + b"".join(b"%x\r\n%s\r\n" % (len(piece), piece) for piece in pieces if piece) + b"0\r\n\r\n"


def own(status, bare=False, words=""):
    text = f"{status} {TEXTS[status]}\n" + (words and words + "\n")
    lines = f"HTTP/1.1 {status} {TEXTS[status]}\r\nContent-Type: text/plain\r\nContent-Length: {len(text)}\r\nConnection: close\r\n\r\n"
    return (lines + ("" if bare else text)).encode()


def page(text, last=False, bare=False):
    headers = [("Content-Type", "text/plain"), ("Content-Length", str(len(text)))]
    return answer(200, "OK", headers, [text.encode()], last=last, bare=bare)


def refusal(status, words):
    """What a status worker answers that refuses a request."""
    return own(status, words=words)


FORBIDDEN, UNMEANT = (403, "this status worker is read only"), (400, "the query means no command")
UNKNOWN, BAD = (404, "no balancer or member has this name"), (400, "the value is out of its range")

# ---- rows

KEYS = {13: "\\r", 10: "\\n", 9: "\\t"}


def escaped(text):
    plain = (chr(b) if 32 < b < 127 and b != 92 else KEYS.get(b, "\\s" if b == 32 else f"\\x{b:02x}") for b in text)
    return "".join(plain)


def parts_of(text):
    """A text is its bytes, or a list of bytes and of pairs, each so many times the same bytes."""
    return text if isinstance(text, list) else [text]


def whole(text):
    return b"".join(part if isinstance(part, bytes) else part[0] * part[1] for part in parts_of(text))


def lines_of(text, spelled=escaped):
    """A text as lines of a row, each run of 100 equal bytes or more by its length."""
    out = []
    for part in parts_of(text):
        if isinstance(part, tuple):
            out.append(f"times {part[0]} {spelled(part[1])}")
            continue
        at, plain = 0, b""
        while at < len(part):
            run = at
            while run < len(part) and part[run] == part[at]:
                run += 1
            if run - at >= 100:
                out += ["+" + spelled(plain)] if plain else []
                out.append(f"times {run - at} {spelled(part[at:at + 1])}")
                plain = b""
            else:
                plain += part[at:run]
            at = run
        out += ["+" + spelled(plain)] if plain else []
    return out


def hexed(text):
    return lines_of(text, bytes.hex) if whole(text) else ["+-"]


def row(name, asked, reply, to_member, to_client, end, site=None):
    """A row of its files, and the output's lines."""
    print(f"row {name}")
    print("words dry q p" + (" w m" if site else ""))
    files = [("q", asked), ("p", reply)] + ([("w", site[0].encode()), ("m", site[1].encode())] if site else [])
    for word, text in files:
        print(f"file {word}")
        print("".join(line + "\n" for line in lines_of(text)), end="")
    print("output")
    print(f"+to member {len(whole(to_member))}\\s")
    print("\n".join(hexed(to_member)))
    print(f"+\\nto client {len(whole(to_client))}\\s")
    print("\n".join(hexed(to_client)))
    print(f"+\\nend {end}\\n\n")


HOST = [("Host", "localhost")]
OK_HI = head(200, "OK", [("Content-Length", "2")]) + chunk(b"hi") + END
GOT_HI = answer(200, "OK", [("Content-Length", "2")], [b"hi"])
PAIR = (
    "worker.list=lb\nworker.lb.type=lb\nworker.lb.balance_workers=a,b\nworker.a.retries=1\nworker.b.retries=1\n"
    "worker.a.recovery_options={0}\nworker.b.recovery_options={0}\n"
)
EVERY = "/*=lb\n"


def single():
    get = request("GET", "/", HOST)
    asked = forward("GET", "/", HOST)
    row("a first GET", get, OK_HI, asked, GOT_HI, "by-client 1")
    row("a link that isn't to be used again", get, OK_HI[:-1] + b"\0", asked, GOT_HI, "by-client 1")
    bare = head(200, "OK", []) + chunk(b"hi") + END
    row("a reply without a length", get, bare, asked, answer(200, "OK", [], [b"hi"]), "by-client 1")
    row("a chunk of no bytes", get, head(200, "OK", []) + chunk(b"") + chunk(b"a") + chunk(b"") + END, asked,
        answer(200, "OK", [], [b"a"]), "by-client 1")
    row("a reply without a body", get, head(200, "OK", []) + END, asked, answer(200, "OK", []), "by-client 1")
    headers = [("Content-Type", "text/html"), ("X-Y", "z"), ("Connection", "keep-alive"), ("Content-Length", "0")]
    row("fields of the hop alone are left out", get, head(404, "No", headers) + END, asked, answer(404, "No", headers), "by-client 1")
    for k in range(36):
        end = ("own-503 0", own(503)) if k < 30 else ("cut 0", GOT_HI)
        row(f"a reply of {k} bytes", get, OK_HI[:k], asked, end[1], end[0])
    cut = head(200, "OK", [("Content-Length", "10")]) + chunk(b"xyz")
    row("a reply that ends in its body", get, cut, asked, answer(200, "OK", [("Content-Length", "10")], [b"xyz"]), "cut 0")
    head_ = request("HEAD", "/", HOST)
    row("HEAD has no body", head_, OK_HI, forward("HEAD", "/", HOST),
        answer(200, "OK", [("Content-Length", "2")], bare=True), "by-client 1")
    row("HEAD that no member answers", head_, b"", forward("HEAD", "/", HOST), own(503, bare=True), "own-503 0")
    for status in (204, 304):
        headers = [("Content-Length", "2"), ("ETag", "e")]
        reply = head(status, "S", headers) + END
        row(f"a reply of status {status}", get, reply, asked, answer(status, "S", headers), "by-client 1")
    old = request("GET", "/a?b=c", [], old=True)
    row("a request of HTTP/1.0", old, bare, forward("GET", "/a?b=c", [], old=True),
        answer(200, "OK", [], [b"hi"], old=True, last=True), "last 1")
    close = HOST + [("Connection", "x, Close")]
    row("a client that closes", request("GET", "/", close), OK_HI, forward("GET", "/", close),
        answer(200, "OK", [("Content-Length", "2")], [b"hi"], last=True), "last 1")
    odd = [("Host", "h:81"), ("X-Odd", " v "), ("Accept", "a"), ("Accept", "b")]
    row("a method without a code", request("BREW", "/pot?", odd), OK_HI, forward("BREW", "/pot?", odd), GOT_HI, "by-client 1")
    for host in ("[::1]:81", "[::1]", "h:"):
        row(f"the host {host}", request("GET", "/", [("Host", host)]), OK_HI, forward("GET", "/", [("Host", host)]), GOT_HI, "by-client 1")
    row("requests without replies", b"", b"", b"", b"", "by-client 0")
    row("a head that is cut", b"GET /a HTT", b"", b"", b"", "truncated 0")
    row("a cut head after a request", get + b"GET /a", OK_HI, asked, GOT_HI, "truncated 1")


def many():
    who = head(200, "OK", [("Content-Length", "3")]) + chunk(b"n1\n") + END
    first, second = [("Host", "h")], []
    got = answer(200, "OK", [("Content-Length", "3")], [b"n1\n"])
    row("two requests over one link", request("GET", "/who", first) + request("GET", "/who", second, old=True), who + who,
        forward("GET", "/who", first) + forward("GET", "/who", second, old=True),
        got + answer(200, "OK", [("Content-Length", "3")], [b"n1\n"], last=True), "last 2")
    closed = who[:-1] + b"\0"
    row("the second request dials anew", request("GET", "/who", first) * 2, closed + who, forward("GET", "/who", first) * 2,
        got + own(503), "own-503 1")
    asked, said, told, heard = b"", b"", b"", b""
    for i in range(10):
        body = b"x" * i
        headers = HOST + [("Content-Length", str(i))]
        asked += request("POST", f"/{i}", headers, body=body)
        told += forward("POST", f"/{i}", headers) + (data(body) if body else b"")
        said += head(200, "OK", [("Content-Length", str(i))]) + (chunk(body) if body else b"") + END
        heard += answer(200, "OK", [("Content-Length", str(i))], [body])
    row("ten requests at once", asked, said, told, heard, "by-client 10")
    get = request("GET", "/", HOST)
    close = answer(200, "OK", [("Content-Length", "2")], [b"hi"], last=True)
    row("the thousandth request is the last", [(1001, get)], [(1001, OK_HI)], [(1000, forward("GET", "/", HOST))],
        [(999, GOT_HI), close], "last 1000")


def bodies():
    long = HOST + [("Content-Length", "8187")]
    body = b"y" * 8187
    row("a body in pieces", request("POST", "/", long, body=body), ask(100) * 2 + OK_HI,
        forward("POST", "/", long) + data(body[:8186]) + data(body[8186:]) + data(b""), GOT_HI, "by-client 1")
    row("a body's rest is read after the reply", request("POST", "/", long, body=body) + request("GET", "/", HOST), OK_HI * 2,
        forward("POST", "/", long) + data(body[:8186]) + forward("GET", "/", HOST), GOT_HI * 2, "by-client 2")
    row("a body that is cut", request("POST", "/", long, body=body[:8000]), OK_HI, b"", b"", "truncated 0")
    row("a body that is cut at an ask", request("POST", "/", long, body=body[:8186]), ask(1) + OK_HI,
        forward("POST", "/", long) + data(body[:8186]), b"", "truncated 0")
    row("a body that is cut after the reply", request("POST", "/", long, body=body[:8186]), OK_HI,
        forward("POST", "/", long) + data(body[:8186]), GOT_HI, "truncated 1")
    small = HOST + [("Content-Length", "5")]
    row("an ask after the whole body", request("POST", "/", small, body=b"hello"), ask(0) + OK_HI,
        forward("POST", "/", small) + data(b"hello") + data(b""), GOT_HI, "by-client 1")
    late = head(200, "OK", [("Content-Length", "2")]) + ask(8) + chunk(b"h") + ask(8) + chunk(b"i") + END
    row("asks after the head", request("POST", "/", small, body=b"hello"), late,
        forward("POST", "/", small) + data(b"hello") + data(b"") * 2, GOT_HI, "by-client 1")
    wider = "worker.list=w1\nworker.w1.retries=1\nworker.w1.max_packet_size=16384\n"
    row("a greater packet", request("POST", "/", HOST + [("Content-Length", "16379")]) + b"y" * 16379, ask(0) + OK_HI,
        forward("POST", "/", HOST + [("Content-Length", "16379")]) + data(b"y" * 16378) + data(b"y"), GOT_HI, "by-client 1",
        (wider, "/*=w1\n"))
    asks = HOST + [("Transfer-Encoding", "chunked")]
    spelled = b"3\r\nabc\r\n2;x=y\r\nde\r\n0\r\n\r\n"
    row("a chunked body", request("POST", "/", asks, body=spelled), ask(8186) * 2 + OK_HI,
        forward("POST", "/", asks) + data(b"abcde") + data(b""), GOT_HI, "by-client 1")
    row("a bad chunk line at an ask", request("POST", "/", asks, body=spelled.replace(b"2;x=y", b"zz")), ask(8186) + OK_HI,
        forward("POST", "/", asks), own(400), "own-400 0")
    row("a bad chunk line after the reply", request("POST", "/", asks, body=b"zz\r\n"), OK_HI, forward("POST", "/", asks),
        GOT_HI, "unread 1")
    row("a chunked body's rest is read after the reply", request("POST", "/", asks, body=spelled) + request("GET", "/", HOST),
        OK_HI * 2, forward("POST", "/", asks) + forward("GET", "/", HOST), GOT_HI * 2, "by-client 2")
    row("a bad chunk line after a byte of the reply", request("POST", "/", asks, body=b"zz\r\n"),
        head(200, "OK", [("Content-Length", "4")]) + chunk(b"hi") + ask(1), forward("POST", "/", asks),
        answer(200, "OK", [("Content-Length", "4")], [b"hi"]), "cut 0")
    large = HOST + [("Content-Length", str(2**20))]
    measured = [("Content-Length", str(2**20))]
    row("a mebibyte each way", [request("POST", "/", large), (2**20, b"y")],
        [(128, ask(8186)), head(200, "OK", measured), (128, chunk(8184 * b"z")), chunk(1024 * b"z"), END],
        [forward("POST", "/", large), (128, data(8186 * b"y")), data(768 * b"y")],
        [answer(200, "OK", measured), (2**20, b"z")], "by-client 1")
    waits = [("Host", "h"), ("Content-Length", "2"), ("Expect", "100-continue")]
    row("a client that waits for 100 Continue", request("POST", "/e", waits, body=b"hi"), OK_HI,
        forward("POST", "/e", waits) + data(b"hi"), b"HTTP/1.1 100 Continue\r\n\r\n" + GOT_HI, "by-client 1")
    other = [("Host", "h"), ("Content-Length", "2"), ("Expect", "200-ok")]
    row("another expectation has no effect", request("POST", "/e", other, body=b"hi"), OK_HI,
        forward("POST", "/e", other) + data(b"hi"), GOT_HI, "by-client 1")


def refused():
    over = "1099511627776"
    heads = [
        ("no host", request("GET", "/", []), 400),
        ("two hosts", request("GET", "/", HOST + HOST), 400),
        ("two framings", request("POST", "/", HOST + [("Content-Length", "1"), ("Transfer-Encoding", "chunked")]), 400),
        ("another coding", request("POST", "/", HOST + [("Transfer-Encoding", "gzip")]), 501),
        ("CONNECT", request("CONNECT", "h:1", HOST), 501),
        ("a length of 2^40", request("POST", "/", HOST + [("Content-Length", over)]), 413),
        ("101 headers", request("GET", "/", HOST + [("A", "b")] * 100), 431),
        ("a parent segment", request("GET", "/a/../b", HOST), 400),
        ("a bad escape", request("GET", "/%zz", HOST), 400),
        ("a target with a scheme", request("GET", "http://localhost/", HOST), 400),
        ("a bad line", b"GET  / HTTP/1.1\r\nHost: localhost\r\n\r\n", 400),
        ("the target *", request("OPTIONS", "*", HOST), 404),
    ]
    for name, text, status in heads:
        row(f"refused: {name}", text, OK_HI, b"", own(status), f"own-{status} 0")
    row("refused: HEAD without a host", request("HEAD", "/", []), b"", b"", own(400), "own-400 0")
    site = "worker.list=w1\nworker.w1.retries=1\n"
    row("a path without a mount", request("GET", "/b", HOST), OK_HI, b"", own(404), "own-404 0", (site, "/a=w1\n"))
    row("HEAD of a path without a mount", request("HEAD", "/b", HOST), OK_HI, b"", own(404, bare=True), "own-404 0", (site, "/a=w1\n"))
    row("a path that is excluded", request("GET", "/a/x", HOST), OK_HI, b"", own(404), "own-404 0", (site, "/a/*=w1\n!/a/x=w1\n"))
    wide = HOST + [("X", "x" * 9000)]
    row("a request beyond the packet", request("GET", "/", wide), OK_HI, b"", own(413), "own-413 0")


def recovery():
    get, post = request("GET", "/", HOST), request("POST", "/", HOST)
    heads = head(200, "OK", [("Content-Length", "2")])
    for method, text in (("GET", get), ("POST", post)):
        on_a, on_b = forward(method, "/", HOST, route="a"), forward(method, "/", HOST, route="b")
        for options, reply, again in (
            (0, b"", True), (1, b"", False), (2, b"", True), (2, heads, False), (0, heads, True), (1, heads, False),
            (17, b"", method == "GET"), (17, heads, method == "GET"), (19, heads, method == "GET"), (9, b"", False),
        ):
            name = f"{method} with options {options} after {'the headers' if reply else 'nothing'}"
            got = (on_a + on_b, own(503), "own-503 0") if again else (on_a, own(502), "own-502 0")
            row(name, text, reply, *got, (PAIR.format(options), EVERY))
    on_w = forward("GET", "/", HOST)
    row("two tries on one member", get, OK_HI[:20], on_w * 2, own(503), "own-503 0", ("worker.list=w1\nworker.w1.type=ajp13\n", "/*=w1\n"))
    pings = "worker.list=w1\nworker.w1.retries=1\nworker.w1.ping_mode={}\n"
    row("a new link is pinged", get * 2, from_container(b"\x09") + OK_HI * 2, to_container(b"\x0a") + on_w * 2, GOT_HI * 2,
        "by-client 2", (pings.format("C"), "/*=w1\n"))
    row("each request is preceded by a ping", get * 2, (from_container(b"\x09") + OK_HI) * 2, (to_container(b"\x0a") + on_w) * 2,
        GOT_HI * 2, "by-client 2", (pings.format("P"), "/*=w1\n"))
    row("no pong", get, OK_HI, to_container(b"\x0a"), own(503), "own-503 0", (pings.format("C"), "/*=w1\n"))
    on_a, on_b = forward("GET", "/", HOST, route="a"), forward("GET", "/", HOST, route="b")
    row("an idle link is its member's alone", get * 2, OK_HI * 2, on_a + on_b, GOT_HI + own(502), "own-502 1",
        (PAIR.format(1), EVERY))
    row("after a failed talk a link is new", get * 2, OK_HI * 2, on_a + on_b + on_a, GOT_HI + own(503), "own-503 1",
        (PAIR.format(0), EVERY))
    stays = HOST + [("Cookie", "JSESSIONID=x.a")]
    row("a session has its member's idle link", request("GET", "/", stays) * 2, OK_HI * 2, forward("GET", "/", stays, route="a") * 2,
        GOT_HI * 2, "by-client 2", (PAIR.format(1), EVERY))
    body = HOST + [("Content-Length", "2")]
    on_a, on_b = forward("POST", "/", body, route="a"), forward("POST", "/", body, route="b")
    row("the first piece is sent again", request("POST", "/", body, body=b"hi"), b"", on_a + data(b"hi") + on_b + data(b"hi"),
        own(503), "own-503 0", (PAIR.format(0), EVERY))
    listed = PAIR.format(0) + "worker.a.fail_on_status=500 -503\n"
    on_a, on_b = forward("GET", "/", HOST, route="a"), forward("GET", "/", HOST, route="b")
    for status in (500, 503):
        reply = head(status, "S", [("Content-Length", "2")]) + chunk(b"hi") + END
        row(f"a status {status} that counts as a failure", get, reply, on_a + on_b, own(503), "own-503 0", (listed, EVERY))
        strict = listed.replace("options=0", "options=2")
        row(f"a status {status} that counts, and no other try", get, reply, on_a, own(503), "own-503 0", (strict, EVERY))
    reply = head(501, "S", [("Content-Length", "2")]) + chunk(b"hi") + END
    row("a status that isn't listed", get, reply, on_a, answer(501, "S", [("Content-Length", "2")], [b"hi"]), "by-client 1",
        (listed, EVERY))


NODES = (
    "worker.list=lb\nworker.lb.type=lb\nworker.lb.balance_workers=node1,node2\nworker.node1.retries=1\nworker.node2.retries=1\n"
)


def sessions():
    def goes(name, target, cookie, route, site=NODES, urls=EVERY):
        headers = [("Host", "h")] + ([("Cookie", cookie)] if cookie else [])
        row(name, request("GET", target, headers), OK_HI, forward("GET", target, headers, route=route), GOT_HI, "by-client 1", (site, urls))

    goes("the first id that names a member", "/p", "JSESSIONID=a.x; JSESSIONID=b.node2", "node2")
    goes("an id of the path goes first", "/p;jsessionid=c.node1", "JSESSIONID=a.x; JSESSIONID=b.node2", "node1")
    goes("an id without a route", "/p", "JSESSIONID=abc", "node1")
    goes("no id", "/p", None, "node1")
    goes("an id in quotes", "/p", 'a=b; JSESSIONID="q.node2"', "node2")
    goes("a balancer that isn't sticky", "/p", "JSESSIONID=b.node2", "node1", NODES + "worker.lb.sticky_session=0\n")
    goes("another cookie", "/p", "ID=b.node2", "node2", NODES + "worker.lb.session_cookie=ID\n")
    goes("a mount that ignores sessions", "/x/y", "JSESSIONID=b.node2", "node1", NODES, "/x/*=lb;sticky_ignore=1\n")
    goes("a mount that disables a member", "/x/y", None, "node2", NODES, "/x/*=lb;disabled=node1;foo=2\n")
    goes("a disabled member serves its sessions", "/x/y", "JSESSIONID=b.node1", "node1", NODES, "/x/*=lb;disabled=node1\n")
    goes("a mount that stops a member", "/x/y", "JSESSIONID=b.node1", "node2", NODES, "/x/*=lb;stopped=node1\n")
    goes("a redirect", "/p", "JSESSIONID=b.node1", "node2", NODES + "worker.node1.activation=S\nworker.node1.redirect=node2\n")
    headers = [("Host", "h"), ("Cookie", "JSESSIONID=x.node2")]
    row("a session that is forced", request("GET", "/", headers), b"", forward("GET", "/", headers, route="node2"), own(500),
        "own-500 0", (NODES + "worker.lb.sticky_session_force=1\n", EVERY))
    row("no member is usable", request("GET", "/x", HOST), OK_HI, b"", own(503), "own-503 0", (NODES, "/x=lb;stopped=node1,node2\n"))
    site = NODES + "worker.node1.secret=s3\nworker.node2.secret=s3\n"
    row("query, route, secret and method", request("FOO", "/a?b", HOST), OK_HI, forward("FOO", "/a?b", HOST, route="node1", secret="s3"),
        GOT_HI, "by-client 1", (site, EVERY))


PAGE = "jk status\nlb lb R 2 {}\nnode1 A ok 0 0 {} 0 -\nnode2 {} ok 0 0 1 0 -\n"
SHOWN = "/jk=jkstatus\n"


def status_workers():
    def asks(name, query, got, end, site):
        row(name, request("GET", "/jk" + query, HOST), b"", b"", got, end, (site, SHOWN))

    read_only = STATUS + READ_ONLY
    assert len(PAGE.format(0, 1, "D")) == 64
    for query in ("", "?", "?cmd=list", "?cmd=list&w=lb", "?w=lb&x=y", "?%63md=list"):
        asks(f"the page by '{query}'", query, page(PAGE.format(0, 1, "D")), "by-client 1", read_only)
    for query, why in (
        ("?cmd=update&w=lb&sw=node1&vwf=2", FORBIDDEN), ("?cmd=reset&w=lb", FORBIDDEN), ("?cmd=recover&w=lb&sw=node1", FORBIDDEN),
        ("?cmd=update&w=lb&sw=node1", UNMEANT), ("?cmd=list&cmd=list", UNMEANT), ("?w=other", UNKNOWN), ("?cmd=no", UNMEANT), ("?a", UNMEANT),
        ("?cmd=update&w=lb&sw=node1&vwf=x", UNMEANT), ("?cmd=list&w=%zz", UNMEANT),
    ):
        asks(f"a read-only status worker at '{query}'", query, refusal(*why), f"own-{why[0]} 0", read_only)
    asks("an update", "?cmd=update&w=lb&sw=node1&vwf=2", page(PAGE.format(1, 2, "D")), "by-client 1", STATUS)
    asks("an update of an activation", "?cmd=update&w=lb&sw=node2&vwa=a", page(PAGE.format(1, 1, "A")), "by-client 1", STATUS)
    asks("a reset of all members", "?cmd=reset&w=lb", page(PAGE.format(2, 1, "D")), "by-client 1", STATUS)
    for query, why in (
        ("?cmd=update&w=lb&sw=node9&vwf=2", UNKNOWN), ("?cmd=update&w=lb&sw=node1&vwf=0", BAD), ("?cmd=update&w=no&sw=node1&vwf=2", UNKNOWN),
        ("?cmd=update&w=lb&sw=node1&vwr=node1", BAD), ("?cmd=update&w=lb&sw=node1&vwr=no", UNKNOWN),
    ):
        asks(f"a status worker at '{query}'", query, refusal(*why), f"own-{why[0]} 0", STATUS)
    shown = PAGE.format(2, 1, "D").replace("node1 A ok 0", "node1 A ok 1")
    row("the page after a request", request("GET", "/p", HOST) + request("GET", "/jk", HOST), OK_HI,
        forward("GET", "/p", HOST, route="node1"), GOT_HI + page(shown), "by-client 2", (read_only, SHOWN + "/p=lb\n"))
    shown = PAGE.format(1, 1, "A").replace("node1 A", "node1 S")
    row("a request after an update", request("GET", "/jk?cmd=update&w=lb&sw=node1&vwa=S", HOST) + request("GET", "/p", HOST), OK_HI,
        forward("GET", "/p", HOST, route="node2"), page(shown) + GOT_HI, "by-client 2",
        (NODES.replace("list=lb", "list=lb,jkstatus") + "worker.jkstatus.type=status\n", SHOWN + "/p=lb\n"))
    three = (
        "worker.list=lb,jkstatus\nworker.jkstatus.type=status\nworker.lb.type=lb\nworker.lb.balance_workers=a,b,c\n"
        "worker.a.lbfactor=65521\nworker.b.lbfactor=65519\nworker.c.lbfactor=1\n"
    )
    asks("factors that make too wide a unit", "?cmd=update&w=lb&sw=c&vwf=65497", refusal(400, "the values together are too wide for a journal"), "own-400 0", three)
    text = PAGE.format(0, 1, "D")
    row("the page for HEAD", request("HEAD", "/jk", HOST), b"", b"", page(text, bare=True), "by-client 1", (read_only, SHOWN))
    close = HOST + [("Connection", "close")]
    row("the page is the last reply", request("GET", "/jk", close), b"", b"", page(text, last=True), "last 1", (read_only, SHOWN))


def sites():
    def refused_site(name, workers, urls, line):
        print(f"row {name}\nwords dry q p w m\nfile q\n+\\e\nfile p\n+\\e\nfile w\n" + "\n".join(lines_of(workers.encode())))
        print("file m\n" + "\n".join(lines_of(urls.encode())) + f"\noutput\n|{line}\nstatus 3\n")

    refused_site("a refused workers.properties", "worker.list\n", "app=w1\n", "workers line 1: refusal 1")
    refused_site("a refused map", "worker.list=w1\nworker.w1.port=1\n", "app=w1\n", "map line 1: refusal 1")


print("# Sessions over memory, by vectors/dry.py.\n")
single()
many()
bodies()
refused()
recovery()
sessions()
status_workers()
sites()
