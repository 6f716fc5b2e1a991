#!/usr/bin/env python3
"""Commands that serve, over files and a world in memory or over the real one, each with what comes out of it.

Written from RFC 9112, the public AJPv1.3 protocol reference, and the rules of docs/FORMATS.md and docs/DECISIONS.md, and
apart from the program's own code: replies and packets are put together by sessions.py, journals by hand.

    python3 vectors/serving.py serving > crates/serve_checks/data/serve/serving.txt
    python3 vectors/serving.py faults > crates/serve_checks/data/serve/faults.txt
    python3 vectors/serving.py places > crates/serve_checks/data/serve/places.txt
    python3 vectors/serving.py logs > crates/serve_checks/data/serve/logs.txt
    python3 vectors/serving.py watch > crates/serve_checks/data/serve/watch.txt
    python3 vectors/serving.py words > crates/serve_checks/data/serve/words.txt
    python3 vectors/serving.py drills > crates/serve_checks/data/serve/drills.txt
    python3 vectors/serving.py fronts > crates/edge_checks/data/edge/fronts.txt
"""
import re
import sys

import drill
import sessions
from sessions import HI, LB, dated, forward, from_member, members, own_len, request, sized

SITE = "worker.list=w1\nworker.w1.retries=1\n"
MAP = "/*=w1\n"
WHO = request(path="/who", headers=(("Host", "h"),)) + request(path="/who", headers=(), old=True)
WHO_TALKS = [(forward(path="/who", headers=(("Host", "h"),), host="h"), True), (forward(path="/who", headers=(), old=True), True)]
WHO_LINK = sized(b"n1\n") * 2
WHO_BYTES = [(0, len(sent) + len(sized(b"n1\n"))) for sent, _ in WHO_TALKS]
GET = request()
MOST = (1 << 64) - 1


def reply(*what, **more):
    """A reply as a client gets it, whose head came in the first second: the clock of a world in memory stands there."""
    return dated(0, sessions.reply(*what, **more))


def own(status):
    return dated(0, sessions.own(status))


def spelled(data):
    """A line of a text."""
    plain = {0x0D: "\\r", 0x09: "\\t", 0x5C: "\\x5c"}
    return "".join(plain.get(b) or (chr(b) if 0x20 <= b <= 0x7E else f"\\x{b:02x}") for b in data)


def text(data):
    """The lines of a text; the last one ends without a line feed. A long run of one byte is told by its length."""
    *lines, last = data.split(b"\n")
    return [piece for line in lines for piece in pieces(line, "|")] + (pieces(last, "+") if last else [])


def pieces(line, mark):
    """A line with this mark, in pieces where a byte of it is repeated often."""
    at = re.search(rb"(.)\1{99,}", line)
    if not at:
        return [mark + spelled(line)]
    front = ["+" + spelled(line[:at.start()])] if at.start() else []
    rest = line[at.end():]
    return front + [f"times {len(at[0])} {spelled(at[1])}"] + (pieces(rest, mark) if rest or mark == "|" else [])


def log(lines):
    return b"log\n" + lines + b"\n"


def left(data):
    return b"left\n" + data + b"\n"


def talk(member, sent, kept=True):
    return f"to 0.{member}".encode() + (b" kept" if kept else b"") + b"\n" + sent + b"\n"


def journal(entries, first=0, members=("w1",)):
    """The segment of these entries, the first of which has this number, of a balancer that began at moment 0 with number 0 and
    has had each second entry from a choice, of each of its members in turn. That of a worker alone is direct, and isn't sticky."""
    alone, choices = len(members) == 1, first // 2
    loads = [len(range(m, choices, len(members))) for m in range(len(members))]
    lines = ["jkj 2", f"lb lb R {'0 0 1' if alone else '1 0 0'} 60 60 {len(members)}"]
    lines += [f"member {name} {name} 1 0 A - 64 ok {load}" for name, load in zip(members, loads)]
    lines += [f"from {first} 0 0 {(choices - 1) % len(members) if choices else '-'}"]
    lines += [f"e {first + n} {entry}" for n, entry in enumerate(entries)] + [f"end {len(entries)}"]
    return b"segment of 0\n" + ("\n".join(lines) + "\n").encode()


def exchanges(sessions, members=1, moments=None):
    """A choice of each member in turn and its return for each exchange, each with its session, and how many bytes its talk sent
    and received; at these moments, or all at 0."""
    entries = []
    for place, (session, number) in enumerate(sessions):
        ticket, at = len(entries), moments[place] if moments else 0
        entries += [f"{session} {at} select - 1 0 0 0 chosen {place % members} balanced 0", f"{session} {at} return {ticket} done {number} done"]
    return entries


class Row:
    def __init__(self, name, words, out=b"", status=0, faults=0, gears=(), files=(), back=(), lines=(), parts=None):
        self.name, self.words, self.out, self.status, self.faults = name, words, out, status, faults
        self.gears, self.files, self.back, self.lines, self.parts = gears, files, back, lines, parts

    def show(self):
        lines = [f"row {self.name}", f"words {self.words}", *self.lines]
        for clients, links, *refuses in self.gears:
            lines.append(" ".join(["gear", str(len(clients)), str(len(links)), *refuses]))
            for bytes_ in (*clients, *links):
                lines += ["file link", *text(bytes_)]
        for name, content in self.files:
            lines += [f"file {name}", *text(content.encode())]
        if self.parts is not None:
            for part in self.parts:
                lines += ["part", *text(part)]
        else:
            told = self.out + f"status {self.status}\nfaults {self.faults}\n".encode()
            told += b"".join(b"back\n" + gear for gear in self.back)
            lines += ["output", *text(told)]
        return "\n".join(lines) + "\n"


WHO_REPLIES = reply(b"n1\n") + reply(b"n1\n", last=True)
FILES = (("w", SITE), ("m", MAP))
SERVE = "serve w m 127.0.0.1:8080 "
WHO_GEAR = ([WHO], [WHO_LINK])
WHO_BACK = left(WHO_REPLIES) + b"".join(talk(0, sent, kept) for sent, kept in WHO_TALKS)


def serving():
    yield Row("a gear serves who comes to its door", SERVE + "1", gears=[WHO_GEAR], files=FILES,
              back=[WHO_BACK + journal(exchanges(WHO_BYTES))])
    yield Row("only so many clients come", SERVE + "1 --clients 1", gears=[([GET, GET], [HI])], files=FILES,
              back=[left(reply()) + talk(0, forward()) + journal(exchanges([(0, len(forward()) + len(HI))]))])
    two_left = left(reply()) * 2
    # either thread may take the link that the other one kept, so each link has the replies of all four talks to come
    yield Row("two threads serve two clients each", SERVE + "2", gears=[([GET, GET], [HI * 4]), ([GET, GET], [HI * 4])], files=FILES,
              parts=[b"status 0\nfaults 0\nback\n" + two_left, b"segment of 0\njkj 2\n", b"end 8\nback\n" + two_left])
    pair = ("a", "b")
    to = [forward(route=pair[n % 2]) for n in range(3)]
    entries = exchanges([(0, len(sent) + len(HI)) for sent in to], 2)
    yield Row("a journal is cut at four", SERVE + "1 --cut 7", gears=[([GET * 3], [HI * 2, HI])], files=(("w", members(*pair)), ("m", LB)),
              back=[left(reply() * 3) + b"".join(talk(n % 2, sent) for n, sent in enumerate(to))
                    + journal(entries[:4], members=pair) + journal(entries[4:], 4, pair)])
    yield Row("no client comes", SERVE + "1", gears=[([], [])], files=FILES, back=[journal([])])
    yield Row("a site of a status worker alone keeps no journal", SERVE + "1", gears=[([], [])],
              files=(("w", "worker.list=s\nworker.s.type=status\n"), ("m", "/=s\n")), back=[b""])
    ping, pong = b"\x12\x34\x00\x01\x0a", from_member(b"\x09")
    yield Row("a container answers a ping at each of two gears", "container n1 127.0.0.1:8009 2", gears=[([ping], []), ([ping, ping], [])],
              back=[left(pong), left(pong) * 2])
    ask = forward(path="/who", headers=(("Host", "h"),), host="h")
    yield Row("a container tells who it is, twice", "container --clients=1 n1 127.0.0.1:8009 1", gears=[([ask + ask, ask], [])],
              back=[left(sized(b"n1\n") * 2)])


def faults():
    yield Row("a gear that is refused is no run", SERVE + "1", gears=[WHO_GEAR], files=FILES, status=4, faults=1, lines=["gear-fails 0"])
    yield Row("the gears before it come back as they were", SERVE + "3", gears=[WHO_GEAR, ([], []), ([], [])], files=FILES, status=4, faults=1,
              lines=["gear-fails 2"], back=[b"", b""])
    yield Row("a gear of a container is refused", "container n1 127.0.0.1:8009 2", gears=[([], []), ([], [])], status=4, faults=1,
              lines=["gear-fails 1"], back=[b""])
    yield Row("a door fails", SERVE + "1", gears=[([GET, GET], [HI])], files=FILES, status=4, lines=["door-fails 1"],
              back=[left(reply()) + talk(0, forward()) + journal(exchanges([(0, len(forward()) + len(HI))]))])
    twice = exchanges([(0, len(forward()) + len(HI))] * 2)
    yield Row("a shelf fails in a session, whose replies were written", SERVE + "1 --cut 5", gears=[([GET * 2, GET], [HI * 2])], files=FILES, status=4,
              lines=["shelf-fails 0"], back=[left(reply() * 2) + talk(0, forward()) * 2 + journal(twice[2:], 2)])
    yield Row("a container's door fails", "container n1 127.0.0.1:8009 1", gears=[([], [])], status=4, lines=["door-fails 0"], back=[b""])
    yield Row("a shelf fails in the closing", SERVE + "1", gears=[([], [])], files=FILES, status=4, lines=["shelf-fails 0"], back=[b""])
    bad = (("w", "worker.list"), ("m", MAP))
    yield Row("a workers file is refused", SERVE + "1", gears=[WHO_GEAR], files=bad, out=b"workers line 1: refusal 1\n", status=3)
    yield Row("a map is refused", SERVE + "1", gears=[WHO_GEAR], files=(("w", SITE), ("m", "/*=w2\n")), out=b"map line 1: refusal 2\n", status=3)
    yield Row("the workers file goes before the map", SERVE + "1", gears=[WHO_GEAR], files=(("w", "worker.list"), ("m", "/*=w2\n")),
              out=b"workers line 1: refusal 1\n", status=3)
    yield Row("a file that isn't there", SERVE + "1", gears=[WHO_GEAR], files=(("w", SITE),), status=4)
    yield Row("both files are read before one is judged", SERVE + "1", gears=[WHO_GEAR], files=(("w", "worker.list"),), status=4)
    yield Row("a file can't be read", SERVE + "1", gears=[WHO_GEAR], files=FILES, status=4, lines=["file-fails 1"])
    yield Row("the output fails", SERVE + "1", gears=[WHO_GEAR], files=bad, out=b"work", status=5, lines=["output-fails 4"])


def places():
    """A call of a door and one of a shelf fail, in a run with the members a and b; those of a session stand in sessions.py."""
    pair, files = ("a", "b"), (("w", members("a", "b", options=0)), ("m", LB))
    to = [forward(route=name) for name in pair]
    def entries(*sessions):
        return exchanges([(session, len(sent) + len(HI)) for session, sent in zip(sessions, to)], 2)
    yield Row("9. the first accept of a door, and the other worker closes", SERVE + "2", gears=[([GET], [HI], "refuses"), ([GET], [HI])], files=files, status=4,
              back=[journal(entries(1), members=pair), left(reply()) + talk(0, to[0])])
    yield Row("10. the first keep, once the session's replies were written", SERVE + "1 --cut 5", gears=[([GET * 2, GET], [HI, HI])], files=files, status=4,
              lines=["shelf-fails 0"], back=[left(reply() * 2) + talk(0, to[0]) + talk(1, to[1]) + journal(entries(0, 0)[2:], 2, pair)])


def logs():
    who = journal(exchanges(WHO_BYTES))
    lines = b"w1 GET /who 200 3\n" * 2
    yield Row("each request has a line", SERVE + "1 --log d", gears=[WHO_GEAR], files=FILES, back=[WHO_BACK + who + log(lines)])
    yield Row("lines of a form of one's own", SERVE + "1 --log=d --format %m_%r_%h_%D%%", gears=[WHO_GEAR], files=FILES,
              back=[WHO_BACK + who + log(b"GET_GET /who HTTP/1.1_127.0.0.1_-%\nGET_GET /who HTTP/1.0_127.0.0.1_-%\n")])
    yield Row("a refused head has a line", SERVE + "1 --log d", gears=[([b"GET\r\n\r\n"], [])], files=FILES,
              back=[left(own(400)) + journal([]) + log(f"- - - 400 {own_len(400)}\n".encode())])
    yield Row("each worker writes its own log", SERVE + "2 --log d", gears=[WHO_GEAR, ([], [])], files=FILES, back=[WHO_BACK + who + log(lines), log(b"")])
    yield Row("a log that fails ends its worker", SERVE + "1 --log d", gears=[([WHO, GET], [WHO_LINK])], files=FILES, status=4, lines=["log-fails 5"],
              back=[WHO_BACK + who + log(lines[:5])])
    yield Row("a log that can't be made is no run", SERVE + "2 --log d", gears=[WHO_GEAR, ([], [])], files=FILES, status=4, faults=1,
              lines=["gear-fails 3"], back=[b"", b""])
    for at, form in ((0, "%x"), (1, "a%"), (5, "%m%%z%z")):
        yield Row(f"a format is refused at {at}", SERVE + f"1 --log d --format {form}", gears=[WHO_GEAR], files=(), out=f"format refused at {at}\n".encode(), status=3)


def watch():
    """Clients that come one after another, the Nth in second N, from 0, after whom the clock tells the next one: there the idle links are
    looked at if it is time. The reply of a second link tells that it was dialled."""
    bad, first, second, pong = b"GET\r\n\r\n", b"hi", b"2\n", from_member(b"\x09")

    def row(name, options, told, link, site=SITE):
        """`told`: what each client's reply has in it; None for a head that is refused. `link`: the bytes of the first link."""
        replies = [dated(at, sessions.own(400) if body is None else sessions.reply(body)) for at, body in enumerate(told)]
        asked = [at for at, body in enumerate(told) if body is not None]
        counts = [(0, len(forward()) + len(sized(told[at]))) for at in asked]
        # at the start, as a head came, at a choice and at its return, and after the session
        clock = ["0"] + [str(n) for at, body in enumerate(told) for n in ([at] * (1 if body is None else 3) + [at + 1])]
        return Row(name, SERVE + "1" + options, gears=[([bad if body is None else GET for body in told], [link, sized(second)])],
                   files=(("w", site), ("m", MAP)), lines=["clock " + second for second in clock],
                   back=[b"".join(map(left, replies)) + talk(0, forward()) * len(asked) + journal(exchanges(counts, 1, asked))])

    stays, closed = [first, None, first], [first, None, second]
    yield row("a link that was idle for as many looks as it may be is closed", " --watch 1 --idle 1", closed, HI * 2)
    yield row("a look before the link was idle so long leaves it", " --watch 1 --idle 2", stays, HI * 2)
    yield row("without a number ten looks may pass", " --watch 1", stays, HI * 2)
    yield row("no look comes too early", " --watch 2 --idle 1", stays, HI * 2)
    yield row("nobody looks without a watch", "", stays, HI * 2)
    yield row("a link that is used between two looks stays", " --watch 1 --idle 1", [first] * 3, HI * 3)
    pinged = SITE + "worker.w1.ping_mode=I\n"
    yield row("a link that answers a ping stays", " --watch 1", [first] * 2, HI + pong + HI, pinged)
    yield row("a link that answers no ping is closed", " --watch 1", [first, second], HI, pinged)
    yield row("a link that answers a ping with a reply is closed", " --watch 1", [first, second], HI * 2, pinged)
    yield row("a member's seconds go before the looks of all", " --watch 1", closed, HI * 2, SITE + "worker.w1.connection_pool_timeout=1\n")
    yield row("a member's links are pinged at its interval alone", " --watch 1", stays, HI + pong + HI, SITE + "worker.w1.connection_ping_interval=2\n")


class Front:
    """A client before a front of the real world, which ends after it, before a container of the route n1. The front's dates are
    told by their form."""

    def __init__(self, name, asked, gets, words="--clients 1", site=b"worker.list=n1\n", lines=(), out=b""):
        self.name, self.asked, self.gets, self.words, self.site, self.lines, self.out = name, asked, gets, words, site, lines, out

    def show(self):
        member = b"worker.n1.host=127.0.0.1\nworker.n1.port=\\1\n"
        files = [("w", self.site + member), ("m", b"/*=" + re.match(rb"worker.list=(\w+)", self.site)[1] + b"\n"), ("client", self.asked)]
        lines = [f"row {self.name}", f"words serve w m 127.0.0.1:\\2 1 {self.words}", *self.lines]
        for name, content in files:
            lines += [f"file {name}", *(line.replace("\\x5c1", "\\1") for line in text(content))]
        got = re.sub(rb"Date: [^\r]*", b"Date: xxx, 00 xxx 0000 00:00:00 xxx", self.gets)
        return "\n".join([*lines, "output", *text(got + b"status 0\n" + self.out)]) + "\n"


def fronts():
    """A container says its route for /who, N times x for /size/N, and a body's bytes again for /echo. The last request ends its session."""
    host = (("Host", "h"),)
    last = host + (("Connection", "close"),)
    who = request(path="/who", headers=last)
    yield Front("a client is told who answers", who, reply(b"n1\n", last=True))
    sizes = (0, 1, 8184, 8185, 20000)
    asked = b"".join(request(path=f"/size/{size}", headers=host) for size in sizes)
    yield Front("replies of many sizes over one link", asked + request(path="/who", headers=(), old=True),
                b"".join(reply(b"x" * size) for size in sizes) + reply(b"n1\n", last=True))
    bodies = [b"x" * size for size in (1, 8184, 8186, 8187, 20000)]
    asked = b"".join(request("POST", "/echo", host + (("Content-Length", str(len(body))),), body) for body in bodies)
    yield Front("bodies of many sizes come back", asked + who, b"".join(map(reply, bodies)) + reply(b"n1\n", last=True))
    head = dated(0, sessions.reply(b"", headers=[("Content-Length", "10")]))
    yield Front("a HEAD has the head alone", request("HEAD", "/size/10", host) + who, head + reply(b"n1\n", last=True))
    yield Front("an answer of the front's own", request(path="/%2F", headers=last), own(400))
    yield Front("a stop ends the front", who, reply(b"n1\n", last=True), "--control ./front.sock", lines=["stopped ./front.sock"], out=b"ended\n")
    # Each request is two entries. A hold cuts first a journal that has come to three fewer than --cut says: to two here.
    balanced = b"worker.list=app\nworker.app.type=lb\nworker.app.balance_workers=n1\n"
    three = request(path="/size/5?a=1", headers=host) + request("POST", "/echo", host + (("Content-Length", "3"),), b"abc") + who
    gets = reply(b"xxxxx") + reply(b"abc") + reply(b"n1\n", last=True)
    parts = [f"./app-{first:015}.jkj" for first in (0, 2, 4)]
    logged = b"".join(b"127.0.0.1 n1 " + line for line in (b"GET /size/5?a=1 200 5\n", b"POST /echo 200 3\n", b"GET /who 200 3\n"))
    yield Front("a journal and a log are kept in files", three, gets, "--clients 1 --journal . --log . --format %h\\s%w\\s%m\\s%U%q\\s%s\\s%b", balanced,
                [f"checked {parts[0]}", "kept ./worker-0.log"], b"good 6\n" + logged)
    yield Front("each part of a journal has a file of its own, and each line its moment", three, gets, "--clients 1 --journal . --cut 5 --log . --format %t", balanced,
                [f"checked {' '.join(parts)}", "dated ./worker-0.log"], b"good 6\n" + b"[00/xxx/0000:00:00:00 +0000]\n" * 3)


def words():
    for name, line in (("a word too many", "match w m x"), ("a word too few", "config"), ("an option of no command", "play --x"),
                       ("no THREADS", "serve w m 127.0.0.1:8080"), ("no thread", SERVE + "0"), ("too many threads", SERVE + "65"),
                       ("a container without its route", "container 127.0.0.1:8009 1"), ("looks without a watch", SERVE + "1 --idle 5"), ("a watch of no second", SERVE + "1 --watch 0"),
                       ("a format without a log", SERVE + "1 --format %m"),
                       ("an option twice", SERVE + "1 --clients 1 --clients=2")):
        yield Row(f"{name} is no command", line, gears=[WHO_GEAR], files=FILES, status=2)
    yield Row("behind -- a word may be a file of any name", "config -- -w", files=(("-w", ""),), out=b"maintain 60\n")
    yield Row("a file may be named as an option", "serve --clients 0 -- --watch m 127.0.0.1:8080 1", gears=[([GET], [])],
              files=(("--watch", SITE), ("m", MAP)), back=[journal([])])


def drills():
    yield Row("a drill of one request", "drill 1 1 1", out=drill.summary(1, 1).encode())
    yield Row("its journal", "drill 1 1 1 journal", out=drill.one_journal(1).encode())
    yield Row("a drill of eight threads", "drill 1 8 40", out=drill.summary(1, 40).encode())
    yield Row("more threads than requests", "drill 18446744073709551615 64 3", out=drill.summary(MOST, 3).encode())
    yield Row("a thread with more requests than a session has", "drill 7 2 2100", out=drill.summary(7, 2100).encode())
    yield Row("eight threads with more requests than a session has", "drill 1 8 100000", out=drill.summary(1, 100000).encode())
    yield Row("the journal of 100,000 requests", "drill 1 8 100000 journal", out=b"good 200000\n", lines=["checked"])
    yield Row("three threads with more requests than a session has", "drill 7 3 7001", out=drill.summary(7, 7001).encode())
    yield Row("the output fails", "drill 1 1 1", out=b"req", status=5, lines=["output-fails 3"])
    for name, line in (("no seed", "drill"), ("no thread", "drill 1 0 1"), ("too many threads", "drill 1 65 1"), ("no request", "drill 1 1 0"),
                       ("too many requests", "drill 1 1 1000001"), ("a seed of more than 64 bits", "drill 18446744073709551616 1 1"),
                       ("another word behind", "drill 1 1 1 text"), ("a journal and passes", "drill 1 1 1 journal passes"),
                       ("an option", "drill --clients 1 1 1 1")):
        yield Row(f"{name} is no drill", line, status=2)
    for name, line in (("passes", "drill 1 3 20 passes"), ("passes behind --", "drill -- 1 3 20 passes"), ("passes before --", "drill 1 3 20 passes --")):
        yield Row(f"a drill with {name}", line, out=drill.summary(1, 20, passes=3).encode())
    yield Row("one pass", "drill 7 1 1200 passes", out=drill.summary(7, 1200, passes=1).encode())
    yield Row("more passes than requests", "drill 18446744073709551615 64 3 passes", out=drill.summary(MOST, 3, passes=64).encode())
    yield Row("eight passes and more requests than a session has", "drill 1 8 100000 passes", out=drill.summary(1, 100000, passes=8).encode())
    yield Row("a journal behind --", "drill 1 1 -- 1 journal", out=drill.one_journal(1).encode())


print(f"# Made by vectors/serving.py {sys.argv[1]}. How a row is written stands at the head of {'edge' if sys.argv[1] == 'fronts' else 'serve'}_checks.\n")
print("\n".join(row.show() for row in {"serving": serving, "faults": faults, "places": places, "logs": logs, "watch": watch, "fronts": fronts, "words": words, "drills": drills}[sys.argv[1]]()))
