#!/usr/bin/env python3
"""A front before a container, both of jkd, over sockets: a client reads each byte and compares it with what RFC 9112 asks for.

    python3 vectors/joined.py PROGRAM      PROGRAM is the program jkd, as `rt run` builds it

The system gives the ports. Each request goes alone over a link of its own, and then all of them over one link, the last one of HTTP/1.0.
Status: 0 all is as said; 1 else.
"""
import contextlib
import os
import re
import socket
import sys
import threading

from running import free_port, programs_in_a_folder
from sessions import reply

H = (("Host", "h"),)
PIECES = [b"x" * n for n in (0, 1, 8184, 8186, 8187, 70000)]


def head(method, path, headers=H, old=False):
    lines = "".join(f"{name}: {value}\r\n" for name, value in headers)
    return f"{method} {path} HTTP/1.{0 if old else 1}\r\n{lines}\r\n".encode()


def chunked(data, size):
    pieces = [data[at:at + size] for at in range(0, len(data), size)]
    return b"".join(b"%x\r\n%s\r\n" % (len(piece), piece) for piece in pieces) + b"0\r\n\r\n"


def exchanges():
    """What is asked, and what has to come: exact bytes, or a body that may come in any chunks."""
    yield head("GET", "/who"), reply(b"n1\n"), None
    for size in (0, 1, 8184, 8185, 65536, 1048576):
        yield head("GET", f"/size/{size}"), reply(b"x" * size), None
    yield head("HEAD", "/size/10"), reply(b"", headers=[("Content-Length", "10")]), None
    for data in PIECES:
        yield head("POST", "/echo", H + (("Content-Length", len(data)),)) + data, reply(data), None
        yield head("POST", "/echo", H + (("Transfer-Encoding", "chunked"),)) + chunked(data, 5000), reply(b"", headers=[("Transfer-Encoding", "chunked")]), data
    yield head("GET", "/status/404"), None, 404


class Reader:
    """Reads what a front sends, byte for byte."""

    def __init__(self, link):
        self.link, self.held = link, b""

    def take(self, count):
        while len(self.held) < count:
            came = self.link.recv(65536)
            if not came:
                raise EOFError(f"the front closed within {self.held[:80]}")
            self.held += came
        taken, self.held = self.held[:count], self.held[count:]
        return taken

    def line(self):
        out = b""
        while not out.endswith(b"\r\n"):
            out += self.take(1)
        return out

    def chunks(self):
        out = b""
        while size := int(self.line(), 16):
            out += self.take(size)
            if self.take(2) != b"\r\n":
                raise ValueError("a chunk has no end")
        if self.take(2) != b"\r\n":
            raise ValueError("there is a trailer")
        return out

    def ended(self):
        return not self.held and self.link.recv(1) == b""


def undated(text):
    """A head without its Date."""
    return re.sub(rb"Date: [^\r]*\r\n", b"", text)


def wrong_of(reader, whole, body):
    """What is wrong with a reply; None where nothing is."""
    got = reader.line()
    while not got.endswith(b"\r\n\r\n"):
        got += reader.line()
    got = undated(got)
    if isinstance(body, int):
        length = re.search(rb"Content-Length: (\d+)\r\n", got)
        reader.take(int(length[1]) if length else 0)
        return None if got.startswith(b"HTTP/1.1 %d " % body) else f"another status: {got}"
    wanted, rest = whole.split(b"\r\n\r\n", 1)
    if got != wanted + b"\r\n\r\n":
        return f"another head: {got}"
    came = reader.take(len(rest)) if body is None else reader.chunks()
    return None if came == (rest if body is None else body) else f"another body of {len(came)} bytes"


def send(link, data):
    with contextlib.suppress(OSError):
        link.sendall(data)


def send_beside(link, data):
    threading.Thread(target=send, args=(link, data), daemon=True).start()


def try_alone(port, asked, whole, body):
    with socket.create_connection(("127.0.0.1", port), 20) as link:
        send_beside(link, asked)
        return wrong_of(Reader(link), whole, body)


def try_together(port, all_):
    with socket.create_connection(("127.0.0.1", port), 20) as link:
        send_beside(link, b"".join(asked for asked, _, _ in all_) + head("GET", "/who", (), True))
        reader = Reader(link)
        for place, (_, whole, body) in enumerate(all_):
            if wrong := wrong_of(reader, whole, body):
                return f"reply {place}: {wrong}"
        if wrong := wrong_of(reader, reply(b"n1\n", last=True), None):
            return f"the last reply: {wrong}"
        return None if reader.ended() else "bytes after the last reply"


def main():
    if len(sys.argv) != 2:
        sys.exit(__doc__)
    program, good = os.path.abspath(sys.argv[1]), True
    with programs_in_a_folder() as programs:
        member, front = free_port(), free_port()
        programs.start(member, program, "container", "n1", f"127.0.0.1:{member}", "4")
        workers = programs.write("workers", f"worker.list=n1\nworker.n1.host=127.0.0.1\nworker.n1.port={member}\nworker.n1.retries=1\n")
        programs.start(front, program, "serve", workers, programs.write("map", "/*=n1\n"), f"127.0.0.1:{front}", "4")
        all_ = list(exchanges())
        for asked, whole, body in all_:
            if wrong := try_alone(front, asked, whole, body):
                good = False
                print(f"{asked[:60]}: {wrong}")
        if wrong := try_together(front, all_):
            good = False
            print(f"over one link: {wrong}")
        print(f"{len(all_)} replies alone and over one link: {'well' if good else 'WRONG'}")
    return 0 if good else 1


if __name__ == "__main__":
    sys.exit(main())
