#!/usr/bin/env python3
"""How much memory one request takes: the most bytes that `serve` has allocated at once, with that request and without it.

    python3 vectors/memory.py PROGRAM      PROGRAM is the program jkd, as `rt run` builds it

A front of one worker serves one client and ends. The client's first request is always the same small one, so what a worker, a session
and the site keep is in both counts: it must be 512 KiB at most, and what the second request adds 64 KiB. bench/peak.c counts, and needs a C
compiler. Status: 0 all is within that; 1 else.
"""
import os
import socket
import subprocess
import sys
import threading
import time

from joined import Reader, chunked, exchanges, head, wrong_of
from running import free_port, programs_in_a_folder
from sessions import reply

MOST = 64 * 1024
KEPT = 512 * 1024
HERE = os.path.dirname(os.path.abspath(__file__))
PAGE = "/jk-status"
LONG = tuple((f"X-{place}", "y" * 150) for place in range(90))


def requests():
    """A name, the bytes, and how its reply is read: whole bytes, a chunked body, or a status."""
    for number, (asked, whole, body) in enumerate(exchanges()):
        yield f"exchange {number}: {asked[:30].split(b' HTTP')[0].decode()}", asked, whole, body
    yield "a head of 7 KB", head("GET", "/who", (("Host", "h"),) + LONG[:45]), reply(b"n1\n"), None
    yield "a head of 15 KB, longer than a packet", head("GET", "/who", (("Host", "h"),) + LONG), None, 413
    data = b"z" * 5_000_000
    yield "a post of 5 MB", head("POST", "/echo", (("Host", "h"), ("Transfer-Encoding", "chunked"))) + chunked(data, 60_000), reply(
        b"", headers=[("Transfer-Encoding", "chunked")]), data
    yield "no mount", head("GET", "/elsewhere/x"), None, 404
    yield "a status page", head("GET", PAGE), None, 200
    yield "a status page as a table", head("GET", f"{PAGE}?mime=html"), None, 200
    yield "figures", head("GET", f"{PAGE}?mime=prom"), None, 200
    yield "a member that isn't there", head("GET", "/gone"), None, 503


class Front:
    def __init__(self, programs, program, counter):
        self.programs, self.program, self.counter = programs, program, counter
        self.member = free_port()
        programs.start(self.member, program, "container", "n1", f"127.0.0.1:{self.member}", "4")
        self.workers = programs.write("workers", "worker.list=n1,gone,status\nworker.status.type=status\n"
                                      f"worker.n1.host=127.0.0.1\nworker.n1.port={self.member}\nworker.n1.retries=1\n"
                                      f"worker.gone.host=127.0.0.1\nworker.gone.port={free_port()}\nworker.gone.retries=1\n")
        rules = "".join(f"/{word}*=n1\n" for word in ("who", "size", "echo", "status", "session"))
        self.map = programs.write("map", f"{rules}/gone=gone\n{PAGE}=status\n")

    def peak(self, asked, whole, body):
        """The most bytes of a front that serves one client with these bytes after a first small request."""
        port, told = free_port(), f"{self.programs.folder}/peak"
        with open(f"{self.programs.folder}/said", "ab") as said:
            running = subprocess.Popen(
                [self.program, "serve", "--clients", "1", self.workers, self.map, f"127.0.0.1:{port}", "1"], stdin=subprocess.DEVNULL,
                stdout=said, stderr=said, env=dict(os.environ, LD_PRELOAD=self.counter, PEAK=told))
        wrong = talk(port, asked, whole, body)
        running.wait(60)
        with open(told, encoding="ascii") as file:
            return int(file.read()), wrong


def connect(port):
    for _ in range(100):
        try:
            return socket.create_connection(("127.0.0.1", port), 20)
        except OSError:
            time.sleep(0.05)
    sys.exit("the front doesn't listen")


def talk(port, asked, whole, body):
    with connect(port) as link:
        link.sendall(head("GET", "/who"))
        reader = Reader(link)
        wrong = wrong_of(reader, reply(b"n1\n"), None)
        if wrong or not asked:
            return wrong
        sender = threading.Thread(target=link.sendall, args=(asked,), daemon=True)
        sender.start()
        wrong = wrong_of(reader, whole, body)
        sender.join(20)
        return wrong


def main():
    if len(sys.argv) != 2:
        sys.exit(__doc__)
    program = os.path.abspath(sys.argv[1])
    with programs_in_a_folder() as programs:
        counter = f"{programs.folder}/peak.so"
        subprocess.run(["cc", "-O2", "-shared", "-fPIC", "-o", counter, f"{HERE}/../bench/peak.c", "-ldl"], check=True)
        front = Front(programs, program, counter)
        small, wrong = front.peak(b"", None, None)
        good = small <= KEPT and not wrong
        print(f"{small:9} without a second request{'' if good else f': {wrong}' if wrong else ': too much'}")
        for name, asked, whole, body in requests():
            most, wrong = front.peak(asked, whole, body)
            fits = most - small <= MOST and not wrong
            print(f"{most - small:9} {name}{'' if fits else ': too much' if not wrong else f': {wrong}'}")
            good = good and fits
    sys.exit(0 if good else 1)


if __name__ == "__main__":
    main()
