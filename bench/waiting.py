#!/usr/bin/env python3
"""Clients that wait before a front: idle ones, or ones whose head comes a byte a second.

waiting.py idle|slow HOST PORT COUNT SECONDS [PID]

Opens COUNT links, 500 a round. An idle one asks once for / and then says nothing; a slow one sends a head without an end.
With PID it prints the resident memory of that process before and after they came.
At the end it prints how many links the front closed.
"""
import resource
import select
import socket
import sys
import time

HEAD = b"GET / HTTP/1.1\r\nHost: front\r\nX: " + b"x" * 4096


def resident(pid):
    if pid is None:
        return 0
    with open(f"/proc/{pid}/status") as status:
        for line in status:
            if line.startswith("VmRSS"):
                return int(line.split()[1])
    return 0


def opened(kind, address, count):
    links = []
    while len(links) < count:
        fresh = []
        for _ in range(min(500, count - len(links))):
            link = socket.create_connection(address)
            if kind == "idle":
                link.sendall(b"GET / HTTP/1.1\r\nHost: front\r\n\r\n")
            fresh.append(link)
        if kind == "idle":
            for link in fresh:
                link.recv(65536)
        for link in fresh:
            link.setblocking(False)
        links += fresh
    return links


def drip(links, at):
    left = 0
    for link in links:
        try:
            link.send(HEAD[at:at + 1])
            left += 1
        except OSError:
            pass
    return left


def main():
    kind, host, port, count, seconds = sys.argv[1:6]
    pid = int(sys.argv[6]) if len(sys.argv) > 6 else None
    hard = resource.getrlimit(resource.RLIMIT_NOFILE)[1]
    resource.setrlimit(resource.RLIMIT_NOFILE, (hard, hard))
    before = resident(pid)
    begun = time.time()
    links = opened(kind, (host, int(port)), int(count))
    print(f"{len(links)} links in {time.time() - begun:.1f} s", flush=True)
    if pid:
        after = resident(pid)
        print(f"memory {before} KB, then {after} KB: {(after - before) / len(links):.2f} KB a link", flush=True)
    end = time.time() + float(seconds)
    at = 0
    while time.time() < end:
        if kind == "slow":
            drip(links, at)
            at += 1
        time.sleep(1)
    closed = 0
    for link in links:
        try:
            if link.recv(1) == b"":
                closed += 1
        except BlockingIOError:
            pass
        except OSError:
            closed += 1
    print(f"{closed} of {len(links)} links were closed by the front", flush=True)


if __name__ == "__main__":
    main()
