#!/usr/bin/env python3
"""The processor time of a drill by two programs, in turn: holds.py OLD NEW ROUNDS REQUESTS; and by one program, its desks
over a lock and over passes: holds.py PROGRAM passes ROUNDS REQUESTS.

Each request of a drill takes two holds of the balancer, a Select and a Return, and asks no socket. The two take turns, so that what
else the machine does meets both alike. A line for each number of threads: the median of the microseconds for a request, of processor
time and by the clock, the least processor time, and the holds a second by the median of the clock.
"""
import resource
import subprocess
import sys
import time


def drill(way, threads, requests):
    """Runs one drill, and gives its processor time and its time by the clock."""
    program, *mode = way
    before = resource.getrusage(resource.RUSAGE_CHILDREN)
    start = time.monotonic()
    subprocess.run([program, "drill", "1", str(threads), str(requests), *mode], check=True, stdout=subprocess.DEVNULL)
    spent = time.monotonic() - start
    after = resource.getrusage(resource.RUSAGE_CHILDREN)
    return after.ru_utime - before.ru_utime + after.ru_stime - before.ru_stime, spent


def median(values):
    return sorted(values)[len(values) // 2]


def main():
    first, second, rounds, requests = sys.argv[1], sys.argv[2], int(sys.argv[3]), int(sys.argv[4])
    ways = [(first,), (first, "passes") if second == "passes" else (second,)]
    for threads in (1, 2, 4, 16, 64):
        runs = {way: [] for way in ways}
        for number in range(rounds):
            for way in ways if number % 2 == 0 else reversed(ways):
                runs[way].append(drill(way, threads, requests))
        for way in ways:
            cpu = [run[0] / requests * 1e6 for run in runs[way]]
            clock = [run[1] / requests * 1e6 for run in runs[way]]
            print(f"{threads} threads, {' '.join(way)}: {median(cpu):.2f} of processor, {median(clock):.2f} by the clock, least {min(cpu):.2f}, "
                  f"{2e6 / median(clock):.0f} holds a second", flush=True)


main()
