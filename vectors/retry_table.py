#!/usr/bin/env python3
"""Rows of the recovery rule: for each sum of options, which of the 64 cases may be sent once more.

The sentence: another try is allowed exactly where nothing was passed, nothing beyond the first piece was taken,
and one of three holds: the method is HEAD and option 8 is on; the method is GET and option 16 is on; or (the
container didn't get the request, or option 1 is off) and (it didn't send the headers, or option 2 is off).

A case is a bit of a row's number: head + 2 get + 4 got + 8 headers + 16 passed + 32 beyond is its place.

    python3 vectors/retry_table.py      the lines `with` of the row `retry` in crates/checks/data/http/routes.txt
"""


def allowed(options, case):
    head, get, got, headers, passed, beyond = [bool(case & 1 << place) for place in range(6)]
    on = {number for number in (1, 2, 4, 8, 16) if options & number}
    if passed or beyond:
        return False
    if head and 8 in on:
        return True
    if get and 16 in on:
        return True
    return (not got or 1 not in on) and (not headers or 2 not in on)


for options in range(32):
    print("with %d => %04x" % (options, sum(allowed(options, case) << case for case in range(64))))
