#!/usr/bin/env python3
"""Refuses each allocation in turn of three runs, and looks at what stands afterwards.

    python3 vectors/refused_memory.py PROGRAM      PROGRAM is crates/serve_checks/out/serve_checks, as `rt run` leaves it

The runs are rows of crates/serve_checks/data/serve: a session of two requests, a drill of one request, and a journal that is cut at
four. Each has to end in one of two ways. It ends as the row says, but for where the journal was cut. Or it ends for want of memory, with
status 6: then the segments that were put away check as good, no ticket is out after the last one, and what the client got is a front of
what the row has. bench/refused.c refuses, and needs a C compiler.
Status: 0 all is so; 1 else.
"""
import os
import re
import subprocess
import sys
import tempfile

import journal

HERE = os.path.dirname(os.path.abspath(__file__))
DATA = os.path.join(HERE, "..", "crates", "serve_checks", "data", "serve")
RUNS = [("serving", "a gear serves who comes to its door"), ("drills", "a drill of one request"), ("serving", "a journal is cut at four")]
ESCAPES = {"\\n": "\n", "\\r": "\r", "\\t": "\t"}


def row_of(file, name):
    """The row of this name."""
    with open(f"{DATA}/{file}.txt", encoding="utf-8") as rows:
        return next(row for row in rows.read().split("\nrow ")[1:] if row.split("\n", 1)[0] == name)


def wanted(row):
    """What a row wants to come out."""
    lines = row.split("\noutput\n", 1)[1].split("\n")
    return plain("".join(line[1:] + ("\n" if line[0] == "|" else "") for line in lines if line[:1] in ("|", "+")))


def plain(text):
    """A text of a row, or of what a program shows, without its escapes."""
    return re.sub(r"\\x([0-9a-f]{2})|\\[nrt]", lambda found: chr(int(found[1], 16)) if found[1] else ESCAPES[found[0]], text)


def got_by_client(told):
    """What was sent on the links that were left."""
    return "".join(re.findall(r"^left\n(.*?)\n(?=to |segment |left|back|log|\Z)", told, re.S | re.M))


def segments(told):
    return re.findall(r"^segment of 0\n(jkj .*?^end \d+\n)", told, re.S | re.M)


def entries(told):
    return [line for segment in segments(told) for line in segment.split("\n") if line.startswith("e ")]


def tickets_out(segment):
    """The tickets that are out at a segment's end."""
    out = set(re.findall(r"^lease (\d+)", segment, re.M))
    out |= set(re.findall(r"^e (\d+) .* chosen ", segment, re.M))
    return out - set(re.findall(r"^e \d+ \d+ \d+ return (\d+)", segment, re.M))


def wrong_of(told, want):
    """What is wrong with what came out; None where nothing is."""
    kept = segments(told)
    said, status = journal.check("".join(kept)) if kept else ("", 0)
    if status:
        return f"its journal is refused: {said}"
    if kept and tickets_out(kept[-1]):
        return f"tickets are out: {tickets_out(kept[-1])}"
    if "status 0\n" in told:
        as_ever = (got_by_client(told), entries(told)) == (got_by_client(want), entries(want))
        return None if as_ever else "it ends well with another answer"
    if "status 6\n" not in told:
        return "it ends otherwise than for want of memory"
    return None if got_by_client(want).startswith(got_by_client(told)) else "the client got something else"


class Runs:
    def __init__(self, program, folder):
        self.program, self.folder = os.path.abspath(program), folder
        self.shim = f"{folder}/refused.so"
        subprocess.run(["cc", "-O1", "-shared", "-fPIC", "-o", self.shim, f"{HERE}/../bench/refused.c"], check=True)
        os.mkdir(f"{folder}/serve")

    def write(self, file, row):
        """One row in its file, and no row in the others."""
        for name in os.listdir(DATA):
            with open(f"{self.folder}/serve/{name}", "w", encoding="utf-8") as out:
                out.write(f"# one row\n\nrow {row}" if name == f"{file}.txt" else "# none\n")

    def run(self, number):
        more = {"LD_PRELOAD": self.shim, "REFUSED": str(number)}
        return subprocess.run([self.program], cwd=self.folder, env={**os.environ, **more}, capture_output=True, text=True, timeout=60)


def try_row(runs, file, name):
    """Refuses each allocation of a row in turn; whether all came out as said."""
    row = row_of(file, name)
    runs.write(file, row)
    whole = runs.run(0)
    count = int(re.search(r"allocations (\d+)", whole.stderr)[1])
    ends = {"as ever": 0, "cut elsewhere": 0, "want of memory": 0, "before or after the row": 0}
    done = f"1 rows of serve/{file}.txt"
    good = done in whole.stdout
    if not good:
        print(f"  with nothing refused: {whole.stdout}")
    for number in range(1, count + 1):
        ran = runs.run(number)
        shown = re.search(r"but it gives (.*)", ran.stdout)
        wrong = None
        if ran.returncode not in (0, 1):
            wrong = f"status {ran.returncode}"
        elif done in ran.stdout:
            ends["as ever"] += 1
        elif shown and shown[1]:
            told = plain(shown[1])
            ends["cut elsewhere" if "status 0\n" in told else "want of memory"] += 1
            wrong = wrong_of(told, wanted(row))
        else:
            ends["before or after the row"] += 1
        if wrong:
            good = False
            print(f"  allocation {number}: {wrong}")
    print(f"{name}: {count} allocations, each refused once: {', '.join(f'{end} {n}' for end, n in ends.items())}: {'well' if good else 'WRONG'}")
    return good


def main():
    if len(sys.argv) != 2:
        sys.exit(__doc__)
    with tempfile.TemporaryDirectory() as folder:
        runs = Runs(sys.argv[1], folder)
        return 0 if all([try_row(runs, *of) for of in RUNS]) else 1


if __name__ == "__main__":
    sys.exit(main())
