#!/usr/bin/env python3
"""Tries each line of the tables of docs/MOVING.md with `jkd config`.

Say how jkd is run, in the folder where that works:  python3 vectors/moving.py COMMAND ..
    python3 vectors/moving.py ./jkd                     a built program
    (cd crates/jkd; python3 ../../vectors/moving.py rt try --)      one that is built for each try

A line that has an effect is accepted, and nothing is said of it; of one without, standard error says so; a refused one ends
with status 3, and standard error shows it. All lines of a kind go through one run each where they can stand together.
"""
import os
import re
import subprocess
import sys
import tempfile

SITE = ["worker.list=lb,s", "worker.lb.type=lb", "worker.lb.balance_workers=a,b", "worker.a.type=ajp13", "worker.b.type=ajp13",
        "worker.s.type=status"]
RULE = ["/jk/*=s"]
DOC = os.path.join(os.path.dirname(os.path.abspath(__file__)), "..", "docs", "MOVING.md")


def rows(heading):
    """The lines of a table, each with what jkd makes of it."""
    text = open(DOC, encoding="utf-8").read()
    part = text.split(f"\n## {heading}\n", 1)[1].split("\n## ", 1)[0]
    for row in part.splitlines():
        cells = re.split(r"(?<!\\)\|", row)
        if len(cells) > 3 and cells[1].strip().startswith("`"):
            for line in re.findall("`([^`]+)`", cells[1]):
                yield line.replace("\\|", "|"), cells[2].strip()


def config(command, workers, rules):
    """The status, and the lines of standard error."""
    with tempfile.TemporaryDirectory() as folder:
        names = [os.path.join(folder, name) for name in ("w", "m")]
        for name, lines in zip(names, (workers, rules)):
            with open(name, "w", encoding="utf-8") as file:
                file.write("".join(line + "\n" for line in lines))
        run = subprocess.run([*command, "config", *names], capture_output=True, text=True, check=False)
    said = [line.replace(names[0], "w").replace(names[1], "m") for line in run.stderr.splitlines()]
    return run.returncode, [line for line in said if re.match(r"[wm], line \d+: ", line)]


def is_so(command, in_map, line, kind):
    """Whether jkd makes of the line what the table says."""
    workers, rules = (SITE, RULE + [line]) if in_map else (SITE + [line], RULE)
    # What the line itself replaces is left out, so that nothing is said of that.
    key = line.split("=", 1)[0]
    workers = [other for other in workers if other is line or other.split("=", 1)[0] != key or key == "worker.list"]
    status, said = config(command, workers, rules)
    place = f"m, line {len(rules)}: " if in_map else f"w, line {len(workers)}: "
    about = [text for text in said if text.startswith(place)]
    if kind == "effect":
        return status == 0 and not said
    if kind == "none":
        return status == 0 and len(about) >= 1
    return status == 3 and len(about) == 1 and about[0].endswith(": " + line)


def main():
    command = sys.argv[1:]
    if not command:
        sys.exit(__doc__)
    wrong = count = 0
    for heading, in_map in (("workers.properties", False), ("uriworkermap.properties", True)):
        for line, kind in rows(heading):
            count += 1
            if not is_so(command, in_map, line, kind):
                wrong += 1
                print(f"{heading}: {line}: not as said: {kind}")
    print(f"{count} lines tried, {wrong} not as said")
    sys.exit(1 if wrong else 0)


main()
