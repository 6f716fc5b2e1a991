#!/usr/bin/env python3
"""Status pages as a table, as a table with forms, and in Prometheus' text format, as rows of crates/checks/data/book/pages.txt.

Written from the HTML standard, the text exposition format of Prometheus and docs/FORMATS.md, and apart from the program's
own code: Python's `html` escapes the texts here, and the parser below reads the figures back.

    python3 vectors/pages.py >> crates/checks/data/book/pages.txt
    python3 vectors/pages.py read < FIGURES      reads a page of figures from standard input, and says what is wrong with it
    python3 vectors/pages.py figures | promtool check metrics      Prometheus' own checker reads the figures of a row
    python3 vectors/pages.py table > page.html                     the table of a row, to be looked at in a browser
"""
import html
import re
import sys

WORDS = {"A": "active", "D": "disabled", "S": "stopped"}
STATES = {"ok": "ok", "error": "in error", "recover": "to be tried again", "probe": "on trial"}
COLUMNS = ["Member", "Address", "Activation", "State", "Load", "Busy", "Factor", "Distance", "Redirect"]
BUTTONS = [("update", "Change"), ("reset", "Reset"), ("recover", "Recover")]


def text(words):
    return html.escape(words).replace("&#x27;", "&#39;")


def cell(words):
    return f"<td>{words}</td>"


def field(label, name, value, size):
    return f"<label>{label} <input size='{size}' name='{name}' value='{value}'></label> "


def form(balancer, member):
    hidden = [("mime", "html"), ("w", balancer), ("sw", member["name"])]
    out = "".join(f"<input type='hidden' name='{name}' value='{text(value)}'>" for name, value in hidden)
    chosen = lambda letter: "' selected>" if letter == member["activation"] else "'>"
    out += "<label>Activation <select name='vwa'>"
    out += "".join(f"<option value='{letter}{chosen(letter)}{word}</option>" for letter, word in WORDS.items())
    out += "</select></label> "
    out += field("Factor", "vwf", member["factor"], 5) + field("Distance", "vwd", member["distance"], 5)
    out += field("Redirect", "vwr", text(member["redirect"]), 10)
    return "<form>" + out + " ".join(f"<button name='cmd' value='{value}'>{word}</button>" for value, word in BUTTONS) + "</form>"


def table(balancers, forms):
    out = "<!DOCTYPE html>\n<html lang='en'>\n<head>\n<meta charset='utf-8'>\n<title>jk status</title>\n"
    out += "<style>table { border-collapse: collapse } th, td { border: 1px solid; padding: 0.2em 0.6em }</style>\n"
    out += "</head>\n<body>\n<h1>jk status</h1>\n<p><a href='?mime=html'>All balancers</a></p>\n"
    for b in balancers:
        out += f"<h2>{b['type']} {text(b['name'])}</h2>\n<p>Method {b['method']}, next journal entry {b['next']}.</p>\n<table>\n<tr>"
        out += "".join(f"<th>{name}</th>" for name in COLUMNS + ["Change"] * forms) + "</tr>\n"
        for m in b["members"]:
            cells = [text(m["name"]), text(m["address"]), WORDS[m["activation"]], STATES[m["state"]], m["load"], m["busy"], m["factor"], m["distance"],
                     text(m["redirect"]) or "-"]
            out += "<tr>" + "".join(map(cell, cells)) + (cell(form(b["name"], m)) if forms else "") + "</tr>\n"
        out += "</table>\n"
    return out + "</body>\n</html>\n"


def quoted(words):
    return '"' + words.replace("\\", "\\\\").replace('"', '\\"').replace("\n", "\\n") + '"'


def family(name, words, kind, points):
    line = lambda labels, figure: name + "{" + ",".join(f"{key}={quoted(value)}" for key, value in labels) + "} " + str(figure)
    return "\n".join([f"# HELP {name} {words}", f"# TYPE {name} {kind}"] + [line(*point) for point in points]) + "\n"


def figures(balancers):
    of = lambda b, m: [("balancer", b["name"]), ("member", m["name"])]
    each = lambda key: [(of(b, m), m[key]) for b in balancers for m in b["members"]]
    one_of = lambda label, words, own: [(of(b, m) + [(label, word)], int(own(m) == word)) for b in balancers for m in b["members"] for word in words]
    out = family("jkd_balancer_entries_total", "Entries of the balancer's journal.", "counter", [([("balancer", b["name"])], b["next"]) for b in balancers])
    out += family("jkd_member_busy", "Requests that the member has now.", "gauge", each("busy"))
    out += family("jkd_member_load", "What the balancer's method weighs the member by.", "gauge", each("load"))
    out += family("jkd_member_factor", "The member's share of the balancer's work.", "gauge", each("factor"))
    out += family("jkd_member_distance", "How far the member is; nearer ones are chosen first.", "gauge", each("distance"))
    out += family("jkd_member_state", "1 for the state that the member is in.", "gauge", one_of("state", STATES, lambda m: m["state"]))
    return out + family("jkd_member_activation", "1 for the activation that the member has.", "gauge",
                        one_of("activation", WORDS.values(), lambda m: WORDS[m["activation"]]))


# ---- the rows

def member(name, activation="A", state="ok", load=0, busy=0, factor=1, distance=0, redirect="", address="localhost:8009"):
    return dict(name=name, address=address, activation=activation, state=state, load=load, busy=busy, factor=factor, distance=distance, redirect=redirect)


TWO = [dict(type="lb", name="lb", method="R", next=0, members=[member("node1"), member("node2", "D")])]
TWO_LINES = """lb lb R 0 0 0 60 60 2
member node1 node1 1 0 A - 64 ok 0
member node2 node2 1 0 D - 64 ok 0
from 0 0 0 -
start
balancer lb"""
STATED = [
    dict(type="lb", name="lb", method="R", next=9, members=[
        member("a", state="error", load=3), member("b", state="probe", load=6, busy=1, redirect="a"), member("c", state="recover", load=3),
        member("d", "D", factor=3, distance=5)]),
    dict(type="ajp13", name="w1", method="T", next=7, members=[member("w1", "S")]),
]
STATED_LINES = """lb lb R 0 0 0 60 60 4
member a a 1 0 A - 64 ok 0
member b b 1 0 A 0 64 ok 0
member c c 1 0 A - 64 ok 0
member d d 3 5 D - 64 ok 0
from 0 0 0 -
start
e 0 0 0 select - 1 0 0 0 chosen 0 balanced 0
e 1 0 0 select - 1 0 0 0 chosen 1 balanced 0
e 2 0 0 select - 1 0 0 0 chosen 2 balanced 0
e 3 0 0 return 0 failed 0 done
e 4 0 0 return 1 failed 0 done
e 5 0 0 recover 1 done
e 6 0 0 return 2 failed 0 done
e 7 0 0 recover 2 done
e 8 0 0 select - 1 0 0 0 chosen 1 balanced 1
balancer lb
lb w1 T 0 0 1 60 60 1
member w1 w1 1 0 S - 64 ok 0
from 7 0 0 -
start
balancer ajp13"""
ODD = "a<b>&\"c'\\\n%"
MARKED = [dict(type="lb", name=ODD, method="B", next=0, members=[member(ODD), member("b", redirect=ODD)])]
ESCAPED = "".join(c if c.isalnum() else f"%{ord(c):02X}" for c in ODD)
MARKED_LINES = f"""lb {ESCAPED} B 0 0 0 60 60 2
member {ESCAPED} a 1 0 A - 64 ok 0
member b b 1 0 A 0 64 ok 0
from 0 0 0 -
start
balancer lb"""


def told(words):
    plain = {"\r": "\\r", "\n": "\\n", "\t": "\\t", "\\": "\\x5c"}
    return "".join(plain.get(c, c) for c in words)


def rows():
    for name, lines, balancers in (("two members", TWO_LINES, TWO), ("each state", STATED_LINES, STATED), ("names with marks", MARKED_LINES, MARKED)):
        for way, what, page in (("html", "as a table", table(balancers, False)), ("forms", "as a table with forms", table(balancers, True)),
                                ("prom", "as figures", figures(balancers))):
            print(f"\nrow {name} {what}\n{lines}\npage {way} -> {told(page)}")
    for way, page in (("html", table([], False)), ("prom", figures([]))):
        print(f"\nrow a page of nothing as {way}\npage {way} -> {told(page)}")


# ---- a parser of the text exposition format, version 0.0.4

NAME = r"[a-zA-Z_:][a-zA-Z0-9_:]*"
LABEL = r'([a-zA-Z_][a-zA-Z0-9_]*)="((?:[^"\\\n]|\\\\|\\"|\\n)*)"'
NUMBER = r"[+-]?(?:[0-9]+(?:\.[0-9]*)?(?:[eE][+-]?[0-9]+)?|Inf|NaN)"
LINE = re.compile(rf"({NAME})(?:\{{((?:{LABEL})(?:,(?:{LABEL}))*,?)?\}})? ({NUMBER})(?: -?[0-9]+)?\Z")
KINDS = ("counter", "gauge", "histogram", "summary", "untyped")


def read(page):
    """How many figures there are. A family's lines stand together after its lines of help and type, and no figure twice."""
    if page and not page.endswith("\n"):
        raise SystemExit("the last line has no end")
    done, now, typed, seen = set(), None, set(), set()
    for line in page.split("\n")[:-1]:
        head = re.match(rf"# (HELP|TYPE) ({NAME})(?: (.*))?\Z", line)
        name = head.group(2) if head else None
        if line.startswith("#") and not head or not line:
            continue
        if not head:
            point = LINE.match(line)
            if not point:
                raise SystemExit(f"no line of the format: {line}")
            name = point.group(1)
            key = (name, tuple(sorted(re.findall(LABEL, point.group(2) or ""))))
            if key in seen:
                raise SystemExit(f"twice: {line}")
            seen.add(key)
        elif head.group(1) == "TYPE":
            if head.group(3) not in KINDS or name in typed or any(key[0] == name for key in seen):
                raise SystemExit(f"a bad type: {line}")
            typed.add(name)
        if name != now:
            if name in done:
                raise SystemExit(f"{name} is in two places")
            done.add(name)
            now = name
    return len(seen)


if __name__ == "__main__":
    if sys.argv[1:] == ["read"]:
        print(read(sys.stdin.read()), "figures")
    elif sys.argv[1:] == ["figures"]:
        print(figures(STATED), end="")
    elif sys.argv[1:] == ["table"]:
        print(table(STATED, True), end="")
    else:
        rows()
