#!/usr/bin/env python3
"""The balancer's rules and the script of `play`, written from the rules alone and in another language than jkd.

    play.py run < SCRIPT             prints what `jkd play` must print, and ends with its status
    play.py make SEED LINES [FORM]   prints a script of LINES lines; FORM is `first` (only the lines member, select, done and
                                     failed), `calls` (every line but maintain, update, reset and recover) or `whole`
                                     (every line in every form; the default)
    play.py short SEED               prints a script of some 80 calls of every kind, of a few members
    play.py large SEED               prints a script of up to 2,000 calls of every kind, of up to 64 members
    play.py rows                     prints some short and large scripts with their output, as rows of plain_checks:
                                     vectors/play.py rows > crates/plain_checks/data/plain/plays.txt
    play.py pairs                    prints 32,768 choices, each given back, twice from one opening, as the rows of
                                     desk_checks: vectors/play.py pairs > crates/checks/data/book/pairs.txt

So the program is compared with a second reading of the rules, and not with itself. A balancer that a script starts has the
rules of version 2, and its asks have no masks, so version 1 and masks stand in no script.
"""
import random
import re
import sys
from math import lcm

MOST_BYTES = 2**44
LIMIT_L = 2**32 - 1


class Refused(Exception):
    """A line that ends the script, with what is printed after `line N: `."""


def number(word, top):
    if not re.fullmatch(r"[0-9]{1,20}", word) or int(word) > top:
        raise Refused("bad line")
    return int(word)


def u32(word):
    return number(word, 2**32 - 1)


def u64(word):
    return number(word, 2**64 - 1)


def activation(word):
    letter = word[:1].upper()
    if letter not in ("A", "D", "S"):
        raise Refused("bad line")
    return letter


def fields(words, keys):
    """Words KEY=VALUE, each at most once, in the order of the keys."""
    found = {}
    rest = list(words)
    for key in keys:
        if rest and rest[0].startswith(key + "="):
            found[key] = rest.pop(0)[len(key) + 1 :]
    if rest:
        raise Refused("bad line")
    return found


class Member:
    def __init__(self, name, factor, letter, distance, redirect, pool):
        self.name, self.factor, self.activation = name, factor, letter
        self.distance, self.redirect, self.pool = distance, redirect, pool
        self.state, self.load, self.out = ("ok",), 0, 0


class Balancer:
    """Entries are numbered from 0. A ticket is the number of the select that made it."""

    def __init__(self, lb, members, at):
        self.method, self.sticky, self.force, self.maintain, self.recover = lb
        self.members, self.at, self.maintained = members, at, at
        self.next, self.last, self.open = 0, None, {}

    def entry(self, at):
        self.at = max(at, self.at)
        self.next += 1
        return self.next - 1

    def unit(self, m):
        factors = [x.factor for x in self.members]
        return lcm(*factors) // self.members[m].factor

    def load(self, m):
        return self.members[m].out * self.unit(m) if self.method == "B" else self.members[m].load

    def roomy(self, m):
        return self.members[m].out < self.members[m].pool

    def free(self, m):
        return self.members[m].state[0] in ("ok", "recover") and self.roomy(m)

    def usable(self, m):
        return self.free(m) and self.members[m].activation == "A"

    def serves(self, m):
        return self.free(m) and self.members[m].activation != "S"

    def revivable(self, m):
        return self.members[m].state[0] == "error" and self.roomy(m) and self.members[m].activation == "A"

    def least(self, among):
        n = len(self.members)
        first = 0 if self.last is None else self.last + 1
        turns = [(first + i) % n for i in range(n)]
        return min(among, key=lambda m: (self.members[m].distance, self.load(m), turns.index(m)))

    def pick(self, routed):
        n = range(len(self.members))
        if self.sticky and routed is not None:
            if self.serves(routed):
                return routed, "sticky", []
            other = self.members[routed].redirect
            if other is not None and self.serves(other):
                return other, "redirect", []
            if self.force:
                return None, "forced", []
        usable = [m for m in n if self.usable(m)]
        if usable:
            return self.least(usable), "balanced", []
        revivable = [m for m in n if self.revivable(m)]
        if revivable:
            return self.least(revivable), "balanced", revivable
        return None, "none", []

    def select(self, at, routed, fresh):
        chosen, how, revived = self.pick(routed)
        ticket = self.entry(at)
        for m in revived:
            self.members[m].state = ("recover",)
        if chosen is None:
            return how
        member = self.members[chosen]
        probe = member.state[0] == "recover"
        if probe:
            member.state = ("probe", ticket)
        if self.method == "R" or (self.method == "S" and fresh):
            member.load += self.unit(chosen)
        member.out += 1
        self.open[ticket] = chosen
        self.last = chosen
        words = [str(ticket), member.name]
        words += [how] if how != "balanced" else []
        words += ["probe"] if probe else []
        return " ".join(words)

    def give_back(self, at, ticket, kind, size):
        if ticket not in self.open:
            raise Refused(f"ticket {ticket} is not open")
        self.entry(at)
        m = self.open.pop(ticket)
        member = self.members[m]
        member.out -= 1
        if self.method == "T":
            member.load += self.unit(m) * size
        if kind == "done":
            member.state = ("ok",)
        elif kind == "failed":
            member.state = ("error", self.at)
        elif member.state == ("probe", ticket):
            member.state = ("recover",)

    def maintain_if_due(self, at):
        passed = max(at, self.at) - self.maintained
        if passed < self.maintain:
            return
        self.entry(at)
        halvings = passed // self.maintain
        self.maintained = self.at
        if self.method != "B":
            for member in self.members:
                member.load //= 2**halvings
        greatest = max(member.load for member in self.members)
        for member in self.members:
            if member.state[0] == "error" and member.state[1] + self.recover <= self.at:
                member.state = ("recover",)
                if self.method != "B":
                    member.load = greatest

    def update(self, at, m, change):
        factor, distance, redirect = change.get("factor"), change.get("distance"), change.get("redirect", "keep")
        bad = factor is not None and not 1 <= factor <= 65535
        bad = bad or (distance is not None and distance > 65535) or redirect == m
        if bad:
            raise Refused("refused 2")
        factors = [x.factor for x in self.members]
        if factor is not None:
            factors[m] = factor
        if lcm(*factors) > LIMIT_L:
            raise Refused("refused 3")
        self.entry(at)
        member = self.members[m]
        member.factor = factors[m]
        member.activation = change.get("activation", member.activation)
        if distance is not None:
            member.distance = distance
        if redirect != "keep":
            member.redirect = redirect

    def reset(self, at, m):
        self.entry(at)
        self.members[m].state, self.members[m].load = ("ok",), 0

    def recover_now(self, at, m):
        self.entry(at)
        if self.members[m].state[0] == "error":
            self.members[m].state = ("recover",)

    def show(self):
        return [f"{x.name} {x.state[0]} {self.load(m)} {x.out}" for m, x in enumerate(self.members)]


class Play:
    def __init__(self):
        self.lb, self.drafts, self.at, self.book = ("R", True, False, 60, 60), [], 0, None

    def named(self, name):
        for m, draft in enumerate(self.drafts):
            if draft[0] == name:
                return m
        raise Refused("bad line")

    def head(self, words):
        """A line of the balancer's own; true where it is one."""
        if words[0] == "lb" and len(words) == 6:
            method, sticky, force, maintain, recover = words[1:]
            if method not in ("R", "S", "T", "B") or sticky not in ("0", "1") or force not in ("0", "1"):
                raise Refused("bad line")
            self.lb = (method, sticky == "1", force == "1", u64(maintain), u64(recover))
            return True
        if words[0] == "member" and len(words) >= 3:
            name = words[1]
            if not re.fullmatch(r"[A-Za-z0-9_-]+", name) or any(name == d[0] for d in self.drafts):
                raise Refused("bad line")
            more = fields(words[3:], ["activation", "distance", "redirect", "pool"])
            redirect = more.get("redirect")
            if redirect is not None and not re.fullmatch(r"[A-Za-z0-9_-]+", redirect):
                raise Refused("bad line")
            self.drafts.append((name, u32(words[2]), activation(more.get("activation", "A")),
                                u32(more.get("distance", "0")), redirect, u32(more.get("pool", "64"))))
            return True
        return False

    def start(self):
        members = []
        names = [d[0] for d in self.drafts]
        for i, (name, factor, letter, distance, redirect, pool) in enumerate(self.drafts):
            if redirect is not None and redirect not in names:
                raise Refused("bad balancer")
            target = names.index(redirect) if redirect is not None else None
            if not (1 <= factor <= 65535 and distance <= 65535 and 1 <= pool <= 1024) or target == i:
                raise Refused("bad balancer")
            members.append(Member(name, factor, letter, distance, target, pool))
        periods = self.lb[3:]
        if not 1 <= len(members) <= 64 or not all(1 <= p <= 86400 for p in periods):
            raise Refused("bad balancer")
        if lcm(*[m.factor for m in members]) > LIMIT_L:
            raise Refused("bad balancer")
        self.book = Balancer(self.lb, members, self.at)

    def act(self, words):
        """What a line asks of the Book, as a function to be called once the Book stands."""
        verb, rest = words[0], words[1:]
        if verb == "select" and not rest:
            return lambda b: [b.select(self.at, None, True)]
        if verb == "select" and rest == ["old"]:
            return lambda b: [b.select(self.at, None, False)]
        if verb == "select" and len(rest) == 1 and rest[0].startswith("route="):
            m = self.named(rest[0][len("route=") :])
            return lambda b: [b.select(self.at, m, False)]
        if verb in ("done", "failed", "gone") and len(rest) in (1, 2):
            ticket, size = u64(rest[0]), number(rest[1], MOST_BYTES) if len(rest) == 2 else 0
            return lambda b: b.give_back(self.at, ticket, verb, size) or []
        if verb == "maintain" and not rest:
            return lambda b: b.maintain_if_due(self.at) or []
        if verb == "update" and rest:
            m = self.named(rest[0])
            given = fields(rest[1:], ["activation", "factor", "distance", "redirect"])
            change = {}
            if "activation" in given:
                change["activation"] = activation(given["activation"])
            for key in ("factor", "distance"):
                if key in given:
                    change[key] = u32(given[key])
            if "redirect" in given:
                change["redirect"] = None if given["redirect"] == "-" else self.named(given["redirect"])
            return lambda b: b.update(self.at, m, change) or []
        if verb in ("reset", "recover") and len(rest) == 1:
            m = self.named(rest[0])
            return lambda b: (b.reset(self.at, m) if verb == "reset" else b.recover_now(self.at, m)) or []
        if verb == "show" and not rest:
            return lambda b: b.show()
        raise Refused("bad line")

    def line(self, text):
        if not text or text.startswith("#"):
            return []
        words = text.split(" ")
        if words[0] == "at" and len(words) == 2:
            self.at = u64(words[1])
            return []
        if self.book is None and self.head(words):
            return []
        action = self.act(words)
        if self.book is None:
            self.start()
        return action(self.book)


def run(script):
    play, out = Play(), []
    for n, text in enumerate(script.split("\n"), 1):
        try:
            out += play.line(text)
        except Refused as why:
            return out + [f"line {n}: {why}"], 3
    return out, 0


def make(seed, lines, form):
    """A script that meets many turns of the rules; it is kept legal by running it beside."""
    dice, script, play = random.Random(seed), [], Play()

    def add(text):
        try:
            out = play.line(text)
        except Refused:
            return
        script.append(text)
        for shown in out:
            word = shown.split(" ")[0]
            if text.startswith("select") and word.isdigit():
                tickets.append(int(word))

    tickets = []
    names = ["a", "b", "c", "n-4", "N_5"][: dice.randint(2, 5)]
    if form != "first":
        add(f"lb {dice.choice('RSTB')} 1 {dice.choice('01')} {dice.choice([1, 7, 60])} {dice.choice([1, 30, 60])}")
        add(f"at {dice.randint(0, 50)}")
    for name in names:
        text = f"member {name} {dice.randint(1, 6)}"
        if form != "first":
            text += dice.choice(["", "", "", " activation=D", " activation=stopped"])
            text += dice.choice(["", "", " distance=1"])
            text += dice.choice(["", "", f" redirect={dice.choice(names)}"])
            text += dice.choice(["", "", " pool=1", " pool=3"])
        add(text)
    while len(script) < lines:
        kinds = ["select"] * 6 + ["done"] * 3 + ["failed"] * 2
        if form != "first":
            kinds += ["old", "route", "route", "gone", "at", "at", "show"]
        if form == "whole":
            kinds += ["maintain", "update", "reset", "recover"]
        kind = dice.choice(kinds)
        if kind in ("done", "failed", "gone"):
            if tickets:
                ticket = tickets.pop(dice.randrange(len(tickets)))
                add(f"{kind} {ticket}" + (dice.choice(["", f" {dice.randint(0, 999)}"]) if form != "first" else ""))
        elif kind == "select":
            add("select")
        elif kind == "old":
            add("select old")
        elif kind == "route":
            add(f"select route={dice.choice(names)}")
        elif kind == "at":
            add(f"at {play.at + dice.choice([0, 1, 5, 30, 60, 200])}")
        elif kind == "update":
            add(f"update {dice.choice(names)}" + dice.choice([
                f" factor={dice.randint(0, 6)}", f" activation={dice.choice('ADS')}", f" distance={dice.randint(0, 2)}",
                f" redirect={dice.choice(names + ['-'])}", " activation=A factor=2 distance=0 redirect=-"]))
        elif kind in ("reset", "recover"):
            add(f"{kind} {dice.choice(names)}")
        else:
            add(kind)
    return script


class Writer:
    """A large script in the making. It is kept legal by playing it beside."""

    def __init__(self, seed):
        self.dice, self.script, self.play, self.tickets, self.calls = random.Random(seed), [], Play(), [], 0

    def add(self, text):
        try:
            out = self.play.line(text)
        except Refused:
            return
        self.script.append(text)
        for shown in out:
            word = shown.split(" ")[0]
            if text.startswith("select") and word.isdigit():
                self.tickets.append(int(word))

    def factors(self, count):
        """Factors with a common multiple below 2^32: small ones, powers of 2, divisors of 55440, or great ones."""
        dice = self.dice
        form = dice.choice(["small", "small", "powers", "divisors", "great"])
        if form == "small":
            return [dice.randint(1, 12) for _ in range(count)]
        if form == "powers":
            return [2 ** dice.randint(0, 15) for _ in range(count)]
        if form == "divisors":
            return [dice.choice([d for d in range(1, 55441) if 55440 % d == 0]) for _ in range(count)]
        return [dice.choice([1, 65535, 65534, 32767, 13107]) for _ in range(count)]

    def head(self, counts):
        dice = self.dice
        method = "RSTB"[dice.randrange(4)]
        if dice.random() < 0.2:
            self.add("lb R 1 0 60 60")
        self.add(f"lb {method} {dice.choice('1110')} {dice.choice('01')} {dice.choice([1, 7, 60, 86400])} {dice.choice([1, 30, 60, 600])}")
        self.add(f"at {dice.choice([0, 7, 1700000000, 2**40])}")
        count = dice.choice(counts)
        self.names = [dice.choice(["node", "n-", "A_", "x"]) + str(m) for m in range(count)]
        for name, factor in zip(self.names, self.factors(count)):
            text = f"member {name} {factor}"
            text += dice.choice(["", "", "", "", " activation=D", " activation=stopped", " activation=Active"])
            text += dice.choice(["", "", "", " distance=1", " distance=65535"])
            other = dice.choice(self.names)
            text += f" redirect={other}" if other != name and dice.random() < 0.4 else ""
            text += dice.choice(["", "", " pool=1", " pool=2", " pool=1024"])
            self.add(text)

    def size(self):
        return self.dice.choice(["", "", " 0", f" {self.dice.randint(1, 99999)}", f" {self.dice.randint(0, MOST_BYTES)}", f" {MOST_BYTES}"])

    def give_back(self, kinds):
        if self.tickets:
            late = self.dice.random() < 0.7
            ticket = self.tickets.pop(self.dice.randrange(len(self.tickets)) if late else -1)
            self.add(f"{self.dice.choice(kinds)} {ticket}" + self.size())

    def step_time(self):
        now = self.play.at
        step = self.dice.choice([1, 1, 5, 30, 59, 60, 61, 600, 100000])
        early = self.dice.random() < 0.15
        self.add(f"at {max(0, now - step) if early else now + step}")

    def change(self):
        dice = self.dice
        name = dice.choice(self.names)
        self.add(f"update {name}" + dice.choice([
            "", f" factor={dice.randint(0, 9)}", f" factor={dice.choice([65535, 65536, 64])}",
            f" activation={dice.choice(['A', 'd', 'Stopped'])}", f" distance={dice.choice([0, 0, 1, 65535, 65536])}",
            f" redirect={dice.choice(self.names + ['-'])}", " activation=A factor=2 distance=0 redirect=-"]))

    def call(self, mood):
        """One call. A mood makes some kinds likelier for a while: members that fail, pools that fill, or neither."""
        dice = self.dice
        kinds = ["select"] * 6 + ["old", "route", "route", "at", "maintain", "update", "reset", "recover"]
        kinds += {"calm": ["done"] * 7 + ["failed", "gone"], "failing": ["failed"] * 7 + ["gone"] * 2 + ["done"],
                  "filling": ["select"] * 5 + ["done"]}[mood]
        kind = dice.choice(kinds)
        if kind in ("done", "failed", "gone"):
            self.give_back([kind])
        elif kind == "at":
            self.step_time()
        elif kind == "update":
            self.change()
        else:
            name = dice.choice(self.names)
            self.add({"select": "select", "old": "select old", "route": f"select route={name}", "maintain": "maintain",
                      "reset": f"reset {name}", "recover": f"recover {name}"}[kind])
        if dice.random() < 4 / (100 + 20 * len(self.names)):
            self.add("show")
        if dice.random() < 0.01:
            self.add(dice.choice(["", "# a comment", "#"]))

    def end(self):
        """What stands at the end: the members, and in some scripts a line that is refused, with a select behind it."""
        self.add("show")
        last = self.dice.choice([None, None, f"done {self.play.book.next}", "update " + self.names[0] + " factor=0",
                                 "select route=nobody", "member late 1"])
        return [] if last is None else [last, "select"]


def written(seed, counts, moods, calls):
    """A script of this many stretches of this many calls, each in a mood, of one of these numbers of members."""
    writer = Writer(seed)
    writer.head(counts)
    dice = writer.dice
    writer.add("select")
    for _ in range(dice.randint(*moods)):
        mood = dice.choice(["calm", "calm", "failing", "filling"])
        for _ in range(dice.randint(*calls)):
            if len(writer.script) < 2000:
                writer.call(mood)
    return writer.script + writer.end()


def short(seed):
    return written(seed, [1, 2, 2, 3, 3, 4, 5, 8], (2, 4), (10, 40))


def large(seed):
    return written(seed, [1, 2, 3, 4, 5, 8, 13, 21, 34, 48, 63, 64], (3, 12), (40, 300))


# What few scripts meet: a member that a maintenance takes out of error, whose load was less than another's, and a maintenance at a
# moment that is before the last entry's.
RECOVERED = """lb R 1 0 60 30
member a 1
member b 3
member c 2
select
select
select
select
select
failed 1
done 0
at 59
maintain
show
at 60
maintain
show
select
select
at 130
select
at 100
maintain
show""".split("\n")

# Of 400 short scripts those that tell the most mistakes and kinds of events (telling.py), and some large ones, of 64 members too.
SHORT = (20, 84, 89, 110, 111, 129, 130, 156, 159, 162, 164, 186, 204, 239, 241, 264, 292, 297, 305, 329, 333, 367, 372, 374, 377)

LARGE = (110, 117)


def row(name, script):
    out, status = run("".join(text + "\n" for text in script))
    lines = [f"row {name}", "words play", "input"] + ["|" + text for text in script] + ["output"] + ["|" + text for text in out]
    return "\n".join(lines + ([f"status {status}"] if status else [])) + "\n"


def rows():
    told = ["# Scripts with what they print: vectors/play.py rows > crates/plain_checks/data/plain/plays.txt\n"]
    told.append(row("recovered", RECOVERED))
    told += [row(f"short {seed}", short(seed)) for seed in SHORT]
    return "\n".join(told + [row(f"large {seed}", large(seed)) for seed in LARGE])


def lend(book, at, kind):
    """A fresh session's choice that is given back: the member, and the number of the return."""
    ticket, name = book.select(at, None, True).split()[:2]
    book.give_back(at, int(ticket), kind, 0)
    return "abcd".index(name), int(ticket)


def played(book):
    """The lines of 32,768 pairs with a maintenance after each quarter."""
    first = book.next
    for at in (60, 120, 300, 360):
        for _ in range(8192):
            lend(book, at - 60, "done")
        yield f"pairs 8192 1 {at - 60} return 0 done 0 -> done"
        yield f"e {book.next} 1 {at} maintain done"
        book.maintain_if_due(at)
    yield "show -> " + "".join(f"{line}\\n" for line in book.show())
    yield f"next -> {book.next}"
    yield f"kept -> {book.next - first}"


def pairs():
    yield "# Many choices, and the same again from the opening that the journal was cut at. Made by vectors/play.py pairs. How a row is"
    yield "# written stands at the head of books.txt; `pairs TIMES` before a call is `lend` so many times.\n"
    yield "row 32,768 choices that are given back leave what a Book has that goes on from their opening"
    factors = (1, 2, 3, 5)
    book = Balancer(("R", True, False, 60, 60), [Member(name, factor, "A", 0, None, 64) for name, factor in zip("abcd", factors)], 0)
    yield "lb lb R 1 0 0 60 60 4"
    yield from (f"member {m.name} {m.name} {m.factor} 0 A - 64 ok 0" for m in book.members)
    yield "from 0 0 0 -\nstart"
    for kind in ("done", "failed", "done"):
        member, ticket = lend(book, 0, kind)
        yield f"lend 1 0 return 0 {kind} 0 -> member {member}, e {ticket + 1} 1 0 return {ticket} {kind} 0 done"
    yield f"cut -> {book.next} from 0"
    lines = list(played(book))
    yield from lines
    yield "reopen"
    yield from lines


def main(words):
    if words == ["run"]:
        out, status = run(sys.stdin.read())
        sys.stdout.write("".join(text + "\n" for text in out))
        return status
    if words == ["rows"]:
        print(rows(), end="")
        return 0
    if words == ["pairs"]:
        print("\n".join(pairs()))
        return 0
    if words[:1] in (["short"], ["large"]) and len(words) == 2:
        print("\n".join({"short": short, "large": large}[words[0]](int(words[1]))))
        return 0
    if words[:1] == ["make"] and len(words) in (3, 4):
        form = words[3] if len(words) == 4 else "whole"
        print("\n".join(make(int(words[1]), int(words[2]), form)))
        return 0
    sys.stderr.write(__doc__)
    return 2


if __name__ == "__main__":
    sys.exit(main(sys.argv[1:]))
