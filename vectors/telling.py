#!/usr/bin/env python3
"""Which mistakes in the rules the rows of `play` tell, and which kinds of events they have.

    python3 vectors/telling.py mistakes     changes each number, comparison, sum, condition and step of play.py's rules, one at a time,
                                            and plays the scripts of the rows by what comes out: a change is told where one prints otherwise
    python3 vectors/telling.py kinds        counts the kinds of events: what a choice, a return, a maintenance or a command met
    python3 vectors/telling.py choose       prints the seeds of short scripts of which each adds kinds to those before it

A change that isn't told means the same for every script, or is of what no script here does; `mistakes` lists those by their lines.
"""
import ast
import os
import signal
import sys

import play

SOURCE = open(os.path.join(os.path.dirname(os.path.abspath(__file__)), "play.py"), encoding="utf-8").read()
OTHER = {ast.Lt: ast.LtE, ast.LtE: ast.Lt, ast.Eq: ast.NotEq, ast.NotEq: ast.Eq, ast.Is: ast.IsNot, ast.IsNot: ast.Is, ast.In: ast.NotIn,
         ast.NotIn: ast.In, ast.Gt: ast.GtE, ast.GtE: ast.Gt, ast.Add: ast.Sub, ast.Sub: ast.Add, ast.Mult: ast.FloorDiv, ast.FloorDiv: ast.Mult,
         ast.Mod: ast.FloorDiv, ast.Pow: ast.Mult, ast.And: ast.Or, ast.Or: ast.And}
TURNED = {ast.Lt: ast.GtE, ast.LtE: ast.Gt, ast.Gt: ast.LtE, ast.GtE: ast.Lt}
WORDS = {"A": "S", "D": "A", "S": "D", "R": "S", "T": "R", "B": "R", "done": "gone", "failed": "done", "gone": "failed", "ok": "error",
         "recover": "ok", "error": "recover", "probe": "ok"}


# Changes of the rules.

def set_op(node, at, kind):
    if isinstance(node, ast.Compare):
        node.ops[at] = kind()
    else:
        node.op = kind()


def set_value(node, value):
    node.value = value


def drop(tree, node):
    for parent in ast.walk(tree):
        for part in ("body", "orelse"):
            inner = getattr(parent, part, None)
            if isinstance(inner, list) and node in inner:
                inner[inner.index(node)] = ast.Pass()


def changes_of(tree, node):
    """What may be changed at this place, as functions that do it."""
    if isinstance(node, ast.Compare):
        for at, op in enumerate(node.ops):
            for table in (OTHER, TURNED):
                if type(op) in table:
                    yield lambda at=at, kind=table[type(op)]: set_op(node, at, kind)
    elif isinstance(node, (ast.BoolOp, ast.BinOp, ast.AugAssign)) and type(node.op) in OTHER:
        yield lambda: set_op(node, 0, OTHER[type(node.op)])
    elif isinstance(node, ast.Constant) and isinstance(node.value, bool):
        yield lambda: set_value(node, not node.value)
    elif isinstance(node, ast.Constant) and isinstance(node.value, int):
        yield from (lambda by=by: set_value(node, node.value + by) for by in (1, -1))
    elif isinstance(node, ast.Constant) and node.value in WORDS:
        yield lambda: set_value(node, WORDS[node.value])
    elif isinstance(node, ast.Call) and isinstance(node.func, ast.Name) and node.func.id in ("min", "max"):
        yield lambda: setattr(node.func, "id", {"min": "max", "max": "min"}[node.func.id])
    if isinstance(node, (ast.Assign, ast.AugAssign)):
        yield lambda: drop(tree, node)


def changes(tree):
    for rules in tree.body:
        if isinstance(rules, ast.ClassDef) and rules.name in ("Balancer", "Play", "Member"):
            for node in ast.walk(rules):
                yield from ((node.lineno, change) for change in changes_of(tree, node) if hasattr(node, "lineno"))


def changed(number):
    """play.py with one change, and its line."""
    tree = ast.parse(SOURCE)
    line, change = list(changes(tree))[number]
    change()
    names = {"__name__": "changed"}
    exec(compile(ast.fix_missing_locations(tree), "changed", "exec"), names)
    return line, names["run"]


def too_long(*_):
    raise TimeoutError


def tells(run, text, wanted):
    signal.setitimer(signal.ITIMER_REAL, 20)
    try:
        return run(text) != wanted
    except Exception:
        return True
    finally:
        signal.setitimer(signal.ITIMER_REAL, 0)


def mistakes(scripts):
    signal.signal(signal.SIGALRM, too_long)
    rows = [(text, play.run(text)) for text in ("".join(f"{line}\n" for line in script) for script in scripts)]
    count, untold = sum(1 for _ in changes(ast.parse(SOURCE))), []
    for number in range(count):
        line, run = changed(number)
        if not any(tells(run, *row) for row in rows):
            untold.append(line)
    print(f"{count} changes, of which {count - len(untold)} are told; not told, by their lines: {' '.join(map(str, untold))}")


# Kinds of events.

def size(number):
    return sum(number >= bound for bound in (1, 2, 2**16, 2**32, 2**44))


class Noted(play.Balancer):
    """A balancer that notes what its calls met."""

    def see(self, *kind):
        self.seen.add(kind)

    def at_member(self, m):
        member = self.members[m]
        return member.state[0], member.activation, self.roomy(m)

    def select(self, at, routed, fresh):
        n, last, before = range(len(self.members)), self.last, [member.state[0] for member in self.members]
        usable = [m for m in n if self.usable(m)]
        chosen, how, revived = self.pick(routed)
        if routed is not None:
            other = self.members[routed].redirect
            self.see("routed", self.sticky, self.force, before[routed], other is not None and self.serves(other), how)
            self.see("routed to", self.at_member(routed), how)
        if how == "balanced":
            self.see_choice(chosen, last, revived or usable)
            for m in set(n) - set(revived or usable):
                self.see("left out", self.at_member(m), bool(revived))
        self.see("select", self.method, how, routed is None, fresh, chosen is not None and before[chosen], len(revived) > 1, at < self.at)
        return super().select(at, routed, fresh)

    def see_choice(self, chosen, last, among):
        near = [m for m in among if self.members[m].distance == min(self.members[m].distance for m in among)]
        ties = [self.load(m) for m in near].count(min(self.load(m) for m in near))
        self.see("by", self.method, len(near) < len(among), len(near) > 1, ties > 1)
        self.see("turn", self.method, last is None or (chosen > last) - (chosen < last), ties > 1)

    def give_back(self, at, ticket, kind, moved):
        if ticket in self.open:
            member = self.members[self.open[ticket]]
            state = "own" if member.state == ("probe", ticket) else member.state[0]
            self.see("back", kind, state, member.activation)
            self.see("moved", self.method, kind, size(moved), at < self.at)
        super().give_back(at, ticket, kind, moved)

    def maintain_if_due(self, at):
        now = max(at, self.at)
        passed = now - self.maintained
        self.see("maintain", self.method, min(passed // self.maintain, 3), passed % self.maintain == 0, passed + 1 == self.maintain)
        if passed >= self.maintain:
            for m, member in enumerate(self.members):
                due = member.state[0] == "error" and (now > member.state[1] + self.recover) - (now < member.state[1] + self.recover)
                self.see("maintained", self.method, member.state[0], due)
                self.see("halved", self.method, size(self.load(m)), self.load(m) % 2)
        super().maintain_if_due(at)

    def update(self, at, m, change):
        kind = "done"
        try:
            super().update(at, m, change)
        except play.Refused as why:
            kind = str(why)
            raise
        finally:
            self.see("update", self.method, tuple(sorted(change)), kind)
            self.see("updated", self.at_member(m), change.get("activation"), change.get("redirect", m) is None)

    def reset(self, at, m):
        self.see("reset", self.method, self.members[m].state[0], size(self.members[m].load), self.members[m].out > 0)
        super().reset(at, m)

    def recover_now(self, at, m):
        self.see("recover", self.at_member(m))
        super().recover_now(at, m)

    def show(self):
        for m, member in enumerate(self.members):
            self.see("show", self.method, member.state[0], size(self.load(m)), min(member.out, 2))
        return super().show()


class NotedPlay(play.Play):
    def start(self):
        super().start()
        self.book.__class__, self.book.seen = Noted, set()


def kinds_of(script):
    noted = NotedPlay()
    try:
        for text in script:
            noted.line(text)
    except play.Refused as why:
        noted.book.see("refused", text.split()[0], str(why).split()[0])
    return noted.book.seen


def choose(seeds, least):
    """The seeds of short scripts that add most for their length, each at least so many kinds."""
    left = {seed: (len(script), kinds_of(script)) for seed, script in ((seed, play.short(seed)) for seed in seeds)}
    while left:
        best = max(left, key=lambda seed: len(left[seed][1]) / left[seed][0])
        added = left.pop(best)[1]
        if len(added) < least:
            break
        yield best
        left = {seed: (length, kinds - added) for seed, (length, kinds) in left.items()}


def main(words):
    scripts = [play.RECOVERED] + [play.short(seed) for seed in play.SHORT] + [play.large(seed) for seed in play.LARGE]
    if words == ["mistakes"]:
        mistakes(scripts)
    elif words == ["kinds"]:
        print(f"{len(set().union(*map(kinds_of, scripts)))} kinds of events in {sum(map(len, scripts))} lines of {len(scripts)} scripts")
    elif words[:1] == ["choose"] and len(words) < 3:
        print(*sorted(choose(range(1, 401), int((words + ["8"])[1]))), sep=", ")
    else:
        sys.exit(__doc__)


if __name__ == "__main__":
    main(sys.argv[1:])
