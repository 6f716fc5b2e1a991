#!/usr/bin/env python3
"""The check of a journal's text, written from the rules alone and in another language than jkd, over the balancer of play.py.

    journal.py check < TEXT   prints what `jkd check` must print, and ends with its status
    journal.py changes        prints rows of value_checks: a small journal with one word of each line changed in turn
"""
import re
import sys
from math import lcm

import play

LAST = 2**48
ESCAPED = re.compile(r"[A-Za-z0-9_.-]|%[0-9A-F]{2}")


class Unreadable(Exception):
    pass


class Bad(Exception):
    """What a line has, and what it ought to have."""


def number(word, top):
    if not re.fullmatch(r"0|[1-9][0-9]*", word) or int(word) > top:
        raise Unreadable
    return int(word)


def optional(word, top=2**32 - 1):
    return None if word == "-" else number(word, top)


def among(word, words):
    if word not in words:
        raise Unreadable
    return word


def flag(word):
    return among(word, ("0", "1")) == "1"


def name(word):
    if word == "%":
        return word
    parts = ESCAPED.findall(word)
    if "".join(parts) != word or not word:
        raise Unreadable
    plain = [x for x in parts if len(x) == 3 and re.fullmatch(r"[A-Za-z0-9_.-]", chr(int(x[1:], 16)))]
    if plain:
        raise Unreadable
    return word


def state(word):
    if word in ("ok", "recover"):
        return (word,)
    kind, colon, value = word.partition(":")
    if not colon or kind not in ("error", "probe"):
        raise Unreadable
    return (kind, number(value, 2**64 - 1))


def words_of(line, *counts):
    words = line.split(" ")
    if len(words) not in counts:
        raise Unreadable
    return words


class Balancer(play.Balancer):
    """With numbers that go on, tickets that are out, sets of members, and either rules."""

    rules, direct = 2, False
    tried = disabled = stopped = 0

    def counts_as(self, m):
        if self.members[m].activation == "S" or self.stopped >> m & 1:
            return "S"
        if self.members[m].activation == "D" or self.disabled >> m & 1:
            return "D"
        return "A"

    def free(self, m):
        return super().free(m) and not self.tried >> m & 1

    def usable(self, m):
        return self.free(m) and self.counts_as(m) == "A"

    def serves(self, m):
        return self.free(m) and self.counts_as(m) != "S"

    def revivable(self, m):
        fits = self.roomy(m) and not self.tried >> m & 1 and self.counts_as(m) == "A"
        return self.rules == 2 and self.members[m].state[0] == "error" and fits

    def pick(self, routed):
        return super().pick(routed if routed is None or routed < len(self.members) else None)

    def is_full(self, more):
        return self.next + len(self.open) + more > LAST

    def lines(self):
        """The lines of an opening that is as the balancer is now."""
        flags = [str(int(x)) for x in (self.sticky, self.force, self.direct)]
        lines = [" ".join(["lb", self.name, self.method, *flags, str(self.maintain), str(self.recover), str(len(self.members))])]
        for m, x in enumerate(self.members):
            redirect = "-" if x.redirect is None else str(x.redirect)
            words = ["member", x.name, x.route, x.factor, x.distance, x.activation, redirect, x.pool]
            words += [":".join(map(str, x.state)), self.load(m)]
            lines.append(" ".join(map(str, words)))
        lines += [f"lease {ticket} {m}" for ticket, m in sorted(self.open.items())]
        last = "-" if self.last is None else self.last
        return lines + [f"from {self.next} {self.at} {self.maintained} {last}"]


def read_balancer(line):
    words = words_of(line, 9)
    if words[0] != "lb":
        raise Unreadable
    lb = (among(words[2], "RSTB"), flag(words[3]), flag(words[4]), number(words[6], 2**64 - 1), number(words[7], 2**64 - 1))
    b = Balancer(lb, [], 0)
    b.name, b.direct, b.count = name(words[1]), flag(words[5]), number(words[8], 2**32 - 1)
    return b


def read_member(b, line):
    words = words_of(line, 10)
    if words[0] != "member":
        raise Unreadable
    redirect = optional(words[6])
    m = play.Member(name(words[1]), number(words[3], 2**32 - 1), among(words[5], "ADS"), number(words[4], 2**32 - 1), redirect,
                    number(words[7], 2**32 - 1))
    m.route, m.state, m.load = name(words[2]), state(words[8]), number(words[9], 2**128 - 1)
    b.members.append(m)


def read_from(b, line):
    words = words_of(line, 5)
    if words[0] != "from":
        raise Unreadable
    b.next, b.at, b.maintained = (number(x, 2**64 - 1) for x in words[1:4])
    b.last = optional(words[4])


def is_valid(b, leases):
    n = len(b.members)
    good = 1 <= n <= 64 and 1 <= b.maintain <= 86400 and 1 <= b.recover <= 86400
    for m, x in enumerate(b.members):
        good = good and 1 <= x.factor <= 65535 and x.distance <= 65535 and 1 <= x.pool <= 1024
        good = good and (x.redirect is None or (x.redirect < n and x.redirect != m))
    if not good or lcm(*(x.factor for x in b.members)) >= 2**32:
        return False
    tickets = [ticket for ticket, _ in leases]
    good = tickets == sorted(set(tickets)) and all(t < b.next and m < n for t, m in leases)
    good = good and b.next + len(leases) <= LAST and b.maintained <= b.at and (b.last is None or b.last < n)
    if not good:
        return False
    b.open = dict(leases)
    for m, x in enumerate(b.members):
        x.out = sum(on == m for _, on in leases)
        good = good and x.out <= x.pool and x.load <= b.next * 2**76
        good = good and (x.state[0] != "probe" or b.open.get(x.state[1]) == m)
        good = good and (x.state[0] != "error" or x.state[1] <= b.at)
        good = good and (b.method != "B" or x.load == b.load(m))
    return good


def read_call(words, rules):
    """The call of an entry and how many words it has."""
    top = 2**64 - 1
    if words[0] == "select":
        size = 4 if rules == 1 else 6
        sets = [number(x, top) for x in words[3:size]]
        return ("select", optional(words[1]), flag(words[2]), *sets, *([0, 0] if rules == 1 else [])), size
    if words[0] == "return":
        return ("return", number(words[1], top), among(words[2], ("done", "failed", "gone")), number(words[3], 2**44)), 4
    if words[0] == "maintain":
        return ("maintain",), 1
    if words[0] == "update":
        letter = None if words[2] == "-" else among(words[2], "ADS")
        redirect = "keep" if words[5] == "-" else None if words[5] == "none" else number(words[5], 2**32 - 1)
        change = {"activation": letter, "factor": optional(words[3]), "distance": optional(words[4])}
        change = {k: v for k, v in change.items() if v is not None}
        return ("update", number(words[1], 2**32 - 1), dict(change, redirect=redirect)), 6
    among(words[0], ("reset", "recover"))
    return (words[0], number(words[1], 2**32 - 1)), 2


def read_entry(line, rules):
    words = line.split(" ")
    if words[0] != "e" or len(words) < 6:
        raise Unreadable
    seq, session, at = number(words[1], 2**64 - 1), number(words[2], 2**32 - 1), number(words[3], 2**64 - 1)
    try:
        call, size = read_call(words[4:], rules)
    except IndexError:
        raise Unreadable
    answer = words[4 + size :]
    if answer[:1] == ["chosen"]:
        if len(answer) != 4:
            raise Unreadable
        number(answer[1], 2**32 - 1), among(answer[2], ("sticky", "redirect", "balanced")), flag(answer[3])
    elif len(answer) != 1 or answer[0] not in ("none", "forced", "done"):
        raise Unreadable
    return seq, at, call, " ".join(answer)


def rule(b, at, call):
    """What is answered to the call, or why there is no answer."""
    if call[0] == "select":
        if b.is_full(2):
            return "full"
        b.tried, b.disabled, b.stopped = call[3:]
        number_of = b.next
        before = {x.name: x.state for x in b.members}
        how = b.select(at, call[1], call[2])
        if how in ("none", "forced"):
            return how
        member = b.members[b.last]
        told = how.split(" ")[2:]
        kind = next((x for x in told if x in ("sticky", "redirect")), "balanced")
        probe = int(member.state == ("probe", number_of) and before[member.name][0] in ("recover", "error"))
        return f"chosen {b.last} {kind} {probe}"
    if call[0] == "return":
        if call[1] not in b.open:
            return "stray"
        m = b.open[call[1]]
        b.give_back(at, *call[1:])
        if b.direct and call[2] == "failed":
            b.members[m].state = ("ok",)
        return "done"
    if call[0] == "maintain":
        if at - b.maintained < b.maintain:
            return "not due"
        if b.is_full(1):
            return "full"
        b.maintain_if_due(at)
        return "done"
    return command(b, at, call)


def command(b, at, call):
    n = len(b.members)
    redirect = call[2]["redirect"] if call[0] == "update" else "keep"
    if call[1] >= n or (redirect not in ("keep", None) and redirect >= n):
        return "refused 1"
    if call[0] == "update":
        factor, distance = call[2].get("factor"), call[2].get("distance")
        if (factor is not None and not 1 <= factor <= 65535) or (distance is not None and distance > 65535) or redirect == call[1]:
            return "refused 2"
        factors = [factor if factor is not None and m == call[1] else x.factor for m, x in enumerate(b.members)]
        if lcm(*factors) >= 2**32:
            return "refused 3"
    if b.is_full(1):
        return "full"
    if call[0] == "update":
        b.update(at, call[1], call[2])
    elif call[0] == "reset":
        b.reset(at, call[1])
    else:
        b.entry(at)
        if b.members[call[1]].state[0] == "error":
            b.members[call[1]].state = ("recover",)
    return "done"


def judge(b, seq, at, call, answer):
    if seq != b.next:
        raise Bad(f"seq {seq}", f"seq {b.next}")
    if at < b.at:
        raise Bad(f"moment {at}", f"moment {b.at}")
    ruled = rule(b, at, call)
    if ruled != answer:
        raise Bad(answer, ruled)


class Reader:
    """Takes the lines of a text one after the other."""

    def __init__(self):
        self.place, self.rules, self.former, self.entries, self.wrong = self.outside, 1, None, 0, None

    def differ(self, line, *rulings):
        self.wrong = self.wrong or (line, *rulings)

    def outside(self, line, at):
        words = words_of(line, 2)
        rules = number(words[1], 2)
        if words[0] != "jkj" or rules < max(1, self.rules):
            raise Unreadable
        self.rules, self.place, self.first = rules, self.ruled, at

    def ruled(self, line, at):
        self.b, self.leases, self.place = read_balancer(line), [], self.heading
        self.b.rules = self.rules
        self.opening = [line]

    def heading(self, line, at):
        if len(self.b.members) < self.b.count:
            read_member(self.b, line)
        elif line.startswith("lease "):
            words = words_of(line, 3)
            self.leases.append((number(words[1], 2**64 - 1), number(words[2], 2**32 - 1)))
        else:
            read_from(self.b, line)
            if not is_valid(self.b, self.leases):
                raise Unreadable
            self.place, self.count = self.body, 0
        self.opening.append(line)
        if self.place == self.body and self.former:
            for i, (kept, ruled) in enumerate(zip(self.opening, self.former)):
                if kept != ruled:
                    self.differ(self.first + 1 + i, kept, ruled)
                    break

    def body(self, line, at):
        if line.startswith("end "):
            count = number(words_of(line, 2)[1], 2**64 - 1)
            if count != self.count:
                self.differ(at, f"count {count}", f"count {self.count}")
            self.former, self.place = self.b.lines(), self.outside
            return
        entry = read_entry(line, self.rules)
        self.count += 1
        self.entries += 1
        if not self.wrong:
            try:
                judge(self.b, *entry)
            except Bad as bad:
                self.differ(at, *bad.args)


def check(text):
    lines = text.split("\n")
    reader = Reader()
    for i, line in enumerate(lines[:-1], 1):
        try:
            reader.place(line, i)
        except Unreadable:
            return f"line {i}: unreadable", 3
    if lines[-1] or reader.place != reader.outside or not reader.former:
        return f"line {len(lines)}: unreadable", 3
    if reader.wrong:
        return "bad line {}: kept {}, ruled {}".format(*reader.wrong), 1
    return f"good {reader.entries}", 0


SMALL = """jkj 2
lb lb R 1 0 0 60 60 2
member a a 1 0 A - 64 ok 0
member b b 1 0 A 0 64 ok 0
from 0 10 10 -
e 0 7 10 select - 1 0 0 0 chosen 0 balanced 0
e 1 7 11 return 0 failed 5 done
e 2 8 12 select 0 0 0 0 0 chosen 1 balanced 0
e 3 0 70 maintain done
e 4 0 71 update 1 - 2 - - done
end 5
jkj 2
lb lb R 1 0 0 60 60 2
member a a 1 0 A - 64 error:11 0
member b b 2 0 A 0 64 ok 0
lease 2 1
from 5 71 70 1
e 5 9 130 maintain done
e 6 9 130 select - 0 0 0 0 chosen 0 balanced 1
e 7 8 131 return 2 done 100 done
e 8 0 131 reset 0 done
e 9 0 132 recover 1 done
end 5
"""


def changes_of(word):
    """Other values in a word's place."""
    other = {"-": ["0", "1"], "R": ["S", "B"], "A": ["D", "X"], "ok": ["recover", "error:0"], "done": ["none", "failed", "gone"],
             "failed": ["done", "gone"], "balanced": ["sticky"], "chosen": ["none"], "none": ["done"], "e": ["x"],
             "select": ["maintain"], "maintain": ["recover"], "reset": ["recover"], "recover": ["reset"], "update": ["reset"]}
    if word in other:
        return other[word]
    if word.isdigit():
        n = int(word)
        return [str(n + 1)] + ([str(n - 1)] if n > 1 else []) + (["0"] if n else []) + ["0" + word]
    kind, colon, value = word.partition(":")
    return [f"{kind}:{int(value) + 1}"] if colon else [word + "x"]


def print_changes():
    print("row each word of a small journal is changed in turn")
    lines = SMALL.split("\n")[:-1]
    print("".join(f"|{line}\n" for line in lines) + "check -> " + told(check(SMALL)))
    for i, line in enumerate(lines):
        words = line.split(" ")
        for j, word in enumerate(words):
            for value in changes_of(word):
                changed = lines[:i] + [" ".join(words[:j] + [value] + words[j + 1 :])] + lines[i + 1 :]
                print(f"with {i + 1} {j + 1} {value} -> " + told(check("\n".join(changed) + "\n")))


def told(verdict):
    text, status = verdict
    if status == 3:
        return "unreadable " + text.split(":")[0].split(" ")[1]
    return text


def main():
    if sys.argv[1:] == ["check"]:
        text, status = check(sys.stdin.read())
        print(text)
        return status
    print_changes()
    return 0


if __name__ == "__main__":
    sys.exit(main())
