#!/usr/bin/env python3
"""Does the rows of commands with the program itself, over the system's files and streams.

    python3 vectors/program_rows.py PROGRAM      PROGRAM is the program jkd, as `rt run` builds it

The rows are those of crates/plain_checks/data/plain and crates/serve_checks/data/serve, of which the gate does the commands in memory. Here
each row's files are files, its input is standard input, and what comes out is standard output and the status. Rows that need a read or
write that fails, a world in memory, a file in a front's place, or a part of the program alone are left out, and those whose words `main`
answers with a text.
Status: 0 all came out as they say; 1 else.
"""
import glob
import os
import re
import subprocess
import sys
import tempfile

DATA = os.path.join(os.path.dirname(os.path.abspath(__file__)), "..", "crates")
HEADS = ("word", "words", "file", "input", "output", "part")
ALONE = ("kind", "file-fails", "input-fails", "output-fails", "gear-fails", "door-fails", "shelf-fails", "dial-fails", "meeting", "checked")
PLAIN = {"e": b"", "n": b"\n", "r": b"\r", "t": b"\t", "s": b" "}


def spelled(text, with_, number=0):
    """The bytes of a text of a row."""
    stands = {"1": with_[0], "2": with_[1], "i": str(number)}

    def escape(found):
        if found[1] in stands:
            return spelled(stands[found[1]], ("", "")).decode("latin-1")
        return (PLAIN[found[1]] if found[1] in PLAIN else bytes([int(found[1][1:], 16)])).decode("latin-1")
    return re.sub(r"\\(x[0-9a-f]{2}|.)", escape, text.encode().decode("latin-1")).encode("latin-1")


class Row:
    def __init__(self, lines, with_):
        self.name, self.words, self.files, self.values, self.with_ = lines[0], [], [], {}, with_
        self.texts = {"input": [], "output": [], "part": [], "word": []}
        text = None
        for line in lines[1:]:
            key, _, rest = line.partition(" ")
            if key in HEADS:
                text = self.begin(key, rest)
            elif text is not None and line[:1] in ("|", "+"):
                text += spelled(line[1:], with_) + (b"\n" if line[0] == "|" else b"")
            elif text is not None and key in ("times", "counted", "again"):
                self.repeat(text, key, rest)
            else:
                self.values.setdefault(key, rest)

    def begin(self, key, rest):
        text = bytearray()
        if key == "words":
            self.words += [spelled(word, self.with_) for word in rest.split(" ")]
        elif key == "file":
            self.files.append((rest, text))
        else:
            self.texts[key].append(text)
            if key == "word":
                self.words.append(text)
        return text

    def repeat(self, text, key, rest):
        count, _, piece = rest.partition(" ")
        if key == "again":
            text *= int(count) + 1
        for number in range(int(count) if key != "again" else 0):
            text += spelled(piece, self.with_, number if key == "counted" else 0)

    def ends(self, serving):
        """The status that is wanted, and whether an output is as wanted."""
        output = b"".join(bytes(text) for text in self.texts["output"])
        if serving:
            output, status = re.fullmatch(rb"(.*?)status (\d+)\nfaults 0\n", output, re.S).groups()
            return int(status), lambda out: out == output
        parts = self.texts["part"]
        return int(spelled(self.values.get("status", "0"), self.with_)), lambda out: all(part in out for part in parts) if parts else out == output

    def is_for(self, serving):
        """Whether the program itself can do the row."""
        names = [name for name, _ in self.files]
        if any(key in self.values for key in ALONE) or any("/" in name or name in ("", "-", ".", "..") for name in names):
            return False
        if b"stop" in self.words[:1] and names:
            return False
        if any(b"\0" in word for word in self.words) or {b"--help", b"--version", b"-h", b"-V", b"help"} & {bytes(word) for word in self.words}:
            return False
        told = b"".join(bytes(text) for text in self.texts["output"])
        return not serving or (b"back\n" not in told and b"status " in told and b"serve" not in self.words[:1]) or b"status 2\n" in told


def rows_of(path):
    for text in open(path, encoding="utf-8").read().split("\nrow ")[1:]:
        lines = text.rstrip("\n").split("\n")
        lines = [line for line in lines if not line.startswith("#") or line.startswith(("|", "+"))]
        withs = [line[5:].partition(" => ")[::2] for line in lines if line.startswith("with ")]
        for with_ in withs or [("", "")]:
            yield Row(lines, with_)


def is_well(program, row, serving):
    with tempfile.TemporaryDirectory() as folder:
        for name, text in reversed(row.files):
            with open(os.path.join(folder, name), "wb") as out:
                out.write(text)
        status, fits = row.ends(serving)
        given = bytes(row.texts["input"][0]) if row.texts["input"] else b""
        ran = subprocess.run([program, *(bytes(word) for word in row.words)], cwd=folder, input=given, capture_output=True, timeout=120)
        if ran.returncode == status and fits(ran.stdout):
            return True
        print(f"not as wanted: {row.name} {row.with_[0]}\n  status {ran.returncode}, {ran.stdout[:200]!r}")
        return False


def main():
    if len(sys.argv) != 2:
        sys.exit(__doc__)
    program, good = os.path.abspath(sys.argv[1]), True
    for path in sorted(glob.glob(f"{DATA}/plain_checks/data/plain/*.txt") + glob.glob(f"{DATA}/serve_checks/data/serve/*.txt")):
        serving = "serve_checks" in path
        rows = list(rows_of(path))
        mine = [row for row in rows if row.is_for(serving)]
        well = sum(is_well(program, row, serving) for row in mine)
        good = good and well == len(mine)
        print(f"{os.path.basename(path)}: {well} of {len(mine)} come out as they say, and {len(rows) - len(mine)} are left out")
    return 0 if good else 1


if __name__ == "__main__":
    sys.exit(main())
