"""Programs that a script starts, which end with it, and the replies of a front, as a client reads them."""
import contextlib
import os
import signal
import socket
import subprocess
import sys
import tempfile
import time


def free_port():
    with socket.create_server(("127.0.0.1", 0)) as door:
        return door.getsockname()[1]


def await_port(port, running):
    for _ in range(600):
        if running.poll() is not None:
            sys.exit(f"{running.args} ended with {running.returncode}")
        with contextlib.suppress(OSError), socket.create_connection(("127.0.0.1", port), 1):
            return
        time.sleep(0.1)
    sys.exit(f"{running.args} doesn't listen at {port}")


class Programs:
    """The programs that run; all of them are ended at the end. What they say goes to the file `said` of the folder."""

    def __init__(self, folder):
        self.folder, self.running = folder, []

    def start(self, port, *words, **more):
        with open(f"{self.folder}/said", "ab") as said:
            running = subprocess.Popen(words, stdin=subprocess.DEVNULL, stdout=said, stderr=said, **more)
        self.running.append(running)
        await_port(port, running)
        return running

    def write(self, name, text):
        with open(f"{self.folder}/{name}", "w", encoding="utf-8") as file:
            file.write(text)
        return f"{self.folder}/{name}"

    def said(self):
        if not os.path.exists(f"{self.folder}/said"):
            return ""
        with open(f"{self.folder}/said", encoding="latin-1") as file:
            return file.read()

    def end(self):
        for running in reversed(self.running):
            running.terminate()
        for running in self.running:
            try:
                running.wait(10)
            except subprocess.TimeoutExpired:
                running.kill()
                running.wait()
        self.running = []


@contextlib.contextmanager
def programs_in_a_folder():
    """A folder that everybody may read, and programs that end with it, also where TERM ends the script."""
    signal.signal(signal.SIGTERM, lambda *_: sys.exit("ended by TERM"))
    with tempfile.TemporaryDirectory() as folder:
        os.chmod(folder, 0o755)
        programs = Programs(folder)
        try:
            yield programs
        finally:
            programs.end()
            if "-v" in os.environ.get("SHOW", ""):
                print(programs.said())


def is_good(program, journal):
    """Whether the journal of `lb` that a front left in a directory is good by its rules, and what `check` says of it."""
    parts = sorted(name for name in os.listdir(journal) if name.startswith("lb-"))
    whole = b"".join(open(f"{journal}/{name}", "rb").read() for name in parts)
    done = subprocess.run([program, "check"], input=whole, capture_output=True, check=False)
    return done.returncode == 0, done.stdout.decode().strip()


def reply_of(link):
    """The status and the body of a reply with a length or of chunks. EOFError where its end is missing."""
    with link.makefile("rb") as stream:
        first = stream.readline().split()
        if len(first) < 2:
            raise EOFError("no byte came")
        fields = {}
        for line in iter(stream.readline, b"\r\n"):
            if not line:
                raise EOFError("a head was cut")
            name, value = line.split(b":", 1)
            fields[name.lower()] = value.strip()
        body = body_of(stream, fields)
    return int(first[1]), body.decode("latin-1")


def body_of(stream, fields):
    if b"chunked" not in fields.get(b"transfer-encoding", b""):
        length = int(fields.get(b"content-length", 0))
        body = stream.read(length)
        if len(body) < length:
            raise EOFError("a body was cut")
        return body
    body = b""
    while line := stream.readline():
        size = int(line.split(b";")[0], 16)
        body += stream.read(size)
        stream.readline()
        if not size:
            return body
    raise EOFError("a body was cut")
