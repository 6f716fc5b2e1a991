#!/usr/bin/env python3
"""Tries what goes wrong around a front, with the program itself: members that stop or say nothing, refused bodies, stops, full disks.

    python3 vectors/trials.py PROGRAM [TRIAL ..]

Without a TRIAL all of them, some four minutes: stopped, silent, hung, restarted, strays, refused, pipelined, stops, grace, killed,
effects, words, descriptors, disk. Each prints what came, and whether it is as docs/MEASURED.md and docs/OPERATING.md say. All listens at 127.0.0.1; `disk` mounts a small
tmpfs where it may, as root. Status: 0 all was as said; 1 else.
"""
import collections
import os
import shutil
import signal
import socket
import subprocess
import sys
import threading
import time

from member import CPONG, packet, start_member, whole_reply
from running import free_port, is_good, programs_in_a_folder, reply_of

SCRIPT = os.path.join(os.path.dirname(os.path.abspath(__file__)), "..", "examples", "jkd-serve.sh")
PINGED = "worker.@.ping_mode=A\nworker.@.ping_timeout=500\nworker.@.socket_connect_timeout=500\n"


class Site:
    """A program, the files of a site, and what runs of it."""

    def __init__(self, program, programs):
        self.program, self.programs, self.folder, self.doors = program, programs, programs.folder, []

    def write(self, ports, each="", more="", listed="lb", rules="/*=lb\n"):
        """Two files of a balancer lb, whose members listen at these ports. `@` in `each` stands for a member's name."""
        text = f"worker.list={listed}\nworker.lb.type=lb\nworker.lb.balance_workers={','.join(f'n{n}' for n in range(len(ports)))}\n{more}"
        for number, port in enumerate(ports):
            text += f"worker.n{number}.host=127.0.0.1\nworker.n{number}.port={port}\n" + each.replace("@", f"n{number}")
        return self.programs.write("workers", text), self.programs.write("map", rules)

    def container(self, port, threads=64):
        return self.programs.start(port, self.program, "container", f"n{port}", f"127.0.0.1:{port}", str(threads))

    def serve(self, files, *options, threads=64, before=()):
        """A front, and its port."""
        port = free_port()
        return self.programs.start(port, *before, self.program, "serve", *options, *files, f"127.0.0.1:{port}", str(threads)), port


def dial(port, seconds=30):
    return socket.create_connection(("127.0.0.1", port), seconds)


def send(link, path, body=None, more=""):
    length = "" if body is None else f"Content-Length: {len(body)}\r\n"
    link.sendall(f"{'GET' if body is None else 'POST'} {path} HTTP/1.1\r\nHost: h\r\n{length}{more}\r\n".encode() + (body or b""))


def ask(port, path="/who", body=None, link=None):
    """The status of a reply, or what failed, and the seconds that it took."""
    begun, own = time.monotonic(), link is None
    try:
        link = link or dial(port)
        send(link, path, body)
        came = reply_of(link)[0]
    except (OSError, EOFError) as error:
        came = f"{type(error).__name__} {error}"
    if own and link:
        link.close()
    return came, time.monotonic() - begun


def told(counts):
    return ", ".join(f"{count} of {came}" for came, count in sorted(counts.items(), key=str))


def ask_on(port, path, came, slow, until, pause=0.0):
    """Asks over one link after the other, until a moment or until a link can't be had."""
    while not until.is_set():
        try:
            link = dial(port)
        except OSError:
            came["no link"] += 1
            return
        with link:
            for _ in range(50):
                status, took = ask(port, path, link=link)
                came[status] += 1
                slow.append(took)
                if status != 200 or until.is_set():
                    break
                time.sleep(pause)


def load(port, clients, path="/who", pause=0.0):
    """Clients that ask until the event is set; what came, and how long each took."""
    came, slow, until = collections.Counter(), [], threading.Event()
    threads = [threading.Thread(target=ask_on, args=(port, path, came, slow, until, pause), daemon=True) for _ in range(clients)]
    for thread in threads:
        thread.start()

    def end():
        until.set()
        for thread in threads:
            thread.join(40)
        return came, sorted(slow)
    return end


# The trials.

def try_stopped(site):
    """One of two members is stopped for 6 seconds under 64 clients."""
    ports = [free_port(), free_port()]
    first, _ = site.container(ports[0]), site.container(ports[1])
    each = PINGED + "worker.@.reply_timeout=1000\n"
    _, port = site.serve(site.write(ports, each, "worker.lb.recover_time=5\n"))
    end = load(port, 64, pause=0.01)
    time.sleep(1)
    first.send_signal(signal.SIGSTOP)
    time.sleep(6)
    first.send_signal(signal.SIGCONT)
    time.sleep(1.5)
    came, slow = end()
    print(f"{told(came)}; the slowest took {slow[-1]:.2f} s, the 99th hundredth {slow[len(slow) * 99 // 100]:.3f} s")
    return set(came) == {200} and slow[-1] < 3


def mute(_link, _payload):
    time.sleep(1000)
    return b""


def silent_port(site, kind):
    """A member that takes a link and says nothing, answers CPing alone, or has a full queue."""
    if kind == "pongs alone":
        return start_member(mute)
    door = socket.create_server(("127.0.0.1", 0), backlog=0 if kind == "full" else 128)
    site.doors.append(door)
    for _ in range(4 if kind == "full" else 0):
        link = socket.socket()
        link.setblocking(False)
        link.connect_ex(door.getsockname())
        site.doors.append(link)
    return door.getsockname()[1]


def try_silent(site):
    """A member that says nothing, alone and beside one that is well, with limits of 600 ms."""
    limits = "worker.@.ping_mode=A\nworker.@.ping_timeout=600\nworker.@.reply_timeout=600\nworker.@.socket_connect_timeout=600\n"
    good = True
    for kind in ("mute", "pongs alone", "full"):
        for beside in (False, True):
            ports = [silent_port(site, kind)] + ([start_member(lambda _link, _payload: whole_reply(b"well"))] if beside else [])
            front, port = site.serve(site.write(ports, limits), threads=8)
            asked = [ask(port) for _ in range(3)] + [ask(port, "/x", b"x" * 100)]
            front.kill()
            statuses, slowest = {status for status, _ in asked}, max(took for _, took in asked)
            good &= slowest < 4 and statuses <= ({200} if beside else {502, 503})
            print(f"{kind}{' beside a good one' if beside else ''}: {statuses}, the slowest took {slowest:.2f} s")
    return good


def try_hung(site):
    """A look at the idle links, one of each member, with and without a CPong: a link that hangs costs its limit of 500 ms and no more."""
    good = True
    for members in (1, 3):
        for pong in (packet(CPONG), b""):
            links = set()

            def answer(link, _payload, links=links):
                links.add(link)
                return whole_reply(b"well")
            ports = [start_member(answer, pong) for _ in range(members)]
            front, port = site.serve(site.write(ports, "worker.@.ping_mode=I\nworker.@.ping_timeout=500\n"), "--watch", "3", threads=1)
            came = [ask(port) for _ in range(members)]
            time.sleep(3.2)
            # The look comes after the first of these, and the second waits for it.
            came += [ask(port), ask(port)]
            front.kill()
            took, limits, dialled = came[-1][1], 0 if pong else members * 0.5, members + (0 if pong else 1)
            good &= {status for status, _ in came} == {200} and limits - 0.1 < took < limits + 0.4 and len(links) == dialled
            print(f"{members} of {members} {'pong' if pong else 'hang'}: the look took {took:.2f} s, {len(links)} links were dialled")
    return good


def try_restarted(site):
    """Both containers are restarted before each second request: POSTs with recovery_options 3, GETs with 1."""
    good = True
    for option, path, body in ((3, "/echo", b"x" * 100), (1, "/who", None)):
        ports = [free_port(), free_port()]
        running = [site.container(port, 4) for port in ports]
        _, port = site.serve(site.write(ports, f"worker.@.recovery_options={option}\n"), threads=4)
        came = collections.Counter()
        with dial(port) as link:
            for number in range(100):
                if number % 2 == 0:
                    for one in running:
                        one.kill()
                        one.wait()
                    running = [site.container(port, 4) for port in ports]
                came[ask(port, path, body, link)[0]] += 1
        print(f"recovery_options={option}, 100 of {'GET' if body is None else 'POST'}: {told(came)}")
        good &= set(came) == {200}
    return good


def try_strays(site):
    """A member sends a second reply in the packet of the first: it reaches nobody."""
    port = site.serve(site.write([start_member(lambda _link, _payload: whole_reply(b"one") + whole_reply(b"stray"))]), threads=4)[1]
    bodies = []
    with dial(port) as link:
        for number in range(20):
            with dial(port) as own:
                chosen = link if number % 2 else own
                send(chosen, "/who")
                bodies.append(reply_of(chosen)[1])
    print(f"{bodies.count('one')} of {len(bodies)} replies are the first of their packet")
    return bodies == ["one"] * 20


def post_beside(link, path, more, size, announced):
    """Posts, while the reply is read: the status that came. A body without an announced length is sent all the same."""
    def pump():
        try:
            length = "" if announced is None else f"Content-Length: {announced}\r\n"
            link.sendall(f"POST {path} HTTP/1.1\r\nHost: h\r\n{length}{more}\r\n".encode())
            for _ in range(size // 65536):
                link.sendall(b"x" * 65536)
        except OSError:
            pass
    pumping = threading.Thread(target=pump)
    pumping.start()
    try:
        came = reply_of(link)[0]
    except (OSError, EOFError) as error:
        came = f"{type(error).__name__} {error}"
    link.close()
    pumping.join(30)
    return came


def try_refused(site):
    """5 MB posted to what answers 400, 404, 413, 501 and 503: the reply arrives."""
    container = free_port()
    site.container(container)
    dead = "worker.dead.type=lb\nworker.dead.balance_workers=gone\nworker.gone.host=127.0.0.1\nworker.gone.port=1\n"
    port = site.serve(site.write([container], "", dead, "lb,dead", "/app/*=lb\n/dead/*=dead\n"), threads=8)[1]
    cases = [(400, "/app/%2F", "", 5_000_000), (404, "/none", "", 5_000_000), (413, "/app/x", "", 1 << 41), (503, "/dead/x", "", 5_000_000)]
    cases += [(501, "/app/x", "Transfer-Encoding: gzip, chunked\r\n", None)]
    wrong = []
    for status, path, more, announced in cases:
        for close in ("", "Connection: close\r\n"):
            for _ in range(3):
                came = post_beside(dial(port, 10), path, more + close, 5_000_000, announced)
                if came != status:
                    wrong.append((status, close.strip(), came))
    print(f"{len(cases) * 6 - len(wrong)} of {len(cases) * 6} replies arrived", *wrong, sep="\n    ")
    return not wrong


def try_pipelined(site):
    """3,000 pipelined GETs: 1,000 whole replies, the last with Connection: close, then the end."""
    container = free_port()
    site.container(container)
    port = site.serve(site.write([container]), threads=8)[1]
    with dial(port) as link:
        pumping = threading.Thread(target=send_all, args=(link, b"GET /who HTTP/1.1\r\nHost: h\r\n\r\n" * 3000), daemon=True)
        pumping.start()
        came, end = b"", "the end"
        try:
            while part := link.recv(65536):
                came += part
        except OSError as error:
            end = type(error).__name__
    replies = came.split(b"HTTP/1.1 ")[1:]
    closing = [number for number, reply in enumerate(replies, 1) if b"\r\nConnection: close\r\n" in reply]
    print(f"{len(replies)} replies, with Connection: close the {closing}, then {end}")
    return len(replies) == 1000 and closing == [1000] and all(reply.startswith(b"200 ") for reply in replies) and end == "the end"


def send_all(link, data):
    try:
        link.sendall(data)
    except OSError:
        pass


def try_stops(site):
    """`jkd stop`, and TERM and INT to examples/jkd-serve.sh, under 32 clients: no reply is cut, the journal is good."""
    good = True
    for how in ("stop", "TERM", "INT"):
        ports = [free_port(), free_port()]
        for port in ports:
            site.container(port)
        journal, control, files = f"{site.folder}/journal-{how}", f"{site.folder}/control-{how}", site.write(ports)
        os.mkdir(journal)
        words = ["--journal", journal, "--grace", "5"]
        if how == "stop":
            front, port = site.serve(files, *words, "--control", control)
        else:
            port = free_port()
            front = site.programs.start(port, "sh", SCRIPT, site.program, *words, *files, f"127.0.0.1:{port}", "64", start_new_session=True)
        end = load(port, 32, "/size/5000")
        time.sleep(2)
        begun = time.monotonic()
        if how == "stop":
            subprocess.run([site.program, "stop", control], timeout=30, check=False)
        else:
            front.send_signal(getattr(signal, f"SIG{how}"))
        status, took = front.wait(30), time.monotonic() - begun
        came, _ = end()
        kept = journal if how == "stop" else f"{journal}/{os.listdir(journal)[0]}"
        sound, said = is_good(site.program, kept)
        print(f"{how}: status {status} after {took:.2f} s; {told(came)}; the journal: {said}")
        good &= status == 0 and sound and not any("cut" in str(one) for one in came)
    return good


def try_grace(site):
    """A request that outlasts the grace of a stop gets an answer that says so, and not the end of its link."""
    control = f"{site.folder}/control"
    _, port = site.serve(site.write([start_member(mute)]), "--control", control, "--grace", "1", threads=4)
    answers = []
    asking = threading.Thread(target=lambda: answers.append(ask(port)))
    asking.start()
    time.sleep(0.5)
    stopped = subprocess.run([site.program, "stop", control], timeout=30, check=False).returncode
    asking.join()
    print(f"stop: {stopped}; the request: {answers[0][0]} after {answers[0][1]:.2f} s")
    return stopped == 0 and str(answers[0][0]) in ("502", "503")


def parts_of(journal):
    """Of the parts of lb's journal in order: the first number, the count of entries, and whether it is whole."""
    for name in sorted(name for name in os.listdir(journal) if name.startswith("lb-")):
        lines = open(f"{journal}/{name}", "rb").read().split(b"\n")
        yield int(name[3:-4]), sum(line.startswith(b"e ") for line in lines), any(line.startswith(b"end ") for line in lines)


def try_killed(site):
    """A front that is killed under 64 clients, ten times: how many entries are lost, `--cut 4` and `--cut 10` in turn, and whether any before one that is kept."""
    ports = [free_port(), free_port()]
    for port in ports:
        site.container(port)
    gaps, most = 0, {4: 0, 10: 0}
    for number in range(10):
        journal, bound = f"{site.folder}/killed{number}", (4, 10)[number % 2]
        os.mkdir(journal)
        front, port = site.serve(site.write(ports), "--journal", journal, "--cut", str(bound))
        end = load(port, 64)
        time.sleep(0.5)
        front.kill()
        replies = end()[0][200]
        kept = 0
        for first, count, whole in parts_of(journal):
            gaps += first != kept
            kept += count if whole else 0
        # The Return of a reply that came may be missing.
        most[bound] = max(most[bound], 2 * replies - 64 - kept)
    print(f"gaps: {gaps}; lost of what clients were told, where so many may be: {most}")
    return gaps == 0 and all(lost <= bound for bound, lost in most.items())


def try_effects(site):
    """A front says at its start what of its files has no effect, each line after `jkd: `; `config` says the same lines."""
    good = True
    for rules, of_map in (("/*=lb;active=n0\n", ", line 1: active is not supported in a rule and has no effect"), ("", " has no rule, so each request gets 404")):
        workers, rules = site.write([free_port()], "worker.@.css=1\n", rules=rules)
        lines = [f"{workers}, line 6: worker.n0.css is not supported and has no effect\n", f"{rules}{of_map}\n"]
        by_config = subprocess.run([site.program, "config", workers, rules], capture_output=True, text=True, check=False).stderr
        before = len(site.programs.said())
        front, _ = site.serve((workers, rules), threads=1)
        by_serve = site.programs.said()[before:]
        front.kill()
        print("config:", by_config.strip(), "serve:", by_serve.strip(), sep="\n    ")
        good &= by_config == "".join(lines) and by_serve.startswith("".join(f"jkd: {line}" for line in lines))
    return good


def serve_by_hand(site, files, address, *options):
    """The status and the words of a front that can't serve."""
    ended = subprocess.run([site.program, "serve", *options, *files, address, "2"], stdin=subprocess.DEVNULL, capture_output=True, text=True, timeout=30, check=False)
    return ended.returncode, ended.stderr


def try_words(site):
    """What can't be is said by its name, and nothing before it: an output, an address, a socket's path, a directory of logs, a member of HTTP."""
    files, folder, good = site.write([free_port()]), site.folder, True
    with open("/dev/full", "wb") as full:
        ended = subprocess.run([site.program, "config", *files], stdout=full, stderr=subprocess.PIPE, text=True, check=False)
    print("an output that is full:", ended.returncode, ended.stderr.strip())
    good &= (ended.returncode, ended.stderr) == (5, "jkd: standard output can't be written\n")
    for address in (":8080", "*:8080"):
        status, said = serve_by_hand(site, files, address)
        print(f"{address}: {status} {said.strip()}")
        good &= status == 4 and said.startswith("jkd: an address is HOST:PORT") and said.count("\n") == 1
    own = site.programs.write("own", "somebody's\n")
    status, said = serve_by_hand(site, files, "127.0.0.1:0", "--control", own)
    print(f"a file at --control: {status} {said.strip()}")
    good &= status == 4 and said.startswith(f"jkd: can't be asked to stop at {own}: ") and os.path.isfile(own)
    status, said = serve_by_hand(site, files, "127.0.0.1:0", "--log", f"{folder}/none")
    print(f"no directory of logs: {status} {said.strip()}")
    good &= status == 4 and said.startswith(f"jkd: can't write a log in {folder}/none: ") and said.count("\n") == 1
    strange = start_member(lambda _link, _payload: b"HTTP/1.1 400 Bad Request\r\n\r\n")
    _, port = site.serve(site.write([strange]), threads=2)
    status, _ = ask(port)
    print(f"a member that speaks HTTP: {status}; {site.programs.said().splitlines()[-1]}")
    return good and str(status) in ("502", "503") and f"n0 at 127.0.0.1:{strange} failed: it doesn't speak AJP" in site.programs.said()


def try_descriptors(site):
    """200 clients where few descriptors are allowed: no worker ends, and afterwards all are served."""
    container, good = free_port(), True
    site.container(container)
    for count in (30, 90, 120):
        front, port = site.serve(site.write([container]), threads=4, before=["sh", "-c", f'ulimit -n {count}; exec "$@"', "sh"])
        links = [dial(port) for _ in range(200)]
        time.sleep(1)
        for link in links:
            link.close()
        time.sleep(0.5)
        came = collections.Counter(ask(port)[0] for _ in range(10))
        print(f"{count} descriptors: afterwards {told(came)}{'' if front.poll() is None else ', but the front ended'}")
        good &= set(came) == {200} and front.poll() is None
        front.kill()
    return good


def try_shelf(site, name, break_it, mend=None):
    """A journal whose directory fails: what clients get, how the front ends, and whether what was kept is good."""
    container, journal = free_port(), f"{site.folder}/{name}"
    site.container(container)
    os.makedirs(journal, exist_ok=True)
    front, port = site.serve(site.write([container]), "--journal", journal, "--cut", "50", threads=2)
    before = collections.Counter(ask(port)[0] for _ in range(5))
    break_it(journal)
    began, said, came = time.monotonic(), len(site.programs.said()), collections.Counter()
    while front.poll() is None and time.monotonic() - began < 100:
        came[ask(port)[0]] += 1
        if mend and time.monotonic() - began > 3:
            mend(journal)
            mend = None
        if time.monotonic() - began > 10 and mend is None and name == "mended":
            break
        time.sleep(0.02)
    lines = site.programs.said()[said:].strip().split("\n")
    ended = f"status {front.poll()} after {time.monotonic() - began:.0f} s"
    print(f"{name}: before {told(before)}; then {told(came)}; {ended}", *lines[:3], "..", *lines[-3:], sep="\n    ")
    front.kill()


def fill(journal):
    with open(f"{journal}/full", "wb", buffering=0) as file:
        try:
            while file.write(b"x" * 4096):
                pass
        except OSError:
            pass


def try_disk(site):
    """A journal's directory that goes and comes back, that goes, and that is full. What comes is printed, and judged by its reader."""
    try_shelf(site, "mended", shutil.rmtree, os.mkdir)
    try_shelf(site, "gone", shutil.rmtree)
    full = f"{site.folder}/full"
    os.mkdir(full)
    if subprocess.run(["mount", "-t", "tmpfs", "-o", "size=64k", "tmpfs", full], check=False).returncode == 0:
        try:
            try_shelf(site, "full", fill)
            print("    what was kept:", is_good(site.program, full)[1])
        finally:
            subprocess.run(["umount", full], check=False)
    return True


TRIALS = {name[4:]: trial for name, trial in list(globals().items()) if name.startswith("try_") and name != "try_shelf"}


def main():
    chosen = sys.argv[2:] or list(TRIALS)
    if len(sys.argv) < 2 or not all(name in TRIALS for name in chosen):
        sys.exit(__doc__)
    good = True
    for name in chosen:
        with programs_in_a_folder() as programs:
            print(f"== {TRIALS[name].__doc__}", flush=True)
            if not TRIALS[name](Site(os.path.abspath(sys.argv[1]), programs)):
                good = False
                print(f"{name}: NOT as said", flush=True)
    sys.exit(0 if good else 1)


main()
