#!/usr/bin/env python3
"""Tries the configurations of examples/tls-in-front and examples/two-fronts, as they stand there, before the program itself.

    python3 vectors/fronts.py tls PROGRAM     nginx, haproxy and Apache end TLS before one front
    python3 vectors/fronts.py two PROGRAM     haproxy in TCP mode before two fronts, of which one is killed and one is stopped, under a load of sessions

Of a configuration only addresses, ports and the files of the certificate are replaced; what belongs around it (modules, events) is added.
All listens at 127.0.0.1. It needs openssl, and nginx, haproxy and apache2 of Debian, and ends with status 0 where all is as said.
"""
import contextlib
import os
import re
import socket
import ssl
import struct
import subprocess
import sys
import tempfile
import threading
import time

from member import packet, read_packet, start_member, whole_reply
from running import free_port, is_good, programs_in_a_folder, reply_of

EXAMPLES = os.path.join(os.path.dirname(os.path.abspath(__file__)), "..", "examples")
MODULES = ["mpm_event", "authz_core", "ssl", "headers", "proxy", "proxy_http", "socache_shmcb"]


def example(name):
    """A configuration of examples/."""
    with open(os.path.join(EXAMPLES, name), encoding="utf-8") as file:
        return file.read().rstrip("\n")


# A container that tells what it got.

class Fields:
    """The fields of a Forward Request, in order."""

    NAMES = ["accept", "accept-charset", "accept-encoding", "accept-language", "authorization", "connection", "content-type", "content-length",
             "cookie", "cookie2", "host", "pragma", "referer", "user-agent"]

    def __init__(self, payload):
        self.payload, self.at = payload, 2

    def number(self, size):
        self.at += size
        return int.from_bytes(self.payload[self.at - size:self.at], "big")

    def text(self):
        length = self.number(2)
        if length == 0xFFFF:
            return None
        self.at += length + 1
        return self.payload[self.at - length - 1:self.at - 1].decode("latin-1")

    def name(self):
        if self.payload[self.at] == 0xA0:
            return self.NAMES[self.number(2) - 0xA001]
        return self.text().lower()

    def told(self):
        """A line for each part that a servlet sees."""
        _, path, address, _, host = (self.text() for _ in range(5))
        port, _ = self.number(2), self.number(1)
        lines = [f"path {path}", f"client {address}", f"server {host}:{port}"]
        headers = [(self.name(), self.text()) for _ in range(self.number(2))]
        while self.payload[self.at] != 0xFF:
            code = self.number(1)
            name = self.text() if code == 10 else ""
            value = self.text()
            lines += [f"query {value}"] if code == 5 else [f"attribute {name}"] if code == 10 else []
        length = sum(int(value) for name, value in headers if name == "content-length")
        chunked = any(name == "transfer-encoding" for name, _ in headers)
        return lines + [f"{name}: {value}" for name, value in headers], length > 0 or chunked, chunked


def body_of(link, chunked):
    """The bytes of a body: the first piece comes unasked but where its length isn't known."""
    total, first = 0, not chunked
    while True:
        if not first:
            link.sendall(packet(b"\x06" + struct.pack(">H", 8000)))
        piece = read_packet(link)
        first = False
        if len(piece) < 2 or piece[:2] == b"\0\0":
            return total
        total += struct.unpack(">H", piece[:2])[0]


def told_reply(link, payload):
    """A page of what a request told."""
    lines, has_body, chunked = Fields(payload).told()
    if has_body:
        lines.append(f"body {body_of(link, chunked)}")
    return whole_reply("".join(line + "\n" for line in lines).encode("latin-1"))


# Servers that end TLS.

def nginx_words(programs, port, front, folder):
    site = example("tls-in-front/nginx.conf").replace("127.0.0.1:8080", f"127.0.0.1:{front}").replace("listen 443 ssl", f"listen 127.0.0.1:{port} ssl")
    site = site.replace("/etc/ssl/shop.pem", f"{folder}/cert.pem").replace("/etc/ssl/shop.key", f"{folder}/key.pem")
    paths = " ".join(f"{kind}_temp_path {folder}/{kind};" for kind in ("client_body", "proxy", "fastcgi", "uwsgi", "scgi"))
    around = f"user root; daemon off; pid {folder}/nginx.pid; error_log {folder}/nginx.log; events {{ }}\nhttp {{ access_log off; {paths}\n{site}\n}}\n"
    return ["nginx", "-p", folder, "-c", programs.write("nginx.conf", around)]


def haproxy_words(programs, port, front, folder):
    site = example("tls-in-front/haproxy.cfg").replace("127.0.0.1:8080", f"127.0.0.1:{front}").replace("bind :443 ssl", f"bind 127.0.0.1:{port} ssl")
    return ["haproxy", "-db", "-f", programs.write("haproxy.cfg", site.replace("/etc/ssl/shop-with-key.pem", f"{folder}/both.pem") + "\n")]


def apache_words(programs, port, front, folder):
    site = example("tls-in-front/apache.conf").replace("127.0.0.1:8080", f"127.0.0.1:{front}").replace("*:443", f"127.0.0.1:{port}")
    site = site.replace("/etc/ssl/shop.pem", f"{folder}/cert.pem").replace("/etc/ssl/shop.key", f"{folder}/key.pem")
    modules = "".join(f"LoadModule {name}_module /usr/lib/apache2/modules/mod_{name}.so\n" for name in MODULES)
    around = f"ServerRoot /etc/apache2\nPidFile {folder}/apache.pid\nDefaultRuntimeDir {folder}\nErrorLog {folder}/apache.log\n"
    around += f"ServerName localhost\nUser www-data\nGroup www-data\n{modules}Listen 127.0.0.1:{port}\n{site}\n"
    return ["apache2", "-X", "-f", programs.write("apache.conf", around)]


def tls_link(port):
    context = ssl.create_default_context()
    context.check_hostname, context.verify_mode = False, ssl.CERT_NONE
    return context.wrap_socket(socket.create_connection(("127.0.0.1", port), 20), server_hostname="shop.example.org")


HEAD = "{} HTTP/1.1\r\nHost: shop.example.org\r\nX-Forwarded-For: 192.0.2.99\r\nX-Forwarded-Proto: http\r\n{}\r\n"
STATUS_PATHS = ["/jkstatus", "//jkstatus", "/;x/jkstatus", "/%6akstatus", "/jkstatus;x=1", "/jkstatus?cmd=list", "/x/../jkstatus", "/./jkstatus",
                "/%6Ak%73tatus?w=app", "/jkstatu%73", "/jkstatus/", "/x/..;/jkstatus"]


def wrong_of(port):
    """What isn't as said of a server with TLS before the front."""
    wrong = []

    def want(case, condition, got):
        if not condition:
            wrong.append(f"{case}: {got}")

    with tls_link(port) as link:
        for path, query in (("/shop/a%20b/c;jsessionid=1.x", "q=1%2F2&r=a+b"), ("/shop/%7Euser/", ""), ("/shop/", "u=http://x/y?z")):
            link.sendall(HEAD.format(f"GET {path}{'?' + query if query else ''}", "").encode())
            status, page = reply_of(link)
            lines = page.splitlines()
            want(f"GET {path}", status == 200 and f"path {path}" in lines and (not query or f"query {query}" in lines), (status, page))
            want("the client", [line for line in lines if line.startswith("x-forwarded-for")] == ["x-forwarded-for: 127.0.0.1"], page)
            want("https", [line for line in lines if line.startswith("x-forwarded-proto")] == ["x-forwarded-proto: https"], page)
            want("the host", "host: shop.example.org" in lines, page)
        for length in (1, 100_000, 3_000_000):
            link.sendall(HEAD.format("POST /shop/", f"Content-Length: {length}\r\n").encode() + b"x" * length)
            status, page = reply_of(link)
            want(f"POST of {length}", status == 200 and f"body {length}" in page.splitlines(), (status, page[-200:]))
        link.sendall(HEAD.format("POST /shop/", "Transfer-Encoding: chunked\r\n").encode() + b"5\r\nhello\r\n7\r\n, world\r\n0\r\n\r\n")
        status, page = reply_of(link)
        want("POST of chunks", status == 200 and "body 12" in page.splitlines(), (status, page))
        link.sendall(HEAD.format("GET /shop/a%2Fb", "").encode())
        want("an escaped slash is refused by the front", reply_of(link)[0] == 400, "another status")
    for path in STATUS_PATHS:
        with tls_link(port) as link:
            link.sendall(HEAD.format(f"GET {path}", "Connection: close\r\n").encode())
            status, page = reply_of(link)
            want(f"GET {path}", "jk status" not in page, (status, page))
    return wrong


def try_tls(program, programs, folder):
    make = ["openssl", "req", "-x509", "-newkey", "rsa:2048", "-nodes", "-days", "2", "-subj", "/CN=shop.example.org", "-keyout", f"{folder}/key.pem",
            "-out", f"{folder}/cert.pem"]
    subprocess.run(make, check=True, capture_output=True)
    programs.write("both.pem", open(f"{folder}/cert.pem", encoding="utf-8").read() + open(f"{folder}/key.pem", encoding="utf-8").read())
    member, front = start_member(told_reply), free_port()
    workers = programs.write("w", f"worker.list=app,status\nworker.app.port={member}\nworker.app.host=127.0.0.1\nworker.status.type=status\n")
    programs.start(front, program, "serve", workers, programs.write("m", "/*=app\n/jkstatus=status\n"), f"127.0.0.1:{front}", "8")
    count = 0
    for name, words_of in (("nginx", nginx_words), ("haproxy", haproxy_words), ("apache", apache_words)):
        port = free_port()
        programs.start(port, *words_of(programs, port, front, folder))
        wrong = wrong_of(port)
        count += len(wrong)
        print(f"{name}: {'as said' if not wrong else ''}", *wrong, sep="\n    ", flush=True)
    return count == 0


# Two fronts.

class Client(threading.Thread):
    """A client of one session, which asks again and again who serves it. Nothing is sent a second time by itself."""

    def __init__(self, port, stop):
        super().__init__(daemon=True)
        self.port, self.stop, self.link, self.cookie, self.redial = port, stop, None, "", False
        self.answered, self.lost, self.moved, self.begun, self.got = 0, [], 0, 0, b""

    def ask(self, path):
        if self.redial and self.link:
            self.link.close()
            self.link, self.redial = None, False
        if self.link is None:
            self.link = socket.create_connection(("127.0.0.1", self.port), 20)
        cookie = f"Cookie: JSESSIONID={self.cookie}\r\n" if self.cookie else ""
        self.link.sendall(f"GET {path} HTTP/1.1\r\nHost: shop\r\n{cookie}\r\n".encode())

    def read(self):
        """A whole reply."""
        self.got = b""
        while b"\r\n\r\n" not in self.got:
            self.more()
        head, body = self.got.split(b"\r\n\r\n", 1)
        length = int(re.search(rb"(?i)content-length: (\d+)", head)[1])
        while len(body) < length:
            self.more()
            body = self.got.split(b"\r\n\r\n", 1)[1]
        if re.search(rb"(?i)connection: close", head):
            self.link.close()
            self.link = None
        return int(head.split()[1]), head.decode(), body.decode().strip()

    def more(self):
        part = self.link.recv(65536)
        if not part:
            raise EOFError
        self.got += part

    def lose(self, why):
        self.lost.append((self.begun, why))
        if self.link:
            self.link.close()
        self.link = None

    def run(self):
        while not self.stop.is_set():
            time.sleep(0.01)
            self.begun, self.got = time.monotonic(), b""
            try:
                self.ask("/who" if self.cookie else "/session")
                status, head, body = self.read()
            except (OSError, EOFError) as error:
                self.lose("a reply was cut" if self.got else f"no byte came: {type(error).__name__}")
                continue
            if status != 200:
                self.lose(f"status {status}")
            elif not self.cookie:
                self.cookie = re.search(r"JSESSIONID=([^;\r]*)", head)[1]
            else:
                self.answered += 1
                self.moved += body != self.cookie.split(".")[1]


def links_at(port):
    """How many links stand at a port."""
    with open("/proc/net/tcp", encoding="ascii") as table:
        return sum(words[1].endswith(f":{port:04X}") and words[3] == "01" for words in map(str.split, table))


def start_front(programs, program, name, port, folder):
    journal = tempfile.mkdtemp(prefix=f"{name}-", dir=folder)
    words = ["serve", "--control", f"{folder}/{name}.sock", "--journal", journal, f"{folder}/w", f"{folder}/m", f"127.0.0.1:{port}", "16"]
    with contextlib.suppress(FileNotFoundError):
        os.remove(f"{folder}/{name}.sock")
    return programs.start(port, program, *words), journal


def is_well(name, clients, start, gone, links):
    """Prints what was lost of the requests that were begun since a moment, and whether none of them was begun once the front
    was gone and the balancer had half a second to see it."""
    lost = [(begun, why) for client in clients for begun, why in client.lost if begun >= start - 1]
    late = sum(begun > gone + 0.5 for begun, _ in lost)
    losers = sum(any(begun >= start - 1 for begun, _ in client.lost) for client in clients)
    kinds = ", ".join(sorted({why for _, why in lost})) or "none"
    print(f"{name}: {links} of {len(clients)} clients were there; {len(lost)} requests of {losers} clients were lost ({kinds}), {late} of them begun"
          f" half a second after it was gone; it took {gone - start:.2f} s to go", flush=True)
    return late == 0 and losers <= links


def write_site(programs, program):
    """Three containers, and the site of both fronts."""
    ports = {name: free_port() for name in ("n1", "n2", "n3")}
    for name, port in ports.items():
        programs.start(port, program, "container", name, f"127.0.0.1:{port}", "40")
    members = "".join(f"worker.{name}.host=127.0.0.1\nworker.{name}.port={port}\nworker.{name}.ping_mode=CP\n" for name, port in ports.items())
    programs.write("w", f"worker.list=lb\nworker.lb.type=lb\nworker.lb.balance_workers=n1,n2,n3\n{members}")
    programs.write("m", "/*=lb\n")


def try_two(program, programs, folder):
    write_site(programs, program)
    one, two, door = (free_port() for _ in range(3))
    first, _ = start_front(programs, program, "one", one, folder)
    _, kept = start_front(programs, program, "two", two, folder)
    site = example("two-fronts/haproxy.cfg").replace("bind :80", f"bind 127.0.0.1:{door}")
    site = site.replace("192.0.2.11:8080", f"127.0.0.1:{one}").replace("192.0.2.12:8080", f"127.0.0.1:{two}")
    programs.start(door, "haproxy", "-db", "-f", programs.write("two.cfg", site + "\n"))
    stop = threading.Event()
    clients = [Client(door, stop) for _ in range(24)]
    for client in clients:
        client.start()
    time.sleep(4)
    start, links = time.monotonic(), links_at(one)
    good = not any(client.lost for client in clients)
    first.kill()
    first.wait()
    gone = time.monotonic()
    time.sleep(6)
    good &= is_well("one is killed", clients, start, gone, links)
    start_front(programs, program, "one", one, folder)
    time.sleep(5)
    for client in clients:
        client.redial = True
    time.sleep(3)
    start, links = time.monotonic(), links_at(two)
    status = subprocess.run([program, "stop", f"{folder}/two.sock"], check=False).returncode
    gone = time.monotonic()
    time.sleep(6)
    good &= is_well(f"the other is stopped, status {status}", clients, start, gone, links) and status == 0
    stop.set()
    for client in clients:
        client.join(20)
    moved, routes = sum(client.moved for client in clients), {client.cookie.split(".")[1] for client in clients}
    sound, said = is_good(program, kept)
    print(f"{sum(client.answered for client in clients)} requests of {len(clients)} sessions over {len(routes)} containers were answered,"
          f" {moved} by another container than their session's; journal of the front that was stopped: {said}")
    return good and moved == 0 and sound


def main():
    tries = {"tls": try_tls, "two": try_two}
    if len(sys.argv) != 3 or sys.argv[1] not in tries:
        sys.exit(__doc__)
    with programs_in_a_folder() as programs:
        good = tries[sys.argv[1]](os.path.abspath(sys.argv[2]), programs, programs.folder)
    sys.exit(0 if good else 1)


main()
