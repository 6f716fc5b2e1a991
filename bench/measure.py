#!/usr/bin/env python3
"""Measures a program that was built, on this machine alone, and prints the figures that docs/MEASURED.md has.

    python3 bench/measure.py PROGRAM [PART ..]

    waiting   64 busy clients alone, beside 10,000 idle ones, and beside 5,000 heads of a byte a second
    fronts    a rate at 1, 8 and 64 connections: serve, Apache with mod_jk and nginx, before two `jkd container` and two Tomcats
    calls     the system's calls for a request
    memory    resident memory after a million mixed requests, and after another
    log       the rate with --log, beside the rate without

Without a PART all of them, some seven minutes. It needs a C compiler, `calls` strace, and `fronts` nginx, apache2, libapache2-mod-jk
and tomcat10 of Debian; of those, what isn't there is left out. SECONDS and ROUNDS in the environment say how long a run is and how
many runs of each take turns: 5 (3 for `fronts`) and 3. Let the machine do nothing else meanwhile.
"""
import os
import re
import resource
import shutil
import signal
import subprocess
import sys
import time

HERE = os.path.dirname(os.path.abspath(__file__))
sys.path.insert(0, f"{HERE}/../vectors")

from running import free_port, programs_in_a_folder  # noqa: E402

SECONDS, ROUNDS = int(os.environ.get("SECONDS", "5")), int(os.environ.get("ROUNDS", "3"))
CONNECTIONS = (1, 8, 64)
TOMCAT = "/usr/share/tomcat10"
MOD_JK = "/usr/lib/apache2/modules/mod_jk.so"
POST = 8192


def median(values):
    return sorted(values)[len(values) // 2]


def row(*cells):
    print("|", " | ".join(str(cell) for cell in cells), "|", flush=True)


# What runs, and what it is asked.

class Front:
    """A program that listens at a port, with what it started."""

    def __init__(self, name, port, running):
        self.name, self.port, self.running = name, port, running

    def processes(self):
        """Its process, and those below it."""
        parents = {}
        for pid in filter(str.isdigit, os.listdir("/proc")):
            try:
                with open(f"/proc/{pid}/stat", encoding="latin-1") as stat:
                    parents.setdefault(int(stat.read().rsplit(")", 1)[1].split()[1]), []).append(int(pid))
            except OSError:
                pass
        found = [self.running.pid]
        for pid in found:
            found += parents.get(pid, [])
        return found

    def processor(self):
        """The processor time that it took until now, in microseconds."""
        total = 0
        for pid in self.processes():
            with open(f"/proc/{pid}/stat", encoding="latin-1") as stat:
                total += sum(int(ticks) for ticks in stat.read().rsplit(")", 1)[1].split()[11:13])
        return total * 1e6 / os.sysconf("SC_CLK_TCK")

    def memory(self):
        """Its resident memory, in KB."""
        with open(f"/proc/{self.running.pid}/status", encoding="ascii") as status:
            return int(re.search(r"VmRSS:\s*(\d+)", status.read())[1])


class Asked:
    """What came of one load."""

    def __init__(self, front, line, processor):
        found = re.search(r"(\d+) requests/s  p50 +([\d.]+) us  p99 +([\d.]+) us  wrong (\d+)  broken (\d+)", line)
        self.rate, self.p99 = int(found[1]), float(found[3]) / 1000
        if found[4] != "0" or found[5] != "0":
            print(f"WRONG: {front.name}: {line.strip()}", flush=True)
        self.processor = processor


class Bench:
    def __init__(self, program, programs):
        self.program, self.programs, self.folder = program, programs, programs.folder
        self.load = f"{self.folder}/load"
        subprocess.run(["cc", "-O2", "-o", self.load, f"{HERE}/load.c"], check=True)

    def ask(self, front, connections, path, body=0, amount=f"{SECONDS}s"):
        before = front.processor()
        line = subprocess.run([self.load, str(front.port), str(connections), str(amount), path, str(body)], capture_output=True, text=True, check=False).stdout
        spent = front.processor() - before
        asked = Asked(front, line, 0)
        requests = int(amount) if not str(amount).endswith("s") else asked.rate * int(amount[:-1])
        asked.processor = spent / max(1, requests)
        return asked

    def containers(self):
        """The AJP ports of two containers of the program."""
        ports = [free_port(), free_port()]
        for number, port in enumerate(ports):
            self.programs.start(port, self.program, "container", f"n{number}", f"127.0.0.1:{port}", "64")
        return ports

    def site(self, ports):
        members = "".join(f"worker.n{number}.type=ajp13\nworker.n{number}.host=127.0.0.1\nworker.n{number}.port={port}\n" for number, port in enumerate(ports))
        workers = self.programs.write("workers", f"worker.list=lb\nworker.lb.type=lb\nworker.lb.balance_workers=n0,n1\n{members}")
        return workers, self.programs.write("map", "/*=lb\n")

    def serve(self, ports, *options, name="`jkd serve`"):
        port = free_port()
        words = [self.program, "serve", *options, *self.site(ports), f"127.0.0.1:{port}", "64"]
        return Front(name, port, self.programs.start(port, *words))

    def end(self, front):
        front.running.terminate()
        front.running.wait()
        self.programs.running.remove(front.running)


# Apache, nginx and Tomcat, of Debian.

APACHE = """ServerRoot /etc/apache2
PidFile {folder}/apache.pid
DefaultRuntimeDir {folder}
Listen 127.0.0.1:{port}
ServerName localhost
LoadModule mpm_event_module /usr/lib/apache2/modules/mod_mpm_event.so
LoadModule authz_core_module /usr/lib/apache2/modules/mod_authz_core.so
LoadModule jk_module {module}
User www-data
Group www-data
ThreadsPerChild 64
ServerLimit 2
StartServers 2
MaxRequestWorkers 128
MaxKeepAliveRequests 0
KeepAliveTimeout 60
ErrorLog {folder}/apache.log
JkWorkersFile {workers}
JkShmFile {folder}/shm
JkLogFile {folder}/jk.log
JkLogLevel error
JkMount /* lb
"""

NGINX = """user root; daemon off; worker_processes 4; pid {folder}/nginx.pid; error_log {folder}/nginx.log;
events {{ worker_connections 1024; }}
http {{
    access_log off; keepalive_requests 1000000000; {temporary}
    upstream tomcats {{ {servers} keepalive 64; }}
    server {{
        listen 127.0.0.1:{port};
        location / {{ proxy_pass http://tomcats; proxy_http_version 1.1; proxy_set_header Connection ""; }}
    }}
}}
"""

SERVER_XML = """<Server port="-1"><Service name="Catalina">
<Connector protocol="AJP/1.3" address="127.0.0.1" port="{ajp}" secretRequired="false" maxThreads="200" connectionTimeout="-1"/>
<Connector protocol="HTTP/1.1" address="127.0.0.1" port="{http}" maxThreads="200" maxKeepAliveRequests="-1" connectionTimeout="-1"/>
<Engine name="Catalina" defaultHost="localhost"><Host name="localhost" appBase="webapps"/></Engine>
</Service></Server>
"""

ECHO = """<%@ page contentType="application/octet-stream" session="false" trimDirectiveWhitespaces="true" %><%
byte[] body = request.getInputStream().readAllBytes();
response.setContentLength(body.length);
java.io.OutputStream to = response.getOutputStream();
to.write(body);
to.flush();
out.clear();
%>
"""


def start_apache(bench, ports):
    port, folder = free_port(), bench.folder
    workers, _ = bench.site(ports)
    conf = bench.programs.write("apache.conf", APACHE.format(folder=folder, port=port, module=MOD_JK, workers=workers))
    return Front("Apache with mod_jk", port, bench.programs.start(port, "apache2", "-D", "FOREGROUND", "-f", conf))


def start_nginx(bench, ports):
    port, folder = free_port(), bench.folder
    temporary = " ".join(f"{kind}_temp_path {folder}/{kind};" for kind in ("client_body", "proxy", "fastcgi", "uwsgi", "scgi"))
    servers = " ".join(f"server 127.0.0.1:{to};" for to in ports)
    conf = bench.programs.write("nginx.conf", NGINX.format(folder=folder, port=port, temporary=temporary, servers=servers))
    return Front("nginx, over HTTP", port, bench.programs.start(port, "nginx", "-p", folder, "-c", conf))


def start_tomcat(bench, number):
    """A Tomcat of its own folder: its AJP port and its HTTP port."""
    base, ajp, http = f"{bench.folder}/tomcat{number}", free_port(), free_port()
    for name in ("conf", "logs", "temp", "work", "webapps/app"):
        os.makedirs(f"{base}/{name}")
    for name in ("web.xml", "context.xml", "logging.properties", "catalina.properties"):
        shutil.copy(f"/etc/tomcat10/{name}", f"{base}/conf")
    pages = {"three.txt": "hi\n", "big.txt": "x" * 65536, "echo.jsp": ECHO}
    bench.programs.write(f"tomcat{number}/conf/server.xml", SERVER_XML.format(ajp=ajp, http=http))
    for name, page in pages.items():
        bench.programs.write(f"tomcat{number}/webapps/app/{name}", page)
    own = {**os.environ, "CATALINA_BASE": base, "CATALINA_HOME": TOMCAT, "JAVA_OPTS": "-Xmx512m"}
    bench.programs.start(http, f"{TOMCAT}/bin/catalina.sh", "run", env=own)
    return ajp, http


# The parts.

def measure_waiting(bench):
    """Busy clients alone, and beside clients that wait."""
    front = bench.serve(bench.containers(), "--waiting", "20000")
    bench.ask(front, 64, "/who")
    runs = {"alone": [], "beside 10,000 idle clients": [], "beside 5,000 heads of a byte a second": []}
    said = []
    for _ in range(ROUNDS):
        for kind, count, name in ((None, 0, "alone"), ("idle", 10000, "beside 10,000 idle clients"), ("slow", 5000, "beside 5,000 heads of a byte a second")):
            waiting = wait_beside(front, kind, count, said) if kind else None
            runs[name].append(bench.ask(front, 64, "/who"))
            if waiting:
                said.append(waiting.communicate()[0].strip())
    print(f"\n64 connections asking for /who, {ROUNDS} runs of {SECONDS} s of each in turn\n")
    row("Load", "requests a second, median", "99th hundredth", "rate beside alone")
    row("---", "---", "---", "---")
    alone = median([run.rate for run in runs["alone"]])
    for name, asked in runs.items():
        rates, late = [run.rate for run in asked], [run.p99 for run in asked]
        row(name, f"{median(rates):,} ({min(rates):,} to {max(rates):,})", f"{median(late):.1f} ms ({min(late):.1f} to {max(late):.1f})", f"{median(rates) / alone:.2f}")
    print("", *said, sep="\n")
    bench.end(front)


def wait_beside(front, kind, count, said):
    """Clients that wait, once all of them are there."""
    words = [sys.executable, f"{HERE}/waiting.py", kind, "127.0.0.1", str(front.port), str(count), str(SECONDS + 1), str(front.running.pid)]
    waiting = subprocess.Popen(words, stdout=subprocess.PIPE, text=True)
    said += [f"{kind}: {waiting.stdout.readline().strip()}", waiting.stdout.readline().strip()]
    return waiting


def measure_fronts(bench):
    """Fronts before the same members, in turn."""
    ports = bench.containers()
    fronts = [bench.serve(ports)]
    if os.path.exists(MOD_JK):
        fronts.append(start_apache(bench, ports))
    compare(bench, "two `jkd container`", fronts, ("/who", "/size/65536", "/echo"))
    for front in fronts:
        bench.end(front)
    if os.path.exists(TOMCAT):
        tomcats = [start_tomcat(bench, number) for number in range(2)]
        fronts = [bench.serve([ajp for ajp, _ in tomcats])]
        if os.path.exists(MOD_JK):
            fronts.append(start_apache(bench, [ajp for ajp, _ in tomcats]))
        if shutil.which("nginx"):
            fronts.append(start_nginx(bench, [http for _, http in tomcats]))
        compare(bench, "two Tomcats", fronts, ("/app/three.txt", "/app/big.txt", "/app/echo.jsp"))
        for front in fronts:
            bench.end(front)


def compare(bench, name, fronts, paths):
    short, big, echo = paths
    for front in fronts * 2:
        for path, body in ((short, 0), (big, 0), (echo, POST)):
            bench.ask(front, 8, path, body, 4000)
    kinds = [[(short, 0, count) for count in CONNECTIONS], [(big, 0, 8), (big, 0, 64)], [(echo, POST, 8), (echo, POST, 64)]]
    cases = kinds[0] * ROUNDS + kinds[1] + kinds[2]
    runs = {(front.name, case): [] for front in fronts for case in cases}
    seconds = min(SECONDS, 3)
    for case in cases:
        path, body, count = case
        for front in fronts:
            runs[front.name, case].append(bench.ask(front, count, path, body, f"{seconds}s"))
    print(f"\nBefore {name}: requests a second in runs of {seconds} s, the fronts in turn, of short replies the median of {ROUNDS} runs\n")
    row("", "a short reply, at 1 / 8 / 64", "64 KiB, at 8 / 64", "POST of 8 KiB, at 8 / 64", "processor time for a request: short; 64 KiB; POST")
    row("---", "---", "---", "---", "---")
    for front in fronts:
        asked = [[runs[front.name, case] for case in kind] for kind in kinds]
        rates = [" / ".join(f"{median([run.rate for run in of_case]):,}" for of_case in kind) for kind in asked]
        spent = [[run.processor for of_case in kind for run in of_case] for kind in asked]
        row(front.name, *rates, "; ".join(f"{min(times):.0f} to {max(times):.0f} µs" for times in spent))


def measure_calls(bench):
    """The calls of the system for a request, counted by strace from when the front serves."""
    front = bench.serve(bench.containers())
    requests = 4000
    print(f"\nCalls of the system for a GET of /who, {requests} requests; in brackets those that failed, as a read that finds nothing\n")
    for count in CONNECTIONS:
        bench.ask(front, count, "/who", 0, 1000)
        out = f"{bench.folder}/calls"
        tracing = subprocess.Popen(["strace", "-c", "-f", "-o", out, "-p", str(front.running.pid)], stderr=subprocess.PIPE, text=True)
        tracing.stderr.readline()
        time.sleep(1)
        bench.ask(front, count, "/who", 0, requests)
        tracing.send_signal(signal.SIGINT)
        tracing.communicate()
        print(f"at {count}: {', '.join(calls_of(out, requests))}", flush=True)
    bench.end(front)


def calls_of(path, requests):
    """The calls of strace's table that come once in fifty requests or more."""
    for line in open(path, encoding="ascii"):
        found = re.fullmatch(r" *[\d.]+ +[\d.]+ +\d+ +(\d+) +(\d+)? *(\w+)", line.rstrip())
        if found and found[3] != "total" and int(found[1]) * 50 >= requests:
            failed = f" ({int(found[2]) / requests:.2f})" if found[2] else ""
            yield f"{found[3]} {int(found[1]) / requests:.2f}{failed}"


def measure_memory(bench):
    """Resident memory after a million mixed requests, and after another."""
    front = bench.serve(bench.containers())
    each = int(os.environ.get("REQUESTS", "1000000")) // 4
    print(f"\nResident memory at the start: {front.memory():,} KB")
    for turn in (1, 2):
        for path, body in (("/who", 0), ("/size/433", 0), ("/size/65536", 0), ("/echo", POST)):
            for _ in range(5):
                bench.ask(front, 64, path, body, each // 5)
        print(f"after {turn * each * 4:,} requests of four kinds at 64 connections: {front.memory():,} KB", flush=True)
    bench.end(front)


def measure_log(bench):
    """The rate with --log, beside the rate without."""
    ports, log = bench.containers(), f"{bench.folder}/log"
    os.mkdir(log)
    fronts = [bench.serve(ports, name="without"), bench.serve(ports, "--log", log, name="with --log")]
    print(f"\nRates at 64 connections asking for /who, {ROUNDS} runs of {SECONDS} s in turn\n")
    runs = {front.name: [] for front in fronts}
    for _ in range(ROUNDS):
        for front in fronts:
            runs[front.name].append(bench.ask(front, 64, "/who"))
    for name, asked in runs.items():
        rates = [run.rate for run in asked]
        print(f"{name}: {median(rates):,} ({min(rates):,} to {max(rates):,}), {median([run.processor for run in asked]):.1f} µs of processor time for a request")
    for front in fronts:
        bench.end(front)


PARTS = {"waiting": measure_waiting, "fronts": measure_fronts, "calls": measure_calls, "memory": measure_memory, "log": measure_log}


def main():
    chosen = sys.argv[2:] or list(PARTS)
    if len(sys.argv) < 2 or not all(part in PARTS for part in chosen):
        sys.exit(__doc__)
    hard = resource.getrlimit(resource.RLIMIT_NOFILE)[1]
    resource.setrlimit(resource.RLIMIT_NOFILE, (hard, hard))
    for part in chosen:
        with programs_in_a_folder() as programs:
            PARTS[part](Bench(os.path.abspath(sys.argv[1]), programs))


main()
