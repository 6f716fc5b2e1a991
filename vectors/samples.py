#!/usr/bin/env python3
"""Sites as public pages show them, each with what `config` makes of it.

The directives, names and values are those of Apache's sample files, of Debian's package, of the pages of the Tomcat Connectors
documentation and of how-tos for servlet containers; the comments are in our words. What is wanted was worked out by hand from
docs/FORMATS.md: the lines of `config`, and the remarks on standard error.

    python3 vectors/samples.py rows       the rows of crates/plain_checks/data/plain/sites.txt from "Sites of public pages" on
    python3 vectors/samples.py try COMMAND ..      tries each with a built program, as `samples.py try ./jkd`
"""
import os
import subprocess
import sys
import tempfile


def member(name, host="localhost", port=8009, pool=64, recovery=0, ping="-", factor=1, distance=0, activation="A", redirect="-", route=None, retries=2,
           **limits):
    """A member's line, and the line of its limits where it has some."""
    lines = [f"member {name} {host} {port} route {route or name} factor {factor} distance {distance} activation {activation} redirect {redirect}"
             f" retries {retries} packet 8192 pool {pool} recovery {recovery} ping {ping}"]
    return lines + ([f"limits {name} " + " ".join(f"{key}={value}" for key, value in limits.items())] if limits else [])


def alone(name, **values):
    """A worker of type ajp13 that is listed itself."""
    return [f"worker {name} ajp13", *member(name, **values)]


def lb(name, *members, method="R", sticky=1, force=0, recover=60, cookie="JSESSIONID", path=";jsessionid"):
    return [f"worker {name} lb {method} sticky {sticky} force {force} recover {recover} cookie {cookie} path {path}", *sum(members, [])]


def status(name, read_only=0):
    return [f"worker {name} status read_only {read_only}"]


def none(line, key):
    return f"w, line {line}: {key} is not supported and has no effect"


def other(line, key, kind):
    return f"w, line {line}: {key} has no effect on a worker of type {kind}"


def unknown(line, key):
    return f"w, line {line}: {key} does not begin with worker. and has no effect"


class Sample:
    def __init__(self, name, workers, rules, wanted, remarks=(), maintain=60, refused=None):
        self.name, self.workers, self.rules = name, workers.strip("\n").split("\n"), rules.strip("\n").split("\n") if rules else []
        count = len([rule for rule in self.rules if rule and not rule.startswith("#")])
        ignored = [f"ignored {remark[3:].split(': ')[0].split()[1]} {remark.split(': ')[1].split()[0]}" for remark in remarks if "is not supported" in remark]
        self.wanted = [refused] if refused else [*sum(wanted, []), f"maintain {maintain}", *ignored, f"rules {count}"]
        self.remarks, self.status = list(remarks), 3 if refused else 0

    def files(self):
        return [("w", self.workers), ("m", self.rules)]

    def show(self):
        shown = [line for name, lines in self.files() for line in [f"file {name}", *("|" + line for line in lines)]]
        rows = [f"row {self.name}", "words config w m", *shown, "output", *("|" + line for line in self.wanted)]
        rows += ["status 3"] if self.status else []
        rows += ["", f"row {self.name}: what is said", "kind told", "words config w m", *shown, "output", *("|" + line for line in self.remarks)]
        return "\n".join(rows)


SAMPLES = [
    Sample("Apache's least sample", """
# A balancer of one Tomcat, and the status worker.
worker.list=wlb,jkstatus
worker.ajp13w.type=ajp13
worker.ajp13w.host=localhost
worker.ajp13w.port=8009
worker.wlb.type=lb
worker.wlb.balance_workers=ajp13w
worker.jkstatus.type=status
""", """
# The applications that come with Tomcat, its manager, and the status page.
/admin/*=wlb
/manager/*=wlb
/examples|/*=wlb
/docs|/*=wlb
/jkmanager=jkstatus
# The web server sends the pictures itself.
!/examples/*.jpeg=wlb
!/examples/*.gif=wlb
""", [lb("wlb", member("ajp13w")), status("jkstatus")]),

    Sample("Debian's workers.properties", """
# Where Tomcat and Java are, and the slash of a path.
workers.tomcat_home=/usr/share/tomcat8
workers.java_home=/usr/lib/jvm/default-java
ps=/
worker.list=ajp13_worker
worker.ajp13_worker.port=8009
worker.ajp13_worker.host=localhost
worker.ajp13_worker.type=ajp13
# More is more work.
worker.ajp13_worker.lbfactor=1
#worker.ajp13_worker.cachesize
worker.loadbalancer.type=lb
worker.loadbalancer.balance_workers=ajp13_worker
""", "/*=ajp13_worker", [alone("ajp13_worker")],
           [unknown(2, "workers.tomcat_home"), unknown(3, "workers.java_home"), unknown(4, "ps")]),

    Sample("the quick start", """
# One worker by AJPv1.3.
worker.list=worker1
worker.worker1.type=ajp13
worker.worker1.host=localhost
worker.worker1.port=8009
""", """
/examples=worker1
/examples/*=worker1
""", [alone("worker1")]),

    Sample("a router that keeps its second node for failures", """
# The router, which is all that is listed.
worker.list=router
worker.router.type=lb
worker.router.balance_workers=worker1,worker2
# Where the first node fails, its sessions go to the second.
worker.worker1.type=ajp13
worker.worker1.host=myhost1
worker.worker1.port=8009
worker.worker1.redirect=worker2
# The second gets nothing else.
worker.worker2.type=ajp13
worker.worker2.host=myhost2
worker.worker2.port=8009
worker.worker2.activation=disabled
""", "/*=router", [lb("router", member("worker1", "myhost1", redirect="worker2"), member("worker2", "myhost2", activation="D"))]),

    Sample("two nodes that are listed beside their balancer", """
# Both nodes can be mounted by themselves, too.
worker.list=node1, node2, lbworker
worker.node1.type=ajp13
worker.node1.host=localhost
worker.node1.port=8109
worker.node1.connection_pool_timeout=600
worker.node1.socket_keepalive=1
worker.node2.type=ajp13
worker.node2.host=localhost
worker.node2.port=8209
worker.node2.connection_pool_timeout=600
worker.node2.socket_keepalive=1
worker.lbworker.type=lb
worker.lbworker.balance_workers=node1,node2
""", """
/app|/*=lbworker
/one|/*=node1
/two|/*=node2
""", [alone("node1", port=8109, socket_keepalive=1, connection_pool_timeout=600),
      alone("node2", port=8209, socket_keepalive=1, connection_pool_timeout=600),
      lb("lbworker", member("node1", port=8109, socket_keepalive=1, connection_pool_timeout=600),
         member("node2", port=8209, socket_keepalive=1, connection_pool_timeout=600))]),

    Sample("workers that take another one's values", """
worker.list=tic,tac
# What both have.
worker.toe.type=ajp13
worker.toe.socket_keepalive=true
worker.toe.connect_timeout=10000
worker.toe.recovery_options=7
worker.tic.reference=worker.toe
worker.tac.reference=worker.toe
""", "/tic/*=tic\n/tac/*=tac", [alone("tic", recovery=7, ping="C", connect_timeout=10000, socket_keepalive=1),
                                  alone("tac", recovery=7, ping="C", connect_timeout=10000, socket_keepalive=1)]),

    Sample("two groups, one of them nearer", """
worker.list=lb
worker.basic.port=8009
worker.basic.type=ajp13
worker.basic.socket_keepalive=true
worker.basic.connect_timeout=10000
worker.basic.recovery_options=7
# A group takes the values of all, and its nodes those of the group.
worker.lb1.domain=dom1
worker.lb1.distance=0
worker.lb1.reference=worker.basic
worker.lb2.domain=dom2
worker.lb2.distance=1
worker.lb2.reference=worker.basic
worker.lb.type=lb
worker.lb.method=B
worker.lb.balance_workers=w11,w12,w21,w22
worker.w11.host=myhost11
worker.w11.reference=worker.lb1
worker.w12.host=myhost12
worker.w12.reference=worker.lb1
worker.w21.host=myhost21
worker.w21.reference=worker.lb2
worker.w22.host=myhost22
worker.w22.reference=worker.lb2
""", "/*=lb", [lb("lb", *(member(f"w{group}{node}", f"myhost{group}{node}", distance=group - 1, recovery=7, ping="C", connect_timeout=10000,
                                 socket_keepalive=1) for group in (1, 2) for node in (1, 2)), method="B")],
           [none(8, "worker.lb1.domain"), none(11, "worker.lb2.domain")]),

    Sample("a balancer whose members stand in balanced_workers", """
# The name of this directive before release 1.2.7.
worker.list=lb
worker.lb.type=lb
worker.lb.balanced_workers=w1,w2
worker.w1.host=myhost1
worker.w2.host=myhost2
""", "/*=lb", [], ["w, line 3: a worker of type lb must have members in balance_workers: worker.lb.type=lb"], refused="workers line 3: refusal 5"),

    Sample("two status workers that are mounted in workers.properties", """
# One for all, and one that changes things.
worker.list=jk-watch
worker.jk-watch.type=status
worker.jk-watch.read_only=true
worker.jk-watch.mount=/user/status/jk
worker.list=jk-manage
worker.jk-manage.type=status
worker.jk-manage.mount=/admin/status/jk
""", "/user/status/jk=jk-watch\n/admin/status/jk=jk-manage", [status("jk-watch", 1), status("jk-manage")],
           [none(5, "worker.jk-watch.mount"), none(8, "worker.jk-manage.mount")]),

    Sample("workers behind IIS", """
worker.list=worker1, worker2
worker.worker1.host=localhost
worker.worker1.port=8009
worker.worker1.type=ajp13
worker.worker2.host=otherhost
worker.worker2.port=8009
worker.worker2.type=ajp13
""", """
/examples=worker1
/examples/*=worker1
/webpages/*=worker2
""", [alone("worker1"), alone("worker2", host="otherhost")]),

    Sample("hosts by a network's name", """
mynet=194.226.31
worker.list=node1
worker.node1.host=$(mynet).11
""", "/*=node1", [alone("node1", host="$(mynet).11")],
           [unknown(1, "mynet"), "w, line 3: worker.node1.host has a value with $(, which is taken as it stands"]),

    Sample("a cluster of an application server", """
# The balancer and the status page.
worker.list=loadbalancer,status
# Each node by its jvmRoute.
worker.node1.port=8009
worker.node1.host=node1.mydomain.com
worker.node1.type=ajp13
worker.node1.lbfactor=1
worker.node1.cachesize=10
worker.node2.port=8009
worker.node2.host=node2.mydomain.com
worker.node2.type=ajp13
worker.node2.lbfactor=1
worker.node2.cachesize=10
worker.loadbalancer.type=lb
worker.loadbalancer.balance_workers=node1,node2
worker.loadbalancer.sticky_session=1
#worker.list=loadbalancer
worker.status.type=status
""", """
# The consoles, the application, and the status page.
/jmx-console=loadbalancer
/jmx-console/*=loadbalancer
/web-console=loadbalancer
/web-console/*=loadbalancer
/myapp/*=loadbalancer
!/myapp/images/*=loadbalancer
/status=status
""", [lb("loadbalancer", member("node1", "node1.mydomain.com"), member("node2", "node2.mydomain.com")), status("status")],
           [none(8, "worker.node1.cachesize"), none(13, "worker.node2.cachesize")]),

    Sample("a template with pings and limits", """
worker.list=loadbalancer,jk-status
worker.template.type=ajp13
worker.template.ping_mode=A
worker.template.ping_timeout=10000
worker.template.socket_connect_timeout=10000
worker.template.socket_timeout=60
worker.template.reply_timeout=120000
worker.template.connection_pool_timeout=60
worker.template.retries=20
worker.node1.reference=worker.template
worker.loadbalancer.type=lb
worker.loadbalancer.balance_workers=node1
worker.jk-status.type=status
""", "/*=loadbalancer", [], ["w, line 9: the value must be a number from 1 to 10: worker.template.retries=20"], refused="workers line 9: refusal 4"),

    Sample("a template with pings and limits, in their ranges", """
worker.list=loadbalancer,jk-status
worker.template.type=ajp13
worker.template.ping_mode=A
worker.template.ping_timeout=10000
worker.template.socket_connect_timeout=10000
worker.template.socket_timeout=60
worker.template.reply_timeout=120000
worker.template.connection_pool_timeout=60
worker.template.connection_pool_minsize=0
worker.template.recovery_options=3
worker.node1.reference=worker.template
worker.node1.host=192.168.1.5
worker.node2.reference=worker.template
worker.node2.host=192.168.1.6
worker.node2.lbfactor=2
worker.loadbalancer.type=lb
worker.loadbalancer.balance_workers=node1,node2
worker.loadbalancer.method=Session
worker.loadbalancer.max_reply_timeouts=10
worker.jk-status.type=status
worker.jk-status.read_only=true
""", """
/application=loadbalancer
/application/*=loadbalancer
/jk-status|/*=jk-status
""", [lb("loadbalancer",
         *(member(f"node{n}", f"192.168.1.{4 + n}", factor=n, recovery=3, ping="CPI", socket_connect_timeout=10000, ping_timeout=10000,
                  socket_timeout=60, reply_timeout=120000, connection_pool_timeout=60) for n in (1, 2)), method="S"), status("jk-status", 1)],
           [none(9, "worker.template.connection_pool_minsize"), none(19, "worker.loadbalancer.max_reply_timeouts")]),

    Sample("one application after the other beside a wiki", """
worker.list=wiki,tracker
worker.wiki.type=ajp13
worker.wiki.host=localhost
worker.wiki.port=8009
worker.wiki.connection_pool_timeout=600
worker.wiki.connection_pool_size=100
worker.wiki.secret=change-me
worker.tracker.type=ajp13
worker.tracker.host=localhost
worker.tracker.port=8010
worker.tracker.socket_keepalive=True
worker.tracker.max_packet_size=8192
""", """
/wiki|/*=wiki
/tracker|/*=tracker
/tracker/reports/*=tracker;reply_timeout=600000
!/*/static/*=*
""", [alone("wiki", pool=100, connection_pool_timeout=600), alone("tracker", port=8010, socket_keepalive=1)]),

    Sample("a connector of another hand with words of its own", """
worker.list=app
worker.app.type=ajp13
worker.app.host=localhost
worker.app.port=8012
worker.app.max_reuse_connections=250
worker.app.connection_pool_size=500
worker.app.connection_pool_timeout=60
""", """
/*.cfm=app
/*.cfc/*=app
/flex2gateway/*=app
""", [alone("app", port=8012, pool=500, connection_pool_timeout=60)], [none(5, "worker.app.max_reuse_connections")]),
]


def run(command, sample):
    """The lines of standard output, those of standard error about the files, and the status."""
    with tempfile.TemporaryDirectory() as folder:
        for name, lines in sample.files():
            with open(os.path.join(folder, name), "w", encoding="utf-8") as file:
                file.write("".join(line + "\n" for line in lines))
        done = subprocess.run([*command, "config", f"{folder}/w", f"{folder}/m"], capture_output=True, text=True, check=False)
        said = [line.replace(f"{folder}/", "") for line in done.stderr.splitlines()]
    return done.stdout.splitlines(), [line for line in said if line[:3] in ("w, ", "m, ")], done.returncode


def main():
    if sys.argv[1:] == ["rows"]:
        print("# Sites of public pages, made by vectors/samples.py rows: what each is, and what is said of it.\n")
        print("\n\n".join(sample.show() for sample in SAMPLES))
    elif sys.argv[1:2] == ["try"] and len(sys.argv) > 2:
        wrong = 0
        for sample in SAMPLES:
            got, wanted = run(sys.argv[2:], sample), (sample.wanted, sample.remarks, sample.status)
            if got != wanted:
                wrong += 1
                print(f"{sample.name}: {got}\n    and this was wanted: {wanted}")
        print(f"{len(SAMPLES)} sites tried, {wrong} not as said")
        sys.exit(1 if wrong else 0)
    else:
        sys.exit(__doc__)


main()
