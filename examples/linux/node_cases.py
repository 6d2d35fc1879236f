"""Cases of a few routers without a controller. Each has done harm to a daemon without a cure.

Each case runs with the daemon, which must do what is expected. `check` runs it also with a planted daemon, which lacks the
cure. This one must not do it, or the case is blind.
"""

import contextlib
import io
import ipaddress
import json
import os
import signal
import socket
import subprocess
import sys
import time
from collections import namedtuple
from concurrent.futures import ThreadPoolExecutor
from pathlib import Path

import inside
import namespaces
import netlink
from kernels import TARGET, Wrong
from namespaces import die_with_parent, entered, ip
from node_network import DAEMON, STATE, Network, find_loop, used

PLANTED, CASE = Path(__file__).resolve(), "--case"
# A process may take long to start on a busy machine. What a planted daemon has not done after the second time, it
# does not do.
SECONDS_TO_START, SECONDS_TO_SEE, OTHER = 40, 3, "10.255.0.0/16"
WORDS, BUSY, NOT_REFUSED = STATE / "words", "10.9.9.3", "not refused, or without the message:"
# What happens, between which routers there are links, and for each planted daemon a part of what is wrong with it.
Case = namedtuple("Case", "happens links planted")


class Some(Network):
    """A few routers, with their processes. `kind` names a planted daemon, or is empty."""

    def __init__(self, links, kind):
        routers = sorted({it for link in links for it in link})
        super().__init__({it: f"10.0.0.{int(it[1:]) + 1}" for it in routers}, links)
        self.kind, self.running = kind, {}

    def close(self):
        self.kill(*self.running)
        super().close()

    def run(self, *routers, beside=None, more=()):
        """Starts the daemons of routers."""
        for name in routers:
            kinds = "+".join(filter(None, (self.kind, *more)))
            program = [PLANTED, kinds] if kinds else [DAEMON]
            pipe = {"stderr": subprocess.PIPE, "text": True}
            self.running[name] = self.start(name, *program, *self.words(name, beside), **pipe)

    def kill(self, *routers):
        for it in [self.running.pop(it) for it in [*routers]]:
            it.kill()
            it.wait()
            it.stderr.close()

    def end(self, name, how=None):
        """How the process of a router ends, and what it says."""
        it = self.running[name]
        if how:
            it.send_signal(how)
        try:
            said = it.communicate(timeout=SECONDS_TO_SEE if self.kind else SECONDS_TO_START)[1]
        except subprocess.TimeoutExpired:
            raise Wrong("the daemon does not end") from None
        del self.running[name]
        return it.returncode, said

    def ended(self):
        """What the processes said that have ended by themselves."""
        some = [(name, it) for name, it in self.running.items() if it.poll() is not None]
        return [f"the process of {name} has ended with status {it.returncode}: {it.communicate()[1]}" for name, it in some]

    def expect_ways(self, name, *ways):
        expect(soon(lambda: self.held(name)[0] == {*ways}), f"{name} has the ways {self.held(name)[0]} and not {ways}")

    def expect_empty(self, name):
        expect(self.held(name) == (set(), set()), f"{name} keeps {self.held(name)}")
        expect(self.last_routes(name) == 1, f"{name} has no last route")

    def last_routes(self, name):
        return sum(it.metric == 4_000_000 for it in self.kernels[name].routes())

    def settle_without_loop(self, is_settled):
        """Reads all kernels until they are settled for a second. A loop counts if a second read shows it too."""
        begun = settled = time.monotonic()
        while time.monotonic() - settled < 1:
            first, held = ({it: self.held(it) for it in self.names} for _ in range(2))
            links = {it: used(first)[it] & used(held)[it] for it in self.names}
            expect(not find_loop(links), f"the used links have the loop {find_loop(links)}")
            expect(time.monotonic() - begun < SECONDS_TO_START, f"the kernels hold {held}")
            settled = settled if is_settled(held) else time.monotonic()
            time.sleep(0.005)

    def arrives(self, name):
        """Whether a probe from a router arrives soon."""
        self.probe()
        time.sleep(0.02)
        self.receive()
        return self.addresses[name] in self.came[self.round]


def soon(is_so, seconds=SECONDS_TO_START):
    """Waits until something is so, and returns whether it came to that in time."""
    end = time.monotonic() + seconds
    while not is_so():
        if time.monotonic() > end:
            return False
        time.sleep(0.02)
    return True


def expect(is_so, wrong):
    if not is_so:
        raise Wrong(wrong)


def fewer_neighbours(lab):
    """A router is killed, and starts again with one of its neighbours. That one loses the gateway."""
    lab.run(*lab.names)
    lab.expect_ways("r1", "r2", "r3")
    lab.kill("r1")
    lab.run("r1", beside=["r3"])
    lab.expect_ways("r1", "r3")
    expect(lab.held("r1")[1] <= {"r3"}, f"r1 keeps the gates {lab.held('r1')[1]}")
    lab.routers["r3"].set_device("r0", False)
    # then r3 has a way to r1, since that has the lower number, and both have acknowledged that there is no route
    lab.settle_without_loop(lambda held: held["r3"] == ({"r1"}, {"r1"}) and held["r1"][1] == {"r3"})
    rules = lambda: {device for _, device, _ in lab.kernels["r1"].rules()}
    expect(soon(lambda: rules() == {"r3"}), f"r1 has rules for {rules()}")


def default_route(lab):
    """Two routers that are cut off from the gateway, one of which has a default route over the other one."""
    ip(f"route add default via {lab.addresses['r2']} dev r2 onlink", inside="r1")
    lab.run(*lab.names)
    lab.expect_ways("r2", "r1")
    expect(soon(lambda: lab.arrives("r2")), "no probe arrives from r2")
    lab.routers["r0"].set_device("r1", False)
    lab.settle_without_loop(lambda held: held["r2"] == ({"r1"}, {"r1"}) and held["r1"] == (set(), {"r2"}))
    for _ in range(10):
        lab.probe()
        time.sleep(0.02)
    expect(not lab.expired(), "probes go round until they expire")


def one_way(lab):
    """The gateway hears nothing from a router any more, neither datagrams nor packets. The router still hears it."""
    lab.run("r0", more=["deaf"])
    lab.run("r1", "r2")
    lab.expect_ways("r1", "r0")
    expect(soon(lambda: lab.arrives("r1")), "no probe arrives from r1")
    lab.running["r0"].send_signal(signal.SIGUSR1)
    # what r1 sends to the gateway over this link has the hardware address of nobody
    ip(f"neigh replace {lab.addresses['r0']} lladdr 02:00:00:00:00:01 dev r0 nud permanent", inside="r1")
    seconds = SECONDS_TO_SEE if lab.kind else SECONDS_TO_START
    expect(soon(lambda: lab.arrives("r1"), seconds), "no probe arrives from r1 by another way")


def first_boot(lab):
    """Starts r1, and returns the number in its first datagram. By then its file has to have it."""
    import node_daemon

    with entered("r0"):
        ear = node_daemon.opened("r1")
    ear.setblocking(True)
    ear.settimeout(SECONDS_TO_START)
    lab.run("r1")
    target, length = None, 0
    while (target, length) != (socket.inet_aton(TARGET), 32):
        _, target, length, *_, boot, _ = node_daemon.HEADER.unpack_from(ear.recv(2048))
    ear.close()
    file = STATE / f"1-{TARGET}"
    expect(file.exists() and int(file.read_text()) == boot, "the boot number in a datagram is not in the file")
    return boot


def boot_numbers(lab):
    """The number of a router grows at each start, and is in the file before the first datagram."""
    before = first_boot(lab)
    lab.kill("r1")
    expect(first_boot(lab) == before + 1, "the boot number does not grow by one")


def same_number(lab):
    """A router starts again without its link to the gateway. Its other neighbour hears none of its announcements."""
    lab.run(*lab.names)
    # both routers have come down to their distances by then
    lab.settle_without_loop(lambda held: held["r1"] == ({"r0"}, {"r0", "r2"}) and held["r2"] == ({"r1"}, {"r1"}))
    lab.kill("r1")
    lab.routers["r1"].set_device("r0", False)
    lab.run("r1", more=["says little"])
    # r2 takes the old announcement of r1 for the last one, so it has a way to it; r1 knows nothing of r2
    lab.settle_without_loop(lambda held: held["r1"] == (set(), set()) and held["r2"][0] == {"r1"})


def later_start(lab):
    """The number in the file of r1 goes back. Of its neighbours only r2 knows a later start, and does not say so at
    first."""
    lab.run(*lab.names)
    lab.expect_ways("r2", "r1")
    lab.running["r2"].send_signal(signal.SIGSTOP)
    lab.kill("r0", "r1")
    (STATE / f"1-{TARGET}").write_text("5\n")
    lab.run("r0", "r1")
    lab.expect_ways("r1", "r0")
    lab.running["r2"].send_signal(signal.SIGCONT)
    status, said = lab.end("r1")
    expect(status == 1 and "later start" in said, f"r1 ends with status {status}: {said}")
    lab.expect_empty("r1")


def ends(lab):
    """TERM and INT end a daemon, which leaves nothing but the last route and closed gates."""
    lab.run(*lab.names)
    for how in signal.SIGTERM, signal.SIGINT:
        lab.expect_ways("r1", "r0")
        status, said = lab.end("r1", how)
        expect(status == 0 and not said, f"r1 ends with status {status}: {said}")
        lab.expect_empty("r1")
        lab.run("r1")


def two_targets(lab):
    """Routers have a daemon for each of two targets, one of which has the other one in it. One of the four starts
    again."""
    lab.run(*lab.names)
    lab.expect_ways("r1", "r0")
    with entered("r1"):
        kernel = netlink.Routes(OTHER, {})
    words = {it: [OTHER if word == TARGET else word for word in lab.words(it)] for it in lab.names}
    others = [lab.start(it, DAEMON, *words[it]) for it in lab.names]
    try:
        has_all = lambda: len(kernel.read()) == 1 and kernel.open_gates() == {"r0"}
        expect(soon(has_all), "there is no way to the other target")
        lab.kill("r1")
        first_boot(lab)
        expect(has_all(), "the way or the gate for the other target is gone")
        lab.expect_ways("r1", "r0")
        expect(soon(lambda: lab.arrives("r1")), "no probe arrives from r1")
    finally:
        for it in others:
            it.kill()
            it.wait()
        kernel.close()


def refusals():
    """Wrong words for the daemon of r1, and a part of what it says."""
    right = "0:r0:10.0.0.1"
    yield ["1", TARGET, right, "2:r0:10.0.0.3"], "two neighbours on r0"
    yield ["1", TARGET, right, "0:r2:10.0.0.3"], "two with the number 0"
    yield ["0", TARGET, right], "two with the number 0"
    yield ["1", TARGET, "0:eth9:10.0.0.1"], "no device 'eth9'"
    yield ["1", TARGET, "0:r0:10.0.0.2"], "10.0.0.2 is an address of this router"
    yield ["1", TARGET, "0:r0:fd00::1"], "IPv6 is not supported"
    yield ["1", TARGET, "0:r0"], "is not NUMBER:DEVICE:ADDRESS"
    yield ["1", "fd00::1", right], "IPv6 is not supported"
    yield ["1", "10.1.2.3/16", right], "is not a prefix"
    yield ["1", "0.0.0.0/0", right], "all addresses are no target"
    yield ["4294967296", TARGET, right], "is not a number from 0"
    yield ["--gateway", "1", TARGET, right], "so it is not a gateway"
    yield ["1", "10.0.0.2", right], "so it takes --gateway"
    yield ["1", "10.9.9.9", right], "there is a route to 10.9.9.9 already"
    yield ["--state", "/dev/null", "1", "10.9.9.1", right], "cannot be kept in /dev/null"
    yield ["--state", WORDS, "1", "10.9.9.2", right], "does not have a boot number"
    yield ["--state", WORDS, "1", BUSY, right], f"another process runs for {BUSY}"


def errors_of_users(lab):
    """Wrong words are refused with a message and status 2. A planted daemon has to be seen to refuse none."""
    ip("route add 10.9.9.9 via 10.0.0.1 dev r0 onlink", inside="r1")
    WORDS.mkdir(exist_ok=True)
    (WORDS / "1-10.9.9.2").write_text("one\n")
    kinds = "+".join(filter(None, (lab.kind, "tells refusals")))
    said, _ = lab.start("r1", PLANTED, kinds, stdout=subprocess.PIPE, text=True).communicate(timeout=SECONDS_TO_START)
    tried = [*zip(refusals(), json.loads(said), strict=True)]
    missed = [(words, *told) for (words, part), told in tried if told[0] != 2 or part not in told[1]]
    # a planted daemon that refuses one would hide that its check is missing
    expect(not missed or lab.kind and len(missed) < len(tried), f"{NOT_REFUSED} {missed}")


def tells_refusals(daemon):
    """Prints how a daemon ends with wrong words, and what it says. It is not run."""
    daemon.Router.run = lambda self: "it runs"
    other_process, told = daemon.locked(ipaddress.ip_network(BUSY)), []
    for words, _ in refusals():
        said = io.StringIO()
        with contextlib.redirect_stderr(said):
            try:
                daemon.main([*map(str, words)])
            except SystemExit as end:
                told.append((end.code, said.getvalue()))
            except Exception as fault:
                told.append((1, repr(fault)))
    if other_process:
        other_process.close()
    print(json.dumps(told))
    sys.exit(0)


def keeps_ways(daemon):
    def remove_ways(self):
        for it in range(len(self.links)):
            self.do(f"route del {self.target} metric {it + 1}")

    daemon.Table.remove_ways = remove_ways


def keeps_gates(daemon):
    rules = daemon.Routes.rules
    daemon.Routes.rules = lambda self: [it for it in rules(self) if it[1] in self.index]


def has_no_last_route(daemon):
    do = daemon.Table.do
    daemon.Table.do = lambda self, line: "replace unreachable" in line or do(self, line)


def believes_one_way(daemon):
    judge = daemon.Router.judge
    daemon.Router.judge = lambda self, number, echo: judge(self, number, self.boot)


def has_one_number(daemon):
    daemon.next_boot = lambda *_: 1


def says_little(daemon):
    """Router 2 only hears that this router is there."""
    send = daemon.Router.send
    daemon.Router.send = lambda self, number, message: send(self, number, b"" if number == 2 else message)


def keeps_no_file(daemon):
    daemon.keep = lambda file, text: None


def goes_on(daemon):
    daemon.NotAMessage = daemon.NotAMessage, daemon.LaterStart


def does_not_end_well(daemon):
    daemon.Router.empty = lambda self: True


def takes_all(daemon):
    made = daemon.Table.__init__

    def init(self, *words):
        made(self, *words)
        self.block = range(1 << 32)

    daemon.Table.__init__ = init
    daemon.Table.expect_room = lambda *_: None


def refuses_nothing(daemon):
    import node_options

    neighbour = node_options.neighbour
    node_options.faults = lambda found: ()
    node_options.number = lambda text, bits=32: int(text)
    node_options.address = ipaddress.ip_address
    node_options.prefix = lambda text: ipaddress.ip_network(text, strict=False)
    node_options.neighbour = lambda text: neighbour(text if text.count(":") > 1 else f"{text}:10.0.0.1")
    daemon.Table.expect_room = lambda *_: None
    daemon.next_boot = lambda *_: 1
    daemon.locked = lambda target: None


def deaf(daemon):
    """After USR1 a daemon hears nothing from router 1."""
    parts, silent = daemon.Router.parts, set()
    signal.signal(signal.SIGUSR1, lambda *_: silent.add(1))
    daemon.Router.parts = lambda self, number, data: None if number in silent else parts(self, number, data)


PLANTS = keeps_ways, keeps_gates, has_no_last_route, believes_one_way, keeps_no_file, has_one_number, goes_on
MORE = does_not_end_well, takes_all, refuses_nothing, deaf, says_little, tells_refusals
KINDS = {it.__name__.replace("_", " "): it for it in (*PLANTS, *MORE)}
PAIR, CHAIN = [("r1", "r0")], [("r1", "r0"), ("r2", "r1")]
RING = [("r2", "r0"), ("r3", "r0"), ("r2", "r1"), ("r3", "r1")]
CASES = (
    Case(fewer_neighbours, RING, {"keeps ways": "loop", "keeps gates": "keeps the gates"}),
    Case(default_route, CHAIN, {"has no last route": "until they expire"}),
    Case(one_way, [*CHAIN, ("r2", "r0")], {"believes one way": "by another way"}),
    Case(boot_numbers, PAIR, {"keeps no file": "not in the file"}),
    Case(same_number, CHAIN, {"has one number": "loop"}),
    Case(later_start, CHAIN, {"goes on": "does not end"}),
    Case(ends, PAIR, {"does not end well": "r1 keeps"}),
    Case(two_targets, PAIR, {"takes all": "is gone"}),
    Case(errors_of_users, CHAIN, {"refuses nothing": NOT_REFUSED}),
)


def failure(case, kind=""):
    """What is wrong with a kind of daemon in a case, or an empty text."""
    lab = Some(case.links, kind)
    try:
        case.happens(lab)
    except (Wrong, TimeoutError) as why:
        return "; ".join([str(why), *lab.ended()])
    finally:
        lab.close()
    return ""


def failure_elsewhere(job):
    """The failure of a kind of daemon in a case, which runs beside others in a network of its own."""
    case, kind = job
    words = ["unshare", "--net", "--mount", sys.executable, "-S", PLANTED, CASE, case.happens.__name__, kind]
    how = {"env": inside.environment(), "preexec_fn": die_with_parent}
    ran = subprocess.run([*map(str, words)], stdout=subprocess.PIPE, stderr=subprocess.STDOUT, text=True, **how)
    return ran.stdout.strip()


def check_daemon():
    """Runs all cases with the daemon, and returns what is wrong and what was seen."""
    return looked_at([(case, "") for case in CASES])


def check():
    """The same with the planted daemons too. On a busy machine one of these may be too slow to do its harm."""
    jobs = [(case, kind) for case in CASES for kind in ("", *case.planted)]
    wrong, seen = looked_at(jobs)
    return wrong, f"{seen}; {len(jobs) - len(CASES)} planted faults seen"


def looked_at(jobs):
    """Runs cases, each with a kind of daemon, and returns what is wrong and what was seen."""
    with ThreadPoolExecutor(os.cpu_count()) as pool:
        failures = [*pool.map(failure_elsewhere, jobs)]
    wrong = []
    for (case, kind), why in zip(jobs, failures):
        if not kind and why:
            wrong.append(f"{case.happens.__name__}: {why}")
        if kind and case.planted[kind] not in why:
            wrong.append(f"the check is blind: with a daemon that {kind} it saw '{why}'")
    return wrong, f"{len(CASES)} cases of a few routers without a controller"


def run_case(name, kind=""):
    """Prints what is wrong in a case. What it mounts is seen by this process only."""
    for it in (STATE, STATE.with_name("netns")):
        it.mkdir(exist_ok=True)
        namespaces.run("mount", "-t", "tmpfs", "tmpfs", str(it))
    print(failure(next(it for it in CASES if it.happens.__name__ == name), kind))


def run(kinds, *words):
    """Runs a daemon of some kinds."""
    import node_daemon

    for it in kinds.split("+"):
        KINDS[it](node_daemon)
    node_daemon.main(words)


if __name__ == "__main__":
    run_case(*sys.argv[2:]) if sys.argv[1] == CASE else run(*sys.argv[1:])
