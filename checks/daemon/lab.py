"""Three routers with the daemon, in network namespaces, as docs/DAEMON.md has them. Its commands are those of
examples/linux/three-routers.

usage: checks/daemon/lab.py REVROUTED
"""

import contextlib
import json
import os
import signal
import socket
import statistics
import subprocess
import sys
import time
from pathlib import Path

TOP = Path(__file__).resolve().parents[2]
sys.dont_write_bytecode = True
sys.path.insert(0, str(TOP / "examples" / "linux"))
import inside  # noqa: E402
from daemon_network import built  # noqa: E402
from namespaces import RUN, entered  # noqa: E402

PROGRAM, STATE, ROUTERS, PORT = TOP / "examples" / "linux" / "three-routers", Path(RUN, "three-routers"), (1, 2, 3), 7
ADDRESSES = {it: (f"10.0.{it}.1", f"fd00:{it}::1") for it in ROUTERS}
PREFIXES = [f"10.0.{it}.0/24" for it in ROUTERS] + [f"fd00:{it}::/48" for it in ROUTERS]
# A busy machine may take long for what takes milliseconds on an idle one.
SECONDS, SECONDS_IN_ALL, DEAD = 30, 200, 4
# It takes some milliseconds where processors are free.
MOST_TO_SERVE = 2
MINE, RESTARTS = "77", 3


class Wrong(Exception):
    """The lab has to end, and why."""


def call(*words):
    """Runs the program of the page, and returns how it ended and what it printed."""
    ran = subprocess.run([PROGRAM, *map(str, words)], stdout=subprocess.PIPE, stderr=subprocess.STDOUT, text=True, timeout=SECONDS)
    return ran.returncode, ran.stdout


def done(*words):
    status, said = call(*words)
    if status:
        raise Wrong(f"three-routers {' '.join(map(str, words))}: status {status}: {said}")
    return said


def routes(router):
    return {it["prefix"]: it for it in json.loads(done("ask", router, "routes", "--json"))}


def events(router):
    """What has happened at a router. The command would go on, so it is ended."""
    program = (STATE / "program").read_text().strip()
    asked = [program, "events", "--control", STATE / f"{router}.control"]
    with subprocess.Popen(asked, stdout=subprocess.PIPE, text=True) as it:
        time.sleep(0.5)
        it.terminate()
        return it.stdout.read()


def soon(is_so, seconds=SECONDS):
    """Waits until something is so, and returns how long that took."""
    begun = time.monotonic()
    while not is_so():
        if time.monotonic() - begun > seconds:
            return None
        time.sleep(0.05)
    return time.monotonic() - begun


def expect(is_so, wrong):
    if is_so is None or is_so is False:
        raise Wrong(wrong)
    return is_so


def arrives(source, to, family):
    """Whether a datagram from one router arrives at another one."""
    kind = socket.AF_INET if family == 0 else socket.AF_INET6
    with entered(f"router{to}"):
        sink = socket.socket(kind, socket.SOCK_DGRAM)
    with entered(f"router{source}"):
        sender = socket.socket(kind, socket.SOCK_DGRAM)
    with sink, sender:
        sink.bind((ADDRESSES[to][family], PORT))
        sink.settimeout(0.2)
        sender.bind((ADDRESSES[source][family], 0))
        try:
            sender.sendto(b"?", (ADDRESSES[to][family], PORT))
            return sink.recv(8) == b"?"
        except OSError:
            return False


def all_arrive(*routers):
    return all(arrives(u, v, family) for u in routers for v in routers if u != v for family in (0, 1))


def of_daemon(router, *words):
    return [it for it in done("on", router, "ip", *words, "proto", MINE).splitlines() if it.strip()]


def first_network():
    """All routers come to reach each other, over the links between them."""
    done("up", os.environ["REVROUTED"])
    expect(soon(lambda: all((STATE / f"{it}.control").exists() for it in ROUTERS)), "a daemon does not start")
    reached = lambda it: sorted(routes(it)) == sorted(PREFIXES) and all(at["written"] for at in routes(it).values())
    expect(soon(lambda: all(map(reached, ROUTERS))), f"not all prefixes are known: {[*map(routes, ROUTERS)]}")
    expect(soon(lambda: all_arrive(*ROUTERS)), f"not all arrive: {[*map(routes, ROUTERS)]}")
    expect(soon(lambda: routes(1)["10.0.2.0/24"]["ways"][:1] == [2]), "the way from 1 to 2 is not the link between them")


def lost_link():
    """A link loses its carrier, and has it again."""
    done("cut", 1, 2)
    took = expect(soon(lambda: all_arrive(*ROUTERS)), "not all arrive after a link was cut")
    expect(routes(1)["10.0.2.0/24"]["ways"][:1] == [3], f"router 1 has {routes(1)}")
    expect("router 2 is down: the carrier is lost" in events(1), f"the events do not say that: {events(1)}")
    done("join", 1, 2)
    expect(soon(lambda: routes(1)["10.0.2.0/24"]["ways"][:1] == [2] and all_arrive(*ROUTERS)), "the link is not used again")
    return took


def seconds_to_serve(source, to, begin):
    """How long after `begin` the first datagram arrives."""
    with entered(f"router{to}"):
        sink = socket.socket(socket.AF_INET, socket.SOCK_DGRAM)
    with entered(f"router{source}"):
        sender = socket.socket(socket.AF_INET, socket.SOCK_DGRAM)
    with sink, sender:
        sink.bind((ADDRESSES[to][0], PORT))
        sink.settimeout(0.002)
        sender.bind((ADDRESSES[source][0], 0))
        begun = time.monotonic()
        begin()
        while time.monotonic() - begun < SECONDS:
            # without a route it is not sent, or does not arrive in time
            with contextlib.suppress(OSError):
                sender.sendto(b"?", (ADDRESSES[to][0], PORT))
                sink.recv(8)
                return time.monotonic() - begun
    return None


def killed_process():
    """A process is killed, and its kernel keeps its tables. It starts again later. Returns how long it takes to be served then, in the middle of
    some times."""
    took = []
    for count in range(1, RESTARTS + 1):
        done("kill", 3)
        said = "router 3 is down: nothing is heard from it"
        expect(soon(lambda: events(1).count(said) >= count, SECONDS + DEAD), events(1))
        expect(all_arrive(1, 2), "routers 1 and 2 do not reach each other")
        expect(soon(lambda: not arrives(1, 3, 0)), "router 3 is still served, though its process was killed")
        took.append(expect(seconds_to_serve(1, 3, lambda: done("start", 3)), "router 3 is not served after a start"))
        expect(soon(lambda: all_arrive(*ROUTERS)), "not all arrive after a process was started again")
    expect(statistics.median(took) < MOST_TO_SERVE, f"router 3 is served {took} seconds after it was started")
    return statistics.median(took)


def ended_process():
    """TERM closes the gates and removes the ways. What drops stays."""
    before = of_daemon(2, "route", "show", "table", "all")
    expect(any("throw" in it for it in before) and any("nhid" in it for it in before), f"router 2 has {before}")
    os.kill(int((STATE / "2.pid").read_text()), signal.SIGTERM)
    left = lambda: of_daemon(2, "route", "show", "table", "all") + of_daemon(2, "-6", "route", "show", "table", "all")
    is_empty = lambda: not any("throw" in it or "nhid" in it for it in left())
    expect(soon(is_empty), f"router 2 keeps {left()}")
    expect(any("unreachable 10.0.1.0/24" in it for it in left()), f"router 2 drops nothing: {left()}")
    expect(soon(lambda: all_arrive(1, 3)), "routers 1 and 3 do not reach each other")
    done("start", 2)
    expect(soon(lambda: all_arrive(*ROUTERS)), "not all arrive after a process was started again")


def number_gone_back():
    """The boot number of a router goes back. Its neighbours know a later process, so it pauses, as its status says, and goes on
    with a greater number. The pause is short, so a busy machine may miss it."""
    boot, earlier = STATE / "3" / "boot", "5\n"

    def pause():
        status, said = call("ask", 3, "status", "--json")
        return None if status else json.loads(said)["pause_seconds"]

    def is_seen():
        done("kill", 3)
        boot.write_text(earlier)
        done("start", 3)
        return soon(pause, DEAD)

    expect(any(is_seen() is not None for _ in range(RESTARTS)), f"router 3 does not say that it pauses: {events(3)}")
    expect(soon(lambda: all_arrive(*ROUTERS)), "not all arrive after a boot number has gone back")
    expect("a neighbour knows a process with the number 3" in events(3), f"router 3 does not say why it pauses: {events(3)}")
    expect(boot.read_text() != earlier, "the boot number is not kept")


def reloaded():
    """A prefix is announced by HUP, and withdrawn again. A wrong file changes nothing."""
    file, pid, more = STATE / "1.toml", int((STATE / "1.pid").read_text()), "10.9.0.0/16"
    text = file.read_text()
    file.write_text(text.replace('"10.0.1.0/24"', f'"10.0.1.0/24", "{more}"').replace('"to*"', '"to*", "eth9"'))
    os.kill(pid, signal.SIGHUP)
    expect(soon(lambda: routes(3).get(more, {}).get("distance") == 1), f"router 3 does not know {more}")
    expect("interface eth9: there is none" in done("ask", 1, "status"), "status does not name an interface that is not there")
    expect("there is no interface eth9 yet" in events(1), "events do not name an interface that is not there")
    file.write_text("router = 1\nhelo = 2\n")
    os.kill(pid, signal.SIGHUP)
    expect(soon(lambda: "not reloaded: " in events(1)), "a wrong file is not refused")
    expect(routes(3)[more]["distance"] == 1 and all_arrive(*ROUTERS), "a wrong file has changed something")
    file.write_text(text)
    os.kill(pid, signal.SIGHUP)
    expect(soon(lambda: routes(3)[more]["distance"] is None), f"router 3 still has {routes(3)[more]}")
    expect(all_arrive(*ROUTERS), "not all arrive after a reload")


def wrong_words():
    """What is refused, with a cause and the status 2."""
    program, file = os.environ["REVROUTED"], STATE / "wrong.toml"
    tried = [
        (["check", "/nonexistent"], "/nonexistent: No such file"),
        (["check", file], f"{file}:2: "),
        (["status", "--control", "/nonexistent"], "Does the daemon run?"),
        (["run", "--config", STATE / "2.toml"], "another revrouted runs on this router"),
        (["frobnicate"], "frobnicate"),
    ]
    file.write_text("router = 1\ninterfaces = 3\n")
    for words, part in tried:
        asked = ["ip", "netns", "exec", "router1", program, *map(str, words)]
        ran = subprocess.run(asked, stdout=subprocess.PIPE, stderr=subprocess.STDOUT, text=True, timeout=SECONDS)
        expect(ran.returncode == 2 and part in ran.stdout, f"{words}: status {ran.returncode}: {ran.stdout}")
    # the socket of router 2 is in the file system of all of them
    elsewhere = [program, "run", "--config", str(STATE / "2.toml")]
    ran = subprocess.run(elsewhere, stdout=subprocess.PIPE, stderr=subprocess.STDOUT, text=True, timeout=SECONDS)
    expect(ran.returncode == 2 and "another process answers there already" in ran.stdout, f"the socket of another process: {ran.stdout}")
    expect(call("ask", 1, "metrics")[1].count("revrouted_neighbours_up 2") == 1, call("ask", 1, "metrics"))
    expect("NEIGHBOUR" in done("ask", 1, "status") and "PREFIX" in done("ask", 1, "routes"), "no table of neighbours or routes")


def refused_start():
    """A process that may not change routes, or whose kernel is too old, says so and ends with the status 2. It leaves nothing."""
    program, file, folder = os.environ["REVROUTED"], STATE / "4.toml", STATE / "4"
    folder.mkdir()
    file.write_text(f'router = 4\ninterfaces = ["to*"]\nstate = "{folder}"\ncontrol = "{folder}.control"\n')
    old = {"LD_PRELOAD": str(built("storm.c", "-shared", "-fPIC")), "STORM": "old=1"}
    tried = [(["setpriv", "--bounding-set", "-net_admin"], {}, "it needs CAP_NET_ADMIN"), ([], old, "it needs Linux 5.3")]
    for words, environment, part in tried:
        asked = [*words, program, "run", "--config", str(file)]
        how = {"stdout": subprocess.PIPE, "stderr": subprocess.STDOUT, "text": True, "timeout": SECONDS}
        ran = subprocess.run(asked, env={**os.environ, **environment}, **how)
        expect(ran.returncode == 2 and part in ran.stdout, f"{part}: status {ran.returncode}: {ran.stdout}")
        expect(not any(folder.iterdir()), f"{part}: it has used the folder of the boot number")


def check():
    first_network()
    took, started = lost_link(), killed_process()
    ended_process()
    number_gone_back()
    reloaded()
    wrong_words()
    refused_start()
    return f"daemon: three routers reach each other by IPv4 and IPv6, {took:.1f} s after a link is cut, {1000 * started:.0f} ms after a start"


def checked(check):
    """Runs a check of the three routers, which returns what it has seen. Returns the status."""
    try:
        print(check())
    except Wrong as it:
        for router in ROUTERS:
            log = STATE / f"{router}.log"
            print(f"router {router}:", log.read_text() if log.exists() else "no log")
        print("WRONG:", it)
        return 1
    finally:
        call("down")
    return 0


def main(check, seconds=SECONDS_IN_ALL):
    os.environ["REVROUTED"] = str(Path(sys.argv[1]).resolve())
    os.environ["STATE"] = str(STATE)
    signal.signal(signal.SIGALRM, inside.take_too_long)
    signal.alarm(seconds)
    try:
        inside.go_inside()
        inside.try_out()
    except inside.LeftOut as it:
        print(f"skipped: the lab of the daemon, since {' '.join(str(it.why).split())}: {it.package}")
        return 0
    return checked(check)


if __name__ == "__main__":
    sys.exit(main(check))
