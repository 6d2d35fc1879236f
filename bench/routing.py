"""How the daemons that bench/routers compares are configured and run: revrouted, and others with the timers that their operators would
choose for quick repairs."""

import os
import shutil
import subprocess
import sys
import time
from pathlib import Path
from typing import NamedTuple

TOP = Path(__file__).resolve().parent.parent
sys.path.insert(0, str(TOP / "examples" / "linux"))
import revrouted  # noqa: E402

FRR, SECONDS_TO_START = Path("/usr/lib/frr"), 10
BIRD = """
router id 10.0.0.{number};
protocol device {{ scan time 10; }}
protocol kernel {{ ipv4 {{ import none; export where net ~ [ {wanted} ] && source != RTS_DEVICE; }}; }}
protocol ospf v2 {{
  tick 1;
  ecmp yes;
  ipv4 {{ import all; export none; }};
  area 0 {{
    interface "r*" {{ type ptp; cost 10; hello 1; dead 4; retransmit 2; check link yes; }};
    {stub}
  }};
}}
"""
ZEBRA = """
no zebra nexthop kernel enable
{wanted}
route-map wanted permit 10
 match ip address prefix-list wanted
ip protocol {protocol} route-map wanted
"""
OSPF = """
{interfaces}
router ospf
 ospf router-id 10.0.0.{number}
 maximum-paths 16
 timers throttle spf 0 50 5000
 timers throttle lsa all 50
 timers lsa min-arrival 50
 network 10.1.0.0/16 area 0
{networks}
"""
OSPF_INTERFACE = """interface {device}
 ip ospf network point-to-point
 ip ospf hello-interval 1
 ip ospf dead-interval 4
 ip ospf retransmit-interval 2
 ip ospf cost 10
"""
ISIS = """
{interfaces}
interface lo
 ip router isis 1
 isis passive
router isis 1
 net 49.0001.0000.0000.{number:04}.00
 is-type level-2-only
 metric-style wide
 lsp-gen-interval 1
 spf-delay-ietf init-delay 0 short-delay 50 long-delay 5000 holddown 5000 time-to-learn 500
"""
ISIS_INTERFACE = """interface {device}
 ip router isis 1
 isis circuit-type level-2-only
 isis network point-to-point
 isis hello-interval 1
 isis hello-multiplier 4
 no isis hello padding
"""
BABEL = """
skip-kernel-setup true
link-detect true
{settings}
{interfaces}
{announced}
redistribute local deny
"""


class Place(NamedTuple):
    """A router on which a daemon is to be run: a folder for files, its number from 1, its name, its devices, the prefixes that it announces, and
    those that all routers announce."""

    folder: Path
    number: int
    name: str
    devices: list
    announced: list
    wanted: list

    def write(self, kind, form, **words):
        file = self.folder / f"{self.name}.{kind}"
        file.write_text(form.format(number=self.number, **words))
        return file


def addressed(name, links):
    """What `ip` has to do for the addresses of a router's links."""
    ends = [(v if u == name else u, f"10.1.{at}.{int(u == name)}/31") for at, (u, v) in enumerate(links) if name in (u, v)]
    return [f"address add {address} dev {device}" for device, address in ends]


class Bird:
    """OSPF by BIRD."""

    def is_there(self):
        return shutil.which("bird")

    def commands(self, at):
        stub = 'interface "lo" { stub yes; };' if at.announced else ""
        config = at.write("conf", BIRD, stub=stub, wanted=", ".join(at.wanted))
        yield "bird", "-f", "-c", config, "-s", at.folder / f"{at.name}.ctl", "-P", at.folder / f"{at.name}.pid"


class Frr:
    """A protocol by FRR, with the daemon zebra, which writes to the kernel. FRR runs without its kernel nexthops, which Linux deletes with
    the carrier, so that it would lose routes."""

    def is_there(self):
        return (FRR / self.daemon).exists()

    def commands(self, at):
        room, socket = at.folder / f"{at.name}.frr", at.folder / f"{at.name}.socket"
        room.mkdir(exist_ok=True)
        socket.unlink(missing_ok=True)
        for it in (at.folder, room):
            shutil.chown(it, "frr", "frr")
        lines = (f"ip prefix-list wanted seq {5 * (place + 1)} permit {it}" for place, it in enumerate(at.wanted))
        zebra = at.write("zebra", ZEBRA, protocol=self.protocol, wanted="\n".join(lines))
        words = ["-u", "frr", "-g", "frr", "-z", socket, "--vty_socket", room, "-P", "0"]
        yield FRR / "zebra", *words, "-f", zebra, "-i", at.folder / f"{at.name}.zebra-pid"
        end = time.monotonic() + SECONDS_TO_START
        while not socket.exists():
            if time.monotonic() > end:
                raise OSError(f"zebra does not start on {at.name}")
            time.sleep(0.002)
        yield FRR / self.daemon, *words, "-f", self.configuration(at), "-i", at.folder / f"{at.name}.{self.daemon}-pid"


class Ospf(Frr):
    protocol, daemon = "ospf", "ospfd"

    def configuration(self, at):
        interfaces = "".join(OSPF_INTERFACE.format(device=it) for it in at.devices)
        networks = "\n".join(f" network {it} area 0" for it in at.announced)
        return at.write("ospfd", OSPF, interfaces=interfaces, networks=networks)


class Isis(Frr):
    """It announces all addresses of the device lo."""

    protocol, daemon = "isis", "isisd"

    def configuration(self, at):
        return at.write("isisd", ISIS, interfaces="".join(ISIS_INTERFACE.format(device=it) for it in at.devices))


class Babel:
    """The daemon babeld, with its default timers or with quick ones."""

    def __init__(self, is_quick):
        self.settings, self.timers = ("smoothing-half-life 0", "hello-interval 0.2 update-interval 1") if is_quick else ("", "")

    def is_there(self):
        return shutil.which("babeld")

    def commands(self, at):
        interfaces = "\n".join(f"interface {it} type wired {self.timers}" for it in at.devices)
        announced = "\n".join(f"redistribute local ip {it} allow" for it in at.announced)
        config = at.write("babel", BABEL, settings=self.settings, interfaces=interfaces, announced=announced)
        pid = at.folder / f"{at.name}.babel-pid"
        pid.unlink(missing_ok=True)
        yield "babeld", "-c", config, "-I", pid, "-S", at.folder / f"{at.name}.babel-state"


class Revrouted:
    """The daemon revrouted, with its default timers."""

    def __init__(self, program):
        self.program = program

    def is_there(self):
        return self.program

    def commands(self, at):
        state = at.folder / f"{at.name}.revrouted"
        state.mkdir(exist_ok=True)
        text = revrouted.configuration(at.number, state, at.announced, revrouted.HELLO_AND_DEAD)
        config = at.write("toml", "{text}", text=text)
        yield revrouted.words(self.program, config)


def find_daemon():
    try:
        return revrouted.find_program()
    except revrouted.NotThere as why:
        print(f"bench/routers: no row of revrouted: {why}", file=sys.stderr)
        return None


def protocols():
    """The daemons that are there, by the names of their rows."""
    all_of = {
        "BIRD, OSPF": Bird(),
        "FRR, OSPF": Ospf(),
        "FRR, IS-IS": Isis(),
        "babeld, default timers": Babel(is_quick=False),
        "babeld, quick timers": Babel(is_quick=True),
        "revroute, revrouted": Revrouted(find_daemon()),
    }
    return {name: it for name, it in all_of.items() if it.is_there()}


def versions():
    """What runs here, and the load of the machine."""
    yield f"Linux {os.uname().release}"
    for words in (["bird", "--version"], [FRR / "zebra", "--version"], ["babeld", "-V"]):
        if shutil.which(words[0]):
            said = subprocess.run(words, text=True, stdout=subprocess.PIPE, stderr=subprocess.STDOUT).stdout
            yield said.splitlines()[0].strip(" .")
    yield f"load {os.getloadavg()[0]:.1f}"
