"""Network namespaces of this machine, which are the routers of a lab: commands within them, their settings, links and devices."""

import contextlib
import ctypes
import fcntl
import os
import struct
import subprocess
from pathlib import Path

SECONDS_TO_RUN = 60
THREAD, RUN = "/proc/thread-self", os.path.realpath("/var/run")
SYSCTLS = {
    "ip_forward": 1,
    # each error counts: none may be held back
    "icmp_ratemask": 0,
    "icmp_ratelimit": 0,
    # a probe that comes back to its sender goes on, as in any loop
    "conf/all/accept_local": 1,
    # a plain route over a link without carrier is not used: its packets would vanish without being counted
    "conf/all/ignore_routes_with_linkdown": 1,
}
OFF = "rp_filter", "send_redirects", "accept_redirects"
SYSCTLS |= {f"conf/{devices}/{name}": 0 for devices in ("all", "default") for name in OFF}
CLONE_NEWNET, SIOCGIFFLAGS, SIOCSIFFLAGS, IFF_UP, IFF_RUNNING = 0x40000000, 0x8913, 0x8914, 0x1, 0x40
# Linux takes up to a second to see that a link is up if its two ends have the same index.
FIRST_INDEX = 100
DIE_WITH_PARENT = 1
libc = ctypes.CDLL(None, use_errno=True)


def run(*words, given=None):
    """Runs a command, which has to end with status 0."""
    pipes = {"stdout": subprocess.PIPE, "stderr": subprocess.STDOUT}
    ran = subprocess.run([*map(str, words)], input=given, text=True, timeout=SECONDS_TO_RUN, **pipes)
    if ran.returncode:
        raise OSError(f"{' '.join(map(str, words))}: {ran.stdout.strip() or ran.returncode}")


def ip(*lines, inside=None):
    """Has `ip` do what the lines say, in a router's namespace or in that of the lab."""
    run("ip", *(["-n", inside] if inside else []), "-batch", "-", given="\n".join(lines) + "\n")


@contextlib.contextmanager
def entered(router):
    """Within a router's namespace: what this thread opens there stays there."""
    with open(f"{THREAD}/ns/net") as home, open(f"{RUN}/netns/{router}") as there:
        enter(there)
        try:
            yield
        finally:
            enter(home)


def enter(space):
    if libc.setns(space.fileno(), CLONE_NEWNET):
        raise OSError(ctypes.get_errno(), "setns")


def die_with_parent():
    """For a process that is started: it ends with this one."""
    libc.prctl(DIE_WITH_PARENT, 9)


def set_sysctls(router, family=4, values=SYSCTLS):
    with entered(router):
        for name, value in values.items():
            Path(f"/proc/sys/net/ipv{family}", name).write_text(str(value))


def index_of(number):
    """The index of a device that leads to the router with a number."""
    return FIRST_INDEX + number


def link_lines(names, links):
    """What `ip` has to do for links by veth. Each end has the name of the router at the other, and an index by its number."""
    ends = {name: f"name {name} index {index_of(at)}" for at, name in enumerate(names)}
    return [f"link add {ends[v]} netns {u} type veth peer {ends[u]} netns {v}" for u, v in links]


def beside(name, links):
    """The neighbours of a router, by which its devices are named."""
    return [v if u == name else u for u, v in links if name in (u, v)]


class Devices:
    """The devices of a router, as a socket of its namespace sees them."""

    def __init__(self, socket):
        self.socket = socket

    def flags(self, device):
        asked = struct.pack("16sH14x", device.encode(), 0)
        return struct.unpack("16sH14x", fcntl.ioctl(self.socket, SIOCGIFFLAGS, asked))[1]

    def is_running(self, device):
        return bool(self.flags(device) & IFF_RUNNING)

    def set_device(self, device, is_up):
        """Sets a device up or down. The other end of its link gets or loses its carrier by that."""
        flags = self.flags(device) & ~IFF_UP | (IFF_UP if is_up else 0)
        fcntl.ioctl(self.socket, SIOCSIFFLAGS, struct.pack("16sH14x", device.encode(), flags))


class Counters:
    """The counters of a router's kernel, by the names of files in /proc/net."""

    def __init__(self, name, files):
        with entered(name):
            self.files = {it: os.open(f"{THREAD}/net/{it}", os.O_RDONLY) for it in files}

    def close(self):
        for file in self.files.values():
            os.close(file)

    def read(self, name):
        return os.pread(self.files[name], 1 << 20, 0).decode().splitlines()

    def counts(self, file, group):
        """The counters of a group of the kernel's."""
        names, values = (line.split()[1:] for line in self.read(file) if line.startswith(f"{group}: "))
        return dict(zip(names, map(int, values)))

    def count(self, file, group, name):
        """A counter of the kernel's."""
        return self.counts(file, group)[name]
