"""Starts a lab in a network and with mounts of its own, with the Python package of the engine."""

import ctypes
import importlib.util
import os
import shutil
import signal
import sys
import zipfile
from pathlib import Path

from kernels import HUB
from namespaces import RUN, ip, run, set_sysctls

HERE = Path(__file__).resolve().parent
SECONDS_IN_ALL = 240
# What is needed, and the Debian package that has it.
NEEDED = {"ip": "iproute2", "unshare": "util-linux", "mount": "mount"}
# What the call unshare takes apart, by its names in sched.h.
NEW_MOUNTS, NEW_USER, NEW_NETWORK = 0x00020000, 0x10000000, 0x40000000
libc = ctypes.CDLL(None, use_errno=True)


class LeftOut(Exception):
    """There can be no lab here: why, and the Debian package that would help, if there is one."""

    def __init__(self, why, package="-"):
        self.why, self.package = why, package


def unpacked(package):
    """The folder that the package can be imported from. A wheel is unpacked where it ends with the lab."""
    if package.suffix != ".whl":
        return package
    folder = Path(RUN, "package")
    with zipfile.ZipFile(package) as wheel:
        wheel.extractall(folder)
    return folder


def find_package(words):
    """The package that the words name, or None where Python finds it by itself, or where there is none."""
    if words:
        return Path(words[0])
    if importlib.util.find_spec("revroute"):
        return None
    return next((HERE.parents[1] / "embed" / "out").glob("revroute-*.whl"), None)


def environment():
    """What Python has to be told in another process: where the package is, and where to keep what it compiles."""
    package = Path(importlib.util.find_spec("revroute").origin).parents[1]
    return {**os.environ, "PYTHONPATH": str(package), "PYTHONPYCACHEPREFIX": f"{RUN}/compiled"}


def try_out():
    """Makes one of each thing that the lab consists of."""
    try:
        run("mount", "-t", "tmpfs", "tmpfs", RUN)
        ip("netns add r0", f"netns add {HUB}")
        set_sysctls("r0")
        ip("link add name r0 type veth peer name mgmt arp off netns r0", inside=HUB)
        ip("netns del r0", f"netns del {HUB}")
    except OSError as error:
        raise LeftOut(error) from None


def namespaces():
    """The network and the mounts of this process, as the kernel names them."""
    return {os.readlink(f"/proc/self/ns/{it}") for it in ("net", "mnt")}


def leave(kinds):
    """Takes this process into a network and mounts of its own. With NEW_USER a user becomes root there."""
    user, group = os.geteuid(), os.getegid()
    if libc.unshare(NEW_NETWORK | NEW_MOUNTS | kinds):
        raise OSError(ctypes.get_errno(), os.strerror(ctypes.get_errno()))
    if kinds & NEW_USER:
        for name, text in (("setgroups", "deny"), ("uid_map", f"0 {user} 1"), ("gid_map", f"0 {group} 1")):
            Path("/proc/self", name).write_text(text)
    run("mount", "--make-rprivate", "/")


def go_inside(more={}):
    """Takes this process into a network and mounts of its own, as root or as a user who is root there. The process does
    so itself, whatever its environment says, and compares what the kernel says before and after. `more` is needed as well."""
    if sys.platform != "linux":
        raise LeftOut("this is not Linux")
    os.environ["PATH"] = os.environ.get("PATH", os.defpath) + ":/usr/sbin:/sbin"
    for needed, package in {**NEEDED, **more}.items():
        if not shutil.which(needed):
            raise LeftOut(f"there is no {needed}", package)
    outside = namespaces()
    for kinds in (0, NEW_USER):
        try:
            leave(kinds)
        except OSError as error:
            why = error
        else:
            if outside & namespaces():
                raise LeftOut("this process has no network and mounts of its own")
            return
    raise LeftOut(why)


def take_too_long(*_):
    """Ends all at once, whatever a command or a thread waits for."""
    print("linux: WRONG: it takes too long", flush=True)
    os._exit(1)


def enter(what, seconds=SECONDS_IN_ALL, more={}):
    """Takes this process there, with so many seconds for all. If there can be no lab here, it prints `what` and ends."""
    signal.signal(signal.SIGALRM, take_too_long)
    signal.alarm(seconds)
    try:
        go_inside(more)
        try_out()
    except LeftOut as it:
        leave_out(what, it)


def leave_out(what, it):
    print(f"skipped: {what}, since {' '.join(str(it.why).split())}: {it.package}")
    sys.exit(0)


def end(wrong, seen):
    """Prints what is wrong or else what was seen, and ends this process."""
    for it in wrong:
        print("WRONG:", it)
    print(f"linux: {len(wrong)} wrong ends" if wrong else f"linux: {seen}")
    sys.exit(1 if wrong else 0)


def start(what, check):
    """Runs a check of callers of the Python package there, prints what is wrong or else what it has seen, and ends this
    process. `what` is printed if there can be no lab here."""
    enter(what)
    if package := find_package([it for it in sys.argv[1:] if not it.startswith("--")]):
        sys.path.insert(0, str(unpacked(package)))
    if not importlib.util.find_spec("revroute"):
        sys.exit("linux: WRONG: there is no Python package of the engine; embed/build makes it")
    end(*check())
