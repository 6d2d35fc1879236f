"""Floods one link of the three routers of docs/DAEMON.md, from the side of router 2: by datagrams with a wrong seal, by what router 2 has
said before, and by hellos of router 2 that have the right seal. Each time router 1 has to say its hellos in time, to answer a
command, and to take no more memory, and no router may lose a neighbour.

usage: checks/daemon/flood.py REVROUTED
"""

import contextlib
import hashlib
import hmac
import os
import signal
import socket
import struct
import sys
import threading
import time
from itertools import islice
from pathlib import Path

sys.dont_write_bytecode = True
import lab
from lab import ROUTERS, STATE, done, events, expect, soon
from namespaces import entered

SECRET, NUMBER, DEVICE = "a secret of the flood", 1, "to1"
GROUP, PORT, HOP_LIMIT, ALL_PROTOCOLS = "ff12::7276:7274", 6465, 255, 0x0003
# The parts of a datagram, as daemon/src/datagram.rs has them, behind the heads of Ethernet, IPv6 and UDP.
HEADS, SEAL, MOST_BYTES, KEY_AT, COUNT_AT, HELLO, NEWS = 14 + 40 + 8, 16, 1232, 2, 17, b"RH", b"RN"
SECONDS_OF_FLOOD, MOST_IN_A_FLOOD, SECONDS_TO_RECORD, WAYS = 5, 250_000, 3, ("strangers", "replays", "a neighbour")
# Hellos come each second. A busy machine may be late by as much again, and more would be a cause to doubt.
MOST_SECONDS_BETWEEN, MOST_GROWTH, LEAST_A_SECOND, TRIES, SECONDS_IN_ALL = 2.5, 256, 2000, 4, 400


class Ear(threading.Thread):
    """What goes over the link: what router 2 says, and when router 1 says hello."""

    def __init__(self):
        super().__init__(daemon=True)
        with entered("router2"):
            self.socket = socket.socket(socket.AF_PACKET, socket.SOCK_RAW, socket.htons(ALL_PROTOCOLS))
        self.socket.bind((DEVICE, ALL_PROTOCOLS))
        self.said, self.hellos, self.records = [], [], True
        self.start()

    def run(self):
        # the link goes with the lab
        with contextlib.suppress(OSError):
            self.listen()

    def listen(self):
        while True:
            data, at = self.socket.recvfrom(2048)
            content = data[HEADS:]
            if content[:KEY_AT] not in (HELLO, NEWS):
                continue
            if at[2] == socket.PACKET_OUTGOING:
                if self.records:
                    self.said.append(content)
            elif content.startswith(HELLO):
                self.hellos.append(time.monotonic())


def sealed(content):
    return content + hmac.digest(SECRET.encode(), content, hashlib.sha256)[:SEAL]


def datagrams(kind, said):
    """What a flood consists of, without an end."""
    hellos = [it[:-SEAL] for it in said if it.startswith(HELLO)]
    stranger = hellos[-1][: KEY_AT + 1] + bytes(MOST_BYTES - KEY_AT - 1)
    series, count = os.urandom(4), 0
    while True:
        count += 1
        if kind == "strangers":
            yield stranger
        elif kind == "replays":
            yield said[count % len(said)]
        else:
            yield sealed(hellos[-1][:COUNT_AT] + series + struct.pack(">I", count) + hellos[-1][COUNT_AT + 8 :])


def flood(prepared):
    """Sends as fast as it can, for some seconds at most. Returns how many datagrams there were in a second."""
    with entered("router2"):
        out = socket.socket(socket.AF_INET6, socket.SOCK_DGRAM)
        index = socket.if_nametoindex(DEVICE)
    out.setsockopt(socket.IPPROTO_IPV6, socket.IPV6_MULTICAST_HOPS, HOP_LIMIT)
    out.setsockopt(socket.IPPROTO_IPV6, socket.IPV6_MULTICAST_LOOP, 0)
    out.connect((GROUP, PORT, 0, index))
    begun, count = time.monotonic(), 0
    for it in prepared:
        out.send(it)
        count += 1
        if count % 64 == 0 and time.monotonic() - begun > SECONDS_OF_FLOOD:
            break
    return round(count / (time.monotonic() - begun))


def in_a_child(prepared):
    """The same in a process of its own, so that what watches is not held up."""
    reader, writer = os.pipe()
    if not (child := os.fork()):
        os.write(writer, str(flood(prepared)).encode())
        os._exit(0)
    os.close(writer)
    return child, reader


def resident():
    text = Path("/proc", (STATE / "1.pid").read_text().strip(), "status").read_text()
    return int(next(line.split()[1] for line in text.splitlines() if line.startswith("VmRSS:")))


def with_key():
    """All routers take a key, by HUP."""
    for it in ROUTERS:
        with open(STATE / f"{it}.toml", "a") as file:
            file.write(f'[[key]]\nnumber = {NUMBER}\nsecret = "{SECRET}"\n')
    for it in ROUTERS:
        os.kill(int((STATE / f"{it}.pid").read_text()), signal.SIGHUP)
    expect(soon(lambda: lab.all_arrive(*ROUTERS)), "not all arrive with a key")


def bear(ear, kind):
    """One flood. Returns how many datagrams there were in a second, and what came too late, if anything did."""
    before, downs = resident(), [events(it).count("is down") for it in ROUTERS]
    prepared = [*islice(datagrams(kind, ear.said), MOST_IN_A_FLOOD)]
    ear.hellos.clear()
    child, reader = in_a_child(prepared)
    begun = time.monotonic()
    done("ask", 1, "status")
    answered = time.monotonic() - begun
    rate = int(os.read(reader, 32) or 0)
    os.waitpid(child, 0)
    os.close(reader)
    times = [begun, *ear.hellos, time.monotonic()]
    gap = max(after - it for it, after in zip(times, times[1:]))
    expect(resident() <= before + MOST_GROWTH, f"{kind}: router 1 takes {resident()} KiB, and took {before}")
    if rate < LEAST_A_SECOND:
        return rate, f"a flood of only {rate} datagrams a second"
    if gap > MOST_SECONDS_BETWEEN:
        return rate, f"{kind}: {gap:.1f} seconds between two hellos of router 1"
    if answered > SECONDS_OF_FLOOD:
        return rate, f"{kind}: a command is answered after {answered:.1f} seconds"
    if [events(it).count("is down") for it in ROUTERS] != downs:
        return rate, f"{kind}: a neighbour is lost: {events(1)}{events(2)}"
    return rate, None


def bear_in_time(ear, kind):
    """The same, once more if something came too late: other work on the machine may be the cause. Returns the datagrams in a second."""
    for _ in range(TRIES):
        rate, late = bear(ear, kind)
        if not late:
            return rate
        expect(soon(lambda: lab.all_arrive(*ROUTERS)), "not all arrive after a flood")
    raise lab.Wrong(late)


def check():
    lab.first_network()
    with_key()
    ear = Ear()
    time.sleep(SECONDS_TO_RECORD)
    ear.records = False
    expect(ear.said, f"router 2 says nothing in {SECONDS_TO_RECORD} seconds")
    rates = ", ".join(f"{bear_in_time(ear, it):,} of {it}" for it in WAYS)
    expect(lab.all_arrive(*ROUTERS), "not all arrive after the floods")
    return f"daemon: floods of datagrams in a second do no harm: {rates}"


if __name__ == "__main__":
    sys.exit(lab.main(check, SECONDS_IN_ALL))
