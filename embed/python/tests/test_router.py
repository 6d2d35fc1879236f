"""Tests the daemon router.py: five processes in a ring, one of which is killed and started again."""

import json
import socket
import subprocess
import sys
import threading
import time
import unittest
from pathlib import Path

DAEMON = Path(__file__).resolve().parent.parent / "router.py"
ROUTERS = 5
SECONDS = 60


def free_ports():
    """Ports that are free now."""
    held = [socket.socket(socket.AF_INET, socket.SOCK_DGRAM) for _ in range(ROUTERS)]
    for it in held:
        it.bind(("127.0.0.1", 0))
    ports = [it.getsockname()[1] for it in held]
    for it in held:
        it.close()
    return ports


class Ring:
    """The processes, and the last table that each has printed."""

    def __init__(self):
        self.ports, self.tables, self.running = free_ports(), {}, {}
        for me in range(ROUTERS):
            self.start(me)

    def start(self, me):
        words = [f"{it % ROUTERS}:{self.ports[it % ROUTERS]}" for it in (me - 1, me + 1)]
        process = subprocess.Popen([sys.executable, "-B", DAEMON, str(me), str(self.ports[me]), *words], stdout=subprocess.PIPE, text=True)
        reading = threading.Thread(target=self.follow, args=(me, process))
        reading.start()
        self.running[me] = process, reading

    def follow(self, me, process):
        with process.stdout:
            for line in process.stdout:
                self.tables[me] = json.loads(line)

    def stop(self, me):
        process, reading = self.running.pop(me)
        process.kill()
        process.wait()
        reading.join()
        self.tables.pop(me, None)

    def wait(self, is_wanted):
        """Waits until the tables are as wanted."""
        until = time.monotonic() + SECONDS
        while not is_wanted(self.tables.copy()):
            if time.monotonic() > until:
                raise AssertionError(self.tables)
            time.sleep(0.05)


def all_lead_home(tables):
    """Whether all routers run, and the nearest ways of each lead to the gateway, through gates that are open."""
    for me in range(ROUTERS):
        for _ in range(ROUTERS):
            ways = tables.get(me, {}).get("ways")
            if ways and me in tables.get(ways[0], {}).get("gates", []):
                me = ways[0]
        if me != 0:
            return False
    return len(tables) == ROUTERS


def go_round(tables):
    """Whether the routers without router 1 send packets round the other side of the ring."""
    wanted = {0: ([], 0), 2: ([3], 3), 3: ([4], 2), 4: ([0], 1)}
    return {me: (it["ways"], it["distance"]) for me, it in tables.items()} == wanted


class RouterTest(unittest.TestCase):
    def test_a_ring_of_processes_heals(self):
        ring = Ring()
        try:
            ring.wait(all_lead_home)
            ring.stop(1)
            ring.wait(go_round)
            ring.start(1)
            ring.wait(all_lead_home)
        finally:
            for it in [*ring.running]:
                ring.stop(it)


if __name__ == "__main__":
    unittest.main()
