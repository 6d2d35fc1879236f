"""A router without a controller: one process for each router, with UDP between neighbours on this machine.

usage: router.py ME PORT NEIGHBOUR:PORT..            (router 0 is the gateway)

It prints its table as a line of JSON whenever the table changes. In a real router `write` changes the forwarding table
and the filters of the system. The node loses a link that has not worked both ways for PATIENCE ticks.
"""

import json
import socket
import sys
import time

from revroute import LaterStart, Node, NotAMessage

HELLO, PATIENCE, CEILING = 0.1, 5, 64
NOTHING = {"ways": [], "gates": [], "distance": None}


def write(table):
    """Close the gates that are not listed, change the ways, then open gates. Return once the system has confirmed it."""
    print(json.dumps(table), flush=True)


class Router:
    def __init__(self, me, port, neighbours):
        # The boot number has to grow: this clock must not go back. A counter in a file would do as well.
        boot = time.time_ns()
        self.node = Node(me, boot, ceiling=CEILING) if me else Node.gateway(me, boot)
        self.addresses = {number: ("127.0.0.1", at) for number, at in neighbours.items()}
        self.table = NOTHING
        for number in neighbours:
            self.node.know(number)
            self.node.link_up(number)
        self.socket = socket.socket(socket.AF_INET, socket.SOCK_DGRAM)
        self.socket.bind(("127.0.0.1", port))
        # An earlier process may have left its ways and gates in the system.
        write(self.table)
        self.write()

    def listen(self, seconds):
        """Waits for one datagram. Returns whether there was an event."""
        self.socket.settimeout(max(seconds, 0.001))
        try:
            data, address = self.socket.recvfrom(2048)
        except socket.timeout:
            return False
        if address not in self.addresses.values():
            return False
        try:
            self.node.hear(data)
        except NotAMessage:
            return False
        except LaterStart:
            write(NOTHING)
            sys.exit("The clock has gone back, or another router has the same number.")
        return True

    def write(self):
        while self.node.act():
            pass
        ways, gates, state = self.node.table()
        table = {"ways": ways, "gates": gates, "distance": self.node.distance}
        if table != self.table:
            write(table)
            self.table = table
        self.node.written(state)

    def speak(self, is_time):
        """Sends news at once, and everything again when it is time."""
        for number, address in self.addresses.items():
            if is_time or self.node.has_news(number):
                self.socket.sendto(self.node.say(number), address)

    def run(self):
        next_time = time.monotonic()
        while True:
            is_event = self.listen(next_time - time.monotonic())
            is_time = time.monotonic() >= next_time
            if is_time:
                next_time = time.monotonic() + HELLO
                is_event = self.node.tick(PATIENCE) or is_event
            if is_event:
                self.write()
            self.speak(is_time)


if __name__ == "__main__":
    number, port, *others = sys.argv[1:]
    Router(int(number), int(port), {int(it): int(at) for it, _, at in (other.partition(":") for other in others)}).run()
