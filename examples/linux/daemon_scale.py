"""What daemons take in a network in which nothing fails: how long they need to settle, and then processors, memory and bytes."""

import json
import os
import socket
import statistics
import time

from daemon_network import Announced, Network, announced_by_all, seconds_of
from namespaces import beside

SECONDS_TO_SETTLE, SECONDS_BETWEEN = 600, 0.2
# After a start, the kernels of neighbours ask for hardware addresses, and daemons ask these kernels once.
SECONDS_TO_REST = 6
# What a daemon says of a neighbour that is silent. If nothing fails, the machine is too busy for the timers.
SILENT = "nothing is heard from it", "its kernel does not answer"
LONGEST_ANSWER = 1 << 16
# What all daemons of the usual network may take together while nothing happens, and the KiB that one of them may take.
MOST_PROCESSORS, MOST_MEMORY = 0.04, 2048


def announced(names, count):
    """So many prefixes of both families: two addresses of each router, and then prefixes of all routers in turn."""
    some = announced_by_all(names)
    for it in range(count - len(some)):
        owner = [names[it // 2 % len(names)]]
        if it % 2:
            some.append(Announced(f"fd01:{it:x}::/48", f"fd01:{it:x}::1", owner))
        else:
            some.append(Announced(f"10.{100 + it // 256}.{it % 256}.0/24", f"10.{100 + it // 256}.{it % 256}.1", owner))
    return some[: max(count, 0)]


def status(network, name):
    """What `revrouted status --json` prints, or None while the daemon does not answer."""
    try:
        with socket.socket(socket.AF_UNIX) as asked:
            asked.connect(f"{network.state(name)}.control")
            asked.sendall(b"status\n")
            return json.loads(b"".join(iter(lambda: asked.recv(LONGEST_ANSWER), b"")))
    except (OSError, ValueError):
        return None


def is_settled(it, count, neighbours):
    """Whether a daemon reaches all prefixes, and has told all its neighbours."""
    if not it or it["refused"] or not it["reached"] == it["prefixes"] == count:
        return False
    return [one["up"] and one["listed"] and not one["pending"] for one in it["neighbours"]] == [True] * neighbours


def seconds_to_settle(network, count):
    """After how many seconds all daemons have settled."""
    begun, left = time.monotonic(), [*network.names]
    while left:
        left = [it for it in left if not is_settled(status(network, it), count, len(beside(it, network.links)))]
        if time.monotonic() - begun > SECONDS_TO_SETTLE:
            raise OSError(f"after {SECONDS_TO_SETTLE} seconds {len(left)} daemons have not settled, as {left[0]}: {network.last_line(left[0])}")
        time.sleep(SECONDS_BETWEEN * bool(left))
    return round(time.monotonic() - begun, 1)


def silences(network):
    """How often a daemon has noticed that a neighbour was silent, also in earlier parts."""
    logs = [network.log(it) for it in network.names]
    return sum(it.read_text().count(text) for it in logs if it.exists() for text in SILENT)


def idle(network, seconds):
    """What daemons take while nothing happens: processors of all and the most of one, and bytes and packets of all."""
    processes = [it.pid for it in network.processes()]
    sent, before, begun = network.sent(), [*map(seconds_of, processes)], time.monotonic()
    time.sleep(seconds)
    taken = [after - it for after, it in zip(map(seconds_of, processes), before)]
    after, span = network.sent(), time.monotonic() - begun
    per = [round((it - other) / span) for it, other in zip(after, sent)]
    return {"processors": round(sum(taken) / span, 4), "most of one": round(max(taken) / span, 5), "bytes/s": per[0], "packets/s": per[1]}


def measured(asked, daemon, names, links):
    """Starts daemons, starts one of them again, and waits. Returns the figures."""
    prefixes = announced(names, asked.prefixes)
    network = Network(names, links, prefixes, daemon)
    degrees = sorted(len(beside(it, links)) for it in names)
    before = silences(network)
    figures = {"routers": len(names), "links": len(links), "neighbours": [statistics.median(degrees), degrees[-1]], "prefixes": len(prefixes)}
    try:
        network.start(*names)
        figures["settled"] = seconds_to_settle(network, len(prefixes))
        figures["processor seconds to settle"] = round(network.seconds() / len(names), 2)
        time.sleep(SECONDS_TO_REST)
        figures["idle"] = idle(network, asked.quiet)
        memory = network.memory()
        figures["memory KiB"] = [round(statistics.median(memory)), max(memory)]
        sent = network.sent()[0]
        network.kill(names[0])
        network.start(names[0])
        figures["one starts again"] = seconds_to_settle(network, len(prefixes))
        figures["bytes for that"] = network.sent()[0] - sent
    finally:
        for key in "datagrams_sent", "datagrams_unanswered":
            figures[key] = sum((status(network, it) or {"counts": {key: 0}})["counts"][key] for it in names)
        figures["silences"] = silences(network) - before
        figures["load"] = round(os.getloadavg()[0], 1)
        print(json.dumps(figures), flush=True)
        network.close()
    return figures


def look(figures):
    """What is wrong with the figures of the usual network."""
    wrong = []
    if figures["idle"]["processors"] > MOST_PROCESSORS:
        wrong.append(f"{figures['idle']['processors']} processors are taken while nothing happens, and {MOST_PROCESSORS} may be")
    if figures["memory KiB"][1] > MOST_MEMORY:
        wrong.append(f"a daemon takes {figures['memory KiB'][1]} KiB, and {MOST_MEMORY} may be")
    return wrong
