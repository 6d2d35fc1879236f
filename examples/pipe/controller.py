#!/usr/bin/env python3
"""A controller over a pipe: gives each router its next hop, in an order that closes no loop.

usage: examples/pipe/controller.py < CHANGES    where ./revroute is; each line of CHANGES is a request
"""

import json
import subprocess
import sys
from subprocess import PIPE


def read_back():
    """The hop that each router has now, from router 0 on. Your own code goes here: after a restart, ask the routers."""
    return []


def push(router, hop):
    """Gives a router its hop. Your own code goes here, and returns once the router has confirmed it."""
    table.extend(["cut"] * (router + 1 - len(table)))
    print(f"{router}: {table[router]} -> {hop}", flush=True)
    table[router] = hop


def comes_back(router):
    """Whether a packet that leaves this router comes back to it."""
    at = table[router]
    while isinstance(at, int) and at != router:
        at = table[at] if at < len(table) else "cut"
    return at == router


table = read_back()
words = ["./revroute", "serve", "--json", "--alone"]
with subprocess.Popen(words, stdin=PIPE, stdout=PIPE, text=True, bufsize=1) as service:

    def ask(line):
        print(line, file=service.stdin)  # bufsize=1: each line goes out at once
        return json.loads(service.stdout.readline())

    for change in filter(str.strip, sys.stdin):  # a blank line has no answer
        answer = ask(change.strip())
        if "refused" in answer:
            print(f"refused: {answer}", file=sys.stderr)
            continue
        # What counts is the routers' table: a router may have lost a hop that the engine did not change.
        wanted = ask('["hops"]')["hops"]
        # All hops of a change are pushed before the next change is sent.
        for router, hop in ask(json.dumps(["pushes", table, wanted]))["pushes"]:
            push(router, hop)
            if comes_back(router):
                sys.exit(f"a loop at {router}")
