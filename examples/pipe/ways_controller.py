#!/usr/bin/env python3
"""A controller over a pipe for routers that hold all their ways: each answer says what to send, in two phases.

usage: examples/pipe/ways_controller.py < CHANGES    where ./revroute is; each line of CHANGES changes the network
"""

import json
import subprocess
import sys
from subprocess import PIPE


def send(router, ways):
    """Gives a router its ways, the nearest first. Your own code goes here."""
    print(f"{router}: {ways}", flush=True)


def wait():
    """Returns once each router has confirmed what it was sent. Your own code goes here."""


words = ["./revroute", "serve", "--json", "--ways", "--alone"]
with subprocess.Popen(words, stdin=PIPE, stdout=PIPE, text=True, bufsize=1) as service:
    for change in filter(str.strip, sys.stdin):  # a blank line has no answer
        print(change.strip(), file=service.stdin)  # bufsize=1: each line goes out at once
        answer = json.loads(service.stdout.readline())
        if "refused" in answer:
            print(f"refused: {answer}", file=sys.stderr)
            continue
        # Some routers lose ways first. Once all of them have confirmed this, others get new ways.
        for phase in answer["shrink"], answer["grow"]:
            for router, ways in phase:
                send(router, ways)
            wait()
