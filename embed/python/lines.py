"""Answers the lines of standard input one by one, as `revroute run` does."""

import sys

import revroute

with revroute.Session() as session:
    answers = map(session.answer, sys.stdin.buffer.read().split(b"\n"))
    sys.stdout.writelines(f"{it}\n" for it in answers if it is not None)
