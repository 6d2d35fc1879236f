"""How a check of the lab says what is wrong."""

import sys


def stop(why):
    print(f"lab: {why}", file=sys.stderr)
    sys.exit(1)


def same(what, seen, wanted):
    if seen != wanted:
        stop(f"{what}: it is {str(seen)[:300]}, and must be {str(wanted)[:300]}")
