"""What several checks share: inputs with known answers, the output of the example programs in embed/, and how a check says what it skips."""

import json
from pathlib import Path

TOP = Path(__file__).resolve().parent.parent
EXAMPLES = TOP / "examples"
VERSION = (TOP / "VERSION").read_text().strip()

# The options for each form of answers, and how the files in examples/ end that have such answers.
SUFFIXES = {(): ".answers", ("--json",): ".json-answers", ("--json", "--ways"): ".ways-answers"}

# The output of the program `example` in each language.
EXAMPLE_IN_C = "turned 6 cut 0\nwalk 3 2 1 0\nturned 12 cut 3\nwalk 3 cut\n"
EXAMPLE_IN_RUST = "[4, 3, 1, 0]\nReport { turned: 1, cut_off: 0 }\n[(3, To(2)), (1, To(3))]\n[4, 3, 2, 0]\n"
EXAMPLE_IN_PYTHON = "[4, 3, 1, 0]\nReport(turned=1, cut_off=0)\n[(3, 2), (1, 3)]\n[4, 3, 2, 0]\n"


def skip(what, package):
    """Says that a check skips a part that needs a program of this Debian package. ./test gathers these lines."""
    print(f"skipped: {what}: {package}", flush=True)


def examples():
    """The inputs in examples/, each with the file of its answers as text."""
    return [(it, it.with_suffix(".answers")) for it in sorted(EXAMPLES.glob("*.jsonl"))]


def long_chain(nodes):
    """An input with a chain of this many nodes that points away from the destination, and each question; and the answers."""
    links = ",".join(f"[{x},{x + 1}]" for x in range(nodes - 1))
    given = f'["net",{nodes},0,[{links}]]\n["links"]\n["counts"]\n["hops"]\n["walk",{nodes - 1}]\n'
    wanted = [
        f"turned {nodes * (nodes - 1) // 2} cut 0",
        " ".join(["links", *(f"{x + 1}>{x}" for x in range(nodes - 1))]),
        " ".join(["counts", *map(str, range(nodes))]),
        " ".join(["hops here", *map(str, range(nodes - 1))]),
        " ".join(["walk", *map(str, range(nodes - 1, -1, -1))]),
    ]
    return given.encode(), "".join(f"{it}\n" for it in wanted).encode()


def long_chain_in_json(nodes):
    """The answers in JSON to the input of a long chain."""
    hops = ["here", *range(nodes - 1)]
    wanted = [
        {"turned": nodes * (nodes - 1) // 2, "cut_off": 0, "changed": [[x, hop] for x, hop in enumerate(hops)]},
        {"links": [[x + 1, x] for x in range(nodes - 1)]},
        {"counts": [*range(nodes)]},
        {"hops": hops},
        {"walk": [*range(nodes - 1, -1, -1)]},
    ]
    return "".join(f"{json.dumps(it, separators=(',', ':'))}\n" for it in wanted).encode()
