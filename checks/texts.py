"""The texts of the programs revroute and revdot for usage errors, and what their help must say, written by hand."""

import shared

HELP_TIP = "\n\nFor more information, try '--help'.\n"
USAGE = "\n\nUsage: revroute <COMMAND>" + HELP_TIP
RUN_USAGE = "\n\nUsage: revroute run [OPTIONS]" + HELP_TIP


def out_of_range(value, option, values):
    """The text for a number that an option does not accept."""
    return f"error: invalid value '{value}' for '{option} <N>': {value} is not in {values}" + HELP_TIP


# The text on standard error for each command line of revroute that is a usage error.
USAGE_ERRORS = {
    "": "error: 'revroute' requires a subcommand but one was not provided\n  [subcommands: run, serve, play, help]" + USAGE,
    "fly": "error: unrecognized subcommand 'fly'\n\n  tip: a similar subcommand exists: 'play'" + USAGE,
    "run --workers 0": out_of_range("0", "--workers", "1..=16"),
    "run --workers 17": out_of_range("17", "--workers", "1..=16"),
    "run --budget 1000000001": out_of_range("1000000001", "--budget", "0..=1000000000"),
    "play --steps 10001": out_of_range("10001", "--steps", "0..=10000"),
    "run --ways": "error: the argument '--ways' needs '--json'\n\nUsage: revroute run --json --ways [OPTIONS]\n"
    "       revroute serve --json --ways [OPTIONS]" + HELP_TIP,
    "run FILE": "error: unexpected argument 'FILE' found\n\n"
    "  tip: revroute reads requests from standard input, as in 'revroute run < FILE'" + RUN_USAGE,
    "run --file": "error: unexpected argument '--file' found" + RUN_USAGE,
}
# The same for words that are not UTF-8.
NOT_UTF8 = "error: a word is not UTF-8\n"
# The same for revdot.
DRAWER_ERRORS = {
    "fly": "revdot: unknown word 'fly', try 'revdot --help'\n  tip: revdot reads requests from standard input, as in 'revdot < FILE'\n",
    "--fly": "revdot: unknown word '--fly', try 'revdot --help'\n",
    "--page fly": "revdot: unknown word 'fly', try 'revdot --help'\n  tip: revdot reads requests from standard input, as in 'revdot < FILE'\n",
}
# The same for a direction that is none.
DRAWER_ERRORS |= dict.fromkeys(("--rankdir", "--rankdir down", "--rankdir lr", "--rankdir=", "--rankdir --turns", "--turns --rankdir=L --page"),
                               "revdot: --rankdir takes TB, LR, BT or RL, try 'revdot --help'\n")
DRAWER_NOT_UTF8 = "revdot: a word is not UTF-8, try 'revdot --help'\n"

# What is written for a version.
VERSIONS = {"revroute": f"revroute {shared.VERSION}\n", "revdot": f"revdot {shared.VERSION}\n"}

# How lines of a help text begin, and what each of them must say.
COMMANDS = {
    "run": ["Answers requests", "each answer is a line on standard output"],
    "serve": ["as run does", "each one as soon as its line has arrived", "use --alone"],
    "play": ["Plays a drawn schedule", "reads a network"],
    "help": ["Print"],
    "-h, --help": ["Print help"],
    "-V, --version": ["Print version"],
}
RUN = {
    "--workers <N>": ["workers turn nodes at the same time, 1 to 16", "[default: 4]"],
    "--seed <N>": ["whom to steal work from first, 0 to 18446744073709551615", "[default: 0]"],
    "--budget <N>": ["calls that each worker makes in a round, 0 to 1000000000", "[default: 1000000]"],
    "--alone": ["One thread makes all turns", "the way to serve"],
    "--json": ["Answers are JSON"],
    "--ways": ["what to push to routers that hold all their ways", "needs --json"],
    "--strict": ["status 3 if a line was refused"],
    "-h, --help": ["Print help"],
    '["net",N,D,[[U,V],..]]': ["replace the network", "destination D"],
    '["cut",U,V]': ["remove the link between U and V"],
    '["add",U,V]': ["add a link from U to V"],
    '["join",U,V]': ["or from V to U to avoid a cycle"],
    '["batch",[EDIT,..]]': ["make edits", "in order, then one round"],
    '["dest",D]': ["make D the destination"],
    '["walk",X]': ["the route of node X"],
    '["links"]  ["counts"]  ["hops"]': ["all links, counts or next hops"],
    '["ways"]  ["ways",X]': ["all ways of each node or of X"],
    '["nearest",X]': ["a route of the fewest links from X"],
    '["pushes",[HOP,..]]': ["order the pushes from this table to the next hops"],
    '["phases",[[W,..],..]]': ["two phases"],
}
PLAY = {
    "--workers <N>": ["workers make the steps, 1 to 16", "[default: 2]"],
    "--seed <N>": ["of the schedule, 0 to 18446744073709551615", "[default: 0]"],
    "--steps <N>": ["steps the workers make in total, 0 to 10000", "[default: 100]"],
    "-h, --help": ["Print help"],
}
DRAWER = {
    "--ways": ["bold arrows to the nearest ways"],
    "--turns": ["a graph for each turn of the last round"],
    "--rankdir DIRECTION": ["TB from top to bottom", "LR from left to right", "BT or RL"],
    "--page": ["a page for a browser"],
    "-h, --help": ["this text"],
    "-V, --version": ["the version"],
    "A line that begins with #": ["is a comment"],
}
# A network of one node, and how revdot draws it in a direction, whose line is empty for that from top to bottom.
ONE_NODE = b'["net",1,0,[]]\n'
DIRECTIONS = {"TB": "", "LR": "    rankdir = LR\n", "BT": "    rankdir = BT\n", "RL": "    rankdir = RL\n"}


def one_node(direction):
    return f"""digraph network {{
    graph [ nodesep = 0.4 ranksep = 0.4 fontname = Helvetica ]
    node [ shape = circle fixedsize = true width = 0.55 fontname = Helvetica style = filled fillcolor = white ]
    edge [ color = gray50 arrowsize = 0.8 ]
{DIRECTIONS[direction]}    0 [ label = <0<br/><font point-size='9'>0</font>> shape = doublecircle ]
    {{ rank = sink 0 }}
}}
""".encode()


# The help of each command line of revroute that asks for it.
HELP = {"--help": COMMANDS, "help": COMMANDS, "run --help": RUN, "serve --help": RUN, "help run": RUN, "play --help": PLAY, "help play": PLAY}


def lacks(text, wanted):
    """What a help text lacks: for the first line that is not once in it, or that does not say what it must, how it begins. None if there is no such line."""
    lines = [it.strip() for it in text.decode().splitlines()]
    for begin, words in wanted.items():
        found = [it for it in lines if it.startswith(f"{begin} ")]
        if len(found) != 1 or not all(it in found[0] for it in words):
            return begin
    return None
