"""The command line of a router without a controller, and what is wrong with it on this router."""

import argparse
import ipaddress
import socket
from contextlib import closing
from pathlib import Path

from netlink import Routes

MOST_NEIGHBOURS = 1023


def number(text, bits=32):
    if not (text.isascii() and text.isdigit()) or int(text) >> bits:
        raise ValueError(text)
    return int(text)


def shown(target):
    """A target as a user writes it."""
    return str(target.network_address if target.prefixlen == 32 else target)


def router_number(text):
    try:
        return number(text)
    except ValueError:
        raise argparse.ArgumentTypeError(f"{text!r} is not a number from 0 to {(1 << 32) - 1}") from None


def address(text):
    try:
        it = ipaddress.ip_address(text)
    except ValueError:
        raise argparse.ArgumentTypeError(f"{text!r} is not an IPv4 address") from None
    if it.version == 6:
        raise argparse.ArgumentTypeError(f"{text!r}: IPv6 is not supported")
    return it


def prefix(text):
    at, slash, length = text.partition("/")
    start = address(at)
    try:
        it = ipaddress.ip_network((start, number(length, 8) if slash else 32), strict=True)
    except ValueError:
        raise argparse.ArgumentTypeError(f"{text!r} is not a prefix, such as 10.1.0.0/16") from None
    if it.prefixlen == 0:
        raise argparse.ArgumentTypeError("all addresses are no target: gates would drop everything else that comes in")
    return it


def neighbour(text):
    parts = text.split(":", 2)
    if len(parts) < 3:
        raise argparse.ArgumentTypeError(f"{text!r} is not NUMBER:DEVICE:ADDRESS")
    return argparse.Namespace(number=router_number(parts[0]), device=parts[1], address=address(parts[2]))


def options(words):
    """The words of the command line, as a router takes them."""
    parser = argparse.ArgumentParser(
        allow_abbrev=False,
        description="A router without a controller: keeps the routes to TARGET, an IPv4 address or prefix, in the "
        "kernel of this router. docs/NODES.md has the rules.",
        epilog="Status 0 after TERM or INT, 2 if it does not start, 1 if a neighbour knows a later start.",
    )
    me = "the number of this router, which no other router has"
    parser.add_argument("me", metavar="ME", type=router_number, help=me)
    parser.add_argument("target", metavar="TARGET", type=prefix, help="an address or a prefix of the gateway")
    link = "a neighbour, this router's end of the link to it, and an address of the neighbour"
    parser.add_argument("neighbours", metavar="NUMBER:DEVICE:ADDRESS", type=neighbour, nargs="+", help=link)
    gateway = "this router has an address of TARGET, and takes its packets"
    parser.add_argument("--gateway", action="store_true", help=gateway)
    state = "where to keep the boot number, on a disk (%(default)s)"
    parser.add_argument("--state", metavar="FOLDER", type=Path, default=Path("/var/lib/revroute"), help=state)
    found = parser.parse_args(words)
    if wrong := [*faults(found)]:
        parser.error(wrong[0])
    return found


def faults(found):
    """What is wrong with the words of the command line on this router."""
    with closing(Routes("0.0.0.0", {})) as kernel:
        own = {ipaddress.ip_address(it) for it in kernel.addresses()}
    devices, numbers, have = [name for _, name in socket.if_nameindex()], {found.me}, set()
    if len(found.neighbours) > MOST_NEIGHBOURS:
        yield f"there are {MOST_NEIGHBOURS} neighbours at most"
    for it in found.neighbours:
        if it.number in numbers:
            yield f"each router has a number of its own: there are two with the number {it.number}"
        if it.device not in devices:
            yield f"there is no device {it.device!r}"
        if it.device in have:
            yield f"two neighbours on {it.device}: gates are by device, so each neighbour needs its own"
        if it.address in own:
            yield f"{it.address} is an address of this router, not of its neighbour {it.number}"
        numbers.add(it.number)
        have.add(it.device)
    yield from target_faults(found, own)


def target_faults(found, own):
    """A gateway takes packets to the target, and no other router does."""
    has_target = any(it in found.target for it in own)
    if found.gateway and not has_target:
        yield f"this router has no address of {shown(found.target)}, so it is not a gateway"
    if has_target and not found.gateway and found.target.prefixlen == 32:
        yield f"{shown(found.target)} is an address of this router, so it takes --gateway"
