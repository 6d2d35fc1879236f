"""Networks of routers to try: names, addresses, links, and the fewest steps between routers."""

from collections import deque


def named(routers):
    return [f"r{it}" for it in range(routers)]


def mesh(draw, routers, chords):
    """The routers' addresses by their names, and the links of a ring with chords. Each link points to the router with the lower
    number: that closes no loop."""
    names = named(routers)
    ring = draw.sample(names, routers)
    links = {*map(frozenset, zip(ring, ring[1:] + ring[:1]))}
    while len(links) < routers + chords:
        links.add(frozenset(draw.sample(names, 2)))
    addresses = {name: f"10.0.0.{it + 1}" for it, name in enumerate(names)}
    return addresses, sorted(tuple(sorted(link, key=names.index, reverse=True)) for link in links)


def geometric(draw, routers, count):
    """Links between the nearest points of a square. Each router has at least two, and all are connected."""
    while True:
        points = [complex(draw.random(), draw.random()) for _ in range(routers)]
        pairs = sorted((abs(points[x] - points[y]), x, y) for y in range(routers) for x in range(y))
        links = [(f"r{x}", f"r{y}") for _, x, y in pairs[:count]]
        far = steps(links, "r0")
        if len(far) == routers and all(sum(x in it for it in links) > 1 for x in far):
            return links


def fat_tree(routers):
    """The links of 4 routers at the core and 4 pods of 4, of which 2 are above the other 2. Further routers are below the pods, each
    with links to the 2 lower routers of one."""
    cores, pods, links = named(4), [], []
    for first in range(4, 20, 4):
        pod = [f"r{it}" for it in range(first, first + 4)]
        pods.append(pod[2:])
        links += [(lower, upper) for lower in pod[2:] for upper in pod[:2]]
        links += [(upper, core) for half, upper in enumerate(pod[:2]) for core in cores[2 * half : 2 * half + 2]]
    for it in range(20, routers):
        links += [(f"r{it}", lower) for lower in pods[it % 4]]
    return links


def steps(links, start):
    """The fewest steps from the start to each router that it has a path to."""
    beside = {}
    for u, v in links:
        beside.setdefault(u, []).append(v)
        beside.setdefault(v, []).append(u)
    found, left = {start: 0}, deque([start])
    while left:
        x = left.popleft()
        for y in beside.get(x, ()):
            if y not in found:
                found[y] = found[x] + 1
                left.append(y)
    return found
