"""Adds a router to a network, and pushes its hop and those that it changes."""

from revroute import Network

network = Network(4, 0, [(1, 0), (2, 1)])
table = network.table()  # what the routers have confirmed: router 3 is cut off

# Router 4 comes, with links to 2 and 3. The other links stay as they point.
network = Network(5, network.dest, [*network.links(), (4, 2), (4, 3)])
for router, hop in network.pushes(table):
    print(f"{router} -> {hop}")  # send the hop to the router, and wait until it has confirmed it
    table[router] = hop
