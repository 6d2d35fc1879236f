import revroute

network = revroute.Network(5, 0, [(1, 0), (2, 0), (3, 1), (3, 2), (4, 3)])
print(network.walk(4))    # [4, 3, 1, 0]
print(network.cut(1, 0))  # Report(turned=1, cut_off=0)
print(network.changed())  # [(3, 2), (1, 3)]
print(network.walk(4))    # [4, 3, 2, 0]
