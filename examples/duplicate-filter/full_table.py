"""The fault of the story: the And gates of a network factored over a table of pairs that has only so much room, by a tool that drops the
pair for which there is none. Nothing else is changed: every pair still gets its node's number, and the gates name it."""
from netlist import AND2, BUF, FAMILY, Net, node


def factor_ands(net, room):
    """Document 01's And pass without its sort and canonical; answers the network, the pairs needed, and for which gate each dropped one was."""
    gates = [v for v, (code, signals) in enumerate(net.nodes) if FAMILY.get(code) == "and" and len(signals) > 1]
    lists = [list(net.nodes[v][1]) for v in gates]
    table, needed, dropped = [], 0, []

    def build(pair, gate):
        nonlocal needed
        signal = node(len(net.nodes) + needed)
        needed += 1
        if len(table) < room:
            table.append(pair)
        else:
            dropped.append(gate)
        return signal

    def replace(pair):
        holding = [i for i, list_ in enumerate(lists) if set(pair) <= set(list_)]
        signal = build(pair, gates[holding[-1]])
        for i in holding:
            lists[i] = [s for s in lists[i] if s not in pair] + [signal]

    uses = [s for list_ in lists for s in list_]
    own = [[s for s in list_ if uses.count(s) == 1] for list_ in lists]
    lists = [[s for s in list_ if uses.count(s) > 1] for list_ in lists]
    for _ in range(2):
        for i in range(len(lists)):
            if len(lists[i]) == 2:
                replace(tuple(sorted(lists[i])))
    while True:
        counts = {}
        for list_ in lists:
            for a in list_:
                for b in list_:
                    if a < b:
                        counts[a, b] = counts.get((a, b), 0) + 1
        if not counts:
            break
        replace(min(counts, key=lambda pair: (-counts[pair], pair)))
    for i, gate in enumerate(gates):
        left = lists[i] + own[i]
        while len(left) > 1:
            joined = [build((left[j], left[j + 1]), gate) for j in range(0, len(left) - 1, 2)]
            left = joined + left[len(left) - len(left) % 2 :]
        lists[i] = left

    result = Net(net.inputs)
    result.outputs = net.outputs
    for code, signals in net.nodes:
        result.add(code, *signals)
    for v, left in zip(gates, lists):
        result.nodes[v] = (BUF, left)
    for pair in table:
        result.add(AND2, *pair)
    return result, needed, dropped
