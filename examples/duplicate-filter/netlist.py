"""Networks in document 01's terms, for the filter's scripts: signals, images there and back, listings, one cycle."""
import struct

AND2, XOR2, AND, XOR, BUF, DFF = 0, 1, 6, 10, 12, 13
NAMES = ("And2 Xor2 And3 Xor3 Maj Mux AndN OrN NandN NorN XorN XnorN Buf Dff Lut").split()
FAMILY = {AND2: "and", 2: "and", AND: "and", XOR2: "xor", 3: "xor", XOR: "xor"}


def node(v):
    return 2 * (v + 1)


def input_(v):
    return 2**32 - 2 - 2 * v


class Net:
    """Inputs, nodes (a code and its signals) and output signals. The filter needs no Lut."""

    def __init__(self, inputs):
        self.inputs, self.nodes, self.outputs = inputs, [], []

    def add(self, code, *signals):
        self.nodes.append((code, list(signals)))
        return node(len(self.nodes) - 1)

    def image(self):
        words = []
        for code, signals in self.nodes:
            words += [code + 256 * len(signals), *signals]
        words += self.outputs
        words += [self.inputs, len(self.nodes), len(self.outputs), 4 * (len(words) + 4)]
        return struct.pack("<%dI" % len(words), *words)

    def two_input_gates(self):
        """Combinational gates, each counted as its inputs less one."""
        return sum(len(signals) - 1 for code, signals in self.nodes if code != DFF)

    def count(self, dff):
        return sum((code == DFF) == dff for code, _ in self.nodes)

    def listing(self):
        lines = ["inputs %d nodes %d outputs %d" % (self.inputs, len(self.nodes), len(self.outputs))]
        for v, (code, signals) in enumerate(self.nodes):
            lines.append(" ".join(["x%d" % v, NAMES[code], *map(text, signals)]))
        lines += ["o%d %s" % (k, text(s)) for k, s in enumerate(self.outputs)]
        return "\n".join(lines) + "\n"

    def cycle(self, inputs, state):
        """Outputs and the next state; a signal that names no node reads as zero, as a cell that is not there does."""
        values = {}

        def value(signal):
            if signal >= 2**31:
                plain = inputs[(2**32 - 2 - (signal & ~1)) // 2]
            elif signal < 2:
                plain = 0
            else:
                plain = node_value(signal // 2 - 1)
            return plain ^ (signal & 1)

        def node_value(v):
            if v >= len(self.nodes) or v in values:
                return values.get(v, 0)
            code, signals = self.nodes[v]
            if code == DFF:
                values[v] = state[v]
            elif FAMILY.get(code) == "and":
                values[v] = int(all([value(s) for s in signals]))
            else:  # an Xor, or a Buf
                values[v] = sum(value(s) for s in signals) % 2
            return values[v]

        after = list(state)
        for v, (code, signals) in enumerate(self.nodes):
            if code == DFF and value(signals[1]):
                after[v] = 0 if value(signals[2]) else value(signals[0])
        return [value(s) for s in self.outputs], after


def text(signal):
    if signal < 2:
        return str(signal)
    plain = signal & ~1
    name = "i%d" % ((2**32 - 2 - plain) // 2) if plain >= 2**31 else "x%d" % (plain // 2 - 1)
    return "!" * (signal & 1) + name


def read(image):
    """The network of an image that meets no refusal; bytes ahead of it are passed over."""
    inputs, nodes, outputs, distance = struct.unpack("<4I", image[-16:])
    words = struct.unpack("<%dI" % (distance // 4), image[-distance:])
    net, at = Net(inputs), 0
    for _ in range(nodes):
        count = words[at] // 256
        net.add(words[at] % 256, *words[at + 1 : at + 1 + count])
        at += 1 + count
    net.outputs = list(words[at : at + outputs])
    return net
