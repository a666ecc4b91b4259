"""python3 messages.py [FILE]: draws messages a call by manager, over 2 to 16 nodes, as a picture in SVG.

Each node in turn adds to one counter, as many rounds as ROUNDS; the counter is checked. All nodes are in this process.
"""
import sys

import ivy

ROUNDS, PAGE = 20, 256
SIZES = [2, 4, 8, 16]
MANAGERS = [(ivy.FIXED, "fixed", "#4477aa"), (ivy.DYNAMIC, "dynamic", "#cc6677")]


class World:
    """Nodes, and the strings that were carried between them."""

    def __init__(self, nodes, manager):
        self.nodes = [ivy.Node(nodes, 4, PAGE, manager, me) for me in range(nodes)]
        self.carried = 0

    def carry(self):
        moved = True
        while moved:
            moved = False
            for node in self.nodes:
                for dest, string in node.frames():
                    self.nodes[dest].deliver(string)
                    self.carried += 1
                    moved = True

    def call(self, me, *arguments):
        answer = self.nodes[me].begin(*arguments)
        while answer is None:
            self.carry()
            answer = self.nodes[me].reply()
        self.carry()
        return answer


def check_block(node, calls):
    """The node that added last has the page: it reads the counter in a block, and writes it behind."""
    row = bytearray(16)
    read = node.read_into(PAGE, row)
    written = node.write_from(PAGE + 8, row[:8])
    if (read, written) != (2, 1) or row[:8] != calls.to_bytes(8, "big") or node.begin(ivy.LOAD, PAGE + 8) != calls:
        sys.exit("messages: a block is wrong")


def messages_a_call(nodes, manager):
    world = World(nodes, manager)
    calls = 0
    for _ in range(ROUNDS):
        for me in range(nodes):
            if world.call(me, ivy.FETCH_AND_ADD, PAGE, 1) != calls:
                sys.exit("messages: the counter is wrong")
            calls += 1
    check_block(world.nodes[-1], calls)
    return world.carried / calls


def picture(rows):
    most = max(value for _, bars in rows for value, _ in bars)
    width, height, lines = 560, 260, []
    lines.append('<svg xmlns="http://www.w3.org/2000/svg" viewBox="0 0 %d %d" font-family="sans-serif" font-size="12">'
                 % (width, height))
    lines.append('<rect width="100%" height="100%" fill="white"/>')
    lines.append('<text x="20" y="20">messages a call: each node in turn adds to one counter</text>')
    for place, (nodes, bars) in enumerate(rows):
        left = 40 + place * 130
        for bar, (value, colour) in enumerate(bars):
            tall = 160 * value / most
            x, y = left + bar * 46, 210 - tall
            lines.append('<rect x="%d" y="%.1f" width="40" height="%.1f" fill="%s"/>' % (x, y, tall, colour))
            lines.append('<text x="%d" y="%.1f">%.2f</text>' % (x + 6, y - 4, value))
        lines.append('<text x="%d" y="228">%d nodes</text>' % (left + 16, nodes))
    for place, (_, name, colour) in enumerate(MANAGERS):
        lines.append('<rect x="%d" y="240" width="10" height="10" fill="%s"/>' % (40 + 100 * place, colour))
        lines.append('<text x="%d" y="249">%s</text>' % (55 + 100 * place, name))
    lines.append('</svg>')
    return "\n".join(lines) + "\n"


def main():
    rows = [(nodes, [(messages_a_call(nodes, manager), colour) for manager, _, colour in MANAGERS]) for nodes in SIZES]
    with open(sys.argv[1] if len(sys.argv) > 1 else "messages.svg", "w") as file:
        file.write(picture(rows))
    for nodes, bars in rows:
        print("messages: %d nodes, %s" % (nodes, ", ".join(
            "%s %.2f" % (name, value) for (value, _), (_, name, _) in zip(bars, MANAGERS))))


if __name__ == "__main__":
    main()
