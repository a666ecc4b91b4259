"""Programs whose nodes do the same again and again."""

PAGE_SIZE = 256
LARGE_PAGE = 4096
# The options of a session whose pages are large; how many there are comes after.
LARGE = ("--page-size", str(LARGE_PAGE), "--pages")


def loop(laps, body, name="again"):
    """Instructions that are repeated so often; they use no register above r12. A program's loops differ in their names."""
    head = ["set r15 1", f"set r14 {laps}", f"label {name}"]
    return [*head, *body, "sub r14 r14 r15", f"jumpz r14 {name}out", f"jump {name}", f"label {name}out"]


def hits(nodes):
    """Each node adds to a word of a page of its own, of which the first access faults and no other."""

    def text(laps):
        for node in range(nodes):
            yield from (f"node {node}", f"set r1 {PAGE_SIZE * (1 + node)}", "set r2 1")
            yield from loop(laps, ["load 8 r3 r1", "add r3 r3 r2", "store 8 r1 r3"])
        if nodes == 1:
            yield "node 1"

    return text


def ring(nodes):
    """Each node in turn advances the one count that the next one awaits."""

    def text(hand_overs):
        for node in range(nodes):
            yield from (f"node {node}", f"set r1 {node}", f"set r2 {nodes}")
            yield from loop(hand_overs // nodes, ["await r3 r0 r1", "advance r0", "add r1 r1 r2"])

    return text
