"""One memory that serves the instructions of programs one at a time, in a drawn order. It has what the programs of
`phases` are made of, and no block: no `alloc`, `free` or `status`.
"""

import random
from dataclasses import dataclass, field

REGISTERS = 16
WORD = 2**64


@dataclass
class Program:
    """The lines of a node, the places that its labels name, and how far it is."""

    lines: list = field(default_factory=list)
    labels: dict = field(default_factory=dict)
    place: int = 0
    registers: list = field(default_factory=lambda: [0] * REGISTERS)


def parsed(text):
    """The programs of a text."""
    programs = []
    for line in text.splitlines():
        words = line.partition("#")[0].split()
        if not words:
            continue
        if words[0] == "node":
            programs.append(Program())
        elif words[0] == "label":
            programs[-1].labels[words[1]] = len(programs[-1].lines)
        else:
            programs[-1].lines.append(words)
    return programs


class Flat:
    """The memory, and what each program printed."""

    def __init__(self, text, pages, page_size):
        self.programs = parsed(text)
        self.first, self.heap = page_size, bytearray(pages * page_size)
        self.counts = [0] * (page_size // 8)
        self.printed = [[] for _ in self.programs]

    def piece(self, width, addr):
        """Where a word lies, which must be one of the heap."""
        if addr % width or not self.first <= addr <= len(self.heap) - width:
            raise ValueError(f"no word of {width} bytes at {addr}")
        return slice(addr, addr + width)

    def load(self, width, addr):
        return int.from_bytes(self.heap[self.piece(width, addr)], "big")

    def store(self, width, addr, value):
        self.heap[self.piece(width, addr)] = (value % 2 ** (8 * width)).to_bytes(width, "big")

    def swap(self, width, addr, value):
        old = self.load(width, addr)
        self.store(width, addr, value)
        return old

    def turn(self, node):
        """Carries out one instruction of a node. Whether there was one, and it does not wait."""
        program = self.programs[node]
        if program.place >= len(program.lines):
            return False
        name, *words = program.lines[program.place]
        numbers = program.registers
        values = [numbers[int(word[1:])] if word[0] == "r" and word[1:].isdigit() else word for word in words]
        target = int(words[0][1:]) if words and words[0][0] == "r" and words[0][1:].isdigit() else None
        program.place += 1
        match name:
            case "set":
                numbers[target] = int(values[1])
            case "mov":
                numbers[target] = values[1]
            case "add" | "sub" | "mul":
                sign = {"add": values[1] + values[2], "sub": values[1] - values[2], "mul": values[1] * values[2]}
                numbers[target] = sign[name] % WORD
            case "load":
                numbers[int(words[1][1:])] = self.load(int(words[0]), values[2])
            case "store":
                self.store(int(words[0]), values[1], values[2])
            case "swap":
                numbers[int(words[1][1:])] = self.swap(int(words[0]), values[2], values[3])
            case "count":
                numbers[target] = self.counts[values[1]]
            case "advance":
                self.counts[values[0]] += 1
            case "await":
                if self.counts[values[1]] < values[2]:
                    program.place -= 1
                    return False
                numbers[target] = self.counts[values[1]]
            case "print":
                self.printed[node].append(values[0])
            case "jump":
                program.place = program.labels[words[0]]
            case "jumpz":
                if values[0] == 0:
                    program.place = program.labels[words[1]]
            case "stop":
                program.place = len(program.lines)
            case _:
                raise ValueError(f"no instruction {name}")
        return True

    def run(self, seed):
        """Runs all programs to their end, in an order that a seed draws. The lines that they print."""
        draw = random.Random(seed)
        open_nodes = list(range(len(self.programs)))
        while open_nodes:
            node = draw.choice(open_nodes)
            # A node goes on for a while, so that others lag behind.
            moved = [self.turn(node) for _ in range(draw.randrange(1, 50))]
            if self.programs[node].place >= len(self.programs[node].lines):
                open_nodes.remove(node)
            elif not any(moved) and not any(self.turn(other) for other in open_nodes):
                raise ValueError("all that have not ended wait")
        return "".join(f"node {node}: {it}\n" for node, all_of in enumerate(self.printed) for it in all_of)
