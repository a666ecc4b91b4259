"""A node in Rattle among nodes in C: relays between its standard streams and UDP, and speaks the runtime's words for it.

    relay.py NODE NODES PORT MANAGER LOG PROGRAM PAGES PAGE

PROGRAM is that of stress/own, which does `sum`, with so many pages of so many bytes; NODE is not 0. One in ten strings is lost either way. It ends with 0 where
the node gave the sum of all numbers of nodes, and all are done.
"""
import os
import random
import selectors
import socket
import struct
import subprocess
import sys
import time
from functools import reduce

VERSION = 1
FRAME, HELLO, RUN, HERE, DONE, DEAD, ALIVE, REFUSED = range(1, 9)
FRAMES = 12
HEAD, DRAW = 35, 16
NOTHING = bytes(DRAW)
WORD = ">QI6I"  # its number, a set of nodes, and the version, the configuration and the order of bytes
SPEAK, PATIENCE, REPEATS = 0.02, 100, 5
LOST = 10


# By their numbers.
MANAGERS = ["fixed", "dynamic", "steady"]


def sum_of(draws):
    """The name of a run."""
    return bytes(reduce(lambda a, b: [x ^ y for x, y in zip(a, b)], draws))


def parted(rest):
    """Frames that came in one string, each behind its length."""
    frames = []
    while rest:
        (length,) = struct.unpack_from(">I", rest)
        frames.append(rest[4 : 4 + length])
        rest = rest[4 + length :]
    return frames


class Member:
    """A member of a run, which says the runtime's words and hears them."""

    def __init__(self, me, nodes, port, manager, pages, page):
        self.me, self.all, self.port = me, set(range(nodes)), port
        self.numbers = (VERSION, nodes, pages, page, MANAGERS.index(manager), struct.pack("=I", 0x01020304)[0])
        self.socket = socket.socket(socket.AF_INET, socket.SOCK_DGRAM)
        self.socket.bind(("127.0.0.1", port + me))
        self.draws, self.run = {me: os.urandom(DRAW)}, NOTHING
        self.words, self.heard = 0, dict.fromkeys(self.all, 0)
        self.here, self.known_here, self.done, self.known_done = {me}, {me}, set(), {me}
        self.chance = random.Random(me)

    def is_met(self):
        return self.run != NOTHING and self.here == self.known_here == self.all

    def is_over(self):
        return self.done == self.known_done == self.all

    def is_lost(self):
        return self.chance.randrange(100) < LOST

    def send(self, to, kind, rest):
        if not self.is_lost():
            head = bytes([kind, self.me, to]) + self.run + self.draws[self.me]
            self.socket.sendto(head + rest, ("127.0.0.1", self.port + to))

    def say(self, kind, members):
        """A word to all others, which answers the draw of each before there is a run."""
        bits = sum(1 << it for it in members)
        for to in self.all - {self.me}:
            self.words += 1
            echo = self.draws.get(to, NOTHING) if kind == HELLO else NOTHING
            self.send(to, kind, struct.pack(WORD, self.words, bits, *self.numbers) + echo)

    def speak(self):
        if self.run == NOTHING:
            self.say(HELLO, self.draws)
        elif self.me in self.done:
            self.say(DONE, self.done)
        else:
            self.say(ALIVE if self.is_met() else HERE, self.here)

    def hear(self):
        """What came: frames for the node, or none."""
        string, (_, port) = self.socket.recvfrom(1 << 16)
        (kind, sender, to), run, draw, rest = string[:3], string[3:19], string[19:HEAD], string[HEAD:]
        if to != self.me or port != self.port + sender or self.is_lost():
            return []
        if self.run == NOTHING and kind == HELLO:
            self.draws[sender] = draw
        elif self.run == NOTHING and kind == RUN:
            self.hear_list(rest[struct.calcsize(WORD) + DRAW :])
        if self.run == NOTHING or (run, draw) != (self.run, self.draws[sender]):
            return []
        if kind == FRAME:
            return [rest]
        if kind == FRAMES:
            return parted(rest)
        self.hear_word(kind, sender, *struct.unpack_from(WORD, rest)[:2])
        return []

    def hear_list(self, listed):
        """Who is in the run, with this node's draw among them."""
        draws = {it: listed[DRAW * it :][:DRAW] for it in self.all}
        if draws[self.me] == self.draws[self.me]:
            self.draws, self.run = draws, sum_of(draws.values())

    def hear_word(self, kind, sender, count, bits):
        members = {it for it in self.all if bits >> it & 1}
        if count <= self.heard[sender]:
            return
        self.heard[sender] = count
        if kind == DEAD:
            sys.exit(f"relay: node {sender} says that these are dead: {members}")
        self.here.add(sender)
        if kind not in (HERE, RUN) or members == self.all:
            self.known_here.add(sender)
        if kind == DONE:
            self.done.add(sender)
            if members == self.all:
                self.known_done.add(sender)


class Relay:
    """A member, and the node that it speaks for once all are here."""

    def __init__(self, member, words):
        self.member, self.words, self.node = member, words, None
        self.part, self.told = b"", b""
        self.ears = selectors.DefaultSelector()
        self.ears.register(member.socket, selectors.EVENT_READ, self.hear_others)

    def start(self):
        pipe = subprocess.PIPE
        self.node = subprocess.Popen(self.words, stdin=pipe, stdout=pipe, stderr=pipe, bufsize=0)
        self.ears.register(self.node.stdout, selectors.EVENT_READ, self.hear_node)
        self.ears.register(self.node.stderr, selectors.EVENT_READ, self.hear_end)

    def hear_others(self):
        frames = self.member.hear()
        for frame in frames if self.node else []:
            self.node.stdin.write(b"%d %s\n" % (self.member.me, frame.hex().encode()))

    def hear_node(self):
        *whole, self.part = (self.part + os.read(self.node.stdout.fileno(), 1 << 16)).split(b"\n")
        for line in whole:
            to, digits = line.split()
            self.member.send(int(to), FRAME, bytes.fromhex(digits.decode()))

    def hear_end(self):
        """The node says so once its work is done."""
        self.told += os.read(self.node.stderr.fileno(), 1 << 16)
        self.member.done.add(self.member.me)

    def serve(self):
        spoke, last = 0.0, time.monotonic() + PATIENCE
        while not self.member.is_over():
            now = time.monotonic()
            if now > last:
                sys.exit("relay: it takes too long")
            if now - spoke > SPEAK:
                self.member.speak()
                spoke = now
            if not self.node and self.member.is_met():
                self.start()
            for key, _ in self.ears.select(SPEAK):
                key.data()
        for _ in range(REPEATS):
            self.member.speak()

    def end(self):
        """What the node says at its end, and its status."""
        self.node.stdin.close()
        while more := self.node.stdout.read(1 << 16):
            del more
        self.told += self.node.stderr.read()
        return self.told.decode(), self.node.wait()


def main():
    me, nodes, port = map(int, sys.argv[1:4])
    manager, log, program = sys.argv[4:7]
    pages, page = map(int, sys.argv[7:9])
    relay = Relay(Member(me, nodes, port, manager, pages, page), [program, "sum", str(me), manager, log])
    relay.serve()
    told, status = relay.end()
    wanted = f"node {me} gave {nodes * (nodes - 1) // 2}"
    if status or wanted not in told:
        sys.exit(f"relay: {status}, {told}, and not {wanted}")


main()
