"""Nodes in processes over a medium that loses, repeats and reorders frames, which are killed and started again."""

import os
import signal
import subprocess
import threading
import time

# Far above what a run takes: one that takes longer is said to hang.
SECONDS = 300
# Between two kills lie so many seconds at most.
MOST_BETWEEN = 0.05


class Medium:
    """Hands all lines that the router gives to all nodes. A line that a node's pipe has no room for is lost."""

    def __init__(self, program, nodes, harm, seed):
        self.up_read, self.up_write = os.pipe()
        self.downs = [os.pipe() for _ in range(nodes)]
        for _, write in self.downs:
            os.set_blocking(write, False)
        lose, repeat, reorder = harm
        words = [program, "router", "--lose", lose, "--repeat", repeat, "--reorder", reorder, "--seed", seed]
        self.router = subprocess.Popen(
            [str(word) for word in words], stdin=self.up_read, stdout=subprocess.PIPE
        )
        self.thread = threading.Thread(target=self.hand_on, daemon=True)
        self.thread.start()

    def hand_on(self):
        for line in self.router.stdout:
            for _, write in self.downs:
                try:
                    os.write(write, line)
                except (BlockingIOError, OSError):
                    pass

    def close(self):
        """No line comes any more: each node's input ends."""
        self.router.kill()
        self.router.wait()
        self.thread.join()
        # who still says a line is not to wait for somebody who reads it
        self.thread = threading.Thread(target=self.drop, daemon=True)
        self.thread.start()
        for _, write in self.downs:
            os.close(write)

    def drop(self):
        while os.read(self.up_read, 1 << 16):
            pass

    def free(self):
        for read, _ in self.downs:
            os.close(read)
        os.close(self.up_write)
        self.thread.join()
        os.close(self.up_read)


class Node:
    """A node in a process, which may be killed and started again."""

    def __init__(self, words, log, medium, place):
        self.words, self.log, self.medium, self.place = words, log, medium, place
        self.start()

    def start(self):
        self.told = open(self.log.with_suffix(".err"), "w+b")
        self.process = subprocess.Popen(
            self.words,
            stdin=self.medium.downs[self.place][0],
            stdout=self.medium.up_write,
            stderr=self.told,
        )

    def kill(self):
        self.process.send_signal(signal.SIGKILL)
        self.process.wait()
        self.told.close()
        self.start()

    def printed(self):
        return self.log.with_suffix(".err").read_text()

    def has_ended(self):
        return f"node {self.place} ended\n" in self.printed()


def wait_for(nodes):
    """Waits until each node's program has ended."""
    end = time.monotonic() + SECONDS
    while time.monotonic() < end:
        if all(node.has_ended() for node in nodes):
            return True
        time.sleep(0.01)
    return False
