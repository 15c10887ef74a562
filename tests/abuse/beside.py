"""Requests beside which another user asks too, and how long that one waits."""

import struct
import threading
import time

from kbroker_testing.codes import Code
from kbroker_testing.protocol import logged_in

LONGEST = "x" * 32_767  # as long as a name can be
PAUSE = 0.001  # seconds between two of the other user's requests


class ToldOtherwise(Exception):
    """The other user isn't answered as it should be."""


class Other(threading.Thread):
    """Another user, who asks small things one after the other until it is told to leave."""

    def __init__(self, address):
        super().__init__()
        self.address, self.leaves, self.waited, self.asked, self.fault = address, threading.Event(), 0.0, 0, None

    def wait(self):
        """Waits until it was answered for the first time."""
        while self.is_alive() and not self.asked:
            time.sleep(PAUSE)

    def run(self):
        try:
            with logged_in(self.address, "shop", "s") as broker:
                while not self.leaves.is_set():
                    began = time.monotonic()
                    told = broker.ask("Metadata", topics=["shop-orders"])["topics"]
                    self.waited = max(self.waited, time.monotonic() - began)
                    self.asked += 1
                    if [it["error"] for it in told] != [Code.NONE]:
                        raise ToldOtherwise(f"the other user is told {told}")
                    time.sleep(PAUSE)
        except Exception as fault:  # told by whoever joins the thread
            self.fault = fault

    def end(self):
        """Has it leave, and gives how long it waited at most."""
        self.leaves.set()
        self.join()
        if self.fault:
            raise self.fault
        return self.waited


def ask_whole(broker, frame):
    """Sends a frame and gives the bytes of its answer, which aren't read here: that would hold up the other user's thread."""
    broker.socket.sendall(frame)
    return broker.input.read(struct.unpack(">i", broker.input.read(4))[0])


def beside_another(address, broker, frames):
    """Asks frames one after the other while another user asks too: the answers, the longest time that one took, and how
    long the other user waited at most, in seconds."""
    other, took, answers = Other(address), 0.0, []
    other.start()
    try:
        other.wait()
        for frame in frames:
            began = time.monotonic()
            answers.append(ask_whole(broker, frame))
            took = max(took, time.monotonic() - began)
    finally:
        waited = other.end()
    return answers, took, waited
