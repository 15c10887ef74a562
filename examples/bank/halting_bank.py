"""A bank that says each step once it is done, and waits for a line before the next one: so a test can kill or pause it in between.

    python3 halting_bank.py bank.json
"""

import json
import sys

from bank import WAIT, Bank, run


def halt(step):
    """Says a step, and waits for a line."""
    print(step, flush=True)
    if not sys.stdin.readline():
        sys.exit()  # nobody is there any more


class HaltingBank(Bank):
    """Such a bank."""

    def take(self, within=WAIT):
        order = super().take(within)
        halt("taken")
        return order

    def book(self, order):
        super().book(order)
        halt("booked")

    def commit(self):
        super().commit()
        halt("committed")


if __name__ == "__main__":
    with open(sys.argv[1], encoding="utf-8") as file:
        run(HaltingBank(json.load(file)))
