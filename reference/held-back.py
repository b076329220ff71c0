#!/usr/bin/env python3
"""Counts the service REFRs that R16 held back in the lines of scripts.

usage: held-back.py SCRIPT LINES [SCRIPT LINES ..]

LINES is what a script is answered with. A REFR is held back if it comes later than R2, R14 and R15 let it: the machine sends it as
soon as it is legal, so R16 is what it waited for, and it has to come exactly tRC after the last ACT. Prints `COUNT WHAT` for all service
REFRs, for those held back, and for several kinds of these. Status 1 where one comes late for no reason.
"""
import sys
from collections import Counter

KINDS = (
    "service REFRs",
    "held back",
    "held back by another bank than bank 0",
    "held back by another bank than the last one used",
    "held back by two banks or more",
    "held back with backlog 4 to 7",
    "held back with backlog 8 to 11",
    "held back with backlog 12",
)


def number(word):
    return int(word, 16 if word.startswith(b"0x") else 10)


class Device:
    """A configuration, and the slots of the commands since."""

    def __init__(self, words):
        _, _, self.rr, tim = words
        self.trfc = 1 + (tim >> 27)
        self.trp = 1 + (tim >> 24 & 7)
        self.trc = 1 + (tim >> 8 & 15)
        self.slot = 0
        self.first_service_slot = None
        self.service_refreshes = 0
        self.refr = self.closing = -100  # the last REFR; the last PRE or DEAC
        self.act = {}  # bank: its last ACT
        self.used = None  # the bank of the last READ or WRT

    def backlog(self):
        """Before this slot's REFR is counted."""
        return (self.slot - self.first_service_slot + 1) // self.rr - self.service_refreshes

    def service_refr(self, counts):
        allowed = max(self.refr + self.trfc, self.closing + self.trp)
        late = [bank for bank, slot in self.act.items() if slot + self.trc > allowed]
        backlog = self.backlog()
        counts["service REFRs"] += 1
        if self.slot != max([allowed] + [slot + self.trc for slot in self.act.values()]):
            sys.exit(f"held-back.py: REFR in slot {self.slot} is not the first that the rules allow")
        if late:
            decides = max(late, key=self.act.get)
            counts["held back"] += 1
            counts["held back by another bank than bank 0"] += decides != 0
            counts["held back by another bank than the last one used"] += decides != self.used
            counts["held back by two banks or more"] += len(late) > 1
            counts["held back with backlog 4 to 7"] += 4 <= backlog <= 7
            counts["held back with backlog 8 to 11"] += 8 <= backlog <= 11
            counts["held back with backlog 12"] += backlog == 12

    def run(self, command, counts):
        kind, numbers = command[0], command[1:]
        self.slot += 1
        if kind == b"REFR":
            if self.first_service_slot is not None:
                self.service_refr(counts)
                self.service_refreshes += 1
            self.refr = self.slot
        elif kind == b"MRS":
            self.first_service_slot = self.slot + 2
        elif kind in (b"PRE", b"DEAC"):
            self.closing = self.slot
        elif kind == b"ACT":
            self.act[int(numbers[0])] = self.slot
        elif kind in (b"READ", b"WRT"):
            self.used = int(numbers[0])


def count(script, lines, counts):
    calls = (line for line in script.split(b"\n") if line and not line.startswith(b"#"))
    device, left = None, 0  # slots of a row that are still to come
    for line in lines.splitlines():
        answer = line.split()
        call = None
        if left > 0:
            left -= 1
        else:
            call = next(calls)
        if answer[0] == b"config":
            device = Device([number(word) for word in call.split()[1:]]) if answer[1] == b"0" else None
        elif answer[0] == b"slots":
            left = int(answer[2])
        elif answer[0] == b"slot" and answer[1] == b"0":
            device.run(answer[2:], counts)


def main():
    if len(sys.argv) < 3 or len(sys.argv) % 2 == 0:
        print(__doc__, file=sys.stderr)
        sys.exit(2)
    counts = Counter()
    for script, lines in zip(sys.argv[1::2], sys.argv[2::2]):
        with open(script, "rb") as calls, open(lines, "rb") as answers:
            count(calls.read(), answers.read(), counts)
    for kind in KINDS:
        print(counts[kind], kind)


main()
