#!/usr/bin/env python3
"""Writes the example scripts and tapes and their expected lines into this folder.

Every figure below was taken from document 01 or 02 or worked out from its rules by hand; this program only
writes out the stretches of NOP between them. It knows nothing of the reference program but the first
contents of a cell, which scripts for `check` have to go by (README.md).
"""

import os

HERE = os.path.dirname(os.path.abspath(__file__))

E1_WORDS = "0x4400 0 27 0"                 # document 01, E1
E4_WORDS = "0x4620 4 136 0x42215810"       # document 01, E4


def first_contents(bank, row, column):
    return ((((bank << 24 | row << 11 | column) + 1) * 2654435769) % 2**32) >> 16


def store_lines(name, lines):
    with open(os.path.join(HERE, name), "wb") as file:
        file.write(b"".join(line if isinstance(line, bytes) else line.encode() + b"\n" for line in lines))


def store(name, script, expected):
    store_lines(name + ".script", script)
    store_lines(name + ".expected", expected)


def tape(name, records, shown=None, damaged=None):
    """A tape, given by its bytes in hexadecimal; the lines that show it; and how it ends where it is damaged."""
    store_lines(name + ".tape", [bytes.fromhex(records)])
    for ending, lines in ((".shown", shown), (".damaged", damaged)):
        if lines is not None:
            store_lines(name + ending, lines)


def judged(name, cases):
    """A case file, given by the words, the tape's bytes in hexadecimal, and the answer: number, slot, rule, bank."""
    content = []
    for words, records, _ in cases:
        tape_bytes = bytes.fromhex(records)
        for number in [int(word, 0) for word in words.split()] + [len(tape_bytes)]:
            content.append(number.to_bytes(4, "little"))
        content.append(tape_bytes)
    store_lines(name + ".cases", content)
    store_lines(name + ".judged", ["judge " + answer for _, _, answer in cases])


def dialogue(name, pairs):
    """A script given as pairs of a line and its answer, which may have several lines."""
    store(name, [line for line, _ in pairs], [answer for _, answer in pairs if answer is not None])


def bus_lines(halfwords, waiting=0):
    """`bus` lines of 40 halfwords, 243 bytes at most, behind those that wait."""
    pairs = []
    for at in range(0, len(halfwords), 40):
        some = halfwords[at:at + 40]
        pairs.append(("bus " + " ".join("%d" % halfword for halfword in some), "bus %d" % (waiting + at + len(some))))
    return pairs


class Run:
    """A run given by the slots in which something happens; every other slot is NOP without a report. Each slot is a call of its own,
    unless it stands in a row."""

    def __init__(self, words):
        self.words = words
        self.before = {}    # slot: pairs of a call and its answer, handed in before that slot
        self.command = {}   # slot: command
        self.report = {}    # slot: report
        self.bus = {}       # slot: halfword on the bus
        self.rows = {}      # first slot: slots of the row; the halfwords, commands and reports that it has room for beyond them; halfwords given before
        self.accepted = 0

    def call(self, slot, line, answer):
        self.before.setdefault(slot, []).append((line, answer))

    def read(self, slot, address):
        self.accepted += 1
        self.call(slot, "read %s" % address, "read 0 %d" % self.accepted)

    def write(self, slot, address, halfword):
        self.accepted += 1
        self.call(slot, "write %s %d" % (address, halfword), "write 0 %d" % self.accepted)

    def backlog_after(self, slot, backlog):
        self.call(slot + 1, "backlog", "backlog 0 %d" % backlog)

    def at(self, slot, command):
        self.command[slot] = command

    def written(self, slot, number, bank, column, halfword):
        self.at(slot, "WRT %d %d %d" % (bank, column, halfword))
        self.report[slot] = "write %d" % number

    def data(self, slot, number, halfword):
        self.bus[slot] = halfword
        self.report[slot] = "read %d %d" % (number, halfword)

    def refresh(self, deac, refr):
        self.at(deac, "DEAC")
        self.at(refr, "REFR")

    def row(self, first, slots, halfwords=0, commands=0, reports=0, given=0):
        """One call runs `slots` slots from `first` on. Each of its rows is longer by as much as is said. The first `given` halfwords are
        given elsewhere, by `give`."""
        self.rows[first] = slots, halfwords, commands, reports, given

    def give(self, slot, first, given):
        """Before `slot`: the first halfwords of the row that begins later, in slot `first`."""
        self.before.setdefault(slot, []).extend(bus_lines([self.carried(first + n) for n in range(given)]))

    def carried(self, slot):
        """Where the bus carries no data it carries something else in every slot."""
        return self.bus.get(slot, slot * 7919 % 65536)

    def answer(self, slot):
        return "slot 0 %s %s" % (self.command.get(slot, "NOP"), self.report.get(slot, "-"))

    def row_pairs(self, first):
        slots, halfwords, commands, reports, given = self.rows[first]
        assert min(halfwords, commands, reports) == 0, "the shortest row is as long as its slots"
        run = range(first, first + slots)
        assert not any(slot in self.before for slot in run[1:]), "no call within a row"
        bus = [self.carried(slot) for slot in run] + [65535] * halfwords
        answers = ["slots 0 %d" % slots] + [self.answer(slot) for slot in run]
        return bus_lines(bus[given:], given) + [("slots %d %d" % (slots + commands, slots + reports), "\n".join(answers))]

    def store(self, name, last):
        pairs = [("config " + self.words, "config 0")]
        slot = 1
        while slot <= last:
            pairs += self.before.get(slot, [])
            if slot in self.rows:
                pairs += self.row_pairs(slot)
                slot += self.rows[slot][0]
            else:
                pairs.append(("slot %d" % self.carried(slot), self.answer(slot)))
                slot += 1
        assert slot == last + 1
        pairs += self.before.get(slot, [])
        dialogue(name, pairs)


def e1_machine():
    """Document 01, E5: the start of E1's machine. The first service slot is 228."""
    run = Run(E1_WORDS)
    run.at(217, "DEAC")
    for slot in range(218, 225 + 1):
        run.at(slot, "REFR")
    run.at(226, "MRS 32")
    return run


E4_FIRST = 1166


def e4_machine():
    """8 x 136 = 1088 slots NOP; DEAC; tRP 3 to the first REFR; tRFC 9 to the next and to MRS; one NOP."""
    run = Run(E4_WORDS)
    run.at(1089, "DEAC")
    for slot in (1092, 1101, 1110, 1119, 1128, 1137, 1146, 1155):
        run.at(slot, "REFR")
    run.at(1164, "MRS 48")
    return run


def e1_to_e4():
    dialogue("E1", [("config " + E1_WORDS, "config 0")])
    dialogue("E2", [("config 0x4400 0 26 0", "config 3")])
    dialogue("E3", [("config 0x4600 0 397 0xFF77FF70", "config 0"),
                    ("config 0x4600 0 396 0xFF77FF70", "config 3")])
    dialogue("E4", [("config 0x4620 4 136 0x42215810", "config 0"),
                    ("config 0x4620 4 135 0x42215810", "config 3")])


def e5_begin():
    run = e1_machine()
    run.write(1, "0", 4711)
    run.read(100, "0")
    run.at(228, "ACT 0 0")
    run.written(229, 1, 0, 0, 4711)
    run.at(230, "READ 0 0")
    run.data(232, 2, 4711)
    return run


def e5():
    run = e5_begin()
    run.read(233, "2")                  # waits for the machine, which is free at 234
    run.at(234, "READ 0 1")
    run.data(236, 3, first_contents(0, 0, 1))
    run.store("E5", 240)


def e6_begin():
    run = e5_begin()
    for deac in (335, 337, 339, 341, 362):
        run.refresh(deac, deac + 1)
    return run


def e6():
    run = e6_begin()
    run.backlog_after(227, 0)
    run.backlog_after(253, 0)
    run.backlog_after(254, 1)
    run.backlog_after(334, 3)
    run.backlog_after(335, 4)
    run.backlog_after(336, 3)
    run.backlog_after(341, 1)
    run.backlog_after(342, 0)
    run.backlog_after(361, 0)
    run.backlog_after(362, 1)
    run.backlog_after(363, 0)
    run.store("E6", 370)


def e7():
    run, s = e4_machine(), E4_FIRST
    run.write(1, "0", 11)
    run.write(1, "0x800", 22)
    run.at(s, "ACT 0 0")
    run.written(s + 3, 1, 0, 0, 11)
    run.at(s + 6, "PRE 0")
    run.at(s + 9, "ACT 0 1")
    run.written(s + 12, 2, 0, 0, 22)
    run.store("E7", s + 20)


def e8():
    run, s = e4_machine(), E4_FIRST
    run.write(1, "0", 11)
    run.write(1, "0x200", 22)
    run.at(s, "ACT 0 0")
    run.written(s + 3, 1, 0, 0, 11)
    run.at(s + 4, "ACT 1 0")
    run.written(s + 7, 2, 1, 0, 22)
    run.store("E8", s + 20)


def e9():
    """Ten slots after the first service slot, so that s is not the slot after the start."""
    run, s = e4_machine(), E4_FIRST + 10
    run.read(s, "0")
    run.at(s, "ACT 0 0")
    run.at(s + 3, "READ 0 0")
    run.data(s + 6, 1, first_contents(0, 0, 0))
    run.read(s + 7, "2")                # waits for the machine, which is free at s + 8
    run.at(s + 8, "READ 0 1")
    run.data(s + 11, 2, first_contents(0, 0, 1))
    run.store("E9", s + 20)


def e10():
    """After the read of 0x800, free at s + 8: PRE at once, ACT tRP later, WRT tRCD later, READ next."""
    run, s = e4_machine(), E4_FIRST
    run.write(1, "0", 44)
    run.read(1, "0")
    run.read(1, "0x800")
    run.at(s, "ACT 0 1")
    run.at(s + 3, "READ 0 0")
    run.data(s + 6, 3, first_contents(0, 1, 0))
    run.at(s + 8, "PRE 0")
    run.at(s + 11, "ACT 0 0")
    run.written(s + 14, 1, 0, 0, 44)
    run.at(s + 15, "READ 0 0")
    run.data(s + 18, 2, 44)
    run.store("E10", s + 30)


def e11():
    run, s = e4_machine(), E4_FIRST
    run.write(1, "0", 55)
    run.read(1, "0x7FE")
    run.at(s, "ACT 0 0")
    run.written(s + 3, 1, 0, 0, 55)
    run.at(s + 4, "ACT 3 0")
    run.at(s + 7, "READ 3 255")
    run.data(s + 10, 2, first_contents(3, 0, 255))
    run.store("E11", s + 20)


def e12():
    cells = (("0x200", "1 0 0"), ("0x7FE", "3 0 255"), ("0x800", "0 1 0"), ("0xFFFFFE", "3 8191 255"))
    pairs = [("cell 0x4620 4 " + address, "cell 0 " + cell) for address, cell in cells]
    pairs += [("cell 0x4620 4 0x1000000", "cell 5 0 0 0"), ("cell 0x4620 4 0x1000001", "cell 4 0 0 0")]
    pairs += [("address 0x4620 4 " + cell, "address 0 %d" % int(address, 16)) for address, cell in cells]
    pairs += [("config " + E4_WORDS, "config 0"), ("read 0xFFFFFE", "read 0 1"),
              ("read 0x1000000", "read 5 0"), ("write 0x1000001 0", "write 4 0")]
    dialogue("E12", pairs)


def endless_reads(run, first, last):
    """E1's machine reads address 0 without end: ACT in slot `first`, READ in the next, and from there
    READ every 4 slots up to slot `last` (data 2 later, 1 slot more, then free). One further read is
    handed in after each report, so that one always waits; the last two reports bring none."""
    reads = [first + 1] + list(range(first + 5, last + 1, 4))
    assert reads[-1] == last
    run.at(first, "ACT 0 0")
    handed_in = [first, first] + [slot + 3 for slot in reads[:-2]]
    for slot in handed_in:
        run.read(slot, "0")
    for number, slot in enumerate(reads, 1):
        run.at(slot, "READ 0 0")
        run.data(slot + 2, number, first_contents(0, 0, 0))


def must_run_begin():
    """Rule 1. Expiries of E1's machine: 254, 281, ... each 27, the 12th in 551. Choices come every 4
    slots, 549 and 553. At 553 the backlog is 12: five refreshes bring it to 7, and at 563 the run ends."""
    run = e1_machine()
    endless_reads(run, 228, 549)
    run.backlog_after(550, 11)
    run.backlog_after(551, 12)
    for deac in (553, 555, 557, 559, 561):
        run.refresh(deac, deac + 1)
    run.read(550, "0")                  # waits through the Must run
    run.at(563, "ACT 0 0")
    run.at(564, "READ 0 0")
    run.data(566, 82, first_contents(0, 0, 0))
    return run


def must_run():
    run = must_run_begin()
    run.backlog_after(562, 7)
    run.store("must-run", 567)


def must_only_at_a_choice():
    """Rule 1. The 11th expiry is in 524. At the choice of slot 550 no request waits and the backlog is
    11: rule 3. The 12th expiry is in 551, in whose REFR the backlog falls again. So the choice of slot
    552 sees 11, and no Must run has started: the read is served."""
    run = e1_machine()
    endless_reads(run, 229, 546)
    run.refresh(550, 551)
    run.backlog_after(550, 11)
    run.backlog_after(551, 11)
    run.read(551, "0")
    run.at(552, "ACT 0 0")
    run.at(553, "READ 0 0")
    run.data(555, 81, first_contents(0, 0, 0))
    run.store("must-only-at-a-choice", 556)


def need_with_blocked_read():
    """Rules 3 and 4. The 8th expiry is in 443. At the choice of slot 445 a write and a read of its block
    wait: the read is blocked, so rule 3 comes before rule 4. Then the backlog is 7 and the write goes."""
    run = e1_machine()
    endless_reads(run, 228, 441)
    run.write(440, "0", 66)
    run.read(440, "0")
    run.backlog_after(444, 8)
    run.refresh(445, 446)
    run.backlog_after(446, 7)
    run.at(447, "ACT 0 0")
    run.written(448, 55, 0, 0, 66)
    run.at(449, "READ 0 0")
    run.data(451, 56, 66)
    run.store("need-with-blocked-read", 452)


def write_before_release():
    """Rules 4 and 5. The 4th expiry is in 335; a write waiting then goes before the refresh."""
    run = e5_begin()
    run.write(335, "4", 77)
    run.written(335, 3, 0, 2, 77)
    run.refresh(336, 337)
    run.backlog_after(337, 3)
    run.refresh(338, 339)
    run.store("write-before-release", 339)


def oldest_read_first():
    """Rule 2. Two unblocked reads of one bank, the second free to go at s + 8."""
    run, s = e4_machine(), E4_FIRST
    run.read(1, "0x800")
    run.read(1, "0")
    run.at(s, "ACT 0 1")
    run.at(s + 3, "READ 0 0")
    run.data(s + 6, 1, first_contents(0, 1, 0))
    run.at(s + 8, "PRE 0")
    run.at(s + 11, "ACT 0 0")
    run.at(s + 14, "READ 0 0")
    run.data(s + 17, 2, first_contents(0, 0, 0))
    run.store("oldest-read-first", s + 20)


def tight_distances():
    """R7 and R13 decide here: tWR 8, tRRD 8, all others 1; 2 banks, CL 2. M 8, A 23, F 10: least RR 83.
    664 slots NOP, DEAC 665, REFR 666 to 673, MRS 674, NOP 675. Expiries 758, 841, 924, 1007."""
    run = Run("0x4410 0 83 0x00070070")
    run.call(1, "config 0x4410 0 82 0x00070070", "config 3")
    run.call(1, "config 0x4410 0 83 0x00070070", "config 0")
    run.at(665, "DEAC")
    for slot in range(666, 673 + 1):
        run.at(slot, "REFR")
    run.at(674, "MRS 32")
    run.write(1, "0", 88)               # bank 0, row 0
    run.write(1, "0x1000", 89)          # bank 0, row 4
    run.write(1, "0xA00", 90)           # bank 1, row 2
    run.at(676, "ACT 0 0")
    run.written(677, 1, 0, 0, 88)
    run.at(685, "PRE 0")                # tWR
    run.at(686, "ACT 0 4")
    run.written(687, 2, 0, 0, 89)
    run.at(694, "ACT 1 2")              # tRRD
    run.written(695, 3, 1, 0, 90)
    # Both banks are open, so backlog 1 to 3 waits. A write to bank 0, then a read of bank 1; at 1008
    # the backlog is 4 and the machine free, but DEAC has to wait for bank 0's tWR.
    run.write(1003, "0x1002", 91)
    run.written(1003, 4, 0, 1, 91)
    run.read(1004, "0xA00")
    run.at(1004, "READ 1 0")
    run.data(1006, 5, 90)
    run.refresh(1011, 1012)
    run.refresh(1013, 1014)
    run.store("tight-distances", 1014)


def unlike_distances():
    """No two distances are equal, nor to CL 3: tRFC 13, tRP 4, tRCD 2, tWR 8, tRAS 6, tRC 11, tRRD 5; 2 banks, 10 column bits. M 8, A 35,
    F 25: least RR 185. 1480 slots NOP; DEAC; tRP to the first REFR; tRFC to the next and to MRS; one NOP. Expiries 1775, 1960, ..."""
    run = Run("0x4612 4 185 0x63175A40")
    run.call(1, "config 0x4612 4 184 0x63175A40", "config 3")
    run.call(1, "config 0x4612 4 185 0x63175A40", "config 0")
    run.at(1481, "DEAC")
    for slot in range(1485, 1576 + 1, 13):
        run.at(slot, "REFR")
    run.at(1589, "MRS 48")
    run.write(1, "0", 31)               # bank 0, row 0
    run.write(1, "0x1000", 32)          # bank 0, row 1
    run.write(1, "0x800", 33)           # bank 1, row 0
    run.at(1591, "ACT 0 0")
    run.written(1593, 1, 0, 0, 31)      # tRCD
    run.at(1601, "PRE 0")               # tWR
    run.at(1605, "ACT 0 1")             # tRP
    run.written(1607, 2, 0, 0, 32)
    run.at(1610, "ACT 1 0")             # tRRD
    run.written(1612, 3, 1, 0, 33)
    run.read(1640, "0")                 # bank 0, row 0: another row, read and left at once
    run.at(1640, "PRE 0")
    run.at(1644, "ACT 0 0")
    run.at(1646, "READ 0 0")
    run.data(1649, 4, 31)               # CL
    run.read(1649, "0x1000")            # waits for the machine, which is free at 1651
    run.at(1651, "PRE 0")
    run.at(1655, "ACT 0 1")             # tRP, and tRC kept
    run.at(1657, "READ 0 0")
    run.data(1660, 5, 32)
    run.store("unlike-distances", 1670)


def row_cycle_least_rr():
    """Document 02, (iv), and number 3: F where tRC is far above, just above, equal to, just below and far below M + tRP."""
    pairs = []
    for cfg, tim, least in (
            ("0x4400", "0x01002300", 51),       # tRP 2, tRAS 3, tRC 4, all others 1: M 3, A 15, M + tRP 5, F 6
            ("0x4400", "0x01002400", 52),       # tRC 5: A 16, F 6
            ("0x4400", "0x01002500", 59),       # tRC 6: A 17, F 7
            ("0x4400", "0x00031600", 66),       # tWR 4, tRAS 2, tRC 7, all others 1: M 4, A 18, M + tRP 5, F 8
            ("0x4400", "0xF8000F00", 312),      # tRFC 32, tRC 16, all others 1: A 24, F 48
            ("0x4600", "0x00000F00", 127),      # CL 3, tRC 16, all others 1: A 25, F 17
            ("0x4600", "0xFF77F070", 382)):     # CL 3, tRC 1, all others full: A 46, F 56
        pairs += [("config %s 0 %d %s" % (cfg, least, tim), "config 0"), ("config %s 0 %d %s" % (cfg, least - 1, tim), "config 3")]
    dialogue("row-cycle-least-rr", pairs)


def row_cycle():
    """R16. CL 2, 4 banks, 8 column bits, 13 row bits; tRFC 7, tRP 2, tRCD 4, tWR 3, tRAS 5, tRC 12, tRRD 6. M 5, A 33, M + tRP 7, F 19:
    least RR 147. 1176 slots NOP; DEAC; tRP to the first REFR; tRFC to the next and to MRS; one NOP. Expiries 1383, 1530, 1677, 1824, 1971."""
    run = Run("0x4420 4 147 0x31324B50")
    run.call(1, "config 0x4420 4 146 0x31324B50", "config 3")
    run.call(1, "config 0x4420 4 147 0x31324B50", "config 0")
    run.at(1177, "DEAC")
    for slot in range(1179, 1228 + 1, 7):
        run.at(slot, "REFR")
    run.at(1235, "MRS 32")
    run.write(1, "0", 41)               # bank 0, which stays open: backlog 1 to 3 waits
    run.at(1237, "ACT 0 0")
    run.written(1241, 1, 0, 0, 41)
    run.write(1823, "0x200", 42)        # bank 1, one slot before the fourth expiry
    run.at(1823, "ACT 1 0")
    run.backlog_after(1823, 3)
    run.written(1827, 2, 1, 0, 42)
    run.backlog_after(1827, 4)
    run.refresh(1830, 1835)             # chosen in 1828; tWR; tRC after 1823, where tRP would be over in 1832
    run.backlog_after(1834, 4)
    run.backlog_after(1835, 3)
    for deac in (1842, 1851, 1860):     # tRFC after the REFR before it; all banks are closed
        run.refresh(deac, deac + 2)
    run.backlog_after(1862, 0)
    run.refresh(1971, 1973)             # no ACT since
    run.store("row-cycle", 1980)


def row_cycle_other_bank():
    """R16 by a bank that is neither the last one used nor bank 0, and two banks less than tRC after their ACT. CL 2, 4 banks, 8 column bits,
    9 row bits; tRFC 3, tRP 2, tRCD 1, tWR 1, tRAS 3, tRC 16, tRRD 2. M 3, A 28, M + tRP 5, F 19: least RR 142. Expiries 1306, 1448, 1590, 1732."""
    run = Run("0x4420 0 142 0x11002F10")
    run.call(1, "config 0x4420 0 141 0x11002F10", "config 3")
    run.call(1, "config 0x4420 0 142 0x11002F10", "config 0")
    run.at(1137, "DEAC")
    for slot in range(1139, 1160 + 1, 3):
        run.at(slot, "REFR")
    run.at(1163, "MRS 32")
    run.write(1, "0", 51)               # bank 0 stays open
    run.at(1165, "ACT 0 0")
    run.written(1166, 1, 0, 0, 51)
    run.write(1729, "0x200", 52)        # bank 1
    run.write(1729, "0x400", 53)        # bank 2
    run.write(1729, "2", 54)            # bank 0, the open row
    run.at(1729, "ACT 1 0")
    run.written(1730, 2, 1, 0, 52)
    run.at(1731, "ACT 2 0")             # tRRD
    run.written(1732, 3, 2, 0, 53)
    run.written(1733, 4, 0, 1, 54)      # rule 4 before rule 5
    run.refresh(1734, 1747)             # tRAS after 1731; tRC after 1731, in bank 1 after 1729; tRP would be over in 1736
    for deac in (1750, 1755, 1760):
        run.refresh(deac, deac + 2)
    run.backlog_after(1762, 0)
    run.store("row-cycle-other-bank", 1770)


def row_cycle_must_run():
    """R16 in the first refresh of a Must run. CL 2, 2 banks; tRFC 2, tRC 8, all others 1. M 1, A 16, M + tRP 2, F 10: least RR 76. 608 slots
    NOP, DEAC 609, REFR every other slot from 610 to 624, MRS 626, NOP 627. Expiries 703, 779, ... each 76, the 12th in 1539."""
    run = Run("0x4410 0 76 0x08000700")
    run.call(1, "config 0x4410 0 75 0x08000700", "config 3")
    run.call(1, "config 0x4410 0 76 0x08000700", "config 0")
    run.at(609, "DEAC")
    for slot in range(610, 624 + 1, 2):
        run.at(slot, "REFR")
    run.at(626, "MRS 32")
    endless_reads(run, 628, 1533)       # 227 reads; tRCD and CL are E1's
    run.read(1534, "0x200")             # bank 1
    run.at(1537, "ACT 1 0")
    run.at(1538, "READ 1 0")
    run.data(1540, 228, first_contents(1, 0, 0))
    run.read(1538, "0")                 # waits through the Must run
    run.backlog_after(1538, 11)
    run.backlog_after(1539, 12)
    run.refresh(1542, 1545)             # tRC after 1537, where tRP would be over in 1543
    for deac in (1547, 1550, 1553, 1556):
        run.refresh(deac, deac + 1)
    run.backlog_after(1557, 7)
    run.at(1559, "ACT 0 0")
    run.at(1560, "READ 0 0")
    run.data(1562, 229, first_contents(0, 0, 0))
    run.store("row-cycle-must-run", 1563)


def geometries():
    """Each of the 60 geometries on E1's distances, with CL 2 and RR 27, or CL 3 and RR 28 (A is one more): the device's last halfword and the
    one that is all but the lowest bits, by the map and by a machine that writes the first and reads the second."""
    pairs = []
    for columns in range(8, 11 + 1):
        for banks in range(0, 2 + 1):
            for rows in range(9, 13 + 1):
                latency = 2 + (columns + banks + rows) % 2
                cfg = "0x%X" % (0x4000 | latency << 9 | banks << 4 | columns - 8)
                row = "%d" % (rows - 9)
                rr = 25 + latency
                capacity = 2 ** (1 + columns + banks + rows)
                # The last cell, and the one before it in every part that has more than one.
                last = (2 ** banks - 1, 2 ** rows - 1, 2 ** columns - 1)
                other = (max(last[0] - 1, 0), last[1] - 1, last[2] - 1)
                places = [((r * 2 ** banks + b) * 2 ** columns + c) * 2 for b, r, c in (last, other)]
                for cell, address in zip((last, other), places):
                    pairs += [("cell %s %s %d" % (cfg, row, address), "cell 0 %d %d %d" % cell),
                              ("address %s %s %d %d %d" % ((cfg, row) + cell), "address 0 %d" % address)]
                pairs += [("cell %s %s %d" % (cfg, row, capacity), "cell 5 0 0 0"),
                          ("address %s %s %d 0 0" % (cfg, row, 2 ** banks), "address 10 0"),
                          ("address %s %s 0 %d 0" % (cfg, row, 2 ** rows), "address 10 0"),
                          ("address %s %s 0 0 %d" % (cfg, row, 2 ** columns), "address 10 0")]
                pairs += [("config %s %s %d 0" % (cfg, row, rr - 1), "config 3"),
                          ("config %s %s %d 0" % (cfg, row, rr), "config 0"),
                          ("read %d" % capacity, "read 5 0"), ("write %d 1" % places[0], "write 0 1")]
                commands = {8 * rr + 1: "DEAC", 8 * rr + 10: "MRS %d" % (16 * latency)}
                commands.update((slot, "REFR") for slot in range(8 * rr + 2, 8 * rr + 9 + 1))
                first = 8 * rr + 12     # the first service slot
                commands[first] = "ACT %d %d" % last[:2]
                commands[first + 1] = "WRT %d %d 1 write 1" % (last[0], last[2])
                for slot in range(1, first + 2):
                    line = commands.get(slot, "NOP")
                    pairs.append(("slot %d" % slot, "slot 0 " + line + ("" if "write" in line else " -")))
                # The read finds its bank closed, or with one bank another row open.
                pairs.append(("read %d" % places[1], "read 0 2"))
                lines = ["PRE %d -" % other[0]] if banks == 0 else []
                lines += ["ACT %d %d -" % other[:2], "READ %d %d -" % (other[0], other[2])] + ["NOP -"] * (latency - 1)
                pairs += [("slot 7", "slot 0 " + line) for line in lines]
                halfword = first_contents(*other)
                pairs += [("slot %d" % halfword, "slot 0 NOP read 2 %d" % halfword), ("slot 7", "slot 0 NOP -"), ("backlog", "backlog 0 0")]
    dialogue("geometries", pairs)


def numbers():
    pairs = [
        # The blank machine, before any other number.
        ("read 1", "read 8 0"), ("write 0xFFFFFFFF 1", "write 8 0"), ("slot 5", "slot 8 NOP -"),
        ("backlog", "backlog 8 0"),
        # 1: the lowest and highest unnamed bits of each word, and each gap in CFG and TIM.
        ("config 0x4408 0 27 0", "config 1"), ("config 0x4480 0 27 0", "config 1"),
        ("config 0x4500 0 27 0", "config 1"), ("config 0x5400 0 27 0", "config 1"),
        ("config 0x6400 0 27 0", "config 1"), ("config 0xC400 0 27 0", "config 1"),
        ("config 0x80004400 0 27 0", "config 1"), ("config 0x4400 8 27 0", "config 1"),
        ("config 0x4400 0x80000000 27 0", "config 1"), ("config 0x4400 0 0x201B 0", "config 1"),
        ("config 0x4400 0 0x8000001B 0", "config 1"), ("config 0x4400 0 8191 1", "config 1"),
        ("config 0x4400 0 8191 8", "config 1"), ("config 0x4400 0 8191 0x80", "config 1"),
        ("config 0x4400 0 8191 0x80000", "config 1"), ("config 0x4400 0 8191 0x800000", "config 1"),
        # 2: each field; and 1 comes before it, from any word.
        ("config 0x0400 0 27 0", "config 2"), ("config 0x4000 0 27 0", "config 2"),
        ("config 0x4200 0 27 0", "config 2"), ("config 0x4800 0 27 0", "config 2"),
        ("config 0x4E00 0 27 0", "config 2"), ("config 0x4430 0 27 0", "config 2"),
        ("config 0x4470 0 27 0", "config 2"), ("config 0x4404 0 27 0", "config 2"),
        ("config 0x4407 0 27 0", "config 2"), ("config 0x4400 5 27 0", "config 2"),
        ("config 0x4400 7 27 0", "config 2"), ("config 0 0 0 0", "config 2"),
        ("config 0 0 0 8", "config 1"), ("config 0 0 0x2000 0", "config 1"),
        ("config 0x4400 13 27 0", "config 1"), ("config 0xFFFFFFFF 0 27 0", "config 1"),
        # 3: and 2 comes before it.
        ("config 0x4400 0 0 0", "config 3"), ("config 0x4400 5 0 0", "config 2"),
        ("slot 5", "slot 8 NOP -"),
        # All fields offered.
        ("config 0x4623 4 397 0xFF77FF70", "config 0"), ("config 0x4623 4 8191 0xFF77FF70", "config 0"),
        ("read 134217726", "read 0 1"), ("read 134217728", "read 5 0"), ("read 134217729", "read 4 0"),
        # E1's machine: 4 before 5 before 6, and refused requests take no number.
        ("config " + E1_WORDS, "config 0"),
        ("write 1 0", "write 4 0"), ("write 262144 0", "write 5 0"), ("write 262145 0", "write 4 0"),
        ("write 262142 0", "write 0 1"), ("read 4294967294", "read 5 0"), ("read 4294967295", "read 4 0"),
    ]
    pairs += [("read 0", "read 0 %d" % number) for number in range(2, 8 + 1)]
    pairs += [("read 0", "read 6 0"), ("write 0 0", "write 6 0"), ("read 1", "read 4 0"),
              ("read 262144", "read 5 0"), ("slot 5", "slot 0 NOP -"), ("backlog", "backlog 0 0"),
              # The standalone map: 1, 2, then 4 and 5, or 10.
              ("cell 0x4408 0 1", "cell 1 0 0 0"), ("cell 0x4400 8 1", "cell 1 0 0 0"),
              ("cell 0x0008 0 1", "cell 1 0 0 0"), ("cell 0x0400 0 1", "cell 2 0 0 0"),
              ("cell 0x4000 0 1", "cell 2 0 0 0"), ("cell 0x4400 5 1", "cell 2 0 0 0"),
              ("cell 0x4400 0 262145", "cell 4 0 0 0"), ("cell 0x4400 0 262144", "cell 5 0 0 0"),
              ("cell 0x4400 0 262142", "cell 0 0 511 255"), ("cell 0x4623 4 134217726", "cell 0 3 8191 2047"),
              ("address 0x4408 0 1 0 0", "address 1 0"), ("address 0x4404 0 1 0 0", "address 2 0"),
              ("address 0x4400 0 1 0 0", "address 10 0"), ("address 0x4400 0 0 512 0", "address 10 0"),
              ("address 0x4400 0 0 0 256", "address 10 0"), ("address 0x4400 0 255 65535 65535", "address 10 0"),
              ("address 0x4400 0 0 511 255", "address 0 262142"),
              ("address 0x4623 4 3 8191 2047", "address 0 134217726"),
              # A refused configuration leaves the blank machine.
              ("config 0x4400 0 26 0", "config 3"), ("read 0", "read 8 0"), ("backlog", "backlog 8 0")]
    dialogue("numbers", pairs)


def form():
    """Lines of every shape. A line of None is passed over, the others are answered."""
    lines = [
        (b"", None), (b"# a comment", None), (b"#", None), (b"#" * 300, None), (b"# \t\r\x00\xff", None),
        (b"config 0x4400 0 27 0", "config 0"), (b"slot 0", "slot 0 NOP -"), (b"slot 0xfFfF", "slot 0 NOP -"),
        (b"slot 65535", "slot 0 NOP -"), (b"slot 00000000000000000000001", "slot 0 NOP -"),
        (b"slot 0x00000000000000000000001", "slot 0 NOP -"), (b"read 0", "read 0 1"), (b"read 0xFFFFFFFF", "read 4 0"),
        (b"read 4294967295", "read 4 0"), (b"address 0x4400 0 0xFF 0xFFFF 0xFFFF", "address 10 0"),
        (b"slot " + b"0" * 250, "slot 0 NOP -"), (b"slot " + b"0" * 251, "error"), (b"x" * 3000, "error"),
    ]
    errors = [
        b"slot", b"slot 0 0", b"slot ", b"slot  0", b" slot 0", b"slot 0 ", b"slot\t0", b"slot 0\t", b"slot 0\r",
        b"slot 0\x00", b"\x00", b"\r", b"\t", b" ", b"  ", b"Slot 0", b"SLOT 0", b"slots 0", b"slo 0", b"slot0",
        b"slot 65536", b"slot 0x10000", b"slot 0x", b"slot 0X0", b"slot 00x0", b"slot x0", b"slot 0xG", b"slot a",
        b"slot +0", b"slot -0", b"slot 0.", b"slot 1e0", b"slot 0h", b"slot 18446744073709551616",
        b"slot 0x10000000000000000", b"slot 0 # comment", b" # comment", b"read", b"read 0 0", b"read 4294967296",
        b"read 0x100000000", b"write 0", b"write 0 0 0", b"write 0 65536", b"write 4294967296 0", b"backlog 0",
        b"backlog ", b"config", b"config 0x4400 0 27", b"config 0x4400 0 27 0 0", b"config 0x4400 0 27 4294967296",
        b"cell 0x4400 0", b"cell 0x4400 0 0 0", b"cell 0x4400 0 4294967296", b"address 0x4400 0 0 0",
        b"address 0x4400 0 0 0 0 0", b"address 0x4400 0 256 0 0", b"address 0x4400 0 0 65536 0",
        b"address 0x4400 0 0 0 65536", b"run", b"0", b"\xff",
    ]
    lines += [(line, "error") for line in errors]
    lines += [(b"", None), (b"backlog", "backlog 0 0")]     # the last line has no line feed
    expected = [answer + " %d" % number if answer == "error" else answer
                for number, (_, answer) in enumerate(lines, 1) if answer is not None]
    store("form", [b"\n".join(line for line, _ in lines)], expected)


def slots():
    """Document 02, (i). E5 and E6 in rows, each of the three the shortest in turn; requests, single slots and reading calls between."""
    run = e6_begin()
    run.row(1, 99, commands=1, reports=2)
    run.give(100, 101, 5)               # these wait through a single slot and a reading call
    run.row(101, 115, halfwords=3, reports=1, given=5)
    run.backlog_after(100, 0)
    # No halfword waits; no places; and then none waits any more.
    for line, answer in (("slots 5 5", "slots 0 0"), ("bus 7", "bus 1"), ("slots 0 4096", "slots 0 0"), ("slots 5 5", "slots 0 0"),
                         ("bus 7 8", "bus 2"), ("slots 4096 0", "slots 0 0")):
        run.call(216, line, answer)
    run.row(216, 1)
    run.row(217, 14, halfwords=2, commands=5)   # from DEAC to the READ in 230
    run.row(231, 2, commands=1, reports=1)      # the data of that READ
    run.backlog_after(233, 0)
    run.row(234, 101, halfwords=1, commands=7)
    run.backlog_after(334, 3)
    run.row(335, 1, halfwords=9, reports=9)
    run.backlog_after(335, 4)
    run.row(336, 1, commands=2, reports=1)
    run.backlog_after(336, 3)
    run.row(337, 26, commands=4096 - 26, reports=4096 - 26)
    run.backlog_after(362, 1)
    run.backlog_after(363, 0)
    run.store("slots", 370)


def slots_one_row():
    """E5 and E6 by one call: start, write, read with its data, expiries, refreshes."""
    run = e6_begin()
    run.before[1] += run.before.pop(100)        # the read is handed in first, too
    run.row(1, 370, commands=30, reports=20)
    run.store("slots-one-row", 370)


def slots_must_run():
    """The Must run of that example within a row, and the read that waits for its end."""
    run = must_run_begin()
    run.row(552, 16, halfwords=1, reports=1)
    run.backlog_after(567, 7)
    run.store("slots-must-run", 567)


def slots_form():
    """`bus` and `slots` lines of every shape. Errors add no halfword and take none."""
    def digits(count):
        return b"bus" + b" 7" * count

    lines = [
        # The blank machine. What waits is used up by the call, refused or not, and by nothing else.
        (b"slots 0 0", "slots 8 0"), (b"slots 1 1", "slots 8 0"), (b"bus 1", "bus 1"), (b"bus 2 3", "bus 3"), (b"slots 3 3", "slots 8 0"),
        (b"bus 1", "bus 1"), (b"slots 0 0", "slots 8 0"), (b"bus 1 2", "bus 2"), (b"slot 0", "slot 8 NOP -"), (b"read 0", "read 8 0"),
        (b"config 0x4400 0 26 0", "config 3"), (b"bus 3", "bus 3"), (b"backlog", "backlog 8 0"), (b"cell 0x4400 0 2", "cell 0 0 0 1"),
        (b"config 0x4400 0 27 0", "config 0"), (b"bus 4", "bus 4"),
        # Slots 1 to 4, of 216 that are NOP; then none waits.
        (b"slots 5 4", "slots 0 4" + 4 * "\nslot 0 NOP -"), (b"slots 5 5", "slots 0 0"), (b"", None), (b"# bus 1", None),
        # Numbers, and lines of 255 bytes and of more.
        (digits(126), "bus 126"), (digits(126) + b"7", "error"), (digits(127), "error"), (digits(300), "error"), (b"bus 0", "bus 127"),
        (b"bus 65535 0xFFFF 0xffff 0x0 00000000065535", "bus 132"), (b"bus " + b"0" * 251, "bus 133"), (b"bus " + b"0" * 252, "error"),
        (b"slots 0x00 00", "slots 0 0"),
        # A reading call, a request, a single slot (the 5th) and a configuration leave waiting what waits.
        (b"bus 7 8", "bus 2"), (b"backlog", "backlog 0 0"), (b"read 1", "read 4 0"), (b"read 0", "read 0 1"), (b"slot 9", "slot 0 NOP -"),
        (b"config 0x4400 0 27 0", "config 0"), (b"bus 9", "bus 3"),
    ]
    errors = [
        b"bus", b"bus ", b"bus  1", b"bus 1 ", b"bus 1  2", b" bus 1", b"bus\t1", b"bus 1\t2", b"bus 1\r", b"bus 1\x00", b"Bus 1", b"bus1",
        b"buss 1", b"bu 1", b"bus 65536", b"bus 0x10000", b"bus 65536 1", b"bus 1 65536", b"bus 1 65536 1", b"bus 1 2 x", b"bus x 1 2",
        b"bus 1 0x", b"bus 1 0X1", b"bus 1 -1", b"bus 1 +1", b"bus 1,2", b"bus 1 # 2", b"bus 18446744073709551616", b"bus 1 18446744073709551616",
        b"slots", b"slots ", b"slots 1", b"slots 1 ", b"slots 1 1 1", b"slots 1 1 ", b"slots  1 1", b"slots 1  1", b" slots 1 1", b"Slots 1 1",
        b"slots\t1 1", b"slots 1 1\r", b"slots 4097 1", b"slots 1 4097", b"slots 4097 4097", b"slots 0x1001 1", b"slots 1 65536",
        b"slots 4294967296 1", b"slots 1 18446744073709551616", b"slots -1 1", b"slots 1 x", b"slots 0x 1", b"slot 1 1", b"slotss 1 1",
    ]
    lines += [(line, "error") for line in errors]
    # Three still wait. 4,096 may: 3 + 32 x 126 = 4,035, and 61 more.
    lines += [(digits(126), "bus %d" % (3 + 126 * n)) for n in range(1, 32 + 1)]
    lines += [(digits(62), "error"), (digits(126), "error"), (digits(60), "bus 4095"), (digits(2), "error"), (digits(1), "bus 4096"),
              (digits(1), "error"), (b"bus 65536", "error"), (b"slots 4097 4096", "error"), (b"slots 4096 4097", "error")]
    # All of them, on E1's machine without requests: the interval ends in 254 and each 27 slots later, all banks are closed.
    run = e1_machine()
    for deac in range(254, 4096, 27):
        run.refresh(deac, deac + 1)
    lines += [(b"slots 4096 0x1000", "\n".join(["slots 0 4096"] + [run.answer(slot) for slot in range(1, 4096 + 1)])),
              (b"slots 4096 4096", "slots 0 0"), (b"bus 1", "bus 1"), (b"backlog", "backlog 0 0"),
              # 4,097 is the slot after the pair in 4,088 and 4,089; the last line has no line feed.
              (b"slots 1 2", "slots 0 1\nslot 0 NOP -")]
    assert 254 + 27 * 142 == 4088
    expected = [answer + " %d" % number if answer == "error" else answer
                for number, (_, answer) in enumerate(lines, 1) if answer is not None]
    store("slots-form", [b"\n".join(line for line, _ in lines)], expected)


def tape_e5():
    """Document 02, (ii): its slots 217 to 229. The 216 NOPs before them are run by four calls; the read's data is in 232."""
    run = e1_machine()
    run.write(1, "0", 7)
    run.read(1, "0")
    run.at(228, "ACT 0 0")
    run.written(229, 1, 0, 0, 7)
    run.at(230, "READ 0 0")
    run.data(232, 2, 7)
    run.row(1, 100, commands=1)
    run.row(101, 99, reports=1)
    run.row(201, 15, halfwords=1, reports=1)    # 216 is a call of its own
    run.row(217, 10)                            # DEAC to MRS
    run.row(227, 1)
    run.row(232, 5)
    run.store("tape-E5", 240)
    refr = ["%d REFR" % slot for slot in range(218, 225 + 1)]
    tape("tape-E5", "00 d8 00" + "05" + 8 * "06" + "07 20 00" + "00 01 00" + "01 00 00 00" + "03 00 00 00 07 00" + "02 00 00 00" + "00 0a 00",
         ["1 NOP 216", "217 DEAC"] + refr + ["226 MRS 32", "227 NOP 1", "228 ACT 0 0", "229 WRT 0 0 7", "230 READ 0 0", "231 NOP 10", "end 240"])


def tape_e7():
    """E7's slots with rows, columns, banks and halfwords that take their places: the device's last cell, and the cell before it in each part.
    4 banks, 13 row bits, 11 column bits; E4's distances, so that the accesses follow each other as in E7 and E8."""
    run, s = e4_machine(), E4_FIRST
    run.words = "0x4623 4 136 0x42215810"
    run.write(1, "0x7FFFFFE", 0xABCD)                  # bank 3, row 8191, column 2047
    run.write(1, "0x7FFBFFC", 0x1234)                  # bank 3, row 8190, column 2046
    run.at(s, "ACT 3 8191")
    run.written(s + 3, 1, 3, 2047, 0xABCD)
    run.at(s + 6, "PRE 3")
    run.at(s + 9, "ACT 3 8190")
    run.written(s + 12, 2, 3, 2046, 0x1234)
    run.store("tape-E7", s + 12)
    refr = 7 * "06 00 08 00"                           # the next one 9 slots later
    tape("tape-E7", "00 40 04" + "05 00 02 00" + refr + "06 00 08 00" + "07 30 00" + "00 01 00" + "01 03 ff 1f" + "00 02 00" + "03 03 ff 07 cd ab" +
         "00 02 00" + "04 03" + "00 02 00" + "01 03 fe 1f" + "00 02 00" + "03 03 fe 07 34 12")


def tape_only_slots():
    """What is no slot leaves nothing on the tape, and a run goes on over it. All slots are of the start, NOP."""
    def rows(count):
        return ("slots %d %d" % (count, count), "\n".join(["slots 0 %d" % count] + count * ["slot 0 NOP -"]))

    dialogue("tape-only-slots", [
        # The blank machine: no slot.
        ("slot 5", "slot 8 NOP -"), ("bus 1 2", "bus 2"), ("slots 2 2", "slots 8 0"), ("config 0x4400 0 26 0", "config 3"), ("slot 5", "slot 8 NOP -"),
        ("slot", "error 6"), ("config " + E1_WORDS, "config 0"),
        # 1 + 3 + 0 + 2 + 1 slots.
        ("slot 5", "slot 0 NOP -"), ("slot 65536", "error 9"), ("read 1", "read 4 0"), ("bus 1 2 3", "bus 3"), rows(3), rows(0), ("backlog", "backlog 0 0"),
        ("bus 1 2", "bus 2"), ("slots 4097 1", "error 16"), ("read 0", "read 0 1"), rows(2), ("cell 0x4400 0 2", "cell 0 0 0 1"), ("slot 5", "slot 0 NOP -"),
        # A refused configuration: the blank machine again, and the tape is not ended, but there are no slots either.
        ("config 0x4400 0 26 0", "config 3"), ("slot 5", "slot 8 NOP -"), ("bus 1", "bus 1"), ("slots 1 1", "slots 8 0"),
        # A second accepted one ends it.
        ("config " + E1_WORDS, "config 0"), ("slot 5", "slot 0 NOP -"), ("slot 5", "slot 0 NOP -")])
    tape("tape-only-slots", "00 07 00", ["1 NOP 7", "end 7"])
    dialogue("tape-none", [("slot 5", "slot 8 NOP -"), ("config 0x4400 0 26 0", "config 3"), ("slot 5", "slot 8 NOP -")])
    tape("tape-none", "", ["end 0"], ["cut 0 end 0"])
    dialogue("tape-two-configs", [("config " + E1_WORDS, "config 0")] + 5 * [("slot 5", "slot 0 NOP -")] +
             [("config " + E4_WORDS, "config 0")] + 3 * [("slot 5", "slot 0 NOP -")])
    tape("tape-two-configs", "00 05 00")


def tapes():
    """Tapes that no machine of ours gives, and refused ones."""
    tape("tape-kinds", "01 ff fe ff" "02 80 34 12" "03 7f 01 00 00 80" "04 ff" "05" "06" "07 ff ff" "00 00 01" "01 00 00 00" "00 01 00" "05" "05",
         ["1 ACT 255 65534", "2 READ 128 4660", "3 WRT 127 1 32768", "4 PRE 255", "5 DEAC", "6 REFR", "7 MRS 65535", "8 NOP 256", "264 ACT 0 0",
          "265 NOP 1", "266 DEAC", "267 DEAC", "end 267"])
    # 65,535 three times and 2; DEAC; 65,535; DEAC; 65,534; DEAC; 65,535 twice.
    tape("tape-runs", "00ffff 00ffff 00ffff 000200 05 00ffff 05 00feff 05 00ffff 00ffff",
         ["1 NOP 65535", "65536 NOP 65535", "131071 NOP 65535", "196606 NOP 2", "196608 DEAC", "196609 NOP 65535", "262144 DEAC", "262145 NOP 65534",
          "327679 DEAC", "327680 NOP 65535", "393215 NOP 65535", "end 458749"])
    # Kind 8 with bytes behind it and as the last byte, which is not 12.
    tape("tape-kind-8", "05 08 00 00 00 00 00", ["1 DEAC", "refused 11 1"])
    tape("tape-kind-8-last", "04 03 08", ["1 PRE 3", "refused 11 2"])
    tape("tape-kind-255", "ff", ["refused 11 0"])
    # A cut body: of WRT by one byte, of PRE by its only byte.
    tape("tape-cut", "05 03 01 02 03 04", ["1 DEAC", "refused 12 1"])
    tape("tape-cut-pre", "00 03 00 04", ["1 NOP 3", "refused 12 3"])
    # A cut run after a shorter one is 12 still.
    tape("tape-cut-run", "00 03 00 00 05", ["1 NOP 3", "refused 12 3"])
    tape("tape-count-0", "05 00 00 00 05", ["1 DEAC", "refused 13 1"])
    tape("tape-count-0-after-full", "00 ff ff 00 00 00", ["1 NOP 65535", "refused 13 3"])
    tape("tape-run-after-shorter", "06 00 fe ff 00 01 00 05", ["1 REFR", "2 NOP 65534", "refused 13 4"])
    # DEAC: 0 to 4 and 7 have a body that is not there, 8 and above are no kinds.
    ends = {5: "end 1", 6: "end 1"}
    tape("tape-deac", "05", ["1 DEAC", "end 1"], ["cut 0 end 0", "cut 1 end 1"] +
         ["change 0 %d %s" % (value, ends.get(value, "refused 12 0" if value < 8 else "refused 11 0")) for value in range(256)])
    # One NOP: with kind 4 it is PRE 1 and a cut run, with 5 or 6 a command without a body and a cut ACT, with 7 MRS 1. Then the count.
    ends = {0: "end 1", 4: "refused 12 2", 5: "refused 12 1", 6: "refused 12 1", 7: "end 1"}
    tape("tape-nop", "00 01 00", ["1 NOP 1", "end 1"], ["cut 0 end 0", "cut 1 refused 12 0", "cut 2 refused 12 0", "cut 3 end 1"] +
         ["change 0 %d %s" % (value, ends.get(value, "refused 12 0" if value < 8 else "refused 11 0")) for value in range(256)] +
         ["change 1 %d %s" % (value, "end %d" % value if value > 0 else "refused 13 0") for value in range(256)] +
         ["change 2 %d end %d" % (value, 1 + 256 * value) for value in range(256)])


LEGAL = "0 0 0 0"


def judge_e5():
    """Document 02, (v). E5's tape on E1's device, all distances 1 and CL 2; one bank. MRS is in 226, so ACT is legal from 228 on."""
    nops, start, mrs, nop = "00 d8 00", "05" + 8 * "06", "07 20 00", "00 01 00"
    act, wrt, read, pre, deac, refr = "01 00 00 00", "03 00 00 00 07 00", "02 00 00 00", "04 00", "05", "06"
    begin = nops + start + mrs + nop
    judged("judge-E5", [
        (E1_WORDS, begin + act + wrt + read + "00 0a 00", LEGAL),           # the whole of tape-E5
        (E1_WORDS, start + mrs + nop + act + wrt, LEGAL),                   # the record in document 02, as a tape of its own
        (E1_WORDS, begin + act + wrt + read + deac + refr, LEGAL),          # every distance is kept in the next slot
        (E1_WORDS, begin + act + read + "00 03 00" + wrt, LEGAL),           # CL + 2
        (E1_WORDS, nops + start + nop + act + wrt, "0 227 3 0"),            # no MRS
        (E1_WORDS, nops + start + mrs + act + wrt, "0 227 2 0"),            # no NOP after it
        (E1_WORDS, begin + wrt, "0 228 8 0"),
        (E1_WORDS, begin + act + wrt + act, "0 230 4 0"),
        (E1_WORDS, begin + act + read + "00 02 00" + wrt, "0 232 10 0"),    # CL + 1
        (E1_WORDS, begin + pre, "0 228 11 0"),
        (E1_WORDS, begin + act + wrt + refr, "0 230 14 0"),
        (E1_WORDS, begin + act + wrt + nop + mrs, "0 231 14 0"),
        (E1_WORDS, begin + act + wrt + pre + act + pre + "04 01", "0 233 1 0"),     # bank 1 of one bank
        ("0x4600 0 28 0", begin + act + wrt + read, "0 226 1 0"),           # CL 3, so the MRS word should be 48
        (E4_WORDS, begin + act + wrt + read, "0 218 15 0")])                # tRP 3


def judge_e7():
    """The tape of tape-E7 with a run one slot shorter each, which is one slot too early for what follows it; tRFC 9, tRP 3, tRCD 3, tWR 2, tRAS 6, tRC 9,
    tRRD 2. DEAC 1089, REFR 1092, 1101, .. 1155, MRS 1164, ACT 1166, WRT 1169, PRE 1172, ACT 1175, WRT 1178."""
    words = "0x4623 4 136 0x42215810"
    parts = ["00 40 04", "05", "00 02 00", "06"] + 7 * ["00 08 00", "06"] + [
        "00 08 00", "07 30 00", "00 01 00", "01 03 ff 1f", "00 02 00", "03 03 ff 07 cd ab", "00 02 00", "04 03", "00 02 00", "01 03 fe 1f",
        "00 02 00", "03 03 fe 07 34 12"]
    whole = "".join(parts)

    def shorter(run):
        """The tape with its run of this number, counted from 0, one slot shorter."""
        place = [n for n, part in enumerate(parts) if part.startswith("00")][run]
        count = int(parts[place][3:5], 16) - 1
        return "".join(parts[:place] + (["00 %02x 00" % count] if count > 0 else []) + parts[place + 1:])

    judged("judge-E7", [
        (words, whole, LEGAL),
        (words, "00 3f 04" + "".join(parts[1:]), LEGAL),            # the judge does not ask how long the first wait is
        (words, shorter(1), "0 1091 15 0"),                         # tRP
        (words, shorter(2), "0 1100 2 0"),                          # tRFC
        (words, shorter(8), "0 1154 2 0"),
        (words, shorter(9), "0 1163 2 0"),                          # MRS
        (words, shorter(10), "0 1165 2 0"),                         # 2 slots after it
        (words, shorter(11), "0 1168 9 3"),                         # tRCD
        (words, shorter(12), "0 1171 12 3"),                        # tRAS; tWR is over
        (words, shorter(13), "0 1174 5 3"),                         # tRP before tRC
        (words, shorter(14), "0 1177 9 3"),
        # tRC 10 in place of 9: A 29, F 9 + 10, so RR 136 is too short and 143 is the least; the second ACT is 9 after the first.
        ("0x4623 4 142 0x42215910", whole, "3 0 0 0"), ("0x4623 4 143 0x42215910", whole, "0 1175 6 3"),
        # tWR 4: the PRE is 3 after the WRT. tWR 3: it is legal.
        ("0x4623 4 136 0x42235810", whole, "0 1172 13 3"), ("0x4623 4 136 0x42225810", whole, LEGAL),
        # 2 banks; 12 row bits; 10 column bits.
        ("0x4613 4 136 0x42215810", whole, "0 1166 1 0"), ("0x4623 3 136 0x42215810", whole, "0 1166 1 0"),
        ("0x4622 4 136 0x42215810", whole, "0 1169 1 0")])


def judge_numbers():
    """Each number, and their order."""
    illegal = "02 00 00 00"                                         # READ of a closed bank, R8
    judged("judge-numbers", [
        (E1_WORDS, "", LEGAL), (E1_WORDS, "00 01 00", LEGAL), (E1_WORDS, "00 ff ff 00 ff ff", LEGAL), (E1_WORDS, illegal, "0 1 8 0"),
        # The words, whatever the tape is.
        ("0x4408 0 27 0", "", "1 0 0 0"), ("0x4400 8 27 0", illegal, "1 0 0 0"), ("0x4400 0 0x201B 0", "08", "1 0 0 0"),
        ("0x4400 0 27 1", illegal + "08", "1 0 0 0"), ("0x4430 0 27 0", "", "2 0 0 0"), ("0x4400 5 27 0", illegal, "2 0 0 0"),
        ("0 0 0 0", "01", "2 0 0 0"), ("0x4400 0 26 0", "", "3 0 0 0"), ("0x4400 0 26 0", illegal, "3 0 0 0"), ("0x4400 0 26 0", "00 00 00", "3 0 0 0"),
        # The reader's refusals, before, behind and without an illegal slot.
        (E1_WORDS, "08", "11 0 0 0"), (E1_WORDS, "08" + illegal, "11 0 0 0"), (E1_WORDS, illegal + "ff", "11 0 0 0"),
        (E1_WORDS, "05 04", "12 0 0 0"), (E1_WORDS, illegal + "03 00 00 00 00", "12 0 0 0"), (E1_WORDS, illegal + "00 01", "12 0 0 0"),
        (E1_WORDS, "00 00 00", "13 0 0 0"), (E1_WORDS, "00 00 00" + illegal, "13 0 0 0"), (E1_WORDS, illegal + "00 05 00 00 05 00", "13 0 0 0"),
        (E1_WORDS, "00 fe ff 00 01 00", "13 0 0 0"), (E1_WORDS, illegal + "00 ff ff 00 00 00", "13 0 0 0"),
        # The first of several, by its place.
        (E1_WORDS, "00 00 00 08", "13 0 0 0"), (E1_WORDS, "08 00 00 00", "11 0 0 0"), (E1_WORDS, "00 00 00" + illegal + "04", "13 0 0 0"),
        # The first illegal slot of several.
        (E1_WORDS, illegal + "05 04 00", "0 1 8 0"), (E1_WORDS, "05 04 00 01 00 00 00", "0 2 11 0"), (E1_WORDS, "00 02 00 01 00 00 00" + illegal, "0 3 3 0")])


def judge_order():
    """Several rules or banks at once; 4 banks, 8 column bits, 13 row bits, CL 2. Every tape begins with MRS in slot 1, one NOP, and ACTs from slot 3 on."""
    slow = "0x4420 4 208 0x5377BF10"        # tRFC 11, tRP 4, tRCD 8, tWR 8, tRAS 12, tRC 16, tRRD 2: M 12, A 46, F 27: least RR 208
    quick = "0x4420 4 168 0x31024F10"       # tRFC 7, tRP 2, tRCD 1, tWR 3, tRAS 5, tRC 16, tRRD 2: M 5, A 30, M + tRP 7, F 23: least RR 168
    mrs = "07 20 00 00 01 00"
    act = ["01 %02x 00 00" % bank for bank in range(4)]
    wrt = ["03 %02x 00 00 00 00" % bank for bank in range(4)]
    read = ["02 %02x 00 00" % bank for bank in range(4)]
    pre = ["04 %02x" % bank for bank in range(4)]
    deac, refr, other_mrs = "05", "06", "07 30 00"

    def wait(slots):
        return "00 %02x 00" % slots

    judged("judge-order", [
        # R13 of bank 0 and R12 of bank 3: ACT 0 in 3, ACT 3 in 30, WRT 0 in 31, DEAC in 32. The lower rule, in whatever bank.
        (slow, mrs + act[0] + wait(26) + act[3] + wrt[0] + deac, "0 32 12 3"),
        # The other way round: R12 of bank 0 and R13 of bank 3.
        (slow, mrs + act[3] + wait(26) + act[0] + wrt[3] + deac, "0 32 12 0"),
        # R13 of both, R12 of neither: ACT 1 in 3, ACT 2 in 5, WRT 2 in 30, WRT 1 in 31, DEAC in 32. The lower bank.
        (slow, mrs + act[1] + wait(1) + act[2] + wait(24) + wrt[2] + wrt[1] + deac, "0 32 13 1"),
        # The same 7 later, when it is 8 slots after the WRT to bank 2, and 8 later: legal.
        (slow, mrs + act[1] + wait(1) + act[2] + wait(24) + wrt[2] + wrt[1] + wait(6) + deac, "0 38 13 1"),
        (slow, mrs + act[1] + wait(1) + act[2] + wait(24) + wrt[2] + wrt[1] + wait(7) + deac, LEGAL),
        # R12 of three banks, of two, of one: ACT 3 in 3, ACT 1 in 5, ACT 2 in 7; tRAS is over in 15, 17 and 19.
        (slow, mrs + act[3] + wait(1) + act[1] + wait(1) + act[2] + wait(6) + deac, "0 14 12 1"),
        (slow, mrs + act[3] + wait(1) + act[1] + wait(1) + act[2] + wait(8) + deac, "0 16 12 1"),
        (slow, mrs + act[3] + wait(1) + act[1] + wait(1) + act[2] + wait(9) + deac, "0 17 12 2"),
        (slow, mrs + act[3] + wait(1) + act[1] + wait(1) + act[2] + wait(11) + deac, LEGAL),
        # PRE looks at its bank alone: bank 3's tRAS is over in 15, bank 1's is not.
        (slow, mrs + act[3] + wait(1) + act[1] + wait(9) + pre[3], LEGAL), (slow, mrs + act[3] + wait(1) + act[1] + wait(9) + pre[1], "0 15 12 1"),
        # R14 of banks 1 and 3, for REFR and for MRS; and before R15, which PRE 1 breaks in the slot before.
        (slow, mrs + act[3] + wait(1) + act[1] + wait(40) + refr, "0 46 14 1"), (slow, mrs + act[3] + wait(1) + act[1] + wait(40) + "07 20 00", "0 46 14 1"),
        (slow, mrs + act[3] + wait(1) + act[1] + wait(40) + pre[1] + refr, "0 47 14 3"),
        # R1 before R14 and before R2; R2 before R3, R3 before R5.
        (slow, mrs + act[3] + wait(40) + other_mrs, "0 44 1 0"), (slow, "07 20 00 07 30 00", "0 2 1 0"), (slow, refr + act[2], "0 2 2 0"),
        (slow, deac + act[2], "0 2 3 0"),
        # R4 before R6 and R7: ACT 2 in 3, ACT 1 in 5, ACT 2 in 6.
        (slow, mrs + act[2] + wait(1) + act[1] + act[2], "0 6 4 2"),
        # R7 by bank 2 and by bank 0, each the command's bank: ACT in 4 is one slot after the other's.
        (slow, mrs + act[2] + act[1], "0 4 7 1"), (slow, mrs + act[0] + act[3], "0 4 7 3"), (slow, mrs + act[0] + wait(1) + act[3], LEGAL),
        # R8 and R9 before R10: READ 0 in 44, WRT in 45, to a closed bank and to one whose ACT is in 43. Then R10 alone, of bank 0 and of bank 3.
        (slow, mrs + act[0] + wait(40) + read[0] + wrt[3], "0 45 8 3"), (slow, mrs + act[0] + wait(39) + act[3] + read[0] + wrt[3], "0 45 9 3"),
        (slow, mrs + act[0] + wait(40) + read[0] + wait(2) + wrt[0], "0 47 10 0"),
        (slow, mrs + act[0] + wait(1) + act[3] + wait(38) + read[0] + wait(2) + wrt[3], "0 47 10 0"),
        (slow, mrs + act[0] + wait(1) + act[3] + wait(38) + read[0] + wait(3) + wrt[3], LEGAL),
        # R16 of banks 1 and 2: ACT 2 in 3, ACT 1 in 5, DEAC in 10, REFR in 12; of bank 1 alone in 19; in 21 legal. R15 before it in 11. MRS does not have it.
        (quick, mrs + act[2] + wait(1) + act[1] + wait(4) + deac + wait(1) + refr, "0 12 16 1"),
        (quick, mrs + act[1] + wait(1) + act[2] + wait(4) + deac + wait(1) + refr, "0 12 16 1"),
        (quick, mrs + act[1] + wait(1) + act[2] + wait(4) + deac + wait(8) + refr, "0 19 16 2"),
        (quick, mrs + act[1] + wait(1) + act[2] + wait(4) + deac + wait(10) + refr, LEGAL),
        (quick, mrs + act[2] + wait(1) + act[1] + wait(4) + deac + refr, "0 11 15 0"),
        (quick, mrs + act[2] + wait(1) + act[1] + wait(4) + deac + wait(1) + "07 20 00", LEGAL),
        # R5 before R6: ACT 2 in 3, PRE 2 in 8, ACT 2 in 9; in 10 R6; in 19 legal.
        (quick, mrs + act[2] + wait(4) + pre[2] + act[2], "0 9 5 2"), (quick, mrs + act[2] + wait(4) + pre[2] + wait(1) + act[2], "0 10 6 2"),
        (quick, mrs + act[2] + wait(4) + pre[2] + wait(10) + act[2], LEGAL),
        # Bank 0 where no bank is asked for: R2 and R3 by bank 3, R15 by PRE 3.
        (quick, "07 20 00" + act[3], "0 2 2 0"), (quick, act[3], "0 1 3 0"), (quick, mrs + act[3] + wait(40) + pre[3] + refr, "0 45 15 0")])


def judge_runs():
    """Full runs: slots are counted in full, and no run is as short as a distance. tRFC 7, tRP 2, tRCD 4, tWR 3, tRAS 5, tRC 12, tRRD 6, CL 2, 4 banks."""
    words = "0x4420 4 147 0x31324B50"
    full, mrs = "00 ff ff", "07 20 00 00 01 00"
    judged("judge-runs", [
        (words, full + "02 03 00 00", "0 65536 8 3"), (words, "00 fe ff" + "02 03 00 00", "0 65535 8 3"),
        (words, 2 * full + "04 02", "0 131071 11 2"), (words, 2 * full + "00 01 00" + "04 02", "0 131072 11 2"),
        (words, 3 * full + mrs + "01 01 00 00" + "00 02 00" + "02 01 00 00", "0 196611 9 1"),          # MRS 196606, ACT 196608, tRCD over in 196612
        # From a command to the next: 65,536 and 65,537 slots, 131,071 and 131,072. Every distance is kept.
        (words, mrs + "01 01 00 00" + full + "04 01", LEGAL), (words, mrs + "01 01 00 00" + full + "00 01 00" + "04 01", LEGAL),
        (words, mrs + "01 01 00 00" + 2 * full + "05", LEGAL), (words, mrs + "01 01 00 00" + 2 * full + "00 01 00" + "02 01 00 00", LEGAL),
        (words, "06" + full + "06" + full + "07 20 00" + full + "00 01 00" + "06", LEGAL),
        # The bank is as it was: ACT 1 in 3, then in 65539 and in 131075.
        (words, mrs + "01 01 00 00" + full + "01 01 00 00", "0 65539 4 1"), (words, mrs + "01 01 00 00" + 2 * full + "00 01 00" + "06", "0 131075 14 1"),
        # PRE 1 in 65539, ACT 1 in the next slot but one, and then one too early for tRRD.
        (words, mrs + "01 01 00 00" + full + "04 01" + "00 01 00" + "01 01 00 00" + "00 04 00" + "01 03 00 00", "0 65546 7 3")])


def last_number():
    """For a build whose last request number is 8: 6 comes before 7, and 7 stays."""
    run = e1_machine()
    for number in range(1, 8 + 1):
        run.write(1, "0", number)
    run.call(1, "write 0 9", "write 6 0")
    run.call(1, "read 1", "read 4 0")
    run.at(228, "ACT 0 0")
    for number in range(1, 8 + 1):
        run.written(228 + number, number, 0, 0, number)
    run.call(230, "read 0", "read 7 0")
    run.call(230, "read 262144", "read 5 0")
    run.call(240, "write 0 9", "write 7 0")
    run.store("last-number-8", 240)


if __name__ == "__main__":
    e1_to_e4()
    for example in (e5, e6, e7, e8, e9, e10, e11, e12, must_run, must_only_at_a_choice, need_with_blocked_read,
                    write_before_release, oldest_read_first, tight_distances, unlike_distances, row_cycle, row_cycle_other_bank, row_cycle_must_run,
                    row_cycle_least_rr, geometries, numbers, form, slots, slots_one_row, slots_must_run, slots_form, tape_e5, tape_e7,
                    tape_only_slots, tapes, judge_e5, judge_e7, judge_numbers, judge_order, judge_runs, last_number):
        example()
