"""slots and slot: PCI slots of tables made by hand, worked out from MPS Appendix D.3, and of every table of shelf/.

    python3 -B command/tests/slots.py COMMAND

A source IRQ on a PCI bus has the pin in bits 0 and 1 (0 is INTA#) and the device in bits 2 to 6; bit 7 is reserved.
"""
import boards
import harness
from boards import BENCH, RICH, bus, cpu, ioapic, line, pointer, rom, table

INT, NMI, SMI, EXTINT = range(4)
NONE = "ioapic none: no line of type INT to an I/O APIC that is on"
NO_SLOTS = "no slots: no interrupt line to an I/O APIC comes from a PCI bus\n"

# Two PCI buses beside ISA and EISA; two I/O APICs that are on, and one, 4, that is off.
ENTRIES = [
    cpu(0, 3), bus(3), bus(1, b"ISA   "), bus(0), bus(2, b"EISA  "),
    ioapic(2), ioapic(4, flags=0, address=0xFEC04000), ioapic(6, address=0xFEC01000),
    line(3, INT, 15, 3, 0b0_00100_11, 2, 19),
    line(3, INT, 15, 0, 0b0_00110_00, 255, 5),      # to both that are on
    line(3, INT, 15, 0, 0b1_00110_00, 6, 9),        # the same slot, with bit 7
    line(3, NMI, 0, 0, 0b0_00000_00, 2, 1),
    line(3, SMI, 0, 0, 0b0_11111_11, 2, 3),
    line(3, INT, 15, 0, 0b1_11111_11, 6, 23),       # so this slot has a line of type INT too, with bit 7 alone
    line(3, EXTINT, 0, 0, 0b0_00001_01, 255, 0),
    line(3, INT, 15, 0, 0b0_01011_10, 4, 7),        # to the one that is off
    line(3, INT, 15, 0, 0b0_00110_01, 2, 5),
    line(3, INT, 15, 0, 0b0_00110_01, 2, 5),        # an entry twice is a pair twice
    line(3, INT, 0, 1, 0b0_00111_00, 2, 8),         # no PCI bus
    line(3, INT, 0, 2, 0b0_01000_00, 2, 8),
    line(4, INT, 0, 0, 0b0_01001_00, 0, 0),         # to a processor
]
BOARD = table(ENTRIES)
WANTED = """\
bus 0    device 0   INTA#  {none}
bus 0    device 1   INTB#  {none}
bus 0    device 6   INTA#  ioapic 2 input 5, ioapic 6 input 5, ioapic 6 input 9
bus 0    device 6   INTB#  ioapic 2 input 5, ioapic 2 input 5
bus 0    device 11  INTC#  {none}
bus 0    device 31  INTD#  ioapic 6 input 23
bus 3    device 4   INTD#  ioapic 2 input 19
""".format(none=NONE)


def found(t):
    """Each slot of a table, rising, with its pairs: by the entries as they stand in the table's bytes."""
    entries = boards.base_entries(t)
    pci = [e[1] for e in entries if e[0] == 1 and e[2:8] == b"PCI   "]
    on = [e[1] for e in entries if e[0] == 2 and e[3] & 1]
    slots = {}
    for e in entries:
        if e[0] == 3 and e[4] in pci:
            pairs = slots.setdefault((e[4], e[5] // 4 % 32, e[5] % 4), [])
            pairs += [(id, e[7]) for id in on if e[1] == INT and e[6] in (id, 255)]
    return sorted(slots.items())


def words_of(pairs):
    return [f"ioapic {id} input {to}" for id, to in pairs]


def listed(t):
    return "".join("bus %-3d  device %-2d  INT%s#  %s\n" % (number, device, "ABCD"[pin], ", ".join(words_of(pairs)) or NONE)
                   for (number, device, pin), pairs in found(t)) or NO_SLOTS


class Slots(harness.Case):
    def all_ways(self, t, wanted):
        self.put("board.table", t)
        self.put("longer.table", t + b"behind\x00\xff")
        self.answers(["slots", "board.table"], wanted)
        self.answers(["slots", "longer.table"], wanted)
        self.answers(["slots", "-"], wanted, input=t)

    def test_by_hand(self):
        self.all_ways(BOARD, WANTED)
        self.assertEqual(listed(BOARD), WANTED, "what this file works out for the shelf")

    def test_none(self):
        """No PCI bus; one that no line comes from; and one that only a line to a processor comes from."""
        for t in (BENCH, table([cpu(0, 3), bus(0), bus(1, b"ISA   "), ioapic(2), line(3, INT, 0, 1, 9)]),
                  table([cpu(0, 3), bus(0), line(4, INT, 0, 0, 4, 0, 0)])):
            self.all_ways(t, NO_SLOTS)

    def test_the_shelf(self):
        several = 0
        for shelved in boards.accepted():
            with self.subTest(shelved.name):
                self.all_ways(shelved.table, listed(shelved.table))
            several += len(found(shelved.table)) > 1
        self.assertGreater(several, 2)

    def test_no_apic(self):
        """255 where no I/O APIC is on, or none is listed."""
        for apics in ([], [ioapic(2, flags=0)]):
            self.all_ways(table([cpu(0, 3), bus(255), *apics, line(3, INT, 0, 255, 0x86, 255, 1)]),
                          f"bus 255  device 1   INTC#  {NONE}\n")

    def test_most_slots(self):
        """Of 4,052 bytes a processor takes 20; of the 504 entries of 8 bytes four are buses, one is an I/O APIC, and 499
        are lines, from the last slot to the first."""
        buses = [0, 7, 254, 255]
        slots = [(number, irq) for number in buses for irq in range(128)][:499]
        t = table([cpu(0, 3), *map(bus, buses), ioapic(2), *[line(3, INT, 0, number, irq | 128, 2, irq) for number, irq in reversed(slots)]])
        self.all_ways(t, "".join("bus %-3d  device %-2d  INT%s#  ioapic 2 input %d\n" % (number, irq >> 2, "ABCD"[irq & 3], irq)
                                 for number, irq in slots))

    def test_most_pairs(self):
        """As in queries.py: 252 lines, all to 251 I/O APICs."""
        apics = [ioapic(k, address=0xFEC00000 + 1024 * k) for k in range(1, 252)]
        t = table([cpu(0, 3), bus(0), *apics, *[line(3, INT, 0, 0, 0x18 | k % 2 << 7, 255, k) for k in range(252)]])
        pairs = [f"ioapic {apic} input {k}" for k in range(252) for apic in range(1, 252)]
        self.all_ways(t, f"bus 0    device 6   INTA#  {', '.join(pairs)}\n")
        self.answers(["slot", "board.table", "0", "6", "A"], "".join(text + "\n" for text in pairs))


class Slot(harness.Case):
    def goes(self, t, words, *lines):
        self.put("board.table", t)
        wanted = "".join(text + "\n" for text in lines)
        with self.subTest(words):
            self.answers(["slot", "board.table", *words.split()], wanted)
            self.answers(["slot", "-", *words.split()], wanted, input=t)

    def test_by_hand(self):
        self.goes(BOARD, "3 4 D", "ioapic 2 input 19")
        self.goes(BOARD, "0 6 A", "ioapic 2 input 5", "ioapic 6 input 5", "ioapic 6 input 9")
        self.goes(BOARD, "0 6 B", "ioapic 2 input 5", "ioapic 2 input 5")
        self.goes(BOARD, "0 31 D", "ioapic 6 input 23")
        # Of another type, to an I/O APIC that is off, and in no entry: of this bus, or at all.
        for words in ("0 0 A", "0 1 B", "0 11 C", "0 4 D", "3 6 A", "0 7 A", "3 8 A", "0 9 A", "3 31 D"):
            self.goes(BOARD, words, "ioapic none")

    def test_routes_compare_the_whole_byte(self):
        """routes asks for one IRQ, and bit 7 makes another of it; slot takes both."""
        self.put("board.table", BOARD)
        self.answers(["routes", "--io", "board.table", "INT", "0", "0x18"], "ioapic 2 input 5\nioapic 6 input 5\n")
        self.answers(["routes", "--io", "board.table", "INT", "0", "0x98"], "ioapic 6 input 9\n")

    def test_the_shelf(self):
        """Every slot that an entry names, and of every PCI bus one that none names."""
        for shelved in boards.accepted():
            slots = dict(found(shelved.table))
            for number in [e[1] for e in boards.base_entries(shelved.table) if e[0] == 1 and e[2:8] == b"PCI   "]:
                slots.setdefault((number, 13, 1), [])
            self.put("board.table", shelved.table)
            for (number, device, pin), pairs in slots.items():
                with self.subTest(shelved.name, slot=(number, device, pin)):
                    self.answers(["slot", "board.table", number, device, "ABCD"[pin]],
                                 "".join(text + "\n" for text in words_of(pairs) or ["ioapic none"]))

    def test_forms_of_words(self):
        self.put("board.table", BOARD)
        for number in ("3", "003", "0x3", "0X03"):
            for device in ("4", "04", "0x4"):
                self.answers(["slot", "board.table", number, device, "D"], "ioapic 2 input 19\n")
        for pin in ("D", "d", "INTD", "intd", "IntD", "INTD#", "intd#", "D#", "3", "03", "0x3"):
            self.answers(["slot", "board.table", "3", "4", pin], "ioapic 2 input 19\n")
        for device in ("11", "011", "0xB", "0xb"):
            self.answers(["slot", "board.table", "0", device, "c"], "ioapic none\n")
        for pins, wanted in ((("A", "a", "INTA#", "0"), "ioapic 2 input 5\nioapic 6 input 5\nioapic 6 input 9\n"),
                             (("B", "b", "INTB#", "1"), "ioapic 2 input 5\nioapic 2 input 5\n"),
                             (("C", "c", "INTC#", "2"), "ioapic none\n")):
            for pin in pins:
                self.answers(["slot", "board.table", "0", "6", pin], wanted)

    def test_wrong_words(self):
        self.put("board.table", BOARD)
        for pin in ("", "E", "e", "AB", "INT", "INT#", "INTE#", "INTA##", "INT A", "#A", "A ", "#", "INT0", "INTINTA", "-1", "256", "0x", "pinA"):
            self.wrong(["slot", "board.table", "0", "6", pin] if pin[:1] != "-" else ["slot", "--", "board.table", "0", "6", pin],
                       f"pin: '{pin}' is neither a letter from A to D nor a number from 0 to 255")
        self.wrong(["slot", "board.table", "A", "6", "A"], "bus: 'A' is no number from 0 to 255")
        self.wrong(["slot", "board.table", "0", "1F", "A"], "device: '1F' is no number from 0 to 255")
        self.wrong(["slot", "board.table", "0", "256", "A"], "device: '256' is no number from 0 to 255")
        self.wrong(["slot", "board.table", "0", "6"], "usage: mpt slot TABLE BUS DEVICE PIN")
        self.wrong(["slots", "board.table", "0"], "usage: mpt slots TABLE")

    def test_no_such_slot(self):
        """25, and a line for each of bus, device and pin that is to blame."""
        isa, eisa = "bus 1 ISA: not a PCI bus\n", "bus 2 EISA: not a PCI bus\n"
        device = "device {}: a PCI bus has devices 0 to 31\n".format
        pin = "pin {}: a PCI device has pins 0 (INTA#) to 3 (INTD#)\n".format
        self.put("board.table", BOARD)
        for words, more in (("1 7 A", isa), ("2 8 A", eisa), ("0 32 A", device(32)), ("0 40 A", device(40)), ("0 0xFF D", device(255)),
                            ("0 6 4", pin(4)), ("0 31 255", pin(255)), ("0 32 4", device(32) + pin(4)), ("3 32 0xA", device(32) + pin(10)),
                            ("1 32 4", isa + device(32) + pin(4)), ("2 31 4", eisa + pin(4))):
            with self.subTest(words):
                answer = self.refuses(["slot", "board.table", *words.split()], 25, more=more.encode())
                self.assertEqual(answer.out.splitlines()[0], b"refused 25: no such PCI slot: the bus is not PCI, or it has no such device or pin")
        self.refuses(["slot", "-", "0", "4", "A"], 25, more=b"bus 0 ISA: not a PCI bus\n", input=BENCH)

    def test_which_bus(self):
        """The bus whose number was asked for, and not one whose number begins so."""
        names = {2: b"ISA   ", 20: b"EISA  ", 200: b"VL    ", 255: b"XPRESS", 0: b"PCI   "}
        self.put("board.table", table([cpu(0, 3), *[bus(number, name) for number, name in reversed(names.items())]]))
        for number, name in ((2, "ISA"), (20, "EISA"), (200, "VL"), (255, "XPRESS")):
            self.refuses(["slot", "board.table", number, "0", "A"], 25, more=f"bus {number} {name}: not a PCI bus\n".encode())

    def test_bus_not_listed(self):
        """24 comes before 25."""
        self.put("board.table", BOARD)
        for words in ("4 4 A", "255 0 A", "4 32 A", "4 4 4", "4 255 255"):
            self.refuses(["slot", "board.table", *words.split()], 24)


class Refused(harness.Case):
    def test_tables(self):
        """A table's own number comes first, whatever is asked."""
        for number, content in ((5, BOARD[:43]), (6, b"X" + BOARD[1:]), (7, BOARD[:-1]), (8, boards.put(BOARD, 60, 1)),
                                (15, table([*ENTRIES[:2], *ENTRIES[1:]])), (17, table([*ENTRIES, line(4, INT, 0, 0, 0, 0, 2)]))):
            self.put("bad.table", content)
            with self.subTest(number):
                self.refuses(["slots", "bad.table"], number)
                for words in ("0 6 A", "4 6 A", "1 6 A", "0 32 4"):
                    self.refuses(["slot", "bad.table", *words.split()], number)

    def test_dumps(self):
        """They take a table, as routes does: a dump is no table, and a default configuration has none."""
        for content, number in ((rom(pointer(0xF0010), RICH), 6), (rom(pointer(0, 5)), 5), (rom(pointer(0, 5), bytes(64)), 6)):
            self.put("board.dump", content)
            for words in (["routes", "board.dump", "INT", "0", "1"], ["slots", "board.dump"], ["slot", "board.dump", "1", "1", "A"]):
                self.refuses(words, number)


if __name__ == "__main__":
    harness.main("PCI slots, by hand and over shelf/")
