"""renumber: new numbers for I/O APICs that have a processor's, by hand from document 02, and of every table of shelf/.

    python3 -B command/tests/renumber.py COMMAND

In table order, each that is on and has the number of a processor that is on gets the lowest free number from 0 to 254; the others
that are on keep theirs, and those that are off take no part.
"""
import boards
import harness
from boards import BENCH, RICH, bus, cpu, ioapic, line, pointer, rom, table

ISA = bus(0, b"ISA   ")
NO_APICS = "no I/O APICs: the table lists none\n"
NONE_FREE = b"refused 26: no number is free for an I/O APIC that has a processor's: all of 0 to 254 are in use\n"


def apics(numbers, **others):
    """I/O APICs of these numbers, each at an address of its own."""
    return [ioapic(number, address=0xFEC00000 + 4096 * number, **others) for number in numbers]


# Processors 0, 1 and 3 are on, 4 is off. So 1 and 0 need numbers; 4 and 6 keep theirs; that 2 is off leaves 2 free.
ENTRIES = [
    cpu(0, 3), cpu(1, 1), cpu(3, 1), cpu(4, 0), ISA,
    *apics([1]), *apics([4]), *apics([2], flags=0), *apics([0]), *apics([3], flags=0), *apics([6]),
    line(3, 0, 0, 0, 4, 1, 9), line(3, 0, 0, 0, 5, 255, 10), line(3, 0, 0, 0, 6, 3, 11),
]
BOARD = table(ENTRIES)
WANTED = """\
entry 5    ioapic 1    at FEC01000  gets 2
entry 6    ioapic 4    at FEC04000  keeps 4
entry 7    ioapic 2    at FEC02000  off (takes no part)
entry 8    ioapic 0    at FEC00000  gets 5
entry 9    ioapic 3    at FEC03000  off (takes no part)
entry 10   ioapic 6    at FEC06000  keeps 6
numbers in use: 7 of 255
"""


def told(t):
    """The answer, by the entries as they stand in the table's bytes."""
    entries = boards.base_entries(t)
    held = {e[1] for e in entries if e[0] == 0 and e[3] & 1}
    used = held | {e[1] for e in entries if e[0] == 2 and e[3] & 1}
    lines = []
    for place, e in enumerate(entries):
        if e[0] != 2:
            continue
        words = "off (takes no part)"
        if e[3] & 1 and e[1] in held:
            number = min(set(range(255)) - used)
            used.add(number)
            words = f"gets {number}"
        elif e[3] & 1:
            words = f"keeps {e[1]}"
        lines.append("entry %-3d  ioapic %-3d  at %08X  %s\n" % (place, e[1], int.from_bytes(e[4:8], "little"), words))
    return ("".join(lines) or NO_APICS) + f"numbers in use: {len(used)} of 255\n"


class Numbers(harness.Case):
    def all_ways(self, t, wanted):
        self.put("board.table", t)
        self.put("longer.table", t + b"behind\x00\xff")
        before = self.files()
        self.answers(["renumber", "board.table"], wanted)
        self.answers(["renumber", "longer.table"], wanted)
        self.answers(["renumber", "-"], wanted, input=t)
        self.unchanged(before)

    def becomes(self, numbers, of, wanted, used):
        """What becomes of I/O APICs, all on, beside processors that are on."""
        first, *rest = numbers
        t = table([cpu(first, 3), *[cpu(number, 1) for number in rest], *apics(of)])
        self.all_ways(t, "".join("entry %-3d  ioapic %-3d  at %08X  %s\n" % (len(numbers) + k, number, 0xFEC00000 + 4096 * number, words)
                                 for k, (number, words) in enumerate(zip(of, wanted))) + f"numbers in use: {used} of 255\n")

    def test_by_hand(self):
        self.all_ways(BOARD, WANTED)
        self.assertEqual(told(BOARD), WANTED, "what this file works out for the shelf")

    def test_small_boards(self):
        self.becomes([0], [0], ["gets 1"], 2)
        self.becomes([0], [2], ["keeps 2"], 2)
        self.becomes([1], [0], ["keeps 0"], 2)
        self.becomes([1], [1], ["gets 0"], 2)
        self.becomes([0, 1], [0], ["gets 2"], 3)
        self.becomes([254], [254], ["gets 0"], 2)
        # Who keeps a number is before who needs one, wherever it stands; a number that one gave up is a processor's still.
        self.becomes([0], [0, 1], ["gets 2", "keeps 1"], 3)
        self.becomes([0], [1, 0], ["keeps 1", "gets 2"], 3)
        self.becomes([0, 1], [1, 0, 3], ["gets 2", "gets 4", "keeps 3"], 5)
        self.becomes([5, 6], [6, 5, 0], ["gets 1", "gets 2", "keeps 0"], 5)

    def test_off(self):
        """A processor that is off holds no number, and an I/O APIC that is off neither has one nor keeps it from others; its
        number may be another's, and 255."""
        self.all_ways(table([cpu(0, 3), cpu(1, 0), *apics([1])]), "entry 2    ioapic 1    at FEC01000  keeps 1\nnumbers in use: 2 of 255\n")
        self.all_ways(table([cpu(0, 3), *apics([0], flags=0)]), "entry 1    ioapic 0    at FEC00000  off (takes no part)\nnumbers in use: 1 of 255\n")
        self.all_ways(table([cpu(0, 3), *apics([0, 255], flags=0), *apics([0]), *apics([1], flags=0)]),
                      "entry 1    ioapic 0    at FEC00000  off (takes no part)\n"
                      "entry 2    ioapic 255  at FECFF000  off (takes no part)\n"
                      "entry 3    ioapic 0    at FEC00000  gets 1\n"
                      "entry 4    ioapic 1    at FEC01000  off (takes no part)\n"
                      "numbers in use: 2 of 255\n")

    def test_other_bits(self):
        """Bit 0 of the flags says whether one is on, and no other."""
        self.all_ways(table([cpu(0, 0xFF), cpu(1, 0xFC), *apics([0], flags=0xFF), *apics([1], flags=0x81), *apics([2], flags=0xFE)]),
                      "entry 2    ioapic 0    at FEC00000  gets 2\nentry 3    ioapic 1    at FEC01000  keeps 1\n"
                      "entry 4    ioapic 2    at FEC02000  off (takes no part)\nnumbers in use: 3 of 255\n")

    def test_none(self):
        self.all_ways(table([cpu(0, 3)]), NO_APICS + "numbers in use: 1 of 255\n")
        self.all_ways(table([cpu(0, 3), cpu(7, 1), cpu(8, 0), ISA]), NO_APICS + "numbers in use: 2 of 255\n")

    def test_the_shelf(self):
        new = 0
        for shelved in boards.accepted():
            with self.subTest(shelved.name):
                self.all_ways(shelved.table, told(shelved.table))
            new += " gets " in told(shelved.table)
        self.assertGreater(new, 0)

    def test_to_cut(self):
        """Each line has its words at the same places."""
        self.put("board.table", BOARD)
        lines = [text.split() for text in self.mpt("renumber", "board.table").out.decode().splitlines()]
        self.assertEqual([(words[0], words[2], words[4]) for words in lines[:-1]], [("entry", "ioapic", "at")] * 6)
        self.assertEqual([(words[1], words[3], words[5], words[7]) for words in lines if words[6:7] == ["gets"]],
                         [("5", "1", "FEC01000", "2"), ("8", "0", "FEC00000", "5")])
        self.assertEqual(lines[-1], "numbers in use: 7 of 255".split())

    def test_most(self):
        """Numbers from 0 to 254 all in use, kept and new; as many as there are to give; and of a full table those that are off."""
        self.becomes([254], range(254), [f"keeps {k}" for k in range(254)], 255)
        self.becomes([0], range(254), ["gets 254", *[f"keeps {k}" for k in range(1, 254)]], 255)
        self.becomes([7, 3], [3, *range(8, 255), 7], ["gets 0", *[f"keeps {k}" for k in range(8, 255)], "gets 1"], 251)
        # Of 4,052 bytes 127 processors take 2,540, and 128 I/O APICs 1,024.
        self.becomes(range(127), range(128), [*[f"gets {k}" for k in range(128, 255)], "keeps 127"], 255)
        t = table([cpu(0, 3), *apics(range(254)), *apics(range(250), flags=0)])
        self.all_ways(t, told(t))
        self.assertEqual(told(t).splitlines()[-2:], ["entry 504  ioapic 249  at FECF9000  off (takes no part)", "numbers in use: 255 of 255"])


class Accepted(harness.Case):
    """An I/O APIC with a processor's number is no fault, and every other verb names the table's numbers."""

    def test_every_verb(self):
        self.put("board.table", BOARD)
        self.put("board.dump", rom(pointer(0xF0010), BOARD))
        self.answers(["judge", "board.table"], f"accepted: a table of {len(BOARD)} bytes\n")
        self.answers(["list", "board.dump"], boards.listing(BOARD, 0xF0000, 0xF0010))
        self.answers(["table", "board.dump"], BOARD)
        self.answers(["make", "-"], BOARD, input=self.mpt("parts", "board.table").out)

    def test_routes(self):
        """As where processor 1 is off, and I/O APIC 1 keeps its number."""
        for t in (BOARD, boards.edited(BOARD, 1, cpu(1, 0))):
            self.put("board.table", t)
            self.answers(["routes", "board.table", "INT", "0", "4"], "ioapic 1 input 9\ncpu none\n")
            self.answers(["routes", "--io", "board.table", "INT", "0", "5"], "".join(f"ioapic {k} input 10\n" for k in (1, 4, 0, 6)))
            self.answers(["routes", "--io", "board.table", "INT", "0", "6"], "ioapic none\n")

    def test_slots(self):
        self.put("pci.table", table([cpu(0, 3), bus(0), *apics([0]), line(3, 0, 15, 0, 19, 0, 19)]))
        self.answers(["slots", "pci.table"], "bus 0    device 4   INTD#  ioapic 0 input 19\n")
        self.answers(["slot", "pci.table", "0", "4", "D"], "ioapic 0 input 19\n")
        self.answers(["renumber", "pci.table"], "entry 2    ioapic 0    at FEC00000  gets 1\nnumbers in use: 2 of 255\n")

    def test_edits(self):
        """A processor or an I/O APIC may be given the other's number; then renumber has a new one."""
        t = table([cpu(0, 3), cpu(1, 0), *apics([2, 5])])
        path = self.put("board.table", t)
        for place, wanted, told_of_it in ((3, *apics([0], version=0x20), "gets 1"), (1, cpu(2, 1), "gets 3")):
            stated = boards.base_entries(path.read_bytes())[place]
            self.assertEqual(self.mpt("edit", "board.table", place, stated.hex(), wanted.hex()).status, 0)
            self.assertEqual(path.read_bytes(), boards.edited(t, place, wanted))
            t = path.read_bytes()
            self.answers(["renumber", "board.table"], told(t))
            self.assertIn(told_of_it, told(t))
        self.refuses(["edit", "board.table", "3", boards.base_entries(t)[3].hex(), apics([2])[0].hex()], 23, 16)


class Refused(harness.Case):
    def none_free(self, t):
        self.put("board.table", t)
        self.assertEqual(self.refuses(["renumber", "board.table"], 26).out, NONE_FREE)
        self.refuses(["renumber", "-"], 26, input=t)
        self.answers(["judge", "board.table"], f"accepted: a table of {len(t)} bytes\n")

    def test_none_free(self):
        """Numbers 0 to 254 of I/O APICs, one of which is a processor's; one free for two that need one; and who needs it last."""
        for number in (0, 100, 254):
            self.none_free(table([cpu(number, 3), *apics(range(255))]))
        self.none_free(table([cpu(0, 3), cpu(1, 1), *apics(range(254))]))
        self.none_free(table([cpu(9, 3), *apics([k for k in range(255) if k != 9]), *apics([9])]))
        # Where one of them is off there is one.
        t = table([cpu(0, 3), *apics(range(254)), *apics([254], flags=0)])
        self.put("board.table", t)
        self.answers(["renumber", "board.table"], told(t))
        self.assertIn("gets 254", told(t))

    def test_sixteen(self):
        """What 16 still refuses: 255, two of one number, also a processor's, and addresses."""
        for entries in (apics([255]), apics([2, 2]), apics([0, 0]), [ioapic(0, address=0)], [ioapic(0, address=0xFEC00200)]):
            self.put("bad.table", table([cpu(0, 3), *entries]))
            answer = self.refuses(["renumber", "bad.table"], 16)
            self.assertEqual(answer.out, b"refused 16: an enabled I/O APIC: ID 255 or that of another one, address 0 or no multiple of 1,024\n")

    def test_tables(self):
        """A table's own number comes first."""
        full = table([cpu(0, 3), *apics(range(255))])
        for number, content in ((5, BOARD[:43]), (6, b"X" + BOARD[1:]), (7, BOARD[:-1]), (8, boards.put(BOARD, 60, 1)), (7, full[:-1]),
                                (17, table([*ENTRIES, line(4, 0, 0, 0, 0, 0, 2)])), (16, table([cpu(0, 3), *apics(range(255)), *apics([0])]))):
            self.put("bad.table", content)
            with self.subTest(number):
                self.refuses(["renumber", "bad.table"], number)

    def test_dumps(self):
        """It takes a table, as routes does."""
        for content, number in ((rom(pointer(0xF0010), RICH), 6), (rom(pointer(0, 5)), 5), (rom(pointer(0, 5), bytes(64)), 6)):
            self.put("board.dump", content)
            self.refuses(["renumber", "board.dump"], number)

    def test_wrong_words(self):
        self.put("board.table", BENCH)
        self.wrong(["renumber"], "usage: mpt renumber TABLE")
        self.wrong(["renumber", "board.table", "2"], "usage: mpt renumber TABLE")


if __name__ == "__main__":
    harness.main("new numbers for I/O APICs, by hand and over shelf/")
