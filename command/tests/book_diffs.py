"""book diff: which header fields and entries differ between two editions.

    python3 -B command/tests/book_diffs.py COMMAND

Of tables at random and of the shelf: what is printed makes the one table of the other, and nothing shorter does.
"""
import random

import boards
import harness
from boards import BENCH, book, bus, cpu, edited, entry_words, ioapic, line, table
from rows import BOOK, FROM_1_TO_2, FROM_2_TO_3, SECOND, THIRD, Books


class Differing(Books):
    def differs(self, before, after, wanted):
        self.lay(book([(7, 1, before), (7, 2, after)]))
        self.answers(["book", "diff", "boards.book", "7", "1", "2"], wanted)

    def test_by_hand(self):
        self.differs(BENCH, SECOND, FROM_1_TO_2)
        self.differs(SECOND, THIRD, FROM_2_TO_3)
        self.lay(BOOK)
        self.answers(["book", "diff", "boards.book", "7", "2", "1"], (
            "-    3  0300000000010209                          int INT 0 1 0 0 2 9\n"
            "+    3  0300000000010201                          int INT 0 1 0 0 2 1\n"))
        self.answers(["book", "diff", "-", "7", "1", "2"], FROM_1_TO_2, input=BOOK)

    def test_nothing(self):
        self.differs(BENCH, BENCH, "nothing differs\n")
        self.lay(BOOK)
        self.answers(["book", "diff", "boards.book", "65535", "1", "1"], "nothing differs\n")

    def test_put_in_and_taken_out(self):
        """An entry more or less: no other differs, though each behind it has another place."""
        entries = [cpu(0, 3), bus(0), ioapic(2), *[line(3, 0, 0, 0, k, 2, k) for k in range(6)]]
        more = [*entries[:5], line(3, 0, 0, 0, 77, 2, 9), *entries[5:]]
        self.differs(table(entries), table(more), "+    5  03000000004D0209                          int INT 0 77 0 0 2 9\n")
        self.differs(table(more), table(entries), "-    5  03000000004D0209                          int INT 0 77 0 0 2 9\n")
        self.differs(table(entries), table(entries[:-2]), (
            "-    7  0300000000040204                          int INT 0 4 0 0 2 4\n"
            "-    8  0300000000050205                          int INT 0 5 0 0 2 5\n"))
        self.differs(table(entries), table([*entries[:3], entries[4], entries[3], *entries[5:]]), (
            "-    3  0300000000000200                          int INT 0 0 0 0 2 0\n"
            "+    4  0300000000000200                          int INT 0 0 0 0 2 0\n"))

    def test_bytes_that_the_listing_does_not_show(self):
        """A reserved byte: the two lines have the same words, and their bytes tell."""
        self.differs(BENCH, edited(BENCH, 3, bytes.fromhex("0300005500010201")), (
            "-    3  0300000000010201                          int INT 0 1 0 0 2 1\n"
            "+    3  0300005500010201                          int INT 0 1 0 0 2 1\n"))

    def test_extended_entries(self):
        before = table([cpu(0, 3), bus(0)], [boards.space(0, 0, 0x1000, 0x1000), boards.space(0, 1, 0, 16)])
        after = table([cpu(0, 3), bus(0)], [boards.space(0, 0, 0x1000, 0x2000), boards.space(0, 1, 0, 16), bytes([200, 3, 9])])
        self.differs(before, after, (
            "-    -  8014000000100000000000000010000000000000  map 0 0 0000000000001000 0000000000001000\n"
            "+    -  8014000000100000000000000020000000000000  map 0 0 0000000000001000 0000000000002000\n"
            "+    -  C80309                                    skip 200 3\n"))

    def test_header_fields(self):
        """As `parts` writes them, each with its name."""
        def of(**fields):
            return table([cpu(0, 3)], header=boards.fields(**fields))
        self.differs(of(oem=b"MUSEUM  "), of(oem=b'"\\#\x00 \xffab'),
                     '- oem-id      "MUSEUM  "\n+ oem-id      "\\x22\\x5C\\x23\\x00 \\xFFab"\n')
        self.differs(of(product=b"BOARD       "), of(product=b"BOARD 2     "),
                     '- product     "BOARD       "\n+ product     "BOARD 2     "\n')
        self.differs(of(), of(pointer=0xE1234), "- oem-pointer 00000000\n+ oem-pointer 000E1234\n")
        self.differs(of(), of(size=0x1FF), "- oem-size    0000\n+ oem-size    01FF\n")
        self.differs(of(apic=0xFEE00000), of(apic=0xFEE01000), "- local-apic  FEE00000\n+ local-apic  FEE01000\n")
        self.differs(of(), of(reserved=0xA5), "- reserved    00\n+ reserved    A5\n")

    def test_both(self):
        before = table([cpu(0, 3)], header=boards.fields(reserved=1, size=2))
        after = table([cpu(0, 3), bus(4)], header=boards.fields(reserved=3, size=4))
        self.differs(before, after, "- oem-size    0002\n+ oem-size    0004\n- reserved    01\n+ reserved    03\n"
                     "+    1  0104504349202020                          bus 4 PCI\n")

    def script(self, before, after):
        """What is printed, put into the one table, gives the entries of the other; and no shorter list would."""
        self.lay(book([(7, 1, before), (7, 2, after)]))
        answer = self.mpt("book", "diff", "boards.book", "7", "1", "2")
        self.assertEqual((answer.status, answer.err), (0, b""), answer)
        old, new = entry_words(before), entry_words(after)
        told = [text for text in answer.out.decode().splitlines() if text[:1] in "+-" and text[1:2] == " " and text[2:3] == " "]
        minus, plus = [text[1:] for text in told if text[0] == "-"], [text[1:] for text in told if text[0] == "+"]
        kept = self.without(old, minus), self.without(new, plus)
        self.assertEqual([text[7:] for text in kept[0]], [text[7:] for text in kept[1]])
        self.assertEqual(len(kept[0]), self.most_kept([text[7:] for text in old], [text[7:] for text in new]))

    def without(self, lines, taken):
        """The lines but for those that were taken out, which are among them in their order."""
        rest = iter(taken)
        left, next_one = [], next(rest, None)
        for text in lines:
            if text == next_one:
                next_one = next(rest, None)
            else:
                left.append(text)
        self.assertIsNone(next_one, "a line that is not in the table, or out of order")
        return left

    @staticmethod
    def most_kept(a, b):
        """The length of the longest list of lines that both have in order."""
        row = [0] * (len(b) + 1)
        for one in a:
            last = row
            row = [0]
            for j, other in enumerate(b):
                row.append(last[j] + 1 if one == other else max(last[j + 1], row[j]))
        return row[-1]

    def test_the_shelf(self):
        """Between tables of different boards."""
        tables = [shelved.table for shelved in boards.accepted() if len(shelved.table) < 2000]
        for before, after in zip(tables, tables[1:]):
            self.script(before, after)

    def test_at_random(self):
        """Lines taken out, put in, changed and moved; and lists that have little to do with each other."""
        chance = random.Random(20261116)
        head = [cpu(0, 3), bus(0), ioapic(2)]

        def some():
            return [line(3, 0, 0, 0, chance.randrange(3), 2, chance.randrange(3)) for _ in range(chance.randrange(14))]

        for number in range(80):
            before = some()
            after = some() if number % 2 else list(before)
            for _ in range(chance.randrange(5)):
                at = chance.randrange(len(after) + 1)
                after[at:at + chance.choice([0, 1])] = some()[:chance.choice([0, 1])]
            self.script(table(head + before), table(head + after))

    def test_the_longest(self):
        """Two tables that could not be longer, with nothing in common but a processor."""
        longest = next(shelved for shelved in boards.accepted() if shelved.name == "made-longest").table
        other = table([cpu(0, 3)], [bytes([200, 2])] * 2048)
        self.script(longest, other)
        self.script(other, longest)


if __name__ == "__main__":
    harness.main("what differs between two editions")
