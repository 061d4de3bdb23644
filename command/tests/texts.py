"""parts and make: the text of a table, and the table of a text.

    python3 -B command/tests/texts.py COMMAND
"""
import re

import boards
import harness
from boards import BENCH, BENCH_ENTRIES, RICH, base_entries, extended_entries, line_of

# What 'parts' says of the bench board; between an entry's bytes and its comment there may be more space.
BENCH_TEXT = """\
oem-id      "        "
product     "            "
oem-pointer 00000000
oem-size    0000
local-apic  FEE00000
reserved    00
base
0000100312050000000000000000000000000000  # cpu 0 16 on boot
0100495341202020  # bus 0 ISA
020211010000C0FE  # ioapic 2 17 on FEC00000
0300000000010201  # int INT 0 1 0 0 2 1
040300000000FF00  # lint EXTINT 0 0 0 0 255 0
extended
"""
# The same by another hand: comments, blank lines, small letters, spaces, and no end of the last line.
BY_HAND = """\

# A board.
   # An indented comment.
oem-id "        "   # eight spaces
product "            "
oem-pointer 0
\toem-size 0000
local-apic fee00000

reserved 00
base   # entries
  00 00 10 03 12 05 00 00 00 00 00 00 00 00 00 00 00 00 00 00
0100 4953 4120 2020
0202110100 00c0fe# no space before this comment

0300000000010201
040300000000ff00
extended"""


def with_entries(base=(), extended=(), behind=(), **fields):
    """A text with these lines; a field that is given takes the place of the bench board's."""
    lines = ['oem-id "        "', 'product "            "', "oem-pointer 0", "oem-size 0", "local-apic FEE00000", "reserved 0"]
    lines = [fields.get(text.split()[0].replace("-", "_"), text) for text in lines]
    lines += ["base", *(entry.hex() for entry in base), "extended", *(entry.hex() for entry in extended)]
    if behind:
        lines += ["behind", *behind]
    return "".join(text + "\n" for text in lines)


class Parts(harness.Case):
    def test_the_bench_board(self):
        self.put("board.table", BENCH)
        answer = self.mpt("parts", "board.table")
        self.assertEqual((answer.status, answer.err), (0, b""))
        first, rest = answer.out.decode().split("\n", 1)
        self.assertRegex(first, r"\A# The parts of .*'mpt make' makes the table of them\.\Z")
        self.assertEqual(re.sub(r" +#", "  #", rest), BENCH_TEXT)
        self.assertEqual(self.mpt("parts", "-", input=BENCH).out.split(b"\n", 1)[1], answer.out.split(b"\n", 1)[1])

    def test_lines(self):
        """After the heads the entries stand in their order, one on a line, each with its line of the listing."""
        for name, t in [("rich", RICH)] + [(shelved.name, shelved.table) for shelved in boards.accepted()]:
            self.put("board.table", t + b"\x01\x02tail")
            text = self.mpt("parts", "board.table").out.decode()
            base, extended, behind = re.search(r"\nbase\n(.*)^extended\n(.*)^behind\n(.*)", text, re.S | re.M).groups()
            for part, entries in ((base, base_entries(t)), (extended, extended_entries(t))):
                rows = [tuple(re.split(r" +# ", row)) for row in part.splitlines()]
                self.assertEqual(rows, [(entry.hex().upper(), line_of(entry)) for entry in entries], name)
            self.assertEqual(bytes.fromhex(re.sub("#.*", "", behind)), b"\x01\x02tail", name)

    def test_header(self):
        """Numbers are hexadecimal, as wide as their field. In quotes what is not plain text, or has a meaning there, is \\xHH."""
        self.put("board.table", RICH)
        text = self.mpt("parts", "board.table").out.decode()
        for wanted in ('oem-id      "MUSEUM\\x00\\xFF"', 'product     "say \\x22\\x5C\\x23\\x22  ok"', "oem-pointer 000E1234", "oem-size    01FF",
                       "local-apic  FEE01000", "reserved    A5"):
            self.assertIn(f"\n{wanted}\n", text)

    def test_there_and_back(self):
        """make of parts gives the same bytes, of every accepted table, with bytes behind it too."""
        tables = [("rich", RICH)] + [(shelved.name, shelved.table) for shelved in boards.accepted()]
        for letters in (bytes(20), bytes(range(1, 21)), bytes(range(120, 140)), bytes(range(236, 256)), b'""""""\\\\\\\\\\\\\\#######',
                        b"\n\r\t#x41 \\x41 \\n \\\" ' "):
            tables.append((repr(letters), boards.table(BENCH_ENTRIES, oem=letters[:8], product=letters[8:20])))
        for name, t in tables:
            for behind in (b"", b"\x00", bytes(range(256)) * 3):
                with self.subTest(name, behind=len(behind)):
                    self.put("board.table", t + behind)
                    text = self.mpt("parts", "board.table").out
                    self.assertEqual(b"\nbehind\n" in text, behind != b"")
                    self.answers(["make", "-"], t + behind, input=text)
        # By files too: the last one is long enough.
        self.answers(["parts", "board.table", "-o", "board.txt"], f"board.txt: {len(text)} bytes\n")
        self.assertEqual((self.folder / "board.txt").read_bytes(), text)
        self.answers(["make", "board.txt", "-o", "again.table"], f"again.table: {len(t + behind)} bytes\n")
        self.assertEqual((self.folder / "again.table").read_bytes(), t + behind)

    def test_refused(self):
        self.put("bad.table", boards.put(BENCH, 95, 1))
        self.refuses(["parts", "bad.table", "-o", "bad.txt"], 8)
        self.assertEqual(list(self.files()), ["bad.table"])


class Made(harness.Case):
    def made(self, text, wanted):
        self.put("board.txt", text)
        self.answers(["make", "board.txt"], wanted)

    def test_the_bench_board(self):
        self.made(BENCH_TEXT, BENCH)
        self.made(BY_HAND, BENCH)
        self.made(BENCH_TEXT.replace("\n", "\n\n# nothing\n"), BENCH)
        self.made(with_entries(BENCH_ENTRIES), BENCH)

    def test_fields(self):
        """Each field stands in its place of the header."""
        for field, some in (('oem_id', dict(oem=b'A"\\#\x00\x7f\xffz')), ("product", dict(product=b"# no comment")),
                            ("oem_pointer", dict(pointer=0x89ABCDEF)), ("oem_size", dict(size=65535)),
                            ("local_apic", dict(apic=0xFFFFF000)), ("reserved", dict(reserved=255))):
            text = {"oem_id": r'oem-id "A\x22\x5c\x23\x00\x7F\xffz"', "product": r'product "\x23 no comment" # a comment',
                    "oem_pointer": "oem-pointer 89ABCDEF", "oem_size": "oem-size FFFF", "local_apic": "local-apic fffff000",
                    "reserved": "reserved FF"}[field]
            with self.subTest(field):
                self.made(with_entries(BENCH_ENTRIES, **{field: text}), boards.table(BENCH_ENTRIES, header=boards.fields(**some)))

    def test_extended_and_behind(self):
        t = boards.table(boards.RICH_ENTRIES, boards.RICH_EXTENDED)
        self.made(with_entries(boards.RICH_ENTRIES, boards.RICH_EXTENDED), t)
        self.made(with_entries(boards.RICH_ENTRIES, boards.RICH_EXTENDED, ["00 01", "0203 # and so on", "", "ff"]), t + b"\x00\x01\x02\x03\xff")

    def test_the_longest(self):
        """The bytes of the longest table of the shelf, 4,096 and 4,096, from its entries; and one entry more of each part."""
        longest = next(shelved for shelved in boards.accepted() if shelved.name == "made-longest").table
        base, extended = base_entries(longest), extended_entries(longest)
        self.assertEqual(len(longest), 8192)
        self.made(with_entries(base, extended), longest)
        for number, text in ((7, with_entries(base + base[-1:], extended)), (13, with_entries(base, extended + extended[-1:]))):
            self.put("board.txt", text)
            self.refuses(["make", "board.txt", "-o", "new.table"], number)
        self.assertEqual(list(self.files()), ["board.txt"])

    def test_refused(self):
        """The finished table is judged: of each of these entries one rule is broken."""
        cpu0, isa, apic, irq, lint = BENCH_ENTRIES
        for number, base, extended in (
                (14, [], []), (10, [cpu0, bytes([5]) + bytes(7)], []), (12, [isa, cpu0], []),
                (13, [cpu0, isa], [bytes([129, 2])]), (14, [cpu0, cpu0], []), (15, [cpu0, isa, isa], []),
                (16, [cpu0, isa, apic, apic], []), (17, [cpu0, isa, apic, boards.put(irq, 4, 9)], []),
                (18, [cpu0, isa], [boards.link(0, 9)])):
            with self.subTest(number):
                self.put("board.txt", with_entries(base, extended))
                self.refuses(["make", "board.txt"], number)
                self.refuses(["make", "board.txt", "-o", "new.table"], number)
        self.assertEqual(list(self.files()), ["board.txt"])

    def test_no_such_text(self):
        """The line is named in which something stands that is no part of a table."""
        good = with_entries(BENCH_ENTRIES).splitlines()
        for name, line, instead in (
                ("an unknown field", 3, "oem-thing 0"), ("a pointer of nine digits", 3, "oem-pointer 123456789"),
                ("a pointer that is none", 3, "oem-pointer xyz"), ("a size past 65,535", 4, "oem-size 10000"),
                ("a negative size", 4, "oem-size -1"), ("a size that is none", 4, "oem-size 1g3"), ("0x alone", 4, "oem-size 0x"),
                ("an address that is none", 5, "local-apic FEE0000G"), ("a reserved byte of 256", 6, "reserved 100"),
                ("nine letters", 1, 'oem-id "123456789"'), ("no end of the quote", 1, 'oem-id "12345678'), ("no quote", 1, "oem-id 12345678"),
                ("a bad escape", 1, r'oem-id "1234\q678"'), ("half an escape", 1, r'oem-id "12345\x6"'), ("more behind", 1, 'oem-id "12345678" 9'),
                ("thirteen letters", 2, 'product "1234567890123"'), ("odd digits", 9, "010049534120202"), ("no digits", 9, "01004953412020zz"),
                ("a pair torn apart", 9, "0 100495341202020"), ("an unknown part", 13, "expanded")):
            with self.subTest(name):
                self.put("board.txt", "\n".join(good[:line - 1] + [instead] + good[line:]) + "\n")
                answer = self.wrong(["make", "board.txt"])
                self.assertRegex(answer.err, rb"\Ampt: board\.txt:%d: \S.*\n\Z" % line)
                self.assertEqual(self.wrong(["make", "board.txt", "-o", "new.table"]).err, answer.err)
        self.assertEqual(list(self.files()), ["board.txt"])

    def test_no_text_at_all(self):
        """No bytes, a table, zeros, one line without end: exit 2, and no file."""
        for content in (b"", BENCH, bytes(5000), b"a" * 100000, b"\n" * 1000, b"base\n" * 3, b"#"):
            self.put("board.txt", content)
            self.wrong(["make", "board.txt", "-o", "new.table"])
        self.assertEqual(list(self.files()), ["board.txt"])


if __name__ == "__main__":
    harness.main("parts and make, there and back")
