"""--boot: the full tables that the default configurations stand for, listed, taken out and asked (document 02, ask 6).

    python3 -B command/tests/defaults.py COMMAND

What is wanted was typed off Intel's Tables 5-1 to 5-3 (chapter5.py), with docs/DEFAULTS.md for what they leave open; three listings
stand here in full.
"""
import resource

import boards
import harness
from boards import BENCH, RICH, base_entries, dump, listing, pointer, put, rom
from chapter5 import BEHIND, SEVEN, asked, connected, dumps, made, row_of
from rows import BOOK

TOO_HIGH = ["2", "3", "7", "0x2", "128", "255", "0xFF"]
REFUSED_30 = b"refused 30: no such default configuration (1 to 7), or no such boot processor (0 or 1)\n"
NO_SLOTS = "no slots: no interrupt line to an I/O APIC comes from a PCI bus\n"

ISA_AND_PCI = """\
pointer 000F0000 imcr 0
table 00000000 252 0 23
cpu 0 16 on boot
cpu 1 16 on ap
bus 0 ISA
bus 1 PCI
ioapic 2 16 on FEC00000
int EXTINT 0 0 0 0 2 0
int INT 0 1 0 0 2 1
int INT 0 0 0 0 2 2
int INT 0 3 0 0 2 3
int INT 0 4 0 0 2 4
int INT 0 5 0 0 2 5
int INT 0 6 0 0 2 6
int INT 0 7 0 0 2 7
int INT 0 8 0 0 2 8
int INT 0 9 0 0 2 9
int INT 0 10 0 0 2 10
int INT 0 11 0 0 2 11
int INT 0 12 0 0 2 12
int INT 0 13 0 0 2 13
int INT 0 14 0 0 2 14
int INT 0 15 0 0 2 15
lint EXTINT 0 0 0 0 255 0
lint NMI 0 0 0 0 255 1
end
"""
# Without IRQ0 and IRQ13.
EISA_LESS_TWO = """\
pointer 000F0000 imcr 1
table 00000000 228 0 20
cpu 0 1 on ap
cpu 1 1 on boot
bus 0 EISA
ioapic 2 1 on FEC00000
int EXTINT 0 0 0 0 2 0
int INT 0 1 0 0 2 1
int INT 0 3 0 0 2 3
int INT 0 4 0 0 2 4
int INT 0 5 0 0 2 5
int INT 0 6 0 0 2 6
int INT 0 7 0 0 2 7
int INT 0 8 0 0 2 8
int INT 0 9 0 0 2 9
int INT 0 10 0 0 2 10
int INT 0 11 0 0 2 11
int INT 0 12 0 0 2 12
int INT 0 14 0 0 2 14
int INT 0 15 0 0 2 15
lint EXTINT 0 0 0 0 255 0
lint NMI 0 0 0 0 255 1
end
"""
# Without the 8259A at INTIN0.
MCA_AND_PCI = """\
pointer 000F0000 imcr 1
table 00000000 244 0 22
cpu 0 16 on ap
cpu 1 16 on boot
bus 0 MCA
bus 1 PCI
ioapic 2 16 on FEC00000
int INT 0 1 0 0 2 1
int INT 0 0 0 0 2 2
int INT 0 3 0 0 2 3
int INT 0 4 0 0 2 4
int INT 0 5 0 0 2 5
int INT 0 6 0 0 2 6
int INT 0 7 0 0 2 7
int INT 0 8 0 0 2 8
int INT 0 9 0 0 2 9
int INT 0 10 0 0 2 10
int INT 0 11 0 0 2 11
int INT 0 12 0 0 2 12
int INT 0 13 0 0 2 13
int INT 0 14 0 0 2 14
int INT 0 15 0 0 2 15
lint EXTINT 0 0 0 0 255 0
lint NMI 0 0 0 0 255 1
end
"""


class Default(harness.Case):
    def each(self):
        """Each configuration with each boot processor, its dump laid out."""
        for configuration in SEVEN:
            self.put("board.dump", rom(pointer(0, configuration)))
            for boot in (0, 1):
                with self.subTest(configuration=configuration, boot=boot):
                    yield configuration, boot


class Listed(Default):
    def test_the_one_line(self):
        """As ever, and nothing beside it."""
        for configuration in SEVEN:
            for imcr in (0, 1):
                for content, _ in dumps(configuration, imcr):
                    self.put("board.dump", content)
                    self.answers(["list", "board.dump"], f"default {configuration} imcr {imcr}\n")
                self.answers(["list", "-"], f"default {configuration} imcr {imcr}\n", input=content)

    def test_by_hand(self):
        for configuration, imcr, boot, text in ((5, 0, 0, ISA_AND_PCI), (2, 1, 1, EISA_LESS_TWO), (7, 1, 1, MCA_AND_PCI)):
            self.put("board.dump", rom(pointer(0, configuration, imcr << 7)))
            self.answers(["list", "--boot", boot, "board.dump"], text)
            # The other one booted: two lines have other words.
            other = text.replace("boot", "other").replace(" ap", " boot").replace("other", "ap")
            self.answers(["list", "--boot", 1 - boot, "board.dump"], other)

    def test_all(self):
        """The line of the pointer as ever, then the table, which has no address."""
        for configuration in SEVEN:
            for imcr in (0, 1):
                for content, at in dumps(configuration, imcr):
                    self.put("board.dump", content)
                    for boot in (0, 1):
                        with self.subTest(configuration=configuration, imcr=imcr, at=f"{at:X}", boot=boot):
                            self.answers(["list", "--boot", boot, "board.dump"], listing(made(configuration, boot), at, 0, imcr))

    def test_the_sizes(self):
        """Of docs/DEFAULTS.md: how many entries, how many bytes."""
        for configuration, entries, size in ((1, 22, 244), (2, 20, 228), (3, 22, 244), (4, 22, 244), (5, 23, 252), (6, 23, 252), (7, 22, 244)):
            self.put("board.dump", rom(pointer(0, configuration)))
            second = self.mpt("list", "--boot", "1", "board.dump").out.splitlines()[1]
            self.assertEqual(second, b"table 00000000 %d 0 %d" % (size, entries))

    def test_the_shelf(self):
        """The seven that were made for it, and any other there; a text for each processor stands beside each."""
        shelved = boards.defaults()
        self.assertLessEqual({f"made-default-{number}" for number in SEVEN}, {one.name for one in shelved})
        for one in shelved:
            for boot in (0, 1):
                for words, input in ((["list", "--boot", boot, one.path], None), (["list", "-", "--boot", boot], one.dump)):
                    with self.subTest(one.name, words=words):
                        self.answers(words, one.full(boot), input=input)

    def test_forms_of_words(self):
        self.put("board.dump", rom(pointer(0, 5)))
        for boot, words in ((0, ["--boot", "0"]), (0, ["--boot=0"]), (0, ["--boot", "000"]), (0, ["--boot", "0x0"]), (1, ["--boot", "01"]),
                            (1, ["--boot", "0X1"]), (1, ["--boot", "0", "--boot", "1"]), (0, ["--boot", "1", "--boot=0"])):
            wanted = listing(made(5, boot), 0xF0000, 0)
            self.answers(["list", *words, "board.dump"], wanted)
            self.answers(["list", "board.dump", *words], wanted)
            self.answers(["list", *words, "--", "board.dump"], wanted)


class TakenOut(Default):
    def test_table(self):
        for configuration, boot in self.each():
            t = made(configuration, boot)
            self.answers(["table", "--boot", boot, "board.dump"], t)
            self.answers(["table", "-", "--boot", boot], t, input=rom(pointer(0, configuration)))
            self.answers(["table", "board.dump", "--boot", boot, "-o", "new.table"], f"new.table: {len(t)} bytes\n")
            self.assertEqual((self.folder / "new.table").read_bytes(), t)
            self.answers(["judge", "new.table"], f"accepted: a table of {len(t)} bytes\n")
            (self.folder / "new.table").unlink()

    def test_what_booted_decides(self):
        """A byte of each processor, and no other: the two exchange their flags, so that the sum stays."""
        for configuration, _ in self.each():
            zero, one = (self.mpt("table", "--boot", boot, "board.dump").out for boot in (0, 1))
            self.assertEqual([(at, zero[at], one[at]) for at in range(len(zero)) if zero[at] != one[at]], [(47, 3, 1), (67, 1, 3)])

    def test_never_over_a_file(self):
        self.put("board.dump", rom(pointer(0, 1)))
        self.put("mine", b"mine")
        before = self.files()
        for verb in ("table", "parts"):
            self.wrong([verb, "--boot", "0", "board.dump", "-o", "mine"], "mine: File exists")
            self.wrong([verb, "--boot", "0", "board.dump", "-o", "board.dump"], "board.dump: File exists")
        self.unchanged(before)

    def test_a_full_disk(self):
        """The file is whole, or it is not there."""
        for limit in (0, 1, 243, 244):
            self.put("board.dump", rom(pointer(0, 1)))
            answer = self.mpt("table", "--boot", "0", "board.dump", "-o", "new",
                              preexec_fn=lambda: resource.setrlimit(resource.RLIMIT_FSIZE, (limit, limit)))
            if limit < 244:
                self.assertEqual((answer.status, answer.err), (2, b"mpt: new: File too large\n"))
                self.assertNotIn("new", self.files())
            else:
                self.assertEqual((answer.status, self.files()["new"]), (0, made(1, 0)))

    def test_as_any_other(self):
        """Edited, logged, written anew and kept in a book."""
        self.put("board.dump", rom(pointer(0, 3)))
        self.mpt("table", "--boot", "0", "board.dump", "-o", "board.table")
        self.answers(["edit", "board.table", "6", "0300000000000202", "--set", "input=0x10"],
                     "entry 6 was 0300000000000202  int INT 0 0 0 0 2 2\nentry 6 is  0300000000000210  int INT 0 0 0 0 2 16\n")
        now = boards.edited(made(3, 0), 6, bytes.fromhex("0300000000000210"))
        self.assertEqual((self.folder / "board.table").read_bytes(), now)
        self.mpt("table", "--boot", "0", "board.dump", "-o", "first.table")
        self.answers(["log", "--check", "first.table", "board.table"], boards.check_fits("first.table", "board.table", 1, 0))
        self.answers(["routes", "board.table", "INT", "0", "0", "--io"], "ioapic 2 input 16\n")
        self.put("boards.book", BOOK)
        self.assertEqual(self.mpt("book", "save", "boards.book", "3", "--began", "0", "first.table").status, 0)
        self.answers(["book", "show", "boards.book", "3", "1"], made(3, 0))


class Asked(Default):
    def test_entries(self):
        for configuration, boot in self.each():
            wanted = "".join(words + "\n" for words in boards.entry_words(made(configuration, boot)))
            self.answers(["entries", "--boot", boot, "board.dump"], wanted)
            self.answers(["entries", "--boot", boot, "-"], wanted, input=rom(pointer(0, configuration)))

    def test_interrupts(self):
        """Each IRQ goes to the input that Table 5-2 has it at; 16 is none."""
        for configuration, boot in self.each():
            inputs = connected(configuration)
            for irq in range(17) if boot == configuration % 2 else (0, 13):
                to = f"2 input {inputs.index(f'IRQ{irq}')}" if f"IRQ{irq}" in inputs else "none"
                self.answers(["routes", "--boot", boot, "board.dump", "INT", "0", irq], f"ioapic {to}\ncpu none\n")

    def test_system_interrupts(self):
        """The 8259A at INTIN0, but not in configuration 7, and at LINTIN0 of both processors; NMI at LINTIN1 of both."""
        for configuration, boot in self.each():
            io = "ioapic none\n" if configuration == 7 else "ioapic 2 input 0\n"
            local = "cpu 0 input 0\ncpu 1 input 0\n"
            self.answers(["routes", "--boot", boot, "board.dump", "EXTINT", "0", "0"], io + local)
            self.answers(["routes", "--boot", boot, "--io", "board.dump", "EXTINT", "0", "0"], io)
            self.answers(["routes", "--local", "board.dump", "EXTINT", "0", "0", "--boot", boot], local)
            self.answers(["routes", "--boot", boot, "board.dump", "NMI", "0", "0"], "ioapic none\ncpu 0 input 1\ncpu 1 input 1\n")
            self.answers(["routes", "--boot", boot, "board.dump", "SMI", "0", "0"], "ioapic none\ncpu none\n")

    def test_pci(self):
        """Its lines appear as those of the other bus, so no slot is named (MPS 5.2); and 1 to 4 have no such bus."""
        for configuration, boot in self.each():
            buses, _ = row_of(configuration)
            self.answers(["slots", "--boot", boot, "board.dump"], NO_SLOTS)
            self.refuses(["slot", "--boot", boot, "board.dump", "0", "4", "A"], 25, more=f"bus 0 {buses[0]}: not a PCI bus\n".encode())
            if "PCI" in buses:
                self.answers(["slot", "--boot", boot, "board.dump", "1", "4", "A"], "ioapic none\n")
                self.answers(["routes", "--boot", boot, "board.dump", "INT", "1", "16"], "ioapic none\ncpu none\n")
            else:
                self.refuses(["slot", "--boot", boot, "board.dump", "1", "4", "A"], 24)
                self.refuses(["routes", "--boot", boot, "board.dump", "INT", "1", "16"], 24)

    def test_numbers(self):
        """The I/O APIC is 2, and the processors are 0 and 1: none has another's."""
        for configuration, boot in self.each():
            place = 2 + len(row_of(configuration)[0])
            self.answers(["renumber", "--boot", boot, "board.dump"],
                         f"entry {place}    ioapic 2    at FEC00000  keeps 2\nnumbers in use: 3 of 255\n")

    def test_addresses(self):
        """There is no extended part, so nothing is declared."""
        for configuration, boot in self.each():
            for bus in range(len(row_of(configuration)[0])):
                for kind in ("io", "memory", "prefetch"):
                    self.answers(["sees", "--boot", boot, "board.dump", bus, kind, "3F8"], "undeclared, 0 links climbed\n")
            self.refuses(["sees", "--boot", boot, "board.dump", "2", "io", "3F8"], 24)

    def test_parts(self):
        """As of the table's file; and make gives the table of it again."""
        for configuration, boot in self.each():
            t = made(configuration, boot)
            text = self.mpt("parts", "-", input=t).out
            lines = [entry.hex().upper() + "  # " + boards.line_of(entry) for entry in base_entries(t)]
            self.assertEqual(text.decode().splitlines()[7:], ["base", *lines, "extended"])
            self.answers(["parts", "--boot", boot, "board.dump"], text)
            self.answers(["parts", "--boot", boot, "board.dump", "-o", "board.txt"], f"board.txt: {len(text)} bytes\n")
            self.answers(["make", "board.txt"], t)
            (self.folder / "board.txt").unlink()


class WithATable(harness.Case):
    """A dump that holds a table: that one is taken, and --boot decides nothing."""

    def test_the_shelf(self):
        for shelved in boards.accepted():
            self.put("board.table", shelved.table)
            for boot in ("0", "1", "2", "255"):
                self.answers(["list", "--boot", boot, shelved.path], shelved.text)
                self.answers(["table", "--boot", boot, shelved.path], shelved.table)
            for verb, behind in BEHIND.items():
                if verb in ("list", "table"):
                    continue
                wanted = self.mpt(verb, "board.table", *behind)
                with self.subTest(shelved.name, verb=verb):
                    self.assertEqual(self.mpt(verb, "--boot", "1", shelved.path, *behind), wanted)
                    self.assertEqual(self.mpt(verb, "-", *behind, "--boot", "9", input=shelved.dump), wanted)

    def test_by_hand(self):
        self.put("board.dump", rom(pointer(0xF0010), BENCH))
        for boot in ("0", "1", "2", "255"):
            self.answers(["routes", "--boot", boot, "board.dump", "INT", "0", "1"], "ioapic 2 input 1\ncpu none\n")
            self.answers(["sees", "--boot", boot, "board.dump", "0", "io", "100"], "undeclared, 0 links climbed\n")
            self.refuses(["routes", "--boot", boot, "board.dump", "INT", "1", "1"], 24)

    def test_behind_the_table(self):
        """What stands there in its region is no part of it: as with `table`."""
        self.put("board.dump", rom(pointer(0xF0010), RICH, b"behind\x00\xff"))
        self.put("board.table", RICH)
        self.answers(["table", "--boot", "0", "board.dump"], RICH)
        self.answers(["parts", "--boot", "0", "board.dump"], self.mpt("parts", "board.table").out)


class Refused(harness.Case):
    def test_dumps(self):
        """By their own number, whatever stands behind --boot."""
        bad = {1: [b"", b"\x09", rom(pointer(0, 5)) + b"\x00"], 2: [b"\x00", rom(put(pointer(0, 5), 15, 1))],
               3: [rom(pointer(0, 5, revision=1))], 4: [rom(pointer(0, 8)), rom(pointer(0, 255)), rom(pointer(0xF0010, 5), BENCH), rom(pointer(0))],
               5: [rom(pointer(0xF0010))], 8: [rom(pointer(0xF0010), put(BENCH, 95, 1))]}
        for number, contents in bad.items():
            for content in contents:
                self.put("bad.dump", content)
                for boot in ("0", "2"):
                    for words in asked("bad.dump", boot):
                        with self.subTest(words, number=number):
                            self.refuses(words, number)
        self.assertEqual(list(self.files()), ["bad.dump"])

    def test_the_shelf(self):
        for shelved in boards.shelf():
            if shelved.refused:
                for words in asked(shelved.path, "0"):
                    with self.subTest(shelved.name, words=words):
                        self.refuses(words, shelved.refused)

    def test_no_such_processor(self):
        """30, of every verb; nothing is written."""
        for configuration in SEVEN:
            self.put("board.dump", rom(pointer(0, configuration)))
            for boot in TOO_HIGH if configuration == 5 else TOO_HIGH[:1]:
                for words in asked("board.dump", boot):
                    with self.subTest(words, configuration=configuration):
                        self.assertEqual(self.refuses(words, 30).out, REFUSED_30)
        for words in (["table", "--boot", "2", "board.dump", "-o", "new"], ["parts", "--boot", "2", "board.dump", "-o", "new"]):
            self.refuses(words, 30)
        self.assertEqual(list(self.files()), ["board.dump"])

    def test_no_such_processor_comes_before_the_question(self):
        """The table comes first, as ever: then what is asked of it."""
        self.put("board.dump", rom(pointer(0, 1)))
        for words in (["routes", "board.dump", "9", "9", "0"], ["slot", "board.dump", "9", "99", "9"], ["sees", "board.dump", "9", "9", "0"]):
            self.refuses([*words, "--boot", "2"], 30)
            self.refuses([*words, "--boot", "1"], 24)

    def test_wrong_words(self):
        """Every verb that takes it, with a value that is no number or none; words.py has more of them."""
        self.put("board.dump", rom(pointer(0, 1)))
        before = self.files()
        for value in ("x", "-1", "256", ""):
            for words in asked("board.dump", value):
                self.wrong(words, f"--boot: '{value}' is no number from 0 to 255")
        for words in asked("board.dump", "0"):
            self.wrong([words[0], *words[3:], "--boot"], f"{words[0]}: --boot wants a value")
            self.wrong([*words[:3], *words[4:]])  # no file
        # No file is opened before the words are right.
        for words in asked("missing", "x"):
            self.wrong(words, "--boot: 'x' is no number from 0 to 255")
        self.unchanged(before)

    def test_other_verbs(self):
        """Those that change a file, keep one or make one do not take it; nor does judge, which judges what is in the file."""
        self.put("board.dump", rom(pointer(0, 1)))
        self.put("board.table", BENCH)
        self.put("boards.book", BOOK)
        before = self.files()
        for words in (["judge", "board.dump"], ["edit", "board.table", "3", "0300000000010201", "0300000000010209"], ["log", "board.table"],
                      ["make", "board.table"], ["dump", "--memory", "board.dump"], ["book", "new", "new.book"],
                      ["book", "save", "boards.book", "9", "--began", "0", "board.table"], ["book", "history", "boards.book"],
                      ["book", "restore", "boards.book", "7", "1", "--latest", "3"],
                      ["book", "show", "boards.book", "7", "1"], ["book", "diff", "boards.book", "7", "1", "2"]):
            verb = words[:2] if words[0] == "book" else words[:1]
            self.wrong([*words, "--boot", "0"], f"{' '.join(verb)}: a wrong option: see 'mpt {' '.join(verb)} --help'")
            self.assertNotIn(b"--boot", self.mpt(*verb, "--help").out)
        self.unchanged(before)


# The verbs that change a table's file or keep it, of board.dump.
TAKING_NONE = [["edit", "board.dump", "3", "00", "01"], ["edit", "board.dump", "3", "0300000000010201", "--set", "input=9"],
               ["log", "board.dump"], ["log", "--check", "board.table", "board.dump"], ["log", "--check", "board.dump", "board.table"],
               ["book", "save", "boards.book", "9", "--began", "0", "board.dump"]]


class Without(harness.Case):
    """Without --boot a dump of a default configuration is answered as before ask 6, by the refusal alone; with it, a table is said to
    be one.
    """

    def test_help(self):
        for verb in BEHIND:
            helped = self.mpt(verb, "--help").out
            self.assertTrue(helped.startswith(b"usage: mpt %s [--boot N] " % verb.encode()), helped)
            self.assertIn(b"\nWith --boot N the file is a dump. Where that is of a default configuration", helped)
        self.assertIn(b"--boot 0 or 1", self.mpt("--help").out)

    def test_table(self):
        """The number of the configuration alone."""
        for configuration in SEVEN:
            for content, _ in dumps(configuration):
                self.put("board.dump", content)
                for words in (["table", "board.dump"], ["table", "board.dump", "-o", "new.table"]):
                    answer = self.mpt(*words)
                    self.assertEqual(answer, (1, b"no table: default configuration %d\n" % configuration, b""))
                self.assertEqual(list(self.files()), ["board.dump"])

    def test_verbs_of_a_table(self):
        """A dump is no table: 5 of a short one and 6 of others, and nothing more."""
        for configuration in SEVEN:
            for (content, _), number in zip(dumps(configuration), (5, 6, 6, 6)):
                self.put("board.dump", content)
                for verb, behind in BEHIND.items():
                    if verb in ("list", "table"):
                        continue
                    with self.subTest(configuration=configuration, verb=verb, number=number):
                        self.refuses([verb, "board.dump", *behind], number)
                        if configuration == 1:
                            self.refuses([verb, "-", *behind], number, input=content)
        self.refuses(["parts", "board.dump", "-o", "board.txt"], 6)
        self.assertEqual(list(self.files()), ["board.dump"])

    def test_as_others(self):
        """The same of a dump with a table, of one that is refused, and of a refused table."""
        for content, number in ((rom(pointer(0xF0010), BENCH), 6), (rom(pointer(0, 8)), 5), (rom(pointer(0, 5), bytes(64)) + b"\x00", 6),
                                (put(BENCH, 95, 1), 8), (b"", 5)):
            self.put("board.file", content)
            for verb, behind in BEHIND.items():
                if verb not in ("list", "table"):
                    self.refuses([verb, "board.file", *behind], number)
        for shelved in boards.shelf():
            if shelved.refused:
                self.refuses(["list", shelved.path], shelved.refused)
        self.put("board.table", BENCH)
        self.answers(["slots", "board.table"], NO_SLOTS)

    def test_verbs_that_take_no_dump(self):
        """The refusal alone, too. No file is changed, and no log made."""
        self.put("board.table", BENCH)
        self.put("boards.book", BOOK)
        for configuration in SEVEN:
            for (content, _), number in zip(dumps(configuration), (5, 6, 6, 6)):
                self.put("board.dump", content)
                before = self.files()
                for words in TAKING_NONE:
                    with self.subTest(words, configuration=configuration, number=number):
                        self.refuses(words, number)
                self.refuses(["book", "save", "boards.book", "7", "--began", "1", "-"], number, input=content)
                self.unchanged(before)

    def test_verbs_that_take_no_dump_as_others(self):
        """The same of a dump with a table and of one that is refused; and a bad book comes first."""
        self.put("board.table", BENCH)
        self.put("boards.book", BOOK)
        for content, number in ((rom(pointer(0xF0010), BENCH), 6), (rom(pointer(0, 8)), 5), (put(BENCH, 95, 1), 8), (b"", 5)):
            self.put("board.dump", content)
            for words in TAKING_NONE:
                self.refuses(words, number)
        self.put("board.dump", rom(pointer(0, 5)))
        self.put("boards.book", b"\x02\x00\x00")
        self.refuses(TAKING_NONE[-1], 27)

    def test_a_table_with_boot(self):
        """Also with bytes behind it, and whatever stands behind --boot. `list` and `table` take none without it either."""
        for content in (BENCH, RICH, made(5, 1), BENCH + bytes(70000)):
            self.put("board.table", content)
            for boot in ("0", "2"):
                for words in asked("board.table", boot):
                    with self.subTest(words, length=len(content)):
                        self.refuses(words, 1, more=None if words[0] in ("list", "table") else b"it is a table: leave out --boot\n")
        self.refuses(["slots", "--boot", "0", "-"], 1, more=b"it is a table: leave out --boot\n", input=BENCH)

    def test_neither(self):
        """A table with a byte spoilt is not said to be one."""
        for at, byte, number in ((0, 0, 6), (0, 1, 6), (0, 8, 6), (0, 9, 6), (47, 0, 8)):
            self.put("board.file", put(made(5, 0), at, byte))
            self.refuses(["entries", "board.file"], number)
            self.refuses(["entries", "board.file", "--boot", "0"], 1)


if __name__ == "__main__":
    harness.main("the full tables of the seven default configurations")
