"""Wrong words: every one ends with 2, says why on standard error and nothing on standard output, and touches no file.

    python3 -B command/tests/words.py COMMAND
"""
import boards
import harness
from boards import BENCH
from rows import BOOK

STATED, WANTED = "0300000000010201", "0300000000010209"
# A good line of every form, each ending in a word that it must have.
GOOD = [
    ["list", "board.dump"],
    ["list", "--boot", "0", "default.dump"],
    ["judge", "board.table"],
    ["judge", "--table", "board.table"],
    ["judge", "--dump", "board.dump"],
    ["table", "board.dump"],
    ["table", "--boot", "1", "default.dump"],
    ["entries", "board.table"],
    ["entries", "--boot", "0", "default.dump"],
    ["routes", "board.table", "INT", "0", "1"],
    ["routes", "--io", "board.table", "INT", "0", "1"],
    ["routes", "--boot", "0", "default.dump", "INT", "0", "1"],
    ["slots", "board.table"],
    ["slots", "--boot", "0", "default.dump"],
    ["slot", "pci.table", "1", "1", "A"],
    ["slot", "--boot", "0", "default.dump", "1", "1", "A"],
    ["renumber", "board.table"],
    ["renumber", "--boot", "0", "default.dump"],
    ["sees", "board.table", "0", "io", "100"],
    ["sees", "--boot", "0", "default.dump", "0", "io", "100"],
    ["edit", "board.table", "3", STATED, WANTED],
    ["edit", "board.table", "3", STATED, "--set", "input=9"],
    ["parts", "board.table"],
    ["parts", "--boot", "0", "default.dump"],
    ["make", "board.txt"],
    ["dump", "--memory", "board.image"],
    ["dump", "--region", "rom:F0000:board.body"],
    ["log", "board.table"],
    ["log", "--check", "first.table", "board.table"],
    ["book", "new", "new.book"],
    ["book", "save", "boards.book", "7", "--began", "3", "board.table"],
    ["book", "restore", "boards.book", "7", "1", "--latest", "3"],
    ["book", "history", "boards.book"],
    ["book", "show", "boards.book", "7", "1"],
    ["book", "diff", "boards.book", "7", "1", "2"],
]
# The options of a verb, by its words.
OPTIONS = {"list": ["--boot"], "judge": ["--table", "--dump"], "table": ["--boot", "-o"], "entries": ["--boot"],
           "routes": ["--io", "--local", "--boot"], "slots": ["--boot"], "slot": ["--boot"], "renumber": ["--boot"], "sees": ["--boot"],
           "edit": ["--set"], "parts": ["--boot", "-o"], "make": ["-o"], "dump": ["--memory", "--region", "-o"], "log": ["--check"], "book save": ["--began"],
           "book restore": ["--latest"], "book show": ["-o"]}
# Numbers that are none, whatever the range; and those past one byte.
NO_NUMBERS = ["", " ", "0x", "0xG", "0x0x1", "0x-1", "0x 1", "x1", "1e3", "1.0", "1 ", " 1", "+1", "1h", "0b1", "one", "1,0", "-1",
              "99999999999999999999999"]
NO_BYTES = ["256", "0x100", "1000", "4294967296", "18446744073709551616", "18446744073709551617"]
NO_ADDRESSES = ["", "0x", "xyz", "100h", "1 00", "0x0x1", "0x-1", "0x+1", "0x 1", " 1", "+1", "-1", "1.0", "10000000000000000", "0x10000000000000000"]
NO_HEXADECIMAL = ["030", "0", "zz", "030000000001020", "03 00 0", "0 3", "03,00", "0x0300000000010201", "03000000000102 0 1", "-1"]


class Words(harness.Case):
    def setUp(self):
        super().setUp()
        body = boards.pointer(0xF0010) + BENCH
        self.put("board.dump", boards.rom(body))
        self.put("default.dump", boards.rom(boards.pointer(0, 5)))
        self.put("board.body", body)
        self.put("board.table", BENCH)
        self.put("pci.table", boards.RICH)
        self.put("first.table", BENCH)
        self.put("boards.book", BOOK)
        self.put("board.txt", self.mpt("parts", "-", input=BENCH).out)
        self.put("board.image", bytes(0xF0000) + body + bytes(0x10000 - len(body)))
        self.before = self.files()

    def untouched(self):
        self.unchanged(self.before)

    def test_the_good_lines_are_good(self):
        """Else a wrong line could be wrong for another reason."""
        for words in GOOD:
            with self.subTest(words):
                self.assertEqual(self.mpt(*words).status, 0)
                self.anew("board.table", BENCH)
                self.anew("boards.book", BOOK)

    def test_no_verb(self):
        self.assertRegex(self.wrong([]).err, rb"\Ampt: usage: mpt VERB .*'mpt --help'\n\Z")

    def test_unknown_verbs(self):
        for verb in ("", "lists", "LIST", "List", "lis", "help", "--list", "-", "--", "version", "-V", "--versions", "list ", "board.dump"):
            with self.subTest(verb):
                self.wrong([verb])
                self.wrong([verb, "board.dump"])
        self.untouched()

    def test_too_few(self):
        for words in GOOD:
            for count in range(1, len(words)):
                with self.subTest(words[:count]):
                    self.wrong(words[:count])
        self.untouched()

    def test_too_many(self):
        for words in GOOD:
            if "--set" in words:
                continue  # one word more is WANTED beside --set
            with self.subTest(words):
                self.wrong([*words, "more"])
                self.wrong([*words, "--", "more"])
                self.wrong([*words, ""])
        self.untouched()

    def test_unknown_options(self):
        for words in GOOD:
            for number, option in enumerate(("--nothing", "-x", "-2", "--helpme", "--tables", "---", "-1")):
                with self.subTest([option, *words]):
                    self.wrong([words[0], option, *words[1:]] if number % 2 else [*words, option])
        self.untouched()

    def test_options_of_other_verbs(self):
        for words in GOOD:
            known = OPTIONS.get(words[0], OPTIONS.get(" ".join(words[:2]), []))
            for option in (["--table"], ["--dump"], ["--io"], ["--local"], ["-o", "new"], ["--set", "irq=1"], ["--began", "3"],
                           ["--memory", "board.image"], ["--region", "rom:F0000:board.body"], ["--check", "first.table"],
                           ["--latest", "3"], ["--boot", "0"]):
                if option[0] not in known:
                    with self.subTest([words, option]):
                        self.wrong([*words, *option])
        self.untouched()

    def test_options_without_a_value(self):
        for words in (["list", "board.dump", "--boot"], ["table", "board.dump", "--boot"], ["entries", "board.dump", "--boot"],
                      ["parts", "board.dump", "--boot"], ["slots", "board.dump", "--boot"], ["renumber", "board.dump", "--boot"],
                      ["routes", "board.dump", "INT", "0", "1", "--boot"], ["slot", "board.dump", "1", "1", "A", "--boot"],
                      ["sees", "board.dump", "0", "io", "100", "--boot"],
                      ["table", "board.dump", "-o"], ["parts", "board.table", "-o"], ["make", "board.txt", "-o"],
                      ["dump", "--memory", "board.image", "-o"], ["dump", "--memory"], ["dump", "--region"],
                      ["edit", "board.table", "3", STATED, "--set"], ["log", "board.table", "--check"],
                      ["book", "save", "boards.book", "7", "board.table", "--began"],
                      ["book", "restore", "boards.book", "7", "1", "--latest"], ["book", "show", "boards.book", "7", "1", "-o"]):
            with self.subTest(words):
                self.wrong(words)
        self.untouched()

    def test_options_anywhere(self):
        """They may stand anywhere behind the verb, and `--` ends them."""
        for words in (["judge", "--table", "board.table"], ["judge", "board.table", "--table"], ["judge", "--table", "--", "board.table"]):
            self.answers(words, "accepted: a table of 96 bytes\n")
        self.wrong(["judge", "--", "--table", "board.table"])
        self.put("--table", BENCH)
        self.answers(["judge", "--", "--table"], "accepted: a table of 96 bytes\n")
        self.answers(["table", "-o", "a.table", "board.dump"], "a.table: 96 bytes\n")
        self.answers(["table", "board.dump", "-o", "b.table"], "b.table: 96 bytes\n")

    def test_numbers(self):
        for number in NO_NUMBERS + NO_BYTES:
            with self.subTest(number):
                self.wrong(["routes", "board.table", number, "0", "1"])
                self.wrong(["routes", "board.table", "INT", number, "1"])
                self.wrong(["routes", "board.table", "INT", "0", number])
                self.wrong(["slot", "pci.table", number, "1", "A"])
                self.wrong(["slot", "pci.table", "1", number, "A"])
                self.wrong(["slot", "pci.table", "1", "1", number])
                self.wrong(["sees", "board.table", number, "io", "100"])
                self.wrong(["sees", "board.table", "0", number, "100"])
                for verb in ("list", "entries"):
                    self.wrong([verb, "--boot", number, "default.dump"], f"--boot: '{number}' is no number from 0 to 255")
        for number in NO_NUMBERS:
            with self.subTest(number):
                self.wrong(["edit", "board.table", number, STATED, WANTED])
        for number in NO_ADDRESSES:
            with self.subTest(number):
                self.wrong(["sees", "board.table", "0", "io", number])
        for type in ("INTX", "IN", "EXT", "INT ", "i nt"):
            self.wrong(["routes", "board.table", type, "0", "1"])
        for kind in ("IOS", "mem", "i/o", "io ", "pre"):
            self.wrong(["sees", "board.table", "0", kind, "100"])
        self.untouched()

    def test_hexadecimal(self):
        for digits in NO_HEXADECIMAL:
            with self.subTest(digits):
                self.wrong(["edit", "board.table", "3", digits, WANTED])
                self.wrong(["edit", "board.table", "3", STATED, digits])
                self.wrong(["edit", "board.table", "3", digits, "--set", "input=9"])
        self.untouched()

    def test_both_sorts_of_file(self):
        self.wrong(["judge", "--table", "--dump", "board.table"])
        self.wrong(["judge", "--dump", "board.dump", "--table"])

    def test_wanted_and_set(self):
        self.wrong(["edit", "board.table", "3", STATED, WANTED, "--set", "input=9"])
        self.wrong(["edit", "--set", "input=9", "board.table", "3", STATED, WANTED])
        self.wrong(["edit", "board.table", "3", STATED])
        # Of one option there may be eight.
        self.wrong(["edit", "board.table", "3", STATED, *["--set", "input=9"] * 9])
        self.untouched()

    def test_regions(self):
        for region in ("", ":", "::", "rom", "rom:F0000", "rom::board.body", ":F0000:board.body",
                       "ROMS:F0000:board.body", "rom:F000G:board.body", "rom:0x:board.body", "rom:100000000:board.body",
                       "rom:-10:board.body", "rom:F0000:", "256:F0000:board.body", "-1:F0000:board.body"):
            with self.subTest(region):
                self.wrong(["dump", "--region", region, "-o", "new.dump"])
        # A kind that is a number and none of the four: said by the words or by the reader, and nothing is written.
        for region in ("0:F0000:board.body", "5:F0000:board.body", "255:F0000:board.body"):
            self.assertIn(self.mpt("dump", "--region", region, "-o", "new.dump").status, (1, 2))
        self.wrong(["dump", "-o", "new.dump"])
        self.wrong(["dump", "--memory", "board.image", "--region", "rom:F0000:board.body", "-o", "new.dump"])
        self.untouched()

    def test_standard_input_is_no_table_to_edit(self):
        self.wrong(["edit", "-", "3", STATED, WANTED], input=BENCH)
        self.wrong(["log", "-"], input=BENCH)
        self.untouched()

    def test_long_words(self):
        """Words as long as the system lets them be."""
        long = "F" * 100000
        for words in (["edit", "board.table", "3", long, WANTED], ["edit", "board.table", "3", STATED, long],
                      ["edit", "board.table", long, STATED, WANTED],
                      ["routes", "board.table", long, "0", "1"], ["slot", "pci.table", "1", "1", long], ["sees", "board.table", "0", "io", long], ["list", long], [long],
                      ["dump", "--region", long], ["dump", "--region", f"rom:F0000:{long}"], ["table", "board.dump", "-o", long],
                      ["edit", "board.table", "3", STATED, "--set", f"input={long}"], ["edit", "board.table", "3", STATED, "--set", long]):
            self.assertIn(self.mpt(*words).status, (1, 2))
        # Of the stated bytes there may be any count: then they are not those that stand there.
        self.refuses(["edit", "board.table", "3", long, WANTED], 21)
        self.untouched()


if __name__ == "__main__":
    harness.main("wrong words, each with exit 2")
