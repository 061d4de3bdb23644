"""list, judge, table and entries, over every dump of shelf/ and the table in it.

    python3 -B command/tests/verbs.py COMMAND

What is wanted comes from the texts beside the dumps, and from the tables' bytes as boards.py cuts them.
"""
import boards
import harness
from boards import BENCH, base_entries, extended_entries, pointer, put, rom


class OverTheShelf(harness.Case):
    def test_list(self):
        for shelved in boards.shelf():
            for words, input in ((["list", shelved.path], None), (["list", "-"], shelved.dump)):
                with self.subTest(shelved.name, words=words):
                    if shelved.refused:
                        self.refuses(words, shelved.refused, input=input)
                    else:
                        self.answers(words, shelved.text, input=input)

    def test_judge_a_dump(self):
        for shelved in boards.shelf():
            for words, input in ((["judge", shelved.path], None), (["judge", shelved.path, "--dump"], None), (["judge", "-"], shelved.dump)):
                with self.subTest(shelved.name, words=words):
                    if shelved.refused:
                        self.refuses(words, shelved.refused, input=input)
                    elif shelved.default:
                        self.answers(words, f"accepted: a dump of default configuration {shelved.default}\n", input=input)
                    else:
                        of_pointer, of_table = shelved.addresses
                        self.answers(words, f"accepted: a dump with a table at {of_table}, its pointer at {of_pointer}\n", input=input)

    def test_judge_a_table(self):
        for shelved in boards.accepted():
            self.put("board.table", shelved.table)
            for words, input in ((["judge", "board.table"], None), (["judge", "--table", "board.table"], None), (["judge", "-"], shelved.table)):
                with self.subTest(shelved.name, words=words):
                    self.answers(words, f"accepted: a table of {len(shelved.table)} bytes\n", input=input)

    def test_table(self):
        for shelved in boards.shelf():
            with self.subTest(shelved.name):
                if shelved.refused:
                    self.refuses(["table", shelved.path], shelved.refused)
                    self.refuses(["table", shelved.path, "-o", "refused.table"], shelved.refused)
                    self.assertEqual(self.files(), {})
                    continue
                if shelved.default:
                    continue  # defaults.py has these
                self.answers(["table", shelved.path], shelved.table)
                self.answers(["table", "-"], shelved.table, input=shelved.dump)
                out = self.folder / "new.table"
                self.answers(["table", shelved.path, "-o", "new.table"], f"new.table: {len(shelved.table)} bytes\n")
                self.assertEqual(out.read_bytes(), shelved.table)
                out.unlink()

    def test_entries(self):
        for shelved in boards.accepted():
            t = shelved.table
            rows = [(str(place), entry) for place, entry in enumerate(base_entries(t))]
            rows += [("-", entry) for entry in extended_entries(t)]
            self.assertEqual(len(rows), len(shelved.lines), "the cutting of this test")
            wanted = "".join("%5s  %-40s  %s\n" % (place, entry.hex().upper(), text)
                             for (place, entry), text in zip(rows, shelved.lines))
            self.put("board.table", t)
            self.put("longer.table", t + b"behind\x00\xff")
            with self.subTest(shelved.name):
                self.answers(["entries", "board.table"], wanted)
                self.answers(["entries", "-"], wanted, input=t)
                self.answers(["entries", "longer.table"], wanted)

    def test_lines_of_this_test(self):
        """The lines that other tests work out are those of the shelf's texts."""
        for shelved in boards.accepted():
            entries = base_entries(shelved.table) + extended_entries(shelved.table)
            self.assertEqual([boards.line_of(entry) for entry in entries], shelved.lines, shelved.name)
        self.answers(["judge", "-"], f"accepted: a table of {len(boards.RICH)} bytes\n", input=boards.RICH)


class Judged(harness.Case):
    """What a file is taken for, and numbers that the shelf's dumps do not have."""

    def test_taken_for(self):
        bench = boards.rom(pointer(0xF0010), BENCH)
        for name, content, words, number in (
                ("no bytes are a dump", b"", [], 1),
                ("no bytes as a table", b"", ["--table"], 5),
                ("0 regions are a dump", b"\x00", [], 2),
                ("8 regions that are not there", b"\x08", [], 1),
                ("9 are a table", b"\x09" + bytes(43), [], 6),
                ("43 bytes that begin with 9", b"\x09" + bytes(42), [], 5),
                ("a dump as a table", bench, ["--table"], 6),
                ("a table as a dump", BENCH, ["--dump"], 1)):
            self.put("file", content)
            with self.subTest(name):
                self.refuses(["judge", *words, "file"], number)
                self.refuses(["judge", "-", *words], number, input=content)

    def test_numbers_of_a_table(self):
        """One table for each number, made wrong by hand."""
        cpu0, isa, apic, irq, lint = boards.BENCH_ENTRIES
        sound = boards.table(boards.BENCH_ENTRIES)
        self.assertEqual(sound, BENCH)
        for number, content in (
                (5, BENCH[:43]), (6, put(BENCH, 0, 0x51)), (7, put(BENCH, 4, 43)), (7, BENCH[:95]), (8, put(BENCH, 95, 1)),
                (9, boards.table(boards.BENCH_ENTRIES, revision=1)),
                (10, boards.table([cpu0, bytes([5]) + bytes(7)])), (11, boards.table(boards.BENCH_ENTRIES, count=4)),
                (12, boards.table([isa, cpu0])), (13, boards.table(boards.BENCH_ENTRIES, byte42=1)),
                (14, boards.table([])), (14, boards.table(boards.BENCH_ENTRIES, apic=0xFEE00001)),
                (15, boards.table([cpu0, isa, isa])), (16, boards.table([cpu0, isa, apic, apic])),
                (16, boards.table([cpu0, isa, boards.ioapic(255)])),
                (17, boards.table([cpu0, isa, apic, irq, put(lint, 7, 2)])),
                (18, boards.table([cpu0, isa], [boards.link(0, 0)]))):
            self.put("bad.table", content)
            for verb in (["judge"], ["judge", "--table"], ["entries"], ["slots"], ["renumber"], ["parts"]):
                with self.subTest(number=number, verb=verb):
                    self.refuses([*verb, "bad.table"], number)
            with self.subTest(number=number):
                self.refuses(["routes", "bad.table", "INT", "0", "1"], number)
                self.refuses(["slot", "bad.table", "0", "4", "A"], number)
                self.refuses(["sees", "bad.table", "0", "io", "100"], number)
                self.refuses(["edit", "bad.table", "3", irq.hex(), irq.hex()], number)
                self.assertEqual(self.files(), {"bad.table": content})

    def test_default_configurations(self):
        for number in range(1, 8):
            for feature2, imcr in ((0, 0), (0x80, 1)):
                self.put("board.dump", rom(pointer(0, number, feature2)))
                with self.subTest(number=number, imcr=imcr):
                    self.answers(["list", "board.dump"], f"default {number} imcr {imcr}\n")
                    self.answers(["judge", "board.dump"], f"accepted: a dump of default configuration {number}\n")
                    answer = self.mpt("table", "board.dump", "-o", "new.table")
                    self.assertEqual((answer.status, answer.out, answer.err),
                                     (1, b"no table: default configuration %d\n" % number, b""))
                    self.assertEqual(list(self.files()), ["board.dump"])
        self.put("board.dump", rom(pointer(0, 8)))
        self.refuses(["judge", "board.dump"], 4)

    def test_bytes_behind(self):
        """A table may stand at the beginning of a longer file."""
        for behind in (b"\x00", b"PCMP", bytes(100000)):
            self.put("longer.table", BENCH + behind)
            with self.subTest(behind=len(behind)):
                answer = self.mpt("judge", "longer.table")
                self.assertEqual(answer.status, 0, answer)
                self.assertRegex(answer.out, rb"\Aaccepted: a table of 96 bytes\b[^\n]*\n\Z")

    def test_the_numbers_have_words(self):
        """Each number is said in words of its own: no two have the same."""
        said = set()
        for shelved in boards.shelf():
            if shelved.refused:
                said.add((shelved.refused, self.mpt("judge", shelved.path).out.split(b": ", 1)[1]))
        numbers = {number for number, _ in said}
        self.assertEqual(len({words for _, words in said}), len(numbers), said)


if __name__ == "__main__":
    harness.main("list, judge, table and entries over shelf/")
