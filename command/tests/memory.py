"""dump: of an image of memory, and of regions by hand. What is wanted of a dump is its listing, with the right addresses.

    python3 -B command/tests/memory.py COMMAND
"""
import struct

import boards
import chapter5
import harness
from boards import BENCH, RICH, listing, pointer, put

EBDA = 0x9FC00  # the last kilobyte below 640 KiB
LONGEST = next(shelved for shelved in boards.accepted() if shelved.name == "made-longest").table


def image(*pieces, ebda=None, base_memory=640, size=0x100000):
    """Memory from 0 on: these pieces at their addresses, and the words that name the EBDA and the size of base memory."""
    memory = bytearray(size)
    struct.pack_into("<H", memory, 0x40E, (ebda or 0) // 16)
    struct.pack_into("<H", memory, 0x413, base_memory)
    for address, content in pieces:
        memory[address:address + len(content)] = content
    assert len(memory) == size
    return bytes(memory)


class Memory(harness.Case):
    def dumped(self, memory, note=b""):
        """The dump of an image, from a file to a file: its bytes."""
        self.put("board.image", memory)
        out = self.folder / "board.dump"
        out.unlink(missing_ok=True)
        answer = self.mpt("dump", "--memory", "board.image", "-o", "board.dump")
        self.assertEqual(answer.status, 0, answer)
        self.assertRegex(answer.err, rb"\A" + note + rb"\Z")
        dump = out.read_bytes()
        self.assertEqual(answer.out, b"board.dump: %d bytes\n" % len(dump))
        return dump

    def of_image(self, dump, memory, kind):
        """The dump has the memory's bytes: the pointer's paragraph as a region of its kind, and the table as one of kind 4;
        or one region of the pointer's kind with both."""
        found = boards.regions(dump)
        for number, (_, base, body) in enumerate(found):
            self.assertEqual(body, memory[base:base + len(body)], f"region {number}")
        self.assertIn([region[0] for region in found], ([kind], [kind, 4]))

    def lists(self, memory, kind, t, pointer_at, table_at, imcr=0):
        """Its listing; and its regions: the pointer's paragraph alone, and the table from its paragraph on."""
        dump = self.dumped(memory)
        self.of_image(dump, memory, kind)
        begin, end = table_at // 16 * 16, table_at + len(t)
        alone = [(kind, pointer_at, 16), (4, begin, end - begin)]
        around = [(kind, begin, end - begin)]
        found = [(of, base, len(body)) for of, base, body in boards.regions(dump)]
        self.assertEqual(found, around if begin <= pointer_at < end else alone)
        self.answers(["list", "board.dump"], listing(t, pointer_at, table_at, imcr))

    def test_in_the_ebda(self):
        for at in (EBDA, EBDA + 0x10, EBDA + 0x3F0):
            for table_at in (EBDA + 0x100, 0xF1230, 0x50000, 0x9FC00 - 96):
                with self.subTest(f"{at:X} {table_at:X}"):
                    self.lists(image((table_at, BENCH), (at, pointer(table_at)), ebda=EBDA), 1, BENCH, at, table_at)

    def test_from_standard_input_to_standard_output(self):
        for memory in (image((0xF0000, pointer(0xF0010)), (0xF0010, RICH)), image((0x9FC00, pointer(0x100000)), (0x100000, RICH), size=0x110000)):
            self.answers(["dump", "--memory", "-"], self.dumped(memory), input=memory)
        memory = image((0xF0000, pointer(0x100000)))
        piped = self.mpt("dump", "--memory", "-", input=memory)
        self.assertEqual((piped.status, piped.out), (0, self.dumped(memory, rb"mpt: note: [^\n]*\n")))
        self.assertRegex(piped.err, rb"\Ampt: note: this dump is refused 5: ")

    def test_an_ebda_elsewhere(self):
        self.lists(image((0x80400, pointer(0x80500)), (0x80500, RICH), ebda=0x80400), 1, RICH, 0x80400, 0x80500)
        # Only its first kilobyte is searched.
        memory = image((0x80400 + 0x400, pointer(0x80500)), (0x80500, RICH), ebda=0x80400)
        self.put("board.image", memory)
        self.refuses(["dump", "--memory", "board.image", "-o", "board.dump"], 2)

    def test_in_the_last_kilobyte(self):
        """Where no EBDA is named, the last kilobyte of base memory, by the word at 413h."""
        for base_memory in (640, 639, 512):
            last = base_memory * 1024 - 1024
            for at in (last, last + 0x3F0):
                for table_at in (last + 0x200, 0xF0000, 0x10000):
                    with self.subTest(f"{base_memory}: {at:X} {table_at:X}"):
                        memory = image((table_at, BENCH), (at, pointer(table_at)), base_memory=base_memory)
                        self.lists(memory, 2, BENCH, at, table_at)

    def test_the_last_kilobyte_and_an_ebda(self):
        """With an EBDA the last kilobyte is not searched: the pointer in the ROM is found."""
        memory = image((0x7FC00, pointer(0x50000)), (0x50000, RICH), (0xF5550, pointer(0xF6000)), (0xF6000, BENCH), ebda=EBDA, base_memory=512)
        self.lists(memory, 3, BENCH, 0xF5550, 0xF6000)
        memory = image((0x7FC00, pointer(0x50000)), (0x50000, RICH), (0xF5550, pointer(0xF6000)), (0xF6000, BENCH), base_memory=512)
        self.lists(memory, 2, RICH, 0x7FC00, 0x50000)

    def test_in_the_rom(self):
        """At its first paragraph and its last, the table beside it and far from it."""
        for at, table_at in ((0xF0000, 0xF0010), (0xF0000, 0xFFFA0), (0xFFFF0, 0xFFF90), (0xFFFF0, 0xF0000), (0xF8000, 0xF8010),
                             (0xF8000, 0xF7FA0), (0xF0000, 0x500), (0xFFFF0, 0x9FBA0), (0xF1230, 0xE0000), (0xF1230, 0x7FFF1)):
            with self.subTest(f"{at:X} {table_at:X}"):
                self.lists(image((table_at, BENCH), (at, pointer(table_at, feature2=0x80))), 3, BENCH, at, table_at, imcr=1)

    def test_tables_at_any_byte(self):
        """A table need not begin at a paragraph; a region does."""
        for table_at in (0xF0011, 0xF001F, 0xF7773, 0x50001, 0x5000F, 0xFFF9F):
            self.lists(image((table_at, BENCH), (0xF0000, pointer(table_at))), 3, BENCH, 0xF0000, table_at)

    def test_long_tables(self):
        for at, table_at in ((0xF0000, 0xF0010), (0xFFFF0, 0xF0000), (0xF0000, 0xFE000), (0xF0000, 0x10000), (EBDA, 0x20001)):
            memory = image((table_at, LONGEST), (at, pointer(table_at)), ebda=EBDA)
            self.lists(memory, 1 if at == EBDA else 3, LONGEST, at, table_at)

    def test_around_its_pointer(self):
        """The pointer stands in the table itself, in an extended entry that nobody reads: one region has both."""
        for table_at, names, kind in ((0xF0000, {}, 3), (0xFFF80, {"ebda": EBDA}, 3), (EBDA, {"ebda": EBDA}, 1), (EBDA + 0x380, {}, 2)):
            # 64 bytes of base, then type and length, fourteen bytes, and the pointer: 50h bytes behind the table's first.
            t = boards.table([boards.cpu(0, 3)], [bytes([200, 32]) + bytes(14) + pointer(table_at)])
            with self.subTest(f"{table_at:X}"):
                self.lists(image((table_at, t), **names), kind, t, table_at + 0x50, table_at)

    def test_around_its_pointer_and_past_the_kilobyte(self):
        """No region may have both: refused 1, and nothing is written."""
        filled = [bytes([200, 254]) + bytes(252)] * 5
        t = boards.table([boards.cpu(0, 3)], [bytes([200, 32]) + bytes(14) + pointer(0x80400), *filled])
        self.put("board.image", image((0x80400, t), ebda=0x80400))
        self.refuses(["dump", "--memory", "board.image", "-o", "board.dump"], 1)
        self.assertEqual(list(self.files()), ["board.image"])

    def test_above_the_first_megabyte(self):
        for table_at in (0x100000, 0x100001, 0x1FF00F, 0x200000 - len(RICH)):
            memory = image((table_at, RICH), (0xF0000, pointer(table_at)), size=0x200000)
            self.lists(memory, 3, RICH, 0xF0000, table_at)

    def test_past_the_end_of_the_pointers_kilobyte(self):
        """The table begins in the kilobyte and goes on past it: no region of its kind can hold it."""
        for table_at in (0x80400 + 0x3F0, 0x80400 + 0x3C1, 0x80400 + 0x10, 0x80400 + 0x1F):
            for t in (RICH, LONGEST):
                with self.subTest(f"EBDA {table_at:X}, {len(t)} bytes"):
                    memory = image((table_at, t), (0x80400, pointer(table_at)), ebda=0x80400)
                    self.lists(memory, 1, t, 0x80400, table_at)
        for table_at in (0x80000 - 0x10, 0x80000 - 0x10 + 1, 0x80000 - 0x3F0):
            with self.subTest(f"base memory {table_at:X}"):
                memory = image((table_at, LONGEST), (0x7FC00, pointer(table_at)), base_memory=512)
                self.lists(memory, 2, LONGEST, 0x7FC00, table_at)

    def test_from_below_into_the_pointers_area(self):
        """And the other way round: it begins below the kilobyte or the ROM and ends in it, before the pointer."""
        for at, table_at, kind in ((0x80400 + 0x3F0, 0x80400 - 0x20, 1), (0xF1000, 0xF0000 - 0x40, 3)):
            with self.subTest(f"{at:X} {table_at:X}"):
                memory = image((table_at, RICH), (at, pointer(table_at)), ebda=0x80400)
                self.lists(memory, kind, RICH, at, table_at)

    def test_past_the_end_of_the_rom(self):
        for table_at in (0xFFFF0, 0xFFF01, 0xFE001):
            with self.subTest(f"{table_at:X}"):
                memory = image((table_at, LONGEST), (0xFD000, pointer(table_at)), size=0x110000)
                self.lists(memory, 3, LONGEST, 0xFD000, table_at)

    def test_outside_the_image(self):
        """A table that the image does not have: the dump is refused 5, which is said, and is written all the same."""
        for table_at in (0x100000, 0x100001, 0xFEE00000, 0xFFFFFFF0, 0xFFFFFFFF, 0xFFFF0 + 0x20):
            with self.subTest(f"{table_at:X}"):
                memory = image((0xF0000, pointer(table_at)))
                self.of_image(self.dumped(memory, rb"mpt: note: this dump is refused 5: \S[^\n]*\n"), memory, 3)
                self.refuses(["list", "board.dump"], 5)

    def test_cut_by_the_end_of_the_image(self):
        for t, cut, number in ((BENCH, 1, 7), (BENCH, 52, 7), (BENCH, 53, 5), (BENCH, 95, 5), (RICH, 1, 13)):
            table_at = 0x100000 - len(t) + cut
            memory = image((table_at, t[:-cut]), (0xF0000, pointer(table_at)))
            with self.subTest(cut=cut, number=number):
                self.dumped(memory, rb"mpt: note: this dump is refused %d: \S[^\n]*\n" % number)
                self.refuses(["list", "board.dump"], number)

    def test_refused_tables(self):
        """A dump whose table is refused is a dump: written, and said on standard error."""
        for t, number in ((put(BENCH, 0, 0), 6), (put(BENCH, 95, 9), 8), (boards.table([]), 14), (put(BENCH, 4, 255, 255), 7),
                          (boards.table(boards.BENCH_ENTRIES, [boards.link(0, 0)]), 18)):
            for table_at in (0xF0010, 0x50000, 0xFFF00):
                memory = image((table_at, t), (0xF0000, pointer(table_at)))
                with self.subTest(number=number, at=f"{table_at:X}"):
                    self.of_image(self.dumped(memory, rb"mpt: note: this dump is refused %d: \S[^\n]*\n" % number), memory, 3)
                    self.refuses(["list", "board.dump"], number)
        # Before its pointer a table is taken up to it: the two are regions of their own.
        for table_at, pointer_at, kind in ((EBDA, EBDA + 0x200, 1), (EBDA - 0xC00, EBDA, 1), (0xEFF00, 0xF0000, 3)):
            memory = image((table_at, put(BENCH, 95, 9)), (pointer_at, pointer(table_at)), ebda=EBDA if kind == 1 else None)
            with self.subTest(at=f"{table_at:X}"):
                self.of_image(self.dumped(memory, rb"mpt: note: this dump is refused 8: \S[^\n]*\n"), memory, kind)
                self.refuses(["list", "board.dump"], 8)
        for p, number in ((pointer(0xF0100, revision=1), 3), (pointer(0xF0100, 3), 4), (pointer(0), 4), (pointer(0xF0100, 9), 4)):
            with self.subTest(number=number):
                self.dumped(image((0xF0100, BENCH), (0xF0000, p)), rb"mpt: note: this dump is refused %d: \S[^\n]*\n" % number)
                self.refuses(["list", "board.dump"], number)

    def test_decoys(self):
        """A wrong sum, a wrong length, a wrong signature, half a paragraph off: each is passed over."""
        decoys = [put(pointer(0x50000), 15, 1), pointer(0x50000, length=2), pointer(0x50000, signature=b"_MP-"), b"_MP_" * 4]
        pieces = [(EBDA + 16 * k, decoy) for k, decoy in enumerate(decoys)] + [(0xF0000 + 16 * k, decoy) for k, decoy in enumerate(decoys)]
        pieces += [(0xF0108, pointer(0x50000)), (0x50000, RICH), (0xF2000, BENCH), (0xE0000, pointer(0x50000)), (0x1000, pointer(0x50000))]
        self.lists(image(*pieces, (0xFFFF0, pointer(0xF2000)), ebda=EBDA), 3, BENCH, 0xFFFF0, 0xF2000)
        self.lists(image(*pieces, (0xF1000, pointer(0xF2000)), (0xFFFF0, pointer(0x50000)), ebda=EBDA), 3, BENCH, 0xF1000, 0xF2000)
        self.lists(image(*pieces, (EBDA + 0x80, pointer(0xF2000)), (0xF1000, pointer(0x50000)), ebda=EBDA), 1, BENCH, EBDA + 0x80, 0xF2000)

    def test_the_first_good_one_decides(self):
        """Also where its table is refused and another pointer's would not be."""
        memory = image((0xF0000, pointer(0x50000)), (0xF0010, pointer(0xF2000)), (0xF2000, BENCH))
        self.dumped(memory, rb"mpt: note: this dump is refused 6: [^\n]*\n")

    def test_default_configurations(self):
        for number in range(1, 8):
            for at, kind, names in ((EBDA, 1, {"ebda": EBDA}), (EBDA, 2, {}), (0xF0000, 3, {}), (0xFFFF0, 3, {"ebda": EBDA})):
                memory = image((at, pointer(0, number, 0x80)), **names)
                self.of_image(self.dumped(memory), memory, kind)
                self.answers(["list", "board.dump"], f"default {number} imcr 1\n")
                self.answers(["list", "--boot", "0", "board.dump"], listing(chapter5.made(number, 0), at, 0, imcr=1))

    def test_no_pointer(self):
        """Refused 2, and nothing is written; of images that are short, empty or name an EBDA that they do not have, too."""
        images = [image(), image(ebda=EBDA), image((0xE0000, pointer(0xE0010)), (0xE0010, BENCH)), image(ebda=0xFFFF0), b"", bytes(16), bytes(0x40F),
                  bytes(0x414), bytes(0x500), image((0x8000, pointer(0x9000)), size=0xA000), image(size=0xF0000), image(size=0xF000F, ebda=EBDA),
                  image((0xFFFF8, pointer(0x50000)[:8])), image(base_memory=0), image(base_memory=65535), image(base_memory=1),
                  b"\xff" * 0x100000]
        for number, memory in enumerate(images):
            with self.subTest(number):
                self.put("board.image", memory)
                self.refuses(["dump", "--memory", "board.image"], 2)
                self.refuses(["dump", "--memory", "board.image", "-o", "board.dump"], 2)
        self.assertEqual(list(self.files()), ["board.image"])

    def test_images_that_end_in_the_rom(self):
        """Less than a megabyte is taken too, as far as it goes."""
        memory = image((0xF0000, pointer(0xF0010)), (0xF0010, BENCH), size=0xF0000 + 112)
        self.lists(memory, 3, BENCH, 0xF0000, 0xF0010)
        memory = image((EBDA, pointer(0x500)), (0x500, BENCH), ebda=EBDA, size=EBDA + 16)
        self.lists(memory, 1, BENCH, EBDA, 0x500)
        memory = image((EBDA, pointer(0x500)), (0x500, BENCH), size=EBDA + 16)
        self.lists(memory, 2, BENCH, EBDA, 0x500)

    def test_the_shelf(self):
        """Each dump of the shelf laid out in memory gives its own listing again: one that fits below 16 MiB."""
        count = 0
        for shelved in boards.accepted():
            pieces = [(base, body) for _, base, body in boards.regions(shelved.dump)]
            if max(base + len(body) for base, body in pieces) > 1 << 24:
                continue
            count += 1
            self.dumped(image(*pieces))
            with self.subTest(shelved.name):
                self.answers(["list", "board.dump"], shelved.text)
        self.assertGreater(count, 8)


class Regions(harness.Case):
    def setUp(self):
        super().setUp()
        self.put("body", pointer(0xF0010) + BENCH)

    def test_the_bench_board(self):
        """The shelf's dump, byte for byte, from its one body."""
        wanted = (boards.ROOT / "shelf/made-bench-board.dump").read_bytes()
        self.put("body", boards.regions(wanted)[0][2])
        for region in ("rom:F0000:body", "3:F0000:body", "rom:0xF0000:body", "3:000f0000:body", f"rom:F0000:{self.folder}/body"):
            self.answers(["dump", "--region", region], wanted)
        self.answers(["dump", "--region", "rom:F0000:body", "-o", "board.dump"], "board.dump: 122 bytes\n")
        self.assertEqual((self.folder / "board.dump").read_bytes(), wanted)

    def test_every_dump_of_the_shelf(self):
        """From its bodies: the same bytes, with a note where it is refused."""
        for shelved in boards.shelf():
            if shelved.refused in (1, 2):
                continue
            words = []
            for number, (kind, base, body) in enumerate(boards.regions(shelved.dump)):
                self.put(f"body{number}", body)
                words += ["--region", f"{[None, 'ebda', 'base', 'rom', 'other'][kind]}:{base:X}:body{number}"]
            answer = self.mpt("dump", *words)
            with self.subTest(shelved.name):
                self.assertEqual((answer.status, answer.out), (0, shelved.dump))
                note = b"mpt: note: this dump is refused %d: " % shelved.refused if shelved.refused else b""
                self.assertTrue(answer.err.startswith(note) and (note or not answer.err), answer.err)

    def test_kinds_and_order(self):
        """Four kinds by their names and numbers, in the order in which they are given; an empty one too."""
        self.put("ebda", b"E" * 1024)
        self.put("base", b"B" * 1024)
        self.put("other:one", b"O" * 33)
        self.put("none", b"")
        body = (self.folder / "body").read_bytes()
        wanted = boards.dump((4, 0x100000, b"O" * 33), (3, 0xF0000, body), (1, 0x9F800, b"E" * 1024), (2, 0x9FC00, b"B" * 1024), (4, 0, b""))
        for kinds in (["other", "rom", "ebda", "base", "other"], "4 3 1 2 4".split()):
            places = ["100000:other:one", "F0000:body", "9F800:ebda", "9fc00:base", "0:none"]
            words = [word for kind, place in zip(kinds, places) for word in ("--region", f"{kind}:{place}")]
            self.answers(["dump", *words], wanted)

    def test_rules_of_dumps(self):
        """What breaks a rule of dumps is refused 1, and no file is made."""
        self.put("kilobyte", bytes(1025))
        self.put("long", bytes(65536))
        for regions in (["rom:F0000:body", "other:F0060:body"], ["rom:F0000:body", "other:EFFF0:body"], ["rom:F0000:body", "other:F0000:body"],
                        ["rom:F0001:body"], ["rom:E0000:body"], ["rom:FFFF0:body"], ["ebda:9F800:kilobyte"], ["base:9F800:kilobyte"],
                        ["rom:F0000:body", "rom:F1000:body"], ["other:FFFFFFF0:body"], ["rom:F0000:long"], ["other:0:long"]):
            words = [word for region in regions for word in ("--region", region)]
            with self.subTest(regions):
                self.refuses(["dump", *words], 1)
                self.refuses(["dump", *words, "-o", "board.dump"], 1)
        # Nine regions, and three hundred, of which byte 0 has no count.
        for count in (9, 300):
            words = [word for k in range(count) for word in ("--region", f"other:{k:X}000:body")]
            self.assertEqual(self.mpt("dump", *words, "-o", "board.dump").status, 2)
        self.assertEqual(sorted(self.files()), ["body", "kilobyte", "long"])

    def test_the_most(self):
        """Eight regions, and 65,536 bytes in all."""
        regions = ["rom:F0000:body"] + [f"other:{k}000:body" for k in range(1, 8)]
        body = (self.folder / "body").read_bytes()
        words = [word for region in regions for word in ("--region", region)]
        self.answers(["dump", *words], boards.dump((3, 0xF0000, body), *[(4, 0x1000 * k, body) for k in range(1, 8)]))
        longest = next(shelved for shelved in boards.shelf() if shelved.name == "made-65536").dump
        for number, (_, _, content) in enumerate(boards.regions(longest)):
            self.put(f"part{number}", content)
        self.answers(["dump", "--region", "rom:F0000:part0", "--region", "other:80000000:part1"], longest)
        self.put("part1", b"\x00" + (self.folder / "part1").read_bytes())
        self.refuses(["dump", "--region", "rom:F0000:part0", "--region", "other:80000000:part1"], 1)


if __name__ == "__main__":
    harness.main("dumps of images and of regions")
