"""book: what its verbs make of a book, what they print, and what they refuse but for 28.

    python3 -B command/tests/books.py COMMAND
"""
import os
import random
import socket
import struct

import boards
import harness
from boards import BENCH, BOOK_MOST, RICH, book, cpu, edited, put, table, with_save
from rows import BOOK, EMPTY, FROM_1_TO_2, ROWS, SECOND, SMALL, THIRD, WHO, Books, restore, save, saved


def versions(count):
    """So many small tables, no two of them the same."""
    return [edited(SMALL, 0, struct.pack("<BBBBI12x", 0, 0, 16, 3, k)) for k in range(count)]


class New(harness.Case):
    def test_new(self):
        self.answers(["book", "new", "boards.book"], "boards.book: 3 bytes\n")
        self.assertEqual(self.files(), {"boards.book": EMPTY})
        self.answers(["book", "history", "boards.book"], "no editions: the book is empty\n")

    def test_never_over_a_file(self):
        self.put("mine", b"mine")
        self.put("empty", b"")
        self.put("boards.book", BOOK)
        (self.folder / "shelf").mkdir()
        (self.folder / "link").symlink_to("nothing")
        before = self.files()
        for name in ("mine", "empty", "boards.book", "shelf", "link"):
            self.wrong(["book", "new", name], f"{name}: File exists")
        self.wrong(["book", "new", "nowhere/boards.book"], "nowhere/boards.book: No such file or directory")
        self.wrong(["book", "new", ""])
        self.unchanged(before)
        self.assertEqual(os.readlink(self.folder / "link"), "nothing")

    def test_beside_the_log_of_another(self):
        """A book was moved away without its log: a new one in its place would have that log, which never fits it."""
        log = self.folder / "boards.book.log"
        for content in (boards.save_line(7, 1), "", None):
            self.put(log.name, content) if content is not None else log.symlink_to("nothing")
            before = self.files()
            self.wrong(["book", "new", "boards.book"], "boards.book.log: it would be the new book's log, and is there already: put it away")
            self.unchanged(before)
            self.assertFalse((self.folder / "boards.book").exists())
            log.unlink()
        # Of a book that is there it is its own.
        self.put("boards.book", BOOK)
        self.put(log.name, boards.save_line(7, 1))
        self.wrong(["book", "new", "boards.book"], "boards.book: File exists")
        # Put away with its book, it is in nobody's way.
        for name in ("boards.book", log.name):
            (self.folder / name).rename(self.folder / f"old.{name}")
        self.answers(["book", "new", "boards.book"], "boards.book: 3 bytes\n")

    def test_where_nobody_may_write(self):
        other = self.other_user()
        self.folder.chmod(0o555)
        self.wrong(["book", "new", "boards.book"], "boards.book: Permission denied", **other)
        self.assertEqual(self.files(), {})

    def test_the_mask_decides_the_mode(self):
        old = os.umask(0o027)
        try:
            self.mpt("book", "new", "boards.book")
        finally:
            os.umask(old)
        self.assertEqual((self.folder / "boards.book").stat().st_mode & 0o7777, 0o640)


class Saving(Books):
    def test_from_nothing(self):
        self.mpt("book", "new", "boards.book")
        self.path = self.folder / "boards.book"
        rows = []
        for machine, _, body in ROWS:
            rows = self.saves(rows, machine, body)
        self.assertEqual(self.path.read_bytes(), BOOK)
        self.assertEqual(sorted(self.files()), ["boards.book", "boards.book.log", "new.table"])

    def test_by_hand(self):
        """The bytes of a book with one row, spelled out."""
        self.lay(EMPTY)
        self.saves([], 0x1234, SMALL)
        self.assertEqual(self.path.read_bytes(), bytes.fromhex("01 0100 3412 0100 0B00 4000") + SMALL)
        self.saves([(0x1234, 1, SMALL)], 2, BENCH)
        head = bytes.fromhex("01 0200 3412 0100 1300 4000 0200 0100 5300 6000")
        self.assertEqual(self.path.read_bytes(), head + SMALL + BENCH)

    def test_the_shelf(self):
        """Every accepted table there, two of each."""
        self.lay(EMPTY)
        rows = []
        for machine, shelved in enumerate(boards.accepted()):
            if len(book(rows)) + 2 * (8 + len(shelved.table)) > BOOK_MOST:
                self.lay(EMPTY)
                rows = []
            rows = self.saves(rows, machine, shelved.table)
            rows = self.saves(rows, machine, shelved.table)

    def test_forms_of_words(self):
        now = with_save(ROWS, 7, BENCH)
        for machine, began in (("7", "3"), ("0x7", "0x3"), ("007", "03"), ("0X07", "0X0003")):
            self.lay(BOOK)
            self.put("new.table", BENCH)
            self.answers(["book", "save", "--began", began, "boards.book", machine, "new.table"], saved(now))
            self.assertEqual(self.path.read_bytes(), book(now))

    def test_a_table_by_standard_input(self):
        self.lay(BOOK)
        now = with_save(ROWS, 9, RICH)
        self.answers(save(9, 0, "-"), saved(now), input=RICH)
        self.assertEqual(self.path.read_bytes(), book(now))

    def test_the_table_stays(self):
        self.lay(BOOK)
        path = self.put("new.table", BENCH)
        path.chmod(0o400)
        self.assertEqual(self.mpt(*save(7, 3)).status, 0)
        self.assertEqual(path.read_bytes(), BENCH)

    def test_log_line(self):
        """Five words: the time, who, the machine, the edition, and 0 or the edition that is restored."""
        self.lay(EMPTY)
        self.put("new.table", BENCH)
        for user, words in (("anna", save("0x7", 0)), ("bert", save(7, 1)), ("a b", restore(7, 1, 2))):
            self.assertEqual(self.mpt(*words, environment={"MPT_USER": user, "TZ": "Asia/Tokyo"}).status, 0)
        lines = [text.split(" ") for text in self.log().splitlines()]
        host = socket.gethostname()
        self.assertEqual([words[1:] for words in lines],
                         [[f"anna@{host}", "7", "1", "0"], [f"bert@{host}", "7", "2", "0"], [f"a_b@{host}", "7", "3", "1"]])
        for words in lines:
            self.assertRegex(words[0], r"\A\d{4}-\d\d-\d\dT\d\d:\d\d:\d\dZ\Z")

    def test_bytes_behind(self):
        """What stands behind a book in its file stands behind the new one, and is read by nobody."""
        for behind in (b"\x00", b"behind", bytes(range(256)) * 300, SMALL):
            self.lay(BOOK + behind)
            rows = self.saves(ROWS, 7, BENCH, behind)
            self.restores(rows, 0, 1, behind)
            self.answers(["book", "show", "boards.book", "7", "2"], SECOND)

    def test_a_room_as_a_file(self):
        """A book in a file of 32,768 bytes, as a program may keep it: nothing of the rest is lost."""
        behind = bytes(BOOK_MOST - len(BOOK))
        self.lay(BOOK + behind)
        self.saves(ROWS, 7, BENCH, behind)

    def test_one_after_another(self):
        """Saves and restores, and some that are refused: each edition that was ever saved is still there, with its bytes."""
        chance = random.Random(20261116)
        self.lay(EMPTY)
        rows, tables = [], versions(40) + [BENCH, SECOND, THIRD]
        for _ in range(60):
            machine = chance.choice([3, 4, 1000])
            now, body = boards.latest(rows, machine), chance.choice(tables)
            how = chance.randrange(4)
            if how == 0:
                self.put("new.table", body)
                self.assertEqual(self.mpt(*save(machine, now + chance.choice([-1, 1]) if now else 5)).status, 1)
            elif how == 1 and now:
                rows = self.restores(rows, machine, chance.randrange(now) + 1)
            else:
                rows = self.saves(rows, machine, body)
        self.assertGreater(len(rows), 30)
        for machine, edition, body in rows:
            self.answers(["book", "show", "boards.book", machine, edition], body)
        self.assertEqual(self.mpt("book", "history", "boards.book").out.count(f"  {WHO}".encode()), len(rows))


class BadBooks(Books):
    """27, of every verb, and before all other numbers."""

    def faults(self):
        """Each fault of a book."""
        rows = [(7, 1, BENCH), (7, 2, SECOND)]
        good = book(rows)
        first, second = 3, 11  # where the rows stand
        yield "no bytes", b""
        yield "two bytes", good[:2]
        yield "another layout", put(good, 0, 2)
        yield "no layout", put(good, 0, 0)
        yield "a table", BENCH
        yield "a dump", boards.rom(boards.pointer(0xF0010), BENCH)
        yield "more rows than there are", put(good, 1, 3)
        yield "far more rows", put(good, 1, 255, 255)
        yield "a row is cut", good[:18]
        yield "the last body is cut", good[:-1]
        yield "no last body", good[:-96]
        yield "the first offset is one less", put(good, first + 4, good[first + 4] - 1)
        yield "the first offset is one more", put(good, first + 4, good[first + 4] + 1)
        yield "the second offset is that of the first", put(good, second + 4, good[first + 4])
        yield "a gap between the bodies", put(good[:19 + 96] + b"\x00" + good[19 + 96:], second + 4, good[second + 4] + 1)
        yield "a length of one less", put(good, second + 6, 95)
        yield "a length of one more", put(good, second + 6, 97)
        yield "the edition 0", put(good, first + 2, 0)
        yield "the first edition is 2", put(good, first + 2, 2)
        yield "a gap in the editions", put(good, second + 2, 3)
        yield "an edition twice", put(good, second + 2, 1)
        yield "the second of another machine", put(good, second, 8)
        yield "a body that is no table", put(good, 19 + 50, good[19 + 50] ^ 1)
        yield "a body that breaks a rule", book([(7, 1, table([cpu(0, 1)]))])
        yield "bytes behind the table in a body", book([(7, 1, BENCH + b"\x00"), (7, 2, SECOND)])
        most = book([(7, k + 1, SMALL) for k in range(455)])
        assert len(most) == 3 + 455 * 72 == 32763
        yield "more than 32,768 bytes", book([(7, k + 1, SMALL) for k in range(454)] + [(7, 455, BENCH)])

    def test_every_fault(self):
        self.put("new.table", BENCH)
        self.put("bad.table", BENCH[:-1])
        for name, content in self.faults():
            self.lay(content)
            with self.subTest(name):
                for words in (save(7, 2), save(7, 0), save(7, 2, "bad.table"), restore(7, 1, 2), restore(9, 9, 9)):
                    self.stays(words, 27)
                for words in (["history", "boards.book"], ["history", "boards.book", 7], ["show", "boards.book", 7, 1],
                              ["show", "boards.book", 9, 9], ["show", "boards.book", 7, 1, "-o", "new"],
                              ["diff", "boards.book", 7, 1, 2]):
                    self.stays(["book", *words], 27)

    def test_the_good_ones_are_good(self):
        """Else a bad one could be bad for another reason."""
        self.lay(book([(7, 1, BENCH), (7, 2, SECOND)]))
        self.assertEqual(self.mpt("book", "diff", "boards.book", "7", "1", "2").out.decode(), FROM_1_TO_2)
        self.lay(book([(7, k + 1, SMALL) for k in range(455)]))
        self.answers(["book", "show", "boards.book", "7", "455"], SMALL)

    def test_cut_short_where_zeros_stood(self):
        """A book whose last bytes are 0 and are not in the file: in a longer room of zeros it would be good."""
        last = table([cpu(0, 3)], header=boards.fields(reserved=0))
        assert last.endswith(bytes(8))
        self.put("new.table", BENCH)
        for cut in (1, 4, 8):
            self.lay(book([(7, 1, last)])[:-cut])
            self.stays(save(7, 1), 27)
            self.stays(restore(7, 1, 1), 27)
            self.stays(["book", "show", "boards.book", "7", "1"], 27)

    def test_in_words(self):
        self.lay(b"")
        self.assertEqual(self.mpt("book", "history", "boards.book").out,
                         b"refused 27: it is no good book: its layout, its rows, the order of the editions, or a table in it\n")


class BadTables(Books):
    def test_every_number(self):
        """The new body's own number; and it comes before 28."""
        self.lay(BOOK)
        for number, content in [*boards.PARTS["REFUSED"].items(), (5, b""), (7, BENCH[:-1])]:
            self.put("bad.table", content)
            with self.subTest(number):
                for machine, began in ((7, 3), (7, 1), (8, 0), (8, 1)):
                    self.stays(save(machine, began, "bad.table"), number)

    def test_bytes_behind_a_table(self):
        """7, and which of the two is meant."""
        self.lay(BOOK)
        for t, behind in ((BENCH, b"\x00"), (RICH, b"behind"), (SMALL, SMALL)):
            self.put("long.table", t + behind)
            answer = self.stays(save(7, 3, "long.table"), 7, (
                f"the table has {len(t)} bytes, and the file has {len(t + behind)}: a book takes no bytes behind a table\n"))
            self.assertEqual(answer.out.splitlines()[0], (b"refused 7: the base length is under 44, over 4,096, or past the end; "
                                                          b"or, of a save, bytes stand behind the table"))

    def test_the_shelf(self):
        """Tables of the shelf that are refused are refused by the same number."""
        self.lay(BOOK)
        seen = set()
        for shelved in boards.shelf():
            if shelved.refused is None or shelved.refused < 8:
                continue
            for _, _, body in boards.regions(shelved.dump):
                at = body.find(b"PCMP")
                if at < 0 or boards.table_length(body[at:]) > len(body) - at:
                    continue
                self.put("bad.table", body[at:at + boards.table_length(body[at:])])
                if self.mpt("judge", "--table", "bad.table").status == 1:
                    self.stays(save(7, 3, "bad.table"), shelved.refused)
                    seen.add(shelved.refused)
        self.assertGreater(len(seen), 2)

    def test_a_dump(self):
        self.lay(BOOK)
        self.put("board.dump", boards.rom(boards.pointer(0xF0010), BENCH))
        self.stays(save(7, 3, "board.dump"), 6)


class NoRoom(Books):
    """29: exactly where the book would have more than 32,768 bytes."""

    def filled(self, left):
        """Rows of a book with so many bytes left."""
        rows = [(1, k + 1, SMALL) for k in range(400)]
        while True:
            free = BOOK_MOST - len(book(rows)) - left
            if free == 0:
                return rows
            # Entries come in eights: what is left of a row is bytes of an extended entry of a type that nobody knows.
            size = min(free - 8, 2000)
            size = size if free - 8 - size in (0, *range(80, 40000)) else size - 100
            extra = size - 64
            rows = [*rows, (2, boards.latest(rows, 2) + 1, self.of_length(extra))]

    @staticmethod
    def of_length(extra):
        """A table of 64 bytes and so many of extended entries of a type that nobody knows."""
        found = []
        while extra:
            size = min(extra, 200) if extra - min(extra, 200) != 1 else extra - 2
            found.append(bytes([200, size]) + bytes(size - 2))
            extra -= size
        return table([cpu(0, 3)], found)

    def test_just_full(self):
        for body in (SMALL, BENCH, RICH):
            rows = self.filled(len(body) + 8)
            self.assertEqual(len(book(rows)), BOOK_MOST - len(body) - 8)
            self.lay(book(rows))
            now = self.saves(rows, 3, body)
            self.assertEqual(len(book(now)), BOOK_MOST)
            # Not one row more, and 28 before that.
            for other in (SMALL, BENCH):
                self.put("new.table", other)
                self.stays(save(3, 1), 29)
                self.stays(save(4, 0), 29)
                self.stays(save(4, 1), 28, "machine 4: the book has no edition of it\n")
            self.stays(restore(1, 1, 400), 29)
            self.stays(restore(1, 401, 400), 28, "machine 1: the book has no edition 401 of it\n")
            # What is in it is read for good.
            self.answers(["book", "show", "boards.book", "3", "1"], body)

    def test_one_byte_too_few(self):
        for body in (SMALL, BENCH, RICH):
            rows = self.filled(len(body) + 7)
            self.lay(book(rows))
            self.put("new.table", body)
            self.stays(save(3, 0), 29)
        rows = self.filled(71)
        self.lay(book(rows))
        self.stays(restore(1, 7, 400), 29)
        rows = self.filled(72)
        self.lay(book(rows))
        self.restores(rows, 1, 7)

    def test_what_stands_behind_takes_no_room(self):
        rows = self.filled(72)
        for behind in (b"", b"behind" * 20000):
            self.lay(book(rows) + behind)
            self.saves(rows, 3, SMALL, behind)

    def test_in_words(self):
        self.lay(book(self.filled(0)))
        self.put("new.table", SMALL)
        self.assertEqual(self.mpt(*save(3, 0)).out, (
            b"refused 29: no room for one edition more: a book has at most 32,768 bytes, a machine 65,535 editions\n"))


class Restoring(Books):
    def test_every_edition(self):
        for machine, old in ((7, 1), (7, 2), (7, 3), (0, 1), (65535, 1)):
            self.lay(BOOK)
            rows = self.restores(ROWS, machine, old)
            self.answers(["book", "show", "boards.book", machine, rows[-1][1]], rows[-1][2])

    def test_one_after_another(self):
        self.lay(BOOK)
        rows = self.restores(ROWS, 7, 1)
        rows = self.restores(rows, 7, 3)
        rows = self.restores(rows, 7, 5)
        self.saves(rows, 7, RICH)


class Showing(Books):
    def setUp(self):
        super().setUp()
        self.lay(BOOK)

    def test_every_edition(self):
        for machine, edition, body in ROWS:
            self.answers(["book", "show", "boards.book", machine, edition], body)
            self.answers(["book", "show", "-", machine, edition], body, input=BOOK)
            self.answers(["book", "show", "boards.book", machine, edition, "-o", "new"], f"new: {len(body)} bytes\n")
            self.assertEqual((self.folder / "new").read_bytes(), body)
            (self.folder / "new").unlink()
        self.assertEqual(self.files(), {"boards.book": BOOK})

    def test_editions_that_are_none(self):
        for edition in (0, 4, 65535):
            for words in (["show", "boards.book", "7", edition], ["show", "boards.book", "7", edition, "-o", "new"],
                          ["diff", "boards.book", "7", edition, "1"], ["diff", "boards.book", "7", "1", edition]):
                self.stays(["book", *words], 28, "machine 7: the book has editions 1 to 3\n")
        for words in (["show", "boards.book", "8", "1"], ["diff", "boards.book", "8", "1", "1"]):
            self.stays(["book", *words], 28, "machine 8: the book has no edition of it\n")

    def test_a_shown_edition_is_a_table(self):
        """It can be looked at, edited and saved again."""
        self.mpt("book", "show", "boards.book", "7", "3", "-o", "new.table")
        self.assertEqual(self.mpt("edit", "new.table", "3", "0300000000010209", "--set", "input=5").status, 0)
        self.assertEqual(self.mpt(*save(7, 3)).status, 0)
        self.assertEqual(self.mpt("book", "diff", "boards.book", "7", "3", "4").out.decode(), (
            "-    3  0300000000010209                          int INT 0 1 0 0 2 9\n"
            "+    3  0300000000010205                          int INT 0 1 0 0 2 5\n"))

    def test_no_log_and_no_lock(self):
        """To read a book makes no file."""
        for words in (["show", "boards.book", "7", "1"], ["diff", "boards.book", "7", "1", "2"], ["history", "boards.book"]):
            self.assertEqual(self.mpt("book", *words).status, 0)
        self.assertEqual(self.files(), {"boards.book": BOOK})


class Words(Books):
    def setUp(self):
        super().setUp()
        self.lay(BOOK)
        self.put("new.table", BENCH)

    def test_numbers(self):
        for number in ("", " ", "x", "-1", "65536", "0x10000", "99999999999999999999", "1e3", "+1", "1 ", "seven"):
            with self.subTest(number):
                for words in (save(number, 3), save(7, number), restore(number, 1, 3), restore(7, number, 3),
                              restore(7, 1, number)):
                    self.wrong(words)
                for verb, *numbers in (["history", number], ["show", number, 1], ["show", 7, number], ["diff", number, 1, 2],
                                       ["diff", 7, number, 2], ["diff", 7, 1, number]):
                    self.wrong(["book", verb, "boards.book", *numbers])
        self.assertEqual(self.files(), {"boards.book": BOOK, "new.table": BENCH})

    def test_what_must_be_stated(self):
        """Nobody saves without saying what he began from."""
        self.wrong(["book", "save", "boards.book", "7", "new.table"],
                   "book save: --began N, the edition that you began from, 0 for a new machine")
        self.wrong(["book", "restore", "boards.book", "7", "1"], "book restore: --latest N, the edition that is the latest now")
        self.wrong(["book", "save", "boards.book", "7", "new.table", "--began"], "book save: --began wants a value")
        self.wrong(["book", "save", "boards.book", "7", "--latest", "3", "new.table"])
        self.wrong(["book", "restore", "boards.book", "7", "1", "--began", "3"])

    def test_no_verb(self):
        self.wrong(["book"], "usage: mpt book VERB WORD..: see 'mpt book --help'")
        for verb in ("", "saves", "SAVE", "list", "boards.book", "--began", "-", "--", "save boards.book", "log"):
            self.wrong(["book", verb], f"no verb 'book {verb}': see 'mpt book --help'")
        for verb in ("new", "save", "restore", "history", "show", "diff"):
            self.wrong(["book", verb], f"usage: mpt book {verb} " + {
                "new": "BOOK", "save": "BOOK MACHINE --began N TABLE", "restore": "BOOK MACHINE EDITION --latest N",
                "history": "BOOK [MACHINE]", "show": "BOOK MACHINE EDITION [-o FILE]", "diff": "BOOK MACHINE A B"}[verb])
            # It is one word of two, and no verb by itself.
            self.wrong([verb, "boards.book"])

    def test_help(self):
        whole = self.mpt("book", "--help").out.decode()
        for verb in ("new", "save", "restore", "history", "show", "diff"):
            answer = self.mpt("book", verb, "--help")
            self.assertEqual((answer.status, answer.err), (0, b""))
            usage = answer.out.decode().splitlines()[0].removeprefix("usage: ")
            self.assertTrue(usage.startswith(f"mpt book {verb} "), usage)
            self.assertIn(usage, whole)


if __name__ == "__main__":
    harness.main("new, save, restore and show; 27, a table's own number and 29")
