"""book: who saved. What is told at 28, the history of a book by its log, and the files beside it.

    python3 -B command/tests/book_logs.py COMMAND

The logs are written here by hand, line for line, and so are the books that they are of.
"""
import os
import socket

import boards
import harness
from boards import BENCH, RICH, book, save_line, with_save
from rows import BOOK, EMPTY, FROM_1_TO_2, FROM_2_TO_3, ROWS, SECOND, SMALL, THIRD, WHEN, WHO, Books, restore, save, saved

NOT_LATEST = "refused 28: another edition is the latest, or the book has no such edition\n"


class NotTheLatest(Books):
    """28: which edition is the latest, who saved it, and what differs."""

    LOG = "".join([save_line(7, 1, when=WHEN % 1), save_line(0, 1, when=WHEN % 2), save_line(7, 2, who="bert@attic"),
                   save_line(65535, 1, when=WHEN % 4), save_line(7, 3, who="carl@yard", when=WHEN % 5)])
    IS = "machine 7: edition 3 is the latest, and not %d\n"
    BY_CARL = f"saved by carl@yard, {WHEN % 5}\n"
    WHAT = "from edition 2 to edition 3:\n" + FROM_2_TO_3

    def overtaken(self, words, more):
        self.put("new.table", RICH)
        answer = self.stays(words, 28, more)
        self.assertTrue(answer.out.decode().startswith(NOT_LATEST))

    def test_who_and_what(self):
        self.lay(BOOK, self.LOG)
        self.overtaken(save(7, 2), self.IS % 2 + self.BY_CARL + self.WHAT)
        self.overtaken(restore(7, 1, 2), self.IS % 2 + self.BY_CARL + self.WHAT)
        self.overtaken(save(7, 1), self.IS % 1 + self.BY_CARL + """\
from edition 1 to edition 3:
-    3  0300000000010201                          int INT 0 1 0 0 2 1
-    4  040300000000FF00                          lint EXTINT 0 0 0 0 255 0
+    3  0300000000010209                          int INT 0 1 0 0 2 9
+    4  040300000000FF01                          lint EXTINT 0 0 0 0 255 1
""")

    def test_an_edition_that_is_none(self):
        """The one that was stated is 0 or is still to come: there is nothing to compare with."""
        self.lay(BOOK, self.LOG)
        for stated in (0, 4, 65535):
            self.overtaken(save(7, stated), self.IS % stated + self.BY_CARL)
            self.overtaken(restore(7, 1, stated), self.IS % stated + self.BY_CARL)

    def test_a_machine_that_is_none(self):
        self.lay(BOOK, self.LOG)
        for machine, stated in ((8, 1), (8, 65535), (1, 3)):
            self.overtaken(save(machine, stated), f"machine {machine}: the book has no edition of it\n")
            self.overtaken(restore(machine, 1, stated), f"machine {machine}: the book has no edition of it\n")
        self.overtaken(restore(8, 0, 0), "machine 8: the book has no edition of it\n")
        self.lay(EMPTY)
        self.overtaken(save(7, 1), "machine 7: the book has no edition of it\n")

    def test_nothing_to_restore(self):
        self.lay(BOOK, self.LOG)
        for old in (0, 4, 65535):
            self.overtaken(restore(7, old, 3), f"machine 7: the book has no edition {old} of it\n")
        none = "machine 7: the book has no edition 9 of it\n"
        self.overtaken(restore(7, 9, 2), none + self.IS % 2 + self.BY_CARL + self.WHAT)

    def test_after_a_restore(self):
        self.lay(book(with_save(ROWS, 7, BENCH)), self.LOG + save_line(7, 4, 1, who="dora@hall", when=WHEN % 6))
        self.overtaken(save(7, 1), "machine 7: edition 4 is the latest, and not 1\n"
                       f"edition 1 restored by dora@hall, {WHEN % 6}\nfrom edition 1 to edition 4:\nnothing differs\n")

    def test_without_a_log(self):
        self.lay(BOOK)
        self.overtaken(save(7, 2), self.IS % 2 + "the log does not say who saved it\n" + self.WHAT)
        self.assertNotIn("boards.book.log", self.files())

    def test_a_log_that_does_not_say(self):
        """It tells of other editions; and what never came about saved nothing."""
        for log in (save_line(7, 2), save_line(0, 1) + save_line(65535, 1), save_line(7, 3, never=True), save_line(7, 3)[:-4],
                    save_line(7, 4)[:-1]):
            self.lay(BOOK, log)
            self.overtaken(save(7, 2), self.IS % 2 + "the log does not say who saved it\n" + self.WHAT)

    def test_a_log_that_does_not_fit(self):
        for log in (save_line(7, 4), save_line(8, 1), self.LOG + "garbage\n", "garbage"):
            self.lay(BOOK, log)
            self.overtaken(save(7, 2), self.IS % 2 + "the log does not fit the book: see 'mpt book history'\n" + self.WHAT)

    def test_an_older_book_was_put_back(self):
        """Lines of editions that the book has no more, or that were saved again since: who saved those that it has is told."""
        again = self.IS % 2 + "saved by anna@bench, 2026-11-16T05:06:34Z\n" + self.WHAT
        for log, told in ((self.LOG + save_line(7, 3), again), (save_line(8, 1) + self.LOG + save_line(7, 3), again),
                          (self.LOG + save_line(7, 4), self.IS % 2 + self.BY_CARL + self.WHAT)):
            self.lay(BOOK, log)
            self.overtaken(save(7, 2), told)
            self.overtaken(restore(7, 1, 2), told)

    def test_a_log_that_is_too_long(self):
        """To tell a name it must be read, which ends with 2. Who is told none needs no log."""
        log = self.lay(BOOK, self.LOG).with_name("boards.book.log")
        self.put("new.table", RICH)
        self.put("bad.table", BENCH[:-1])
        os.truncate(log, (64 << 20) + 1)
        for words in (save(7, 2), restore(7, 1, 2), save(7, 3), ["book", "history", "boards.book"]):
            self.assertRegex(self.wrong(words).err, rb"\Ampt: (/.*/)?boards\.book\.log: more than 64 MiB\n\Z")
        self.refuses(save(7, 2, "bad.table"), 7)
        self.answers(["book", "show", "boards.book", "7", "1"], BENCH)
        self.assertEqual((self.path.read_bytes(), log.stat().st_size), (BOOK, (64 << 20) + 1))

    def test_a_log_that_cannot_be_read(self):
        other = self.other_user()
        self.lay(BOOK, self.LOG)
        self.put("new.table", RICH)
        log = self.folder / "boards.book.log"
        if other:
            for path in (self.folder, self.path, log):
                os.chown(path, harness.OTHER_USER, harness.OTHER_USER)
        log.chmod(0o200)
        told = self.IS % 2 + "the log cannot be read: Permission denied\n" + self.WHAT
        self.refuses(save(7, 2), 28, more=told.encode(), **other)
        said = self.wrong(["book", "history", "boards.book"], **other).err
        self.assertRegex(said, rb"boards.book.log: Permission denied\n\Z")
        # Who does not ask for names needs none.
        self.answers(["book", "show", "boards.book", "7", "1"], BENCH, **other)

    def test_told_by_the_command_itself(self):
        """Anna and Bert both begin from edition 1. Bert is told, begins from edition 2, and is done."""
        self.mpt("book", "new", "boards.book")
        for name, body in (("first", BENCH), ("anna", SECOND), ("bert", THIRD)):
            self.put(name, body)
        self.mpt(*save(7, 0, "first"), environment={"MPT_USER": "anna"})
        self.mpt(*save(7, 1, "anna"), environment={"MPT_USER": "anna"})
        time = self.log().splitlines()[1].split()[0]
        self.stays(save(7, 1, "bert"), 28, (
            f"machine 7: edition 2 is the latest, and not 1\nsaved by anna@{socket.gethostname()}, {time}\n"
            f"from edition 1 to edition 2:\n{FROM_1_TO_2}"))
        self.assertEqual(self.mpt(*save(7, 2, "bert"), environment={"MPT_USER": "bert"}).status, 0)
        self.assertEqual((self.folder / "boards.book").read_bytes(), book([(7, 1, BENCH), (7, 2, SECOND), (7, 3, THIRD)]))


class History(Books):
    ROW = "machine %-5d  edition %-5d  %5d bytes  %s\n"

    def told(self, rows, log, who, end="", status=0, machine=None):
        """A line for each row; what the log says of each, in their order."""
        self.lay(book(rows), log)
        before = self.files()
        shown = [(row, words) for row, words in zip(rows, who) if machine in (None, row[0])]
        self.assertEqual(len(rows), len(who))
        answer = self.mpt("book", "history", "boards.book", *([] if machine is None else [machine]))
        self.assertEqual((answer.status, answer.err), (status, b""), answer)
        self.assertEqual(answer.out.decode(), "".join(
            self.ROW % (of, edition, len(body), words) for (of, edition, body), words in shown) + end)
        self.assertEqual(self.files(), before)

    LINES = [save_line(7, 1, when=WHEN % 1), save_line(0, 1, who="bert@attic", when=WHEN % 2), save_line(7, 2, when=WHEN % 3),
             save_line(65535, 1, when=WHEN % 4), save_line(7, 3, 1, when=WHEN % 5)]
    WHO = [f"{WHEN % 1}  anna@bench", f"{WHEN % 2}  bert@attic", f"{WHEN % 3}  anna@bench", f"{WHEN % 4}  anna@bench",
           f"{WHEN % 5}  anna@bench  edition 1 restored"]
    NOT = "not in the log"

    def test_spelled_out(self):
        self.lay(BOOK, "".join(self.LINES))
        self.answers(["book", "history", "boards.book"], f"""\
machine 7      edition 1         96 bytes  {WHEN % 1}  anna@bench
machine 0      edition 1         64 bytes  {WHEN % 2}  bert@attic
machine 7      edition 2         96 bytes  {WHEN % 3}  anna@bench
machine 65535  edition 1      {len(RICH):>5} bytes  {WHEN % 4}  anna@bench
machine 7      edition 3         96 bytes  {WHEN % 5}  anna@bench  edition 1 restored
""")

    def test_in_words(self):
        self.told(ROWS, "".join(self.LINES), self.WHO)
        self.told(ROWS, None, [self.NOT] * 5)
        self.told(ROWS, "", [self.NOT] * 5)

    def test_one_machine(self):
        for machine in (7, 0, 65535):
            self.told(ROWS, "".join(self.LINES), self.WHO, machine=machine)
        self.lay(BOOK)
        self.answers(["book", "history", "boards.book", "8"], "no editions of machine 8\n")
        self.answers(["book", "history", "boards.book", "0x8"], "no editions of machine 8\n")

    def test_no_editions(self):
        self.lay(EMPTY)
        self.answers(["book", "history", "boards.book"], "no editions: the book is empty\n")
        self.answers(["book", "history", "boards.book", "0"], "no editions of machine 0\n")

    def test_rows_without_a_line(self):
        """Another program saved them: the others are told of all the same."""
        for left in range(5):
            lines, who = list(self.LINES), list(self.WHO)
            lines[left], who[left] = "", self.NOT
            self.told(ROWS, "".join(lines), who)
        self.told(ROWS, self.LINES[3], [self.NOT] * 3 + [self.WHO[3], self.NOT])

    def test_never_came_about(self):
        """Such a line tells of no row, wherever it stands."""
        never = [save_line(machine, edition, never=True) for machine, edition in ((7, 1), (7, 3), (7, 4), (7, 9), (9, 1))]
        for at in range(6):
            self.told(ROWS, "".join([*self.LINES[:at], *never, *self.LINES[at:]]), self.WHO)

    def test_a_last_line_without_its_end(self):
        """It came about where the book has the edition; cut short, never."""
        text = "".join(self.LINES)
        self.told(ROWS, text[:-1], self.WHO)
        self.told(ROWS, text[:-1] + "\x00" * 9, self.WHO)
        self.told(ROWS[:-1], text[:-1], self.WHO[:-1])
        for cut in range(2, len(self.LINES[-1]), 3):
            self.told(ROWS[:-1], text[:-cut], self.WHO[:-1])

    def test_the_next_save_ends_it(self):
        first, last = save_line(7, 1), save_line(7, 2)
        one, two = [(7, 1, BENCH)], [(7, 1, BENCH), (7, 2, SECOND)]
        whole = first + last[:-1]
        for rows, log, kept in ((one, whole, whole + " never\n"), (two, whole, whole + "\n"), (one, first + last[:30], first),
                                (one, first + last[:-4] + "\x00" * 40, first)):
            self.lay(book(rows), log)
            self.saves(rows, 7, THIRD)
            self.assertTrue(self.log().startswith(kept), self.log())
            self.assertRegex(self.log()[len(kept):], rf"\A\S+Z {WHO} 7 {len(rows) + 1} 0\n\Z")

    @staticmethod
    def misfit(number, why="of no edition in it, or out of order"):
        return f"the log does not fit boards.book: line {number} is {why}\n"

    def test_an_older_book_put_back(self):
        """A line that came about, and the book has no such edition: said, and the others are told of."""
        self.told(ROWS[:4], "".join(self.LINES), self.WHO[:4], self.misfit(5), 1)
        self.told([], self.LINES[0], [], "no editions: the book is empty\n" + self.misfit(1), 1)
        self.told(ROWS[:2], "".join(self.LINES), self.WHO[:2], self.misfit(3), 1)
        # Saved again since: whoever saved it last is told.
        again = save_line(7, 3, who="carl@yard", when=WHEN % 9)
        self.told(ROWS, "".join([*self.LINES, again]), self.WHO[:4] + [f"{WHEN % 9}  carl@yard"], self.misfit(5), 1)

    def test_a_save_beside_what_does_not_fit(self):
        """It is done, with a note."""
        self.lay(BOOK, "".join(self.LINES) + save_line(7, 9))
        self.put("new.table", BENCH)
        self.answers(save(7, 3), saved(with_save(ROWS, 7, BENCH)),
                     b"mpt: note: the log does not fit the book: see 'mpt book history'\n")
        self.assertEqual(self.path.read_bytes(), book(with_save(ROWS, 7, BENCH)))

    def test_lines_out_of_order(self):
        self.told(ROWS, self.LINES[2] + self.LINES[0], [self.WHO[0]] + [self.NOT] * 4, self.misfit(1), 1)

    def test_a_garbage_line(self):
        """Shown up to it; and such a log is not written to: nothing is saved then."""
        self.put("new.table", BENCH)
        good = self.LINES[2]
        for garbage in ("\n", "garbage\n", good[:-3] + "\n", good.replace(" 7 ", " seven "), good.replace(" 7 ", " -7 "),
                        good.replace(" 7 ", " 65536 "), good.replace(" 2 0", " 65536 0"), good.replace(" 2 0", " 2 65536"),
                        good[:-1] + " more\n", good.replace("@", "."), " " + good, boards.log_line(3, BENCH[:8], BENCH[:8]),
                        "\x00" * 40 + "\n"):
            with self.subTest(repr(garbage)):
                self.told(ROWS, "".join([*self.LINES[:2], garbage, *self.LINES[3:]]), self.WHO[:2] + [self.NOT] * 3,
                          self.misfit(3, "no line of a log"), 1)
                before = self.files()
                for words in (save(7, 3), restore(7, 1, 3)):
                    said = self.wrong(words).err
                    self.assertRegex(said, rb"\Ampt: (/.*/)?boards\.book\.log: line 3 is no line of a log\n\Z")
                self.assertEqual(self.files(), before)

    def of_another_sort(self, words, told, name):
        """The file's log is not taken for its own: nothing is done, and not a byte of the log is cut off."""
        before = self.files()
        self.assertRegex(self.wrong(words).err, rb"\Ampt: (/.*/)?%s\.log: line 1 is no line of a log\n\Z" % name)
        answer = self.mpt(*told)
        self.assertEqual((answer.status, answer.out.splitlines()[-1]),
                         (1, b"the log does not fit %s: line 1 is no line of a log" % name))
        self.unchanged(before)

    def test_the_log_of_a_table(self):
        """Somebody has given a book the name of a table that was edited. A last line may lack its end, or be cut short: a save's
        second number has five digits at most."""
        self.put("new.table", BENCH)
        line = boards.log_line(3, bytes.fromhex("0300000000010201"), bytes.fromhex("0300000000010209"))
        begins = line.index(" 3 ") + 3
        for log in (line, line[:-1], line[:-1] + " never", line[:-2], line[:begins + 17], line[:begins + 16], line[:begins + 6],
                    boards.log_line(0, bytes(20), bytes(20)), boards.log_line(0, bytes(20), bytes(20))[:-1]):
            with self.subTest(log):
                self.lay(BOOK, log)
                self.of_another_sort(save(7, 3), ["book", "history", "boards.book"], b"boards.book")

    def test_the_log_of_a_book(self):
        """The other way round. Some saves have numbers that could be bytes, but no entry has one or two of them."""
        edit = ["edit", "board.table", "3", "0300000000010201", "0300000000010209"]
        for line in (save_line(7, 1), save_line(7, 2, 1), save_line(7, 10, 20), save_line(65535, 65535, 65535)):
            for log in (line, line[:-1], line[:-1] + " never", line[:-1] + " nev", line[:line.rindex(" ") + 1]):
                with self.subTest(log):
                    self.anew("board.table", BENCH)
                    self.put("board.table.log", log)
                    self.of_another_sort(edit, ["log", "board.table"], b"board.table")

    def test_a_full_book(self):
        rows = [(7, k + 1, SMALL) for k in range(455)]
        lines = [save_line(7, k + 1, when=WHEN % (k % 60)) for k in range(455)]
        self.told(rows, "".join(lines), [f"{WHEN % (k % 60)}  anna@bench" for k in range(455)])

    def test_standard_input_has_no_log(self):
        self.lay(BOOK)
        self.wrong(["book", "history", "-"], "-: No such file or directory", input=BOOK)
        self.wrong(save(7, 3, "boards.book", of="-"), "-: No such file or directory", input=BOOK)
        self.wrong(restore(7, 1, 3, of="-"), "-: No such file or directory", input=BOOK)


class Kept(Books):
    """The file's mode, owner, group and name, as an edit keeps them."""

    def save(self, name="boards.book", **others):
        self.put("new.table", BENCH)
        return self.mpt(*save(7, 3, of=name), **others)

    def test_mode(self):
        for mode in (0o600, 0o640, 0o664, 0o666, 0o755):
            if (self.folder / "boards.book").exists():
                (self.folder / "boards.book").unlink()
            self.lay(BOOK).chmod(mode)
            old = os.umask(0o077)
            try:
                self.assertEqual(self.save().status, 0)
            finally:
                os.umask(old)
            self.assertEqual(self.path.stat().st_mode & 0o7777, mode, f"{mode:o}")
            self.assertEqual((self.folder / "boards.book.log").stat().st_mode & 0o7777, mode & 0o666, f"{mode:o}")

    def test_a_symbolic_link(self):
        shelf = self.folder / "shelf"
        shelf.mkdir()
        real = shelf / "real.book"
        self.lay(BOOK).rename(real)
        self.path.symlink_to("shelf/real.book")
        self.assertEqual(self.save().status, 0)
        now = with_save(ROWS, 7, BENCH)
        self.assertEqual(real.read_bytes(), book(now))
        self.assertTrue(self.path.is_symlink())
        self.assertEqual(sorted(path.name for path in shelf.iterdir()), ["real.book", "real.book.log"])
        self.assertIn(WHO.encode(), self.mpt("book", "history", "boards.book").out)
        self.assertEqual(self.mpt(*restore(7, 1, 4)).status, 0)
        self.assertEqual(real.read_bytes(), book(with_save(now, 7, BENCH)))

    def test_links_to_nothing_and_in_a_circle(self):
        (self.folder / "nothing").symlink_to("nowhere")
        (self.folder / "circle").symlink_to("circle")
        self.put("new.table", BENCH)
        for name, why in (("nothing", "No such file or directory"), ("circle", "Too many levels of symbolic links")):
            for words in (save(7, 3, of=name), restore(7, 1, 3, of=name), ["book", "history", name]):
                self.wrong(words, f"{name}: {why}")

    def test_a_hard_link(self):
        self.lay(BOOK)
        os.link(self.path, self.folder / "other.book")
        for name in (b"boards.book", b"other.book"):
            answer = self.save(name.decode())
            self.assertEqual((answer.status, answer.out), (2, b""))
            self.assertRegex(answer.err, rb"\Ampt: (/.*/)?%s: a hard link: its other names would keep the old book\n\Z" % name)
        self.assertEqual(self.files(), {"boards.book": BOOK, "other.book": BOOK, "new.table": BENCH})
        # Who only reads it changes no name.
        self.answers(["book", "show", "other.book", "7", "1"], BENCH)

    def test_no_plain_file(self):
        self.put("new.table", BENCH)
        (self.folder / "shelf").mkdir()
        os.mkfifo(self.folder / "pipe")
        for name in ("shelf", "pipe"):
            for words in (save(7, 3, of=name), restore(7, 1, 3, of=name)):
                self.assertRegex(self.wrong(words, seconds=60).err, rb"\Ampt: (/.*/)?%s: \S" % name.encode())
        self.wrong(["book", "show", "shelf", "7", "1"], "shelf: Is a directory")
        self.assertEqual(self.files(), {"new.table": BENCH})

    def test_missing(self):
        self.lay(BOOK)
        self.put("new.table", BENCH)
        for words in (save(7, 3, of="none"), save(7, 3, "none"), restore(7, 1, 3, of="none"), ["book", "history", "none"],
                      ["book", "show", "none", "7", "1"], ["book", "diff", "none", "7", "1", "2"]):
            self.wrong(words, "none: No such file or directory")
        self.assertEqual(self.files(), {"boards.book": BOOK, "new.table": BENCH})

    def test_rights(self):
        """A book or a folder that may not be written: nothing is done, and reading goes on."""
        other = self.other_user()
        self.lay(BOOK)
        self.put("new.table", BENCH)
        for path in (self.folder, self.path):
            if other:
                os.chown(path, harness.OTHER_USER, harness.OTHER_USER)
        before = self.files()
        for path, mode in ((self.path, 0o444), (self.folder, 0o555)):
            kept = path.stat().st_mode
            path.chmod(mode)
            for words in (save(7, 3), restore(7, 1, 3)):
                self.assertRegex(self.wrong(words, **other).err, rb"Permission denied\n\Z")
            self.answers(["book", "show", "boards.book", "7", "1"], BENCH, **other)
            self.assertEqual(self.mpt("book", "history", "boards.book", **other).status, 0)
            path.chmod(kept)
            self.assertEqual(self.files(), before)

    def test_a_book_of_somebody_else(self):
        """Of root, and writable for a group of the one who saves: the group stays, and that the owner does not is said."""
        other = self.other_user()
        if not other:
            self.skipTest("only root has another user's file")
        self.folder.chmod(0o777)
        for group, done in ((0, False), (harness.OTHER_USER, True), (12345, True)):
            if (self.folder / "boards.book").exists():
                (self.folder / "boards.book").unlink()
            self.lay(BOOK)
            os.chown(self.path, 0, group)
            self.path.chmod(0o664 if done else 0o666)
            answer = self.save(group=12345, **other)
            now = self.path.stat()
            self.assertEqual((answer.status, now.st_gid), (0 if done else 2, group), answer)
            self.assertEqual(self.path.read_bytes(), book(with_save(ROWS, 7, BENCH)) if done else BOOK)
            self.assertTrue(not done or answer.err.startswith(b"mpt: note: "))

    def test_an_old_new_file_is_cleared(self):
        for content in (b"", b"x" * 50000):
            self.lay(BOOK)
            self.put("boards.book.mpt-new", content).chmod(0o400)
            self.assertEqual(self.save().status, 0)
            self.assertEqual(self.path.read_bytes(), book(with_save(ROWS, 7, BENCH)))
            self.assertEqual(sorted(self.files()), ["boards.book", "boards.book.log", "new.table"])

    def test_a_log_that_is_a_link(self):
        self.lay(BOOK)
        other = self.put("precious", b"")
        (self.folder / "boards.book.log").symlink_to("precious")
        self.assertEqual(self.save().status, 2)
        self.assertEqual((other.read_bytes(), self.path.read_bytes()), (b"", BOOK))

    def test_a_huge_file(self):
        """Behind a book there may be much, up to 64 MiB in all."""
        self.lay(BOOK)
        os.truncate(self.path, 64 << 20)
        self.answers(["book", "show", "boards.book", "7", "1"], BENCH)
        os.truncate(self.path, (64 << 20) + 1)
        self.assertEqual(self.save().status, 2)
        self.wrong(["book", "show", "boards.book", "7", "1"], "boards.book: more than 64 MiB")
        self.assertEqual(self.path.stat().st_size, (64 << 20) + 1)

    def test_no_save_makes_a_file_too_long(self):
        """One that no verb would read again: said, and nothing is written. One byte less behind the book, and it is done."""
        now = with_save(ROWS, 7, BENCH)
        most = (64 << 20) - (len(book(now)) - len(BOOK))
        self.put("new.table", BENCH)
        for length in (64 << 20, most + 1):
            os.truncate(self.lay(BOOK), length)
            before = self.files()
            for words in (save(7, 3), restore(7, 1, 3)):
                self.assertRegex(self.wrong(words).err, rb"\Ampt: (/.*/)?boards\.book: more than 64 MiB\n\Z")
            self.unchanged(before)
        os.truncate(self.path, most)
        self.answers(save(7, 3), saved(now))
        self.assertEqual(self.path.stat().st_size, 64 << 20)
        self.answers(["book", "show", "boards.book", "7", "4"], BENCH)


if __name__ == "__main__":
    harness.main("what is told at 28, logs of books, and files kept as they were")
