"""Where an answer goes: -o, a standard output that is full or closed, and a terminal.

    python3 -B command/tests/outputs.py COMMAND
"""
import os
import pty
import threading

import boards
import chapter5
import harness
import rows
from boards import BENCH

STATED, WANTED = "0300000000010201", "0300000000010209"
BODY = boards.pointer(0xF0010) + BENCH
DUMP = boards.rom(BODY)
DEFAULT = boards.rom(boards.pointer(0, 5))
BEHIND = b"\0behind"


class NewFiles(harness.Case):
    def setUp(self):
        super().setUp()
        self.put("board.dump", DUMP)
        self.put("default.dump", DEFAULT)
        self.put("board.body", BODY)
        self.put("board.table", BENCH)
        self.text = self.mpt("parts", "board.table").out
        self.put("board.txt", self.text)
        self.put("boards.book", rows.BOOK)
        self.put("board.image", bytes(0xF0000) + BODY + bytes(0x10000 - len(BODY)))

    def makers(self):
        """The verbs that take -o, and the bytes that they give without it."""
        lines = [["table", "board.dump"], ["parts", "board.table"], ["make", "board.txt"], ["dump", "--memory", "board.image"],
                 ["dump", "--region", "rom:F0000:board.body"], ["book", "show", "boards.book", "7", "1"],
                 ["table", "--boot", "0", "default.dump"], ["parts", "--boot", "1", "default.dump"]]
        return [(words, self.mpt(*words).out) for words in lines]

    def test_the_same_bytes(self):
        for words, wanted in self.makers():
            with self.subTest(words):
                self.assertGreater(len(wanted), 90)
                self.answers([*words, "-o", "new"], f"new: {len(wanted)} bytes\n")
                self.assertEqual((self.folder / "new").read_bytes(), wanted)
                (self.folder / "new").unlink()

    def test_never_over_a_file(self):
        """Not over any file, of no bytes either, over a folder, or through a link, be it one to nothing."""
        self.put("mine", b"mine")
        self.put("empty", b"")
        (self.folder / "shelf").mkdir()
        (self.folder / "link").symlink_to("nothing")
        (self.folder / "link2").symlink_to("mine")
        before = self.files()
        for words, _ in self.makers():
            for name in ("mine", "empty", "shelf", "link", "link2", "board.dump", "board.table"):
                with self.subTest([*words, name]):
                    self.wrong([*words, "-o", name], f"{name}: File exists")
        self.unchanged(before)
        self.assertEqual(list((self.folder / "shelf").iterdir()), [])
        self.assertEqual(os.readlink(self.folder / "link"), "nothing")

    def test_where_no_file_can_be(self):
        for words, _ in self.makers():
            self.wrong([*words, "-o", "nowhere/new"], "nowhere/new: No such file or directory")
            self.wrong([*words, "-o", "board.table/new"], "board.table/new: Not a directory")
            self.wrong([*words, "-o", ""])
            self.wrong([*words, "-o", "n" * 300], f"{'n' * 300}: File name too long")
        other = self.other_user()
        self.folder.chmod(0o555)
        for words, _ in self.makers():
            self.wrong([*words, "-o", "new"], "new: Permission denied", **other)
        self.folder.chmod(0o755)
        self.assertEqual(sorted(self.files()),
                         ["board.body", "board.dump", "board.image", "board.table", "board.txt", "boards.book", "default.dump"])

    def test_the_mask_decides_the_mode(self):
        old = os.umask(0o027)
        try:
            self.mpt("table", "board.dump", "-o", "new")
        finally:
            os.umask(old)
        self.assertEqual((self.folder / "new").stat().st_mode & 0o7777, 0o640)


class FullOrClosed(harness.Case):
    """An answer that cannot be given is a failure: exit 2."""

    LINES = [["list", "board.dump"], ["list", "bad.dump"], ["judge", "board.table"], ["table", "board.dump"], ["entries", "board.table"],
             ["routes", "board.table", "INT", "0", "1"], ["slots", "board.table"], ["slot", "board.table", "0", "4", "A"],
             ["renumber", "board.table"], ["sees", "board.table", "0", "io", "100"], ["parts", "board.table"],
             ["dump", "--memory", "board.image"], ["log", "board.table"], ["--help"], ["list", "--help"], ["--version"],
             ["book", "history", "boards.book"], ["book", "show", "boards.book", "7", "1"],
             ["book", "show", "boards.book", "7", "9"], ["book", "diff", "boards.book", "7", "1", "2"],
             rows.save(7, 1, "board.table"), ["book", "--help"], ["book", "save", "--help"], ["table", "default.dump"],
             ["entries", "default.dump"], *chapter5.asked("default.dump", "0"), ["list", "--boot", "2", "default.dump"]]

    def setUp(self):
        super().setUp()
        self.put("board.dump", DUMP)
        self.put("default.dump", DEFAULT)
        self.put("bad.dump", b"\x09")
        self.put("board.table", BENCH)
        self.put("boards.book", rows.BOOK)
        self.put("board.image", bytes(0xF0000) + BODY + bytes(0x10000 - len(BODY)))

    def test_full(self):
        for words in self.LINES:
            with self.subTest(words), open("/dev/full", "wb") as full:
                answer = self.mpt(*words, stdout=full)
                self.assertEqual(answer.status, 2, answer)
                self.assertRegex(answer.err, rb"\Ampt: .*No space left on device\n\Z")

    def test_closed(self):
        for words in self.LINES:
            with self.subTest(words):
                answer = self.mpt(*words, stdout=None, preexec_fn=lambda: os.close(1))
                self.assertEqual(answer.status, 2, answer)
                self.assertRegex(answer.err, rb"\Ampt: .*Bad file descriptor\n\Z")

    def test_an_edit_that_cannot_say_so(self):
        """It is done, and the exit tells that something failed behind it. No file that it opens takes the place of what is
        closed: nothing but the log's line stands in the log."""
        wanted = boards.edited(BENCH, 3, bytes.fromhex(WANTED))
        for closed in ((), (0,), (1,), (2,), (0, 1, 2)):
            self.anew("board.table", BENCH)
            with self.subTest(closed=closed), open("/dev/full", "wb") as full:
                def close():
                    for number in closed:
                        os.close(number)
                answer = harness.finish(harness.start(
                    harness.words_to_start(["edit", "board.table", "3", STATED, WANTED]), cwd=self.folder, stdout=full, preexec_fn=close))
                self.assertEqual(answer.status, 2)
                if 2 not in closed:
                    self.assertRegex(answer.err, rb"\Ampt: .*board\.table: changed, but standard output failed: \S.*\n\Z")
                self.assertEqual((self.folder / "board.table").read_bytes(), wanted)
                self.assertRegex((self.folder / "board.table.log").read_bytes(), rb"\A[^\n]* 3 %s %s\n\Z" % (STATED.encode(), WANTED.encode()))
                self.assertEqual(self.mpt("log", "board.table").status, 0)

    def test_a_save_that_cannot_say_so(self):
        """So it is with a save and a restore."""
        for words, body in ((rows.save(7, 3, "board.table"), BENCH), (rows.restore(7, 2, 3), rows.SECOND)):
            self.anew("boards.book", rows.BOOK)
            with self.subTest(words), open("/dev/full", "wb") as full:
                answer = self.mpt(*words, stdout=full)
                self.assertEqual(answer.status, 2)
                self.assertRegex(answer.err, rb"\Ampt: .*boards\.book: changed, but standard output failed: \S.*\n\Z")
                self.assertEqual((self.folder / "boards.book").read_bytes(), boards.book(boards.with_save(rows.ROWS, 7, body)))
                self.assertEqual((self.folder / "boards.book.log").read_bytes().count(b"\n"), 1)

    def test_new_files_with_a_full_output(self):
        """The file is whole, or it is not there."""
        with open("/dev/full", "wb") as full:
            self.assertEqual(self.mpt("table", "board.dump", "-o", "new", stdout=full).status, 2)
        self.assertIn(self.files().get("new"), (None, BENCH))
        for number in (0, 1, 2):
            (self.folder / "new").unlink(missing_ok=True)
            harness.finish(harness.start(harness.words_to_start(["table", "board.dump", "-o", "new"]), cwd=self.folder,
                                         preexec_fn=lambda number=number: os.close(number)))
            self.assertIn(self.files().get("new"), (None, BENCH))

    def test_nobody_reads(self):
        """The reader of a pipe went away: no hang, and nothing but the system's own end or exit 2."""
        listing = boards.ROOT / "shelf/made-longest.dump"
        reading, writing = os.pipe()
        os.close(reading)
        process = harness.start(harness.words_to_start(["list", listing]), stdout=writing, cwd=self.folder)
        os.close(writing)
        self.assertIn(harness.finish(process).status, (2, -13))


class Terminal(harness.Case):
    def shown(self, *words):
        """The exit, what a terminal gets, and the rest of the answer. This end of the terminal stays open, and a mark is
        written behind the answer: when the last writer closes it, what was not yet read may be lost."""
        ours, theirs = pty.openpty()
        got = bytearray()

        def read():
            while not got.endswith(BEHIND):
                got.extend(os.read(ours, 4096))

        try:
            reader = threading.Thread(target=read, daemon=True)
            reader.start()
            answer = harness.finish(harness.start(harness.words_to_start(words), cwd=self.folder, environment={"TERM": "xterm"}, stdout=theirs))
            os.write(theirs, BEHIND)
            reader.join(harness.PATIENCE)
            self.assertTrue(got.endswith(BEHIND), got)
        finally:
            os.close(theirs)
            os.close(ours)
        return answer.status, bytes(got[:-len(BEHIND)]).replace(b"\r\n", b"\n"), answer

    def setUp(self):
        super().setUp()
        self.put("board.dump", DUMP)
        self.put("default.dump", DEFAULT)
        self.put("bad.dump", b"\x09")
        self.put("board.table", BENCH)

    def test_as_elsewhere(self):
        """A terminal gets the text that a pipe gets: no colours, nothing more."""
        for words in (["judge", "board.table"], ["list", "bad.dump"], ["list", "board.dump"], ["entries", "board.table"], ["parts", "board.table"],
                      ["list", "default.dump"], ["list", "--boot", "0", "default.dump"]):
            status, shown = self.shown(*words)[:2]
            elsewhere = self.mpt(*words)
            self.assertEqual((status, shown), (elsewhere.status, elsewhere.out))

    def test_bytes_are_not_shown(self):
        """A table and a dump are no text: to a terminal they are not written."""
        self.put("board.txt", self.mpt("parts", "board.table").out)
        self.put("board.body", BODY)
        self.put("boards.book", rows.BOOK)
        for words in (["table", "board.dump"], ["table", "--boot", "0", "default.dump"], ["make", "board.txt"],
                      ["dump", "--region", "rom:F0000:board.body"], ["book", "show", "boards.book", "7", "1"]):
            with self.subTest(words):
                status, shown, answer = self.shown(*words)
                self.assertEqual((status, shown), (2, b""))
                self.assertRegex(answer.err, rb"\Ampt: \S")
                # With -o they have a file, and the terminal gets the line about it.
                status, shown, _ = self.shown(*words, "-o", "new")
                self.assertEqual((status, shown), (0, b"new: %d bytes\n" % (self.folder / "new").stat().st_size))
                (self.folder / "new").unlink()


if __name__ == "__main__":
    harness.main("-o, full and closed outputs, terminals")
