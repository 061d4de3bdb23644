"""Files that are not there, cannot be read or written, are no files, have no bytes, or have megabytes of them.

    python3 -B command/tests/inputs.py COMMAND
"""
import os
import subprocess
import threading

import boards
import chapter5
import harness
from boards import BENCH

STATED, WANTED = "0300000000010201", "0300000000010209"
MEGABYTES = 64 * 1024 * 1024


def readers(name):
    """Each verb that reads a file, with a file of this name."""
    return [["list", name], ["judge", name], ["judge", "--table", name], ["judge", "--dump", name], ["table", name], ["entries", name],
            ["routes", name, "INT", "0", "1"], ["slots", name], ["slot", name, "0", "4", "A"], ["renumber", name],
            ["sees", name, "0", "io", "100"], ["parts", name], ["make", name], ["dump", "--memory", name],
            ["dump", "--region", f"rom:F0000:{name}"], ["book", "show", name, "7", "1"], ["book", "diff", name, "7", "1", "2"],
            ["book", "save", "boards.book", "7", "--began", "0", name], *chapter5.asked(name, "0")]


def writers(name):
    return [["edit", name, "3", STATED, WANTED], ["edit", name, "3", STATED, "--set", "input=9"]]


class NoFile(harness.Case):
    def test_missing(self):
        for words in readers("board.file") + writers("board.file") + [["log", "board.file"], ["book", "history", "board.file"]]:
            with self.subTest(words):
                self.wrong(words, "board.file: No such file or directory")
        self.put("board.table", BENCH)
        self.wrong(["log", "--check", "board.file", "board.table"], "board.file: No such file or directory")
        self.wrong(["list", "no/folder"], "no/folder: No such file or directory")
        self.wrong(["list", "board.table/x"], "board.table/x: Not a directory")
        self.wrong(["list", ""])

    def test_a_folder(self):
        (self.folder / "shelf").mkdir()
        for words in readers("shelf"):
            with self.subTest(words):
                self.wrong(words, "shelf: Is a directory")
        for words in writers("shelf") + [["log", "shelf"], ["book", "history", "shelf"]]:
            with self.subTest(words):
                self.assertRegex(self.wrong(words).err, rb"\Ampt: (/.*/)?shelf: \S")
        self.assertEqual(list((self.folder / "shelf").iterdir()), [])
        self.assertEqual([path.name for path in self.folder.iterdir()], ["shelf"])

    def test_standard_input_that_cannot_be_read(self):
        """A folder as standard input, and none at all."""
        folder = os.open(self.folder, os.O_RDONLY)
        self.addCleanup(os.close, folder)
        for words in readers("-"):
            with self.subTest(words):
                if words[0] == "dump" and words[1] == "--region":
                    continue  # the file is the rest of a word
                self.wrong(words, stdin=folder)
                self.wrong(words, stdin=None, preexec_fn=lambda: os.close(0))


class Permissions(harness.Case):
    """As a user for whom they hold."""

    def setUp(self):
        super().setUp()
        self.other = self.other_user()
        self.path = self.put("board.table", BENCH)
        if self.other:
            os.chown(self.path, harness.OTHER_USER, harness.OTHER_USER)
            os.chown(self.folder, harness.OTHER_USER, harness.OTHER_USER)

    def same(self):
        self.assertEqual(self.files(), {"board.table": BENCH})

    def test_unreadable(self):
        self.path.chmod(0o200)
        for words in readers("board.table"):
            with self.subTest(words):
                self.wrong(words, "board.table: Permission denied", **self.other)
        for words in writers("board.table"):
            with self.subTest(words):
                self.assertRegex(self.wrong(words, **self.other).err, rb"\Ampt: (/.*/)?board.table: Permission denied\n\Z")
        self.path.chmod(0o600)
        self.same()

    def test_read_only(self):
        """Whoever may not write the file may not edit it, even where the folder would let him put another in its stead."""
        self.path.chmod(0o444)
        for words in writers("board.table"):
            with self.subTest(words):
                self.assertRegex(self.wrong(words, **self.other).err, rb"\Ampt: (/.*/)?board.table: Permission denied\n\Z")
        self.answers(["judge", "board.table"], "accepted: a table of 96 bytes\n", **self.other)
        self.same()

    def test_a_read_only_folder(self):
        """No new file can be made there: nothing is done."""
        self.folder.chmod(0o555)
        for words in writers("board.table"):
            with self.subTest(words):
                self.assertRegex(self.wrong(words, **self.other).err, rb"Permission denied\n\Z")
        self.same()
        # With a log that is there and can be written it is no better, and the log stays as it was.
        self.folder.chmod(0o755)
        log = self.put("board.table.log", b"2026-11-16T05:06:34Z anna@bench 3 0300000000010209 0300000000010201\n")
        log.chmod(0o666)
        before = self.files()
        self.folder.chmod(0o555)
        for words in writers("board.table"):
            self.wrong(words, **self.other)
        self.folder.chmod(0o755)
        self.assertEqual(self.files(), before)

    def test_a_log_that_cannot_be_written(self):
        log = self.put("board.table.log", b"")
        log.chmod(0o444)
        if self.other:
            os.chown(log, harness.OTHER_USER, harness.OTHER_USER)
        for words in writers("board.table"):
            self.assertRegex(self.wrong(words, **self.other).err, rb"board.table.log: Permission denied\n\Z")
        self.assertEqual(self.files(), {"board.table": BENCH, "board.table.log": b""})

    def test_a_log_that_cannot_be_read(self):
        """Then it does not tell who changed what stands there."""
        log = self.put("board.table.log", b"2026-11-16T05:06:34Z anna@bench 3 0300000000010209 0300000000010201\n")
        log.chmod(0o200)
        if self.other:
            os.chown(log, harness.OTHER_USER, harness.OTHER_USER)
        self.refuses(["edit", "board.table", "3", WANTED, STATED], 22, more=(
            b"entry 3 is  0300000000010201  int INT 0 1 0 0 2 1\nthe log cannot be read: Permission denied\n"), **self.other)
        self.assertRegex(self.wrong(["log", "board.table"], **self.other).err, rb"board.table.log: Permission denied\n\Z")

    def test_a_folder_that_cannot_be_entered(self):
        self.folder.chmod(0o600)
        outside = {**self.other, "cwd": "/"}
        self.wrong(["list", self.path], f"{self.path}: Permission denied", **outside)
        self.assertRegex(self.wrong(["edit", self.path, "3", STATED, WANTED], **outside).err, rb"Permission denied\n\Z")


class NoPlainFile(harness.Case):
    def test_a_log_that_is_no_file(self):
        path = self.put("board.table", BENCH)
        (self.folder / "board.table.log").mkdir()
        self.wrong(["edit", "board.table", "3", STATED, WANTED])
        self.wrong(["log", "board.table"])
        self.assertEqual(path.read_bytes(), BENCH)
        self.assertEqual(list(self.files()), ["board.table"])

    def test_dev_null(self):
        """It reads as no bytes."""
        for words, number in ((["list"], 1), (["judge"], 1), (["judge", "--table"], 5), (["table"], 1), (["entries"], 5), (["slots"], 5),
                              (["renumber"], 5), (["parts"], 5)):
            self.refuses([*words, "/dev/null"], number)
            self.refuses([*words, "-"], number)
        self.refuses(["routes", "/dev/null", "INT", "0", "1"], 5)
        self.refuses(["slot", "/dev/null", "0", "4", "A"], 5)
        self.refuses(["sees", "/dev/null", "0", "io", "100"], 5)
        self.refuses(["dump", "--memory", "/dev/null"], 2)
        for words in chapter5.asked("/dev/null", "0"):
            self.refuses(words, 1)

    def test_an_edit_of_dev_null(self):
        """By a user who could not put anything in its place."""
        other = self.other_user()
        for words in writers("/dev/null"):
            self.assertRegex(self.wrong(words, **other).err, rb"\Ampt: /dev/null: \S")
        self.assertFalse(os.path.exists("/dev/null.log"))

    def test_a_pipe_with_a_name(self):
        """Read like any other file; and an edit does not wait for somebody to write to it."""
        pipe = self.folder / "board.pipe"
        os.mkfifo(pipe)
        for words in writers("board.pipe"):
            self.assertRegex(self.wrong(words, seconds=60).err, rb"\Ampt: (/.*/)?board.pipe: \S")
        dump = boards.rom(boards.pointer(0xF0010), BENCH)
        listing = boards.listing(BENCH, 0xF0000, 0xF0010)
        for words, content, wanted in ((["list", "board.pipe"], dump, listing), (["judge", "board.pipe"], BENCH, b"accepted: a table of 96 bytes\n"),
                                       (["table", "board.pipe"], dump, BENCH)):
            writer = threading.Thread(target=pipe.write_bytes, args=[content])
            writer.start()
            self.answers(words, wanted, seconds=60)
            writer.join()

    def test_standard_input_in_pieces(self):
        """A pipe gives what is there, and that may be seven bytes."""
        dump = next(shelved for shelved in boards.accepted() if shelved.name == "made-longest")
        for words, content, wanted in ((["list", "-"], dump.dump, dump.text), (["table", "-"], dump.dump, dump.table)):
            process = harness.start(harness.words_to_start(words), cwd=self.folder, stdin=subprocess.PIPE)

            def feed(process=process, content=content):
                for at in range(0, len(content), 1777):
                    process.stdin.write(content[at:at + 1777])
                    process.stdin.flush()
                process.stdin.close()

            feeder = threading.Thread(target=feed)
            feeder.start()
            out = process.stdout.read()
            feeder.join()
            self.assertEqual((process.wait(), out, process.stderr.read()), (0, wanted, b""))
            process.stdout.close()
            process.stderr.close()


class Sizes(harness.Case):
    def test_no_bytes(self):
        self.put("empty", b"")
        for words, number in ((["list"], 1), (["judge"], 1), (["judge", "--dump"], 1), (["judge", "--table"], 5), (["table"], 1),
                              (["entries"], 5), (["slots"], 5), (["renumber"], 5), (["parts"], 5)):
            self.refuses([*words, "empty"], number)
        self.refuses(["routes", "empty", "INT", "0", "1"], 5)
        self.refuses(["slot", "empty", "0", "4", "A"], 5)
        self.refuses(["sees", "empty", "0", "io", "100"], 5)
        self.refuses(["edit", "empty", "3", STATED, WANTED], 5)
        self.wrong(["make", "empty"])
        self.refuses(["dump", "--memory", "empty"], 2)
        self.assertEqual(list(self.files()), ["empty"])

    def sparse(self, name, begin, length):
        path = self.put(name, begin)
        os.truncate(path, length)
        return path

    def test_dumps(self):
        """Of a dump one byte more is read than it may have: one of megabytes is refused 1 like one of 65,537 bytes."""
        longest = next(shelved for shelved in boards.shelf() if shelved.name == "made-65536")
        for length in (65537, 65538, 1 << 20, MEGABYTES, MEGABYTES + 1, 1 << 33):
            self.sparse("board.dump", longest.dump, length)
            for words in (["list"], ["judge"], ["judge", "--dump"], ["table"], ["list", "--boot", "0"], ["entries", "--boot", "0"]):
                with self.subTest(words, length=length):
                    self.refuses([*words, "board.dump"], 1)

    def test_tables(self):
        """Other files may have 64 MiB and not a byte more. Zeros take no place on the disk, nor much time."""
        for length in (1 << 20, MEGABYTES):
            self.sparse("board.table", BENCH, length)
            self.assertRegex(self.mpt("judge", "board.table").out, rb"\Aaccepted: a table of 96 bytes\b")
            self.answers(["routes", "--io", "board.table", "INT", "0", "1"], "ioapic 2 input 1\n")
        path = self.sparse("board.table", BENCH, MEGABYTES + 1)
        for words in (["entries"], ["slots"], ["renumber"], ["parts"], ["make"], ["dump", "--memory"]):
            with self.subTest(words):
                self.assertRegex(self.wrong([*words, "board.table"]).err, rb"\Ampt: board.table: \S")
        # judge needs no more than the beginning of a file to tell (DECISIONS 117).
        self.answers(["judge", "board.table"], "accepted: a table of 96 bytes\n")
        for words in writers("board.table"):
            self.assertRegex(self.wrong(words).err, rb"\Ampt: (/.*/)?board.table: \S")
        self.assertEqual(path.stat().st_size, MEGABYTES + 1)
        self.assertEqual([path.name for path in self.folder.iterdir()], ["board.table"])

    def test_an_edit_of_megabytes(self):
        """All of the file is kept, also what lies behind the table."""
        t = BENCH + bytes(range(256)) * 8192
        self.put("board.table", t)
        self.answers(["edit", "board.table", "3", STATED, WANTED],
                     "entry 3 was 0300000000010201  int INT 0 1 0 0 2 1\nentry 3 is  0300000000010209  int INT 0 1 0 0 2 9\n")
        self.assertEqual((self.folder / "board.table").read_bytes(), boards.edited(t, 3, bytes.fromhex(WANTED)))

    def test_long_texts(self):
        """A megabyte of comments before, between and behind the lines of a text."""
        text = self.mpt("parts", "-", input=BENCH).out.decode()
        comment = "# " + "x" * 998 + "\n"
        many = "\n".join([comment * 300 + text.replace("\n", "\n" + comment * 20) + comment * 300])
        self.put("board.txt", many)
        self.answers(["make", "board.txt"], BENCH)
        self.put("board.txt", "#" + "x" * 3000000 + "\n" + text)
        self.answers(["make", "board.txt"], BENCH)


if __name__ == "__main__":
    harness.main("missing, unreadable, odd, empty and huge files")
