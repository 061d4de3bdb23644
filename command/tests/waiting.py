"""Waiting: while another holds the lock, an edit or a save waits, and then goes on with the file that is there by then.

    python3 -B command/tests/waiting.py COMMAND

The lock is the plan's: a POSIX record lock on one byte at 1 GiB of the file's log. This test holds it itself.
"""
import fcntl
import itertools
import os
import re
import signal
import time
from pathlib import Path

import boards
import harness
import preload
import rows
from boards import BENCH, RICH, base_entries, book, edited, line_of, put, save_line, with_save
from rows import BOOK, ROWS

LOCK_AT = 1 << 30
STATED, WANTED = bytes.fromhex("0300000000010201"), bytes.fromhex("0300000000010209")
DONE = (f"entry 3 was {STATED.hex().upper()}  {line_of(STATED)}\nentry 3 is  {WANTED.hex().upper()}  {line_of(WANTED)}\n").encode()
WORDS = ["edit", "board.table", "3", STATED.hex(), WANTED.hex()]


def full_pipe():
    reading, writing = os.pipe()
    os.set_blocking(writing, False)
    try:
        while True:
            os.write(writing, bytes(4096))
    except BlockingIOError:
        os.set_blocking(writing, True)
    return reading, writing


def read_out(reading):
    while os.read(reading, 65536):
        pass
    os.close(reading)


def state(pid):
    """S: asleep, T: stopped."""
    return Path(f"/proc/{pid}/stat").read_text().rpartition(")")[2].split()[0]


class Held(harness.Case):
    """The lock of a file, held by this test."""

    def hold(self, path, log=b""):
        self.path, self.log = path, self.put(f"{path.name}.log", log)
        self.held = os.open(self.log, os.O_RDWR)
        self.addCleanup(os.close, self.held)
        self.take()

    def take(self):
        fcntl.lockf(self.held, fcntl.LOCK_EX, 1, LOCK_AT)

    def free(self):
        fcntl.lockf(self.held, fcntl.LOCK_UN, 1, LOCK_AT)

    def write_log(self, content):
        """By the file that holds the lock: to close another one of the same log would free it."""
        os.ftruncate(self.held, 0)
        os.pwrite(self.held, content.encode(), 0)

    def waiter(self, words):
        """A change that waits for the lock: started, and its log opened; the system's list of locks shows it, or a second
        has passed."""
        process = harness.start(harness.words_to_start(words), cwd=self.folder)
        until = time.monotonic() + harness.PATIENCE
        while not self.has_log(process.pid):
            self.assertIsNone(process.poll(), "it did not wait")
            self.assertLess(time.monotonic(), until, "it never opened the log")
            time.sleep(0.002)
        until = time.monotonic() + 1
        while time.monotonic() < until and not self.is_blocked(process.pid):
            time.sleep(0.002)
        self.assertIsNone(process.poll(), "it did not wait")
        return process

    def has_log(self, pid):
        try:
            return any(os.readlink(link) == str(self.log.resolve()) for link in Path(f"/proc/{pid}/fd").iterdir())
        except OSError:  # a file that was closed meanwhile
            return False

    @staticmethod
    def is_blocked(pid):
        return any("->" in text and f" {pid} " in text for text in Path("/proc/locks").read_text().splitlines())

    def is_free(self):
        try:
            fcntl.lockf(self.held, fcntl.LOCK_EX | fcntl.LOCK_NB, 1, LOCK_AT)
        except OSError:
            return False
        self.free()
        return True

    def holds_nobody_off(self, words, status):
        """Not a byte of its answer gets out, so it sleeps in the end; and yet the lock is free."""
        reading, writing = full_pipe()
        process = harness.start(harness.words_to_start(words), cwd=self.folder, stdout=writing)
        os.close(writing)
        until = time.monotonic() + 60
        while not (state(process.pid) == "S" and self.is_free()):
            self.assertLess(time.monotonic(), until, f"it holds the lock: {words}")
            time.sleep(0.002)
        self.assertIsNone(process.poll(), "its answer went into the pipe")
        read_out(reading)
        self.assertEqual(harness.finish(process).status, status)

    def replace(self, content):
        """Another file in the place of this one, as the command does it: by a rename."""
        self.put("other", content).rename(self.path)


class Waiting(Held):
    def setUp(self):
        super().setUp()
        self.hold(self.put("board.table", BENCH))

    def waiter(self, words=WORDS):
        return super().waiter(words)

    def test_the_table_stays(self):
        process = self.waiter()
        self.assertEqual((self.path.read_bytes(), os.fstat(self.held).st_size), (BENCH, 0))
        self.assertEqual({path.name for path in self.folder.iterdir()}, {"board.table", "board.table.log"})
        self.assertIsNone(process.poll(), "it did not wait")
        self.free()
        self.assertEqual(harness.finish(process), (0, DONE, b""))
        self.assertEqual(self.path.read_bytes(), edited(BENCH, 3, WANTED))

    def test_another_entry_changed(self):
        """What was stated still stands there: accepted, and the other's change stays."""
        process = self.waiter()
        other = edited(BENCH, 4, put(boards.BENCH_ENTRIES[4], 7, 1))
        self.replace(other)
        self.free()
        self.assertEqual(harness.finish(process), (0, DONE, b""))
        self.assertEqual(self.path.read_bytes(), edited(other, 3, WANTED))
        self.assertEqual(len(self.log.read_text().splitlines()), 1)

    def test_this_entry_changed(self):
        """Refused, as other bytes stand there now."""
        process = self.waiter()
        standing = put(STATED, 7, 5)
        other = edited(BENCH, 3, standing)
        self.replace(other)
        self.free()
        answer = harness.finish(process)
        self.assertEqual((answer.status, answer.err), (1, b""))
        self.assertEqual(answer.out.decode().splitlines()[:2], [
            "refused 22: other bytes stand there now", f"entry 3 is  {standing.hex().upper()}  {line_of(standing)}"])
        self.assertEqual(self.files(), {"board.table": other, "board.table.log": b""})

    def test_a_longer_table(self):
        """Another table with bytes behind it: all of it is kept."""
        process = self.waiter()
        other = BENCH + bytes(range(256)) * 20
        self.replace(other)
        self.free()
        self.assertEqual(harness.finish(process).status, 0)
        self.assertEqual(self.path.read_bytes(), edited(other, 3, WANTED))

    def test_no_table_any_more(self):
        """A table that is none, one that is a hard link, and none at all: said, and nothing is done."""
        for content, status in ((put(BENCH, 95, 1), 1), (b"", 1), (BENCH[:50], 1)):
            self.replace(BENCH)
            process = self.waiter()
            self.replace(content)
            self.free()
            answer = harness.finish(process)
            self.assertEqual((answer.status, answer.err), (status, b""), answer)
            self.assertEqual(self.files(), {"board.table": content, "board.table.log": b""})
            self.take()
        self.replace(BENCH)
        process = self.waiter()
        os.link(self.path, self.folder / "second")
        self.free()
        self.assertEqual(harness.finish(process).status, 2)
        (self.folder / "second").unlink()
        self.take()
        process = self.waiter()
        self.path.unlink()
        self.free()
        answer = harness.finish(process)
        self.assertEqual(answer.status, 2, answer)
        self.assertRegex(answer.err, rb"No such file or directory\n\Z")
        self.assertEqual(self.files(), {"board.table.log": b""})

    def test_no_table_and_a_log_that_is_too_long(self):
        """A refusal that names nobody asks nothing of the log."""
        os.ftruncate(self.held, (64 << 20) + 1)
        process = self.waiter()
        self.replace(BENCH[:-1])
        self.free()
        answer = harness.finish(process)
        self.assertEqual((answer.status, answer.err), (1, b""), answer)
        self.assertRegex(answer.out, rb"\Arefused 7: [^\n]+\n\Z")

    def test_the_mode_of_that_table(self):
        """Mode and owner are those of the table that is there by then."""
        process = self.waiter()
        self.put("other", BENCH).chmod(0o640)
        (self.folder / "other").rename(self.path)
        self.free()
        self.assertEqual(harness.finish(process).status, 0)
        self.assertEqual(self.path.stat().st_mode & 0o7777, 0o640)

    def test_several(self):
        """Four wait for the same bytes: one is done, and the others are refused."""
        waiting = [self.waiter() for _ in range(4)]
        self.free()
        answers = [harness.finish(process) for process in waiting]
        self.assertEqual(sorted(answer.status for answer in answers), [0, 1, 1, 1])
        self.assertEqual(self.path.read_bytes(), edited(BENCH, 3, WANTED))
        self.assertEqual(len(self.log.read_text().splitlines()), 1)

    def test_a_refusal_does_not_wait(self):
        """It is tried first with no lock: what is refused then is answered at once, but 22, which says who changed it.
        And reading asks for no lock."""
        self.refuses(["edit", "board.table", "5", STATED.hex(), WANTED.hex()], 20, seconds=60)
        self.refuses(["edit", "board.table", "3", STATED.hex(), "00"], 21, seconds=60)
        self.answers(["judge", "board.table"], "accepted: a table of 96 bytes\n", seconds=60)
        for words in (["entries", "board.table"], ["parts", "board.table"], ["routes", "board.table", "INT", "0", "1"]):
            self.assertEqual(self.mpt(*words, seconds=60).status, 0)

    def test_22_waits_for_the_log(self):
        """Other bytes stand there: it waits, and then what is there by then decides. Here they were changed back."""
        self.replace(edited(BENCH, 3, put(STATED, 7, 5)))
        process = self.waiter()
        self.replace(BENCH)
        self.free()
        self.assertEqual(harness.finish(process), (0, DONE, b""))
        self.assertEqual(self.path.read_bytes(), edited(BENCH, 3, WANTED))

    def test_who_is_told_holds_nobody_off(self):
        self.free()
        self.replace(edited(BENCH, 3, put(STATED, 7, 5)))
        self.holds_nobody_off(WORDS, 1)
        self.replace(BENCH[:-1])
        self.holds_nobody_off(["log", "board.table"], 1)

    def test_a_log_taken_away(self):
        """The log whose lock was waited for is not there any more, or another one is: its lock holds nobody off. The edit is
        done with the log that is there, and its line is in it."""
        for another in (False, True):
            process = self.waiter()
            self.log.rename(self.folder / "moved")
            if another:
                self.log.write_bytes(b"")
            self.free()
            self.assertEqual(harness.finish(process).status, 0)
            self.assertEqual(self.path.read_bytes(), edited(BENCH, 3, WANTED))
            self.assertEqual(len(self.log.read_text().splitlines()), 1)
            self.assertEqual((self.folder / "moved").read_bytes(), b"")
            # Once more, with the log of which this test can hold the lock.
            self.replace(BENCH)
            (self.folder / "moved").rename(self.log)
            self.take()

    def test_the_holder_is_killed(self):
        """The system frees the lock of a process that dies."""
        self.free()
        ready, told = os.pipe()
        child = os.fork()
        if child == 0:  # holds the lock for ever
            file = os.open(self.log, os.O_RDWR)
            fcntl.lockf(file, fcntl.LOCK_EX, 1, LOCK_AT)
            os.write(told, b"x")
            time.sleep(60)
            os._exit(0)
        os.close(told)
        os.read(ready, 1)
        os.close(ready)
        process = self.waiter()
        os.kill(child, 9)
        os.waitpid(child, 0)
        self.assertEqual(harness.finish(process, seconds=60).status, 0)


class Saves(Held):
    """A save and a restore that wait."""
    SORTS = ((rows.save(7, 3), RICH), (rows.restore(7, 1, 3), BENCH))

    def setUp(self):
        super().setUp()
        self.put("new.table", RICH)
        self.hold(self.put("boards.book", BOOK))

    def each(self, meanwhile, zeros=0):
        """What becomes of each where the book meanwhile is another one, and the body that it adds. The log is empty or has so
        many zeros."""
        for words, body in self.SORTS:
            self.write_log("")
            os.ftruncate(self.held, zeros)
            self.replace(BOOK)
            process = self.waiter(words)
            self.assertEqual(self.path.read_bytes(), BOOK)
            if meanwhile != BOOK:
                self.replace(meanwhile)
            self.free()
            yield harness.finish(process), body
            self.take()

    def test_the_book_stays(self):
        for answer, body in self.each(BOOK):
            self.assertEqual((answer.status, answer.err), (0, b""), answer)
            self.assertEqual(self.path.read_bytes(), book(with_save(ROWS, 7, body)))

    def test_another_machine_saved(self):
        """What it began from is still the latest: done, and the other's edition stays."""
        other = with_save(with_save(ROWS, 0, BENCH), 9, RICH)
        for answer, body in self.each(book(other)):
            self.assertEqual((answer.status, answer.err), (0, b""), answer)
            self.assertEqual(self.path.read_bytes(), book(with_save(other, 7, body)))
            self.assertEqual(len(self.log.read_text().splitlines()), 1)

    def test_this_machine_saved(self):
        """Refused: another edition is the latest now. And who saved it, where he has left his line."""
        other = with_save(ROWS, 7, rows.SECOND)
        told = "machine 7: edition 4 is the latest, and not 3\n%s\nfrom edition 3 to edition 4:\n" + (
            "-    4  040300000000FF01                          lint EXTINT 0 0 0 0 255 1\n"
            "+    4  040300000000FF00                          lint EXTINT 0 0 0 0 255 0\n")
        for answer, _ in self.each(book(other)):
            self.assertEqual((answer.status, answer.err), (1, b""), answer)
            self.assertEqual(answer.out.decode().split("\n", 1)[1], told % "the log does not say who saved it")
            self.assertEqual(self.path.read_bytes(), book(other))
        process = self.waiter(rows.save(7, 3))
        self.replace(book(other))
        self.write_log(save_line(7, 4, who="bert@attic"))
        self.assertIsNone(process.poll(), "it did not wait")
        self.free()
        said = harness.finish(process).out.decode().split("\n", 1)[1]
        self.assertEqual(said, told % "saved by bert@attic, 2026-11-16T05:06:34Z")

    def test_no_book_any_more(self):
        for content in (b"", BOOK[:-1], BENCH):
            for answer, _ in self.each(content):
                self.assertEqual((answer.status, answer.err), (1, b""), answer)
                self.assertTrue(answer.out.startswith(b"refused 27: "), answer)
                self.assertEqual(self.path.read_bytes(), content)

    def test_a_full_book(self):
        full = [*ROWS, *[(1, edition, rows.SMALL) for edition in range(1, (boards.BOOK_MOST - len(BOOK)) // 72 + 1)]]
        for answer, _ in self.each(book(full)):
            self.assertEqual((answer.status, answer.err), (1, b""), answer)
            self.assertTrue(answer.out.startswith(b"refused 29: "), answer)
            self.assertEqual(self.path.read_bytes(), book(full))

    def test_refused_beside_a_log_that_is_too_long(self):
        """27 and 29 name nobody, and ask nothing of the log; 28 wants a name."""
        full = [*ROWS, *[(1, edition, rows.SMALL) for edition in range(1, (boards.BOOK_MOST - len(BOOK)) // 72 + 1)]]
        for content, status, said in ((BENCH, 1, rb"\Arefused 27: "), (book(full), 1, rb"\Arefused 29: "),
                                      (book(with_save(ROWS, 7, rows.SECOND)), 2, rb"boards\.book\.log: more than 64 MiB\n\Z")):
            for answer, _ in self.each(content, (64 << 20) + 1):
                self.assertEqual((answer.status, self.path.read_bytes()), (status, content), answer)
                self.assertRegex(answer.out + answer.err, said)

    def test_several(self):
        """Four wait with the same edition: one is done, and the others are refused and told of it."""
        waiting = [self.waiter(rows.save(7, 3)) for _ in range(4)]
        self.free()
        answers = [harness.finish(process) for process in waiting]
        self.assertEqual(sorted(answer.status for answer in answers), [0, 1, 1, 1])
        self.assertEqual(self.path.read_bytes(), book(with_save(ROWS, 7, RICH)))
        for answer in answers:
            self.assertTrue(answer.status == 0 or f"\nsaved by {rows.WHO}, ".encode() in answer.out, answer)

    def test_28_waits_for_the_log(self):
        """Another edition is the latest: it waits, and then what is there by then decides. Here an older book was put back."""
        self.replace(book(with_save(ROWS, 7, rows.SECOND)))
        process = self.waiter(rows.save(7, 3))
        self.replace(BOOK)
        self.free()
        self.assertEqual(harness.finish(process), (0, rows.saved(with_save(ROWS, 7, RICH)).encode(), b""))

    def test_who_does_not_wait(self):
        """What is refused for another reason, and who only looks at an edition."""
        self.put("bad.table", BENCH[:-1])
        self.refuses(rows.save(7, 3, "bad.table"), 7, seconds=60)
        self.answers(["book", "show", "boards.book", "7", "1"], BENCH, seconds=60)
        self.answers(["book", "diff", "boards.book", "7", "1", "1"], "nothing differs\n", seconds=60)

    def test_who_reads_the_history_waits(self):
        process = self.waiter(["book", "history", "boards.book", "0"])
        self.free()
        self.assertEqual(harness.finish(process), (0, b"machine 0      edition 1         64 bytes  not in the log\n", b""))

    def test_who_is_told_holds_nobody_off(self):
        """A long answer that nobody reads: the lock is free while it is written."""
        self.free()
        lines = boards.lines_board(250)
        entries = [put(entry, 5, 1) if entry[0] == 3 else entry for entry in base_entries(lines)]
        self.replace(book([(7, 1, lines), (7, 2, boards.table(entries))]))
        reading, writing = os.pipe()
        fcntl.fcntl(writing, 1031, 4096)  # F_SETPIPE_SZ, which older Pythons have no name for
        process = harness.start(harness.words_to_start(rows.save(7, 1)), cwd=self.folder, stdout=writing)
        os.close(writing)
        os.read(reading, 1)
        self.assertEqual(self.mpt(*rows.save(7, 2), seconds=60).status, 0)
        self.assertIsNone(process.poll(), "its answer went into the pipe")
        read_out(reading)
        self.assertEqual(harness.finish(process).status, 1)

    def test_a_short_answer_holds_nobody_off(self):
        """Another is the latest, no such machine, nothing to restore, and no book."""
        self.free()
        for words in (rows.save(7, 2), rows.save(8, 1), rows.restore(8, 1, 1), rows.restore(7, 9, 3)):
            self.holds_nobody_off(words, 1)
        self.replace(BENCH)
        self.holds_nobody_off(["book", "history", "boards.book"], 1)


class NoLogYet(rows.Books, preload.Case):
    """There is no log, so none to lock, and the first change that is logged comes before any call of who reads: what he is told is
    of one moment."""
    BY = f"{rows.WHO}, TIME\n"

    def stands(self, process):
        """Whether it has stopped; past its last call it ends by itself."""
        until = time.monotonic() + harness.PATIENCE
        while process.poll() is None:
            if state(process.pid) == "T":
                return True
            self.assertLess(time.monotonic(), until, "it neither stops nor ends")
            time.sleep(0.001)
        return False

    def of_one_moment(self, words, change, before, after):
        """With the change before each call: what is printed is of the moment before it or of the one behind it."""
        found = set()
        for number in itertools.count(1):
            self.lay(rows.EMPTY)
            self.anew("board.table", BENCH)
            process = harness.start(harness.words_to_start(words), cwd=self.folder, environment=self.library.at(number, "stop"))
            if not self.stands(process):
                harness.finish(process)
                break
            self.assertEqual(self.mpt(*change).status, 0)
            process.send_signal(signal.SIGCONT)
            answer = harness.finish(process, seconds=60)
            self.assertEqual(answer.err, b"")
            found.add(re.sub(r"\d{4}-\d\d-\d\dT[\d:]{8}Z", "TIME", answer.out.decode()))
        self.assertGreater(number, 5)
        self.assertEqual(found - {before}, {after})

    def test_the_history_of_a_book(self):
        self.put("new.table", BENCH)
        self.of_one_moment(["book", "history", "boards.book"], rows.save(7, 0), "no editions: the book is empty\n",
                           f"machine 7      edition 1         96 bytes  TIME  {rows.WHO}\n")

    def test_28(self):
        self.put("new.table", BENCH)
        number = "refused 28: another edition is the latest, or the book has no such edition\n"
        self.of_one_moment(rows.save(7, 9), rows.save(7, 0), number + "machine 7: the book has no edition of it\n",
                           number + "machine 7: edition 1 is the latest, and not 9\nsaved by " + self.BY)

    def test_22(self):
        number = "refused 22: other bytes stand there now\nentry 3 is  "
        words = ["edit", "board.table", "3", put(STATED, 7, 5).hex(), put(STATED, 7, 6).hex()]
        self.of_one_moment(words, WORDS, number + f"{STATED.hex().upper()}  {line_of(STATED)}\nthe log does not say who put it there\n",
                           number + f"{WANTED.hex().upper()}  {line_of(WANTED)}\nput there by " + self.BY)


if __name__ == "__main__":
    harness.main("edits and saves that waited for the lock")
