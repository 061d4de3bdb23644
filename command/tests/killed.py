"""Edits and saves that are killed: at a random moment, and at every call by which the command touches a file.

    python3 -B command/tests/killed.py COMMAND

Whenever it is, the table is the one before the edit or the one after it, whole; the log tells which; no lock stays; and what
is left beside them is gone after the next edit. So it is with a book and a save or a restore. Only a new book may be left in part.
"""
import random
import re
import signal
import threading
import time

import boards
import harness
import preload
import rows
from boards import BENCH, RICH, base_entries, book, edited, line_of, put, save_line, with_save
from rows import BOOK, ROWS

PLACE = 12
# A board of which many places are edited, each with any bytes.
FIRST, PLACES = boards.lines_board(4), range(5, 9)
SEED = 20261116
KILLS = 200
seen = {"old": 0, "new": 0, "too late": 0, "calls": 0, "old books": 0, "new books": 0}


class Aftermath(harness.Case):
    """What every test here lays out, and looks at after a kill."""

    def entry(self, place=PLACE):
        return base_entries(self.path.read_bytes())[place]

    def words(self, stated, wanted):
        return ["edit", "board.table", str(PLACE), stated.hex(), wanted.hex()]

    def lay(self, log=b"", left=None):
        """The table, a log, and what a process that was killed before has left."""
        for path in self.folder.iterdir():
            path.unlink()
        self.path = self.put("board.table", RICH)
        if log:
            self.put("board.table.log", log)
        if left is not None:
            self.put("board.table.mpt-new", left)

    def log_lines(self):
        """What `log` says of each edit, and of all of them; it never fails."""
        answer = self.mpt("log", "board.table", seconds=60)
        self.assertEqual((answer.status, answer.err), (0, b""), answer)
        return [text for text in answer.out.decode().splitlines() if "  entry " in text]

    def whole(self, before, wanted, lines_before):
        """After a kill: the table is one of the two, and the log says which."""
        after = edited(before, PLACE, wanted)
        now = self.path.read_bytes()
        self.assertIn(now, (before, after), "the table is neither the old one nor the new one")
        self.assertLessEqual(set(self.files()), {"board.table", "board.table.log", "board.table.mpt-new"})
        lines = self.log_lines()
        stood = base_entries(before)[PLACE]
        change = f"  entry {PLACE}: {line_of(stood)} -> {line_of(wanted)}"
        if now == after:
            self.assertEqual(len(lines), lines_before + 1)
            self.assertTrue(lines[-1].endswith(change), lines[-1])
        elif len(lines) > lines_before:
            self.assertEqual(len(lines), lines_before + 1)
            self.assertTrue(lines[-1].endswith(change + "  (never came about)"), lines[-1])
        seen["new" if now == after else "old"] += 1
        return now == after, len(lines)

    def goes_on(self, lines_before):
        """The next edit answers at once and leaves nothing but the table and its log. It is done with the same bytes, so
        that the log has no line more than it tells of."""
        stated = self.entry()
        wanted = put(stated, 5, (stated[5] + 1) % 256)
        table = self.path.read_bytes()
        answer = self.mpt(*self.words(stated, wanted), seconds=60)
        self.assertEqual((answer.status, answer.err), (0, b""), answer)
        self.assertEqual(self.path.read_bytes(), edited(table, PLACE, wanted))
        self.assertEqual(set(self.files()), {"board.table", "board.table.log"})
        lines = self.log_lines()
        self.assertEqual(len(lines), lines_before + 1)
        self.assertFalse(lines[-1].endswith("(never came about)"))


class AtRandomMoments(Aftermath):
    def test_at_a_random_moment(self):
        chance = random.Random(SEED)
        self.lay()
        took = []
        for lines in range(1, 13):
            stated = self.entry()
            start = time.monotonic()
            self.mpt(*self.words(stated, put(stated, 5, lines)))
            took.append(time.monotonic() - start)
        most = 1.3 * sorted(took)[len(took) // 2]
        stood = {True: 0, False: 0}
        for _ in range(KILLS):
            before, stated = self.path.read_bytes(), self.entry()
            wanted = put(stated, 7, (stated[7] + 1) % 256)
            process = harness.start(harness.words_to_start(self.words(stated, wanted)), cwd=self.folder)
            time.sleep(chance.uniform(0, most))
            process.kill()
            answer = harness.finish(process)
            self.assertIn(answer.status, (0, -signal.SIGKILL), answer)
            done, lines = self.whole(before, wanted, lines)
            self.assertTrue(done or answer.status != 0, "it says that it is done, and the old table stands there")
            stood[done] += 1
            # So the kills come around the exchange, on a machine that becomes slower or faster too.
            most *= 0.96 if done else 1.04
            seen["too late"] += answer.status == 0
            self.goes_on(lines)
            lines += 1
        self.assertTrue(stood[True] and stood[False], f"of {KILLS} kills: {stood}")

    def test_many_at_once_and_some_killed(self):
        """Six work on one table, and half of their edits are killed. Every edit wants bytes that no other wants: so the
        log, with what it says of each line, gives all that was done."""
        self.path = self.put("board.table", FIRST)
        self.put("first.table", FIRST)
        done, wrong = [], []

        def work(worker):
            chance = random.Random(SEED + worker)
            try:
                for number in range(25):
                    place = chance.choice(PLACES)
                    stated = base_entries(self.path.read_bytes())[place]
                    wanted = put(put(stated, 5, worker), 7, number)
                    words = ["edit", "board.table", str(place), stated.hex(), wanted.hex()]
                    process = harness.start(harness.words_to_start(words), cwd=self.folder)
                    if chance.random() < 0.5:
                        time.sleep(chance.uniform(0, 0.02))
                        process.kill()
                    status = harness.finish(process).status
                    assert status in (0, 1, -signal.SIGKILL), status
                    if status == 0:
                        done.append((place, wanted))
            except BaseException as error:  # told below: a thread's own error would be lost
                wrong.append(error)

        workers = [threading.Thread(target=work, args=[number]) for number in range(6)]
        for worker in workers:
            worker.start()
        for worker in workers:
            worker.join()
        self.assertEqual(wrong, [])
        came = self.came_about((self.folder / "board.table.log").read_text())
        self.assertLessEqual(set(done), set(came), "an edit was said to be done and is not in the log, or did not come about")
        now = FIRST
        for place, wanted in came:
            now = edited(now, place, wanted)
        self.assertEqual(self.path.read_bytes(), now)
        self.assertEqual(self.mpt("log", "--check", "first.table", "board.table").status, 0)
        self.assertGreater(len(done), 10)

    def came_about(self, log):
        """Of the log's lines those that came about: all that have their end and do not say "never"; and a last one without
        its end where what it wants stands there now."""
        *ended, last = [text.split(" ") for text in log.split("\n")]
        found = [(int(words[2]), bytes.fromhex(words[4])) for words in ended if len(words) == 5]
        if len(last) == 5 and len(last[4]) == len(last[3]) and self.entry(int(last[2])) == bytes.fromhex(last[4]):
            found.append((int(last[2]), bytes.fromhex(last[4])))
        return found


class AtEveryCall(Aftermath, preload.Case):
    def at_every_call(self, **laid):
        """One edit, killed before each of its calls; and each write stores half and no more."""
        stated = base_entries(RICH)[PLACE]
        wanted = put(stated, 7, 9)
        self.lay(**laid)
        lines_before = len(self.log_lines())
        names = self.library.calls(self.words(stated, wanted), self.folder)
        self.assertEqual(names.count("rename"), 1)
        stood = {True: 0, False: 0}
        for how in ("kill", "half"):
            for number, name in enumerate(names, 1):
                if how == "half" and "write" not in name:
                    continue
                self.lay(**laid)
                process = harness.start(harness.words_to_start(self.words(stated, wanted)), cwd=self.folder, environment=self.library.at(number, how))
                answer = harness.finish(process)
                with self.subTest(how=how, number=number, name=name, laid=laid):
                    self.assertEqual(answer.status, -signal.SIGKILL, answer)
                    done, lines = self.whole(RICH, wanted, lines_before)
                    # By the rename, and by nothing before it.
                    self.assertEqual(done, number > names.index("rename") + 1)
                    stood[done] += 1
                    self.goes_on(lines)
        # Past its last call the command ends by itself.
        self.lay(**laid)
        self.assertEqual(self.mpt(*self.words(stated, wanted), environment=self.library.at(len(names) + 1, "kill")).status, 0)
        self.assertTrue(stood[True] and stood[False], stood)
        seen["calls"] += len(names)

    def test_at_every_call_without_a_log(self):
        self.at_every_call()

    def test_at_every_call_with_a_log(self):
        """And a new file that was left before."""
        now = base_entries(RICH)[PLACE]
        self.at_every_call(log=boards.log_line(PLACE, put(now, 7, 77), now).encode(), left=b"left by another" * 100)

    def test_at_every_call_with_a_last_line_without_its_end(self):
        """One that never came about, one that did, and one that is cut short: the edit ends it or cuts it off first."""
        now = base_entries(RICH)[PLACE]
        first, last = boards.log_line(PLACE, put(now, 7, 76), put(now, 7, 77)), boards.log_line(PLACE, put(now, 7, 77), now)
        self.at_every_call(log=(first + last)[:-1].encode())
        first, last = boards.log_line(PLACE, put(now, 7, 77), now), boards.log_line(PLACE, now, put(now, 7, 78))
        self.at_every_call(log=(first + last)[:-1].encode())
        self.at_every_call(log=(first + last)[:-20].encode())


class Saves(rows.Books, preload.Case):
    """A save or a restore of a book, killed before each of its calls; and each write stores half and no more."""

    LOG = "".join(save_line(machine, edition) for machine, edition, _ in ROWS)
    SORTS = {"save": (rows.save(7, 3), with_save(ROWS, 7, RICH)), "restore": (rows.restore(7, 1, 3), with_save(ROWS, 7, BENCH))}

    def lay_all(self, log, left):
        for path in self.folder.iterdir():
            path.unlink()
        self.lay(BOOK, log)
        self.put("new.table", RICH)
        if left is not None:
            self.put("boards.book.mpt-new", left)

    def told(self):
        """What `history` says of each row; it never fails."""
        answer = self.mpt("book", "history", "boards.book", seconds=60)
        self.assertEqual((answer.status, answer.err), (0, b""), answer)
        return [text.split("  ")[-1] for text in answer.out.decode().splitlines()]

    def whole(self, now, log, number, names):
        """The old book or the new one, by the rename and by nothing before it; and who saved, as far as the log goes."""
        done = number > names.index("rename") + 1
        self.assertEqual(self.path.read_bytes(), book(now) if done else BOOK)
        self.assertLessEqual(set(self.files()), {"boards.book", "boards.book.log", "boards.book.mpt-new", "new.table"})
        whose = self.told()
        self.assertEqual(whose[:5], ["anna@bench" if log else "not in the log"] * 5)
        self.assertEqual(whose[5:], [] if not done else ["edition 1 restored"] if now[-1][2] == BENCH else [rows.WHO])
        seen["new books" if done else "old books"] += 1
        return now if done else ROWS

    def goes_on(self, now):
        """The next save answers at once, and leaves nothing but the book and its log."""
        self.saves(now, 7, rows.SMALL)
        self.assertEqual(set(self.files()), {"boards.book", "boards.book.log", "new.table"})
        self.assertEqual(self.told()[-1], rows.WHO)

    def at_every_call(self, log=None, left=None):
        for words, now in self.SORTS.values():
            self.lay_all(log, left)
            names = self.library.calls(words, self.folder)
            self.assertEqual(names.count("rename"), 1)
            for how in ("kill", "half"):
                for number, name in enumerate(names, 1):
                    if how == "half" and "write" not in name:
                        continue
                    self.lay_all(log, left)
                    answer = harness.finish(harness.start(harness.words_to_start(words), cwd=self.folder,
                                                          environment=self.library.at(number, how)))
                    with self.subTest(words=words, how=how, number=number, name=name):
                        self.assertEqual(answer.status, -signal.SIGKILL, answer)
                        self.goes_on(self.whole(now, log, number, names))
            seen["calls"] += len(names)

    def test_without_a_log(self):
        self.at_every_call()

    def test_with_a_log(self):
        """And a new file that was left before."""
        self.at_every_call(self.LOG, b"left by another" * 5000)

    def test_with_a_last_line_without_its_end(self):
        """One that came about, one that never did, and one that is cut short: the save ends it or cuts it off first."""
        self.at_every_call(self.LOG[:-1])
        self.at_every_call(self.LOG + save_line(7, 4)[:-1])
        self.at_every_call(self.LOG + save_line(7, 4)[:30])

    def test_many_at_once_and_some_killed(self):
        """Six save into one book, every fifth time an old edition, and half of it is killed. No edition is ever lost, and what
        was said to be done is there: each saves a table that no other has."""
        self.lay(rows.EMPTY)
        done, wrong = [], []

        def work(worker):
            chance = random.Random(SEED + worker)
            try:
                for number in range(25):
                    body = edited(rows.SMALL, 0, boards.cpu(worker, 3, version=number))
                    self.put(f"{worker}.table", body)
                    machine = chance.choice([1, 2])
                    bodies = {edition: old for of, edition, old in boards.rows_of(self.path.read_bytes()) if of == machine}
                    began = len(bodies)
                    words = rows.save(machine, began, f"{worker}.table")
                    if number % 5 == 4 and began:
                        old = chance.randrange(began) + 1
                        words, body = rows.restore(machine, old, began), bodies[old]
                    process = harness.start(harness.words_to_start(words), cwd=self.folder)
                    if chance.random() < 0.5:
                        time.sleep(chance.uniform(0, 0.02))
                        process.kill()
                    status = harness.finish(process).status
                    assert status in (0, 1, -signal.SIGKILL), status
                    if status == 0:
                        done.append((machine, began + 1, body))
            except BaseException as error:  # told below: a thread's own error would be lost
                wrong.append(error)

        workers = [threading.Thread(target=work, args=[number]) for number in range(6)]
        for worker in workers:
            worker.start()
        for worker in workers:
            worker.join()
        self.assertEqual(wrong, [])
        now = boards.rows_of(self.path.read_bytes())
        self.assertEqual(self.path.read_bytes(), book(now))
        self.assertLessEqual(set(done), set(now), "a save was said to be done, and its edition is not in the book")
        told = list(zip(now, self.told()))
        saved = [body for (_, _, body), who in told if who == rows.WHO]
        self.assertEqual(len(set(saved)), len(saved), "a table was saved twice")
        restored = [(machine, body, re.fullmatch(r"edition (\d+) restored", who)) for (machine, _, body), who in told if who != rows.WHO]
        for machine, body, old in restored:
            self.assertIn((machine, int(old[1]), body), now)
        self.assertGreater(len(done), 10)
        self.assertTrue(restored)


class NewBooks(preload.Case):
    def test_at_every_call(self):
        """A new book is killed: there is none, or a part of it, which is no book; with that taken away it is made."""
        words, found = ["book", "new", "boards.book"], set()
        names = self.library.calls(words, self.folder, ("open", "write", "fsync", "close"))
        for how in ("kill", "half"):
            for number, name in enumerate(names, 1):
                if how == "half" and name != "write":
                    continue
                (self.folder / "boards.book").unlink()
                answer = harness.finish(harness.start(harness.words_to_start(words), cwd=self.folder,
                                                      environment=self.library.at(number, how)))
                with self.subTest(how=how, number=number, name=name):
                    self.assertEqual(answer.status, -signal.SIGKILL, answer)
                    found.add(left := self.files().get("boards.book"))
                    self.assertLessEqual(set(self.files()), {"boards.book"})
                    if left == rows.EMPTY:
                        continue
                    if left is not None:
                        self.refuses(["book", "history", "boards.book"], 27)
                        self.wrong(words, "boards.book: File exists")
                        (self.folder / "boards.book").unlink()
                    self.answers(words, "boards.book: 3 bytes\n")
        self.assertEqual(found, {None, b"", b"\x01", rows.EMPTY})
        seen["calls"] += len(names)


if __name__ == "__main__":
    harness.main(lambda: f"{KILLS} at random (seed {SEED}, {seen['too late']} too late) and at each of {seen['calls']} calls: "
                         f"the old table stood {seen['old']} times, the new one {seen['new']}, "
                         f"the old book {seen['old books']}, the new one {seen['new books']}")
