"""Twenty at once: some hundred edits of one table, and saves into one book, by processes that know nothing of each other.

    python3 -B command/tests/together.py COMMAND

Every edit wants bytes that no other wants, so that what stood at a place tells whose it was. Some state what the first table
had, on purpose; others lose a race. The log is the order of the accepted ones: with them put in one after the other, in plain
Python, come all tables that ever stood there. And every save has a table that no other has, every fifth is a restore of an old
one, and the book's rows are the order.
"""
import random
import re
import threading
import time
from typing import NamedTuple

import boards
import harness
import rows
from boards import base_entries, book, cpu, edited, line_of, rows_of

SEED = 20261116
WORKERS = 20
EDITS = 25
FIRST = boards.lines_board(12)
PLACES = range(5, 17)
seen = {}


class Made(NamedTuple):
    """One run of edit: what was asked, what came, and how many lines the log had before it and after it."""
    place: int
    stated: bytes
    wanted: bytes
    answer: harness.Answer
    before: int
    after: int


class Together(harness.Case):
    def setUp(self):
        super().setUp()
        self.path = self.put("board.table", FIRST)
        self.put("first.table", FIRST)
        self.log = self.folder / "board.table.log"
        self.made, self.wrong_ones = [], []
        self.shown = set()
        self.over = threading.Event()

    def lines(self):
        """The whole lines of the log."""
        return self.log.read_bytes().count(b"\n") if self.log.exists() else 0

    def work(self, worker):
        """One of twenty: its edits, one after the other."""
        chance = random.Random(SEED + worker)
        try:
            for number in range(EDITS):
                place = chance.choice(PLACES)
                now = self.path.read_bytes()
                self.shown.add(now)
                stated = base_entries(FIRST if chance.random() < 0.2 else now)[place]
                # IRQ and input: no other edit has both.
                wanted = boards.put(boards.put(stated, 5, worker), 7, number)
                before = self.lines()
                answer = harness.run("edit", "board.table", place, stated.hex(), wanted.hex(), cwd=self.folder,
                                     environment={"MPT_USER": f"worker{worker}"})
                self.made.append(Made(place, stated, wanted, answer, before, self.lines()))
        except BaseException as error:  # told by the test itself: a thread's own error would be lost
            self.wrong_ones.append(error)

    def look(self):
        """Reads the table all the while: whoever reads it sees one of its states, whole."""
        while not self.over.is_set():
            self.shown.add(self.path.read_bytes())
            time.sleep(0.001)

    def ask(self):
        """Asks the command all the while: no edit is seen half done, and no log that does not fit."""
        try:
            while not self.over.is_set():
                for words in (["log", "board.table"], ["judge", "board.table"]):
                    answer = harness.run(*words, cwd=self.folder)
                    self.assertEqual(answer.status, 0, answer)
                time.sleep(0.005)
        except BaseException as error:
            self.wrong_ones.append(error)

    def run_all(self):
        others = [threading.Thread(target=self.look), threading.Thread(target=self.ask)]
        workers = [threading.Thread(target=self.work, args=[number]) for number in range(WORKERS)]
        for thread in others + workers:
            thread.start()
        for worker in workers:
            worker.join()
        self.over.set()
        for thread in others:
            thread.join()
        self.assertEqual(self.wrong_ones, [])
        self.assertEqual(len(self.made), WORKERS * EDITS)

    def states(self):
        """The first table, and the one after each line of the log."""
        found = [FIRST]
        for text in self.log.read_text().splitlines():
            _, who, place, stated, wanted = text.split(" ")
            entry = base_entries(found[-1])[int(place)]
            self.assertEqual(entry.hex().upper(), stated, f"what line {len(found)} states did not stand there")
            found.append(edited(found[-1], int(place), bytes.fromhex(wanted)))
        return found

    def true_refusal(self, made, states):
        """22, and what it shows as standing is not what was stated, and stood there while the process ran. A line gets its
        end just behind its rename: at the end one more may have come about than there are whole lines."""
        self.assertEqual((made.answer.status, made.answer.err), (1, b""), made.answer)
        first, shown, who = made.answer.out.decode().splitlines()
        self.assertEqual(first, "refused 22: other bytes stand there now")
        found = re.fullmatch(rf"entry {made.place} is  ([0-9A-F]{{16}})  (.*)", shown)
        standing = bytes.fromhex(found[1])
        self.assertEqual(found[2], line_of(standing))
        self.assertNotEqual(standing, made.stated)
        self.assertIn(standing, {base_entries(state)[made.place] for state in states[made.before:made.after + 2]})
        self.assertRegex(who, r"\A(put there by worker\d+@\S+, \S+Z|the log does not say who put it there)\Z")
        # Who put it there, by the bytes themselves: IRQ is the worker's number, but in the first table.
        if who.startswith("put there by"):
            self.assertEqual(re.match(r"put there by worker(\d+)@", who)[1], str(standing[5]))
        else:
            self.assertEqual(standing, base_entries(FIRST)[made.place])

    def test_all(self):
        self.run_all()
        states = self.states()
        done = [made for made in self.made if made.answer.status == 0]
        refused = [made for made in self.made if made.answer.status != 0]
        self.assertEqual(self.path.read_bytes(), states[-1], "the accepted ones, put in one after the other, do not give the table")
        self.assertEqual(len(states) - 1, len(done), "as many lines as edits that were said to be done")
        logged = [(text.split()[2], text.split()[4]) for text in self.log.read_text().splitlines()]
        self.assertEqual(sorted(logged), sorted((str(made.place), made.wanted.hex().upper()) for made in done))
        for made in refused:
            self.true_refusal(made, states)
        self.assertLessEqual(self.shown, set(states), "a table was read that never should have stood there")
        self.assertEqual(set(self.files()), {"board.table", "board.table.log", "first.table"})
        self.answers(["log", "--check", "first.table", "board.table"], boards.check_fits("first.table", "board.table", len(done), 0))
        self.assertTrue(self.mpt("log", "board.table").out.decode().endswith("\n" + boards.fits(len(done), 0)))
        # Both must have come, and often, for this to tell anything.
        self.assertGreater(len(done), WORKERS * EDITS // 4)
        self.assertGreater(len(refused), 20)
        raced = [made for made in refused if made.stated != base_entries(FIRST)[made.place]]
        seen.update(done=len(done), refused=len(refused), raced=len(raced), tables=len(self.shown))


class Saved(NamedTuple):
    """One run of save, or of restore where it has an old edition: whose it is, what was asked, what came, and how many rows the
    book had before it and after it."""
    worker: int
    machine: int
    began: int
    old: int
    body: bytes
    answer: harness.Answer
    before: int
    after: int


class SavesTogether(rows.Books):
    """Into one book, of six machines."""
    SAVES = 15

    def setUp(self):
        super().setUp()
        self.lay(rows.EMPTY)
        self.made, self.wrong_ones, self.shown = [], [], set()
        self.over = threading.Event()

    @staticmethod
    def body(worker, number):
        """A table that no other save has, and that tells whose it is."""
        return edited(rows.SMALL, 0, cpu(worker, 3, version=number))

    def read(self):
        now = self.path.read_bytes()
        self.shown.add(now)
        return rows_of(now)

    def save(self, worker, machine, began, body, old=0):
        """Or the old edition, which has this body."""
        name = f"{worker}.table"
        self.put(name, body)
        words = rows.restore(machine, old, began) if old else rows.save(machine, began, name)
        before = len(self.read())
        answer = self.mpt(*words, environment={"MPT_USER": f"worker{worker}"})
        self.made.append(Saved(worker, machine, began, old, body, answer, before, len(self.read())))

    def work(self, worker):
        """One of twenty: its saves, one after the other; some from an older edition, on purpose, and every fifth of an old one."""
        chance = random.Random(SEED + worker)
        try:
            for number in range(self.SAVES):
                machine = chance.randrange(6)
                bodies = {edition: body for of, edition, body in self.read() if of == machine}
                latest = len(bodies)
                began = chance.randrange(latest + 1) if chance.random() < 0.2 else latest
                old = chance.randrange(latest) + 1 if latest and number % 5 == 4 else 0
                self.save(worker, machine, began, bodies[old] if old else self.body(worker, number), old)
        except BaseException as error:  # told by the test itself: a thread's own error would be lost
            self.wrong_ones.append(error)

    def ask(self):
        """Asks the command all the while: no save is seen half done, and no log that does not fit."""
        try:
            while not self.over.is_set():
                answer = self.mpt("book", "history", "boards.book")
                self.assertEqual(answer.status, 0, answer)
                self.assertNotIn(b"not in the log", answer.out)
                time.sleep(0.005)
        except BaseException as error:
            self.wrong_ones.append(error)

    def run_all(self, workers, more=()):
        threads = [threading.Thread(target=what, args=arguments) for what, *arguments in more]
        workers = [threading.Thread(target=what, args=arguments) for what, *arguments in workers]
        for thread in threads + workers:
            thread.start()
        for worker in workers:
            worker.join()
        self.over.set()
        for thread in threads:
            thread.join()
        self.assertEqual(self.wrong_ones, [])

    def true_refusal(self, made, now):
        """28, and what it says is the latest is not what was stated, was the latest while the process ran, and is told by its
        bytes: whose it is, and what differs."""
        self.assertEqual((made.answer.status, made.answer.err), (1, b""), made.answer)
        first, latest, who, *others = made.answer.out.decode().splitlines()
        self.assertRegex(first, r"\Arefused 28: ")
        found = re.fullmatch(rf"machine {made.machine}: edition (\d+) is the latest, and not {made.began}", latest)
        edition = int(found[1])
        self.assertIn(edition, {boards.latest(now[:count], made.machine) for count in range(made.before, made.after + 1)})
        bodies = {of: body for machine, of, body in now if machine == made.machine}
        maker = self.done_ones()[made.machine, edition]
        how = f"edition {maker.old} restored" if maker.old else "saved"
        self.assertRegex(who, rf"\A{how} by worker{maker.worker}@\S+, \S+Z\Z")
        old, new = bodies.get(made.began), bodies[edition]
        self.assertEqual(others, [] if old is None else [
            f"from edition {made.began} to edition {edition}:",
            *(["nothing differs"] if old == new else [sign + boards.entry_words(t)[0] for sign, t in (("-", old), ("+", new))])])

    def done_ones(self):
        """What was said to be done, by the edition that it made."""
        return {(made.machine, made.began + 1): made for made in self.made if made.answer.status == 0}

    def nothing_is_lost(self):
        """The book has just the saves that were said to be done, each once and as the edition that it said; its rows at any
        time were the first of them; and the log tells of each."""
        now = self.read()
        done = [made for made in self.made if made.answer.status == 0]
        makers = self.done_ones()
        self.assertEqual(self.path.read_bytes(), book(now))
        self.assertEqual(sorted(now), sorted((made.machine, made.began + 1, made.body) for made in done))
        for made in done:
            self.assertTrue(made.answer.out.decode().startswith(
                f"machine {made.machine}: edition {made.began + 1} is {f'edition {made.old} again' if made.old else 'saved'} ("))
        for made in self.made:
            if made.answer.status != 0:
                self.true_refusal(made, now)
        states = {book(now[:count]) for count in range(len(now) + 1)}
        self.assertLessEqual(self.shown, states, "a book was read that never should have stood there")
        told = [re.sub(r"@\S+", "", text).split("Z  ")[1] for text in self.mpt("book", "history", "boards.book").out.decode().splitlines()]
        whose = [makers[machine, edition] for machine, edition, _ in now]
        self.assertEqual(told, [f"worker{made.worker}" + (f"  edition {made.old} restored" if made.old else "") for made in whose])
        # By the bytes of what was saved, too.
        self.assertEqual([made.worker for made in whose if not made.old], [made.body[45] for made in whose if not made.old])
        self.assertEqual({name for name in self.files() if not name.endswith(".table")}, {"boards.book", "boards.book.log"})
        return done

    def test_all(self):
        self.run_all([(self.work, worker) for worker in range(WORKERS)], [[self.ask]])
        self.assertEqual(len(self.made), WORKERS * self.SAVES)
        done = self.nothing_is_lost()
        # Both must have come, and often, for this to tell anything.
        self.assertGreater(len(done), WORKERS * self.SAVES // 12)
        self.assertGreater(len(self.made) - len(done), 20)
        restored = sum(bool(made.old) for made in done)
        self.assertGreater(restored, 0)
        seen.update(saves=len(done), restored=restored, told=len(self.made) - len(done))

    def test_all_but_one(self):
        """All begin from the same edition, again and again: one is done each time, and all others are told."""
        for number in range(5):
            self.made = []
            before = self.read()
            self.run_all([(self.save, worker, 1, number, self.body(worker, number)) for worker in range(WORKERS)])
            self.assertEqual(sorted(made.answer.status for made in self.made), [0] + [1] * (WORKERS - 1))
            now = self.read()
            self.assertEqual((now[:-1], len(now)), (before, number + 1))
            for made in self.made:
                if made.answer.status == 1:
                    self.true_refusal(made, now)


if __name__ == "__main__":
    harness.main(lambda: f"{WORKERS} at once (seed {SEED}), {seen['done']} edits done and {seen['refused']} refused, "
                         f"{seen['raced']} of them after a race; {seen['tables']} tables read meanwhile; "
                         f"{seen['saves']} saves done, {seen['restored']} of them restores, and {seen['told']} refused")
