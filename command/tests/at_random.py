"""Command lines at random over files at random: the command never crashes, and changes no file that it may not change.

    python3 -B command/tests/at_random.py COMMAND [SEED [COUNT]]

Verbs, options and words are good ones, nearly good ones and bad ones; the files are tables, dumps, texts, logs, images, books,
the same with bytes changed, random bytes, and none. What may change: a table that an edit answered 0 for, in just the entry
that it said, and its log, by one line; a book that a save or a restore answered 0 for, by just one row; and -o and `book new`
make a file. After an edit the table is still accepted, and after a save the book.
"""
import os
import random
import re
import sys

import boards
import harness
import rows
from boards import BENCH, RICH, base_entries, book, edited, pointer, put, rows_of, save_line

SEED = int(sys.argv[2]) if len(sys.argv) > 2 else 1
COUNT = int(sys.argv[3]) if len(sys.argv) > 3 else 1000
VERBS = "list judge table entries routes slots slot renumber sees edit parts make dump log book".split()
FIELDS = "id version enabled boot signature features name address type polarity trigger bus irq destination input".split()
VALUES = ["0", "1", "2", "3", "9", "255", "256", "on", "off", "INT", "extint", "PCI", "ISA", "EISA", "FEC00000", "0x10", "-1", "",
          "FFFFFFFF", "XPRESSX"]
NUMBERS = ["0", "0", "1", "1", "2", "3", "4", "5", "007", "12", "200", "255", "0x3", "0xFF"]
NO_NUMBERS = ["256", "", "-1", "1e3", "0x", "99999999999999999999", "١"]
ADDRESSES = ["0", "100", "3BB", "1000", "FEC00000", "0xFFFFFFFFFFFFFFFF"]
NEW_FILES = ["new", "new2", "new3", "new4", "new5", "shelf/new", "nowhere/new", "shelf", "", "board.table", "rich.table.log", "empty", "link"]
STRANGE = NO_NUMBERS + [
    "-", "--", "-o", "--set", "--table", "--dump", "--io", "--local", "--memory", "--region", "--check", "--help", "--version", "-h", "--nothing",
    "--began", "--latest", "--boot", "book", "new", "save", "restore", "history", "show", "diff",
    "", " ", "é", "\udcff\udcfe", "%s%n%x", "a" * 5000, "F" * 40000, "0" * 20000, ".", "=", ":", "irq=", "rom:F0000:board.body", "\n",
    "FFFFFFFFFFFFFFFFF", "xyz"]
LETTERS = "0123456789abcdefABCDEFxX=:- _%\t\nzé\x01\x7f"
USERS = ["tester", "anna", "", "a b", "x" * 300, "é", "\n", "%s", None]
seen = {"runs": 0, 0: 0, 1: 0, 2: 0, "edits": 0, "saves": 0, "new files": 0}


class Any(harness.Case):
    def setUp(self):
        super().setUp()
        self.chance = random.Random(SEED)

    # ---- the files

    def bytes_changed(self, content):
        """A few bytes otherwise, or a piece of it gone, twice, or made up."""
        content = bytearray(content or b"\x00")
        for _ in range(self.chance.choice([1, 1, 2, 5])):
            at = self.chance.randrange(len(content) + 1)
            size = self.chance.choice([1, 1, 2, 8, 100])
            content[at:at + self.chance.choice([0, size])] = self.chance.choice([
                b"", bytes(size), self.chance.randbytes(size), bytes(content[at:at + size]), b"\n", b"\xff" * size])
        return bytes(content)

    def one_byte_changed_and_mended(self, t):
        """A table in which one byte is otherwise, and the sum is right: the rules behind the sum come to be tried."""
        at = self.chance.choice([k for k in range(8, min(len(t), boards.base_end(t))) if k != 7])
        return boards.mended(put(t, at, self.chance.randrange(256)), boards.base_end(t))

    def log(self, t):
        """A log of some edits of a table, of which not all came about, and maybe no good one."""
        lines = []
        for _ in range(self.chance.randrange(6)):
            place = self.chance.randrange(len(base_entries(t)))
            now = base_entries(t)[place]
            other = put(now, 7, self.chance.randrange(256))
            lines.append(boards.log_line(place, *self.chance.choice([(other, now), (now, other), (now, now)]), never=self.chance.random() < 0.2))
        content = "".join(lines).encode()
        return self.chance.choice([content, content, content[:-5], self.bytes_changed(content)])

    def book_log(self, all_rows):
        """A log of a book, of which lines may be missing, never have come about, or be no good ones."""
        content = "".join(save_line(machine, edition, never=self.chance.random() < 0.2)
                          for machine, edition, _ in all_rows if self.chance.random() < 0.8).encode()
        return self.chance.choice([content, content, content[:-5], self.bytes_changed(content)])

    def lay(self):
        """All files anew."""
        for path in sorted(self.folder.rglob("*"), reverse=True):
            path.rmdir() if path.is_dir() and not path.is_symlink() else path.unlink()
        some = self.chance.sample(boards.shelf(), 3)
        body = pointer(0xF0010) + RICH
        good = {
            "board.table": BENCH, "rich.table": RICH, "longer.table": RICH + self.chance.randbytes(300), "lines.table": boards.lines_board(),
            "board.dump": boards.rom(pointer(0xF0010), BENCH), "rich.dump": boards.rom(body), "default.dump": boards.rom(pointer(0, 5)),
            "default2.dump": boards.rom(bytes(32), pointer(0, 2, 0x80)),
            "board.body": body, "image": bytes(0xF0000) + body + bytes(0x10000 - len(body)),
            "board.txt": harness.run("parts", "-", input=BENCH).out, "rich.txt": harness.run("parts", "-", input=RICH).out,
            **{f"shelf{number}.dump": shelved.dump for number, shelved in enumerate(some)},
            "boards.book": rows.BOOK, "empty.book": rows.EMPTY, "longer.book": rows.BOOK + self.chance.randbytes(300),
            "full.book": book([(1, k + 1, rows.SMALL) for k in range(454)]),
        }
        files = dict(good)
        for number in range(5):
            name = self.chance.choice([name for name in good if name != "image"])
            files[f"changed{number}{os.path.splitext(name)[1]}"] = self.bytes_changed(good[name])
        for number in range(3):
            files[f"mended{number}.table"] = self.one_byte_changed_and_mended(self.chance.choice([BENCH, RICH]))
        for name in ("rich.table", "longer.table"):
            files[name + ".log"] = self.log(good[name])
        files["longer.book.log"] = self.book_log(rows.ROWS)
        files.update(empty=b"", zeros=bytes(100), random=self.chance.randbytes(self.chance.choice([1, 44, 500, 70000])))
        for name, content in files.items():
            self.put(name, content)
        (self.folder / "shelf").mkdir()
        (self.folder / "link").symlink_to("board.table")
        (self.folder / "hanging").symlink_to("nothing")
        self.put("two-names.table", RICH)
        os.link(self.folder / "two-names.table", self.folder / "two-names-2.table")
        self.good = list(good)
        self.names = [*files, "shelf", "link", "hanging", "two-names.table", "missing"]

    def all_files(self):
        """Every file with its bytes; of the image, which is long, the time of its last change."""
        found = {}
        for folder, _, names in os.walk(self.folder):
            for name in names:
                path = os.path.join(folder, name)
                if os.path.islink(path):
                    content = os.readlink(path)
                elif name == "image":
                    content = os.stat(path).st_mtime_ns, os.stat(path).st_ino
                else:
                    with open(path, "rb") as file:
                        content = file.read()
                found[os.path.relpath(path, self.folder)] = content
        return found

    # ---- the words

    def name(self, *ends):
        """A file: most often of a sort that the verb takes, and of these most often a good one."""
        sort = [name for name in self.names if name.endswith(ends)]
        good = [name for name in sort if name in self.good]
        return self.chance.choice(self.chance.choices([good, sort, self.names + ["-"]], [60, 25, 15])[0])

    def edit_words(self):
        """An edit of an entry that stands there, most often; each part of it may be wrong."""
        name = self.name(".table", "link")
        path = self.folder / name
        t = path.read_bytes() if path.is_file() else b""
        entries = base_entries(t if t.startswith(b"PCMP") and 52 <= len(t) and 52 <= boards.base_end(t) <= len(t) else BENCH)
        place = self.chance.randrange(len(entries))
        stated = entries[place]
        at = self.chance.choice([len(stated) - 1, self.chance.randrange(len(stated))])
        wanted = put(stated, at, self.chance.choice([0, 1, 2, 255, self.chance.randrange(256)]))
        if self.chance.random() < 0.1:
            stated = put(stated, 5, stated[5] ^ 1)
        words = ["edit", name, str(place) if self.chance.random() < 0.95 else self.chance.choice(NUMBERS), stated.hex()]
        if self.chance.random() < 0.6:
            return words + [wanted.hex()]
        fields = [f"{self.chance.choice(FIELDS)}={self.chance.choice(VALUES)}" for _ in range(self.chance.choice([1, 1, 2, 9]))]
        return words + [word for field in fields for word in ("--set", field)]

    def book_words(self):
        """A line of a verb of a book; its editions are most often those that there are."""
        chance, name = self.chance, self.name(".book")
        found = rows_of((self.folder / name).read_bytes()) if name.endswith(".book") and name in self.good else rows.ROWS
        machine, edition, _ = chance.choice([*found, (3, 0, b"")])
        latest = boards.latest(found, machine) if chance.random() < 0.8 else chance.choice(NUMBERS)
        out = ["-o", chance.choice(NEW_FILES)] if chance.random() < 0.5 else []
        save = ["save", name, machine, "--began", latest, self.name(".table")]
        return ["book", *chance.choice([
            save, save, save, ["restore", name, machine, edition, "--latest", latest],
            ["new", chance.choice([*NEW_FILES, "new.book"])], ["history", name], ["history", name, machine],
            ["show", name, machine, edition, *out],
            ["diff", name, machine, edition, chance.choice([1, latest])]])]

    def boot(self):
        return self.chance.choice([[], ["--boot", self.chance.choice(["0", "1", "0x1", "2"])]])

    def asked(self):
        """What a verb asks about: a table's file, or a dump."""
        boot = self.boot()
        return [*boot, self.name(".dump" if boot else ".table")]

    def words(self):
        """A line of one verb, as it should be."""
        verb, chance = self.chance.choice(VERBS + ["edit"] * 4 + ["book"] * 6), self.chance
        out = ["-o", chance.choice(NEW_FILES)] if chance.random() < 0.5 else []
        return {
            "list": lambda: ["list", *self.boot(), self.name(".dump")],
            "judge": lambda: ["judge", *chance.choice([[], ["--table"], ["--dump"]]), self.name(".table", ".dump")],
            "table": lambda: ["table", *self.boot(), self.name(".dump"), *out],
            "entries": lambda: ["entries", *self.asked()],
            "routes": lambda: ["routes", *chance.choice([[], ["--io"], ["--local"]]), *self.asked(),
                               chance.choice(["INT", "nmi", "ExtINT", *NUMBERS]), chance.choice(NUMBERS), chance.choice(NUMBERS)],
            "slots": lambda: ["slots", *self.asked()],
            "slot": lambda: ["slot", *self.asked(), chance.choice(NUMBERS), chance.choice(NUMBERS),
                             chance.choice(["A", "b", "INTC#", "E", *NUMBERS])],
            "renumber": lambda: ["renumber", *self.asked()],
            "sees": lambda: ["sees", *self.asked(), chance.choice(NUMBERS), chance.choice(["io", "memory", "prefetch", *NUMBERS]),
                             chance.choice(ADDRESSES)],
            "edit": self.edit_words,
            "parts": lambda: ["parts", *self.asked(), *out],
            "make": lambda: ["make", self.name(".txt"), *out],
            "dump": lambda: ["dump", *chance.choice([["--memory", self.name("image")], self.region_words()]), *out],
            "log": lambda: ["log", *chance.choice([[], ["--check", self.name(".table")]]), self.name(".table")],
            "book": lambda: list(map(str, self.book_words())),
        }[verb]()

    def region_words(self):
        words = []
        for _ in range(self.chance.choice([1, 1, 2, 9])):
            kind = self.chance.choice(["rom", "ebda", "base", "other", "3", "4", "5", ""])
            base = self.chance.choice(["F0000", "9FC00", "0", "F0010", "x", "100000000"])
            words += ["--region", f"{kind}:{base}:{self.name('.body')}"]
        return words

    def spoilt(self, words):
        """A word gone, twice, elsewhere, another, or with a letter changed. No word begins with a slash, and one that has
        one keeps its letters: no file outside of this folder is ever named."""
        words = list(words)
        for _ in range(self.chance.choice([1, 1, 2, 4])):
            at = self.chance.randrange(len(words) + 1)
            how = self.chance.randrange(6)
            if how == 0:
                words.insert(at, self.chance.choice(STRANGE + self.names + NUMBERS))
            elif at < len(words) and how == 1:
                del words[at]
            elif at < len(words) and how == 2:
                words.insert(at, words[at])
            elif at < len(words) and how == 3:
                words.append(words.pop(at))
            elif at < len(words) and how == 4:
                words[at] = self.chance.choice(STRANGE)
            elif at < len(words) and "/" not in words[at]:
                place = self.chance.randrange(len(words[at]) + 1)
                words[at] = words[at][:place] + self.chance.choice(["", *LETTERS]) + words[at][place + self.chance.choice([0, 1]):]
        return words

    # ---- what may have changed

    def new_file(self, words, answer, name, content):
        """-o made it, and said so."""
        makers = ["table"], ["parts"], ["make"], ["dump"], ["book", "show"], ["book", "new"]
        self.assertEqual((answer.status, words[:1] in makers or words[:2] in makers), (0, True), name)
        self.assertEqual(answer.out, f"{name}: {len(content)} bytes\n".encode())
        self.assertIn(name, words)
        seen["new files"] += 1

    def edited_table(self, words, answer, before, now):
        """An edit that was answered 0: in one table just the entry that it named, and one line more in its log."""
        was, is_ = [re.fullmatch(rb"entry (\d+) (?:was|is ) ([0-9A-F]+)  .+", text) for text in answer.out.splitlines()]
        place, wanted = int(is_[1]), bytes.fromhex(is_[2].decode())
        name = self.named_file(words, before, now)
        self.assertEqual(base_entries(before[name])[place].hex().upper(), was[2].decode())
        self.assertEqual(now[name], edited(before[name], place, wanted))
        self.one_line_more(before.get(name + ".log", b""), now[name + ".log"], b"%d %s %s" % (place, was[2], is_[2]))
        self.assertEqual({other for other in now.keys() | before.keys() if now.get(other) != before.get(other)} - {name}, {name + ".log"})
        self.assertEqual(harness.run("judge", "--table", name, cwd=self.folder).status, 0)
        seen["edits"] += 1

    def one_line_more(self, log, new_log, words):
        """The lines stay, and behind them stands one that ends with these words. A last line without its end gets it, or goes."""
        kept = log[:log.rfind(b"\n") + 1]
        last = log[len(kept):].rstrip(b"\0")
        self.assertTrue(new_log.startswith(kept))
        *ended, line, rest = new_log[len(kept):].split(b"\n")
        self.assertIn(ended, [[], [last], [last + b" never"]] if last else [[]])
        self.assertRegex(line, rb"\A[0-9TZ:-]{20} [^\x00-\x20\x7f]+@\S+ %s\Z" % words)
        self.assertEqual(rest, b"")

    def named_files(self, words, before):
        """The files that the words name, with the bytes that they had."""
        folder = os.path.realpath(self.folder)
        named = {os.path.relpath(os.path.realpath(self.folder / word), folder) for word in words[1:] if "\0" not in word}
        return {name: before[name] for name in named if name in before}

    def named_file(self, words, before, now):
        """Which of the files that the words name was changed: its log was."""
        return next(name for name in self.named_files(words, before) if now.get(name + ".log") != before.get(name + ".log"))

    def saved_book(self, words, answer, before, now, input):
        """A save or a restore that was answered 0: one book has one row more behind all others, of the machine and the edition
        that it said and with the table that was named or the old one, and its log one line more."""
        said = re.match(rb"machine (\d+): edition (\d+) is (?:saved|edition (\d+) again) \(", answer.out)
        machine, edition, old = (int(number or 0) for number in said.groups())
        name = self.named_file(words, before, now)
        was, is_ = rows_of(before[name]), rows_of(now[name])
        self.assertEqual((is_[:-1], is_[-1][:2]), (was, (machine, edition)))
        self.assertEqual(edition, boards.latest(was, machine) + 1)
        self.assertEqual(now[name], book(is_) + before[name][len(book(was)):])
        if old:
            self.assertIn((machine, old, is_[-1][2]), was)
        else:
            self.assertIn(is_[-1][2], [*self.named_files(words, before).values(), *([input] if "-" in words else [])])
        self.one_line_more(before.get(name + ".log", b""), now[name + ".log"], b"%d %d %d" % (machine, edition, old))
        changed = {other for other in now.keys() | before.keys() if now.get(other) != before.get(other)}
        self.assertEqual(changed, {name, name + ".log"})
        self.assertEqual(harness.run("book", "show", name, machine, edition, cwd=self.folder), (0, is_[-1][2], b""))
        seen["saves"] += 1

    def one_run(self):
        words = self.words()
        if self.chance.random() < 0.35:
            words = self.spoilt(words)
        if self.chance.random() < 0.02:
            words = [self.chance.choice(STRANGE + VERBS + self.names) for _ in range(self.chance.randrange(6))]
        input = (self.folder / self.chance.choice(["board.dump", "rich.table", "board.txt", "random", "empty"])).read_bytes()
        user = self.chance.choice(USERS)
        before = self.all_files()
        seen["runs"] += 1
        with self.subTest(words=[word[:80] for word in words], user=user):
            answer = harness.run(*words, cwd=self.folder, input=input, environment={"MPT_USER": user})
            now = self.all_files()
            seen[answer.status] += 1
            if words[:1] == ["edit"] and answer.status == 0 and answer.out.startswith(b"entry "):
                self.edited_table(words, answer, before, now)
                return
            if words[:1] == ["book"] and answer.status == 0 and re.match(rb"machine \d+: edition \d+ is ", answer.out):
                self.saved_book(words, answer, before, now, input)
                return
            self.assertEqual({name: now.get(name) for name in before}, before)
            made = sorted(now.keys() - before.keys())
            self.assertLessEqual(len(made), 1)
            for name in made:
                self.new_file(words, answer, name, now[name])
                (self.folder / name).unlink()

    def test_at_random(self):
        for number in range(COUNT):
            if number % 40 == 0:
                self.lay()
            self.one_run()
        # Each must have come often, for this to tell anything.
        for what, share in ((0, 10), (1, 10), (2, 10), ("edits", 60), ("saves", 150), ("new files", 100)):
            self.assertGreater(seen[what], COUNT // share, seen)


if __name__ == "__main__":
    harness.main(lambda: f"seed {SEED}: {seen['runs']} command lines ({seen[0]} answered, {seen[1]} refused, {seen[2]} wrong), "
                         f"{seen['edits']} edits, {seen['saves']} saves, {seen['new files']} new files")
