"""log: the log in words, edits that never came about, a last line without its end, and logs that do not fit.

    python3 -B command/tests/logs.py COMMAND

The logs are written here by hand, line for line as the plan has them, and so are the tables that they are of.
"""
import socket

import boards
import harness
from boards import BENCH, base_entries, edited, line_of, put

WHEN = "2026-11-16T05:06:%02dZ"


def entry(place, last):
    """The bench board's entry with another last byte, its input."""
    return put(base_entries(BENCH)[place], 7, last)


INT = {last: entry(3, last) for last in range(256)}
LINT = {last: entry(4, last) for last in (0, 1)}


def log_line(number, place, stated, wanted, who="anna@bench", never=False):
    return boards.log_line(place, stated, wanted, who, WHEN % number, never)


def in_words(number, place, stated, wanted, never=False, who="anna@bench"):
    return (f"{WHEN % number}  {who}  entry {place}: {line_of(stated)} -> {line_of(wanted)}"
            + ("  (never came about)" if never else "") + "\n")


class Logs(harness.Case):
    """What all tests here lay out and look at."""

    def lay(self, t, *lines):
        """The table, and its log of these lines."""
        self.put("board.table", t)
        self.put("board.table.log", "".join(lines))

    def log(self):
        return (self.folder / "board.table.log").read_text()

    def edit(self, stated, wanted, place=3, **others):
        return self.mpt("edit", "board.table", place, stated.hex(), wanted.hex(), **others)

    def fits(self, t, lines, words, edits, never):
        """The log in words, then that it fits: how many edits there are in it and how many never came about."""
        self.lay(t, *lines)
        self.answers(["log", "board.table"], "".join(words) + boards.fits(edits, never))
        self.assertEqual(self.files(), {"board.table": t, "board.table.log": "".join(lines).encode()})

    def misfits(self, t, lines, end):
        """The log does not fit: exit 1, and the last line says so."""
        self.lay(t, *lines)
        answer = self.mpt("log", "board.table")
        self.assertEqual((answer.status, answer.err), (1, b""), answer)
        self.assertEqual(answer.out.decode().splitlines()[-1], "the log does not fit board.table: " + end)
        self.assertEqual(self.files(), {"board.table": t, "board.table.log": "".join(lines).encode()})

    def checked(self, edits, never=0):
        self.answers(["log", "--check", "first.table", "board.table"], boards.check_fits("first.table", "board.table", edits, never))

    def unchecked(self, end=None):
        answer = self.mpt("log", "--check", "first.table", "board.table")
        self.assertEqual((answer.status, answer.err), (1, b""), answer)
        last = answer.out.decode().splitlines()[-1]
        if end:
            self.assertEqual(last, "the log does not fit" + end)
        self.assertRegex(last, r"\Athe log does not fit")


class Words(Logs):
    def test_no_log(self):
        self.put("board.table", BENCH)
        self.answers(["log", "board.table"], "no edit is logged\n")
        self.assertEqual(list(self.files()), ["board.table"])
        self.put("board.table.log", b"")  # of an edit that was killed before its line
        self.assertEqual(self.mpt("log", "board.table").status, 0)

    def test_in_words(self):
        t = edited(edited(BENCH, 3, INT[9]), 4, LINT[1])
        self.fits(t, [log_line(1, 3, INT[1], INT[5]), log_line(2, 4, LINT[0], LINT[1], "bert@attic"), log_line(3, 3, INT[5], INT[9])],
                  [in_words(1, 3, INT[1], INT[5]), in_words(2, 4, LINT[0], LINT[1], who="bert@attic"), in_words(3, 3, INT[5], INT[9])], 3, 0)

    def test_one_edit(self):
        self.fits(edited(BENCH, 3, INT[9]), [log_line(1, 3, INT[1], INT[9])], [in_words(1, 3, INT[1], INT[9])], 1, 0)

    def test_lines_that_look_the_same(self):
        """A change that the listing does not show is shown in hexadecimal."""
        reserved = put(INT[1], 3, 0x55)
        t = edited(BENCH, 3, reserved)
        self.fits(t, [log_line(1, 3, INT[1], reserved)],
                  [f"{WHEN % 1}  anna@bench  entry 3: {INT[1].hex().upper()} -> {reserved.hex().upper()}\n"], 1, 0)

    def test_never_came_about(self):
        """By the sixth word, wherever the line stands."""
        self.fits(BENCH, [log_line(1, 3, INT[1], INT[5], never=True)], [in_words(1, 3, INT[1], INT[5], True)], 1, 1)
        t = edited(BENCH, 3, INT[9])
        self.fits(t, [log_line(1, 3, INT[1], INT[5], never=True), log_line(2, 3, INT[1], INT[9])],
                  [in_words(1, 3, INT[1], INT[5], True), in_words(2, 3, INT[1], INT[9])], 2, 1)
        self.fits(t, [log_line(1, 3, INT[1], INT[9]), log_line(2, 3, INT[9], INT[5], never=True), log_line(3, 3, INT[9], INT[7], never=True)],
                  [in_words(1, 3, INT[1], INT[9]), in_words(2, 3, INT[9], INT[5], True), in_words(3, 3, INT[9], INT[7], True)], 3, 2)
        # The same edit again after it had not come about.
        self.fits(t, [log_line(1, 3, INT[1], INT[9], never=True), log_line(2, 3, INT[1], INT[9])],
                  [in_words(1, 3, INT[1], INT[9], True), in_words(2, 3, INT[1], INT[9])], 2, 1)

    def test_there_and_back(self):
        self.fits(BENCH, [log_line(1, 3, INT[1], INT[5]), log_line(2, 3, INT[5], INT[1])],
                  [in_words(1, 3, INT[1], INT[5]), in_words(2, 3, INT[5], INT[1])], 2, 0)

    def test_who_put_it_there(self):
        """The last one whose change came about; an edit that never did put nothing there."""
        lines = [log_line(1, 3, INT[1], INT[5], "anna@bench"), log_line(2, 3, INT[5], INT[9], "bert@attic"),
                 log_line(3, 4, LINT[0], LINT[1], "carl@yard"), log_line(4, 3, INT[9], INT[8], "dora@hall", never=True)]
        both = edited(BENCH, 4, LINT[1])
        for kept, last, who, number in ((lines, INT[9], "bert@attic", 2), ([lines[0], lines[2]], INT[5], "anna@bench", 1)):
            self.lay(edited(both, 3, last), *kept)
            self.refuses(["edit", "board.table", "3", INT[1].hex(), INT[7].hex()], 22, more=(
                f"entry 3 is  {last.hex().upper()}  {line_of(last)}\nput there by {who}, {WHEN % number}\n").encode())
        # What never came about, and what is of other places, put nothing there.
        self.lay(both, log_line(1, 3, INT[1], INT[5], never=True), lines[2])
        self.refuses(["edit", "board.table", "3", INT[2].hex(), INT[7].hex()], 22, more=(
            f"entry 3 is  {INT[1].hex().upper()}  {line_of(INT[1])}\nthe log does not say who put it there\n").encode())

    def test_a_long_log(self):
        """Five thousand lines, of which every seventh never came about."""
        lines, now, came = [], 1, 0
        for number in range(5000):
            wanted = now % 255 + 1
            lines.append(log_line(number % 60, 3, INT[now], INT[wanted], never=number % 7 == 0))
            if number % 7:
                now, came = wanted, came + 1
        self.lay(edited(BENCH, 3, INT[now]), *lines)
        self.put("first.table", BENCH)
        answer = self.mpt("log", "board.table")
        self.assertEqual(answer.status, 0, answer)
        self.assertEqual(answer.out.count(b"(never came about)\n"), 5000 - came)
        self.assertTrue(answer.out.decode().endswith("\n" + boards.fits(5000, 5000 - came)))
        self.checked(5000, 5000 - came)
        self.assertEqual(self.edit(INT[now], INT[0]).status, 0)
        self.assertEqual(self.log().splitlines(keepends=True)[:-1], lines)


class LastLines(Logs):
    """The words of a line are there before its change, its end behind it: a last line without its end."""

    FIRST, LAST = log_line(1, 3, INT[1], INT[5]), log_line(2, 3, INT[5], INT[9])

    def next_edit(self, before, stands, kept):
        """The next edit is done, and behind what is kept of the log stands its line."""
        self.assertEqual(self.edit(stands, INT[7]), self.mpt_done(stands, INT[7]))
        line = f"tester@{socket.gethostname()} 3 {stands.hex().upper()} {INT[7].hex().upper()}\n"
        self.assertTrue(self.log().startswith(kept), self.log())
        self.assertRegex(self.log()[len(kept):], rf"\A[0-9T:-]{{19}}Z {line}\Z")
        self.assertEqual((self.folder / "board.table").read_bytes(), edited(before, 3, INT[7]))
        self.assertEqual(self.mpt("log", "board.table").status, 0)

    @staticmethod
    def mpt_done(was, is_):
        return harness.Answer(0, (f"entry 3 was {was.hex().upper()}  {line_of(was)}\n"
                                  f"entry 3 is  {is_.hex().upper()}  {line_of(is_)}\n").encode(), b"")

    def test_it_came_about(self):
        """What it wants stands there: it came about, and the next edit gives it its end."""
        t = edited(BENCH, 3, INT[9])
        self.fits(t, [self.FIRST, self.LAST[:-1]], [in_words(1, 3, INT[1], INT[5]), in_words(2, 3, INT[5], INT[9])], 2, 0)
        self.refuses(["edit", "board.table", "3", INT[1].hex(), INT[7].hex()], 22, more=(
            f"entry 3 is  {INT[9].hex().upper()}  {line_of(INT[9])}\nput there by anna@bench, {WHEN % 2}\n").encode())
        self.next_edit(t, INT[9], self.FIRST + self.LAST)

    def test_it_never_came_about(self):
        """Other bytes stand there: it never came about, and the next edit says so in the log."""
        t = edited(BENCH, 3, INT[5])
        self.fits(t, [self.FIRST, self.LAST[:-1]], [in_words(1, 3, INT[1], INT[5]), in_words(2, 3, INT[5], INT[9], True)], 2, 1)
        self.refuses(["edit", "board.table", "3", INT[1].hex(), INT[7].hex()], 22, more=(
            f"entry 3 is  {INT[5].hex().upper()}  {line_of(INT[5])}\nput there by anna@bench, {WHEN % 1}\n").encode())
        self.next_edit(t, INT[5], self.FIRST + self.LAST[:-1] + " never\n")

    def test_of_another_place(self):
        """The next edit is one of another place."""
        t = edited(BENCH, 4, LINT[1])
        last = log_line(1, 4, LINT[0], LINT[1])
        self.lay(t, last[:-1])
        self.next_edit(t, INT[1], last)
        self.lay(BENCH, last[:-1])
        self.next_edit(BENCH, INT[1], last[:-1] + " never\n")

    def test_the_only_line(self):
        self.fits(edited(BENCH, 3, INT[5]), [self.FIRST[:-1]], [in_words(1, 3, INT[1], INT[5])], 1, 0)
        self.fits(BENCH, [self.FIRST[:-1]], [in_words(1, 3, INT[1], INT[5], True)], 1, 1)

    def test_cut_short(self):
        """It never came about, wherever it was cut; the lines before it are as they were, and the next edit cuts it off."""
        t = edited(BENCH, 3, INT[5])
        for before, stands in ((self.FIRST, t), ("", BENCH)):
            for cut in [*range(1, len(self.LAST) - 1, 3), len(self.LAST) - 2]:
                self.lay(stands, before, self.LAST[:cut])
                answer = self.mpt("log", "board.table")
                self.assertEqual((answer.status, answer.err), (0, b""), answer)
                self.assertTrue(answer.out.decode().startswith(in_words(1, 3, INT[1], INT[5]) if before else ""), answer)
                self.assertRegex(answer.out.decode().splitlines()[-1], r"\Athe log fits the table \(edits: [012], never came about: [01]\)")
                self.next_edit(stands, base_entries(stands)[3], before)

    def test_cut_short_of_a_processor(self):
        """An entry of twenty bytes is cut off, too, wherever its line was cut; a whole line that never came about stays."""
        t, cpu = edited(BENCH, 3, INT[5]), base_entries(BENCH)[0]
        last = log_line(2, 0, cpu, put(cpu, 19, 9))
        begins = last.index(" 0 ") + 3
        for cut in (1, 15, 16, 17, 39, 40, 41, 42, 56, 57, 58, 80):
            self.lay(t, self.FIRST, last[:begins + cut])
            self.next_edit(t, INT[5], self.FIRST)
        self.lay(t, self.FIRST, last[:-1])
        self.next_edit(t, INT[5], self.FIRST + last[:-1] + " never\n")

    def test_cut_short_in_its_last_word(self):
        """Whoever was to write `never` was killed himself: the change never came about, and the log still fits."""
        t = edited(BENCH, 3, INT[5])
        for ending in (" ", " n", " neve", " never"):
            self.lay(t, self.FIRST, self.LAST[:-1] + ending)
            self.assertEqual(self.mpt("log", "board.table").status, 0)
            self.assertEqual(self.edit(INT[5], INT[7]).status, 0)
            self.assertTrue(self.log().startswith(self.FIRST))
            answer = self.mpt("log", "board.table")
            self.assertEqual(answer.status, 0, answer)
            self.assertTrue(answer.out.decode().splitlines()[-2].endswith(f"{line_of(INT[5])} -> {line_of(INT[7])}"))

    def test_a_refused_edit_leaves_it(self):
        for last in (self.LAST[:-1], self.LAST[:30]):
            self.lay(edited(BENCH, 3, INT[5]), self.FIRST, last)
            before = self.files()
            self.assertEqual(self.edit(INT[1], INT[7]).status, 1)
            self.assertEqual(self.files(), before)

    def test_zeros_behind_the_last_line(self):
        """As some disks leave them when the power fails. They go with what was cut short; a whole line gets its end."""
        t, whole = edited(BENCH, 3, INT[5]), self.LAST[:-1]
        for tail, kept in (("\x00", ""), ("\x00" * 70, ""), (self.LAST[:30] + "\x00" * 40, ""), (whole + "\x00" * 9, whole + " never\n")):
            with self.subTest(repr(tail)):
                self.lay(t, self.FIRST, tail)
                self.next_edit(t, INT[5], self.FIRST + kept)
        self.lay(edited(BENCH, 3, INT[9]), self.FIRST, whole + "\x00")
        self.next_edit(edited(BENCH, 3, INT[9]), INT[9], self.FIRST + self.LAST)
        # Where something stands behind zeros it is none of ours.
        self.lay(t, self.FIRST, "\x00" * 20 + self.LAST[20:30])
        before = self.files()
        self.assertEqual(self.edit(INT[5], INT[7]).status, 2)
        self.assertEqual(self.files(), before)


class Misfits(Logs):
    def test_a_table_changed_by_other_means(self):
        lines = [log_line(1, 3, INT[1], INT[5]), log_line(2, 4, LINT[0], LINT[1]), log_line(3, 3, INT[5], INT[9])]
        self.misfits(edited(edited(BENCH, 3, INT[77]), 4, LINT[1]), lines, "line 3 cannot be taken out of it")
        self.misfits(edited(edited(BENCH, 3, INT[9]), 4, put(LINT[1], 5, 3)), lines, "line 2 cannot be taken out of it")
        # A line of which the place is none of the table's, or is of another type.
        self.misfits(BENCH, [log_line(1, 5, INT[1], INT[5])], "line 1 cannot be taken out of it")
        self.misfits(BENCH, [log_line(1, 2, INT[1], INT[5])], "line 1 cannot be taken out of it")

    def test_its_lines_are_shown(self):
        """With their bytes: what the listing would say of them is not known."""
        self.lay(BENCH, log_line(1, 3, INT[1], INT[5]), log_line(2, 3, INT[5], INT[9], never=True))
        answer = self.mpt("log", "board.table")
        self.assertEqual((answer.status, answer.out.decode()), (1, (
            f"{WHEN % 1}  anna@bench  entry 3: {INT[1].hex().upper()} -> {INT[5].hex().upper()}\n"
            f"{WHEN % 2}  anna@bench  entry 3: {INT[5].hex().upper()} -> {INT[9].hex().upper()}  (never came about)\n"
            "the log does not fit board.table: line 2 cannot be taken out of it\n")))

    def test_an_old_table_put_back(self):
        """The edit came about, for its line has its end: whoever put the old table back has taken it away."""
        self.misfits(BENCH, [log_line(1, 3, INT[1], INT[5])], "line 1 cannot be taken out of it")

    def test_a_line_removed(self):
        lines = [log_line(number, 3, INT[number], INT[number + 1]) for number in range(1, 6)]
        t = edited(BENCH, 3, INT[6])
        self.misfits(t, lines[:2] + lines[3:], "line 2 cannot be taken out of it")
        self.misfits(t, lines[:-1], "line 4 cannot be taken out of it")
        # The first one: what is left fits the table, but not what the table was before.
        self.put("first.table", BENCH)
        self.lay(t, *lines[1:])
        self.assertEqual(self.mpt("log", "board.table").status, 0)
        self.unchecked(" first.table: line 1 cannot be put in")
        self.lay(t, *lines)
        self.checked(5)

    def test_two_lines_exchanged(self):
        lines = [log_line(number, 3, INT[number], INT[number + 1]) for number in range(1, 6)]
        self.misfits(edited(BENCH, 3, INT[6]), [lines[0], lines[2], lines[1], *lines[3:]], "line 3 cannot be taken out of it")

    def test_never_that_did(self):
        """A line says that it never came about, and what it wanted stands there."""
        self.put("first.table", BENCH)
        self.lay(edited(BENCH, 3, INT[5]), log_line(1, 3, INT[1], INT[5], never=True))
        self.assertEqual(self.mpt("log", "board.table").status, 1)
        self.unchecked()

    def test_a_garbage_line(self):
        good = [log_line(1, 3, INT[1], INT[5]), log_line(2, 3, INT[5], INT[9])]
        t = edited(BENCH, 3, INT[9])
        for garbage in ("\n", "garbage\n", "2026-11-16T05:06:34Z anna@bench 3 0300000000010201\n", good[1].replace(" 3 ", " three "),
                        good[1].replace(" 3 ", " -3 "), good[1].replace("03000", "0300", 1), good[1].replace("0300", "03G0", 1),
                        good[1][:-1] + " more\n",
                        good[1].replace("2026-11-16T05:06:02Z", "yesterday"), good[1].replace("@", "."), good[1][:-1] + " never never\n",
                        "\x00" * 40 + "\n", " " + good[1], "x" * 100000 + "\n"):
            for lines in ([garbage, *good], [good[0], garbage, good[1]], [*good, garbage]):
                number = lines.index(garbage) + 1
                with self.subTest(repr(garbage[:60]), number=number):
                    self.misfits(t, lines, f"line {number} is no line of a log")
                    # Such a log is not written to, and without its log an edit is not done.
                    before = self.files()
                    answer = self.edit(INT[9], INT[7])
                    self.assertEqual((answer.status, answer.out), (2, b""))
                    self.assertRegex(answer.err, rb"\Ampt: (/.*/)?board\.table\.log: line %d is no line of a log\n\Z" % number)
                    self.assertEqual(self.files(), before)

    def test_an_edit_with_a_log_that_does_not_fit(self):
        """At 22 the log tells who put it there only where it fits. An edit that is not refused goes on, with a note."""
        self.lay(edited(BENCH, 3, INT[77]), log_line(1, 3, INT[1], INT[5]))
        self.refuses(["edit", "board.table", "3", INT[1].hex(), INT[7].hex()], 22, more=(
            f"entry 3 is  {INT[77].hex().upper()}  {line_of(INT[77])}\nthe log does not fit what stands there: see 'mpt log'\n").encode())
        answer = self.edit(INT[77], INT[7])
        self.assertEqual(answer.status, 0)
        self.assertRegex(answer.err, rb"\Ampt: note: \S.*\n\Z")
        self.assertEqual((self.folder / "board.table").read_bytes(), edited(BENCH, 3, INT[7]))
        self.assertEqual(len(self.log().splitlines()), 2)

    def test_an_edit_beside_what_does_not_fit(self):
        """An older copy was put back over the table: an edit of another entry says so too."""
        self.lay(BENCH, log_line(1, 3, INT[1], INT[5]))
        answer = self.edit(LINT[0], LINT[1], place=4)
        self.assertEqual((answer.status, answer.err), (0, b"mpt: note: the log does not fit the table: see 'mpt log'\n"))

    def test_a_place_that_is_none(self):
        """Of a change that never came about too, and however far off."""
        for place in (5, 4000000000, 2**64 - 1):
            self.misfits(BENCH, [log_line(1, place, INT[1], INT[5], never=True)], "line 1 cannot be taken out of it")

    def test_a_last_line_of_which_nothing_stands_there(self):
        """Killed behind its words, and then another program wrote the entry: the next edit says that it does not fit."""
        self.lay(edited(BENCH, 3, INT[77]), log_line(1, 3, INT[1], INT[5])[:-1])
        answer = self.edit(INT[77], INT[7])
        self.assertEqual((answer.status, answer.err), (0, b"mpt: note: the log does not fit the table: see 'mpt log'\n"))
        self.assertEqual(self.mpt("log", "board.table").status, 1)

    def test_a_file_that_is_no_log(self):
        """One line without an end, which could be somebody's own: it is not cut off."""
        for text in ("20261116", "2026-11-16T05:06:34Z swapped the board", "2026-11-16T05:06:34Z otto@bench: do not edit", "2026-11-16T05:06:34Zz", "x"):
            self.lay(BENCH, text)
            before = self.files()
            with self.subTest(text):
                self.assertEqual(self.edit(INT[1], INT[7]).status, 2)
                self.assertEqual(self.files(), before)
                self.assertEqual(self.mpt("log", "board.table").status, 1)

    def test_of_no_table(self):
        self.lay(b"no table", log_line(1, 3, INT[1], INT[5]))
        self.assertNotEqual(self.mpt("log", "board.table").status, 0)

    def test_a_log_that_is_a_link(self):
        """It is not followed: somebody else's file is not written to."""
        self.put("board.table", BENCH)
        other = self.put("precious", b"")
        (self.folder / "board.table.log").symlink_to("precious")
        answer = self.edit(INT[1], INT[7])
        self.assertEqual((answer.status, answer.out), (2, b""), answer)
        self.assertEqual((other.read_bytes(), (self.folder / "board.table").read_bytes()), (b"", BENCH))
        self.assertTrue((self.folder / "board.table.log").is_symlink())


class Checked(Logs):
    def test_check(self):
        """The logged edits are put into the first table by the editor; those that never came about are not."""
        self.put("first.table", BENCH)
        t = edited(edited(BENCH, 3, INT[9]), 4, LINT[1])
        lines = [log_line(1, 3, INT[1], INT[5]), log_line(2, 4, LINT[0], LINT[1]), log_line(3, 3, INT[5], INT[9])]
        self.lay(t, *lines)
        self.checked(3)
        self.lay(edited(BENCH, 3, INT[9]), log_line(1, 3, INT[1], INT[5], never=True), log_line(2, 3, INT[1], INT[9]),
                 log_line(3, 4, LINT[0], LINT[1], never=True))
        self.checked(3, 2)
        # A last line without its end, which came about, and which never did.
        self.lay(t, "".join(lines)[:-1])
        self.checked(3)
        self.lay(edited(t, 3, INT[5]), "".join(lines)[:-1])
        self.checked(3, 1)
        self.lay(BENCH)
        self.checked(0)
        before = self.files()
        self.checked(0)
        self.assertEqual(self.files(), before)

    def test_with_bytes_behind(self):
        self.put("first.table", BENCH + b"behind")
        self.lay(edited(BENCH + b"behind", 3, INT[9]), log_line(1, 3, INT[1], INT[9]))
        self.checked(1)
        self.lay(edited(BENCH + b"BEHIND", 3, INT[9]), log_line(1, 3, INT[1], INT[9]))
        self.unchecked(": its edits put into first.table do not give board.table (edits: 1, never came about: 0)")

    def test_other_first_tables(self):
        lines = [log_line(1, 3, INT[1], INT[5]), log_line(2, 3, INT[5], INT[9])]
        t = edited(BENCH, 3, INT[9])
        # Another one in an entry that was edited, in one that was not, and in its header; and the last one.
        others = ": its edits put into first.table do not give board.table (edits: 2, never came about: 0)"
        for first, end in ((edited(BENCH, 3, INT[2]), " first.table: line 1 cannot be put in"), (edited(BENCH, 4, LINT[1]), others),
                           (boards.mended(put(BENCH, 8, 0x41), 96), others), (t, " first.table: line 1 cannot be put in")):
            self.put("first.table", first)
            self.lay(t, *lines)
            self.unchecked(end)
        # One that is no table.
        self.put("first.table", BENCH[:-1])
        self.refuses(["log", "--check", "first.table", "board.table"], 7)

    def test_other_tables(self):
        """An edit of the table that is not logged, at a place of which the log knows nothing; and a log that is none."""
        self.put("first.table", BENCH)
        lines = [log_line(1, 3, INT[1], INT[5]), log_line(2, 3, INT[5], INT[9])]
        t = edited(BENCH, 3, INT[9])
        self.lay(edited(t, 4, LINT[1]), *lines)
        self.assertEqual(self.mpt("log", "board.table").status, 0)
        self.unchecked()
        self.lay(t, *lines, "garbage\n")
        self.unchecked(" board.table: line 3 is no line of a log")


if __name__ == "__main__":
    harness.main("logs that fit, last lines without their end, and logs that do not fit")
