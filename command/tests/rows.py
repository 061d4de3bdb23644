"""What the tests of books share: a book of three machines, and saves and restores put in by hand.

Books are put together here from document 02 (boards.py), and so is what a save or a restore makes of them.
"""
import socket

import harness
from boards import BENCH, RICH, book, cpu, edited, table, with_save

WHO = f"tester@{socket.gethostname()}"
WHEN = "2026-11-16T05:06:%02dZ"
EMPTY = b"\x01\x00\x00"
SMALL = table([cpu(0, 3)])  # 64 bytes, and no table has fewer
SECOND = edited(BENCH, 3, bytes.fromhex("0300000000010209"))
THIRD = edited(SECOND, 4, bytes.fromhex("040300000000FF01"))
# Three machines, of which the rows are mixed.
ROWS = [(7, 1, BENCH), (0, 1, SMALL), (7, 2, SECOND), (65535, 1, RICH), (7, 3, THIRD)]
BOOK = book(ROWS)
FROM_1_TO_2 = """\
-    3  0300000000010201                          int INT 0 1 0 0 2 1
+    3  0300000000010209                          int INT 0 1 0 0 2 9
"""
FROM_2_TO_3 = """\
-    4  040300000000FF00                          lint EXTINT 0 0 0 0 255 0
+    4  040300000000FF01                          lint EXTINT 0 0 0 0 255 1
"""


def save(machine, began, body="new.table", of="boards.book"):
    """The words of a save."""
    return ["book", "save", of, machine, "--began", began, body]


def restore(machine, old, latest, of="boards.book"):
    return ["book", "restore", of, machine, old, "--latest", latest]


def counts(rows):
    return f"(rows: {len(rows)}, bytes: {len(book(rows))} of 32768)\n"


def saved(rows):
    """What a save prints that has added the last of these rows."""
    machine, edition, _ = rows[-1]
    return f"machine {machine}: edition {edition} is saved {counts(rows)}"


class Books(harness.Case):
    """What all tests of books lay out and look at."""

    def lay(self, content, log=None):
        """The book, and its log or none."""
        self.path = self.anew("boards.book", content)
        if log is not None:
            self.put("boards.book.log", log)
        return self.path

    def log(self):
        return (self.folder / "boards.book.log").read_text()

    def saves(self, rows, machine, body, behind=b""):
        """A save that is done, and the rows behind it."""
        self.put("new.table", body)
        now = with_save(rows, machine, body)
        self.answers(save(machine, now[-1][1] - 1), saved(now))
        self.assertEqual(self.path.read_bytes(), book(now) + behind)
        return now

    def restores(self, rows, machine, old, behind=b""):
        body = next(body for of, edition, body in rows if (of, edition) == (machine, old))
        now = with_save(rows, machine, body)
        edition = now[-1][1]
        self.answers(restore(machine, old, edition - 1),
                     f"machine {machine}: edition {edition} is edition {old} again {counts(now)}")
        self.assertEqual(self.path.read_bytes(), book(now) + behind)
        return now

    def stays(self, words, number, more=""):
        """A refusal: no file is otherwise, and none is made."""
        before = self.files()
        answer = self.refuses(words, number, more=more.encode())
        self.assertEqual(self.files(), before)
        return answer
