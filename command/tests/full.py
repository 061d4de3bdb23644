"""A disk that is full, and calls that fail: an edit or a save is done whole, or the file and its log are as they were.

    python3 -B command/tests/full.py COMMAND
"""
import errno
import json
import os
import resource
import shutil
import subprocess
import sys
import tempfile
from pathlib import Path

import boards
import harness
import preload
import rows
from boards import BENCH, book, edited, save_line, with_save

STATED, WANTED = "0300000000010201", "0300000000010209"
# The end of a log's line: there, not there, or either.
NEWLINE = {True: "\n", False: "", None: "\n?"}
seen = {"limits": 0, "failing calls": 0, "full disks": 0}


class Edit:
    """An edit of the bench board's table, and a log in which another place was edited before."""
    NAME, WORDS, BESIDE = "board.table", ["edit", "board.table", "3", STATED, WANTED], {}
    BEFORE, AFTER = BENCH, edited(BENCH, 3, bytes.fromhex(WANTED))
    EARLIER = b"2026-11-16T05:06:34Z anna@bench 4 040300000000FF01 040300000000FF00\n"
    BACK = b"2026-11-16T05:06:34Z anna@bench 4 040300000000FF00 040300000000FF01\n"
    LONG = EARLIER + (BACK + EARLIER) * 2
    LINE = f"3 {STATED} {WANTED}"
    TOLD, NEVER = ["log", "board.table"], rb"  entry 3: .*  \(never came about\)\n[^\n]*\n\Z"


class Save:
    """A save into a book with one row, and a log that tells of it."""
    NAME, WORDS, BESIDE = "boards.book", rows.save(7, 1), {"new.table": BENCH}
    BEFORE, AFTER = book([(7, 1, rows.SMALL)]), book(with_save([(7, 1, rows.SMALL)], 7, BENCH))
    EARLIER, LINE = save_line(7, 1).encode(), "7 2 0"
    LONG = EARLIER + save_line(9, 1, never=True).encode() * 5
    TOLD, NEVER = ["book", "history", "boards.book"], rb"\Amachine 7      edition 1 .*\n\Z"


class Restore(Save):
    """The row of that book once more."""
    WORDS, AFTER, LINE = rows.restore(7, 1, 1), book(with_save([(7, 1, rows.SMALL)], 7, rows.SMALL)), "7 2 1"


class Disk(Edit, harness.Case):
    """What every test here lays out and looks at: of an edit, or of what stands before this class."""

    def lay(self, log=None, folder=None):
        folder = folder or self.folder
        for path in folder.iterdir():
            path.unlink()
        for name, content in {self.NAME: self.BEFORE, **self.BESIDE}.items():
            (folder / name).write_bytes(content)
        if log is not None:
            (folder / f"{self.NAME}.log").write_bytes(log)

    def undone(self, answer, log, reason=None):
        """Nothing came of it: exit 2 with the reason, the file and the log as before, no new file. Where there was no
        log there may be an empty one now: others may hold its lock."""
        self.assertEqual((answer.status, answer.out), (2, b""), answer)
        if reason:
            self.assertRegex(answer.err, rb"\Ampt: .*: %s\n\Z" % reason.encode())
        now = self.files()
        if log is None and now.get(f"{self.NAME}.log") == b"":
            del now[f"{self.NAME}.log"]
        kept = {} if log is None else {f"{self.NAME}.log": log}
        self.assertEqual(now, {self.NAME: self.BEFORE, **self.BESIDE, **kept}, answer)

    def done(self, log, ended=True):
        """It is done, with one line more in the log. What fails behind the rename may leave that line without its end."""
        self.has_line(log, ended)
        now = self.files()
        del now[f"{self.NAME}.log"]
        self.assertEqual(now, {self.NAME: self.AFTER, **self.BESIDE})

    def has_line(self, log, ended):
        new = self.files()[f"{self.NAME}.log"]
        self.assertTrue(new.startswith(log or b""))
        self.assertRegex(new[len(log or b""):].decode(), rf"\A\S+Z \S+ {self.LINE}{NEWLINE[ended]}\Z")

    def never(self, answer, log):
        """The rename failed: the old file, and a line without its end, of which the command says that it never came about."""
        self.assertEqual((answer.status, answer.out), (2, b""), answer)
        self.has_line(log, False)
        now = self.files()
        del now[f"{self.NAME}.log"]
        self.assertEqual(now, {self.NAME: self.BEFORE, **self.BESIDE})
        self.assertRegex(self.mpt(*self.TOLD).out, self.NEVER)


class Limits(Disk):
    """A limit on the length of files. At it the system sends a signal, which ends a process that does not ignore it; then
    the call fails, as it does on a full disk."""

    @staticmethod
    def limit_to(length):
        return lambda: resource.setrlimit(resource.RLIMIT_FSIZE, (length, length))

    def limited(self, log, step=1):
        self.lay(log)
        self.assertEqual(self.mpt(*self.WORDS).status, 0)
        log_length = (self.folder / f"{self.NAME}.log").stat().st_size
        need = max(len(self.AFTER), log_length - 1)
        for limit in [*range(0, need - 3, step), *range(need - 3, need + 3)]:
            self.lay(log)
            answer = self.mpt(*self.WORDS, preexec_fn=self.limit_to(limit))
            with self.subTest(limit=limit, log=log):
                if limit < need:
                    self.undone(answer, log, "File too large")
                else:
                    self.assertEqual(answer.status, 0, answer)
                    self.done(log, ended=limit >= log_length)
                    self.assertEqual(self.mpt(*self.TOLD).status, 0)
            seen["limits"] += 1

    def test_with_a_log(self):
        self.limited(self.EARLIER)

    def test_with_a_log_longer_than_the_file(self):
        self.assertGreater(len(self.LONG), len(self.AFTER))
        self.limited(self.LONG, step=7)

    def test_without_a_log(self):
        self.limited(None)


class LimitsOfASave(Save, Limits):
    pass


class LimitsOfNewFiles(harness.Case):
    def test_new_files(self):
        """-o: the file is whole, or it is not there."""
        self.put("board.dump", boards.rom(boards.pointer(0xF0010), BENCH))
        for limit in range(0, len(BENCH) + 2):
            (self.folder / "new").unlink(missing_ok=True)
            answer = self.mpt("table", "board.dump", "-o", "new", preexec_fn=Limits.limit_to(limit))
            if limit < len(BENCH):
                self.assertEqual((answer.status, answer.err), (2, b"mpt: new: File too large\n"))
                self.assertNotIn("new", self.files())
            else:
                self.assertEqual((answer.status, self.files()["new"]), (0, BENCH))
            seen["limits"] += 1


class FailingCalls(Disk, preload.Case):
    """Every call by which the command touches a file fails once, with no space and with an error of the disk."""

    def each_call(self, log, left=None):
        self.lay(log)
        names = self.library.calls(self.WORDS, self.folder)
        # The new file, the log, and the folder of a new log are on the disk before the rename, and the folder behind it.
        self.assertEqual([name for name in names if name in ("fsync", "rename")],
                         ["fsync", "fsync", *([] if log else ["fsync"]), "rename", "fsync"])
        rename = names.index("rename") + 1
        statuses = set()
        for error in (errno.ENOSPC, errno.EIO):
            for number, name in enumerate(names, 1):
                self.lay(log)
                if left is not None:
                    self.put(f"{self.NAME}.mpt-new", left)
                answer = self.mpt(*self.WORDS, environment=self.library.at(number, "fail", error))
                with self.subTest(number=number, name=name, error=os.strerror(error), log=log):
                    self.assertIn(answer.status, (0, 2), answer)
                    if answer.status == 0 or number > rename:
                        self.done(log, ended=None if number > rename else True)  # done, and what failed then is said
                        if rename < number <= rename + 2:  # the folder is opened and synced
                            self.assertIn(b": changed, but its folder is not synced: " + os.strerror(error).encode(), answer.err)
                    elif number == rename:
                        self.never(answer, log)
                    else:
                        if left is not None and self.files().get(f"{self.NAME}.mpt-new") == left:
                            (self.folder / f"{self.NAME}.mpt-new").unlink()  # it failed before this was reached
                        self.undone(answer, log)
                        # Where an old file could not be cleared, the new one is not made: that is the reason then.
                        self.assertTrue(os.strerror(error).encode() in answer.err or (name == "unlink" and b"File exists" in answer.err), answer)
                    self.assertEqual(self.mpt(*self.TOLD).status, 0)
                statuses.add((answer.status, number <= rename))
                seen["failing calls"] += 1
        self.assertIn((2, True), statuses)

    def test_with_a_log(self):
        self.each_call(self.EARLIER)

    def test_without_a_log(self):
        self.each_call(None)

    def test_with_a_new_file_left(self):
        self.each_call(self.EARLIER, left=b"left by a process that was killed")

    def test_a_disk_that_is_gone(self):
        """From a call on none succeeds: nothing can be put right any more, but the file is whole, and the log fits it."""
        self.lay(self.EARLIER)
        names = self.library.calls(self.WORDS, self.folder)
        for number in range(1, len(names) + 2):
            self.lay(self.EARLIER)
            answer = self.mpt(*self.WORDS, environment=self.library.at(number, "gone", errno.EIO))
            with self.subTest(number=number):
                self.assertIn(answer.status, (0, 2))
                self.assertIn(self.files()[self.NAME], (self.BEFORE, self.AFTER))
                self.assertTrue(answer.status == 2 or self.files()[self.NAME] == self.AFTER)
                self.assertEqual(self.mpt(*self.TOLD).status, 0)
                # When the disk is there again the next change goes on, and clears what was left.
                if self.files()[self.NAME] == self.BEFORE:
                    self.assertEqual(self.mpt(*self.WORDS).status, 0)
                    self.assertEqual(set(self.files()), {self.NAME, f"{self.NAME}.log", *self.BESIDE})
            seen["failing calls"] += 1

    def test_short_reads_and_writes(self):
        """A read or a write may move less than it is asked for: the rest comes by the next one."""
        for number in range(1, 30):
            self.lay(self.EARLIER)
            answer = self.mpt(*self.WORDS, environment=self.library.at(number, "short"))
            self.assertEqual(answer.status, 0, answer)
            self.done(self.EARLIER)
            seen["failing calls"] += 1


class FailingCallsOfASave(Save, FailingCalls):
    pass


class FailingCallsOfARestore(Restore, FailingCalls):
    pass


class FailingCallsOfNewFiles(preload.Case):
    def test_new_files(self):
        """-o: every call fails once."""
        self.put("board.dump", boards.rom(boards.pointer(0xF0010), BENCH))
        words = ["table", "board.dump", "-o", "new"]
        names = self.library.calls(words, self.folder, ("open", "write", "fsync", "close"))
        for number, name in enumerate(names, 1):
            (self.folder / "new").unlink(missing_ok=True)
            answer = self.mpt(*words, environment=self.library.at(number, "fail", errno.ENOSPC))
            with self.subTest(number=number, name=name):
                self.assertIn(answer.status, (0, 2))
                self.assertEqual(self.files().get("new"), BENCH if answer.status == 0 else None)
                self.assertTrue(answer.status == 0 or b"No space left on device" in answer.err)
            seen["failing calls"] += 1


# ---- a disk of a few pages, in a space of mounts that ends with the process

PAGES = 8


def in_own_mounts(words):
    return (["unshare", "--mount"] if harness.ROOT_USER else ["unshare", "--map-root-user", "--mount"]) + ["--", *words]


def fill(folder, free):
    """All pages of the disk but so many are taken."""
    with open(folder / "filler", "wb", buffering=0) as filler:
        try:
            while filler.write(bytes(4096)) == 4096:
                pass
        except OSError as full:
            assert full.errno == errno.ENOSPC
        size = os.fstat(filler.fileno()).st_size
    os.truncate(folder / "filler", size - 4096 * free)


def on_small_disk(folder, sort, behind, log, free):
    """The change on a disk with so many free pages, or with room for no more files, as what it answered and left."""
    files = {sort.NAME: sort.BEFORE + behind, **sort.BESIDE, **({} if log is None else {f"{sort.NAME}.log": log})}
    names = "size=%d" % (4096 * PAGES) if free is not None else "nr_inodes=%d" % (1 + len(files))
    subprocess.run(["mount", "-t", "tmpfs", "-o", names, "tmpfs", folder], check=True)
    try:
        for name, content in files.items():
            (folder / name).write_bytes(content)
        if free is not None:
            fill(folder, free)
        answer = harness.run(*sort.WORDS, cwd=folder)
        left = {path.name: path.read_bytes().hex() for path in folder.iterdir() if path.name not in ("filler", *sort.BESIDE)}
    finally:
        subprocess.run(["umount", folder], check=True)
    return [answer.status, answer.out.decode(), answer.err.decode(), left]


SORTS = {"edit": Edit, "save": Save, "restore": Restore}


def small_disks():
    """Each sort, with bytes behind the file's own and without, with a log and without, and with how many pages free."""
    return [(name, behind, SORTS[name].EARLIER if log else None, free)
            for name in SORTS for behind in (0, 5000) for log in (False, True) for free in [*range(5), None]]


def inside():
    """In the space of mounts: every case, written as JSON."""
    harness.command = Path(sys.argv[1])
    json.dump([on_small_disk(Path(sys.argv[3]), SORTS[name], bytes(behind), log, free)
               for name, behind, log, free in small_disks()], sys.stdout)


class SmallDisk(harness.Case):
    def test_a_full_disk(self):
        if not shutil.which("unshare") or subprocess.run(
                in_own_mounts(["mount", "-t", "tmpfs", "tmpfs", self.folder]), stdout=subprocess.DEVNULL, stderr=subprocess.DEVNULL).returncode:
            self.skipTest("no right to mount a disk here")
        disk = Path(tempfile.mkdtemp(prefix="mpt-"))
        self.addCleanup(disk.rmdir)
        words = [sys.executable, "-B", __file__, str(harness.command), "--inside", str(disk)]
        said = subprocess.run(in_own_mounts(words), capture_output=True, timeout=120)
        self.assertEqual(said.returncode, 0, said.stderr.decode())
        statuses = set()
        for (name, behind, log, free), answer in zip(small_disks(), json.loads(said.stdout)):
            with self.subTest(name, behind=behind, log=log, free=free):
                statuses.add((name, self.as_it_should(SORTS[name], behind, log, free, *answer)))
            seen["full disks"] += 1
        self.assertEqual(statuses, {(name, status) for name in SORTS for status in (0, 2)})
        harness.runs += len(small_disks())

    def as_it_should(self, sort, behind, log, free, status, out, err, left):
        """It is done where the pages suffice: for the new file, and one for a log that is not there. Its status."""
        pages = -(-(len(sort.AFTER) + behind) // 4096)
        fits = free is not None and free >= pages + (log is None)
        self.assertEqual(status, 0 if fits else 2, err)
        new_log = left.pop(f"{sort.NAME}.log", None)
        self.assertEqual(left, {sort.NAME: ((sort.AFTER if fits else sort.BEFORE) + bytes(behind)).hex()})
        if fits:
            self.assertTrue(new_log.startswith((log or b"").hex()))
            self.assertEqual(bytes.fromhex(new_log)[len(log or b""):].count(b"\n"), 1)
        else:
            self.assertRegex(err, r"\Ampt: .*: No space left on device\n\Z")
            self.assertIn(new_log, [log.hex()] if log else [None, ""])
        return status


if __name__ == "__main__":
    if sys.argv[2:3] == ["--inside"]:
        inside()
    else:
        harness.main(lambda: ", ".join(f"{count} {name}" for name, count in seen.items()))
