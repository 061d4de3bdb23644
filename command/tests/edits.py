"""edit: what it changes, what it prints, what it refuses, and what it leaves as it was.

    python3 -B command/tests/edits.py COMMAND
"""
import datetime
import os
import pwd
import socket

import boards
import harness
from boards import BENCH, RICH, base_entries, edited, line_of, put, table

STATED, WANTED = "0300000000010201", "0300000000010209"
DONE = """\
entry 3 was 0300000000010201  int INT 0 1 0 0 2 1
entry 3 is  0300000000010209  int INT 0 1 0 0 2 9
"""
WHO = f"tester@{socket.gethostname()}"


def done_text(t, place, wanted):
    was = base_entries(t)[place]
    return (f"entry {place} was {was.hex().upper()}  {line_of(was)}\n"
            f"entry {place} is  {wanted.hex().upper()}  {line_of(wanted)}\n")


class BenchBoard(harness.Case):
    """The paper's P5 to P7, and every number that an edit has of its own."""

    def setUp(self):
        super().setUp()
        self.path = self.put("board.table", BENCH)

    def stays(self, *words, number, inner=None, more=None):
        """A refusal leaves every byte, and makes no file."""
        before = self.files()
        self.refuses(["edit", "board.table", *words], number, inner, more)
        self.assertEqual(self.files(), before)

    def test_p5(self):
        self.answers(["edit", "board.table", "3", STATED, WANTED], DONE)
        now = self.path.read_bytes()
        self.assertEqual(now[7], 0xB8)
        self.assertEqual(now, put(put(BENCH, 7, 0xB8), 87, 9))
        self.assertEqual(now, edited(BENCH, 3, bytes.fromhex(WANTED)))
        self.assertEqual(sorted(self.files()), ["board.table", "board.table.log"])

    def test_p6(self):
        """The same edit again: what stands there now is shown, with who put it there and when."""
        self.answers(["edit", "board.table", "3", STATED, WANTED], DONE)
        time = self.log_lines()[0].split()[0]
        self.stays("3", STATED, WANTED, number=22, more=(
            f"entry 3 is  0300000000010209  int INT 0 1 0 0 2 9\nput there by {WHO}, {time}\n").encode())

    def test_22_without_a_log(self):
        other = put(bytes.fromhex(STATED), 7, 5).hex()
        self.stays("3", other, WANTED, number=22, more=(
            b"entry 3 is  0300000000010201  int INT 0 1 0 0 2 1\nthe log does not say who put it there\n"))

    def test_22_in_its_words(self):
        answer = self.mpt("edit", "board.table", "3", put(bytes.fromhex(STATED), 7, 5).hex(), WANTED)
        self.assertTrue(answer.out.startswith(b"refused 22: other bytes stand there now\n"), answer)

    def test_22_at_another_entry_than_the_log_has(self):
        self.answers(["edit", "board.table", "3", STATED, WANTED], DONE)
        self.stays("4", "040300000000FF01", "040300000000FF01", number=22, more=(
            b"entry 4 is  040300000000FF00  lint EXTINT 0 0 0 0 255 0\nthe log does not say who put it there\n"))

    def test_20(self):
        for place in ("5", "6", "255", "65535", "4294967295", "4294967299", "0x5", "0xFFFFFFFF"):  # P7
            self.stays(place, STATED, WANTED, number=20)

    def test_21(self):
        for stated, wanted in ((STATED[:-2], WANTED), (STATED, WANTED[:-2]), (STATED + "00", WANTED), (STATED, WANTED + "00"),
                               (STATED, "04" + WANTED[2:]), (STATED + "00", WANTED + "00"), (STATED, "00" * 20), ("00" * 300, WANTED)):
            self.stays("3", stated, wanted, number=21)

    def test_23(self):
        for place, wanted, inner in ((0, "0000100112050000" + "00" * 12, 14), (0, "0000100212050000" + "00" * 12, 14),
                                     (1, "0101495341202020", 17), (1, "0100585858202020", 15), (2, "02021101000000FE", None),
                                     (2, "02FF11010000C0FE", 16), (2, "0202110100000000", 16),
                                     (3, "0300000001010201", 17), (3, "0304000000010201", 17), (3, "0300020000010201", 17),
                                     (4, "040300000000FF02", 17)):
            stated = base_entries(BENCH)[place].hex()
            with self.subTest(wanted):
                if inner:
                    self.stays(str(place), stated, wanted, number=23, inner=inner)
                else:  # sound: a multiple of 1,024
                    self.assertEqual(self.mpt("edit", "board.table", str(place), stated, wanted).status, 0)
                    self.anew("board.table", BENCH)

    def test_forms_of_words(self):
        for place in ("3", "03", "0x3", "0x03"):
            for stated in (STATED, STATED.lower(), "03 00 00 00 00 01 02 01", " 0300 00000001 0201 "):
                self.anew("board.table", BENCH)
                self.answers(["edit", "board.table", place, stated, WANTED.lower()], DONE)
        self.anew("board.table", BENCH)
        self.answers(["edit", "--", "board.table", "3", STATED, WANTED], DONE)

    def test_no_change(self):
        """Wanted is what stands there: an answer, and the table stays."""
        self.answers(["edit", "board.table", "3", STATED, STATED], DONE.replace(WANTED, STATED).replace("2 9", "2 1"))
        self.assertEqual(self.path.read_bytes(), BENCH)

    def test_log_line(self):
        """Five words: the time in UTC whatever the clock here shows, who, the place, what was stated and what was wanted."""
        before = datetime.datetime.now(datetime.timezone.utc).replace(microsecond=0, tzinfo=None)
        self.answers(["edit", "board.table", "0x3", STATED.lower(), WANTED.lower()], DONE,
                     environment={"MPT_USER": "anna", "TZ": "Asia/Tokyo"})
        after = datetime.datetime.now(datetime.timezone.utc).replace(tzinfo=None)
        lines = self.log_lines()
        self.assertEqual(len(lines), 1)
        time, *others = lines[0].split(" ")
        self.assertEqual(others, [f"anna@{socket.gethostname()}", "3", STATED, WANTED])
        self.assertTrue(before <= datetime.datetime.strptime(time, "%Y-%m-%dT%H:%M:%SZ") <= after, time)

    def log_lines(self):
        text = (self.folder / "board.table.log").read_text()
        self.assertTrue(text.endswith("\n"))
        return text.splitlines()

    def test_who(self):
        """MPT_USER, else the account's name; and no name breaks the log."""
        try:
            account = pwd.getpwuid(os.geteuid()).pw_name
        except KeyError:
            account = "unknown"
        for name, wanted in (("anna", "anna"), ("Änne", "Änne"), (None, account), ("", account)):
            self.anew("board.table", BENCH)
            self.answers(["edit", "board.table", "3", STATED, WANTED], DONE, environment={"MPT_USER": name})
            self.assertEqual(self.log_lines()[0].split(" ")[1], f"{wanted}@{socket.gethostname()}")

    def test_names_that_are_no_word(self):
        for name in ("a b", "a\nb", " ", "\t", "a\r", "x" * 5000, "2026-11-16T05:06:34Z a@b 3 00 00\n", b"\xff\xfe"):
            self.anew("board.table", BENCH)
            answer = self.mpt("edit", "board.table", "3", STATED, WANTED, environment={"MPT_USER": name})
            with self.subTest(name=name[:20]):
                if answer.status == 2:  # said to be no name, and nothing is done
                    self.assertEqual(self.files(), {"board.table": BENCH})
                    continue
                self.assertEqual(answer.status, 0, answer)
                self.assertEqual([len(text.split()) for text in (self.folder / "board.table.log").read_bytes().splitlines()], [5])
                self.assertEqual(self.mpt("log", "board.table").status, 0)

    def test_bytes_behind(self):
        """What lies past the table stays, and so does an extended part."""
        for t in (BENCH + bytes(range(256)), RICH, RICH + b"\x00" * 5):
            place = 3 if t.startswith(BENCH) else 12
            stated = base_entries(t)[place]
            wanted = put(stated, 7, 9)
            self.anew("board.table", t)
            self.answers(["edit", "board.table", str(place), stated.hex(), wanted.hex()], done_text(t, place, wanted))
            self.assertEqual(self.path.read_bytes(), edited(t, place, wanted))

    def test_every_place_of_the_shelf(self):
        """One reserved byte or the like of each base entry that the tables of the shelf have: the checksum fits each time."""
        for shelved in boards.accepted():
            now = shelved.table
            self.anew("board.table", now)
            entries = base_entries(now)
            for place in sorted({0, 1, len(entries) // 2, len(entries) - 1} & set(range(len(entries)))):
                stated = entries[place]
                # No rule speaks of these bytes; a bus gets another name.
                free = {0: 19, 2: 2, 3: 3, 4: 3}
                wanted = put(stated, 2, *b"EISA  ") if stated[0] == 1 else put(stated, free[stated[0]], stated[free[stated[0]]] ^ 0x81)
                self.answers(["edit", "board.table", str(place), stated.hex(), wanted.hex()], done_text(now, place, wanted))
                now = edited(now, place, wanted)
                self.assertEqual(self.path.read_bytes(), now, (shelved.name, place))


# Entry, words of --set, and the entry's bytes afterwards, by hand. The board below has all of them.
SET_BOARD = [
    bytes.fromhex("00 00 10 F3 12 05 00 00 01 00 00 00 00 00 00 00 00 00 00 EE"),
    bytes.fromhex("00 01 10 01 12 05 00 00 01 00 00 00 00 00 00 00 00 00 00 00"),
    bytes.fromhex("01 00 49 53 41 20 20 20"),
    bytes.fromhex("01 05 50 43 49 20 20 20"),
    bytes.fromhex("02 02 11 F1 00 00 C0 FE"),
    bytes.fromhex("02 03 11 00 00 10 C0 FE"),
    bytes.fromhex("03 00 F0 EE 00 01 02 01"),
    bytes.fromhex("04 03 00 00 00 00 FF 00"),
]
SET = [
    (1, "id=7", "00 07 10 01 12 05 00 00 01 00 00 00 00 00 00 00 00 00 00 00"),
    (1, "id=0xFE", "00 FE 10 01 12 05 00 00 01 00 00 00 00 00 00 00 00 00 00 00"),
    (0, "version=17", "00 00 11 F3 12 05 00 00 01 00 00 00 00 00 00 00 00 00 00 EE"),
    (0, "version=0x11", "00 00 11 F3 12 05 00 00 01 00 00 00 00 00 00 00 00 00 00 EE"),
    (1, "enabled=off", "00 01 10 00 12 05 00 00 01 00 00 00 00 00 00 00 00 00 00 00"),
    (1, "enabled=0", "00 01 10 00 12 05 00 00 01 00 00 00 00 00 00 00 00 00 00 00"),
    (0, "enabled=on", "00 00 10 F3 12 05 00 00 01 00 00 00 00 00 00 00 00 00 00 EE"),
    (0, "boot=on", "00 00 10 F3 12 05 00 00 01 00 00 00 00 00 00 00 00 00 00 EE"),
    (0, "boot=1", "00 00 10 F3 12 05 00 00 01 00 00 00 00 00 00 00 00 00 00 EE"),
    (1, "boot=off", "00 01 10 01 12 05 00 00 01 00 00 00 00 00 00 00 00 00 00 00"),
    (1, "boot=0", "00 01 10 01 12 05 00 00 01 00 00 00 00 00 00 00 00 00 00 00"),
    (0, "signature=00000673", "00 00 10 F3 73 06 00 00 01 00 00 00 00 00 00 00 00 00 00 EE"),
    (0, "signature=673", "00 00 10 F3 73 06 00 00 01 00 00 00 00 00 00 00 00 00 00 EE"),
    (0, "signature=0x89abcdef", "00 00 10 F3 EF CD AB 89 01 00 00 00 00 00 00 00 00 00 00 EE"),
    (0, "features=10", "00 00 10 F3 12 05 00 00 10 00 00 00 00 00 00 00 00 00 00 EE"),
    (0, "features=FFFFFFFF", "00 00 10 F3 12 05 00 00 FF FF FF FF 00 00 00 00 00 00 00 EE"),
    (3, "id=9", "01 09 50 43 49 20 20 20"),
    (3, "name=EISA", "01 05 45 49 53 41 20 20"),
    (3, "name=XPRESS", "01 05 58 50 52 45 53 53"),
    (3, "name=TC", "01 05 54 43 20 20 20 20"),
    (5, "id=4", "02 04 11 00 00 10 C0 FE"),
    (4, "version=32", "02 02 20 F1 00 00 C0 FE"),
    (4, "enabled=off", "02 02 11 F0 00 00 C0 FE"),
    (4, "enabled=0", "02 02 11 F0 00 00 C0 FE"),
    (5, "enabled=on", "02 03 11 01 00 10 C0 FE"),
    (5, "enabled=1", "02 03 11 01 00 10 C0 FE"),
    (5, "id=1 enabled=on", "02 01 11 01 00 10 C0 FE"),  # processor 1's
    (4, "address=FEC20000", "02 02 11 F1 00 00 C2 FE"),
    (4, "address=0x400", "02 02 11 F1 00 04 00 00"),
    (6, "type=NMI", "03 01 F0 EE 00 01 02 01"),
    (6, "type=smi", "03 02 F0 EE 00 01 02 01"),
    (6, "type=ExtINT", "03 03 F0 EE 00 01 02 01"),
    (7, "type=int", "04 00 00 00 00 00 FF 00"),
    (6, "polarity=3", "03 00 F3 EE 00 01 02 01"),
    (6, "polarity=1", "03 00 F1 EE 00 01 02 01"),
    (6, "trigger=3", "03 00 FC EE 00 01 02 01"),
    (6, "trigger=1", "03 00 F4 EE 00 01 02 01"),
    (6, "bus=5", "03 00 F0 EE 05 01 02 01"),
    (6, "irq=255", "03 00 F0 EE 00 FF 02 01"),
    (6, "irq=010", "03 00 F0 EE 00 0A 02 01"),
    (6, "destination=255", "03 00 F0 EE 00 01 FF 01"),
    (6, "destination=3", "03 00 F0 EE 00 01 03 01"),
    (6, "input=9", "03 00 F0 EE 00 01 02 09"),
    (6, "input=0xff", "03 00 F0 EE 00 01 02 FF"),
    (7, "type=NMI polarity=1 trigger=1 bus=5 irq=2 destination=1 input=1", "04 01 05 00 05 02 01 01"),
    (1, "id=8 version=20 enabled=off signature=1 features=2", "00 08 14 00 01 00 00 00 02 00 00 00 00 00 00 00 00 00 00 00"),
]
# Entry, words, and the number that the table then would be refused with.
SET_REFUSED = [(0, "boot=off", 14), (1, "boot=on", 14), (0, "enabled=off", 14), (1, "id=0", 14), (1, "id=255", 14),
               (3, "id=0", 15), (3, "name=USB", 15), (3, "name=pci", 15), (4, "address=0", 16), (4, "id=255", 16), (5, "id=2 enabled=on", 16),
               (6, "polarity=2", 17), (6, "trigger=2", 17), (6, "bus=9", 17), (6, "destination=9", 17), (7, "input=2", 17)]


class SetFields(harness.Case):
    def setUp(self):
        super().setUp()
        self.table = table(SET_BOARD)
        self.path = self.put("board.table", self.table)

    def words(self, place, fields):
        set_words = [word for field in fields.split() for word in ("--set", field)]
        return ["edit", "board.table", str(place), SET_BOARD[place].hex(), *set_words]

    def test_every_field(self):
        for place, fields, wanted in SET:
            with self.subTest(fields, place=place):
                self.anew("board.table", self.table)
                wanted = bytes.fromhex(wanted)
                self.answers(self.words(place, fields), done_text(self.table, place, wanted))
                self.assertEqual(self.path.read_bytes(), edited(self.table, place, wanted))
        sorts = {(SET_BOARD[place][0], field.split("=")[0]) for place, fields, _ in SET for field in fields.split()}
        # Six fields of a processor, two of a bus, four of an I/O APIC, and seven each of both interrupts.
        self.assertEqual([len({field for sort, field in sorts if sort == of}) for of in range(5)], [6, 2, 4, 7, 7])

    def test_refused(self):
        for place, fields, inner in SET_REFUSED:
            with self.subTest(fields, place=place):
                self.refuses(self.words(place, fields), 23, inner)
        self.assertEqual(self.files(), {"board.table": self.table})

    def test_22(self):
        words = self.words(6, "input=9")
        words[3] = put(SET_BOARD[6], 7, 5).hex()
        self.assertEqual(self.mpt(*words).status, 1)
        self.assertTrue(self.mpt(*words).out.startswith(b"refused 22: "))

    def test_wrong_fields(self):
        for place, fields in (
                (0, "irq=1"), (0, "name=PCI"), (0, "address=1000"), (3, "version=1"), (3, "enabled=on"), (4, "boot=on"), (4, "name=PCI"),
                (6, "id=1"), (6, "address=0"), (7, "enabled=on"), (6, "colour=1"), (6, "=1"), (6, "irq"), (6, "irq="), (6, ""),
                (6, "irq=256"), (6, "irq=-1"), (6, "irq=1e3"), (6, "irq=0x"), (6, "irq=0x100"), (6, "irq=+1"), (6, "irq=1 "), (6, "irq= 1"),
                (6, "irq=99999999999999999999"), (6, "polarity=4"), (6, "trigger=4"), (6, "type=4096"), (6, "type=INTX"), (6, "type="),
                (0, "enabled=2"), (0, "enabled=yes"), (0, "boot="), (3, "name=CBUSIIX"), (4, "address=100000000"), (4, "address=xyz"),
                (0, "signature=123456789"), (0, "features=-1"), (0, "features=0x")):
            with self.subTest(fields, place=place):
                self.wrong(["edit", "board.table", str(place), SET_BOARD[place].hex(), "--set", fields])
        self.assertEqual(self.files(), {"board.table": self.table})


class Kept(harness.Case):
    """The file's mode, owner, group and name."""

    def setUp(self):
        super().setUp()
        self.path = self.put("board.table", BENCH)

    def edit(self, name="board.table"):
        self.answers(["edit", name, "3", STATED, WANTED], DONE)

    def test_mode(self):
        for mode in (0o600, 0o640, 0o664, 0o666, 0o755):
            self.path.unlink()
            self.anew("board.table", BENCH).chmod(mode)
            # The mask of the one who edits decides nothing.
            old = os.umask(0o077)
            try:
                self.edit()
            finally:
                os.umask(old)
            self.assertEqual((self.folder / "board.table").stat().st_mode & 0o7777, mode, f"{mode:o}")
            # Who may read and write the table may read and write the log, which is nothing to be started.
            self.assertEqual((self.folder / "board.table.log").stat().st_mode & 0o7777, mode & 0o666, f"{mode:o}")

    def test_owner_and_group(self):
        if not harness.ROOT_USER:
            self.skipTest("only root gives a file to another user")
        try:
            os.chown(self.path, harness.OTHER_USER, 12345)
        except OSError as why:
            self.skipTest(f"this root cannot: {why.strerror}")
        self.path.chmod(0o640)
        self.edit()
        now = self.path.stat()
        self.assertEqual((now.st_uid, now.st_gid, now.st_mode & 0o7777), (harness.OTHER_USER, 12345, 0o640))

    def test_a_table_of_somebody_else(self):
        """Of root, and writable for all or for a group of the one who edits, who cannot give a file to root. In such a
        group it is done: the group and the mode are kept, and that the owner is not is said. Else nothing is done."""
        other = self.other_user()
        if not other:
            self.skipTest("only root has another user's file")
        self.folder.chmod(0o777)
        for group, mode, done in ((0, 0o666, False), (harness.OTHER_USER, 0o664, True), (12345, 0o664, True)):
            self.path.unlink()
            os.chown(self.anew("board.table", BENCH), 0, group)
            self.path.chmod(mode)
            answer = self.mpt("edit", "board.table", "3", STATED, WANTED, group=12345, **other)
            now = self.path.stat()
            with self.subTest(group=group, answer=str(answer)):
                self.assertEqual((now.st_gid, now.st_mode & 0o7777), (group, mode))
                self.assertEqual((answer.status, self.path.read_bytes()), (0, edited(BENCH, 3, bytes.fromhex(WANTED))) if done else (2, BENCH))
                self.assertTrue(now.st_uid == 0 or answer.err.startswith(b"mpt: note: "))
                self.assertNotIn("board.table.mpt-new", self.files())
                if done:  # who is in that group writes to the log too
                    log = (self.folder / "board.table.log").stat()
                    self.assertEqual((log.st_gid, log.st_mode & 0o7777), (group, mode))

    def test_one_after_another(self):
        """Where root edits a table of somebody else, that one edits it afterwards: the log is his too."""
        other = self.other_user()
        if not other:
            self.skipTest("only root edits the table of another user")
        for path in (self.folder, self.path):
            os.chown(path, harness.OTHER_USER, harness.OTHER_USER)
        for mode in (0o600, 0o644):
            self.anew("board.table", BENCH).chmod(mode)
            self.edit()
            self.assertEqual(self.mpt("edit", "board.table", "3", WANTED, STATED, **other).status, 0)
            self.edit()
            self.assertEqual(len((self.folder / "board.table.log").read_text().splitlines()), 3)

    def test_a_symbolic_link(self):
        shelf = self.folder / "shelf"
        shelf.mkdir()
        real = shelf / "real.table"
        self.path.rename(real)
        self.path.symlink_to("shelf/real.table")
        (self.folder / "second.link").symlink_to("board.table")
        for name, stated, wanted in (("board.table", STATED, WANTED), ("second.link", WANTED, STATED)):
            self.assertEqual(self.mpt("edit", name, "3", stated, wanted).status, 0)
            self.assertEqual(real.read_bytes(), edited(BENCH, 3, bytes.fromhex(wanted)))
            self.assertTrue(self.path.is_symlink() and (self.folder / name).is_symlink())
        # The log is that of the table itself, and of no link.
        self.assertEqual(sorted(path.name for path in shelf.iterdir()), ["real.table", "real.table.log"])
        self.assertEqual(len((shelf / "real.table.log").read_text().splitlines()), 2)
        self.assertEqual(sorted(path.name for path in self.folder.iterdir()), ["board.table", "second.link", "shelf"])
        self.assertTrue(self.mpt("log", "second.link").out.decode().endswith(boards.fits(2, 0)))

    def test_links_to_nothing_and_in_a_circle(self):
        (self.folder / "nothing").symlink_to("nowhere")
        self.wrong(["edit", "nothing", "3", STATED, WANTED], "nothing: No such file or directory")
        (self.folder / "circle").symlink_to("circle")
        self.wrong(["edit", "circle", "3", STATED, WANTED], "circle: Too many levels of symbolic links")

    def test_a_hard_link(self):
        """Another name would keep the old table in silence."""
        os.link(self.path, self.folder / "other.table")
        for name in ("board.table", "other.table"):
            answer = self.wrong(["edit", name, "3", STATED, WANTED])
            self.assertRegex(answer.err, rb"\Ampt: (/.*/)?%s: \S" % name.encode())
        self.assertEqual(self.files(), {"board.table": BENCH, "other.table": BENCH})

    def test_other_files_stay(self):
        for name in ("board.table.mpt-old", "board.tabl", "log", "board.table.log2", ".board.table"):
            self.put(name, b"something of mine")
        before = self.files()
        self.edit()
        now = self.files()
        self.assertEqual({name: now[name] for name in before if name != "board.table"},
                         {name: content for name, content in before.items() if name != "board.table"})
        self.assertEqual(set(now) - set(before), {"board.table.log"})

    def test_an_old_new_file_is_cleared(self):
        """One that a killed process left: longer, empty, without rights, or a link to another file, which stays."""
        for content in (b"", b"x" * 5000):
            self.anew("board.table", BENCH)
            self.put("board.table.mpt-new", content).chmod(0o400)
            self.edit()
            self.assertEqual(self.path.read_bytes(), edited(BENCH, 3, bytes.fromhex(WANTED)))
            self.assertEqual(sorted(self.files()), ["board.table", "board.table.log"])
        other = self.put("precious", b"mine")
        self.anew("board.table", BENCH)
        (self.folder / "board.table.mpt-new").symlink_to("precious")
        self.edit()
        self.assertEqual(other.read_bytes(), b"mine")
        self.assertTrue(self.path.is_file() and not self.path.is_symlink())
        self.assertEqual(self.path.read_bytes(), edited(BENCH, 3, bytes.fromhex(WANTED)))
        self.assertEqual(sorted(path.name for path in self.folder.iterdir()), ["board.table", "board.table.log", "precious"])


class Names(harness.Case):
    """Tables are found by any name that the system takes."""

    def test_names(self):
        for name in ("a b", "Tafel ä", "-o", "--set", "x" * 240, "new\nline", "board.table.log", "%s%n", "'\"$(true)"):
            path = self.put(name, BENCH)
            with self.subTest(name):
                if name.startswith("-"):
                    words = ["edit", "--", name, "3", STATED, WANTED]
                else:
                    words = ["edit", name, "3", STATED, WANTED]
                self.answers(words, DONE)
                self.assertEqual(path.read_bytes(), edited(BENCH, 3, bytes.fromhex(WANTED)))
                self.assertEqual(self.files().keys(), {name, name + ".log"})
            for path in self.folder.iterdir():
                path.unlink()

    def test_a_name_that_is_too_long(self):
        """The name of the new file would be longer than names may be: a failure, and nothing is left."""
        path = self.put("x" * 255, BENCH)
        self.assertRegex(self.wrong(["edit", "x" * 255, "3", STATED, WANTED]).err, b"File name too long")
        self.assertEqual(self.files(), {path.name: BENCH})

    def test_from_elsewhere(self):
        (self.folder / "a").mkdir()
        self.put("a/board.table", BENCH)
        for number, name in enumerate(("a/board.table", "./a/../a/board.table", "a//board.table", str(self.folder / "a/board.table"))):
            stated, wanted = (WANTED, STATED) if number % 2 else (STATED, WANTED)
            self.assertEqual(self.mpt("edit", name, "3", stated, wanted).status, 0)
            self.assertEqual(sorted(path.name for path in (self.folder / "a").iterdir()), ["board.table", "board.table.log"])
        self.assertEqual(len((self.folder / "a/board.table.log").read_text().splitlines()), 4)


if __name__ == "__main__":
    harness.main("edits by the paper's examples, every field, files kept as they were")
