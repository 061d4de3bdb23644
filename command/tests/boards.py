"""Tables, dumps and texts as plain bytes, by the product's paper (document 01). Nothing here asks the command for anything.

The makers of entries, tables, pointers, dumps and books are those of crates/answers/requests, which shelf/make.py takes too. The
rest is what the tests compare with: a table cut into its entries, the line of an entry, an edit put in by hand, and the
dumps of shelf/ with the texts beside them.
"""
import runpy
import struct
import sys
from pathlib import Path
from typing import NamedTuple

sys.dont_write_bytecode = True
ROOT = Path(__file__).resolve().parent.parent.parent
PARTS = runpy.run_path(str(ROOT / "crates/answers/requests"))["PARTS"]
bus, cpu, dump, fields, ioapic, line, link, mended, modifier, pointer, put, rom, space, table = (
    PARTS[name] for name in "bus cpu dump fields ioapic line link mended modifier pointer put rom space table".split())

HEADER = 44
# The bench board of the paper: the table of 96 bytes, spelled out there.
BENCH = PARTS["board"]
BENCH_ENTRIES = PARTS["BOARD"]
TYPES = ["INT", "NMI", "SMI", "EXTINT"]


# ---- a table, cut

def base_end(t):
    return struct.unpack_from("<H", t, 4)[0]


def table_length(t):
    return base_end(t) + struct.unpack_from("<H", t, 40)[0]


def base_entries(t):
    """The base entries in their order: twenty bytes for a processor, eight for any other."""
    found, at = [], HEADER
    while at < base_end(t):
        size = 20 if t[at] == 0 else 8
        found.append(t[at:at + size])
        at += size
    return found


def extended_entries(t):
    """The extended entries: each has its length in byte 1."""
    found, at = [], base_end(t)
    while at < table_length(t):
        found.append(t[at:at + t[at + 1]])
        at += t[at + 1]
    return found


def edited(t, place, wanted):
    """The table with another entry at a place, and the checksum for it."""
    at = HEADER + sum(map(len, base_entries(t)[:place]))
    return mended(put(t, at, *wanted), base_end(t))


# ---- the line of an entry

def line_of(entry):
    """The listing's line of an entry, by the paper's section on the bench board."""
    e = entry
    if e[0] == 0:
        return f"cpu {e[1]} {e[2]} {'on' if e[3] & 1 else 'off'} {'boot' if e[3] & 2 else 'ap'}"
    if e[0] == 1:
        return f"bus {e[1]} {e[2:8].decode().rstrip(' ')}"
    if e[0] == 2:
        return f"ioapic {e[1]} {e[2]} {'on' if e[3] & 1 else 'off'} {struct.unpack_from('<I', e, 4)[0]:08X}"
    if e[0] in (3, 4):
        word = "int" if e[0] == 3 else "lint"
        return f"{word} {TYPES[e[1]]} {e[4]} {e[5]} {e[2] & 3} {e[2] >> 2 & 3} {e[6]} {e[7]}"
    if e[0] == 128:
        base, size = struct.unpack_from("<QQ", e, 4)
        return f"map {e[2]} {e[3]} {base:016X} {size:016X}"
    if e[0] == 129:
        return f"tree {e[2]} {e[4]} {e[3] & 1}"
    if e[0] == 130:
        return f"mod {e[2]} {e[3] & 1} {struct.unpack_from('<I', e, 4)[0]}"
    return f"skip {e[0]} {e[1]}"


def listing(t, pointer_at, table_at, imcr=0):
    """The listing of a dump that holds this table."""
    entries = base_entries(t) + extended_entries(t)
    head = [f"pointer {pointer_at:08X} imcr {imcr}",
            f"table {table_at:08X} {base_end(t)} {table_length(t) - base_end(t)} {len(base_entries(t))}"]
    return "".join(text + "\n" for text in [*head, *map(line_of, entries), "end"]).encode()


# ---- a log

def log_line(place, stated, wanted, who="anna@bench", when="2026-11-16T05:06:34Z", never=False):
    """A line of a log: five words, and a sixth where its change never came about. The end of the line is written behind
    the change: a last line without it is told by the table."""
    return f"{when} {who} {place} {stated.hex().upper()} {wanted.hex().upper()}{' never' if never else ''}\n"


def fits(edits, never):
    """What `log` ends with where the log fits: how many lines there are, and how many of them never came about."""
    return f"the log fits the table (edits: {edits}, never came about: {never})\n"


def check_fits(first, name, edits, never):
    return f"the log fits: its edits put into {first} give {name} (edits: {edits}, never came about: {never})\n"


# ---- a book

BOOK_MOST = 32768


def book(rows):
    """The book of rows, each a machine, an edition and a body."""
    return PARTS["book"](*rows)


def rows_of(b):
    """The rows of a good book."""
    found = []
    for number in range(struct.unpack_from("<H", b, 1)[0]):
        machine, edition, at, length = struct.unpack_from("<HHHH", b, 3 + 8 * number)
        found.append((machine, edition, b[at:at + length]))
    return found


def latest(rows, machine):
    return max((edition for of, edition, _ in rows if of == machine), default=0)


def with_save(rows, machine, body):
    """One row more, behind all others: the machine's next edition."""
    return [*rows, (machine, latest(rows, machine) + 1, body)]


def save_line(machine, edition, restored=0, who="anna@bench", when="2026-11-16T05:06:34Z", never=False):
    """A line of a book's log: which edition of which machine, and the old one that it restores, or 0."""
    return f"{when} {who} {machine} {edition} {restored}{' never' if never else ''}\n"


def entry_words(t):
    """What `entries` prints of a table, a line for each entry."""
    base, extended = base_entries(t), extended_entries(t)
    return [f"{place:>5}  {entry.hex().upper():<40}  {line_of(entry)}"
            for place, entry in [*enumerate(base), *(("-", entry) for entry in extended)]]


# ---- boards

def lines_board(count=12):
    """Two processors, two buses, an I/O APIC, and so many lines, of which IRQ and input may be any: places from 5 on."""
    entries = [cpu(0, 3), cpu(1, 1), bus(0, b"ISA   "), bus(1), ioapic(2)]
    return table(entries + [line(3, 0, 0, 0, 200, 2, k) for k in range(count)])


# Something of everything: a processor and an I/O APIC that are off, lines to all of them, and an extended part.
RICH_ENTRIES = [
    cpu(0, 3), cpu(1, 1), cpu(3, 0),
    bus(0, b"ISA   "), bus(1, b"PCI   "), bus(5, b"EISA  "), bus(6), bus(7), bus(8),
    ioapic(2), ioapic(4, flags=0, address=0xFEC04000), ioapic(6, address=0xFEC01000, version=0x20),
    line(3, 0, 0, 0, 1, 2, 1), line(3, 0, 0, 0, 1, 255, 7), line(3, 0, 15, 1, 4, 6, 16), line(3, 2, 0, 1, 4, 2, 3),
    line(3, 0, 0, 0, 9, 4, 2), line(3, 3, 5, 0, 0, 255, 0),
    line(4, 3, 0, 0, 0, 255, 0), line(4, 1, 0, 0, 0, 1, 1), line(4, 1, 0, 0, 3, 3, 1),
]
RICH_EXTENDED = [
    space(1, 0, 0x1000, 0x1000), space(1, 1, 0xE0000000, 0x10000000), space(1, 2, 0xF0000000, 0x1000),
    space(8, 0, 0, 0x20000),
    link(0, 1, 1), link(5, 1, 0),
    modifier(5, 0, 0), modifier(6, 0, 1), modifier(8, 1, 1),
    bytes([200, 3, 9]),
]
RICH = table(RICH_ENTRIES, RICH_EXTENDED, header=fields(
    oem=b"MUSEUM\x00\xff", product=b'say "\\#"  ok', pointer=0x000E1234, size=0x1FF, apic=0xFEE01000, reserved=0xA5))


# ---- the shelf

class Shelved(NamedTuple):
    name: str
    path: Path
    dump: bytes
    text: bytes

    @property
    def refused(self):
        """The number of the text's refusal, or None."""
        return int(self.text.split()[1]) if self.text.startswith(b"refused") else None

    @property
    def default(self):
        """The number of the default configuration that the text names, or None."""
        return int(self.text.split()[1]) if self.text.startswith(b"default") else None

    def full(self, boot):
        """The text of its full listing, when this processor booted."""
        return self.path.with_name(f"{self.name}.boot{boot}.txt").read_bytes()

    @property
    def addresses(self):
        """Of the pointer and of the table, as the text has them."""
        lines = self.text.decode().splitlines()
        return lines[0].split()[1], lines[1].split()[1]

    @property
    def table(self):
        """The table's bytes: the text tells where it stands and how long it is, the dump's contents where that is."""
        _, at, base, extended, _ = self.text.decode().splitlines()[1].split()
        return bytes_at(self.dump, int(at, 16), int(base) + int(extended))

    @property
    def lines(self):
        """The lines of the entries."""
        return self.text.decode().splitlines()[2:-1]


def regions(d):
    """Of a dump: kind, base and body of each region."""
    found, at = [], 1 + 9 * d[0]
    for number in range(d[0]):
        kind, base, length = struct.unpack_from("<BII", d, 1 + 9 * number)
        found.append((kind, base, d[at:at + length]))
        at += length
    return found


def bytes_at(d, address, length):
    for _, base, body in regions(d):
        if base <= address and address + length <= base + len(body):
            return body[address - base:address - base + length]
    raise AssertionError("no region of the dump has these bytes")


def shelf():
    found = [Shelved(path.stem, path, path.read_bytes(), path.with_suffix(".txt").read_bytes())
             for path in sorted((ROOT / "shelf").glob("*.dump"))]
    assert len(found) > 20, "the shelf is nearly empty"
    return found


def accepted():
    """Those of the shelf whose table is accepted."""
    return [shelved for shelved in shelf() if shelved.refused is None and shelved.default is None]


def defaults():
    """Those of the shelf that are default configurations, and have no table."""
    return [shelved for shelved in shelf() if shelved.default is not None]
