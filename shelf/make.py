#!/usr/bin/env python3
"""Writes the made dumps of the shelf, `made-*.dump`, and beside each the text that document 01 gives for it; beside those of
default configurations also the full listings that document 02, ask 6, gives.

    python3 make.py            writes them, the same bytes on every run
    python3 make.py --check    says which of them stand otherwise, and writes nothing

The text of a made dump stands by hand beside its parts, as in crates/answers/vectors, whose parts serve here too; a line that
comes many times is written once. They are here and not there because of their length.
"""
import os
import runpy
import sys

sys.dont_write_bytecode = True
here = os.path.dirname(os.path.abspath(__file__))
PARTS = runpy.run_path(os.path.join(here, "..", "crates", "answers", "requests"))["PARTS"]
BOARD, CPU, bus, cpu, dump, line, link, pointer, put, rom, table = (
    PARTS[name] for name in "BOARD CPU bus cpu dump line link pointer put rom table".split())

FALSE = put(pointer(0, 7), 15, 1)
BOARD_LINES = """\
cpu 0 16 on boot
bus 0 ISA
ioapic 2 17 on FEC00000
int INT 0 1 0 0 2 1
lint EXTINT 0 0 0 0 255 0
end
"""


def far(bytes_before):
    """A ROM of 61,440 bytes with a pointer at its end, and the board at the end of a second region."""
    place = 0x80000000 + bytes_before
    return dump((3, 0xF0000, b"\xff" * 61424 + pointer(place)), (4, 0x80000000, b"\xff" * bytes_before + table(BOARD)))


def decoys():
    """A ROM that fills a dump: the board, then nothing but false pointers, and the good one at the last place."""
    falses = FALSE * ((0xFFFE0 - 0xF0060) // 16)
    return rom(table(BOARD), falses, pointer(0xF0000, feature2=0x80), FALSE[:6])


def longest():
    """Most bytes of text for a byte of table: after the one processor and bus that there must be, an interrupt's line
    has 31 for 8, and that of a skipped entry 11 for 2."""
    entries = [cpu(254, 3, 255), bus(255, b"XPRESS")] + [line(3, 3, 15, 255, 255, 255, 255)] * 503
    return rom(pointer(0xF0010), table(entries, [bytes([255, 2])] * 2048))


def skipping(last):
    """An extended part of sixteen entries of 254 bytes and a last one."""
    entries = [bytes([200, 254]) + bytes(252)] * 16 + [bytes([200, last]) + bytes(last - 2)]
    return rom(pointer(0xF0010), table([CPU], entries))


def circle():
    links = [link(k, (k + 1) % 256) for k in range(256)]
    return rom(pointer(0xF0010), table([CPU] + [bus(k) for k in range(256)], links))


# The default configurations listed in full, by hand from MPS chapter 5; what that leaves open is as docs/DEFAULTS.md has it.
# Table 5-2, row by row from INTIN0 to INTIN15: the line of the input, and before it Intel's columns, the configurations in
# which it is connected; - is N/C.
TABLE_5_2 = """\
1 2 3 4 5 6 -  int EXTINT 0 0 0 0 2 0
1 2 3 4 5 6 7  int INT 0 1 0 0 2 1
1 - 3 4 5 6 7  int INT 0 0 0 0 2 2
1 2 3 4 5 6 7  int INT 0 3 0 0 2 3
1 2 3 4 5 6 7  int INT 0 4 0 0 2 4
1 2 3 4 5 6 7  int INT 0 5 0 0 2 5
1 2 3 4 5 6 7  int INT 0 6 0 0 2 6
1 2 3 4 5 6 7  int INT 0 7 0 0 2 7
1 2 3 4 5 6 7  int INT 0 8 0 0 2 8
1 2 3 4 5 6 7  int INT 0 9 0 0 2 9
1 2 3 4 5 6 7  int INT 0 10 0 0 2 10
1 2 3 4 5 6 7  int INT 0 11 0 0 2 11
1 2 3 4 5 6 7  int INT 0 12 0 0 2 12
1 - 3 4 5 6 7  int INT 0 13 0 0 2 13
1 2 3 4 5 6 7  int INT 0 14 0 0 2 14
1 2 3 4 5 6 7  int INT 0 15 0 0 2 15
"""
# Table 5-3, LINTIN0 and LINTIN1, the same in all seven.
TABLE_5_3 = """\
lint EXTINT 0 0 0 0 255 0
lint NMI 0 0 0 0 255 1
"""
# Table 5-1, the APIC type: the processors where 0 booted, where 1 booted, and the I/O APIC.
DISCRETE = "cpu 0 1 on boot\ncpu 1 1 on ap\n", "cpu 0 1 on ap\ncpu 1 1 on boot\n", "ioapic 2 1 on FEC00000\n"
INTEGRATED = "cpu 0 16 on boot\ncpu 1 16 on ap\n", "cpu 0 16 on ap\ncpu 1 16 on boot\n", "ioapic 2 16 on FEC00000\n"


def in_full(number, heading, apics, buses):
    """The listings where processor 0 booted and where 1 did."""
    rows = [row.split("  ") for row in TABLE_5_2.splitlines()]
    lines = "".join(text + "\n" for columns, text in rows if str(number) in columns) + TABLE_5_3 + "end\n"
    return heading + apics[0] + buses + apics[2] + lines, heading + apics[1] + buses + apics[2] + lines


FULL = {
    "made-default-1": in_full(1, "pointer 000FFFF0 imcr 0\ntable 00000000 244 0 22\n", DISCRETE, "bus 0 ISA\n"),
    "made-default-2": in_full(2, "pointer 0009FC10 imcr 1\ntable 00000000 228 0 20\n", DISCRETE, "bus 0 EISA\n"),
    "made-default-3": in_full(3, "pointer 0009FFF0 imcr 0\ntable 00000000 244 0 22\n", DISCRETE, "bus 0 EISA\n"),
    "made-default-4": in_full(4, "pointer 0009FE00 imcr 1\ntable 00000000 244 0 22\n", DISCRETE, "bus 0 MCA\n"),
    "made-default-5": in_full(5, "pointer 000F0000 imcr 0\ntable 00000000 252 0 23\n", INTEGRATED, "bus 0 ISA\nbus 1 PCI\n"),
    "made-default-6": in_full(6, "pointer 0007FC00 imcr 0\ntable 00000000 252 0 23\n", INTEGRATED, "bus 0 EISA\nbus 1 PCI\n"),
    "made-default-7": in_full(7, "pointer 000F6A70 imcr 1\ntable 00000000 244 0 22\n", INTEGRATED, "bus 0 MCA\nbus 1 PCI\n"),
}

MADE = {
    "made-bench-board": (rom(pointer(0xF0010), table(BOARD)), """\
pointer 000F0000 imcr 0
table 000F0010 96 0 5
""" + BOARD_LINES),
    "made-65536": (far(3981), """\
pointer 000FEFF0 imcr 0
table 80000F8D 96 0 5
""" + BOARD_LINES),
    "made-65537": (far(3982), "refused 1\n"),
    "made-decoys": (decoys(), """\
pointer 000FFFE0 imcr 1
table 000F0000 96 0 5
""" + BOARD_LINES),
    "made-longest": (longest(), """\
pointer 000F0000 imcr 0
table 000F0010 4096 4096 505
cpu 254 255 on boot
bus 255 XPRESS
""" + "int EXTINT 255 255 3 3 255 255\n" * 503 + "skip 255 2\n" * 2048 + "end\n"),
    "made-extended-4096": (skipping(32), """\
pointer 000F0000 imcr 0
table 000F0010 64 4096 1
cpu 0 16 on boot
""" + "skip 200 254\n" * 16 + "skip 200 32\nend\n"),
    "made-extended-4097": (skipping(33), "refused 13\n"),
    "made-circle": (circle(), "refused 18\n"),
    # In the last sixteen bytes of the ROM, behind 255 false ones; the EBDA has none.
    "made-default-1": (dump((1, 0x9FC00, bytes(1024)), (3, 0xFF000, FALSE * 255 + pointer(0, 1)),
                            (4, 0x100000, b"\xee" * 100)), "default 1 imcr 0\n"),
    # In the EBDA; the ROM has a pointer too, behind it in the search.
    "made-default-2": (dump((1, 0x9FC00, bytes(16) + pointer(0, 2, 0x80) + bytes(992)), (3, 0xF0000, pointer(0, 5))),
                       "default 2 imcr 1\n"),
    # In the last sixteen bytes of base memory of 640 KB.
    "made-default-3": (dump((2, 0x9FC00, bytes(1008) + pointer(0, 3)), (3, 0xFFF00, b"\xff" * 256)), "default 3 imcr 0\n"),
    # In the EBDA, listed last: base memory is not searched, and the ROM is behind it in the search.
    "made-default-4": (dump((3, 0xF8000, pointer(0, 7)), (2, 0x9F800, pointer(0, 1)),
                            (1, 0x9FC00, bytes(512) + pointer(0, 4, 0x80))), "default 4 imcr 1\n"),
    # A ROM of the pointer alone.
    "made-default-5": (rom(pointer(0, 5)), "default 5 imcr 0\n"),
    # In base memory of 512 KB, listed last; the ROM has the bench board with its pointer, behind it in the search.
    "made-default-6": (dump((3, 0xF0000, pointer(0xF0010) + table(BOARD)), (2, 0x7FC00, pointer(0, 6) + bytes(1008))),
                       "default 6 imcr 0\n"),
    # In the ROM, with every reserved bit. An empty EBDA is listed: base memory is not searched. A table at address 0.
    "made-default-7": (dump((4, 0, table(BOARD)), (1, 0x9F000, b""), (2, 0x9FC00, pointer(0, 1)),
                            (3, 0xF6A00, b"\xff" * 112 + pointer(0, 7, 0xFF, rest=b"\xff\xff\xff"))), "default 7 imcr 1\n"),
}


def sizes():
    """What the names promise."""
    assert len(MADE["made-65536"][0]) == len(MADE["made-decoys"][0]) == 65536
    assert len(MADE["made-65537"][0]) == 65537
    assert len(MADE["made-longest"][1]) == 38213


def files():
    for name, (bytes_, text) in MADE.items():
        yield os.path.join(here, name + ".dump"), bytes_
        yield os.path.join(here, name + ".txt"), text.encode()
    for name, texts in FULL.items():
        for boot, text in enumerate(texts):
            yield os.path.join(here, "%s.boot%d.txt" % (name, boot)), text.encode()


def write():
    for path, content in files():
        with open(path, "wb") as out:
            out.write(content)


def check():
    bad = [path for path, content in files() if open(path, "rb").read() != content]
    for path in bad:
        print("not as it would be made: " + os.path.basename(path))
    return bad


if __name__ == "__main__":
    sizes()
    if sys.argv[1:] == ["--check"]:
        sys.exit(1 if check() else 0)
    write()
