"""The seven default configurations, typed off Intel's pages (MPS chapter 5), and the table that each stands for; what the pages
leave open is as docs/DEFAULTS.md has it. Nothing here asks the command for anything.
"""
from boards import bus, cpu, dump, ioapic, line, pointer, rom, table

# Bus type and APIC type, by the code.
TABLE_5_1 = """\
1  ISA         82489DX
2  EISA        82489DX
3  EISA        82489DX
4  MCA         82489DX
5  ISA + PCI   Integrated
6  EISA + PCI  Integrated
7  MCA + PCI   Integrated
"""
# What each input of the I/O APIC is connected to, in configurations 1 to 7. INTR is the 8259A's.
TABLE_5_2 = """\
INTIN0   INTR   INTR   INTR   INTR   INTR   INTR   N/C
INTIN1   IRQ1   IRQ1   IRQ1   IRQ1   IRQ1   IRQ1   IRQ1
INTIN2   IRQ0   N/C    IRQ0   IRQ0   IRQ0   IRQ0   IRQ0
INTIN3   IRQ3   IRQ3   IRQ3   IRQ3   IRQ3   IRQ3   IRQ3
INTIN4   IRQ4   IRQ4   IRQ4   IRQ4   IRQ4   IRQ4   IRQ4
INTIN5   IRQ5   IRQ5   IRQ5   IRQ5   IRQ5   IRQ5   IRQ5
INTIN6   IRQ6   IRQ6   IRQ6   IRQ6   IRQ6   IRQ6   IRQ6
INTIN7   IRQ7   IRQ7   IRQ7   IRQ7   IRQ7   IRQ7   IRQ7
INTIN8   IRQ8   IRQ8   IRQ8   IRQ8   IRQ8   IRQ8   IRQ8
INTIN9   IRQ9   IRQ9   IRQ9   IRQ9   IRQ9   IRQ9   IRQ9
INTIN10  IRQ10  IRQ10  IRQ10  IRQ10  IRQ10  IRQ10  IRQ10
INTIN11  IRQ11  IRQ11  IRQ11  IRQ11  IRQ11  IRQ11  IRQ11
INTIN12  IRQ12  IRQ12  IRQ12  IRQ12  IRQ12  IRQ12  IRQ12
INTIN13  IRQ13  N/C    IRQ13  IRQ13  IRQ13  IRQ13  IRQ13
INTIN14  IRQ14  IRQ14  IRQ14  IRQ14  IRQ14  IRQ14  IRQ14
INTIN15  IRQ15  IRQ15  IRQ15  IRQ15  IRQ15  IRQ15  IRQ15
"""
SEVEN = range(1, 8)
INT, NMI, EXTINT = 0, 1, 3
# docs/DEFAULTS.md: the low digit is ours.
VERSIONS = {"82489DX": 0x01, "Integrated": 0x10}
# Every verb that takes --boot, with the words that it has behind its file.
BEHIND = {"list": [], "table": [], "entries": [], "routes": ["INT", "0", "1"], "slots": [], "slot": ["1", "0", "A"], "renumber": [],
          "sees": ["0", "io", "3F8"], "parts": []}


def row_of(configuration):
    """Of Table 5-1: the buses, and the APIC type."""
    _, *buses, apic = TABLE_5_1.splitlines()[configuration - 1].replace("+", "").split()
    return buses, apic


def connected(configuration):
    """Of Table 5-2: what each input is connected to."""
    return [row.split()[configuration] for row in TABLE_5_2.splitlines()]


def made(configuration, boot):
    """The table that it stands for, when this processor booted."""
    buses, apic = row_of(configuration)
    version = VERSIONS[apic]
    entries = [cpu(id, 3 if id == boot else 1, version) for id in (0, 1)]
    entries += [bus(id, name.encode().ljust(6)) for id, name in enumerate(buses)]
    entries.append(ioapic(2, version=version))
    for input, source in enumerate(connected(configuration)):
        if source == "INTR":
            entries.append(line(3, EXTINT, 0, 0, 0, 2, input))
        elif source != "N/C":
            entries.append(line(3, INT, 0, 0, int(source.removeprefix("IRQ")), 2, input))
    # Table 5-3, which is the same for all of them.
    entries += [line(4, EXTINT, 0, 0, 0, 255, 0), line(4, NMI, 0, 0, 0, 255, 1)]
    return table(entries)


def dumps(configuration, imcr=0):
    """Dumps of it, each with the address of its pointer: as short as can be, and with more around the pointer."""
    p = pointer(0, configuration, imcr << 7)
    return [(rom(p), 0xF0000), (rom(bytes(0x120), p, bytes(64)), 0xF0120), (dump((2, 0x9FC00, bytes(0x3F0) + p)), 0x9FFF0),
            (dump((4, 0x100000, b"PCMP" * 20), (3, 0xF0000, bytes(100)), (1, 0x80400, p)), 0x80400)]


def asked(name, boot):
    """The words of each verb that takes --boot."""
    return [[verb, "--boot", boot, name, *behind] for verb, behind in BEHIND.items()]
