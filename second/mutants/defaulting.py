"""Mistakes to put into defaults.c; see run.
Rule, what is wrong, old text (must occur once), new text."""

TEST = "    if (n < 1 || n > 7 || boot > 1)\n        return refused(30);\n"
MAKE = "\n    size_t length = put_entries(base, &configurations[n - 1], boot);\n"
WRITE = "    return plain_write_walk(&header, base, length, base, 0, room, size, walked);\n"
FIND = "    uint64_t refusal = plain_find(dump, n, &f);\n\n    if (refusal != 0)\n        return refused(refusal);\n    if (f.standard == 0)\n"
JUDGED = "        refusal = plain_judge_walk(f.table, f.left, &t);\n"
MADE = "        refusal = plain_default_walk(f.standard, boot, made, sizeof made, &t) & 255;\n"
LIST = "    return plain_list_walked(&f, &t, room, size);\n"
FLAGS = "    p[3] = id == boot ? ENABLED | BOOTSTRAP : ENABLED;\n"
CPU_VERSION = "    p[1] = id;\n    p[2] = version;\n"
APIC_VERSION = "    p[1] = APIC_ID;\n    p[2] = version;\n"
CPUS = "    p = put_processor(p, 0, c->version, boot);\n    p = put_processor(p, 1, c->version, boot);\n"
BUSES = "    p = put_bus(p, 0, c->bus);\n    if (c->pci)\n        p = put_bus(p, 1, \"PCI   \");\n"
LOCAL = "    memcpy(p, local_inputs, sizeof local_inputs);\n    return p + sizeof local_inputs;\n"
INPUTS = "    p = put_inputs(p, c->unconnected);\n"
EACH_ITS_OWN = "    memcpy(p, p - 16, 16);\n    p[-10] = p[-2] = 0;\n    p[6] = p[14] = 1;\n    p += 16;\n"
TO_EXT_INT = "{ LOCAL_INT, EXT_INT, 0, 0, 0, 0, ALL, 0 }"
TO_NMI = "{ LOCAL_INT, NMI, 0, 0, 0, 0, ALL, 1 }"
WIRED = "#define FROM(type, irq, input) { IO_INT, type, 0, 0, 0, irq, APIC_ID, input }\n"
OF = [f'    {{ "{bus:6}", {pci}, {version}, {without} }},\n' for bus, pci, version, without in (
    ("ISA", "false", "0x01", "0"), ("EISA", "false", "0x01", "NO_INPUT(2) | NO_INPUT(13)"), ("EISA", "false", "0x01", "0"),
    ("MCA", "false", "0x01", "0"), ("ISA", "true", "0x10", "0"), ("EISA", "true", "0x10", "0"),
    ("MCA", "true", "0x10", "NO_INPUT(0)"))]

def test(new):
    """Another test of the two numbers, and the nearest configuration for those that are none."""
    near = MAKE.replace("n - 1", "n < 1 ? 0 : n > 7 ? 6 : n - 1")
    return TEST + MAKE, TEST.replace("n < 1 || n > 7 || boot > 1", new) + near

def of(n, what, old, new):
    """One configuration of Table 5-1."""
    return 0, f"configuration {n}: {what}", OF[n - 1], OF[n - 1].replace(old, new)

def without(*inputs):
    return " | ".join(f"NO_INPUT({i})" for i in inputs)

def wired(what, old, new):
    """One input of Table 5-2."""
    return 0, what, f"FROM({old})", f"FROM({new})"

def entry(what, old, new):
    return 0, what, old, old + new

DEFAULTS = [
 (30, "0 taken", *test("n > 7 || boot > 1")),
 (30, "8 taken", *test("n < 1 || n > 8 || boot > 1")),
 (30, "7 not taken", TEST, TEST.replace("n > 7", "n > 6")),
 (30, "1 not taken", TEST, TEST.replace("n < 1", "n < 2")),
 (30, "255 taken", *test("n < 1 || (n > 7 && n < 255) || boot > 1")),
 (30, "number free", *test("boot > 1")),
 (30, "number in three bits", TEST, "    n &= 7;\n" + TEST),
 (30, "number in seven bits", TEST, "    n &= 127;\n" + TEST),
 (30, "boot processor 1 not taken", TEST, TEST.replace("boot > 1", "boot > 0")),
 (30, "boot processor 2 taken for 0", TEST, "    if (boot == 2)\n        boot = 0;\n" + TEST),
 (30, "boot processor 2 taken for none", TEST, TEST.replace("boot > 1", "boot > 2")),
 (30, "boot processor in one bit", TEST, "    boot &= 1;\n" + TEST),
 (30, "boot processor 0 or not", TEST, "    boot = boot != 0;\n" + TEST),
 (30, "boot processor 255 taken for 0", TEST, "    if (boot == 255)\n        boot = 0;\n" + TEST),
 (30, "both wrong", *test("(n < 1 || n > 7) && boot > 1")),
 (30, "19 for it", TEST, TEST.replace("30", "19")),
 (30, "24 for it", TEST, TEST.replace("30", "24")),
 (30, "29 for it", TEST, TEST.replace("30", "29")),
 (30, "14 for a boot processor", TEST, "    if (n >= 1 && n <= 7 && boot > 1)\n        return refused(14);\n" + TEST),
 (30, "4 for a number", TEST, "    if (n < 1 || n > 7)\n        return refused(4);\n" + TEST),
 (30, "after 19", TEST, "    if (size < 228)\n        return refused(19);\n" + TEST),
 (30, "after 19, of an empty room", TEST, "    if (size == 0)\n        return refused(19);\n" + TEST),
 (30, "number after 19", TEST, "    if (boot <= 1 && size < DEFAULT_MAX && (n < 1 || n > 7))\n        return refused(19);\n" + TEST),
 (30, "first byte written", TEST, "    if ((n < 1 || n > 7 || boot > 1) && size > 0)\n        room[0] ^= 1;\n" + TEST),
 (30, "room cleared", TEST, "    if (n < 1 || n > 7 || boot > 1)\n        memset(room, 0, size);\n" + TEST),
 (30, "count given too", TEST, TEST.replace("refused(30)", "refused(30) | counted(DEFAULT_MAX)")),
 (30, "number given too", TEST, TEST.replace("refused(30)", "refused(30) | counted(n)")),
 (30, "listed: before 1", FIND, "    if (boot > 1)\n        return refused(30);\n" + FIND),
 (30, "listed: before 4", FIND, FIND.replace("    if (refusal != 0)\n", "    if (refusal == 4 && boot > 1)\n        return refused(30);\n    if (refusal != 0)\n")),
 (30, "listed: before 3", FIND, FIND.replace("    if (refusal != 0)\n", "    if (refusal == 3 && boot > 1)\n        return refused(30);\n    if (refusal != 0)\n")),
 (30, "listed: of a table too", FIND, FIND.replace("    if (f.standard", "    if (boot > 1)\n        return refused(30);\n    if (f.standard")),
 (30, "listed: of an accepted table", LIST, "    if (boot > 1)\n        return refused(30);\n" + LIST),
 (30, "listed: of a refused table", JUDGED, "        refusal = plain_judge_walk(f.table, f.left, &t) == 0 || boot < 2 ? plain_judge_walk(f.table, f.left, &t) : 30;\n"),
 (30, "listed: after 19", MADE, "    {\n        if (size < 400)\n            return refused(19);\n" + MADE + "    }\n"),
 (30, "listed: after 19, of an empty room", MADE, "    {\n        if (size == 0)\n            return refused(19);\n" + MADE + "    }\n"),
 (30, "listed: in one line", MADE, "    {\n        if (boot > 1)\n            return plain_list(dump, n, room, size);\n" + MADE + "    }\n"),
 (30, "listed: boot processor 2 taken for 0", MADE, MADE.replace("boot", "boot == 2 ? 0 : boot")),
 (30, "listed: boot processor in one bit", MADE, MADE.replace("boot", "boot & 1")),
 (30, "listed: first byte written", MADE, "    {\n        if (boot > 1 && size > 0)\n            room[0] ^= 1;\n" + MADE + "    }\n"),
 (19, "the longest table's room always", MAKE, MAKE + "    if (size < DEFAULT_MAX)\n        return refused(19);\n"),
 (19, "exact room refused", MAKE, MAKE + "    if (size <= HEADER_SIZE + length)\n        return refused(19);\n"),
 (19, "room of the entries alone", WRITE, "    uint8_t all[DEFAULT_MAX];\n    uint64_t answer = plain_write_walk(&header, base, length, base, 0, all, sizeof all, walked);\n    if (size < length)\n        return refused(19);\n    memcpy(room, all, size < length + HEADER_SIZE ? size : length + HEADER_SIZE);\n    return answer;\n"),
 (19, "begun and left", MAKE, MAKE + "    if (size >= HEADER_SIZE && size < HEADER_SIZE + length)\n        memcpy(room, \"PCMP\", 4);\n"),
 (19, "listed: one line measured", LIST, "    if (f.standard != 0 && size < 17)\n        return refused(19);\n    if (f.standard != 0)\n        size = 65536;\n" + LIST),
 (0, "a default in one line", MADE, "        return plain_list(dump, n, room, size);\n"),
 (0, "listed: the pointer's address for the table's", MADE, MADE + "    if (f.standard != 0)\n        f.address = f.pointer;\n"),
 (0, "listed: the table's address behind the pointer", MADE, MADE + "    if (f.standard != 0)\n        f.address = f.pointer + 16;\n"),
 (0, "listed: an address where none is", MADE, MADE + "    if (f.standard != 0)\n        f.address = 0xFEE00000;\n"),
 (0, "listed: the pointer at 0", MADE, MADE + "    if (f.standard != 0)\n        f.pointer = 0;\n"),
 (0, "listed: the pointer at F0000h", MADE, MADE + "    if (f.standard != 0)\n        f.pointer = 0xF0000;\n"),
 (0, "listed: no IMCR bit", MADE, MADE + "    if (f.standard != 0)\n        f.imcr = 0;\n"),
 (0, "listed: the other boot processor", MADE, MADE.replace("boot", "boot < 2 ? !boot : boot")),
 (0, "listed: boot processor 0 always", MADE, MADE.replace("boot", "boot < 2 ? 0 : boot")),
 (0, "listed: configuration 1 always", MADE, MADE.replace("f.standard, boot", "1, boot")),
 (0, "listed: 2 as 3", MADE, MADE.replace("f.standard, boot", "f.standard + (f.standard == 2), boot")),
 (0, "listed: the table in the room", MADE, MADE + "    if (f.standard != 0 && size >= sizeof made)\n        memcpy(room, made, sizeof made);\n"),
 of(1, "EISA", "ISA   ", "EISA  "), of(1, "MCA", "ISA   ", "MCA   "), of(1, "PCI too", "false", "true"),
 of(1, "the integrated APIC", "0x01", "0x10"), of(1, "no input 0", " 0 ", f" {without(0)} "),
 of(2, "with input 2", without(2, 13), without(13)), of(2, "with input 13", without(2, 13), without(2)),
 of(2, "with both", without(2, 13), "0"), of(2, "without input 0 for 2", without(2, 13), without(0, 13)),
 of(2, "without inputs 2 and 12", without(2, 13), without(2, 12)), of(2, "ISA", "EISA  ", "ISA   "),
 (0, "configuration 3: as 2", OF[1] + OF[2], OF[1] + OF[1]),
 (0, "configuration 3: ISA", OF[1] + OF[2], OF[1] + OF[2].replace("EISA  ", "ISA   ")),
 of(4, "EISA", "MCA   ", "EISA  "), of(4, "no input 0, as 7", " 0 ", f" {without(0)} "), of(4, "the integrated APIC", "0x01", "0x10"),
 of(5, "PCI missing", "true", "false"), of(5, "the 82489DX", "0x10", "0x01"), of(5, "EISA", "ISA   ", "EISA  "), of(5, "version 11h", "0x10", "0x11"),
 of(6, "PCI missing", "true", "false"), of(6, "ISA", "EISA  ", "ISA   "), of(6, "as 2", " 0 ", f" {without(2, 13)} "),
 of(7, "with input 0", without(0), "0"), of(7, "without input 2", without(0), without(2)), of(7, "PCI missing", "true", "false"),
 of(7, "without inputs 0 and 2", without(0), without(0, 2)), of(7, "the 82489DX", "0x10", "0x01"),
 (0, "6 and 7 exchanged", OF[5] + OF[6], OF[6] + OF[5]),
 (0, "3 and 4 exchanged", OF[2] + OF[3], OF[3] + OF[2]),
 wired("IRQ0 at input 0", "INT, 0, 2", "INT, 0, 0"), wired("IRQ2 at input 2", "INT, 0, 2", "INT, 2, 2"),
 wired("IRQ9 at input 2", "INT, 0, 2", "INT, 9, 2"), wired("IRQ0 at input 16", "INT, 0, 2", "INT, 0, 16"),
 wired("INTR as INT", "EXT_INT, 0, 0", "INT, 0, 0"), wired("INTR as NMI", "EXT_INT, 0, 0", "NMI, 0, 0"),
 wired("INTR by IRQ 2", "EXT_INT, 0, 0", "EXT_INT, 2, 0"), wired("INTR at input 16", "EXT_INT, 0, 0", "EXT_INT, 0, 16"),
 wired("IRQ8 at input 0", "INT, 8, 8", "INT, 8, 0"), wired("IRQ13 at input 14", "INT, 13, 13", "INT, 13, 14"),
 wired("IRQ13 as NMI", "INT, 13, 13", "NMI, 13, 13"), wired("IRQ15 left out for IRQ14 again", "INT, 15, 15", "INT, 14, 14"),
 (0, "inputs 1 and 2 by their IRQs", "FROM(INT, 1, 1), FROM(INT, 0, 2)", "FROM(INT, 0, 2), FROM(INT, 1, 1)"),
 (0, "INTR behind IRQ1", "FROM(EXT_INT, 0, 0), FROM(INT, 1, 1),", "FROM(INT, 1, 1), FROM(EXT_INT, 0, 0),"),
 (0, "input 15 left out", "i < INPUTS; i++", "i < INPUTS - 1; i++"),
 (0, "unconnected inputs kept", "p += 8 * (~unconnected >> i & 1);", "p += 8;"),
 (0, "to all I/O APICs", WIRED, WIRED.replace("APIC_ID", "ALL")),
 (0, "active high", WIRED, WIRED.replace("type, 0,", "type, 1,")),
 (0, "edge-triggered", WIRED, WIRED.replace("type, 0,", "type, 4,")),
 (0, "active low and level", WIRED, WIRED.replace("type, 0,", "type, 15,")),
 (0, "reserved flags", WIRED, WIRED.replace("type, 0, 0,", "type, 0, 1,")),
 (0, "inputs from bus 1", WIRED, WIRED.replace("0, irq", "1, irq")),
 (0, "I/O APIC numbered 3", "APIC_ID = 2,", "APIC_ID = 3,"),
 (0, "I/O APIC numbered 0", "APIC_ID = 2,", "APIC_ID = 0,"),
 (0, "I/O APIC at FEC01000h", "0xFEC00000", "0xFEC01000"),
 (0, "I/O APIC off", "    p[3] = ENABLED;\n", "    p[3] = 0;\n"),
 (0, "I/O APIC's version 11h", APIC_VERSION, APIC_VERSION.replace("version", "0x11")),
 (0, "I/O APIC's version exchanged", APIC_VERSION, APIC_VERSION.replace("version", "version ^ 0x11")),
 (0, "versions exchanged", CPU_VERSION, CPU_VERSION.replace("version", "version ^ 0x11")),
 (0, "version 0 of the 82489DX", CPU_VERSION, CPU_VERSION.replace("version", "version & 0x10")),
 (0, "both bootstrap", FLAGS, "    p[3] = ENABLED | BOOTSTRAP;\n"),
 (0, "no bootstrap", FLAGS, "    p[3] = ENABLED;\n"),
 (0, "the other one bootstrap", FLAGS, FLAGS.replace("==", "!=")),
 (0, "processor 0 always bootstrap", FLAGS, FLAGS.replace("id == boot", "id == 0")),
 (0, "the other one off", FLAGS, FLAGS.replace(": ENABLED", ": 0")),
 (0, "the bootstrap off", FLAGS, FLAGS.replace("ENABLED | BOOTSTRAP", "BOOTSTRAP")),
 entry("a signature", FLAGS, "    p[5] = 5;\n"), entry("a feature flag", FLAGS, "    p[8] = 1;\n"),
 entry("the feature flag of an on-chip APIC", FLAGS, "    p[9] = version == 0x10 ? 2 : 0;\n"), entry("a reserved byte", FLAGS, "    p[19] = 1;\n"),
 (0, "the bootstrap first", CPUS, CPUS.replace("p, 0,", "p, boot,").replace("p, 1,", "p, !boot,")),
 (0, "processor 1 first", CPUS, CPUS.replace("p, 0,", "p, 2,").replace("p, 1,", "p, 0,").replace("p, 2,", "p, 1,")),
 (0, "processors 1 and 2", CPUS, CPUS.replace("p, 1,", "p, 2,").replace("p, 0,", "p, 1,")),
 (0, "one processor", CPUS, "    p = put_processor(p, boot, c->version, boot);\n"),
 (0, "PCI missing", BUSES, BUSES.replace("c->pci", "0")), (0, "PCI in all", BUSES, BUSES.replace("c->pci", "1")),
 (0, "PCI is bus 0", BUSES, BUSES.replace("p, 0, c->bus", "p, c->pci, c->bus").replace("p, 1,", "p, 0,")),
 (0, "PCI is bus 0 and first", BUSES, "    if (c->pci)\n        p = put_bus(p, 0, \"PCI   \");\n    p = put_bus(p, c->pci, c->bus);\n"),
 (0, "PCI is bus 2", BUSES, BUSES.replace("p, 1,", "p, 2,")), (0, "PCI listed first", BUSES, "    if (c->pci)\n        p = put_bus(p, 1, \"PCI   \");\n    p = put_bus(p, 0, c->bus);\n"),
 (0, "buses from 1 on", BUSES, BUSES.replace("p, 0,", "p, 1,").replace("p, 1, \"", "p, 2, \"")),
 (0, "local ExtINT to processor 0", TO_EXT_INT, TO_EXT_INT.replace("ALL", "0")), (0, "local NMI to processor 0", TO_NMI, TO_NMI.replace("ALL", "0")),
 (0, "local NMI to processor 1", TO_NMI, TO_NMI.replace("ALL", "1")),
 (0, "local inputs exchanged", TO_EXT_INT + ",\n    " + TO_NMI, TO_EXT_INT.replace("ALL, 0", "ALL, 1") + ",\n    " + TO_NMI.replace("ALL, 1", "ALL, 0")),
 (0, "local NMI first", TO_EXT_INT + ",\n    " + TO_NMI, TO_NMI + ",\n    " + TO_EXT_INT), (0, "local ExtINT as INT", TO_EXT_INT, TO_EXT_INT.replace("EXT_INT", "INT")),
 (0, "local NMI as SMI", TO_NMI, TO_NMI.replace("NMI", "2")), (0, "local NMI by IRQ 2", TO_NMI, TO_NMI.replace("0, ALL", "2, ALL")),
 (0, "local NMI level-triggered", TO_NMI, TO_NMI.replace("NMI, 0", "NMI, 12")), (0, "local ExtINT edge-triggered", TO_EXT_INT, TO_EXT_INT.replace("EXT_INT, 0", "EXT_INT, 4")),
 (0, "local inputs of the bootstrap alone", INPUTS, INPUTS + "    p[-10] = p[-2] = boot;\n"),
 (0, "local inputs for each processor", INPUTS, INPUTS + EACH_ITS_OWN),
 (0, "no local NMI", LOCAL, LOCAL.replace("sizeof local_inputs", "8")), (0, "no local interrupts", LOCAL, "    return p;\n"),
 (0, "OEM ID zeros", ".oem_id = { SPACES, SPACES }", ".oem_id = { 0 }"), (0, "OEM ID half", ".oem_id = { SPACES, SPACES }", ".oem_id = { SPACES }"),
 (0, "a product", ".product = { SPACES,", ".product = { 'I', 'S', 'A', ' ',"), (0, "local APICs at FEC00000h", "0xFEE00000", "0xFEC00000"),
 (0, "local APICs at 0", "    .local_apic = 0xFEE00000,\n", ""), (0, "byte 43", "    .local_apic", "    .reserved = 1, .local_apic"),
 (0, "an OEM table", "    .local_apic", "    .oem_pointer = 0xF0000, .oem_size = 16, .local_apic"),
 (0, "an extended part", WRITE, "    static const uint8_t more[2] = { 131, 2 };\n" + WRITE.replace("base, 0,", "more, 2,")),
 (0, "writes past the table", WRITE, "    if (size > length + HEADER_SIZE)\n        room[length + HEADER_SIZE] ^= 1;\n" + WRITE),
 (0, "clears what lies past", WRITE, "    if (size > length + HEADER_SIZE)\n        memset(room + length + HEADER_SIZE, 0, size - length - HEADER_SIZE);\n" + WRITE),
 (0, "answers the longest length", WRITE, WRITE.replace("return plain", "return size < length + HEADER_SIZE ? refused(19) : counted(DEFAULT_MAX) | 0 * plain")),
 (0, "answers the entries' length", WRITE, WRITE.replace("return plain", "return size < length + HEADER_SIZE ? refused(19) : counted(length) | 0 * plain")),
 (0, "writes nothing", WRITE, "    uint8_t all[DEFAULT_MAX];\n    if (size < length + HEADER_SIZE)\n        return refused(19);\n" + WRITE.replace("room, size", "all, sizeof all")),
]
