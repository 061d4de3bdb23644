"""Mistakes to put into write.c and edit.c; see run.
Rule, what is wrong, old text (must occur once), new text."""

# The library's own face: names of any length, and a table taken apart by its length.
NAMES_SOURCE = """#include "plain.h"
#include "ruxtajma.h"
#include <string.h>

static size_t least(size_t a, size_t b) { return a < b ? a : b; }

uint64_t ruxtajma_write(const uint8_t *oem, size_t oem_length,
                        const uint8_t *product, size_t product_length,
                        uint32_t pointer, uint16_t size, uint32_t apic,
                        uint8_t reserved,
                        const uint8_t *base, size_t base_length,
                        const uint8_t *extended, size_t extended_length,
                        uint8_t *room, size_t room_length)
{
    struct fields f;
    memset(f.oem_id, 0, 8);
    memset(f.product, 0, 12);
    memcpy(f.oem_id, oem, least(oem_length, 8));
    memcpy(f.product, product, least(product_length, 12));
    f.oem_pointer = pointer;
    f.oem_size = size;
    f.local_apic = apic;
    f.reserved = reserved;
    return plain_write(&f, base, base_length, extended, extended_length, room, room_length);
}

uint64_t ruxtajma_parts(const uint8_t *table, size_t length)
{
    struct parts p;
    return plain_take_apart(table, length, &p);
}
"""

NAMES = [
 (0, "OEM ID filled with spaces", "memset(f.oem_id, 0, 8);", "memset(f.oem_id, ' ', 8);"),
 (0, "product filled with spaces", "memset(f.product, 0, 12);", "memset(f.product, ' ', 12);"),
 (0, "OEM ID read past its end", "least(oem_length, 8)", "8"),
 (0, "product read past its end", "least(product_length, 12)", "12"),
 (0, "seven bytes of the OEM ID", "least(oem_length, 8)", "least(oem_length, 7)"),
 (0, "a long product not taken", "least(product_length, 12)", "product_length > 12 ? 0 : product_length"),
 (0, "OEM pointer in 16 bits", "= pointer;", "= (uint16_t)pointer;"),
]

WRITE = [
 (7, "4,096 refused", "base_length > PART_MAX - HEADER_SIZE", "base_length >= PART_MAX - HEADER_SIZE"),
 (7, "4,097 allowed", "base_length > PART_MAX - HEADER_SIZE", "base_length > PART_MAX - HEADER_SIZE + 1"),
 (7, "header not counted", "base_length > PART_MAX - HEADER_SIZE", "base_length > PART_MAX"),
 (7, "left to the judge", "    if (base_length > PART_MAX - HEADER_SIZE)\n        return refused(7);\n", "    if (base_length > 12288)\n        return refused(7);\n"),
 (7, "in 16 bits", "if (base_length > PART_MAX - HEADER_SIZE)", "if ((uint16_t)(base_length + HEADER_SIZE) > PART_MAX)"),
 (7, "after 13", "    if (base_length > PART_MAX - HEADER_SIZE)\n", "    if (ext_length > PART_MAX)\n        return refused(13);\n    if (base_length > PART_MAX - HEADER_SIZE)\n"),
 (7, "after 19", "    if (base_length > PART_MAX - HEADER_SIZE)\n", "    if (HEADER_SIZE + base_length + ext_length > size)\n        return refused(19);\n    if (base_length > PART_MAX - HEADER_SIZE)\n"),
 (13, "4,096 refused", "if (ext_length > PART_MAX)", "if (ext_length >= PART_MAX)"),
 (13, "4,097 allowed", "if (ext_length > PART_MAX)", "if (ext_length > PART_MAX + 1)"),
 (13, "left to the judge", "if (ext_length > PART_MAX)", "if (ext_length > 65535)"),
 (13, "in 16 bits", "if (ext_length > PART_MAX)", "if ((uint16_t)ext_length > PART_MAX)"),
 (13, "after 19", "    if (ext_length > PART_MAX)\n", "    if (HEADER_SIZE + base_length + ext_length > size)\n        return refused(19);\n    if (ext_length > PART_MAX)\n"),
 (19, "exact room refused", "if (length > size)", "if (length >= size)"),
 (19, "one less allowed", "if (length > size)", "if (length > size + 1)"),
 (19, "the base alone", "if (length > size)", "if (base_end > size)"),
 (19, "begun and left", "    if (length > size)\n        return refused(19);\n", "    if (length > size) {\n        if (size >= HEADER_SIZE)\n            put_header(room, f, base_end, 0, ext_length);\n        return refused(19);\n    }\n"),
 (19, "room cleared", "    if (length > size)\n        return refused(19);\n", "    if (length > size) {\n        memset(room, 0, size);\n        return refused(19);\n    }\n"),
 (0, "zeroes one byte too many", "memset(room, 0, length);", "memset(room, 0, length + (length < size));"),
 (0, "zeroes one byte too few", "memset(room, 0, length);", "memset(room, 0, length - 1);"),
 (0, "zeroes all but the first", "memset(room, 0, length);", "memset(room + 1, 0, length - 1);"),
 (0, "zeroes the header only", "memset(room, 0, length);", "memset(room, 0, HEADER_SIZE);"),
 (0, "zeroes the base only", "memset(room, 0, length);", "memset(room, 0, base_end);"),
 (0, "zeroes the whole room", "memset(room, 0, length);", "memset(room, 0, size);"),
 (0, "leaves the refused image", "        memset(room, 0, length);\n", ""),
 (0, "clears what lies past", "    return counted(length);\n", "    memset(room + length, 0, size - length);\n    return counted(length);\n"),
 (0, "writes before the room", "    return counted(length);\n", "    room[-1] = 0;\n    return counted(length);\n"),
 (0, "not judged", "uint8_t refusal = plain_judge_walk(room, length, walked);", "uint8_t refusal = 0;"),
 (0, "walked, but not judged", "uint8_t refusal = plain_judge_walk(room, length, walked);", "plain_judge_walk(room, length, walked);\n    uint8_t refusal = 0;"),
 (0, "answers the base length", "    return counted(length);\n", "    return counted(base_end);\n"),
 (0, "answers bytes at a refusal", "        return refused(refusal);", "        return refused(refusal) | counted(length);"),
 (0, "judge's number for 19", "        return refused(refusal);", "        return refused(refusal == 18 ? 19 : refusal);"),
 (0, "revision 1", "t[6] = 4;", "t[6] = 1;"),
 (0, "count as if all had 8 bytes", "count_entries(base, base_length)", "(uint32_t)base_length / 8"),
 (0, "count in one byte", "put16(t + 34, count);", "put16(t + 34, count & 255);"),
 (0, "length without the header", "put16(t + 4, (uint32_t)base_end);", "put16(t + 4, (uint32_t)base_end - HEADER_SIZE);"),
 (0, "extended checksum left 0", "    room[42] = (uint8_t)-sum(room + base_end, ext_length);\n", ""),
 (0, "base checksum first", "    room[42] = (uint8_t)-sum(room + base_end, ext_length);\n    room[7] = (uint8_t)-sum(room, base_end);\n", "    room[7] = (uint8_t)-sum(room, base_end);\n    room[42] = (uint8_t)-sum(room + base_end, ext_length);\n"),
 (0, "seven bytes of the OEM ID", "memcpy(t + 8, f->oem_id, 8);", "memcpy(t + 8, f->oem_id, 7);"),
 (0, "eleven bytes of the product", "memcpy(t + 16, f->product, 12);", "memcpy(t + 16, f->product, 11);"),
 (0, "OEM pointer in two bytes", "put32(t + 28, f->oem_pointer);", "put32(t + 28, f->oem_pointer & 0xFFFF);"),
 (0, "OEM size in one byte", "put16(t + 32, f->oem_size);", "put16(t + 32, f->oem_size & 255);"),
 (0, "local APIC address made good", "put32(t + 36, f->local_apic);", "put32(t + 36, f->local_apic & 0xFFFFF000);"),
 (0, "byte 43 always 0", "t[43] = f->reserved;", "t[43] = 0;"),
]

# What the second judging says, changed. The parts of the table, from where to where in steps of an entry:
AGAIN = "    if ((refusal = plain_judge_again(&walked)) != 0) {\n"
CPUS = "walked.base[PROCESSOR]", "walked.base[BUS]", 20
IO_APICS = "walked.base[IO_APIC]", "walked.base[IO_INT]", 8
IO_INTS = "walked.base[IO_INT]", "walked.base[LOCAL_INT]", 8
LOCAL_INTS = "walked.base[LOCAL_INT]", "walked.base[BASE_TYPES]", 8
MAPPINGS = "walked.ext[MAPPING]", "walked.ext[LINK]", 20
LINKS = "walked.ext[LINK]", "walked.ext[MODIFIER]", 8
MODIFIERS = "walked.ext[MODIFIER]", "walked.ext[EXT_TYPES]", 8

def instead(where, number, *having):
    """Judged again, with another number where `where` holds. A row (name, part, byte) is a flag: whether an entry of the
    part has the old ID in that byte."""
    found = "".join(f"    bool {name} = false;\n" for name in sorted({name for name, _, _ in having}))
    for name, (first, last, step), byte in having:
        found += f"    for (size_t k = {first}; k < {last}; k += {step})\n        {name} |= t[k + {byte}] == stated[1];\n"
    return f"    refusal = plain_judge_again(&walked);\n{found}    if ({where})\n        refusal = {number};\n    if (refusal != 0) {{\n"

def unread(byte):
    """An interrupt is judged with the old byte."""
    return ("    refusal = plain_judge_again(&walked);\n    if (t[at] >= IO_INT) {\n"
            f"        t[at + {byte}] = stated[{byte}];\n        refusal = plain_judge_again(&walked);\n"
            f"        t[at + {byte}] = wanted[{byte}];\n    }}\n    if (refusal != 0) {{\n")

OF_CPU, OF_BUS, OF_IO_APIC = (f"t[at] == {type} && stated[1] != wanted[1]" for type in ("PROCESSOR", "BUS", "IO_APIC"))
BUS_NAMED = [("named", IO_INTS, 4), ("named", LOCAL_INTS, 4)]
EXT_NAMED = [("extended", MAPPINGS, 2), ("extended", LINKS, 2), ("extended", LINKS, 4), ("extended", MODIFIERS, 2)]

EDIT = [
 (20, "one past allowed", "if (place >= get16(t + 34))", "if (place > get16(t + 34))"),
 (20, "last refused", "if (place >= get16(t + 34))", "if (place + 1 >= get16(t + 34))"),
 (20, "count in one byte", "if (place >= get16(t + 34))", "if (place >= t[34])"),
 (20, "place in 8 bits", "if (place >= get16(t + 34))", "if ((place &= 255) >= get16(t + 34))"),
 (20, "place in 16 bits", "if (place >= get16(t + 34))", "if ((place &= 65535) >= get16(t + 34))"),
 (20, "place in 32 bits", "if (place >= get16(t + 34))", "if ((place &= UINT32_MAX) >= get16(t + 34))"),
 (20, "place with a sign", "if (place >= get16(t + 34))", "if ((ptrdiff_t)place >= (ptrdiff_t)get16(t + 34)) return 20; if ((ptrdiff_t)place < 0)\n        return 21; if (0)"),
 (20, "before the table", "    if ((refusal = plain_judge_walk(t, n, &walked)) != 0)\n", "    if (n >= HEADER_SIZE && place >= get16(t + 34))\n        return 20;\n    if ((refusal = plain_judge_walk(t, n, &walked)) != 0)\n"),
 (20, "after 21", "    if (place >= get16(t + 34))\n", "    if (stated_length != wanted_length)\n        return 21;\n    if (place >= get16(t + 34))\n"),
 (21, "stated length free", "if (stated_length != size || ", "if ("),
 (21, "stated length not below", "stated_length != size", "stated_length < size"),
 (21, "wanted length free", "wanted_length != size || wanted[0]", "wanted[0]"),
 (21, "wanted length not below", "wanted_length != size", "wanted_length < size"),
 (21, "wanted type free", " || wanted[0] != t[at])", ")"),
 (21, "stated type too", " || wanted[0] != t[at])", " || wanted[0] != t[at] || stated[0] != t[at])"),
 (21, "wanted type as stated", "wanted[0] != t[at])", "wanted[0] != stated[0])"),
 (21, "type read from no bytes", "    if (stated_length != size || wanted_length != size || wanted[0] != t[at])", "    if (*(volatile const uint8_t *)wanted != t[at] || stated_length != size || wanted_length != size)"),
 (22, "stated not compared", "if (memcmp(stated, t + at, size) != 0)", "if (0)"),
 (22, "last byte left out", "memcmp(stated, t + at, size)", "memcmp(stated, t + at, size - 1)"),
 (22, "type left out", "memcmp(stated, t + at, size)", "memcmp(stated + 1, t + at + 1, size - 1)"),
 (22, "eight bytes only", "memcmp(stated, t + at, size)", "memcmp(stated, t + at, 8)"),
 (22, "wanted may stand there", "if (memcmp(stated, t + at, size) != 0)", "if (memcmp(stated, t + at, size) != 0 && memcmp(wanted, t + at, size) != 0)"),
 (22, "equal bytes refused", "if (memcmp(stated, t + at, size) != 0)", "if (memcmp(stated, t + at, size) != 0 || memcmp(wanted, t + at, size) == 0)"),
 (23, "new checksum kept", "        exchange(t, at, wanted, stated, size);\n", "        memcpy(t + at, stated, size);\n"),
 (23, "new entry kept", "        exchange(t, at, wanted, stated, size);\n", "        t[7] = (uint8_t)(t[7] + sum(wanted, size) - sum(stated, size));\n"),
 (23, "nothing restored", "        exchange(t, at, wanted, stated, size);\n", ""),
 (23, "last byte not restored", "        exchange(t, at, wanted, stated, size);\n", "        exchange(t, at, wanted, stated, size - 1);\n        t[7] = (uint8_t)(t[7] + wanted[size - 1] - stated[size - 1]);\n"),
 (23, "eight bytes restored", "        exchange(t, at, wanted, stated, size);\n", "        exchange(t, at, wanted, stated, size);\n        memcpy(t + at + 8, wanted + 8, size - 8);\n"),
 (23, "no inner number", "return 23 | refusal << 8;", "return 23;"),
 (23, "inner number alone", "return 23 | refusal << 8;", "return refusal;"),
 (23, "inner number one off", "return 23 | refusal << 8;", "return 23 | (refusal + (refusal == 18)) << 8;"),
 (23, "not judged again", "if ((refusal = plain_judge_again(&walked)) != 0) {", "if (0) {"),
 (23, "rule 18 not judged again", "if ((refusal = plain_judge_again(&walked)) != 0) {", "if ((refusal = plain_judge_again(&walked)) != 0 && refusal != 18) {"),
 (23, "rule 14 not judged again", AGAIN, instead("refusal == 14", 0)),
 (23, "rule 15 not judged again", AGAIN, instead("refusal == 15", 0)),
 (23, "rule 16 not judged again", AGAIN, instead("refusal == 16", 0)),
 (23, "rule 17 not judged after a processor", AGAIN, instead("refusal == 17 && t[at] == PROCESSOR", 0)),
 (23, "rule 17 not judged after a bus", AGAIN, instead("refusal == 17 && t[at] == BUS", 0)),
 (23, "rule 17 not judged after an I/O APIC", AGAIN, instead("refusal == 17 && t[at] == IO_APIC", 0)),
 (23, "I/O interrupt not judged", AGAIN, instead("t[at] == IO_INT", 0)),
 (23, "local interrupt not judged", AGAIN, instead("t[at] == LOCAL_INT", 0)),
 (23, "type of an interrupt not judged", AGAIN, unread(1)),
 (23, "flags of an interrupt not judged", AGAIN, unread(2)),
 (23, "bus of an interrupt not judged", AGAIN, unread(4)),
 (23, "destination of an interrupt not judged", AGAIN, unread(6)),
 (23, "input of an interrupt not judged", AGAIN, unread(7)),
 (23, "second bootstrap not seen", AGAIN, instead("refusal == 14 && wanted[3] & ~stated[3] & BOOTSTRAP", 0)),
 (23, "bootstrap off not seen", AGAIN, instead("refusal == 14 && stated[3] & ~wanted[3] & ENABLED", 0)),
 (23, "processor's ID twice not seen", AGAIN, instead(f"refusal == 14 && {OF_CPU} && wanted[1] != ALL", 0)),
 (23, "processor 255 not seen", AGAIN, instead("refusal == 14 && wanted[1] == ALL", 0)),
 (23, "processor switched on not judged", AGAIN, instead("refusal == 14 && wanted[3] & ~stated[3] & ENABLED && stated[1] == wanted[1]", 0)),
 (23, "bus ID twice not seen", AGAIN, instead("refusal == 15 && memcmp(stated + 2, wanted + 2, 6) == 0", 0)),
 (23, "bus name not judged", AGAIN, instead("refusal == 15 && stated[1] == wanted[1]", 0)),
 (23, "I/O APIC's ID twice not seen", AGAIN, instead(f"refusal == 16 && {OF_IO_APIC} && wanted[1] != ALL", 0)),
 (23, "I/O APIC 255 not seen", AGAIN, instead("refusal == 16 && wanted[1] == ALL", 0)),
 (23, "address not judged", AGAIN, instead("refusal == 16 && stated[1] == wanted[1] && stated[3] == wanted[3]", 0)),
 (23, "address judged of one that is off", AGAIN, instead("refusal == 0 && t[at] == IO_APIC && (get32(wanted + 4) == 0 || get32(wanted + 4) % 1024 != 0)", 16)),
 (23, "I/O APIC switched on not judged", AGAIN, instead("refusal == 16 && wanted[3] & ~stated[3] & ENABLED", 0)),
 (23, "bus of I/O interrupts alone not seen", AGAIN, instead("refusal == 17 && t[at] == BUS && !named", 0, ("named", LOCAL_INTS, 4))),
 (23, "bus of local interrupts alone not seen", AGAIN, instead("refusal == 17 && t[at] == BUS && !named", 0, ("named", IO_INTS, 4))),
 (23, "bus 255 excepted", AGAIN, instead(f"refusal >= 17 && {OF_BUS} && stated[1] == ALL", 0)),
 (23, "bus of mappings alone not seen", AGAIN, instead("refusal == 18 && !extended", 0, *EXT_NAMED[1:])),
 (23, "bus of links alone not seen", AGAIN, instead("refusal == 18 && !extended", 0, *EXT_NAMED[:1], *EXT_NAMED[2:])),
 (23, "parent alone not seen", AGAIN, instead("refusal == 18 && !extended", 0, *EXT_NAMED[:2], *EXT_NAMED[3:])),
 (23, "bus of modifiers alone not seen", AGAIN, instead("refusal == 18 && !extended", 0, *EXT_NAMED[:3])),
 (23, "byte 4 of mappings taken for a parent", AGAIN, instead(f"refusal == 0 && {OF_BUS} && named", 18, ("named", MAPPINGS, 4))),
 (23, "byte 4 of modifiers taken for a parent", AGAIN, instead(f"refusal == 0 && {OF_BUS} && named", 18, ("named", MODIFIERS, 4))),
 (23, "IRQ taken for a bus", AGAIN, instead(f"refusal == 0 && {OF_BUS} && named", 17, ("named", IO_INTS, 5))),
 (23, "255 of processors not excepted", AGAIN, instead(f"refusal == 0 && {OF_CPU} && stated[1] == ALL && named && !kept", 17, ("named", LOCAL_INTS, 6), ("kept", CPUS, 1))),
 (23, "255 of I/O APICs not excepted", AGAIN, instead(f"refusal == 0 && {OF_IO_APIC} && stated[1] == ALL && named && !kept", 17, ("named", IO_INTS, 6), ("kept", IO_APICS, 1))),
 (23, "another processor of the ID not seen", AGAIN, instead(f"refusal == 0 && {OF_CPU} && stated[1] != ALL && named", 17, ("named", LOCAL_INTS, 6))),
 (23, "another I/O APIC of the ID not seen", AGAIN, instead(f"refusal == 0 && {OF_IO_APIC} && stated[1] != ALL && named", 17, ("named", IO_INTS, 6))),
 (23, "processor that I/O interrupts name", AGAIN, instead(f"refusal == 0 && {OF_CPU} && named && !kept", 17, ("named", IO_INTS, 6), ("kept", CPUS, 1))),
 (23, "I/O APIC that local interrupts name", AGAIN, instead(f"refusal == 0 && {OF_IO_APIC} && stated[1] != ALL && named && !kept", 17, ("named", LOCAL_INTS, 6), ("kept", IO_APICS, 1))),
 (23, "processor kept by an I/O APIC", AGAIN, instead("refusal == 17 && t[at] == PROCESSOR && kept", 0, ("kept", IO_APICS, 1))),
 (23, "I/O APIC kept by a processor", AGAIN, instead("refusal == 17 && t[at] == IO_APIC && kept", 0, ("kept", CPUS, 1))),
 (23, "processor switched off taken for gone", AGAIN, instead("refusal == 0 && t[at] == PROCESSOR && stated[3] & ~wanted[3] & ENABLED && named", 17, ("named", LOCAL_INTS, 6))),
 (23, "I/O APIC switched off taken for gone", AGAIN, instead("refusal == 0 && t[at] == IO_APIC && stated[3] & ~wanted[3] & ENABLED && named", 17, ("named", IO_INTS, 6))),
 (23, "processor that is off not missed", AGAIN, instead("refusal == 17 && t[at] == PROCESSOR && !(stated[3] & ENABLED)", 0)),
 (23, "I/O APIC that is off not missed", AGAIN, instead("refusal == 17 && t[at] == IO_APIC && !(stated[3] & ENABLED)", 0)),
 (23, "17 before 14", AGAIN, instead(f"refusal == 14 && {OF_CPU} && stated[1] != ALL && named && !kept", 17, ("named", LOCAL_INTS, 6), ("kept", CPUS, 1))),
 (23, "17 before 15", AGAIN, instead(f"refusal == 15 && {OF_BUS} && named", 17, *BUS_NAMED)),
 (23, "17 before 16", AGAIN, instead(f"refusal == 16 && {OF_IO_APIC} && stated[1] != ALL && named && !kept", 17, ("named", IO_INTS, 6), ("kept", IO_APICS, 1))),
 (23, "18 before 15", AGAIN, instead(f"refusal == 15 && {OF_BUS} && extended && !named", 18, *EXT_NAMED, *BUS_NAMED)),
 (23, "18 before 17", AGAIN, instead("refusal == 17 && t[at] == BUS && extended", 18, *EXT_NAMED)),
 (0, "old checksum left out", "t[7] + sum(old, size) - sum(new, size)", "sum(old, size) - sum(new, size)"),
 (0, "old entry left out of the sum", "t[7] + sum(old, size) - sum(new, size)", "t[7] - sum(new, size)"),
 (0, "new entry left out of the sum", "t[7] + sum(old, size) - sum(new, size)", "t[7] + sum(old, size)"),
 (0, "sums of eight bytes", "t[7] + sum(old, size) - sum(new, size)", "t[7] + sum(old, 8) - sum(new, 8)"),
 (0, "last byte left out of the sum", "t[7] + sum(old, size) - sum(new, size)", "t[7] + sum(old, size - 1) - sum(new, size - 1)"),
 (0, "sums modulo 255", "(uint8_t)(t[7] + sum(old, size) - sum(new, size))", "(uint8_t)((t[7] + sum(old, size) + 255 - sum(new, size)) % 255)"),
 (0, "checksum not below 0", "(uint8_t)(t[7] + sum(old, size) - sum(new, size))", "(uint8_t)(t[7] + sum(old, size) < sum(new, size) ? 0 : t[7] + sum(old, size) - sum(new, size))"),
 (0, "checksum not past 255", "(uint8_t)(t[7] + sum(old, size) - sum(new, size))", "(uint8_t)(t[7] + sum(old, size) - sum(new, size) > 255 ? 255 : t[7] + sum(old, size) - sum(new, size))"),
 (0, "checksum kept where it would be 0", "    t[7] = (uint8_t)(t[7] + sum(old, size) - sum(new, size));\n", "    uint8_t byte = (uint8_t)(t[7] + sum(old, size) - sum(new, size));\n    if (byte != 0)\n        t[7] = byte;\n"),
 (0, "entry kept where the sum stays", "    memcpy(t + at, new, size);\n", "    if (sum(old, size) != sum(new, size))\n        memcpy(t + at, new, size);\n"),
 (0, "checksum left", "    t[7] = (uint8_t)(t[7] + sum(old, size) - sum(new, size));\n", ""),
 (0, "checksum the other way", "t[7] + sum(old, size) - sum(new, size)", "t[7] - sum(old, size) + sum(new, size)"),
 (0, "table not judged first", "    if ((refusal = plain_judge_walk(t, n, &walked)) != 0)\n        return refusal;\n", "    if ((refusal = plain_judge_walk(t, n, &walked)) != 0 && refusal < 14)\n        return refusal;\n"),
 (0, "sum of the table not tested first", "    if ((refusal = plain_judge_walk(t, n, &walked)) != 0)\n        return refusal;\n", "    if (n >= HEADER_SIZE && get16(t + 4) >= HEADER_SIZE && get16(t + 4) <= n)\n        t[7] = (uint8_t)(t[7] - sum(t, get16(t + 4)));\n    if ((refusal = plain_judge_walk(t, n, &walked)) != 0)\n        return refusal;\n"),
 (0, "writes nothing", "    return 0;\n", "    exchange(t, at, wanted, stated, size);\n    return 0;\n"),
 (0, "the first edit only", "    return 0;\n", "    static const uint8_t *last;\n    if (last == t)\n        exchange(t, at, wanted, stated, size);\n    last = t;\n    return 0;\n"),
 (0, "refuses everything", "    exchange(t, at, stated, wanted, size);\n", "    if (1)\n        return 22;\n    exchange(t, at, stated, wanted, size);\n"),
 (0, "clears the bytes behind", "    return 0;\n", "    memset(t + walked.ext_end, 0, n - walked.ext_end);\n    return 0;\n"),
 (0, "refuses bytes behind", "    if (place >= get16(t + 34))\n", "    if (n != walked.ext_end)\n        return 7;\n    if (place >= get16(t + 34))\n"),
 (0, "place counts in eights", "20 * place;", "8 * place;"),
 (0, "processors counted short", "return t->base[BUS] + 8 * (place - processors);", "return t->base[BUS] + 8 * (place - 1);"),
 (0, "writes behind the entry", "    return 0;\n", "    if (at + size < n)\n        t[at + size] ^= 1;\n    return 0;\n"),
]
