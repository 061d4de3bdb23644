"""Mistakes to put into renumber.c; see run.
Rule, what is wrong, old text (must occur once), new text."""

FREE = "    return ~(marks | marks >> 1) & UINT64_C(0x0101010101010101);\n"
START = "    uint64_t free = 0;         /* of the last eight IDs looked at */\n    unsigned looked_at = 0;\n"
ON = "        if (!(e[3] & ENABLED))\n            continue;\n"
SHARES = "        if (ids[number] & PROCESSOR_ON) {\n"
LOOK = "                free = free_among(ids + looked_at);\n                looked_at += 8;\n"
NUMBER = "            number = (uint8_t)(looked_at - 8 + __builtin_ctzll(free) / 8);\n"
GIVEN = "            free &= free - 1;\n"
LOOP = f"""    for (; e < end; e += 8) {{
        uint8_t number = e[1];

{ON}{SHARES}            while (free == 0) {{
{LOOK}            }}
{NUMBER}{GIVEN}        }}
        *p++ = number;
    }}
"""
JUDGED = "    if ((refusal = plain_judge_ids(bytes, n, &t, &j)) != 0)\n        return refused(refusal);\n"
USED = "    uint32_t used = j.processors + j.io_apics;\n"
TOO_SMALL = "    if (j.io_apics > size)\n        return refused(19);\n"
NONE = "    if (used > NUMBERS)\n        return refused(26);\n"
PUT = "    put_numbers(&t, j.ids, room);\n"
ANSWER = "    return (uint64_t)used << 32 | counted(j.io_apics);\n"
LISTED = "(t.base[IO_APIC + 1] - t.base[IO_APIC]) / 8"

# Keepers are marked as they come; the search begins at 0 each time.
EARLIER = """    uint8_t own[256];
    for (int i = 0; i < 256; i++)
        own[i] = i == ALL ? ids[i] : ids[i] & PROCESSOR_ON;
""" + LOOP.replace("free_among(ids", "free_among(own").replace(
    "        *p++ = number;\n", "        own[number] |= IO_APIC_ON;\n        free = 0, looked_at = 0;\n        *p++ = number;\n")

# From the last entry to the first.
BACKWARDS = """    const uint8_t *first = e;
    for (; e < end; e += 8)
        p += e[3] & ENABLED;
    while (e > first) {
        e -= 8;
""" + LOOP.split("    for (; e < end; e += 8) {\n")[1].replace("*p++ = number;", "*--p = number;")

# Those that keep theirs, then the new ones.
KEEPERS_FIRST = """    for (int turn = 0; turn < 2; turn++)
    for (e = t->bytes + t->base[IO_APIC]; e < end; e += 8) {
        uint8_t number = e[1];

        if ((ids[number] & PROCESSOR_ON) != turn)
            continue;
""" + LOOP.split("        uint8_t number = e[1];\n\n")[1]

RENUMBER = [
 (19, "exact room refused", "if (j.io_apics > size)", "if (j.io_apics >= size)"),
 (19, "a byte more allowed", "if (j.io_apics > size)", "if (j.io_apics > size + 1)"),
 (19, "two bytes each", "if (j.io_apics > size)", "if (2 * j.io_apics > size)"),
 (19, "no test", TOO_SMALL, ""),
 (19, "empty room refused", "if (j.io_apics > size)", "if (j.io_apics > size || size == 0)"),
 (19, "a room for all listed ones", "if (j.io_apics > size)", f"if ({LISTED} > size)"),
 (19, "a room of 255 always", "if (j.io_apics > size)", "if (size < 255)"),
 (19, "a room for all used ones", "if (j.io_apics > size)", "if (j.processors + j.io_apics > size)"),
 (19, "as many as fit", TOO_SMALL, "    if (j.io_apics > size)\n        return (uint64_t)(j.processors + j.io_apics) << 32 | counted(size);\n"),
 (19, "room cleared", TOO_SMALL, "    if (j.io_apics > size) {\n        while (size-- > 0)\n            room[size] = 0;\n        return refused(19);\n    }\n"),
 (19, "first byte written", TOO_SMALL, "    if (j.io_apics > size) {\n        if (size > 0)\n            room[0] ^= 1;\n        return refused(19);\n    }\n"),
 (19, "count given too", TOO_SMALL, TOO_SMALL.replace("refused(19)", "refused(19) | counted(j.io_apics)")),
 (19, "in 7 bits", "if (j.io_apics > size)", "if ((j.io_apics & 127) > size)"),
 (19, "after 26", TOO_SMALL, "    if (j.processors + j.io_apics > NUMBERS)\n        return refused(26);\n" + TOO_SMALL),
 (26, "no test", NONE, "    if (used > NUMBERS)\n        return (uint64_t)NUMBERS << 32 | counted(j.io_apics);\n"),
 (26, "255 given", NONE, "    if (used > NUMBERS + 1)\n        return refused(26);\n    j.ids[ALL] = 0;\n"),
 (26, "254 not given", "NUMBERS = 255 ", "NUMBERS = 254 "),
 (26, "where none is left", NONE, NONE.replace(">", ">=")),
 (26, "where none is left, and one shares", NONE, "    bool shared = false;\n    for (int i = 0; i < 255; i++)\n        shared |= (j.ids[i] & 3) == 3;\n" + NONE.replace("used > NUMBERS", "used > NUMBERS || (used == NUMBERS && shared)")),
 (26, "where the first finds none alone", NONE, "    uint32_t marked = 0;\n    for (int i = 0; i < 255; i++)\n        marked += (j.ids[i] & 3) != 0;\n    if (used > NUMBERS && marked < NUMBERS)\n        return 0;\n" + NONE),
 (26, "disabled I/O APICs need numbers too", USED, f"    if (j.processors + {LISTED} > NUMBERS)\n        return refused(26);\n" + USED),
 (26, "with over 150 processors alone", "if (used > NUMBERS)", "if (used > NUMBERS && j.processors > 150)"),
 (26, "19 for it", NONE, NONE.replace("26", "19")),
 (26, "16 for it", NONE, NONE.replace("26", "16")),
 (26, "27 for it", NONE, NONE.replace("26", "27")),
 (26, "used ones given too", NONE, NONE.replace("refused(26)", "refused(26) | (uint64_t)used << 32")),
 (26, "count given too", NONE, NONE.replace("refused(26)", "refused(26) | counted(j.io_apics)")),
 (26, "first byte written", NONE, "    if (used > NUMBERS) {\n        room[0] ^= 1;\n        return refused(26);\n    }\n"),
 (26, "room cleared", NONE, "    if (used > NUMBERS) {\n        while (size-- > 0)\n            room[size] = 0;\n        return refused(26);\n    }\n"),
 (26, "in 8 bits", USED, "    uint32_t used = (uint8_t)(j.processors + j.io_apics);\n"),
 (0, "disabled ones too", ON, ""),
 (0, "enabled by the whole byte", "if (!(e[3] & ENABLED))", "if (e[3] != ENABLED)"),
 (0, "enabled by bit 1", "if (!(e[3] & ENABLED))", "if (!(e[3] & 2))"),
 (0, "a byte for disabled ones", ON, "        if (!(e[3] & ENABLED)) {\n            *p++ = 255;\n            continue;\n        }\n"),
 (0, "none shares", "if (ids[number] & PROCESSOR_ON)", "if (0)"),
 (0, "all get new ones", "if (ids[number] & PROCESSOR_ON)", "if (1)"),
 (0, "a disabled processor's ID is shared too", "if (ids[number] & PROCESSOR_ON)", "if (ids[number] & (PROCESSOR_ON | 4))"),
 (0, "a bus's ID is shared too", "if (ids[number] & PROCESSOR_ON)", "if (ids[number] & (PROCESSOR_ON | 16))"),
 (0, "ID 0 is never shared", "if (ids[number] & PROCESSOR_ON)", "if (number != 0 && ids[number] & PROCESSOR_ON)"),
 (0, "ID 0 is always shared", "if (ids[number] & PROCESSOR_ON)", "if (number == 0 || ids[number] & PROCESSOR_ON)"),
 (0, "the bootstrap's ID alone is shared", "if (ids[number] & PROCESSOR_ON)", "if (number == t->bytes[HEADER_SIZE + 1])"),
 (0, "keepers' numbers are free", FREE, FREE.replace("(marks | marks >> 1)", "marks")),
 (0, "processors' numbers are free", FREE, FREE.replace("(marks | marks >> 1)", "(marks >> 1)")),
 (0, "disabled processors' are not free", FREE, FREE.replace("marks >> 1)", "marks >> 1 | marks >> 2)")),
 (0, "disabled I/O APICs' are not free", FREE, FREE.replace("marks >> 1)", "marks >> 1 | marks >> 3)")),
 (0, "buses' are not free", FREE, FREE.replace("marks >> 1)", "marks >> 1 | marks >> 4)")),
 (0, "in both only", FREE, FREE.replace("marks | marks", "marks & marks")),
 (0, "later keepers are not seen", LOOP, EARLIER),
 (0, "from 1 on", START, START.replace("looked_at = 0", "looked_at = 8") + "    free = free_among(ids) & ~(uint64_t)1;\n"),
 (0, "from 8 on", "unsigned looked_at = 0;", "unsigned looked_at = 8;"),
 (0, "behind the processors", "unsigned looked_at = 0;", "unsigned looked_at = (unsigned)(t->base[BUS] - HEADER_SIZE) / 20 / 8 * 8;"),
 (0, "the highest of eight", NUMBER + GIVEN, NUMBER.replace("__builtin_ctzll(free) / 8", "7 - __builtin_clzll(free) / 8") + "            free &= ~((uint64_t)1 << 8 * (number & 7));\n"),
 (0, "one number for all", GIVEN, ""),
 (0, "one of eight alone", GIVEN, "            free = 0;\n"),
 (0, "every other eight", "looked_at += 8;", "looked_at += 16;"),
 (0, "a bit's place for a number", "__builtin_ctzll(free) / 8", "__builtin_ctzll(free)"),
 (0, "one too high", "looked_at - 8 +", "looked_at - 7 +"),
 (0, "in 7 bits", "(uint8_t)(looked_at - 8 + __builtin_ctzll(free) / 8)", "(looked_at - 8 + __builtin_ctzll(free) / 8) & 127"),
 (0, "from the last entry on", LOOP, BACKWARDS),
 (0, "keepers first", LOOP, KEEPERS_FIRST),
 (0, "new ones alone", "            free &= free - 1;\n        }\n        *p++ = number;\n", "            free &= free - 1;\n            *p++ = number;\n        }\n"),
 (0, "last one left out", "e < end; e += 8)", "e + 8 < end; e += 8)"),
 (0, "the table's numbers", "        *p++ = number;\n", "        *p++ = e[1];\n"),
 (0, "used without processors", ANSWER, ANSWER.replace("(uint64_t)used", "(uint64_t)j.io_apics")),
 (0, "used without I/O APICs", ANSWER, ANSWER.replace("(uint64_t)used", "(uint64_t)j.processors")),
 (0, "used before the new ones", ANSWER, "    used = 0;\n    for (int i = 0; i < 255; i++)\n        used += (j.ids[i] & 3) != 0;\n" + ANSWER),
 (0, "255 counted as used", ANSWER, ANSWER.replace("(uint64_t)used", "(uint64_t)(used + 1)")),
 (0, "disabled processors counted", ANSWER, "    used += (uint32_t)(t.base[BUS] - HEADER_SIZE) / 20 - j.processors;\n" + ANSWER),
 (0, "disabled I/O APICs counted", ANSWER, f"    used += (uint32_t){LISTED} - j.io_apics;\n" + ANSWER),
 (0, "free ones counted", ANSWER, ANSWER.replace("(uint64_t)used", "(uint64_t)(255 - used)")),
 (0, "both numbers exchanged", ANSWER, "    return (uint64_t)j.io_apics << 32 | counted(used);\n"),
 (0, "used from bit 24 on", ANSWER, ANSWER.replace("<< 32", "<< 24")),
 (0, "count of all listed ones", ANSWER, ANSWER.replace("counted(j.io_apics)", f"counted({LISTED})")),
 (0, "writes nothing", PUT, ""),
 (0, "a byte past the numbers", PUT, PUT + "    if (size > j.io_apics)\n        room[j.io_apics] ^= 1;\n"),
 (0, "clears what lies past", PUT, PUT + "    for (size_t i = j.io_apics; i < size; i++)\n        room[i] = 0;\n"),
 (0, "writes before the room", PUT, PUT + "    room[-1] ^= 1;\n"),
 (0, "the same number always", PUT, PUT + "    if (j.io_apics == 1)\n        room[0] = 2;\n"),
 (0, "numbers of a refused table", JUDGED, JUDGED.replace("!= 0)", "!= 0 && refusal < 18)")),
 (0, "shared IDs refused", JUDGED, JUDGED + "    for (int i = 0; i < 255; i++)\n        if ((j.ids[i] & 3) == 3)\n            return refused(16);\n"),
 (0, "number in the upper half", JUDGED, JUDGED.replace("refused(refusal)", "(uint64_t)refusal << 32")),
 (0, "new numbers put into the table", "        *p++ = number;\n", "        ((uint8_t *)e)[1] = number;\n        *p++ = number;\n"),
 (0, "changes the table", PUT, "    ((uint8_t *)bytes)[n - 1] ^= 1;\n" + PUT),
 (0, "reads behind the table", PUT, "    if (*(volatile const uint8_t *)(bytes + n) == 1)\n        size = size + 0;\n" + PUT),
 (0, "reads before the table", PUT, "    if (*(volatile const uint8_t *)(bytes - 1) == 1)\n        size = size + 0;\n" + PUT),
]
