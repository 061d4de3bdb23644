"""Mistakes to put into entry.c, read.c and apart.c; and into answers.c and calls.c, which
then answer over the pipe; see run.
Rule, what is wrong, old text (must occur once), new text."""

SHORT = "    if (n < HEADER_SIZE || place < HEADER_SIZE)\n        return counted(0);\n"
IN_BASE = "    if (place < base_end)\n        return counted(base_entry(t + place, base_end - place));\n"
IN_EXT = "    if (place < ext_end)\n        return counted(extended_entry(t + place, ext_end - place));\n"
END = IN_EXT + "    return counted(0);\n"

ENTRY = [
 (0, "buffer of 43 read", "n < HEADER_SIZE ||", "n < HEADER_SIZE - 1 ||"),
 (0, "buffer of 44 not read", "n < HEADER_SIZE ||", "n <= HEADER_SIZE ||"),
 (0, "short buffer read", SHORT, "    if (place < HEADER_SIZE)\n        return counted(0);\n"),
 (0, "place 43 read", "place < HEADER_SIZE)", "place < HEADER_SIZE - 1)"),
 (0, "place 44 not read", "place < HEADER_SIZE)", "place <= HEADER_SIZE)"),
 (0, "places in the header read", "|| place < HEADER_SIZE)", "|| place < 8)"),
 (0, "place in 16 bits", SHORT, "    place &= 65535;\n" + SHORT),
 (0, "place in 32 bits", SHORT, "    place &= UINT32_MAX;\n" + SHORT),
 (0, "place with a sign", SHORT, "    if ((ptrdiff_t)place < 0)\n        place = HEADER_SIZE;\n" + SHORT),
 (0, "base end not cut", "least(get16(t + 4), n);", "get16(t + 4);"),
 (0, "extended end not cut", "least(get16(t + 4) + get16(t + 40), n);", "get16(t + 4) + get16(t + 40);"),
 (0, "extended end in 16 bits", "get16(t + 4) + get16(t + 40), n", "(uint16_t)(get16(t + 4) + get16(t + 40)), n"),
 (0, "extended part counted from the cut base", "get16(t + 4) + get16(t + 40), n", "base_end + get16(t + 40), n"),
 (0, "extended part counted from 44 at least", "get16(t + 4) + get16(t + 40), n", "(get16(t + 4) < 44 ? 44 : get16(t + 4)) + get16(t + 40), n"),
 (0, "short base gives no entry", "    if (place < base_end)\n", "    if (base_end < HEADER_SIZE)\n        return counted(0);\n    if (place < base_end)\n"),
 (0, "base over 4,096 gives no entry", "    if (place < base_end)\n", "    if (base_end > PART_MAX)\n        return counted(0);\n    if (place < base_end)\n"),
 (0, "the base end belongs to the base", "    if (place < base_end)\n", "    if (place <= base_end && place < n)\n"),
 (0, "base alone", IN_EXT, ""),
 (0, "extended part up to the buffer's end", IN_EXT, "    if (place < n)\n        return counted(extended_entry(t + place, n - place));\n"),
 (0, "one past the extended end read", "    if (place < ext_end)\n", "    if (place <= ext_end && place < n)\n"),
 (0, "base entry may run into the extended part", "base_entry(t + place, base_end - place)", "base_entry(t + place, ext_end - place)"),
 (0, "base entry cut by one", "size <= left ? size : 0", "size <= left + 1 ? size : 0"),
 (0, "last base entry not seen", "size <= left ? size : 0", "size < left ? size : 0"),
 (0, "base entry cut", "e[0] < BASE_TYPES && size <= left ? size : 0", "e[0] < BASE_TYPES ? size : 0"),
 (0, "type 5 is an entry", "e[0] < BASE_TYPES", "e[0] <= BASE_TYPES"),
 (0, "type 4 is none", "e[0] < BASE_TYPES", "e[0] < BASE_TYPES - 1"),
 (0, "any type is an entry", "e[0] < BASE_TYPES && size", "size"),
 (0, "all have eight bytes", "e[0] == PROCESSOR ? 20 : 8", "8"),
 (0, "buses have 20 bytes", "e[0] == PROCESSOR ? 20 : 8", "e[0] <= BUS ? 20 : 8"),
 (0, "a byte left over read", "left < 2 || ", ""),
 (0, "127 is extended", "e[0] < EXT_FIRST", "e[0] < EXT_FIRST - 1"),
 (0, "128 is none", "e[0] < EXT_FIRST", "e[0] <= EXT_FIRST"),
 (0, "any extended type", "e[0] < EXT_FIRST || ", ""),
 (0, "length 1 allowed", "e[1] < 2 ||", "e[1] < 1 ||"),
 (0, "length 2 refused", "e[1] < 2 ||", "e[1] <= 2 ||"),
 (0, "known types by their own length", "    return e[1];\n", "    if (e[0] <= 130 && e[1] != (e[0] == 128 ? 20 : 8))\n        return 0;\n    return e[1];\n"),
 (0, "extended entry cut by one", "e[1] > left)", "e[1] > left + 1)"),
 (0, "last extended entry not seen", "e[1] > left)", "e[1] >= left)"),
 (0, "extended entry cut", " || e[1] > left)", ")"),
 (0, "what is cut is given short", " || e[1] > left)\n        return 0;\n    return e[1];\n", ")\n        return 0;\n    return least(e[1], left);\n"),
 (0, "judged first", SHORT, SHORT + "    if (get16(t + 4) > n)\n        return 7;\n"),
 (0, "the next place is answered", IN_BASE, IN_BASE.replace("counted(base_entry(t + place, base_end - place))", "counted(place + base_entry(t + place, base_end - place))")),
 (0, "writes to the buffer", SHORT, SHORT + "    ((uint8_t *)t)[n - 1] ^= 1;\n"),
 (0, "writes behind the buffer", SHORT, SHORT + "    ((uint8_t *)t)[n] ^= 1;\n"),
 (0, "always 0", END, "    (void)extended_entry, (void)base_entry, (void)ext_end;\n    return counted(0);\n"),
]

READ = [
 (0, "table not judged", "    return (uint8_t)plain_judge(f->table, f->left);\n", "    return f->left < 44 ? 5 : 0;\n"),
 (0, "18 forgotten", "    return (uint8_t)plain_judge(f->table, f->left);\n", "    uint8_t k = (uint8_t)plain_judge(f->table, f->left);\n    return k == 18 ? 0 : k;\n"),
 (0, "judged to the dump's end", "plain_judge(f->table, f->left);", "plain_judge(f->table, f->table == 0 ? 0 : dump + n - f->table);"),
 (0, "default judged too", " || f->standard != 0)\n        return refusal;\n    return", ")\n        return refusal;\n    return"),
 (0, "no default number", "(uint64_t)f.standard << 16 |", "(uint64_t)(f.standard != 0) << 16 |"),
 (0, "no IMCR bit", " | (uint64_t)f.imcr << 24;", ";"),
 (0, "no IMCR bit of a default", "    if (f.standard != 0)\n        return answer;\n", "    if (f.standard != 0)\n        return (uint64_t)f.standard << 16;\n"),
 (0, "IMCR as it stands", "(uint64_t)f.imcr << 24", "(uint64_t)f.imcr << 31"),
 (0, "a default with an address", "read_dump(dump, n, &f) != 0 || f.standard != 0)", "read_dump(dump, n, &f) != 0)"),
 (0, "a refusal with addresses", "    if (read_dump(dump, n, &f) != 0 || f.standard != 0)\n        return 0;\n", "    if (plain_find(dump, n, &f) != 0 || f.standard != 0)\n        return 0;\n"),
 (0, "begins one further", "(uint64_t)(f.table - dump) << 32", "(uint64_t)(f.table - dump + 1) << 32"),
 (0, "begins in its region", "(uint64_t)(f.table - dump) << 32", "(uint64_t)(f.address & 15) << 32"),
 (0, "length of the table", "(uint64_t)f.left << 48", "(uint64_t)(get16(f.table + 4) + get16(f.table + 40)) << 48"),
 (0, "up to the dump's end", "(uint64_t)f.left << 48", "(uint64_t)(dump + n - f.table) << 48"),
 (0, "start and length exchanged", "(uint64_t)(f.table - dump) << 32 | (uint64_t)f.left << 48", "(uint64_t)(f.table - dump) << 48 | (uint64_t)f.left << 32"),
 (0, "addresses exchanged", "(uint64_t)f.pointer << 32 | f.address;", "(uint64_t)f.address << 32 | f.pointer;"),
 (0, "the table's address in 16 bits", "<< 32 | f.address;", "<< 32 | (uint16_t)f.address;"),
 (0, "a refusal with values", "        return refused(refusal);\n", "        return refused(refusal) | (uint64_t)(refusal > 4 && f.imcr) << 24;\n"),
 (0, "answers 5 for 7", "        return refused(refusal);\n", "        return refused(refusal == 7 ? 5 : refusal);\n"),
]

APART = [
 (0, "not judged", "    if (refusal != 0)\n", "    if (refusal != 0 && refusal < 14)\n"),
 (0, "refuses nothing", "    if (refusal != 0)\n", "    if (refusal != 0 && n < 44)\n"),
 (0, "extended part's length for its end", "(uint64_t)p->ext_end << 32", "(uint64_t)(p->ext_end - p->base_end) << 32"),
 (0, "the buffer's end", "(uint64_t)p->ext_end << 32", "(uint64_t)n << 32"),
 (0, "base without the header", "(uint64_t)p->base_end << 16", "(uint64_t)(p->base_end - 44) << 16"),
 (0, "ends exchanged", "(uint64_t)p->base_end << 16 | (uint64_t)p->ext_end << 32", "(uint64_t)p->ext_end << 16 | (uint64_t)p->base_end << 32"),
 (0, "values at a refusal", "        return refusal;\n", "        return refusal | (uint64_t)n << 16;\n"),
 (0, "writes to the table", "    plain_parts(t, p);\n", "    plain_parts(t, p);\n    ((uint8_t *)t)[43] ^= 1;\n"),
]

GIVE = "    for (int i = 0; i < SLICES; i++)\n        write_bytes(LENT(&q, i));\n"
LAST = "q.slice[ROOM].bytes[q.slice[ROOM].length - 1] ^= 1;\n"
REFUSAL = "(a->value[0] & 255)"

ANSWERS = [
 (0, "a byte of the room is off", GIVE, f"    if (q.kind == 'L' && {REFUSAL} == 0)\n        {LAST}" + GIVE),
 (0, "a byte past the answer is off", GIVE, f"    if (q.kind == 'I' && q.slice[ROOM].length > 50)\n        {LAST}" + GIVE),
 (0, "a refused room is touched", GIVE, f"    if (q.kind == 'W' && {REFUSAL} == 19 && q.slice[ROOM].length > 0)\n        q.slice[ROOM].bytes[0] ^= 1;\n" + GIVE),
 (0, "the table changes at a question", GIVE, "    if (q.kind == 'A' && count % 1000 == 0)\n        q.slice[0].bytes[0] ^= 1;\n" + GIVE),
 (0, "the wanted bytes change", GIVE, "    if (q.kind == 'E' && q.slice[2].length > 0)\n        q.slice[2].bytes[0] ^= 1;\n" + GIVE),
 (0, "a byte behind the table changes", GIVE, "    if (q.kind == 'E' && q.slice[0].length > 0)\n        q.slice[0].bytes[q.slice[0].length - 1] ^= 1;\n" + GIVE),
 (0, "a shorter slice", "        write_number(q.slice[i].length, 4);\n", "        write_number(q.slice[i].length - (count == 60000 && q.slice[i].length > 0), 4);\n"),
 (0, "a byte too many", GIVE, GIVE + "    if (count == 60000)\n        write_number(0, 1);\n"),
 (0, "a byte too few, and the end", GIVE, "    if (count == 60000)\n        exit(0);\n" + GIVE),
 (0, "it dies", "        write_answer(", "        if (count == 60000)\n            abort();\n        write_answer("),
 (0, "it ends early", "        write_answer(", "        if (count == 60000)\n            exit(0);\n        write_answer("),
 (0, "it ends badly", "    return 0;\n}\n", "    return 1;\n}\n"),
 (0, "a value too many", "    write_number(a->count, 1);\n", "    ((struct reply *)a)->count += count == 60000;\n    write_number(a->count, 1);\n"),
 (0, "no value", "    write_number(a->count, 1);\n", "    ((struct reply *)a)->count *= count != 60000;\n    write_number(a->count, 1);\n"),
 (0, "200 values", "    write_number(a->count, 1);\n", "    write_number(count == 60000 ? 200 : a->count, 1);\n"),
 (0, "a value with bit 60", "        write_number(a->value[i], 8);\n", "        write_number(a->value[i] | (uint64_t)(count == 60000) << 60, 8);\n"),
 (0, "number 27", "        write_number(a->value[i], 8);\n", "        write_number(count == 60000 ? 27 : a->value[i], 8);\n"),
 (0, "the second slice in the first's place", "        q.slice[i].bytes = between + used;\n", "        q.slice[i].bytes = between;\n"),
 (0, "slices over 131,072 refused", "q.slice[0].length > SLICE_MAX ||", "q.slice[0].length > 131072 ||"),
 (0, "middle slices over 131,072 refused", "> SLICE_MAX - used)", "> 131072)"),
]

def exchanged(text, one, other):
    """With two numbers of a request in each other's place."""
    return text.replace(f"[{one}]", "[]").replace(f"[{other}]", f"[{one}]").replace("[]", f"[{other}]")

def in_one_byte(text, number):
    """With a number of a request cut to its low byte."""
    return text.replace(f"(uint16_t)q->number[{number}]", f"(uint8_t)q->number[{number}]")

BODY_NUMBERS = "plain_body(LENT(q, 0), (uint16_t)q->number[0],\n                       (uint16_t)q->number[1])"
SAVE_NUMBERS = "plain_save(LENT(q, 0), (uint16_t)q->number[0],\n                       (uint16_t)q->number[1],"
RESTORE_NUMBERS = "plain_restore(LENT(q, 0), (uint16_t)q->number[0],\n                          (uint16_t)q->number[1], (uint16_t)q->number[2])"
FULL = "plain_list_full(LENT(q, 0), (uint8_t)q->number[0], LENT(q, ROOM))"
DEFAULT = "plain_default_table((uint8_t)q->number[0], (uint8_t)q->number[1],\n                                LENT(q, ROOM))"
SLOT_NUMBERS = "plain_slot_routes(LENT(q, 0), (uint8_t)q->number[0],\n                              (uint8_t)q->number[1], (uint8_t)q->number[2],"

CALLS = [
 (0, "judge: another slice", "give(a, plain_judge(LENT(q, 0)));", "give(a, plain_judge(LENT(q, 1)));"),
 (0, "read: one value", "    give(a, plain_addresses(LENT(q, 0)));\n", ""),
 (0, "read: values exchanged", "    give(a, plain_read(LENT(q, 0)));\n    give(a, plain_addresses(LENT(q, 0)));\n", "    give(a, plain_addresses(LENT(q, 0)));\n    give(a, plain_read(LENT(q, 0)));\n"),
 (0, "inner number one off", "plain_edit(LENT(q, 0), q->number[0], LENT(q, 1), LENT(q, 2)));", "plain_edit(LENT(q, 0), q->number[0], LENT(q, 1), LENT(q, 2)));\n    a->value[0] += a->value[0] > 255 ? 256 : 0;"),
 (0, "no inner number", "plain_edit(LENT(q, 0), q->number[0], LENT(q, 1), LENT(q, 2)));", "plain_edit(LENT(q, 0), q->number[0], LENT(q, 1), LENT(q, 2)));\n    a->value[0] &= 255;"),
 (0, "stated and wanted exchanged", "LENT(q, 1), LENT(q, 2)));", "LENT(q, 2), LENT(q, 1)));"),
 (0, "place of an edit in 8 bits", "plain_edit(LENT(q, 0), q->number[0]", "plain_edit(LENT(q, 0), (uint8_t)q->number[0]"),
 (0, "fields at a refusal", "    if ((answer & 255) != 0)\n        return;\n", "    plain_parts(answer != 5 && (answer & 255) != 0 ? q->slice[0].bytes : (uint8_t[44]){ 0 }, &p);\n"),
 (0, "no fields", "    if ((answer & 255) != 0)\n", "    if (answer != 0)\n"),
 (0, "OEM ID the other way round", "give(a, get64(p.fields.oem_id));", "give(a, __builtin_bswap64(get64(p.fields.oem_id)));"),
 (0, "the product's middle", "give(a, get32(p.fields.product + 8));", "give(a, get32(p.fields.product + 4));"),
 (0, "OEM size in one byte", "give(a, p.fields.oem_size);", "give(a, p.fields.oem_size & 255);"),
 (0, "no byte 43", "give(a, p.fields.reserved);", "give(a, 0);"),
 (0, "local APIC address by 8,192", "give(a, p.fields.local_apic);", "give(a, p.fields.local_apic & ~4096u);"),
 (0, "pointer and size exchanged", "give(a, p.fields.oem_pointer);\n    give(a, p.fields.oem_size);", "give(a, p.fields.oem_size);\n    give(a, p.fields.oem_pointer);"),
 (0, "OEM pointer in 16 bits", "(uint32_t)q->number[0]", "(uint16_t)q->number[0]"),
 (0, "OEM size in 8 bits", ".oem_size = (uint16_t)q->number[1]", ".oem_size = (uint8_t)q->number[1]"),
 (0, "byte 43 in the local APIC's place", "= (uint32_t)q->number[2]", "= (uint32_t)q->number[3]"),
 (0, "I/O for local routes", "plain_local_routes(LENT", "plain_io_routes(LENT"),
 (0, "kinds I and C exchanged", "['I'] = io_routes,\n    ['C'] = local_routes", "['C'] = io_routes,\n    ['I'] = local_routes"),
 (0, "kinds R and S exchanged", "['R'] = slot_routes, ['S'] = slots", "['S'] = slot_routes, ['R'] = slots"),
 (0, "routes for slot routes", "plain_slot_routes(LENT", "plain_io_routes(LENT"),
 (0, "device and pin exchanged", SLOT_NUMBERS, SLOT_NUMBERS.replace("[1]", "[3]").replace("[2]", "[1]").replace("[3]", "[2]")),
 (0, "device in five bits", SLOT_NUMBERS, SLOT_NUMBERS.replace("[1]", "[1] & 31")),
 (0, "slots into another slice", "plain_slots(LENT(q, 0), LENT(q, ROOM))", "plain_slots(LENT(q, 0), LENT(q, 3))"),
 (0, "kinds S and N exchanged", "['S'] = slots, ['N'] = renumber", "['N'] = slots, ['S'] = renumber"),
 (0, "numbers into another slice", "plain_renumber(LENT(q, 0), LENT(q, ROOM))", "plain_renumber(LENT(q, 0), LENT(q, 3))"),
 (0, "numbers of another slice", "plain_renumber(LENT(q, 0),", "plain_renumber(LENT(q, 1),"),
 (0, "kinds B and M exchanged", "['B'] = book, ['M'] = latest", "['M'] = book, ['B'] = latest"),
 (0, "kinds M and G exchanged", "['M'] = latest, ['G'] = body", "['G'] = latest, ['M'] = body"),
 (0, "kinds K and O exchanged", "['K'] = save, ['O'] = restore", "['O'] = save, ['K'] = restore"),
 (0, "book of another slice", "plain_book(LENT(q, 0))", "plain_book(LENT(q, 1))"),
 (0, "machine in one byte", "plain_latest(LENT(q, 0), (uint16_t)", "plain_latest(LENT(q, 0), (uint8_t)"),
 (0, "machine of a body in one byte", BODY_NUMBERS, in_one_byte(BODY_NUMBERS, 0)),
 (0, "machine and edition of a body exchanged", BODY_NUMBERS, exchanged(BODY_NUMBERS, 0, 1)),
 (0, "history into another slice", "plain_history(LENT(q, 0), LENT(q, ROOM))", "plain_history(LENT(q, 0), LENT(q, 3))"),
 (0, "machine of a save in one byte", SAVE_NUMBERS, in_one_byte(SAVE_NUMBERS, 0)),
 (0, "machine and edition of a save exchanged", SAVE_NUMBERS, exchanged(SAVE_NUMBERS, 0, 1)),
 (0, "body in the room's slice", SAVE_NUMBERS + " LENT(q, 1)", SAVE_NUMBERS + " LENT(q, ROOM)"),
 (0, "edition of a save in one byte", SAVE_NUMBERS, in_one_byte(SAVE_NUMBERS, 1)),
 (0, "machine of a restore in one byte", RESTORE_NUMBERS, in_one_byte(RESTORE_NUMBERS, 0)),
 (0, "edition and latest exchanged", RESTORE_NUMBERS, exchanged(RESTORE_NUMBERS, 1, 2)),
 (0, "latest for the edition", RESTORE_NUMBERS, RESTORE_NUMBERS.replace("[1]", "[2]")),
 (0, "place in 32 bits", "plain_entry(LENT(q, 0), q->number[0])", "plain_entry(LENT(q, 0), (uint32_t)q->number[0])"),
 (0, "address in 32 bits", "(uint8_t)q->number[1], q->number[2])", "(uint8_t)q->number[1], (uint32_t)q->number[2])"),
 (0, "kinds F and U exchanged", "['F'] = list_full, ['U'] = default_table", "['U'] = list_full, ['F'] = default_table"),
 (0, "one line for a full listing", FULL, "plain_list(LENT(q, 0), LENT(q, ROOM))"),
 (0, "a full listing for one line", "plain_list(LENT(q, 0), LENT(q, ROOM))", "plain_list_full(LENT(q, 0), 0, LENT(q, ROOM))"),
 (0, "processor of a listing by the second number", FULL, FULL.replace("[0],", "[1],")),
 (0, "processor of a listing cut at 255", FULL, FULL.replace("q->number[0]", "(q->number[0] > 255 ? 255 : q->number[0])")),
 (0, "processor of a listing in one bit", FULL, FULL.replace("q->number[0]", "(q->number[0] & 1)")),
 (0, "a full listing into another slice", FULL, FULL.replace("ROOM", "3")),
 (0, "configuration and processor exchanged", DEFAULT, exchanged(DEFAULT, 0, 1)),
 (0, "configuration cut at 255", DEFAULT, DEFAULT.replace("q->number[0]", "(q->number[0] > 255 ? 255 : q->number[0])")),
 (0, "processor cut at 255", DEFAULT, DEFAULT.replace("q->number[1]", "(q->number[1] > 255 ? 255 : q->number[1])")),
 (0, "configuration in three bits", DEFAULT, DEFAULT.replace("q->number[0]", "(q->number[0] & 7)")),
 (0, "a default's table into another slice", DEFAULT, DEFAULT.replace("ROOM", "0")),
 (0, "names not filled up with 0", "    memset(field, 0, size);\n", "    memset(field, ' ', size);\n"),
 (0, "OEM ID for the product", "&q->slice[3]", "&q->slice[2]"),
]

# Equal to the original: behind the header of a buffer of 43 or 44 bytes nothing
# stands; where the buffer cuts the base there is no place behind it; and at the
# extended end no byte is left.
EQUAL = {(0, "buffer of 43 read"), (0, "buffer of 44 not read"), (0, "extended part counted from the cut base"),
         (0, "one past the extended end read")}
