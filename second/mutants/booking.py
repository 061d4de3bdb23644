"""Mistakes to put into book.c; see run.
Rule, what is wrong, old text (must occur once), new text."""

LIMIT = "    return n < BOOK_MAX ? n : BOOK_MAX;\n"
MOST = "    size_t most = limit(n);\n"
HEAD = "    if (most < ROWS || b[0] != LAYOUT)\n"
COUNT = "    k->bodies = ROWS + ROW * (size_t)get16(b + 1);\n"
ROWS_FIT = "return k->bodies <= most && "
IN_ORDER = "bodies_in_order(b, most, k)"
OFFSET = "get16(row + OFFSET) != at"
LENGTH = "length > most - at)"
EMPTIED = "        k->latest[get16(row)] = 0;\n"
PLACE = "        uint16_t *latest = &k->latest[get16(row)];\n"
NEXT = "        if (edition != *latest + 1u)\n"
NUMBER = "        uint32_t edition = get16(row + EDITION);\n"
RUN = " && editions_run(b, k)"
JUDGED = "    uint8_t refusal = plain_judge_walk(body, length, &t);\n"
BEHIND = "    return refusal == 0 && t.ext_end != length ? 7 : refusal;\n"
BODIES = "\n        && bodies_accepted(b, k);"
ACCEPTED = "        if (judge_body(body, length) != 0)\n"
HELD = "    return edition != 0 && edition <= k->latest[machine];\n"
FOUND = "get32(row) != (machine | (uint32_t)edition << 16)"
TWO = "    return counted(low) | (uint64_t)high << 32;\n"
TOLD = "    return two((bodies - ROWS) / ROW, end);\n"
ASKED = "    return read_book(b, n, &k) ? rows_and_bytes(k.bodies, k.end) : refused(27);\n"
LATEST = "    return read_for(b, n, machine, &k) ? counted(k.latest[machine]) : refused(27);\n"
BODY_28 = "    if (!holds(&k, machine, edition))\n        return refused(28);\n"
BODY = "    return two(get16(row + LENGTH), get16(row + OFFSET));\n"
HISTORY_27 = "    if (!read_book(b, n, &k))\n        return refused(27);\n"
TOO_SMALL = "    if (rows > size / 12)\n        return refused(19);\n"
EACH_ROW = "row < b + k.bodies; row += ROW, room += 12)"
BOTH = "        memcpy(room, row, 4);   /* machine and edition stand as they are written */\n"
TOLD_OFFSET = "        put32(room + 4, get16(row + OFFSET));\n"
TOLD_LENGTH = "        put32(room + 8, get16(row + LENGTH));\n"
COUNTED = "    return counted(rows);\n"
FULL = "    if (ROW + length > limit(n) - k->end || edition == LAST_EDITION)\n        return refused(29);\n"
OVER = "ROW + length > limit(n) - k->end"
ROW_AT = "\n    uint8_t *row = b + k->bodies;\n"
PUT = "    memcpy(b + k->end + ROW, body, length);\n"
MOVE = "    memmove(row + ROW, row, k->end - k->bodies);\n"
MACHINE = "    put16(row, machine);\n"
EDITION = "    put16(row + EDITION, edition + 1);\n"
NEW_OFFSET = "    put16(row + OFFSET, (uint32_t)k->end);   /* not moved yet, as the others' */\n"
NEW_LENGTH = "    put16(row + LENGTH, (uint32_t)length);\n"
ONE_MORE = "    put16(b + 1, get16(b + 1) + 1);\n"
OFFSETS = "    for (uint8_t *p = b + ROWS; p <= row; p += ROW)\n"
MOVED = "        put16(p + OFFSET, get16(p + OFFSET) + ROW);\n"
DONE = "    return rows_and_bytes(k->bodies + ROW, k->end + ROW + length);\n"
OWN = "    if ((refusal = judge_body(body, length)) != 0)\n        return refused(refusal);\n"
STALE = "    if (began != k.latest[machine])\n        return refused(28);\n"
SAVED = "    return add_edition(b, n, &k, machine, body, length);\n"
SAVE_27 = "    uint8_t refusal;\n\n    if (!read_for(b, n, machine, &k))\n        return refused(27);\n"
RESTORE_28 = "    if (latest != k.latest[machine] || !holds(&k, machine, edition))\n        return refused(28);\n"
RESTORE_27 = "                       uint16_t latest)\n{\n    struct book k;\n\n    if (!read_for(b, n, machine, &k))\n        return refused(27);\n"
OLD = "    const uint8_t *old = find(b, machine, edition);\n"
RESTORED = "    return add_edition(b, n, &k, machine, b + get16(old + OFFSET),\n                       get16(old + LENGTH));\n"
ROW_PUT = MACHINE + EDITION + NEW_OFFSET + NEW_LENGTH
FIRST_BODY = "judge_body(b + ROWS + ROW, get16(b + ROWS + LENGTH))"

# A row may have the body of the row before.
GOOD = f"    {ROWS_FIT}{IN_ORDER}{RUN}{BODIES}\n"
SHARING = """    if (k->bodies > most)
        return false;
    k->end = k->bodies;
    for (const uint8_t *row = b + ROWS; row < b + k->bodies; row += ROW) {
        size_t at = get16(row + OFFSET), length = get16(row + LENGTH);

        if (at != k->end && (row == b + ROWS || get32(row + OFFSET) != get32(row - ROW + OFFSET)))
            return false;
        if (length > most - at || judge_body(b + at, length) != 0)
            return false;
        if (at == k->end)
            k->end += length;
        k->latest[get16(row)] = 0;
    }
    return editions_run(b, k);
"""

BOOK = [
 # the head, and how far a book may reach
 (27, "32,768 refused", LIMIT, "    return n < BOOK_MAX - 1 ? n : BOOK_MAX - 1;\n"),
 (27, "32,769 allowed", LIMIT, "    return n < BOOK_MAX + 1 ? n : BOOK_MAX + 1;\n"),
 (27, "no limit", LIMIT, "    return n;\n"),
 (27, "no limit of what stands", MOST, "    size_t most = n;\n"),
 (27, "a limit of 32,767 of what stands", MOST, "    size_t most = n < BOOK_MAX - 1 ? n : BOOK_MAX - 1;\n"),
 (27, "rooms over 32,768 refused", HEAD, HEAD.replace("most < ROWS", "n > BOOK_MAX || most < ROWS")),
 (27, "bytes behind the book refused", BODIES, " && bodies_accepted(b, k) && k->end == n;"),
 (27, "a byte behind the book refused", BODIES, " && bodies_accepted(b, k) && k->end + 1 != n;"),
 (27, "a room of two bytes read", HEAD, HEAD.replace("most < ROWS", "most < 2")),
 (27, "an empty room read", HEAD, HEAD.replace("most < ROWS || b[0] != LAYOUT", "b[0] != LAYOUT || most < ROWS")),
 (27, "a room of three refused", HEAD, HEAD.replace("most < ROWS", "most <= ROWS")),
 (27, "layout free", HEAD, "    if (most < ROWS)\n"),
 (27, "layout 0 too", HEAD, HEAD.replace("b[0] != LAYOUT", "b[0] > LAYOUT")),
 (27, "layout 2 too", HEAD, HEAD.replace("b[0] != LAYOUT", "(b[0] != LAYOUT && b[0] != 2)")),
 (27, "layout by its low bit", HEAD, HEAD.replace("b[0] != LAYOUT", "!(b[0] & 1)")),
 (27, "rows in one byte", COUNT, COUNT.replace("get16(b + 1)", "b[1]")),
 (27, "rows the other way round", COUNT, COUNT.replace("get16(b + 1)", "(b[1] << 8 | b[2])")),
 (27, "a row past the room", ROWS_FIT, "return k->bodies <= most + ROW && "),
 (27, "a byte of the rows past the room", ROWS_FIT, "return k->bodies <= most + 1 && "),
 (27, "no test of the rows", ROWS_FIT, "return "),
 (27, "rows up to the room's end refused", ROWS_FIT, "return k->bodies < most && "),
 (27, "the empty book refused", ROWS_FIT, "return k->bodies > ROWS && k->bodies <= most && "),
 (27, "300 rows at most", ROWS_FIT, "return k->bodies <= ROWS + 300 * ROW && k->bodies <= most && "),
 # where bodies stand
 (27, "no test of the order", IN_ORDER, "(bodies_in_order(b, most, k) || (k->end = most))"),
 (27, "offset free", OFFSET + " || ", ""),
 (27, "offset not below", OFFSET, "get16(row + OFFSET) < at"),
 (27, "offset not above", OFFSET, "get16(row + OFFSET) > at"),
 (27, "offset in one byte", OFFSET, "row[OFFSET] != (at & 255)"),
 (27, "offset from the bodies on", OFFSET, "get16(row + OFFSET) + k->bodies != at"),
 (27, "the first offset free", OFFSET, "(at != k->bodies && get16(row + OFFSET) != at)"),
 (27, "the last offset free", OFFSET, "(row + ROW < end && get16(row + OFFSET) != at)"),
 (27, "a gap allowed", "        if (" + OFFSET, "        if (get16(row + OFFSET) > at && get16(row + OFFSET) <= most)\n            at = get16(row + OFFSET);\n        if (" + OFFSET),
 (27, "a byte between allowed", OFFSET, "(get16(row + OFFSET) != at && get16(row + OFFSET) != at + 1)"),
 (27, "a body for two rows", GOOD, SHARING),
 (27, "a body past the room by one", LENGTH, "length > most - at + 1)"),
 (27, "a body up to the room's end refused", LENGTH, "length >= most - at)"),
 (27, "length free", " || " + LENGTH, ")"),
 (27, "machines emptied by their low byte", EMPTIED, "        k->latest[row[0]] = 0;\n"),
 (27, "machines not emptied", EMPTIED, ""),
 (27, "empty bodies allowed", ACCEPTED, ACCEPTED.replace("if (", "if (length != 0 && ")),
 # editions
 (27, "editions free", RUN, " && (editions_run(b, k) || 1)"),
 (27, "editions with gaps", NEXT, "        if (edition <= *latest)\n"),
 (27, "editions from any on", NEXT, "        if (*latest != 0 && edition != *latest + 1u)\n"),
 (27, "editions from 0 on", NEXT, "        if (edition != *latest + 1u && edition != *latest)\n"),
 (27, "editions from 2 on too", NEXT, "        if (edition != *latest + 1u && !(edition == 2 && *latest == 0))\n"),
 (27, "an edition twice", NEXT, "        if (edition != *latest + 1u && !(edition == *latest && edition > 1))\n"),
 (27, "editions falling", NEXT, "        if (edition > *latest + 1u)\n"),
 (27, "one edition in between may be missing", NEXT, "        if (edition != *latest + 1u && !(edition == *latest + 2u && *latest > 0))\n"),
 (27, "edition in one byte", NEXT, "        if ((uint8_t)edition != (uint8_t)(*latest + 1))\n"),
 (27, "edition by its low byte", NUMBER, NUMBER.replace("get16(row + EDITION)", "row[EDITION]")),
 (27, "edition the other way round", NUMBER, NUMBER.replace("get16(row + EDITION)", "(row[EDITION] << 8 | row[EDITION + 1])")),
 (27, "256 editions at most", NEXT, "        if (edition != *latest + 1u || edition > 256)\n"),
 (27, "one run for all machines", PLACE, PLACE.replace("get16(row)", "0")),
 (27, "machine by its low byte", PLACE, PLACE.replace("get16(row)", "row[0]")),
 (27, "machine by its high byte", PLACE, PLACE.replace("get16(row)", "row[1]")),
 (27, "machine in 15 bits", PLACE, PLACE.replace("get16(row)", "get16(row) & 32767")),
 (27, "machine modulo 1,024", PLACE, PLACE.replace("get16(row)", "get16(row) % 1024")),
 (27, "machine the other way round", PLACE, PLACE.replace("get16(row)", "row[0] << 8 | row[1]")),
 (27, "machine 0 refused", NEXT, "        if (get16(row) == 0 || edition != *latest + 1u)\n"),
 (27, "machine 65,535 refused", NEXT, "        if (get16(row) == 65535 || edition != *latest + 1u)\n"),
 (27, "a machine's rows together", NEXT, "        if ((row > b + ROWS && *latest > 0 && get16(row) != get16(row - ROW)) || edition != *latest + 1u)\n"),
 (27, "machines rising", NEXT, "        if ((row > b + ROWS && get16(row) < get16(row - ROW)) || edition != *latest + 1u)\n"),
 (27, "the first row's edition free", NEXT, "        if (row > b + ROWS && edition != *latest + 1u)\n"),
 (27, "the last row's edition free", NEXT, "        if (row + ROW < end && edition != *latest + 1u)\n"),
 # bodies in the book
 (27, "bodies not judged", BODIES, ";"),
 (27, "the first body alone judged", "        body += length;\n", "        return true;\n"),
 (27, "the last body alone judged", ACCEPTED, ACCEPTED.replace("if (", "if (row + ROW == end && ")),
 (27, "the last body not judged", ACCEPTED, ACCEPTED.replace("if (", "if (row + ROW < end && ")),
 (27, "the first body not judged", ACCEPTED, ACCEPTED.replace("if (", "if (body > end && ")),
 (27, "every other body judged", ACCEPTED, ACCEPTED.replace("if (", "if ((row - b) / ROW % 2 == 0 && ")),
 (27, "bytes behind a body allowed", ACCEPTED, "        if (plain_judge(body, length) != 0)\n"),
 (27, "bytes behind the last body allowed", ACCEPTED, "        if ((row + ROW < end ? judge_body(body, length) : plain_judge(body, length)) != 0)\n"),
 (27, "a body judged with what follows", ACCEPTED, "        if (plain_judge(body, k->end - (size_t)(body - b)) != 0)\n"),
 *[(27, f"bodies refused with {n} allowed", ACCEPTED, f"        uint8_t own = judge_body(body, length);\n        if (own != 0 && own != {n})\n") for n in range(5, 19)],
 (27, "a body's own number for it", ASKED, "    if (n >= ROWS + ROW && get16(b + 1) == 1 && get16(b + ROWS + LENGTH) <= n - ROWS - ROW && " + FIRST_BODY + " != 0)\n        return refused(" + FIRST_BODY + ");\n" + ASKED),
 (27, "26 for it", ASKED, ASKED.replace("27", "26")),
 (27, "28 for it", LATEST, LATEST.replace("27", "28")),
 (27, "rows given too", ASKED, ASKED.replace("refused(27)", "refused(27) | 1 << 16")),
 # rows and bytes, the latest edition
 (0, "a reader writes", ASKED, "    if (n > ROWS)\n        ((uint8_t *)b)[n - 1] ^= 1;\n" + ASKED),
 (0, "rows and bytes exchanged", TOLD, "    return two(end, (bodies - ROWS) / ROW);\n"),
 (0, "high value from bit 24 on", TWO, TWO.replace("<< 32", "<< 24")),
 (0, "high value from bit 48 on", TWO, TWO.replace("<< 32", "<< 48")),
 (0, "a row less", TOLD, TOLD.replace("/ ROW,", "/ ROW - (bodies > ROWS),")),
 (0, "bytes without the head", TOLD, TOLD.replace("end)", "end - bodies)")),
 (0, "bytes of the room", ASKED, ASKED.replace("k.end", "n")),
 (0, "rows in one byte", TOLD, TOLD.replace("two((bodies - ROWS) / ROW", "two((uint8_t)((bodies - ROWS) / ROW)")),
 (0, "the next edition for the latest", LATEST, LATEST.replace("k.latest[machine])", "k.latest[machine] + 1u)")),
 (0, "1 where there is none", LATEST, LATEST.replace("k.latest[machine])", "k.latest[machine] + !k.latest[machine])")),
 (0, "28 where there is none", LATEST, "    if (!read_for(b, n, machine, &k))\n        return refused(27);\n    return k.latest[machine] == 0 ? refused(28) : counted(k.latest[machine]);\n"),
 (0, "latest in one byte", LATEST, LATEST.replace("counted(k", "counted((uint8_t)k")),
 (0, "machine asked about not emptied", "    k->latest[machine] = 0;\n    return read_book", "    k->latest[machine] = 3;\n    return read_book"),
 (0, "machine asked about in one byte", LATEST, LATEST.replace("counted(k.latest[machine])", "counted(k.latest[machine & 255])").replace("return read_for", "k.latest[machine & 255] = 0;\n    return read_for")),
 (0, "the last row's edition", LATEST, "    if (!read_for(b, n, machine, &k))\n        return refused(27);\n    return counted(k.bodies > ROWS ? get16(b + k.bodies - ROW + EDITION) : 0);\n"),
 # the body of an edition
 (28, "edition 0 is held", HELD, "    return edition <= k->latest[machine] && k->latest[machine] != 0;\n"),
 (28, "the latest is not held", HELD, HELD.replace("<=", "<")),
 (28, "one more than the latest is held", HELD, HELD.replace("edition <= k->latest[machine]", "edition <= k->latest[machine] + 1u")),
 (28, "the first is not held", HELD, HELD.replace("edition != 0", "edition > 1")),
 (28, "editions in one byte", HELD, "    edition &= 255;\n" + HELD),
 (28, "27 for it", BODY_28, BODY_28.replace("28", "27")),
 (28, "no body for it", BODY_28, BODY_28.replace("refused(28)", "0")),
 (28, "the latest for edition 0", BODY_28, "    if (edition == 0 && k.latest[machine] > 0)\n        edition = k.latest[machine];\n" + BODY_28),
 (0, "found by machine alone", FOUND, "get16(row) != machine"),
 (0, "found by edition alone", FOUND, "get16(row + EDITION) != edition"),
 (0, "found by low bytes", FOUND, "row[0] != (uint8_t)machine || row[2] != (uint8_t)edition"),
 (0, "the row of that number", OLD, "    const uint8_t *old = b + ROWS + ROW * (edition - 1);\n"),
 (0, "start and size exchanged", BODY, "    return two(get16(row + OFFSET), get16(row + LENGTH));\n"),
 (0, "start from the bodies on", BODY, BODY.replace("get16(row + OFFSET))", "get16(row + OFFSET) - k.bodies)")),
 (0, "end for size", BODY, BODY.replace("two(get16(row + LENGTH)", "two(get16(row + LENGTH) + get16(row + OFFSET)")),
 # the history
 (19, "exact room refused", TOO_SMALL, TOO_SMALL.replace("rows > size / 12", "12 * rows >= size")),
 (19, "exact room refused, if there are rows", TOO_SMALL, TOO_SMALL.replace("rows > size / 12", "rows > 0 && 12 * rows >= size")),
 (19, "a byte less allowed", TOO_SMALL, TOO_SMALL.replace("size / 12", "(size + 1) / 12")),
 (19, "eight bytes each", TOO_SMALL, TOO_SMALL.replace("size / 12", "size / 8")),
 (19, "no test", TOO_SMALL, ""),
 (19, "empty room refused", TOO_SMALL, TOO_SMALL.replace("rows > size / 12", "size == 0 || rows > size / 12")),
 (19, "a room of 7,560 always", TOO_SMALL, TOO_SMALL.replace("rows > size / 12", "size < 7560")),
 (19, "before 27", HISTORY_27, "    if (n >= ROWS && get16(b + 1) > size / 12)\n        return refused(19);\n" + HISTORY_27),
 (19, "as many as fit", TOO_SMALL, "    if (rows > size / 12)\n        rows = size / 12, k.bodies = ROWS + ROW * rows;\n"),
 (19, "room cleared", TOO_SMALL, "    if (rows > size / 12) {\n        memset(room, 0, size);\n        return refused(19);\n    }\n"),
 (19, "rows given too", TOO_SMALL, TOO_SMALL.replace("refused(19)", "refused(19) | counted(rows)")),
 (0, "last row not told", EACH_ROW, EACH_ROW.replace("row < b", "row + ROW < b")),
 (0, "machine and edition exchanged", BOTH, "        memcpy(room, row + 2, 2);\n        memcpy(room + 2, row, 2);\n"),
 (0, "edition not told", BOTH, BOTH.replace("row, 4)", "row, 2)")),
 (0, "offset and length exchanged", TOLD_OFFSET + TOLD_LENGTH, TOLD_OFFSET.replace("OFFSET", "LENGTH") + TOLD_LENGTH.replace("LENGTH", "OFFSET")),
 (0, "offset in two bytes", TOLD_OFFSET, TOLD_OFFSET.replace("put32", "put16")),
 (0, "length in two bytes", TOLD_LENGTH, TOLD_LENGTH.replace("put32", "put16")),
 (0, "offset from the bodies on", TOLD_OFFSET, TOLD_OFFSET.replace("get16(row + OFFSET)", "get16(row + OFFSET) - (uint32_t)k.bodies")),
 (0, "the book's own rows", EACH_ROW, EACH_ROW.replace("room += 12", "room += 8")),
 (0, "the last row alone", "        memcpy(room, row, 4);   /* machine", "        row = b + k.bodies - (row - b) + ROWS - ROW;\n        memcpy(room, row, 4);   /* machine"),
 (0, "bytes for rows", COUNTED, "    return counted(12 * rows);\n"),
 (0, "clears what lies past the rows", COUNTED, "    memset(room, 0, size - 12 * rows);\n" + COUNTED),
 (0, "a byte past the rows", COUNTED, "    if (size > 12 * rows)\n        *room ^= 1;\n" + COUNTED),
 # 29
 (29, "exact room refused", OVER, OVER.replace(">", ">=", 1)),
 (29, "a byte past allowed", OVER, OVER.replace("limit(n)", "limit(n) + 1")),
 (29, "32,769 allowed", OVER, "k->end + ROW + length > (n < BOOK_MAX + 1 ? n : BOOK_MAX + 1)"),
 (29, "32,768 refused", OVER, "k->end + ROW + length > (n < BOOK_MAX - 1 ? n : BOOK_MAX - 1)"),
 (29, "the room alone", OVER, OVER.replace("limit(n)", "n")),
 (29, "32,768 alone", OVER, OVER.replace("limit(n)", "BOOK_MAX")),
 (29, "the row not counted", OVER, OVER.replace("ROW + length", "length")),
 (29, "the body not counted", OVER, OVER.replace("ROW + length", "(size_t)ROW")),
 (29, "no test", FULL, ""),
 (29, "19 for it", FULL, FULL.replace("29", "19")),
 (29, "28 for it", FULL, FULL.replace("29", "28")),
 (29, "27 for it", FULL, FULL.replace("29", "27")),
 (29, "455 rows refused", FULL, FULL.replace("edition == LAST_EDITION", "k->bodies >= ROWS + 454 * ROW")),
 (29, "255 editions at most", FULL, FULL.replace("edition == LAST_EDITION", "edition == 255")),
 (29, "rows given too", FULL, FULL.replace("refused(29)", "refused(29) | counted(1)")),
 (29, "begun and left", FULL, "    if (limit(n) - k->end > ROW && length > limit(n) - k->end - ROW)\n        b[k->end + ROW] ^= 1;\n" + FULL),
 (29, "the number of rows raised before", FULL + ROW_AT + PUT + MOVE + ROW_PUT + ONE_MORE, ONE_MORE + FULL + ROW_AT + PUT + MOVE + ROW_PUT),
 (29, "the body put before", FULL + ROW_AT + PUT, "    memmove(b + k->end, body, limit(n) - k->end < length ? limit(n) - k->end : length);\n" + FULL + ROW_AT + PUT),
 (29, "edition 65,535 not tested", " || edition == LAST_EDITION)", ")"),
 # what a save leaves
 (0, "the body put after the bodies moved", PUT + MOVE, MOVE + PUT),
 (0, "the body not put", PUT, ""),
 (0, "the body's last byte not put", PUT, PUT.replace("length)", "length - 1)")),
 (0, "the body put where the bodies ended", PUT + MOVE, MOVE + PUT.replace("k->end + ROW", "k->end")),
 (0, "the body put a row too early", PUT, PUT.replace("k->end + ROW", "k->end")),
 (0, "bodies not moved", MOVE, ""),
 (0, "bodies moved from the first byte on", MOVE, "    for (size_t i = 0; i < k->end - k->bodies; i++)\n        row[ROW + i] = row[i];\n"),
 (0, "the last byte of the bodies not moved", MOVE, "    if (k->end > k->bodies)\n        memmove(row + ROW, row, k->end - k->bodies - 1);\n"),
 (0, "bodies moved by 4", MOVE, MOVE.replace("row + ROW", "row + 4")),
 (0, "8,192 bytes of bodies moved", MOVE, MOVE.replace("k->end - k->bodies)", "k->end - k->bodies < 8192 ? k->end - k->bodies : 8192)")),
 (0, "the first body lost", MOVE, "    if (k->bodies > ROWS)\n        memset(row, 0, 64);\n" + MOVE),
 (0, "no machine", MACHINE, "    put16(row, 0);\n"),
 (0, "machine in one byte", MACHINE, "    put16(row, (uint8_t)machine);\n"),
 (0, "machine the other way round", MACHINE, "    row[0] = machine >> 8, row[1] = (uint8_t)machine;\n"),
 (0, "the edition that it began from", EDITION, EDITION.replace("edition + 1", "edition")),
 (0, "edition 1 always", EDITION, EDITION.replace("edition + 1", "1")),
 (0, "edition in one byte", EDITION, EDITION.replace("edition + 1", "(uint8_t)(edition + 1)")),
 (0, "the number of the row for the edition", EDITION, EDITION.replace("edition + 1", "get16(b + 1) + 1")),
 (0, "the new offset a row too high", NEW_OFFSET, NEW_OFFSET.replace("k->end)", "k->end + ROW)")),
 (0, "the new offset of the first body", NEW_OFFSET, NEW_OFFSET.replace("k->end)", "k->bodies)")),
 (0, "length in one byte", NEW_LENGTH, NEW_LENGTH.replace("(uint32_t)length", "(uint8_t)length")),
 (0, "the row's length too", NEW_LENGTH, NEW_LENGTH.replace("(uint32_t)length", "(uint32_t)length + ROW")),
 (0, "number of rows as it was", ONE_MORE + OFFSETS, OFFSETS),
 (0, "number of rows in one byte", ONE_MORE, "    b[1]++;\n"),
 (0, "number of rows two more", ONE_MORE, ONE_MORE.replace("+ 1);", "+ 2);")),
 (0, "old offsets left", OFFSETS, "    for (uint8_t *p = row; p <= row; p += ROW)\n"),
 (0, "the new offset left", OFFSETS, OFFSETS.replace("p <= row", "p < row")),
 (0, "the first offset left", OFFSETS, OFFSETS.replace("b + ROWS", "b + ROWS + ROW * (row > b + ROWS)")),
 (0, "all offsets left", OFFSETS + MOVED, ""),
 (0, "offsets grow by the body", MOVED, MOVED.replace("+ ROW)", "+ (uint32_t)length)")),
 (0, "offsets grow in one byte", MOVED, "        p[OFFSET] += ROW;\n"),
 (0, "offsets of its machine grow", MOVED, "        if (get16(p) == machine)\n    " + MOVED),
 (0, "the first 64 offsets grow", MOVED, "        if (p < b + ROWS + 64 * ROW || p == row)\n    " + MOVED),
 (0, "rows as before", DONE, DONE.replace("k->bodies + ROW", "k->bodies")),
 (0, "bytes as before", DONE, DONE.replace("k->end + ROW + length", "k->end")),
 (0, "bytes without the row", DONE, DONE.replace("k->end + ROW + length", "k->end + length")),
 (0, "the edition for the rows", DONE, DONE.replace("rows_and_bytes(k->bodies + ROW,", "two(edition + 1,")),
 (0, "clears what lies past the book", DONE, "    memset(b + k->end + ROW + length, 0, n - (k->end + ROW + length));\n" + DONE),
 (0, "a byte past the book", DONE, "    if (n > k->end + ROW + length)\n        b[k->end + ROW + length] ^= 1;\n" + DONE),
 (0, "writes before the room", DONE, "    b[-1] ^= 1;\n" + DONE),
 (0, "the body saved is changed", DONE, "    ((uint8_t *)body)[length - 1] ^= 1;\n" + DONE),
 # the tests of a save, in order
 (7, "bytes behind the table allowed", BEHIND, "    return refusal;\n"),
 (7, "13 for bytes behind", BEHIND, BEHIND.replace("? 7", "? 13")),
 (7, "27 for bytes behind", OWN, OWN.replace("refused(refusal)", "refused(length > HEADER_SIZE && plain_judge(body, length) == 0 ? 27 : refusal)")),
 (7, "before the own number", JUDGED, "    if (length >= HEADER_SIZE && get16(body + 4) + get16(body + 40) < length)\n        return 7;\n" + JUDGED),
 (7, "only a byte behind", BEHIND, BEHIND.replace("t.ext_end != length", "t.ext_end + 1 == length")),
 (7, "bytes behind the base", BEHIND, BEHIND.replace("t.ext_end", "t.base_end")),
 (0, "the body not judged", OWN, "    (void)refusal;\n"),
 *[(n, f"bodies refused with {n} saved", OWN, OWN.replace("!= 0)", f"!= 0 && refusal != {n})")) for n in range(5, 19)],
 (7, "a byte written, the body refused", OWN, OWN.replace("return ref", "return b[n - 1] ^= 1, ref")),
 (27, "the layout put right", SAVE_27, SAVE_27.replace("        return ref", "        return n > 0 ? b[0] = 1 : 0, ref")),
 (0, "27 for a body", OWN, OWN.replace("refused(refusal)", "refused(27)")),
 (0, "the body before the book", SAVE_27, "    uint8_t refusal;\n\n" + OWN + "    if (!read_for(b, n, machine, &k))\n        return refused(27);\n"),
 (28, "before the body", SAVE_27, SAVE_27 + STALE),
 (28, "before the book", SAVE_27, "    uint8_t refusal;\n\n    if (began > 1000)\n        return refused(28);\n    if (!read_for(b, n, machine, &k))\n        return refused(27);\n"),
 (29, "before 28", STALE, "    if (ROW + length > limit(n) - k.end)\n        return refused(29);\n" + STALE),
 (29, "before the body", SAVE_27, SAVE_27 + "    if (ROW + length > limit(n) - k.end)\n        return refused(29);\n"),
 (28, "began from free", STALE, ""),
 (28, "an older edition taken", STALE, STALE.replace("!=", ">")),
 (28, "a newer edition taken", STALE, STALE.replace("!=", "<")),
 (28, "edition 0 always taken", STALE, STALE.replace("(began", "(began != 0 && began")),
 (28, "the one before the latest taken", STALE, STALE.replace(")\n", " && began + 1u != k.latest[machine])\n", 1)),
 (28, "the next one taken", STALE, STALE.replace(")\n", " && began != k.latest[machine] + 1u)\n", 1)),
 (28, "began from in one byte", STALE, STALE.replace("began != k.latest[machine]", "(uint8_t)began != (uint8_t)k.latest[machine]")),
 (28, "65,535 always taken", STALE, STALE.replace("(began", "(began != 65535 && began")),
 (28, "a new machine refused", STALE, STALE.replace("(began", "(began == 0 || began")),
 (28, "a new machine from 1", STALE, STALE.replace("k.latest[machine])", "k.latest[machine] + !k.latest[machine])")),
 (28, "by all rows", STALE, STALE.replace("k.latest[machine]", "get16(b + 1)")),
 (28, "22 for it", STALE, STALE.replace("28", "22")),
 (28, "27 for it in a save", STALE, STALE.replace("28", "27")),
 (28, "a byte written", STALE, STALE.replace("return ref", "return b[n - 1] ^= 1, ref")),
 (28, "latest given too", STALE, STALE.replace("refused(28)", "refused(28) | counted(k.latest[machine])")),
 # a restore
 (28, "latest free", RESTORE_28, RESTORE_28.replace("latest != k.latest[machine] || ", "")),
 (28, "an older latest taken", RESTORE_28, RESTORE_28.replace("latest != k", "latest > k")),
 (28, "a newer latest taken", RESTORE_28, RESTORE_28.replace("latest != k", "latest < k")),
 (28, "latest 0 always taken", RESTORE_28, RESTORE_28.replace("(latest != k", "((latest != 0 && latest != k").replace("] ||", "]) ||")),
 (28, "the latest itself refused", RESTORE_28, RESTORE_28.replace("(latest !=", "(edition == latest || latest !=")),
 (28, "the one before the latest alone", RESTORE_28, RESTORE_28.replace("(latest !=", "(edition + 2u < latest || latest !=")),
 (28, "edition not tested", RESTORE_28, RESTORE_28.replace(" || !holds(&k, machine, edition)", "")),
 (28, "edition up to the latest stated", RESTORE_28, RESTORE_28.replace("!holds(&k, machine, edition)", "edition > latest")),
 (28, "edition 0 for the latest", RESTORE_28, "    if (edition == 0)\n        edition = k.latest[machine];\n" + RESTORE_28),
 (28, "a wrong latest before 29 alone", RESTORE_28, "    if (!holds(&k, machine, edition))\n        return refused(28);\n    if (ROW + get16(find(b, machine, edition) + LENGTH) > limit(n) - k.end)\n        return refused(29);\n" + RESTORE_28),
 (28, "27 for no such edition", RESTORE_28, "    if (!holds(&k, machine, edition))\n        return refused(27);\n" + RESTORE_28),
 (28, "20 for no such edition", RESTORE_28, "    if (!holds(&k, machine, edition))\n        return refused(20);\n" + RESTORE_28),
 (28, "a byte written by a restore", RESTORE_28, RESTORE_28.replace("return ref", "return b[n - 1] ^= 1, ref")),
 (27, "restored from a bad book", RESTORE_27, RESTORE_27.replace("    if (!read_for(b, n, machine, &k))\n        return refused(27);\n", "    k.latest[machine] = 0;\n    if (n < ROWS || ROWS + ROW * (size_t)get16(b + 1) > limit(n) || b[0] != LAYOUT)\n        return refused(27);\n    k.bodies = ROWS + ROW * (size_t)get16(b + 1);\n    if (!bodies_in_order(b, limit(n), &k) || !editions_run(b, &k))\n        return refused(27);\n")),
 (0, "the latest's body restored", OLD, OLD.replace("edition)", "latest)")),
 (0, "the first body restored", OLD, OLD.replace("edition)", "1)")),
 (0, "the next body restored", OLD, OLD.replace("edition)", "edition < latest ? edition + 1 : edition)")),
 (0, "the last body of the book restored", OLD, "    const uint8_t *old = b + k.bodies - ROW;\n"),
 (0, "a restore answers the edition", RESTORED, "    return two(k.latest[machine] + 1u, add_edition(b, n, &k, machine, b + get16(old + OFFSET),\n                       get16(old + LENGTH)) >> 32);\n"),
 (0, "a restore that takes the edition away", RESTORED, "    k.latest[machine] = edition - 1;\n" + RESTORED),
 (0, "writes nothing", SAVED, "    return rows_and_bytes(k.bodies + ROW, k.end + ROW + length);\n"),
 (0, "reads behind the room", SAVED, "    if (*(volatile const uint8_t *)(b + n) == 1)\n        n = n + 0;\n" + SAVED),
 (0, "reads before the room", SAVED, "    if (*(volatile const uint8_t *)(b - 1) == 1)\n        n = n + 0;\n" + SAVED),
 (0, "reads behind the body", SAVED, "    if (*(volatile const uint8_t *)(body + length) == 1)\n        n = n + 0;\n" + SAVED),
]

# Equal to the original: no book has so many rows.
EQUAL = {(29, "edition 65,535 not tested")}
