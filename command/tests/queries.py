"""routes and sees: the paper's examples P3, P4 and P8 to P10, and others that were worked out by hand on boards.RICH and, of
buses in each other's way (document 02, ask 5), on boards of their own.

    python3 -B command/tests/queries.py COMMAND
"""
import boards
import harness
from boards import BENCH, RICH, bus, cpu, link, modifier, space, table


class Routes(harness.Case):
    def routed(self, t, words, io=None, local=None):
        """The answer of both sides in their order, of each side alone, and from standard input."""
        self.put("board.table", t)
        sides = {"--io": io, "--local": local}
        texts = {side: "".join(text + "\n" for text in lines) for side, lines in sides.items()}
        with self.subTest(words=words):
            self.answers(["routes", "board.table", *words], texts["--io"] + texts["--local"])
            self.answers(["routes", "-", *words], texts["--io"] + texts["--local"], input=t)
            for side, text in texts.items():
                self.answers(["routes", side, "board.table", *words], text)
                self.answers(["routes", "board.table", *words, side], text)

    def test_the_bench_board(self):
        self.routed(BENCH, ["INT", "0", "1"], ["ioapic 2 input 1"], ["cpu none"])  # P3
        self.routed(BENCH, ["INT", "0", "2"], ["ioapic none"], ["cpu none"])  # P4
        self.routed(BENCH, ["EXTINT", "0", "0"], ["ioapic none"], ["cpu 0 input 0"])
        self.routed(BENCH, ["NMI", "0", "1"], ["ioapic none"], ["cpu none"])

    def test_several_and_all(self):
        """255 names every one that is on, in table order; an entry before another gives its pairs first."""
        self.routed(RICH, ["INT", "0", "1"], ["ioapic 2 input 1", "ioapic 2 input 7", "ioapic 6 input 7"], ["cpu none"])
        self.routed(RICH, ["INT", "1", "4"], ["ioapic 6 input 16"], ["cpu none"])
        self.routed(RICH, ["SMI", "1", "4"], ["ioapic 2 input 3"], ["cpu none"])
        self.routed(RICH, ["EXTINT", "0", "0"], ["ioapic 2 input 0", "ioapic 6 input 0"], ["cpu 0 input 0", "cpu 1 input 0"])
        self.routed(RICH, ["NMI", "0", "0"], ["ioapic none"], ["cpu 1 input 1"])
        # To an I/O APIC and to a processor that are off.
        self.routed(RICH, ["INT", "0", "9"], ["ioapic none"], ["cpu none"])
        self.routed(RICH, ["NMI", "0", "3"], ["ioapic none"], ["cpu none"])

    def test_the_shelf(self):
        """Every line of every table, and one that none has, by the entries as they stand in its bytes."""
        for shelved in boards.accepted():
            entries = boards.base_entries(shelved.table)
            on = {kind: [e[1] for e in entries if e[0] == kind and e[3] & 1] for kind in (0, 2)}
            self.put("board.table", shelved.table)
            asked = {(e[1], e[4], e[5]) for e in entries if e[0] in (3, 4)}
            asked |= {(0, e[1], 255) for e in entries if e[0] == 1}
            for type, bus, irq in sorted(asked)[:12]:
                text = ""
                for side, kind, word in ((3, 2, "ioapic"), (4, 0, "cpu")):
                    named = [(e[6], e[7]) for e in entries if (e[0], e[1], e[4], e[5]) == (side, type, bus, irq)]
                    pairs = [(one, to) for id, to in named for one in on[kind] if id in (one, 255)]
                    text += "".join(f"{word} {one} input {to}\n" for one, to in pairs) or f"{word} none\n"
                with self.subTest(shelved.name, line=(type, bus, irq)):
                    self.answers(["routes", "board.table", type, bus, irq], text)

    def test_types_and_numbers(self):
        self.put("board.table", BENCH)
        for type in ("int", "Int", "INT", "0", "00", "0x0", "0x00"):
            for irq in ("1", "001", "0x1", "0x01"):
                self.answers(["routes", "board.table", type, "0", irq], "ioapic 2 input 1\ncpu none\n")
        for type in ("ExtINT", "extint", "EXTINT", "3", "0x3"):
            self.answers(["routes", "--local", "board.table", type, "0", "0"], "cpu 0 input 0\n")
        self.put("decimal.table", boards.edited(BENCH, 3, bytes.fromhex("03 00 00 00 00 0A 02 01")))
        for irq in ("10", "010", "0xA", "0xa", "0x0A"):  # 010 is ten, not eight
            self.answers(["routes", "--io", "decimal.table", "INT", "0", irq], "ioapic 2 input 1\n")

    def test_refused(self):
        self.put("board.table", BENCH)
        for type, number in (("4", "0"), ("255", "0"), ("0xff", "0"), ("INT", "1"), ("INT", "255")):
            for side in ([], ["--io"], ["--local"]):
                self.refuses(["routes", *side, "board.table", type, number, "1"], 24)

    def test_many_pairs(self):
        """The most that there can be: of 4,052 bytes a processor and a bus take 28, and the 503 entries of 8 bytes that
        have room in the rest are lines to all I/O APICs, 252, and I/O APICs, 251. That is 63,252 pairs."""
        apics = [boards.ioapic(k, address=0xFEC00000 + 1024 * k) for k in range(1, 252)]
        t = table([cpu(0, 3), bus(0, b"ISA   "), *apics, *[boards.line(3, 0, 0, 0, 1, 255, k) for k in range(252)]])
        self.put("board.table", t)
        wanted = "".join(f"ioapic {apic} input {k}\n" for k in range(252) for apic in range(1, 252))
        self.answers(["routes", "--io", "board.table", "INT", "0", "1"], wanted)


class Addresses(harness.Case):
    def seen(self, t, rows):
        self.put("board.table", t)
        for words, wanted in rows:
            with self.subTest(words=words):
                self.answers(["sees", "board.table", *words.split()], wanted + "\n")


class Sees(Addresses):
    def test_the_shelf(self):
        """A table without an extended part declares nothing, of any bus."""
        plain = [shelved for shelved in boards.accepted() if not boards.extended_entries(shelved.table)]
        self.assertGreater(len(plain), 5)
        for shelved in plain:
            self.put("board.table", shelved.table)
            for bus in [e[1] for e in boards.base_entries(shelved.table) if e[0] == 1][:3]:
                for kind in ("io", "memory", "prefetch"):
                    with self.subTest(shelved.name, bus=bus, kind=kind):
                        self.answers(["sees", "board.table", bus, kind, "3F8"], "undeclared, 0 links climbed\n")

    def test_the_bench_board(self):
        """It has nothing that declares an address."""
        self.seen(BENCH, [("0 io 0", "undeclared, 0 links climbed"), ("0 memory FEC00000", "undeclared, 0 links climbed"),
                          ("0 prefetch FFFFFFFFFFFFFFFF", "undeclared, 0 links climbed")])

    def test_isa_and_vga(self):
        """P8 to P10: a bus that has only a modifier sees just the addresses of its list, by the low ten bits, below 65,536."""
        isa = table([cpu(0, 3), bus(0)], [modifier(0, 0, 0)])
        vga = table([cpu(0, 3), bus(0)], [modifier(0, 0, 1)])
        yes, no = "yes, 0 links climbed", "no, 0 links climbed"
        self.seen(isa, [("0 io 0FF", no), ("0 io 100", yes), ("0 io 3FF", yes), ("0 io 400", no), ("0 io 10100", no),
                        ("0 io FFFF", yes), ("0 memory 100", no), ("0 prefetch 100", no)])
        self.seen(vga, [("0 io 3AF", no), ("0 io 3B0", yes), ("0 io 3BB", yes), ("0 io 3BC", no), ("0 io 3BF", no),
                        ("0 io 3C0", yes), ("0 io 3DF", yes), ("0 io 3E0", no), ("0 io 10100", no), ("0 io 103B0", no)])
        taken = table([cpu(0, 3), bus(0)], [space(0, 0, 0, 0x20000), modifier(0, 1, 1)])
        self.seen(taken, [("0 io 3BB", no), ("0 io 3BC", yes), ("0 io 103BB", yes), ("0 io 1FFFF", yes), ("0 io 20000", no)])

    def test_parents(self):
        """Bus 0 asks its parent 1 (subtractive), bus 5 has that parent and no such bit and adds the ISA list, 6 to 8 have no
        parent."""
        self.seen(RICH, [
            ("0 io 1000", "yes, 1 link climbed"), ("0 io 10FF", "yes, 1 link climbed"), ("0 io 2000", "no, 1 link climbed"),
            ("0 io 1100", "no, 1 link climbed: on bus 1, bus 5 claims it"),
            ("0 io 1FFF", "no, 1 link climbed: on bus 1, bus 5 claims it"),
            ("0 memory E0000000", "yes, 1 link climbed"), ("0 memory F0000000", "no, 1 link climbed"),
            ("0 prefetch F0000FFF", "yes, 1 link climbed"),
            ("1 io 1000", "yes, 0 links climbed"), ("1 io FFF", "no, 0 links climbed"),
            ("5 io 1000", "no, 0 links climbed"), ("5 io 1100", "yes, 0 links climbed"),
            ("6 io 3C0", "yes, 0 links climbed"), ("6 io 100", "no, 0 links climbed"), ("6 memory 3C0", "no, 0 links climbed"),
            ("7 io 3C0", "undeclared, 0 links climbed"),
            ("8 io 3C0", "no, 0 links climbed"), ("8 io 3BF", "yes, 0 links climbed"), ("8 memory 0", "no, 0 links climbed")])

    def test_a_long_chain(self):
        chain = table([cpu(0, 3)] + [bus(k) for k in range(200)],
                      [space(199, 1, 0, 0x100)] + [link(k, k + 1, 1) for k in range(199)])
        self.seen(chain, [("0 memory FF", "yes, 199 links climbed"), ("0 memory 100", "no, 199 links climbed"),
                          ("198 memory FF", "yes, 1 link climbed"), ("100 io 5", "no, 99 links climbed")])
        bare = table([cpu(0, 3)] + [bus(k) for k in range(3)], [link(0, 1, 1), link(1, 2, 1)])
        self.seen(bare, [("0 io 5", "undeclared, 2 links climbed"), ("1 io 5", "undeclared, 1 link climbed")])

    def test_forms_of_words(self):
        self.put("board.table", RICH)
        yes = "yes, 0 links climbed\n"
        for number in ("1", "01", "0x1"):
            for kind in ("io", "0", "0x0"):
                for address in ("1000", "0x1000", "00001000", "0x0000000000001000"):
                    self.answers(["sees", "board.table", number, kind, address], yes)
        for kind, address in (("memory", "e0000000"), ("1", "E0000000"), ("prefetch", "f0000000"), ("2", "0xF0000000")):
            self.answers(["sees", "board.table", "1", kind, address], yes)
        self.answers(["sees", "-", "1", "io", "1000"], yes, input=RICH)

    def test_refused(self):
        self.put("board.table", RICH)
        for words in ("2 io 0", "255 io 0", "0 3 0", "0 255 0", "9 3 0"):
            self.refuses(["sees", "board.table", *words.split()], 24)


def buses(count, *extended):
    """A board with the buses from 0 on."""
    return table([cpu(0, 3), *map(bus, range(count))], extended)


class InTheWay(Addresses):
    """A bus with the subtractive bit asks its parent, which sees the address, and another bus with that parent claims it, or
    declares nothing. Where nothing else is said bus 0 is the parent, and bus 2 has the bit and is asked."""

    def test_one_claims(self):
        """Bus 1 declares 300h to 3FFh; whether it has the bit itself is the same to bus 2."""
        for bit in (0, 1):
            board = buses(3, space(0, 0, 0, 0x10000), space(1, 0, 0x300, 0x100), link(1, 0, bit), link(2, 0, 1))
            self.seen(board, [
                ("2 io 2FF", "yes, 1 link climbed"), ("2 io 300", "no, 1 link climbed: on bus 0, bus 1 claims it"),
                ("2 io 3FF", "no, 1 link climbed: on bus 0, bus 1 claims it"), ("2 io 400", "yes, 1 link climbed"),
                ("1 io 300", "yes, 0 links climbed"), ("0 io 300", "yes, 0 links climbed"),
                # The parent does not see these.
                ("2 io 10000", "no, 1 link climbed"), ("2 memory 300", "no, 1 link climbed"),
                # What bus 2 gets by its bit is no claim, and with that bit it need not declare anything.
                ("1 io 2FF", ("no, 0 links climbed", "yes, 1 link climbed")[bit])])
            self.answers(["sees", "-", "2", "io", "300"], "no, 1 link climbed: on bus 0, bus 1 claims it\n",
                         input=board + link(7, 7) + b"behind")

    def test_two_claim(self):
        """That one is named whose link stands first, whatever its number is and wherever its addresses stand."""
        entries = [space(0, 0, 0, 0x10000), space(1, 0, 0x100, 0x100), space(7, 0, 0x180, 0x100)]
        one, seven = (f"no, 1 link climbed: on bus 0, bus {k} claims it" for k in (1, 7))
        self.seen(buses(8, *entries, link(7, 0), link(2, 0, 1), link(1, 0)), [
            ("2 io FF", "yes, 1 link climbed"), ("2 io 100", one), ("2 io 17F", one), ("2 io 180", seven), ("2 io 1FF", seven),
            ("2 io 200", seven), ("2 io 280", "yes, 1 link climbed")])
        self.seen(buses(8, *entries, link(1, 0), link(2, 0, 1), link(7, 0)), [
            ("2 io 17F", one), ("2 io 180", one), ("2 io 1FF", one), ("2 io 200", seven)])
        # Both before the one that asks, and both behind it.
        self.seen(buses(8, *entries, link(7, 0), link(1, 0), link(2, 0, 1)), [("2 io 180", seven)])
        self.seen(buses(8, *entries, link(2, 0, 1), link(7, 0), link(1, 0)), [("2 io 180", seven)])

    def test_modifiers(self):
        """What a modifier adds is claimed, and what one takes away is not, whatever covers it or adds it beside."""
        yes, claimed = "yes, 1 link climbed", "no, 1 link climbed: on bus 0, bus 1 claims it"
        links = link(1, 0), link(2, 0, 1)
        self.seen(buses(3, space(0, 0, 0, 0x20000), *links, modifier(1, 0, 0)), [
            ("2 io FF", yes), ("2 io 100", claimed), ("2 io 3FF", claimed), ("2 io 400", yes), ("2 io FFFF", claimed),
            ("2 io 10100", yes)])
        self.seen(buses(3, space(0, 0, 0, 0x20000), space(1, 0, 0, 0x20000), *links, modifier(1, 1, 1)), [
            ("2 io 3BB", yes), ("2 io 3BC", claimed), ("2 io 3C0", yes), ("2 io 103C0", claimed)])
        self.seen(buses(3, space(0, 0, 0, 0x20000), *links, modifier(1, 1, 1), modifier(1, 0, 0)), [
            ("2 io 100", claimed), ("2 io 3C0", yes), ("2 io 3E0", claimed)])

    def test_silent(self):
        """Nobody knows what a bus claims that declares nothing. One with an entry of another kind, with an empty range or with
        the bit is none of these."""
        parent, links = space(0, 1, 0, 0x1000), (link(1, 0), link(2, 0, 1))
        self.seen(buses(3, parent, *links), [
            ("2 memory FFF", "undeclared, 1 link climbed: on bus 0, bus 1 declares nothing"),
            ("2 memory 1000", "no, 1 link climbed"), ("2 io 0", "no, 1 link climbed"),
            ("1 memory FFF", "undeclared, 0 links climbed")])
        self.seen(buses(6, parent, link(5, 0), link(2, 0, 1), link(1, 0)), [
            ("2 memory FFF", "undeclared, 1 link climbed: on bus 0, bus 5 declares nothing")])
        for entries in ([parent, space(1, 0, 0, 0x1000), *links], [parent, space(1, 1, 0, 0), *links],
                        [parent, *links, modifier(1, 0, 0)], [parent, *links, modifier(1, 1, 1)],
                        [parent, link(1, 0, 1), link(2, 0, 1)]):
            self.seen(buses(3, *entries), [("2 memory 0", "yes, 1 link climbed")])

    def test_a_claim_comes_before_silence(self):
        for links in ([link(1, 0), link(2, 0, 1), link(3, 0)], [link(3, 0), link(1, 0), link(2, 0, 1)]):
            self.seen(buses(4, space(0, 1, 0, 0x1000), space(3, 1, 0, 0x100), *links), [
                ("2 memory FF", "no, 1 link climbed: on bus 0, bus 3 claims it"),
                ("2 memory 100", "undeclared, 1 link climbed: on bus 0, bus 1 declares nothing")])

    def test_elsewhere(self):
        """Not in the way are a bus with another parent, one with none, and one on the bus that is asked."""
        declared = [space(k, 0, 0, 0x100) for k in (0, 1, 3, 4)]
        self.seen(buses(6, *declared, link(1, 5), link(2, 0, 1), link(4, 2)), [("2 io 5", "yes, 1 link climbed")])
        self.seen(buses(6, declared[0], link(1, 5), link(2, 0, 1), link(4, 2)), [("2 io 5", "yes, 1 link climbed")])

    def test_each_link(self):
        """4 asks 3, 3 asks 2, 2 asks 1. Beside them 11 stands on bus 1, 12 on bus 2 and 13 on bus 3."""
        links = [link(2, 1, 1), link(3, 2, 1), link(4, 3, 1), link(13, 3), link(12, 2), link(11, 1)]
        board = buses(14, space(1, 1, 0, 0x10000), space(11, 1, 0x1000, 0x1000), space(12, 1, 0x1800, 0x1800),
                      space(13, 1, 0x2800, 0x1800), *links)
        yes, no = "yes, {} climbed", "no, {} climbed: on bus {}, bus {} claims it"
        self.seen(board, [
            ("4 memory 0", yes.format("3 links")), ("4 memory 4000", yes.format("3 links")),
            ("4 memory 1000", no.format("3 links", 1, 11)), ("4 memory 1800", no.format("3 links", 1, 11)),  # 12 too
            ("4 memory 2000", no.format("3 links", 2, 12)), ("4 memory 2800", no.format("3 links", 2, 12)),  # 13 too
            ("4 memory 3000", no.format("3 links", 3, 13)),
            ("3 memory 1800", no.format("2 links", 1, 11)), ("3 memory 2800", no.format("2 links", 2, 12)),
            ("3 memory 3000", yes.format("2 links")),
            ("2 memory 1000", no.format("1 link", 1, 11)), ("2 memory 2000", yes.format("1 link")),
            ("1 memory 1000", yes.format("0 links"))])

    def test_what_comes_down(self):
        """The parent's no or undeclared is taken over, whoever claims the address or is silent below that."""
        links = [link(2, 1, 1), link(3, 2, 1), link(4, 3, 1), link(11, 1), link(12, 2), link(13, 3)]
        top = space(1, 1, 0, 0x10000)
        self.seen(buses(14, top, space(12, 1, 0, 0x100), space(13, 1, 0, 0x200), *links), [
            ("4 memory 0", "undeclared, 3 links climbed: on bus 1, bus 11 declares nothing"),
            ("3 memory 0", "undeclared, 2 links climbed: on bus 1, bus 11 declares nothing")])
        self.seen(buses(14, top, space(11, 1, 0, 0x100), space(13, 1, 0, 0x200), *links), [
            ("4 memory FF", "no, 3 links climbed: on bus 1, bus 11 claims it"),
            ("4 memory 100", "undeclared, 3 links climbed: on bus 2, bus 12 declares nothing"),
            ("2 memory 100", "yes, 1 link climbed")])
        self.seen(buses(14, top, space(11, 1, 0, 0x100), space(12, 1, 0, 0x200), *links), [
            ("4 memory 100", "no, 3 links climbed: on bus 2, bus 12 claims it"),
            ("4 memory 200", "undeclared, 3 links climbed: on bus 3, bus 13 declares nothing"),
            ("3 memory 200", "yes, 2 links climbed")])
        # A bus of the climb that says yes itself is the end of it.
        self.seen(buses(14, top, space(11, 1, 0, 0x100), space(3, 1, 0, 0x100), space(12, 1, 0, 0x100), *links[:-1]), [
            ("4 memory 0", "yes, 1 link climbed"), ("2 memory 0", "no, 1 link climbed: on bus 1, bus 11 claims it")])

    def test_the_end_of_the_climb_answers(self):
        """Where the last bus asked says no or undeclared itself, nobody is in the way, though bus 1 claims the address."""
        claims, links = space(1, 0, 0x300, 0x100), [link(1, 0), link(2, 0, 1)]
        no, undeclared = "no, 1 link climbed", "undeclared, 1 link climbed"
        self.seen(buses(3, space(0, 1, 0, 0x1000), claims, *links), [("2 io 300", no)])
        self.seen(buses(3, space(0, 0, 0, 0x1000), claims, *links, modifier(0, 1, 1)), [
            ("2 io 3C0", no), ("2 io 300", "no, 1 link climbed: on bus 0, bus 1 claims it")])
        self.seen(buses(3, claims, *links), [("2 io 300", undeclared)])
        # Two links, of which the lower one has bus 1 beside it.
        self.seen(buses(4, space(3, 1, 0, 0x1000), claims, link(0, 3, 1), *links), [("2 io 300", "no, 2 links climbed")])
        # Bus 3 sees it, and is the parent of bus 0 and of a bus that claims it or is silent; but bus 0 does not ask.
        above = [space(3, 0, 0, 0x1000), link(0, 3, 0), link(2, 0, 1), link(4, 3)]
        self.seen(buses(5, above[0], space(0, 1, 0, 1), space(4, 0, 0, 0x1000), *above[1:]), [("2 io 300", no)])
        self.seen(buses(5, *above), [("2 io 300", undeclared)])

    def test_buses_0_and_255(self):
        def board(parent, other, asks):
            entries = [space(parent, 0, 0, 0x100), space(other, 0, 5, 1), link(asks, parent, 1), link(other, parent)]
            return [table([cpu(0, 3), bus(0), bus(1), bus(255)], some) for some in (entries, [entries[0], *entries[2:]])]

        for parent, other, asks in ((255, 0, 1), (1, 255, 0), (0, 1, 255), (255, 1, 0), (0, 255, 1)):
            declared, silent = board(parent, other, asks)
            self.seen(declared, [(f"{asks} io 5", f"no, 1 link climbed: on bus {parent}, bus {other} claims it"),
                                 (f"{asks} io 6", "yes, 1 link climbed")])
            self.seen(silent, [(f"{asks} io 6", f"undeclared, 1 link climbed: on bus {parent}, bus {other} declares nothing")])

    def test_255_on_one_parent(self):
        """On bus 0 stand 255 to 1, in this order. First all but the one that asks add the ISA list, and the extended part has 4,092
        bytes; then only the last one is in the way."""
        down, parent = range(255, 0, -1), space(0, 0, 0, 0x10000)
        self.seen(buses(256, parent, *[link(k, 0, k == 128) for k in down], *[modifier(k, 0, 0) for k in down if k != 128]), [
            ("128 io 100", "no, 1 link climbed: on bus 0, bus 255 claims it"), ("128 io FF", "yes, 1 link climbed")])
        self.seen(buses(256, parent, space(1, 0, 5, 1), *[link(k, 0, 1) for k in down]), [
            ("128 io 5", "no, 1 link climbed: on bus 0, bus 1 claims it"), ("128 io 6", "yes, 1 link climbed"),
            ("255 io 5", "no, 1 link climbed: on bus 0, bus 1 claims it"), ("1 io 5", "yes, 0 links climbed"),
            ("1 io 6", "yes, 1 link climbed")])
        self.seen(buses(256, parent, *[link(k, 0, k != 1) for k in down]), [
            ("128 io 5", "undeclared, 1 link climbed: on bus 0, bus 1 declares nothing"),
            ("1 io 5", "undeclared, 0 links climbed")])

    def test_a_long_chain(self):
        """254 links from bus 0 up to bus 254, and bus 255 beside the first or the last of them."""
        declared = [space(254, 1, 0, 0x100), space(255, 1, 0x80, 0x80)]
        chain = [link(k, k + 1, 1) for k in range(254)]
        self.seen(buses(256, *declared, *chain, link(255, 254)), [
            ("0 memory 7F", "yes, 254 links climbed"), ("0 memory 100", "no, 254 links climbed"),
            ("0 memory 80", "no, 254 links climbed: on bus 254, bus 255 claims it"),
            ("253 memory 80", "no, 1 link climbed: on bus 254, bus 255 claims it"), ("254 memory 80", "yes, 0 links climbed")])
        self.seen(buses(256, *declared, *chain, link(255, 1)), [
            ("0 memory 80", "no, 254 links climbed: on bus 1, bus 255 claims it"), ("1 memory 80", "yes, 253 links climbed")])

    def test_reserved_bytes(self):
        """Of a link only bit 0 of byte 3 and byte 4 are read; and bytes of a link inside another entry are none."""
        other, own = (bytes([129, 8, k, bits, 0, 1, 2, 3]) for k, bits in ((1, 0xFE), (2, 0xFF)))
        self.seen(buses(3, space(0, 0, 0, 0x100), other, own), [
            ("2 io 5", "undeclared, 1 link climbed: on bus 0, bus 1 declares nothing")])
        entries = [space(0, 0, 0, 0x100), space(1, 0, 5, 1), space(3, 0, 5, 1), link(2, 0, 1), link(3, 0)]
        self.seen(buses(4, *entries[:-1], bytes([200, 10]) + link(1, 0)), [("2 io 5", "yes, 1 link climbed")])
        self.seen(buses(4, *entries, bytes([200, 10]) + link(1, 0)), [("2 io 5", "no, 1 link climbed: on bus 0, bus 3 claims it")])

    def test_the_shelf(self):
        """The one table there with a link: bus 2 on bus 0, and nobody beside it; bus 1 has no link."""
        ext, = [shelved.table for shelved in boards.accepted() if any(e[0] == 129 for e in boards.extended_entries(shelved.table))]
        self.seen(ext, [("2 io 3F8", "yes, 1 link climbed"), ("2 io E100", "yes, 1 link climbed"),
                        ("2 io E000", "no, 1 link climbed"),
                        ("2 memory A0000", "yes, 1 link climbed"), ("2 memory 100000000", "no, 1 link climbed"),
                        ("1 memory 100000000", "yes, 0 links climbed")])


if __name__ == "__main__":
    harness.main("where lines go and what buses see, by hand")
