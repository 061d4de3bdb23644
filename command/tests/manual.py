"""--help and --version, and that the help, the manual page and docs/USING.md name the same verbs.

    python3 -B command/tests/manual.py COMMAND
"""
import re

import harness

# The verbs of the plan.
VERBS = set("list judge table entries routes slots slot renumber sees edit parts make dump log book".split())
# Those of a book, which have two words.
OF_A_BOOK = "new save restore history show diff".split()
OPTIONS = {"list": ["--boot"], "judge": ["--table", "--dump"], "table": ["--boot", "-o"], "entries": ["--boot"],
           "routes": ["--io", "--local", "--boot"], "slots": ["--boot"], "slot": ["--boot"], "renumber": ["--boot"], "sees": ["--boot"],
           "edit": ["--set"], "parts": ["--boot", "-o"], "make": ["-o"], "dump": ["--memory", "--region", "-o"], "log": ["--check"], "book": ["--began", "--latest", "-o"]}


def plain(roff):
    """The words of a manual page: without the requests and the changes of letters."""
    text = re.sub(r'\\\\f[BIRP]|\\f[BIRP]|\\f\(..|\\&', "", roff)
    text = re.sub(r"\\-", "-", text)
    return re.sub(r'(?m)^\.(?:[A-Z]{1,2}|\w+) ?', "", text).replace('"', "")


def verbs_in(text):
    """The words that stand behind the command's name."""
    return set(re.findall(r"(?<![\w./'-])(?:\./)?mpt ([a-z]+)\b", text))


class Help(harness.Case):
    def test_version(self):
        answer = self.mpt("--version")
        self.assertEqual((answer.status, answer.err), (0, b""))
        self.assertRegex(answer.out, rb"\Ampt \S.*\n\Z")

    def test_whole(self):
        answer = self.mpt("--help")
        self.assertEqual((answer.status, answer.err), (0, b""))
        self.assertTrue(VERBS <= set(re.findall(r"\b[a-z]+\b", answer.out.decode())), answer)
        self.assertLess(max(map(len, answer.out.decode().splitlines())), 121)
        self.assertEqual(self.mpt("-h").out, answer.out)

    def test_each_verb(self):
        for verb in VERBS:
            with self.subTest(verb):
                answer = self.mpt(verb, "--help")
                self.assertEqual((answer.status, answer.err), (0, b""))
                self.assertRegex(answer.out.decode(), rf"\bmpt {verb}\b")
                for option in OPTIONS.get(verb, []):
                    self.assertIn(option, answer.out.decode())
                # Its own words only; and beside other words too: whoever asks for help gets it.
                self.assertEqual(re.findall(r"(?m)^usage: mpt ([a-z]+)\b", answer.out.decode()), [verb])
                for words in ([verb, "nothing", "--help"], [verb, "-h"]):
                    self.assertEqual(self.mpt(*words).out, answer.out)

    def test_help_of_no_verb(self):
        self.wrong(["lists", "--help"])

    def test_the_same_verbs_everywhere(self):
        shown = verbs_in(self.mpt("--help").out.decode()) | {
            word for word in re.findall(r"(?m)^ +([a-z]+)\b", self.mpt("--help").out.decode()) if word in VERBS}
        self.assertEqual(shown & VERBS, VERBS)
        for name in ("command/mpt.1", "docs/USING.md"):
            with self.subTest(name):
                text = (harness.ROOT / name).read_text()
                self.assertEqual(VERBS - verbs_in(plain(text)), set(), "not in it")
                self.assertEqual(verbs_in(plain(text)) - VERBS, set(), "no verb of the command")

    def test_the_verbs_of_a_book(self):
        """Each with a line of its own in the help of all, and shown in the manual page and the guide."""
        for verb in OF_A_BOOK:
            self.assertRegex(self.mpt("--help").out.decode(), rf"(?m)^  book {verb} +\S")
            for name in ("command/mpt.1", "docs/USING.md"):
                self.assertIn(f"mpt book {verb} ", plain((harness.ROOT / name).read_text()), name)

    def test_the_same_options_everywhere(self):
        """An option that the manual page or the guide has is one that the help of some verb has, and the other way round."""
        helped = {option for verb in VERBS for option in re.findall(r"(?<![\w-])--[a-z]+", self.mpt(verb, "--help").out.decode())}
        wanted = {option for options in OPTIONS.values() for option in options if option.startswith("--")}
        self.assertEqual(wanted - helped, set())
        for name in ("command/mpt.1", "docs/USING.md"):
            with self.subTest(name):
                text = plain((harness.ROOT / name).read_text())
                named = set(re.findall(r"(?<![\w-])--[a-z]+", text))
                self.assertEqual((wanted - named, named - helped - {"--help", "--version"}), (set(), set()))


if __name__ == "__main__":
    harness.main("help, version, and the verbs of the manual page and the guide")
