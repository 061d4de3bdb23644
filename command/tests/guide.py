"""Every command that docs/USING.md shows prints what the guide shows below it.

    python3 command/tests/guide.py COMMAND

A line with a `$` in front is typed, in the guide's order and in one folder; what follows it is printed. A command with nothing below
it only has to end with 0. Times and the machine's name are the reader's own.
"""
import os
import re
import subprocess

import harness

TYPED = re.compile(r"( {4}| {8})\$ (.*)")


def shown(text):
    """Each typed command with the lines that stand below it."""
    commands = []
    lines = iter(text.splitlines())
    line = next(lines, None)
    while line is not None:
        typed = TYPED.fullmatch(line)
        line = next(lines, None)
        if typed:
            below = []
            while line is not None and line.startswith(typed[1]) and not TYPED.fullmatch(line):
                below.append(line[len(typed[1]):])
                line = next(lines, None)
            commands.append((typed[2], below))
    return commands


def alike(lines):
    text = re.sub(r"\d{4}-\d\d-\d\dT[\d:]{8}Z", "TIME", "\n".join(lines))
    return re.sub(r"(?m)@\S+?(?=[ ,]|$)", "@bench", text)


class Guide(harness.Case):
    def setUp(self):
        super().setUp()
        if not harness.NATIVE:
            self.skipTest("the guide's commands start the command directly")
        for name in ("shelf", "examples"):
            (self.folder / name).symlink_to(harness.ROOT / name)
        (self.folder / "mpt").symlink_to(harness.command)
        # What the reader has from a board: its memory, and pieces of it.
        board = (harness.ROOT / "shelf/made-bench-board.dump").read_bytes()[10:]
        rom = board.ljust(65536, b"\0")
        self.put("board.mem", bytes(0xF0000) + rom)
        self.put("rom.bin", rom)
        self.put("ebda.bin", bytes(1024))

    def test_each_command(self):
        commands = shown((harness.ROOT / "docs/USING.md").read_text())
        self.assertGreater(sum(bool(below) for _, below in commands), 15)
        for typed, below in commands:
            with self.subTest(typed):
                harness.runs += 1
                # The guide makes board.dump twice, from a memory and from pieces of it.
                made = re.search(r" -o (\S+)", typed)
                if made and (self.folder / made[1]).exists():
                    os.remove(self.folder / made[1])
                answer = subprocess.run(["sh", "-c", typed], cwd=self.folder, capture_output=True, env={**os.environ, **harness.SANITIZERS}, timeout=30)
                printed = answer.stdout.decode().splitlines()
                if below:
                    self.assertEqual(alike(printed), alike(below))
                else:
                    self.assertEqual((answer.returncode, answer.stderr), (0, b""))
                self.assertEqual(answer.returncode, 1 if printed and printed[0].startswith("refused ") else 0, answer)


if __name__ == "__main__":
    harness.main("the commands that docs/USING.md shows")
