"""The library kill_at.c, compiled: how a test has something happen at the Nth call by which the command touches a file."""
import shutil
import subprocess
import tempfile
import unittest
from pathlib import Path

import harness

WAYS = "kill half fail gone short stop".split()


class Library:
    """Compiled once for a file of tests, into a folder that is taken away again."""

    def __init__(self):
        if not harness.NATIVE:
            raise unittest.SkipTest("no library can be preloaded to a program of another machine")
        if "sanitized" in harness.command.name:
            raise unittest.SkipTest("the compiler's checks want to be loaded first")
        self.folder = Path(tempfile.mkdtemp(prefix="mpt-"))
        self.path = self.folder / "kill_at.so"
        source = Path(__file__).with_name("kill_at.c")
        subprocess.run(["cc", "-std=c11", "-Wall", "-Wextra", "-O1", "-shared", "-fPIC", source, "-o", self.path, "-ldl"], check=True)

    def close(self):
        shutil.rmtree(self.folder)

    def at(self, number, how, error=5):
        """The environment in which something happens at a call."""
        assert how in WAYS
        return {"LD_PRELOAD": str(self.path), "KILL_AT": str(number), "KILL_HOW": how, "KILL_ERROR": str(error)}

    def calls(self, words, cwd, among=("open", "read", "write", "fsync", "rename", "close")):
        """The names of the calls that the command makes with these words, in their order."""
        trace = self.folder / "trace"
        trace.unlink(missing_ok=True)
        answer = harness.run(*words, cwd=cwd, environment={"LD_PRELOAD": str(self.path), "KILL_TRACE": str(trace)})
        assert answer.status == 0, answer
        names = trace.read_text().split()
        # A library that stands in front of nothing would let every test pass.
        assert set(among) <= set(names), names
        return names


class Case(harness.Case):
    """A test with that library."""

    @classmethod
    def setUpClass(cls):
        cls.library = Library()
        cls.addClassCleanup(cls.library.close)
