"""What all tests of the command share: how it is started, a folder of their own, and how an answer is compared.

A file of tests is started by itself, with the command that it is to try:

    python3 -B command/tests/verbs.py target/mpt/mpt
"""
import io
import os
import platform
import re
import shutil
import subprocess
import sys
import tempfile
import unittest
from pathlib import Path
from typing import NamedTuple

sys.dont_write_bytecode = True
ROOT = Path(__file__).resolve().parent.parent.parent
NATIVE = platform.machine() == "x86_64"
ROOT_USER = os.geteuid() == 0
# Nobody in particular, where the tests run as root: whom permissions hold for.
OTHER_USER = 65534

# A sanitizer ends by itself with 1, which is a refusal here. Memory that a program does not give back at its end is no
# fault of one that ends, and looking for it needs rights that not every machine gives.
SANITIZERS = {"ASAN_OPTIONS": "exitcode=99:detect_leaks=0", "UBSAN_OPTIONS": "halt_on_error=1:exitcode=99:print_stacktrace=1"}
REPORT = re.compile(rb"Sanitizer|runtime error:")
# What the command is started with: nothing that the machine's user has set decides an answer.
ENVIRONMENT = {"PATH": os.environ.get("PATH", "/usr/bin:/bin"), "LC_ALL": "C", "MPT_USER": "tester", **SANITIZERS}
# Far more than any answer takes; who waits so long hangs.
PATIENCE = 300

command = None  # the path, once main() has it
runs = 0


class Answer(NamedTuple):
    status: int
    out: bytes
    err: bytes

    def __str__(self):
        return f"exit {self.status}\n  stdout: {self.out[:400]!r}\n  stderr: {self.err[:2000]!r}"


def words_to_start(words, path=None):
    """The words that start the command. It is x86-64; elsewhere QEMU's emulator starts it (./run)."""
    path = str(path or command)
    return [path, *map(str, words)] if NATIVE else [str(ROOT / "run"), "-e", path, *map(str, words)]


def as_other_user(words, group=None):
    """By another user, who may be in one more group than his own."""
    groups = "--clear-groups" if group is None else f"--groups={group}"
    return ["setpriv", f"--reuid={OTHER_USER}", f"--regid={OTHER_USER}", groups, "--", *words]


def start(words, environment=None, **others):
    """The command as a process that goes on beside the test. One of the environment's values that is None is unset."""
    global runs
    runs += 1
    settings = {name: value for name, value in {**ENVIRONMENT, **(environment or {})}.items() if value is not None}
    if not NATIVE:  # ./run looks for the emulator
        settings = {**os.environ, **settings}
    others.setdefault("stdin", subprocess.DEVNULL)
    others.setdefault("stdout", subprocess.PIPE)
    others.setdefault("stderr", subprocess.PIPE)
    return subprocess.Popen(words, env=settings, **others)


def finish(process, input=None, seconds=PATIENCE):
    try:
        out, err = process.communicate(input, seconds)
    except subprocess.TimeoutExpired:
        process.kill()
        out, err = process.communicate()
        raise AssertionError(f"{process.args}: no answer in {seconds} seconds; so far {out[:200]!r} {err[:200]!r}") from None
    return Answer(process.returncode, out or b"", err or b"")


def run(*words, input=None, path=None, other_user=False, group=None, seconds=PATIENCE, **others):
    """The command with these words, to its end. It ends by itself, with a status that it may have."""
    if input is not None:
        others["stdin"] = subprocess.PIPE
    started = words_to_start(words, path)
    answer = finish(start(as_other_user(started, group) if other_user else started, **others), input, seconds)
    sound(answer, words)
    return answer


def sound(answer, words):
    """What holds of every answer, whatever was asked."""
    asked = f"mpt {' '.join(map(str, words))}"
    if REPORT.search(answer.err):
        raise AssertionError(f"{asked}: a sanitizer reports\n{answer.err.decode(errors='replace')}")
    if answer.status not in (0, 1, 2):
        raise AssertionError(f"{asked}: {answer}")
    if answer.status == 2 and not answer.err.startswith((b"mpt: ", b"usage: ")):
        raise AssertionError(f"{asked}: wrong words or a failure, and it does not say so: {answer}")
    notes = [text for text in answer.err.splitlines() if not text.startswith(b"mpt: note: ")]
    if answer.status != 2 and notes:
        raise AssertionError(f"{asked}: an answer, and more than notes on standard error: {answer}")


class Case(unittest.TestCase):
    """A test with a folder of its own, in which the command is started."""

    maxDiff = 4000

    def setUp(self):
        # Its own name stays short, for it stands in what the command says; others may look into it (permissions).
        # No test names a file outside of it where the command could write, as root even: a wrong command would.
        self.folder = Path(tempfile.mkdtemp(prefix="mpt-"))
        self.addCleanup(shutil.rmtree, self.folder)
        self.addCleanup(self.folder.chmod, 0o755)
        self.folder.chmod(0o755)

    def put(self, name, content):
        path = self.folder / name
        path.write_bytes(content.encode() if isinstance(content, str) else content)
        return path

    def anew(self, name, content):
        """A table that nobody has edited: with no log, and nothing that was left."""
        for end in (".log", ".mpt-new"):
            (self.folder / (name + end)).unlink(missing_ok=True)
        return self.put(name, content)

    def files(self):
        """Every file of the folder with its bytes."""
        return {path.name: path.read_bytes() for path in self.folder.iterdir() if path.is_file()}

    def unchanged(self, before):
        """No file is otherwise than it was, and none is there that was not. Only the names are told: some are long."""
        now = self.files()
        self.assertEqual(sorted(name for name in {**now, **before} if now.get(name) != before.get(name)), [])

    def mpt(self, *words, **others):
        others.setdefault("cwd", self.folder)
        return run(*words, **others)

    def answers(self, words, out, note=b"", **others):
        """An answer: exit 0, just this on standard output, nothing on standard error."""
        answer = self.mpt(*words, **others)
        self.assertEqual((answer.status, answer.err), (0, note), f"{words}: {answer}")
        self.assertEqual(answer.out, out.encode() if isinstance(out, str) else out, words)
        return answer

    def refuses(self, words, number, inner=None, more=None, **others):
        """A refusal: exit 1, its line in words on standard output, and behind it no other line but those in `more`."""
        answer = self.mpt(*words, **others)
        self.assertEqual((answer.status, answer.err), (1, b""), f"{words}: {answer}")
        first, _, rest = answer.out.partition(b"\n")
        form = rb"refused 23: the edited table would be refused, with %d: \S.*" % inner if inner else rb"refused %d: \S.*" % number
        self.assertRegex(first, rb"\A" + form + rb"\Z", f"{words}: {answer}")
        self.assertEqual(rest, more or b"", f"{words}: {answer}")
        return answer

    def wrong(self, words, said=None, **others):
        """Wrong words or a failure: exit 2, nothing on standard output, why on standard error."""
        answer = self.mpt(*words, **others)
        self.assertEqual((answer.status, answer.out), (2, b""), f"{words}: {answer}")
        if said is not None:
            self.assertEqual(answer.err, b"mpt: " + said.encode() + b"\n", words)
        return answer

    def other_user(self):
        """What run() is given for a user for whom permissions hold: nothing, or where the tests run as root another one.
        The command is copied to where that user can start it."""
        if not ROOT_USER:
            return {}
        if not NATIVE:
            self.skipTest("another user may not reach the emulator")
        place = Path(tempfile.mkdtemp(prefix="mpt-"))
        self.addCleanup(shutil.rmtree, place)
        place.chmod(0o755)
        copy = Path(shutil.copy(command, place / "mpt"))
        copy.chmod(0o755)
        try:
            subprocess.run(as_other_user(["test", "-x", str(copy)]), check=True, stderr=subprocess.DEVNULL)
        except (OSError, subprocess.CalledProcessError):
            self.skipTest("no setpriv here, or a folder for temporary files that others do not see")
        return {"path": copy, "other_user": True}


def main(about):
    """Runs the tests of the started file with the command that is named, and says in a line what was tried."""
    global command
    if len(sys.argv) < 2:
        sys.exit(sys.modules["__main__"].__doc__ or "which command?")
    command = Path(sys.argv[1]).resolve()
    suite = unittest.defaultTestLoader.loadTestsFromModule(sys.modules["__main__"])
    said = io.StringIO()
    result = unittest.TextTestRunner(stream=said, verbosity=0).run(suite)
    name = Path(sys.argv[0]).stem
    for case, why in result.skipped:
        print(f"mpt: {name}: {re.findall(r'[A-Za-z_]+', case.id())[-1]}: skipped: {why}")
    good = result.wasSuccessful() and result.testsRun > 0 and runs > 0
    if good:
        print(f"mpt: {name} ({command.name}): {about() if callable(about) else about}: {result.testsRun} tests, {runs} runs")
    else:
        print(f"mpt: {name} ({command.name}): FAILED: {len(result.failures) + len(result.errors)} of {result.testsRun} tests")
        print(said.getvalue())
    sys.exit(0 if good else 1)
