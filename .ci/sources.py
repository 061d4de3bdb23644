"""What .ci/lists and .ci/contracts read of the sources: the public functions of the libraries, and the names that modules declare.

It reads text, not proofs. A function is found by its words, `pub`, `fn` and its name, however they are laid out; `pub(super)` and
`pub(crate)` are not public.
"""
import re
from dataclasses import dataclass
from pathlib import Path

ROOT = Path(__file__).resolve().parent.parent


@dataclass
class Function:
    crate: str
    modules: list  # between the crate and the function: [] in lib.rt
    name: str
    file: str
    parameters: list  # (name, type)
    result: str  # "" where nothing is returned
    requires: list
    ensures: list  # the text between the braces of each clause

    @property
    def path(self):
        return "::".join([self.crate, *self.modules, self.name])

    def lent(self):
        """The places among the parameters of what is lent to be written to."""
        return [i for i, (_, kind) in enumerate(self.parameters) if re.match(r"&\s*('\w+\s+)?mut\b", kind)]


class Unreadable(Exception):
    pass


def without_comments(text):
    kept = re.compile(r'''"(?:\\.|[^"\\])*"|b'(?:\\.|[^'\\])'|//[^\n]*|/\*.*?\*/''', re.S)
    return kept.sub(lambda m: " " if m[0].startswith("/") else m[0], text)


def closing(text, at):
    """Behind the bracket that closes the one at `at`."""
    pairs = {"(": ")", "{": "}", "[": "]", "<": ">"}
    opened, closed = text[at], pairs[text[at]]
    depth = 0
    for i in range(at, len(text)):
        depth += (text[i] == opened) - (text[i] == closed)
        if depth == 0:
            return i + 1
    raise Unreadable(f"a bracket is not closed: {text[at:at + 40]}")


def parted(text):
    """Cut at the commas that stand in no bracket."""
    parts, depth, last = [], 0, 0
    for i, c in enumerate(text):
        depth += (c in "([{<") - (c in ")]}>")
        if c == "," and depth == 0:
            parts.append(text[last:i])
            last = i + 1
    return [p.strip() for p in parts + [text[last:]] if p.strip()]


PUBLIC = re.compile(r'\bpub\s+(?:(?:const|unsafe|extern\s*"[^"]*")\s*)*\bfn\s+(\w+)\s*')
CLAUSE = re.compile(r"\s*(requires|ensures)\b\*?\s*\w*\s*(?=\{)")


def function_at(text, match, crate, modules, file):
    at = match.end()
    if text[at] == "<":
        at = closing(text, at)
    at = text.index("(", at)
    end = closing(text, at)
    parameters = []
    for parameter in parted(text[at + 1:end - 1]):
        name, _, kind = parameter.partition(":")
        parameters.append((name.replace("mut ", "").strip(), " ".join(kind.split())))
    at, result = end, ""
    arrow = re.compile(r"\s*->\s*((?:\[[^]]*\]|[^{;\[])*?)(?=\s*(?:\b(?:requires|ensures)\b|[{;]))").match(text, at)
    if arrow:
        at, result = arrow.end(), arrow[1]
    clauses = {"requires": [], "ensures": []}
    while clause := CLAUSE.match(text, at):
        at = closing(text, clause.end())
        clauses[clause[1]].append(" ".join(text[clause.end() + 1:at - 1].split()))
    return Function(crate, modules, match[1], file, parameters, result, **clauses)


def methods(text):
    """Where the methods of each type stand: from, to, the type; none where the block is of a type of any kind, or of a trait, whose
    functions are public only by what they are named with."""
    blocks = []
    for block in re.finditer(r"\bimpl\b([^{]*)\{", text):
        of = re.fullmatch(r"\s*(?:<\s*'[^>]*>)?\s*(\w+)\s*(?:<\s*'[^>]*>)?\s*", block[1])
        blocks.append((block.start(), closing(text, block.end() - 1), block[0], of and of[1]))
    return blocks


def functions_of(text, crate, modules, file):
    text = without_comments(text)
    for wrong in re.findall(r"\bmod\s+\w+\s*\{", text):
        raise Unreadable(f"{file}: `{wrong}`: no path is known here for a function inside it")
    blocks = methods(text)
    found = []
    for m in PUBLIC.finditer(text):
        around = [(block, of) for start, end, block, of in blocks if start < m.start() < end]
        for block, of in around:
            if not of:
                raise Unreadable(f"{file}: `{block}`: no path is known here for a function inside it")
        inside = [of for _, of in around]
        function = function_at(text, m, crate, modules + inside, file)
        for at, (name, kind) in enumerate(function.parameters):
            if inside and name.lstrip("&").split()[-1] == "self" and not kind:
                function.parameters[at] = ("self", name[:-4] + inside[0])
        found.append(function)
    return found


def libraries():
    """The libraries of this repository, from the ground up."""
    names = [line.partition(":")[0] for line in (ROOT / "crates.txt").read_text().splitlines() if re.match(r"\w+:", line)]
    return [n for n in names if not (ROOT / "crates" / n / "src" / "main.rt").exists()]


def public_functions():
    found = []
    for crate in libraries():
        folder = ROOT / "crates" / crate / "src"
        for file in sorted(folder.rglob("*.rt"), key=lambda f: (f.name != "lib.rt", f)):
            modules = list(file.relative_to(folder).with_suffix("").parts)
            modules = [] if modules == ["lib"] else modules
            found += functions_of(file.read_text(), crate, modules, str(file.relative_to(ROOT)))
    return found


def declared(file, marks):
    """The public names that an antt file declares with one of the marks before `pub`, in order."""
    return re.findall(rf"^ *(?:{marks})pub ([^\s:]+)(?: :|$)", file.read_text(), re.M)
