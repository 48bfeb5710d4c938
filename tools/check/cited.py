"""Whether what says promises cites is there: each call, clause, definition, law, crate and path. Promises are said by the
comment at the head of each crate's first source, and by documents. It reads names, and no meaning: that a clause says what
its promise says is for a reader to judge.

Citations stand in parentheses of a head, and in the last cell of a row of promises. There stand parts, with `;` between
them: calls, a colon, and the names of clauses that one of these calls has. A type before the colon may have methods or
traits after it; a crate says where what follows it stands. What stands in parentheses of a cell, or after a word such as
`by` or `of`, and each other name of a head or such a document, has to stand in a source or a definition."""

import glob
import itertools
import os
import re
from collections.abc import Iterator

from tools.build import repository
from tools.check import comparing
from tools.check.comparing import PASSED, Outcome

TOP = repository.TOP

# the documents that are no crate's: each name of theirs is looked for everywhere
DOCUMENTS = ("docs/PROMISES.md", "docs/ASSURANCE.md", "docs/ARCHITECTURE.md")

# a code span, and what is looked for of those: a name, a path, and a part of the gate
SPAN = re.compile(r"`([^`\n]+)`")
NAME = re.compile(r"[A-Za-z_]\w*(?:::[A-Za-z_]\w*)*!?")
PATH = re.compile(r"(?:\.\./)?(?:[\w.*-]+/)+[\w.*-]*|[\w-]+\.(?:md|rt|antt|py|txt)")
PART = re.compile(r"[a-z]+(?:-[a-z]+)+")

# a line of the comment at the head of a source, and what of a head cites: what stands in parentheses, or has a colon
HEAD = re.compile(r"//! ?(.*)")
CITED = re.compile(r"\(([^()]*`[^()]*)\)|(`[^`\n]+`:\s+`[^`\n]+`(?:,\s+`[^`\n]+`)*)")

# what begins an item of a source, at its margin; a function; and a clause
IMPL = re.compile(r"(?:unsafe )?impl\b(.*)")
OWNER = re.compile(r"(?:pub(?:\(crate\))? )?(?:trait|struct|enum|union|const|static|type) (\w+)")
FUNCTION = re.compile(r"\s*(?:#\[[^]]*\] )?(?:pub(?:\([^)]*\))? )?(?:const )?(?:unsafe )?fn (\w+)")
CLAUSE = re.compile(r"\b(?:ensures|requires|ghost) (\w+)\s*[{:=]")

# what stands before something that is no call: a definition, say
ASIDE = re.compile(r"\(|\b(?:by|of|in|with|at|from|definition's)\b")

# words of the language
WORDS = {"requires", "ensures", "prove!"}


def stripped(text: str) -> str:
    """A header without what stands in angle brackets."""
    depth, kept = 0, list[str]()
    for at, sign in enumerate(text):
        if sign == ">" and text[at - 1 : at] != "-":
            depth -= 1
        elif sign == "<":
            depth += 1
        elif depth == 0 and sign != ">":
            kept.append(sign)
    return "".join(kept)


def text_of(path: str) -> str:
    """The text of a file."""
    with open(path, encoding="utf-8") as file:
        return file.read()


def root_of(name: str) -> str:
    """The first source of a crate, by its path from the top."""
    return os.path.join("crates", name, "src", "main.rt" if repository.has_program(name) else "lib.rt")


def head_of(name: str) -> str:
    """The comment at the head of a crate's first source, line by line."""
    path = os.path.join(TOP, root_of(name))
    lines = map(HEAD.match, text_of(path).splitlines() if os.path.isfile(path) else [])
    return "\n".join(line[1] for line in itertools.takewhile(bool, lines) if line)


def last_name(words: str) -> str:
    """The last name of a path such as fmt::Display."""
    found = re.findall(r"\w+", words)
    return found[-1] if found else ""


class Source:
    """What the sources of a crate define: the clauses of each call, by its owner and its name; what each type has by itself
    and each trait that it has; and every word of sources, without their heads, and of definitions."""

    def __init__(self, folder: str):
        self.calls: dict[tuple[str | None, str], set[str]] = {}
        self.owned: dict[str, set[str]] = {}
        self.traits: set[tuple[str, str]] = set()
        self.words: set[str] = set()
        for part in ("src", "specs", "proofs"):
            for at, _, files in os.walk(os.path.join(folder, part)):
                for name in files:
                    text = text_of(os.path.join(at, name))
                    self.words.update(re.findall(r"\w+", re.sub(r"^//!.*$", "", text, flags=re.M)))
                    self.words.add(name.partition(".")[0])
                    if part == "src" and name.endswith(".rt"):
                        self.read(text)

    def read(self, text: str) -> None:
        """Reads a source, as `rt fmt` lays it out."""
        owner: str | None = None
        call: tuple[str | None, str] | None = None
        lines = iter(text.splitlines())
        for line in lines:
            if line.startswith("}"):
                owner, call = None, None
            elif IMPL.match(line):
                while "{" not in line:
                    line += " " + next(lines).strip()
                header = stripped(line.partition("{")[0].partition("impl")[2]).partition(" where ")[0]
                trait, _, of = header.rpartition(" for ")
                owner, call = last_name(of), None
                self.owned.setdefault(owner, set())
                if trait:
                    self.traits.add((owner, last_name(trait)))
            elif named := OWNER.match(line):
                owner, call = named[1], None
                self.owned.setdefault(owner, set())
            elif named := FUNCTION.match(line):
                call = (owner if line.startswith(" ") else None, named[1])
                self.calls.setdefault(call, set())
            clauses = CLAUSE.findall(line.partition("//")[0])
            if call:
                self.calls[call].update(clauses)
            elif owner:
                self.owned[owner].update(clauses)

    def clauses_of(self, cited: str) -> set[str] | None:
        """The clauses of what is cited as a call, a type or a law: None where it is not there."""
        *path, name = cited.split("::")
        owner = path[-1] if path and path[-1][0].isupper() else None
        found = [c for (of, call), c in self.calls.items() if call == name and (owner is None or of == owner)]
        # an impl says by itself what its methods promise
        if found and owner in self.owned:
            found.append(self.owned[owner])
        if owner is None and name in self.owned:
            found.append(self.owned[name])
        return set().union(*found) if found else None

    def has_member(self, cited: str, name: str) -> bool:
        """Whether a type has a method, or a trait, of this name."""
        return (cited, name) in self.calls or (cited, name) in self.traits

    def has_clause(self, name: str) -> bool:
        """Whether any call or type has a clause of this name."""
        return any(name in clauses for clauses in (*self.calls.values(), *self.owned.values()))


class Crates:
    """The sources of all crates, and what stands nowhere."""

    def __init__(self) -> None:
        self.sources = {name: Source(repository.folder_of(name)) for name in repository.crates()}
        self.others = {word for words in repository.crates().values() for word in words}
        # the programs that parts of the check run
        self.others.update(re.findall(r"\w+", text_of(os.path.join(TOP, "tools", "check", "parts.py"))))

    def of_path(self, home: Source, cited: str) -> tuple[Source, str]:
        """The source that a path leads to, and the path in it: `rsl_steps::run` is `run` of that crate, and a method of
        a type may be one of a crate below."""
        first, _, rest = cited.partition("::")
        if first in self.sources:
            return self.sources[first], rest
        if rest and first[0].isupper() and home.clauses_of(cited) is None:
            for source in self.sources.values():
                if source.clauses_of(cited) is not None and first in home.words:
                    return source, cited
        return home, cited

    def has_path(self, name: str | None, path: str) -> bool:
        """Whether a path is there: below the repository, its documents or crates, a crate of tests, or the crate of
        this name, or any crate where there is no name."""
        places = ["", "docs", "crates", os.path.join(repository.TESTS, "*")]
        places += [os.path.join("crates", name or "*"), os.path.join("crates", name or "*", "src")]
        return any(glob.glob(os.path.join(TOP, place, path)) for place in places)

    def has_name(self, home: Source | None, cited: str) -> bool:
        """Whether each word of a name stands in the sources of a crate, or anywhere where that is None."""
        if cited in WORDS or cited in self.sources or cited in self.others:
            return True
        sources = [home] if home else list(self.sources.values())
        words = re.findall(r"\w+", cited)
        if "::" in cited and len(words) == 2 and words[0][0].isupper():
            return any((words[0], words[1]) in source.calls or set(words) <= source.words for source in sources)
        return all(word in self.sources or any(word in source.words for source in sources) for word in words)


class Row:
    """What a head cites in one place, or the last cell of a row of promises: what of it is not there."""

    def __init__(self, crates: Crates, name: str | None):
        # docs/ has no sources: there a crate is named first
        self.crates, self.home = crates, crates.sources.get(name or "") or Source(os.path.join(TOP, "docs"))
        self.missing: list[str] = []

    def check(self, cell: str) -> list[str]:
        """Looks at each part of the cell."""
        for part in re.split(r";\s*(?![^(]*\))", cell):
            self.check_part(part.removeprefix("private: "))
        return self.missing

    def check_part(self, part: str) -> None:
        """Looks at calls, and at the clauses after them."""
        home, calls, wants_clause, end = self.home, list[tuple[Source, str]](), False, 0
        for span in SPAN.finditer(part):
            between, cited, end = part[end : span.start()], span[1], span.end()
            wants_clause |= bool(re.search(r":\s*(?:its\s*)?$", between))
            if cited in self.crates.sources:
                home = self.home = self.crates.sources[cited]
                calls, wants_clause = [], False
            elif ASIDE.search(between) or cited in WORDS or not NAME.fullmatch(cited):
                # whether a path is there is looked at with all of the document
                if NAME.fullmatch(cited) and not self.crates.has_name(home, cited):
                    self.missing.append(f"no name `{cited}`")
                if NAME.fullmatch(cited) and self.clauses(home, cited) is not None:
                    calls.append((home, cited))
            elif wants_clause and calls:
                wants_clause = self.check_clause(calls, cited)
            elif self.clauses(home, cited) is not None:
                calls.append((home, cited))
                # after a path from another crate its neighbours are of that one too
                home = self.crates.sources.get(cited.partition("::")[0], home)
            elif not (home.has_clause(cited) and "of each" in part) and not (cited[0].isupper() and cited in home.words):
                self.missing.append(f"no call `{cited}`")

    def clauses(self, home: Source, cited: str) -> set[str] | None:
        """The clauses of a call."""
        source, rest = self.crates.of_path(home, cited)
        return source.clauses_of(rest)

    def check_clause(self, calls: list[tuple[Source, str]], cited: str) -> bool:
        """Looks at what stands after a colon: a clause of a call before it, or else a method or a trait of a type, whose own
        clauses may follow. Gives whether clauses follow still."""
        if any(cited in (self.clauses(*call) or ()) for call in calls):
            return True
        members = [(home, f"{of.rpartition('::')[2]}::{cited}") for home, of in calls if home.has_member(of, cited)]
        if not members:
            self.missing.append(f"no clause `{cited}` of {', '.join(call for _, call in calls)}")
            return True
        calls += [member for member in members if self.clauses(*member) is not None]
        return False


def is_there(crates: Crates, name: str | None, cited: str) -> bool:
    """Whether a code span of a document is there, if it is a name or a path of this repository."""
    bare = re.sub(r"<.*>", "", cited)
    if PATH.fullmatch(bare.split(" ")[0]):
        return crates.has_path(name, bare.split(" ")[0])
    if PART.fullmatch(bare):
        return crates.has_path(None, f"tests/programs/{bare}.*")
    return not NAME.fullmatch(bare) or crates.has_name(None, bare)


def rows_of(text: str) -> Iterator[tuple[int, str]]:
    """The last cells of a document's rows of promises, each with the number of its line."""
    is_promise = False
    for number, line in enumerate(text.splitlines(), 1):
        if not line.startswith("|"):
            is_promise = False
        elif line.rstrip().endswith("| Call: clause |"):
            is_promise = True
        elif is_promise and not line.startswith("|---"):
            yield number, line.strip().strip("|").rpartition(" | ")[2].strip()


def without_code(text: str) -> str:
    """A text with the lines of its blocks of code empty."""
    kept, is_code = list[str](), False
    for line in text.splitlines():
        is_fence = line.startswith("```")
        is_code ^= is_fence
        kept.append("" if is_code or is_fence else line)
    return "\n".join(kept)


def cited_in(head: str) -> Iterator[tuple[int, str]]:
    """What a head cites, a place after the other, each with the number of the line where it begins."""
    for found in CITED.finditer(head):
        yield head.count("\n", 0, found.start()) + 1, (found[1] or found[2]).replace("\n", " ")


def missing_in(crates: Crates, text: str, name: str | None) -> Iterator[tuple[int, str]]:
    """What the head of a crate, or a document on all, cites that is not there, each with its line."""
    text = without_code(text)
    for number, cell in cited_in(text) if name else rows_of(text):
        yield from ((number, fault) for fault in Row(crates, name).check(cell))
    for number, line in enumerate(text.splitlines(), 1):
        for cited in SPAN.findall(line):
            if not is_there(crates, name, cited):
                yield number, f"nothing is called `{cited}`"


def check() -> Outcome:
    """What heads and documents cite: one passes where all of it is there. Whether they are there `documents` looks at."""
    crates, results = Crates(), []
    told: list[tuple[str, str, str | None]] = [(root_of(name), head_of(name), name) for name in repository.product()]
    here = [path for path in DOCUMENTS if os.path.isfile(os.path.join(TOP, path))]
    for path, text, name in [*told, *((path, text_of(os.path.join(TOP, path)), None) for path in here)]:
        faults = sorted(set(missing_in(crates, text, name)))
        for number, fault in faults:
            print(f"{path}:{number}: {fault}")
        results.append(Outcome(0, len(faults)) if faults else PASSED)
    return comparing.total(results)
