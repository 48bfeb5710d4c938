"""Whether what documents and the heads of crates name is there: each link and its anchor, each path of the repository, each
other document and each manual page; and the documents and heads themselves. What they cite of sources is looked at by
`cited`."""

import functools
import glob
import os
import re
from collections.abc import Iterator

from tools.build import repository
from tools.check import cited, comparing
from tools.check.comparing import PASSED, Outcome

TOP = repository.TOP

# a link to something of the repository: a path, an anchor, or both
LINK = re.compile(r"\]\((?!https?:|mailto:)([^)#\s]*)(?:#([^)\s]*))?\)")
HEADING = re.compile(r"^#{1,6} (.*?)\s*$", re.M)
BLOCK = re.compile(r"^```.*?^```$", re.M | re.S)

# a path from the top of the repository; one with a word in it that stands for a name is looked for with any name there
FOLDERS = "bench|crates|docs|examples|packaging|tests|tools"
PATH = re.compile(rf"(?<![\w./\\-])(?:\.\./)?((?:{FOLDERS})/[\w.*/\\-]*[\w*])")
ANY = re.compile(r"\b(?:NAME|CRATE|PART|VERSION|Subject|module|function|what_it_does_wrong)\b")

# what only a run makes
MADE = re.compile(r"/out/|\.state$")

# a document by its name alone, and a manual page of the product
DOCUMENT = re.compile(r"(?<![\w./-])([A-Z][A-Z-]+\.md)\b")
PAGE = re.compile(r"\b(radlimit[\w.-]*)(?: |\"? ?)\((\d)\)")

# a row of the table of causes, and a word of a cause in a document
CAUSES = "crates/rld_counts/src/cause.rt"
CAUSE = re.compile(r'^    \(Cause::\w+, Kind::(\w+), "(\w+)", "[^"]+"\),$', re.M)
WORD = re.compile(r"`((?:drop|reject)_\w+)`")
SERVED = ("Accepted", "Accounted")

# the list of manual pages of what makes the package, and other names of these
PAGES = re.compile(r"^PAGES = \[(.*)\]$", re.M)
ALIASES = re.compile(r"^ALIASES = \{(.*)\}$", re.M)
QUOTED = re.compile(r'"([^"]+)"')


@functools.cache
def text_of(path: str) -> str:
    """The text of a file of the repository."""
    with open(os.path.join(TOP, path), encoding="utf-8") as file:
        return file.read()


def found(pattern: str) -> list[str]:
    """The files of the repository that a pattern names, by their paths from the top."""
    return sorted(os.path.relpath(path, TOP) for path in glob.glob(os.path.join(TOP, pattern)))


def documents() -> list[str]:
    """All documents and manual pages that are there."""
    return [path for pattern in ("*.md", "docs/*.md", "docs/*.[1-9]", "crates/*/*.md") for path in found(pattern)]


def pages() -> list[str]:
    """The manual pages that the package has, by all their names."""
    text = text_of(os.path.join("packaging", "build-deb"))
    return [name for pattern in (PAGES, ALIASES) for listed in pattern.findall(text) for name in QUOTED.findall(listed)]


@functools.cache
def anchors(path: str) -> set[str]:
    """The anchors of a document's headings, as forges make them."""
    names = set[str]()
    for heading in HEADING.findall(BLOCK.sub("", text_of(path))):
        name = re.sub(r"[^\w\- ]", "", heading.replace("`", "").lower()).replace(" ", "-")
        names.add(next(one for one in (name, *(f"{name}-{number}" for number in range(1, 99))) if one not in names))
    return names


def fault_of_link(path: str, target: str, anchor: str) -> str | None:
    """What is wrong with a link of a document."""
    where = os.path.normpath(os.path.join(os.path.dirname(path), target)) if target else path
    if not os.path.exists(os.path.join(TOP, where)):
        return f"a link to {target}, which is not there"
    if anchor and anchor not in anchors(where):
        return f"a link to {target}#{anchor}: there is no such heading"
    return None


def faults_of_line(path: str, line: str) -> Iterator[str]:
    """What a line of a document names that is not there."""
    for target, anchor in LINK.findall(line):
        if fault := fault_of_link(path, target, anchor):
            yield fault
    line = line.replace("\\", "")
    for name in PATH.findall(line):
        if not MADE.search(name) and not glob.glob(os.path.join(TOP, ANY.sub("*", name))):
            yield f"there is no {name}"
    for name in DOCUMENT.findall(line):
        if not any(os.path.exists(os.path.join(TOP, at, name)) for at in ("", "docs", os.path.dirname(path))):
            yield f"there is no document {name}"
    for name, section in PAGE.findall(line):
        if f"{name}.{section}" not in pages():
            yield f"there is no manual page {name}({section})"


def missing_documents() -> Iterator[str]:
    """What has to be there: the head of each crate, the documents that `cited` reads, and the manual pages."""
    for name in repository.product():
        if not cited.head_of(name):
            yield f"{cited.root_of(name)} has no head that says what the crate promises"
    wanted = [*cited.DOCUMENTS, "README.md", "CONTRIBUTING.md", "CHANGELOG.md"]
    wanted += [os.path.join("docs", name) for name in pages() if os.path.join("docs", name) not in aliases()]
    yield from (f"{path} is not there" for path in wanted if not os.path.exists(os.path.join(TOP, path)))


def aliases() -> set[str]:
    """The paths that other names of manual pages would have."""
    text = text_of(os.path.join("packaging", "build-deb"))
    return {os.path.join("docs", name) for listed in ALIASES.findall(text) for name in QUOTED.findall(listed)[::2]}


def faults_of_causes() -> Iterator[str]:
    """Each cause of a refusal is in docs/OPERATING.md, and no document names a drop or a reject that is none."""
    kinds = {word: kind for kind, word in CAUSE.findall(text_of(CAUSES))}
    told = text_of("docs/OPERATING.md")
    for word, kind in kinds.items():
        if kind not in SERVED and f"`{word}`" not in told:
            yield f"docs/OPERATING.md: `{word}` is a cause of {CAUSES}, and is not told"
    for path in documents():
        for word in sorted(set(WORD.findall(text_of(path))).difference(kinds)):
            yield f"{path}: `{word}` is no cause of {CAUSES}"


def check() -> Outcome:
    """All documents and heads: one passes where all that it names is there."""
    results = [cited.check()]
    for fault in (*missing_documents(), *faults_of_causes()):
        print(fault)
        results.append(comparing.FAILED)
    told = {path: text_of(path) for path in documents()}
    told |= {cited.root_of(name): cited.head_of(name) for name in repository.product()}
    for path, text in told.items():
        lines = enumerate(text.splitlines(), 1)
        faults = [(number, fault) for number, line in lines for fault in faults_of_line(path, line)]
        for number, fault in faults:
            print(f"{path}:{number}: {fault}")
        results.append(Outcome(0, len(faults)) if faults else PASSED)
    return comparing.total(results)
