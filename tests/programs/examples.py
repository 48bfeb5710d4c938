"""Runs each script of examples/, and looks at what documents show of them, and at the worked rows that they stand among.

usage: python3 -m tests.programs.examples
It wants the built program.
"""

import glob
import os
import re
import subprocess
import sys

from tools.build import repository
from tools.build.programs import path_of
from tools.build.repository import TOP
from tools.check import comparing

# an example that a document has replayed, and what it shows that this prints: in the same block or in the next one
SHOWN = re.compile(r"\./radlimit replay < (examples/\S+)\n(?:```.*?```\n)?(.*?)```", re.S)

# a report that a document shows by itself, and of each document the worked rows that print them, in their order
REPORT = re.compile(r"^```\n(name +places .*?)```", re.M | re.S)
REPORTS = {
    "docs/RADLIMIT-SERVE.md": ["example_access_request"],
    "docs/SESSION-RULE.md": ["example_sessions", "example_of_a_yield"],
}
ROWS = os.path.join(repository.folder_of("test_scripts"), "data")


def octets_of(*names):
    """The octets of a file of the repository."""
    with open(os.path.join(TOP, *names), "rb") as file:
        return file.read()


def text_of(*names):
    """The text of a file of the repository."""
    return octets_of(*names).decode()


def examples():
    """The scripts among the examples, each with what it prints."""
    for script in sorted(glob.glob(os.path.join(TOP, "examples", "*.script"))):
        yield os.path.basename(script), octets_of(script), octets_of(f"{script}.stdout")


def rows_of_documents():
    """Whether what a document shows of an example is what that prints. Each of these documents shows one."""
    results = []
    for document in ("README.md", os.path.join("docs", "SCRIPTS.md")):
        shown = SHOWN.findall(text_of(document))
        results.append(comparing.PASSED if shown else comparing.FAILED)
        results += [comparing.compared(f"{document}: {name}", text, text_of(f"{name}.stdout")) for name, text in shown]
    return results


def reports_of_documents():
    """Whether each report that a document shows by itself is the end of what its row prints."""
    results = []
    for document, names in REPORTS.items():
        shown = REPORT.findall(text_of(document))
        results.append(comparing.compared(f"{document}: how many reports", len(shown), len(names)))
        for name, text in zip(names, shown):
            whole = text_of(ROWS, f"{name}.stdout")
            results.append(comparing.compared(f"{document}: the report of {name}", text, whole[-len(text) :]))
    return results


def rows_of_examples():
    """Whether each example stands among the worked rows as it is, since a crate can't reach past its folder."""
    results = []
    for name, text, printed in examples():
        row = f"example_{name.replace('-', '_')}"
        for file, octets in ((row, text), (row.replace(".script", ".stdout"), printed)):
            results.append(comparing.compared(file, octets_of(ROWS, file), octets))
    return results


def main():
    """Each example, on the program."""
    results = rows_of_examples() + rows_of_documents() + reports_of_documents()
    for name, text, expected in examples():
        run = subprocess.run([path_of("rsl_app"), "replay"], input=text, capture_output=True, check=False)
        results.append(comparing.compared(name, run.stdout, expected))
    found = comparing.total(results)
    print(f"{found.passed} passed, {found.failed} failed")
    sys.exit(1 if found.failed else 0)


if __name__ == "__main__":
    main()
