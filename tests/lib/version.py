"""The version that programs have to tell: that of the package, without its revision."""

import os
import re

CHANGES = os.path.join(os.path.dirname(os.path.abspath(__file__)), "..", "..", "packaging", "debian", "changelog")

with open(CHANGES, encoding="utf-8") as file:
    FIRST = re.match(r"radlimit \(([^)]*)-[^)-]*\) ", file.readline())
assert FIRST is not None
VERSION = FIRST[1]
