"""Prometheus' text format, version 0.0.4, read as strictly as it is written down: https://prometheus.io/docs/instrumenting/
exposition_formats/. What is no such text, or says a thing twice, is a ValueError."""

import math
import re

NAME = re.compile(r"[a-zA-Z_:][a-zA-Z0-9_:]*")
LABEL = re.compile(r"[a-zA-Z_][a-zA-Z0-9_]*")
# what follows a backslash in a label's value, and what it stands for
ESCAPED = {"\\": "\\", '"': '"', "n": "\n"}
KINDS = ("counter", "gauge", "histogram", "summary", "untyped")
# what a sample of a metric may have behind the metric's name
# the labels of a sample, each a name and a value
Labels = tuple[tuple[str, str], ...]
ENDINGS = {"histogram": ("_bucket", "_sum", "_count"), "summary": ("", "_sum", "_count")}


class Metrics:
    """Metrics that were read: kinds by their names, and values by the names of samples and their labels."""

    def __init__(self, text: str) -> None:
        self.kinds: dict[str, str] = {}
        self.helps: dict[str, str] = {}
        self.values: dict[tuple[str, Labels], float] = {}
        self.current: str | None = None  # the metric whose lines are read
        if not text.endswith("\n"):
            raise ValueError("the last line does not end with a line feed")
        for line in text[:-1].split("\n"):
            self.line(line)
        for name, kind in self.kinds.items():
            if kind == "histogram":
                self.check_histogram(name)

    def line(self, line: str) -> None:
        """A line: of a metric's head, or a sample."""
        if line.startswith("# HELP "):
            name, _, text = line[7:].partition(" ")
            self.begin(name, self.helps, text)
        elif line.startswith("# TYPE "):
            name, _, kind = line[7:].partition(" ")
            if kind not in KINDS:
                raise ValueError(f"no kind of a metric: {line}")
            self.begin(name, self.kinds, kind)
        elif line and not line.startswith("#"):
            self.sample(line)

    def begin(self, name: str, table: dict[str, str], value: str) -> None:
        """A line of a metric's head. All lines of a metric stand together, its head first."""
        if not NAME.fullmatch(name) or name in table:
            raise ValueError(f"no name, or twice: {name}")
        if name != self.current and (name in self.kinds or name in self.helps):
            raise ValueError(f"the lines of {name} do not stand together")
        if any(self.metric_of(sample) == name for sample, _ in self.values):
            raise ValueError(f"the head of {name} stands behind its samples")
        table[name] = value
        self.current = name

    def metric_of(self, sample: str) -> str:
        """The metric that a sample is of."""
        for name, kind in self.kinds.items():
            if sample in {name + ending for ending in ENDINGS.get(kind, ("",))}:
                return name
        return sample

    def sample(self, line: str) -> None:
        """A sample: its name, its labels in braces, and its value. None here has a time."""
        name = NAME.match(line)
        if not name:
            raise ValueError(f"no sample: {line}")
        labels, at = dict[str, str](), name.end()
        if line[at : at + 1] == "{":
            labels, at = labels_at(line, at + 1)
        if line[at : at + 1] != " ":
            raise ValueError(f"no blank before the value: {line}")
        key = name[0], tuple(sorted(labels.items()))
        if key in self.values:
            raise ValueError(f"twice: {line}")
        if self.metric_of(name[0]) != self.current:
            raise ValueError(f"a sample apart from its metric: {line}")
        self.values[key] = number(line[at + 1 :])

    def value(self, name: str, **labels: str) -> float:
        """The value of a sample."""
        return self.values[name, tuple(sorted(labels.items()))]

    def check_histogram(self, name: str) -> None:
        """Each histogram has buckets whose bounds and counts rise to `+Inf`, and its sum and its count."""
        series: dict[Labels, list[tuple[float, float]]] = {}
        for (sample, labels), value in self.values.items():
            if sample == name + "_bucket":
                rest = tuple(label for label in labels if label[0] != "le")
                series.setdefault(rest, []).append((number(dict(labels)["le"]), value))
        if not series:
            raise ValueError(f"{name} has no bucket")
        for rest, buckets in series.items():
            if buckets != sorted(buckets) or [count for _, count in buckets] != sorted(count for _, count in buckets):
                raise ValueError(f"the buckets of {name} do not rise")
            if buckets[-1] != (math.inf, self.values[name + "_count", rest]):
                raise ValueError(f"the last bucket of {name} is not its count")
            if (name + "_sum", rest) not in self.values:
                raise ValueError(f"{name} has no sum")


def labels_at(line: str, at: int) -> tuple[dict[str, str], int]:
    """The labels that begin there, and where the closing brace ends."""
    labels: dict[str, str] = {}
    while line[at : at + 1] != "}":
        name = LABEL.match(line, at)
        if not name or line[name.end() : name.end() + 2] != '="' or name[0] in labels:
            raise ValueError(f"no label, or twice: {line}")
        labels[name[0]], at = value_at(line, name.end() + 2)
        if line[at : at + 1] == ",":
            at += 1
        elif line[at : at + 1] != "}":
            raise ValueError(f"the labels do not end: {line}")
    return labels, at + 1


def value_at(line: str, at: int) -> tuple[str, int]:
    """A label's value that begins there behind its quote, and where the closing quote ends."""
    value = ""
    while (octet := line[at : at + 1]) != '"':
        if octet == "\\":
            at += 1
            octet = ESCAPED.get(line[at : at + 1], "")
        if not octet:
            raise ValueError(f"a label's value does not end, or has a wrong escape: {line}")
        value, at = value + octet, at + 1
    return value, at + 1


def number(text: str) -> float:
    """A number, as Go's ParseFloat reads it."""
    if text == "+Inf":
        return math.inf
    if not re.fullmatch(r"[-+]?\d+(\.\d+)?([eE][-+]?\d+)?", text):
        raise ValueError(f"no number: {text}")
    return float(text) if "." in text or "e" in text.lower() else int(text)
