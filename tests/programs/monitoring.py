"""Whether the dashboard and the alerts under examples/ ask for what `/metrics` has: each metric by its name, each label of
it, and of the labels `port` and `end` each value. What `/metrics` has is read from what test_counts prints. The JSON and
the YAML have to be well formed.

usage: python3 -m tests.programs.monitoring
"""

import json
import os
import re
import sys

from tools.build.repository import TOP
METRICS = os.path.join(TOP, "tests", "unit", "test_counts", "stdout")
DASHBOARD = os.path.join(TOP, "examples", "grafana-dashboard.json")
RULES = os.path.join(TOP, "examples", "prometheus-rules.yml")

SAMPLE = re.compile(r"^(radlimitd_\w+)(?:\{(.*)\})? \S+$", re.M)
LABEL = re.compile(r'(\w+)="([^"]*)"')
NAME = re.compile(r"radlimitd_\w+")
MATCHERS = re.compile(r'(radlimitd_\w+)\{([^}]*)\}')
MATCHER = re.compile(r'^(\w+)(=~|=|!~|!=)"([^"]*)"$')
GROUPED = re.compile(r"\bby \(([^)]*)\)")
LEGEND = re.compile(r"\{\{ ?(\w+) ?\}\}")
SHOWN = re.compile(r"\{\{ \$labels\.(\w+) \}\}")
CALLED = re.compile(r"\b([a-z_]+)\(")
FUNCTIONS = {"changes", "histogram_quantile", "increase", "label_values", "max", "min", "rate", "sum", "time", "topk"}
GIVEN = {"instance", "job"}  # labels that Prometheus adds
SEVERITIES = {"critical", "warning"}


class Odd(Exception):
    """What is wrong."""


def wanted(holds, what):
    """Fails, and says what is wrong, unless something holds."""
    if not holds:
        raise Odd(what)


def known():
    """Of each metric that `/metrics` has, by the names of its samples: the values of each of its labels."""
    found = {}
    with open(METRICS, encoding="utf-8") as file:
        for name, labels in SAMPLE.findall(file.read()):
            of_metric = found.setdefault(name, {})
            for label, value in LABEL.findall(labels):
                of_metric.setdefault(label, set()).add(value)
    wanted(found, f"{METRICS} has no metric")
    return found


def check_expression(metrics, text):
    """Whether an expression of PromQL names metrics and labels that are there. It looks at nothing else."""
    for opening, closing in ("()", "[]", "{}"):
        wanted(text.count(opening) == text.count(closing), f"unpaired {opening}{closing}: {text}")
    for name in NAME.findall(text):
        wanted(name in metrics, f"no metric {name}: {text}")
    for name in CALLED.findall(text):
        wanted(name in FUNCTIONS, f"no function {name}: {text}")
    for name, matchers in MATCHERS.findall(text):
        for matcher in re.split(r",\s*", matchers):
            found = MATCHER.match(matcher)
            wanted(found, f"no matcher {matcher}: {text}")
            check_matcher(metrics[name], *found.groups(), text)
    labels = {label for name in NAME.findall(text) for label in metrics[name]}
    for grouped in GROUPED.findall(text):
        for label in re.split(r",\s*", grouped):
            wanted(label in labels | GIVEN, f"no label {label}: {text}")
    return labels


def check_matcher(labels, label, operator, value, text):
    """Whether a metric has the label, and each value that is asked for."""
    if label in GIVEN:
        return
    wanted(label in labels, f"no label {label}: {text}")
    for one in value.split("|") if operator.endswith("~") else [value]:
        matches = re.compile(one) if operator.endswith("~") else re.compile(re.escape(one))
        wanted(any(matches.fullmatch(each) for each in labels[label]), f"no {label} is {one}: {text}")


def check_dashboard(metrics):
    """How many expressions the dashboard has, each of which is right."""
    with open(DASHBOARD, encoding="utf-8") as file:
        dashboard = json.load(file)
    wanted({"title", "uid", "panels", "templating", "schemaVersion"} <= dashboard.keys(), "the dashboard lacks a key")
    numbers = [panel["id"] for panel in dashboard["panels"]]
    wanted(len(set(numbers)) == len(numbers), "two panels have one id")
    variables = {variable["name"] for variable in dashboard["templating"]["list"]}
    wanted({"datasource", "instance"} <= variables, "the dashboard lacks a variable")
    for variable in dashboard["templating"]["list"]:
        if variable["type"] == "query":
            check_expression(metrics, variable["query"])
    count = 0
    for panel in dashboard["panels"]:
        wanted(panel["title"] and panel["description"] and panel["targets"], f"panel {panel['id']} lacks something")
        place = panel["gridPos"]
        wanted(place["x"] + place["w"] <= 24, f"panel {panel['id']} is too wide")
        for target in panel["targets"]:
            labels = check_expression(metrics, target["expr"])
            wanted('instance=~"$instance"' in target["expr"], f"not of one server: {target['expr']}")
            for label in LEGEND.findall(target["legendFormat"]):
                wanted(label in labels | GIVEN, f"no label {label}: {target['legendFormat']}")
            count += 1
    return count


def scalar(text):
    """A value of a line of YAML: a quoted text, or a plain one, which has none of the marks that YAML takes for its own."""
    if text.startswith('"'):
        return json.loads(text)
    wanted(not re.search(r"^[\[\]{}>|*&!%@`'#,?-]|: | #|:$", text), f"no plain text: {text}")
    return text


def lines_of_yaml(text):
    """The lines of a YAML text that are not empty and no comment, each with its depth."""
    found = []
    for line in text.splitlines():
        if line.strip() and not line.lstrip().startswith("#"):
            wanted("\t" not in line, f"a tab: {line}")
            found.append((len(line) - len(line.lstrip()), line.strip()))
    return found


def read_yaml(lines, depth):
    """The value that stands at this depth, of which all lines are taken: a list, or a map. Of YAML it reads block lists and
    block maps of texts on one line, and nothing else."""
    if lines[0][1].startswith("- "):
        items = []
        while lines and lines[0][0] == depth and lines[0][1].startswith("- "):
            lines[0] = depth + 2, lines[0][1][2:]
            items.append(read_yaml(lines, depth + 2))
        return items
    pairs = {}
    while lines and lines[0][0] == depth:
        found = re.match(r"^(\w+):(?: (.+))?$", lines.pop(0)[1])
        wanted(found and found[1] not in pairs, "no pair, or one twice")
        if found[2] is not None:
            pairs[found[1]] = scalar(found[2])
        else:
            wanted(lines and lines[0][0] > depth, f"{found[1]} has no value")
            pairs[found[1]] = read_yaml(lines, lines[0][0])
    wanted(pairs, "nothing at this depth")
    return pairs


def check_rules(metrics):
    """How many alerts there are, each of which is right."""
    with open(RULES, encoding="utf-8") as file:
        lines = lines_of_yaml(file.read())
    read = read_yaml(lines, 0)
    wanted(not lines, f"lines behind the rules: {lines}")
    rules = [rule for group in read["groups"] for rule in group["rules"]]
    names = [rule["alert"] for rule in rules]
    wanted(len(set(names)) == len(names), "two alerts have one name")
    for rule in rules:
        wanted(rule.keys() <= {"alert", "expr", "for", "labels", "annotations"}, f"{rule['alert']}: another key")
        labels = check_expression(metrics, rule["expr"])
        wanted(re.fullmatch(r"\d+[sm]", rule.get("for", "0s")), f"{rule['alert']}: for")
        wanted(rule["labels"]["severity"] in SEVERITIES, f"{rule['alert']}: severity")
        for text in rule["annotations"].values():
            kept = labels & {label for by in GROUPED.findall(rule["expr"]) for label in re.split(r",\s*", by)}
            for label in SHOWN.findall(text):
                wanted(label in kept | GIVEN, f"{rule['alert']}: no label {label} is left to show")
    return len(rules)


def main():
    if len(sys.argv) != 1:
        sys.exit(__doc__)
    try:
        metrics = known()
        expressions, alerts = check_dashboard(metrics), check_rules(metrics)
    except (Odd, KeyError, ValueError, TypeError, IndexError) as fault:
        print(f"monitoring: {fault}")
        sys.exit("0 passed, 1 failed")
    print(f"{expressions} expressions of the dashboard, {alerts} alerts")
    print(f"{expressions + alerts} passed, 0 failed")


if __name__ == "__main__":
    main()
