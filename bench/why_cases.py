#!/usr/bin/env python3
"""Writes what the program why is run on, and the lines that it must print.

For each row of the table of docs/RULES.md and each way to refuse it there is a message in which that row decides: the rows before it are right, and the rows behind it
are refused too. The lines come from how a message is built. Nothing is read.
"""
import os
import re

TOP = os.path.dirname(os.path.dirname(os.path.abspath(__file__)))
GUID = "0a1b2c3d-0000-4000-8000-00000000beef"


def table():
    """The rows of each kind, in order: name, value, whether it may be missing."""
    kinds = {}
    lines = open(os.path.join(TOP, "docs/RULES.md"), encoding="utf-8").read().split("\n")
    start = next(i for i, line in enumerate(lines) if line.startswith("| Kind | Message | Attribute |"))
    for line in lines[start + 2 :]:
        if not line.startswith("|"):
            break
        kind, named, name, value, may_miss, _ = [cell.strip() for cell in line.strip("|").split("|")]
        rows = kinds.setdefault((int(kind), named), [])
        if name != "none":
            rows.append((name, value, may_miss == "yes"))
    return kinds


def good(value):
    if value in ("GUID", "Version", "positive"):
        return {"GUID": GUID, "Version": "1.6", "positive": "160.5"}[value]
    return value.split("..")[0] if ".." in value else "x"


def wrong(value):
    """Values that a row refuses, and by which number. None: it is not there."""
    text = re.fullmatch(r"(non-empty )?text (\d+)", value)
    if text:
        return [("&#x41;" * (int(text[2]) + 1), 5)] + ([("", 6)] if text[1] else [])
    if ".." in value:
        low, high = map(int, value.split(".."))
        return [(" %d" % (high + 1), 6), (str(low - 1), 6), ("", 6), ("1&#x2E;5", 6)]
    return {"GUID": [(GUID[:-1] + "F", 6)], "Version": [("1.6.0", 6)], "positive": [("0.000", 6), ("-1", 6)], "child": []}[value]


def message(kind, rows):
    """A message from rows (name, value or None, is a child), and where each value stands."""
    text, places, children = "<Hermes>\n  <" + kind, {}, ""
    for name, value, child in rows:
        if child:
            children += "" if value is None else "<%s/>" % name
        elif value is not None:
            text += " %s='" % name
            places[name] = (len(text), len(value))
            text += value + "'"
    return text + (">" + children + "</" + kind + ">" if children else "/>") + "</Hermes>", places


def main():
    data, lines = "", []
    for (kind, named), rows in table().items():
        for at, (name, value, may_miss) in enumerate(rows):
            for bad, refusal in wrong(value) + ([] if may_miss else [(None, 4)]):
                built = []
                for i, (n, v, o) in enumerate(rows):
                    ok = "" if v == "child" else good(v)
                    later = wrong(v)[0][0] if wrong(v) and i % 2 else None
                    built.append((n, ok if i < at else bad if i == at else later, v == "child"))
                text, places = message(named, built)
                data += "\r\n"
                start = len(data)
                there = name in places
                lines.append("%d %d %d %d" % (start, start + len(text), kind, refusal))
                lines.append("why %d %d %d %d" % (at, there, start + places[name][0] if there else 0, places[name][1] if there else 0))
                data += text
        text, _ = message(named, [(n, "" if v == "child" else good(v), v == "child") for n, v, o in rows])
        lines.append("%d %d %d 0" % (len(data), len(data) + len(text), kind))
        data += text
    # an attribute with the name of the child is not the child, and has no say
    text = message("ServiceDescription", [("MachineId", "x", False), ("LaneId", "1", False), ("Version", "1.6", False), ("SupportedFeatures", "yes", False)])[0]
    lines += ["%d %d 1 4" % (len(data), len(data) + len(text)), "why 3 0 0 0"]
    data += text
    lines.append("end %d 2" % (len(data) + 1))
    data += " no message"
    folder = os.path.join(TOP, "crates/why")
    open(os.path.join(folder, "stdin"), "w", newline="").write(data)
    open(os.path.join(folder, "stdout"), "w", newline="").write("".join(line + "\n" for line in lines))


main()
