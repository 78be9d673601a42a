"""The position of a command line's refusal by 2: that of its form, or of its list, by the model of crates/cases."""
import os
import re
import sys

sys.path.insert(0, os.path.join(os.path.dirname(os.path.abspath(__file__)), "../crates/cases"))
import cases


def items(text):
    """The words and the groups that stand in no group of the text."""
    out, depth = [], 0
    for x in re.findall(r"\[|\]|\d+", text):
        if x == "[":
            if depth == 0:
                out.append([])
            depth += 1
        elif x == "]":
            depth -= 1
        elif depth == 0:
            out.append(int(x))
        if depth > 0 or x == "]":
            out[-1].append(x)
    return ["".join(y if y in "[]" else " %s " % y for y in x) if isinstance(x, list) else x for x in out]


def words(text):
    return [int(x) for x in re.findall(r"\d+", text)]


def place_row(text):
    """A list of places: 0 for an empty group, 1 before the words of another."""
    out = []
    for x in items(text[1:-1]):
        if isinstance(x, int):
            out.append(x)
        else:
            out += [1] + words(x) if x != "[]" else [0]
    return out


def position(line):
    """The position where 2 refuses the line, or None."""
    head, rest = line[1:-1].split(" ", 1)
    groups = [x for x in items(rest) if not isinstance(x, int)]
    try:
        cases.form(words(groups[-1]), cases.COMMANDS[head][1])
        if head == "free":
            cases.entries(words(groups[0]), "pairs")
        if head == "fill":
            cases.entries(place_row(groups[0]), "places")
    except cases.No as x:
        return x.p if x.k == 2 else None
    return None
