#!/usr/bin/env python3
"""Counts the places in src/ that docs/DESIGN-PASS.md is about.

    python3 tools/places.py [COMMIT] [--list]

Without a commit it counts in the working tree. With --list it prints each place. What a line counts stands beside it.
"""
import difflib
import re
import subprocess
import sys


def sources(commit):
    if commit:
        names = subprocess.run(
            ["git", "ls-tree", "-r", "--name-only", commit, "crates"], capture_output=True, text=True, check=True
        ).stdout.split()
    else:
        names = subprocess.run(["git", "ls-files", "crates"], capture_output=True, text=True, check=True).stdout.split()
    for name in sorted(names):
        if not re.fullmatch(r"crates/\w+/src/\w+\.rt", name):
            continue
        if commit:
            text = subprocess.run(["git", "show", f"{commit}:{name}"], capture_output=True, text=True, check=True).stdout
        else:
            text = open(name).read()
        yield name.removeprefix("crates/").replace("/src/", "/"), re.sub(r"//.*", "", text)


def items(text, word):
    """Each struct or enum as its name and its body."""
    for m in re.finditer(rf"^\s*(?:pub(?:\(crate\))? )?{word} (\w+)[^;{{]*\{{(.*?)^\s*\}}", text, re.M | re.S):
        yield m.group(1), m.group(2)


def functions(text):
    """Each function as its name, its parameters, its contract and its body."""
    for m in re.finditer(r"^( *)(?:pub(?:\(crate\))? )?(?:extern \"C\" )?fn (\w+)(?:<[^(]*>)?\(", text, re.M):
        depth, at = 1, m.end()
        while depth:
            depth += {"(": 1, ")": -1}.get(text[at], 0)
            at += 1
        params = text[m.end() : at - 1]
        start = re.compile(rf"(?:^{m.group(1)}\{{|[^}}]\{{)$", re.M).search(text, at)
        end = re.compile(rf"^{m.group(1)}\}}", re.M).search(text, at)
        if not (start and end):
            continue
        yield m.group(2), params, text[at : start.start()], text[start.end() : end.start()]


def split(params):
    """The parameters, apart at commas outside of brackets."""
    parts, depth, last = [], 0, ""
    for c in params:
        depth += {"(": 1, "[": 1, "<": 1, ")": -1, "]": -1, ">": -1}.get(c, 0)
        if c == "," and depth == 0:
            parts.append(last)
            last = ""
        else:
            last += c
    return [p.strip() for p in parts + [last] if p.strip()]


def shape(body):
    """A body without the names, numbers and sizes in it."""
    body = re.sub(r"\b\d[\w]*\b", "0", body)
    return re.sub(r"\b[a-zA-Z_]\w*\b", lambda m: m.group(0) if m.group(0) in KEEP else "n", body)


KEEP = {"if", "else", "return", "let", "mut", "while", "loop", "for", "in", "match", "break", "continue", "true", "false", "as"}


def places(files):
    found = {}

    def add(point, what, where):
        found.setdefault((point, what), []).append(where)

    all_functions = []
    for name, text in files:
        for item, body in items(text, "enum"):
            variants = [v for v in re.findall(r"^\s*(\w+(?:\([^)]*\))?),", body, re.M)]
            units = [v for v in variants if "(" not in v]
            if len(variants) == 2 and len(units) < 2:
                add(1, "own enums of two variants, of which one at least holds a value", f"{name} {item}")
            elif len(variants) > 2 and set(units) & {"None", "Nothing", "Other", "Wrong", "Unknown", "Bad"} and len(units) == 1:
                add(1, "own enums with one variant more for nothing", f"{name} {item}")
        for item, body in items(text, "struct"):
            if re.search(r"\b(ok|short|gone): bool", body):
                add(1, "structs with a flag that says whether the fields beside it count", f"{name} {item}")
            if re.search(r"\b(number|position): u32", body) and "Tag" != item:
                add(1, "structs with the number of a refusal", f"{name} {item}")
            arrays = re.findall(r": \[\w+; [\w:]+\]", body)
            if len(arrays) > 1:
                add(6, "structs of arrays side by side", f"{name} {item}")
        for m in re.finditer(r"Answer::No\(|\.says\(\d|refusal_code\(\d", text):
            add(1, "refusals by number", name)
        for fn, params, contract, body in functions(text):
            all_functions.append((f"{name} {fn}", shape(body)))
            ps = split(params)
            names = [p.split(":")[0].strip().removeprefix("mut ") for p in ps]
            if re.search(r"\bwhile\b", body):
                for m in re.finditer(r"\bwhile\b", body):
                    add(3, "while loops", f"{name} {fn}")
            if re.search(r"\bloop \{", body):
                add(3, "loop without a condition", f"{name} {fn}")
            flat = re.sub(r"\s+", " ", body).strip()
            if re.fullmatch(r"if (\w+) < (\w+) \{ return 0; \} \1 - \2", flat) or re.fullmatch(r"if (\w+) == 0 \{ return 0; \} \1 - 1", flat):
                add(4, "subtraction that stops at 0, by hand", f"{name} {fn}")
            if re.fullmatch(r"if (\w+) < (\w+) \{ return \w+; \} (\1|\2)", flat):
                add(4, "the smaller or the larger of two, by hand", f"{name} {fn}")
            if re.fullmatch(r"(if row.len\(\) <= (\w+) \{ return 0; \} row\[\2\]|if at < row.len\(\) \{ row\[at\] \} else \{ 0 \}|if \w+.len\(\) <= (\w+) \{ return 0; \} \w+\[\3\])", flat):
                add(4, "a word or 0, by hand", f"{name} {fn}")
            if re.fullmatch(r"let mut i(: usize)? = 0; while i < (\w+).len\(\) \{ if \w+\[i\] != \w+\[i\] \{ return false; \} i \+= 1; \} true", flat) or (fn in ("is_same", "begins") and "while" in flat):
                add(4, "equality of slices, by hand", f"{name} {fn}")
            if re.search(r"\bas (usize|u32|u64|i32|u8)\b", flat) and re.fullmatch(r"\w+ as \w+", flat):
                add(4, "a conversion with a function of its own", f"{name} {fn}")
            if len(ps) >= 8:
                add(5, "functions of eight parameters or more", f"{name} {fn}")
            if {"row", "marks"} <= set(names):
                add(5, "a row and its marks as two parameters", f"{name} {fn}")
            if {"list", "list_marks"} <= set(names) or {"row", "row_marks"} <= set(names) or {"part", "part_marks"} <= set(names):
                add(5, "a list, part or other row and its marks as two parameters", f"{name} {fn}")
            if {"starts", "ends"} <= set(names):
                add(6, "the arrays of a table as parameters", f"{name} {fn}")
            for p in ps:
                if re.fullmatch(r"(?:mut )?\w+: bool", p):
                    add(7, "parameters that are a flag", f"{name} {fn} {p}")
            if len(re.findall(r"Command::\w+ =>", body)) > 4 and re.search(r"=> [\w:]+\(", body):
                add(7, "choices of a function by a command", f"{name} {fn}")
    seen = set()
    for i, (a, x) in enumerate(all_functions):
        if len(x) < 80:
            continue
        for b, y in all_functions[i + 1 :]:
            if len(y) < 80 or abs(len(x) - len(y)) > 0.2 * max(len(x), len(y)):
                continue
            match = difflib.SequenceMatcher(None, x, y, autojunk=False)
            if x == y or match.quick_ratio() > 0.97 and match.ratio() > 0.97:
                if (a, b) not in seen:
                    seen.add((a, b))
                    add(2, "pairs of functions that differ in names, types and numbers alone", f"{a} ~ {b}")
    return found


def main():
    arguments = [a for a in sys.argv[1:] if a != "--list"]
    found = places(list(sources(arguments[0] if arguments else None)))
    for (point, what), where in sorted(found.items()):
        print(f"{point}  {len(where):4}  {what}")
        if "--list" in sys.argv:
            for w in where:
                print("           ", w)


main()
