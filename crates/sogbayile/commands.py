#!/usr/bin/env python3
"""Makes the commands of the static library from the table of commands: src/commands.rt and the proofs of its functions.

The table (crates/rules/specs/Command.antt) has the name of each command, its head, its outcome and what the outcome depends on. The call of a command
is the one public function whose contract is that outcome. What a command does is said by the first sentence of its comment in include/sogbayile.h.
The files are proved like any others, so nothing is taken on trust from this program.

  python3 crates/sogbayile/commands.py           writes the files, laid out as rt fmt does
  python3 crates/sogbayile/commands.py check     fails where a file differs from what would be written in more than its layout and a proof's imports,
                                                 or where the header lacks a command, what it takes or its number
"""
import glob
import os
import re
import sys

HERE = os.path.dirname(os.path.abspath(__file__))
TOP = os.path.join(HERE, "..", "..")
# what a command may take: in the table, where the names differ; in the order of run_command; in the order of the calls
NAMES = {"z": "offset", "room": "out"}
ALL = ["offset", "list", "row", "work", "out"]
ORDER = ["list", "row", "offset", "work", "out"]
IN_C = {"list": r"const uint32_t \*(?P<list>\w+), size_t (?P=list)_len", "row": r"const uint32_t \*row, size_t row_len", "offset": "int32_t offset",
        "work": r"uint32_t \*work, size_t work_len", "out": r"uint32_t \*out, size_t out_len"}
TYPES = {"command": "Command", "list": "&[u32]", "row": "&[u32]", "offset": "i32", "work": "&mut [u32]", "out": "&mut [u32]"}
WIDTH = 100         # of a line, for rt fmt


def text_of(path):
    with open(os.path.join(TOP, path), encoding="utf-8") as f:
        return f.read()


def call_of(outcome):
    """The path of the public function that answers the outcome."""
    found = []
    for path in glob.glob(os.path.join(TOP, "crates/*/src/*.rt")):
        crate, module = os.path.relpath(path, os.path.join(TOP, "crates")).split(os.sep)[::2]
        with open(path, encoding="utf-8") as f:
            for name, contract in re.findall(r"^pub fn (\w+)\(.*?\) -> Answer\n(.*?)^\{", f.read(), re.M | re.S):
                if "result ≡ told (%s " % outcome in contract:
                    found.append("%s::%s::%s" % (crate, module[:-3], name))
    if len(found) != 1:
        sys.exit("%s is the contract of %d public functions: %s" % (outcome, len(found), ", ".join(found)))
    return found[0]


class Command:
    def __init__(self, name, number, table, header):
        self.name, self.number = name, number
        head = re.search(r"^entry_of %s = \(([\d ∷]*) ∷ \[\]," % name, table, re.M).group(1)
        self.head = bytes(map(int, head.split(" ∷ "))).decode().strip("[ ")
        self.outcome, *takes = re.search(r"^outcome_of %s z list row work room = (.*)$" % name, table, re.M).group(1).split()
        self.module = re.search(r"^use Rattle\.rules\.specs\.(\w+)\.\{%s\}" % self.outcome, table, re.M).group(1)
        self.takes = [NAMES.get(t, t) for t in takes]
        self.call = call_of(self.outcome)
        self.short = self.call.split("::")[-1]
        self.params = [p for p in ORDER if p in self.takes]
        declared = r"uint64_t sgb_%s\(%s\);" % (self.head, ", ".join(IN_C[p] for p in self.params))
        comment = re.search(r"/\* ((?:(?!\*/).)*?)\. \*/ (?:%s)" % declared, header)
        if not comment or not re.search(r"\bSGB_%s = %d\b" % (self.head.upper(), number), header):
            sys.exit("include/sogbayile.h lacks sgb_%s with what it takes and a comment, or its number, %d" % (self.head, number))
        self.list = comment.groupdict().get("list")
        self.says = comment.group(1).split(". ")[0] + "."

    def outcome_of(self):
        return "%s %s" % (self.outcome, " ".join(given(t, self.list) for t in self.takes))

    def named(self):
        """The parameters; the list has its name in the header."""
        return [self.list if p == "list" else p for p in self.params]


def given(name, listed="list"):
    """A parameter as the contracts cite it."""
    return {"list": "%s.now" % listed, "row": "row.now", "work": "(length work.old)", "out": "(length out.old)"}.get(name, name)


def contract(outcome):
    return "    ensures value { result ≡ code_of (told (%s)) }\n    ensures out_after { out.new ≡ written (%s) out.old }\n" % (outcome, outcome)


def signature(start, params):
    """On one line, or as rt fmt lays out a longer one."""
    listed = ["%s: %s" % (p, TYPES.get(p, TYPES["list"])) for p in params]
    whole = start + ", ".join(listed) + ") -> u64"
    return [whole] if len(whole) <= WIDTH else [start] + ["    %s," % p for p in listed] + [") -> u64"]


def source(commands):
    any_command = " ".join(map(given, ALL))
    lines = ["// The commands, exported. Made by crates/sogbayile/commands.py."]
    lines += ["ghost use Rattle.std.specs.Prelude.{◌≡◌, length};", "ghost use Rattle.form.specs.Answer.{told, written};"]
    lines += ["ghost use Rattle.rules.specs.Command.{outcome_of};"]
    lines += ["ghost use Rattle.rules.specs.%s.{%s};" % (c.module, c.outcome) for c in commands]
    lines += ["ghost use Rattle.sogbayile.specs.Code.{code_of};", "", "use crate::code::code_of;"]
    uses = [c.call for c in commands] + ["rules::command::Command"]
    lines += ["use %s;" % path for path in sorted(uses)] + [""]
    for c in commands:
        lines += ["// " + c.says, "#[unsafe(no_mangle)]"]
        lines += signature('pub extern "C" fn sgb_%s(' % c.head, c.named())
        lines += [contract(c.outcome_of()) + "{", "    code_of(%s(%s))" % (c.short, ", ".join(c.named())), "}", ""]
    lines += ["// Any command. One that takes no offset, no list or no work row does not look at it."]
    lines += signature("pub(crate) fn run_command(", ["command"] + ALL) + [contract("outcome_of command " + any_command) + "{", "    match command {"]
    lines += ["        Command::%s => sgb_%s(%s)," % (c.name, c.head, ", ".join(c.params)) for c in commands]
    lines += ["    }", "}", ""]
    return "\n".join(lines)


MADE = "-- Made by crates/sogbayile/commands.py."
BACK = "rw (back c.args.offset c.ranges.offset) at "


def opening(function, uses):
    return [MADE] + uses + ["use Rattle.sogbayile.proofs.commands.%s.Goals as goal" % function, ""]


def ensured(call, takes):
    """What the call promises of its answer and of its output. An offset is promised as the whole number that its 32 bits stand for."""
    back = BACK if "offset" in takes else ""
    return "%sc.%s.ensures.value" % (back, call), "%sc.%s.ensures.out_after" % (back, call)


def exported_answers(c):
    """What the call answered, and its code."""
    uses = ["use mathlib.Core.Path.{ap, ◌∙◌}", "use Rattle.sogbayile.specs.Code.{code_of}"]
    uses += ["use Rattle.shift.proofs.SignedLaws.{back}"] * ("offset" in c.takes)
    value, out = ensured(c.short, c.takes)
    value = "(%s)" % value if " " in value else value
    lines = ["pub returns : goal.returns", "returns c = record { value = c.code_of.ensures ∙ ap code_of %s; out_after = %s }" % (value, out), ""]
    return "\n".join(opening("sgb_" + c.head, uses) + lines)


def run_answers(commands):
    """For each command, that its own outcome is the outcome of the command that was matched."""
    uses = ["use lib.ListN.{length}", "use Rattle.shift.proofs.SignedLaws.{back}"]
    uses += ["use Rattle.rules.specs.declared.command.Command.TheVariants.{%s}" % ", ".join(c.name for c in commands)]
    uses += ["use Rattle.sogbayile.proofs.RunLaws.{run-coded}", "use Rattle.tree.proofs.Pairs.{both}"]
    lines = opening("run_command", uses)
    given_rows = "c.args.list.now c.args.row.now (length c.args.work.now) (length c.args.out.now)"
    for c in commands:
        goal = "returns-in-%s" % c.name
        coded = "run-coded _ %s c.in-%s.is _ %s _ _ _ (%s, %s)" % (c.name, c.name, given_rows, *ensured("sgb_" + c.head, c.takes))
        lines += ["pub %s : goal.%s" % (goal, goal), "%s c = both (λ v w. record { value = v; out_after = w }) (%s)" % (goal, coded), ""]
    return "\n".join(lines)


def files():
    table = text_of("crates/rules/specs/Command.antt")
    header = re.sub(r"\s+(\* )?", " ", text_of("include/sogbayile.h"))        # on one line, without the stars of its comments
    names = re.search(r"^commands = (.*) ∷ \[\]$", table, re.M).group(1).split(" ∷ ")
    commands = [Command(name, i + 1, table, header) for i, name in enumerate(names)]
    made = {"src/commands.rt": source(commands), "proofs/commands/run_command/Answers.antt": run_answers(commands)}
    for c in commands:
        made["proofs/commands/sgb_%s/Answers.antt" % c.head] = exported_answers(c)
    return made


def bare(text):
    """Without the imports of proofs, and without the layout: spaces, and the comma before a bracket that stands on a line of its own."""
    return re.sub(r",([)\]}])", r"\1", re.sub(r"\s+", "", re.sub(r"^use [^;\n]*$", "", text, flags=re.M)))


def main():
    wrong = []
    for path, text in files().items():
        path = os.path.join(HERE, path)
        if sys.argv[1:] == ["check"]:
            with open(path, encoding="utf-8") as f:
                if bare(f.read()) != bare(text):
                    wrong.append(os.path.relpath(path, TOP))
            continue
        os.makedirs(os.path.dirname(path), exist_ok=True)
        with open(path, "w", encoding="utf-8") as f:
            f.write(text)
    if wrong:
        sys.exit("not what crates/sogbayile/commands.py writes: %s" % ", ".join(wrong))


if __name__ == "__main__":
    main()
