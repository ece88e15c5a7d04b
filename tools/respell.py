#!/usr/bin/env python3
"""Brings the repository's own definitions and lemmas to the spelling of rattle-kit-13f.

usage: python3 tools/respell.py [--dry]     at the top of the repository, once, right after the kit's own script

Words go into snake case (`new-slot` becomes `new_slot`), types and statements into camel case (`Reads-written` becomes
`ReadsWritten`). A name is the repository's own if a file of specs/ or proofs/ defines it; the names of goals and of steps,
which the check makes from the code, stay. Two names that would fall together stop the script.
"""
import collections
import glob
import re
import sys

WORD = r"A-Za-z0-9_'×⊎\-"
TOKEN = re.compile(rf"(?<![{WORD}])[A-Za-z][{WORD}]*")
DEFINED = re.compile(r"^\s*(?:(?:abbrev|unfoldable|pub|data|record|mutual)\s+)*([A-Za-z][^\s(){}:;.,]*)\s*(?:[({].*)?:(?!=)\s")
# formulas and sets that have a name of capitals
SPECIAL = {
    "F-atom": "f_atom", "G-atom": "g_atom", "W-atom": "w_atom", "X-atom": "x_atom", "X-T": "x_t", "W-L": "w_l",
    "U-T-X-T": "u_t_x_t", "not-X-T": "not_x_t", "in-K": "in_k", "Next-label": "IsNextLabel", "bit-or": "or_at_bit", "sheet-text": "passes_as_text", "in-S": "in_s", "in-X": "in_x", "below-T": "below_t",
}
# lemmas that bear the name of a library's lemma keep its form
KEPT = {"get_or-map", "get_or-set_same"}


def files(ends):
    found = []
    for end in ends:
        found += glob.glob("crates/*/**/*" + end, recursive=True)
    return sorted(p for p in found if "/out/" not in p)


def read(path):
    with open(path, encoding="utf-8") as f:
        return f.read()


def own_names():
    names = set()
    for path in files([".antt"]):
        for line in read(path).splitlines():
            if "goal." in line or re.match(r"\s*(let|use|--|unfolding|elim|λ)\b", line):
                continue
            m = DEFINED.match(line)
            if m and m.group(1) not in KEPT and ("-" in m.group(1) or re.match("[A-Z].*_", m.group(1))):
                names.add(m.group(1))
            # several constructors of one type
            m = re.match(rf"\s+([A-Za-z][{WORD}]*(?: [A-Za-z][{WORD}]*)+) : ", line)
            if m:
                names |= {n for n in m.group(1).split() if "-" in n}
    return names


def respelled(name):
    if name in SPECIAL:
        return SPECIAL[name]
    if name[0].isupper():
        return "".join(part[0].upper() + part[1:] for part in re.split("[-_]", name))
    return name.replace("-", "_")


def turn(text, table):
    def new(m):
        word = m.group(0)
        if word not in table:
            return word
        line = text[text.rfind("\n", 0, m.start()) + 1:m.start()]
        # words of a comment, but for names in code spans
        if re.search(r"(^|\s)(--|//+)\s", line) and line.count("`") % 2 == 0:
            return word
        before = text[max(0, m.start() - 6):m.start()]
        # a step of a function's record, or a goal, is named by the check
        if re.search(r"(?<![A-Za-z0-9_'])[cw]\.$", before) or before.endswith("goal."):
            said.append(word)
            return word
        return table[word]

    return TOKEN.sub(new, text)


said = []


def main():
    dry = "--dry" in sys.argv
    names = own_names()
    table = {n: respelled(n) for n in names}
    back = collections.defaultdict(list)
    for old, new in table.items():
        back[new].append(old)
    clash = {new: olds for new, olds in back.items() if len(olds) > 1}
    words = collections.defaultdict(set)
    for path in files([".antt", ".rt"]):
        for m in TOKEN.finditer(read(path)):
            words[m.group(0)].add(path)
    for new in sorted(back):
        if new in words:
            print(f"taken: {back[new][0]} -> {new} in {len(words[new])} files, as {sorted(words[new])[0]}")
    if clash:
        for new, olds in clash.items():
            print(f"fall together: {olds} -> {new}")
        return 1
    changed = 0
    for path in files([".antt", ".rt", ".edit"]):
        text = read(path)
        after = turn(text, table)
        if after != text:
            changed += 1
            if not dry:
                with open(path, "w", encoding="utf-8") as f:
                    f.write(after)
    print(f"{len(table)} names, {changed} files; steps and goals that stay: {sorted(set(said))}")
    return 0


if __name__ == "__main__":
    sys.exit(main())
