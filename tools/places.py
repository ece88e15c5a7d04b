#!/usr/bin/env python3
"""Counts, in src/ of every crate, the places where an older form of the language may stand; `places.py POINT` lists them.

Usage: python3 tools/places.py [1..8] [FOLDER]
A row is a place to look at: what it comes to is said in docs/DESIGN-PASS.md.
"""
import glob
import os
import re
import sys

KEYWORDS = set("as break const continue else enum false fn for if impl in let loop match mut pub ref return self Self struct super "
               "trait true type use where while crate".split())


def sources(root):
    for path in sorted(glob.glob(os.path.join(root, "crates/*/src/**/*.rt"), recursive=True)):
        with open(path, encoding="utf-8") as f:
            yield os.path.relpath(path, root), f.read()


def line_of(text, place):
    return text.count("\n", 0, place) + 1


def braced(text, start):
    """The end of the braces that open at or after `start`."""
    depth = 0
    for i in range(text.index("{", start), len(text)):
        if text[i] == "{":
            depth += 1
        elif text[i] == "}":
            depth -= 1
            if depth == 0:
                return i + 1
    return len(text)


class Function:
    def __init__(self, path, text, m):
        self.path, self.line, self.name = path, line_of(text, m.start()), m.group("name")
        at, depth = m.end(), 1
        while depth:
            depth += {"(": 1, ")": -1}.get(text[at], 0)
            at += 1
        self.parameters = text[m.end():at - 1]
        clauses, body = [], at
        clause = re.compile(r"\s*(?:->\s*(?P<result>[^{;]*?)\s*(?=\n|\{|;)|where[^{]*?(?=\n)|(?:requires|ensures)\*?\s*\w*\s*\{)")
        self.result = ""
        while True:
            c = clause.match(text, body)
            if not c:
                break
            if c.group("result") is not None:
                self.result, body = c.group("result").strip(), c.end()
            elif c.group(0).rstrip().endswith("{"):
                end = braced(text, c.end() - 1)
                clauses.append(text[c.end():end - 1].strip())
                body = end
            else:
                body = c.end()
        self.clauses = clauses
        rest = text[body:].lstrip()
        self.body = ""
        if rest.startswith("{"):
            start = body + len(text[body:]) - len(rest)
            self.body = text[start:braced(text, start)]

    def row(self, note=""):
        return f"{self.path}:{self.line} {self.name} {note}".rstrip()


FN = re.compile(r"^[ \t]*(?:pub(?:\(crate\))?\s+)?(?:extern \"C\"\s+)?fn (?P<name>\w+)(?:<[^()]*?>)?\(", re.M)


def functions(root):
    for path, text in sources(root):
        bare = re.sub(r"//[^\n]*", lambda m: " " * len(m.group(0)), text)
        for m in FN.finditer(bare):
            yield Function(path, bare, m)


def lines(root, pattern):
    found = re.compile(pattern)
    for path, text in sources(root):
        for n, line in enumerate(text.split("\n"), 1):
            if found.search(line.split("//")[0]):
                yield f"{path}:{n} {line.strip()[:110]}"


def texts(root, pattern):
    for path, text in sources(root):
        for m in re.finditer(pattern, text, re.M):
            yield f"{path}:{line_of(text, m.start())} {' '.join(m.group(0).split())[:110]}"


def enums(root, most):
    for path, text in sources(root):
        for m in re.finditer(r"^\s*(?:pub(?:\(crate\))? )?enum (\w+)", text, re.M):
            inside = text[text.index("{", m.end()) + 1:braced(text, m.end()) - 1]
            inside = re.sub(r"//[^\n]*", "", inside)
            inside = re.sub(r"\{[^{}]*\}|\([^()]*\)", lambda g: " +", inside)
            variants = [v.strip() for v in inside.split(",") if v.strip()]
            if len(variants) <= most:
                yield f"{path}:{line_of(text, m.end())} {m.group(1)}: {', '.join(variants)}"


def point1(root):
    yield "own enums of at most four cases", list(enums(root, 4))
    yield "a flag in a struct", list(texts(root, r"^    (?:pub(?:\(crate\))? )?\w+: bool,$"))
    yield "a None or an Err handed on by hand", list(texts(
        root, r"let (?:Some|Ok)\([^)]*\) =[^;{]*?else \{\s*return (?:None|Err\([^;]*?\));?\s*\}|(?:None|Err\(_\)) => (?:None|Err\([^)\n]*\)(?:\))?),"))
    yield "a function whose number says nothing", [f.row() for f in functions(root) if re.fullmatch(r"\{\s*(?:0|true)\s*\}", f.body) and not any("result" in c for c in f.clauses)]


def shape(text):
    words = re.findall(r"\"[^\"]*\"|'[^']*'|\w+|[^\w\s]", text)
    return tuple(w if w in KEYWORDS or not re.match(r"[\w\"']", w) else "x" for w in words)


def point2(root):
    groups = {}
    for f in functions(root):
        key = shape(f.body)
        if len(key) >= 16:
            groups.setdefault(key, []).append(f)
    yield "functions whose bodies differ only in names, types and numbers", [
        " ~ ".join(f"{f.path}:{f.line} {f.name}" for f in g) for g in groups.values() if len(g) > 1]
    structs = {}
    for path, text in sources(root):
        for m in re.finditer(r"struct (\w+)(?:<[^{;]*>)? \{", text):
            inside = re.sub(r"//[^\n]*", "", text[m.end():braced(text, m.start()) - 1])
            fields = tuple(sorted(re.findall(r"(\w+): [^,\n]*", re.sub(r"ghost[^\n]*", "", inside))))
            kind = "rest" if "rest" in fields else fields
            structs.setdefault(kind, []).append(f"{path}:{line_of(text, m.start())} {m.group(1)}")
    yield "structs with the same fields, or of a value and a rest", [" ~ ".join(g) for g in structs.values() if len(g) > 1]
    names = {}
    for f in functions(root):
        if f.name != "main":
            names.setdefault(f.name, []).append(f)
    yield "functions of one name in two files", [" ~ ".join(f"{f.path}:{f.line} {f.name}" for f in g)
                                               for g in names.values() if len({f.path for f in g}) > 1 and not any("ghost" in f.body for f in g)]


def point3(root):
    yield "a for over a range", list(lines(root, r"\bfor \w+ in .*\.\."))
    yield "while and loop", list(lines(root, r"^\s*(?:'\w+: )?(?:while|loop)\b"))
    yield "a count by hand", list(lines(root, r"\b\w+ [+-]= 1;"))
    yield "a for that answers from its body", [f.row() for f in functions(root) if re.search(r"\bfor [^{]*\{[^{}]*(?:if [^{]*\{\s*return|\{[^}]*return)", f.body)]


def point4(root):
    yield "a trait of std by hand", list(lines(root, r"impl.* (?:PartialEq|Eq|PartialOrd|Ord|Clone|Copy|Debug|Display|From<.*>|TryFrom<.*>|Default) for"))
    yield "a conversion by hand", [f.row(f"-> {f.result}") for f in functions(root)
                                   if re.search(r"(?:_of|^number|^place|^of|^new|^key|^as_one|^constant|_node)$", f.name) and f.result]
    yield "printing by hand", [f.row() for f in functions(root) if re.search(r"^(?:put|append|write|numbered|print|decimal)|_line$", f.name) and "out" in f.parameters]
    yield "fields copied one by one", list(texts(root, r"^\s*(\w+): \w+\.\1,$"))


def point5(root):
    facts = {}
    taking = []
    for f in functions(root):
        seen = set()
        for clause in f.clauses:
            for part in re.split(r" × ", clause):
                part = " ".join(part.replace("(", " ").replace(")", " ").split())
                part = re.sub(r"\.(?:old|now|new)\b", "", part)
                if "result" not in part and 8 < len(part) < 120:
                    seen.add(part)
        for part in seen:
            facts.setdefault(part, []).append(f)
        names = frozenset(p for p in re.findall(r"(\w+): (?:&|\w)", f.parameters) if p != "self")
        if len(names) >= 3:
            taking.append((names, f))
    groups = {}
    for names, f in taking:
        for others, g in taking:
            if f is not g and len(names & others) >= 3:
                groups[names & others] = [h for all_of, h in taking if names & others <= all_of]
    kept = {}
    for names, fs in groups.items():
        key = tuple(h.row() for h in fs)
        if len(fs) >= 3 and len(names) > len(kept.get(key, ())):
            kept[key] = names
    groups = {tuple(sorted(names)): [h for all_of, h in taking if names <= all_of] for names in kept.values()}
    yield "a fact in the contracts of three functions or more", [f"{len(g)}x {part}: {', '.join(sorted({f.path.split('/')[1] + '::' + f.name for f in g}))}"
                                                                for part, g in sorted(facts.items(), key=lambda kv: -len(kv[1])) if len(g) >= 3]
    yield "three parameters that travel together in three functions or more", [
        f"{len(g)}x {', '.join(names)}: {', '.join(sorted({f.path.split('/')[1] + '::' + f.name for f in g}))}"
        for names, g in sorted(groups.items(), key=lambda kv: -len(kv[1])) if len(g) >= 3]


def point6(root):
    rows = []
    for path, text in sources(root):
        for m in re.finditer(r"struct (\w+)(?:<[^{;]*>)? \{", text):
            inside = text[m.end():braced(text, m.start()) - 1]
            arrays = re.findall(r"(\w+): (?:&'\w+ (?:mut )?)?\[", inside)
            counts = re.findall(r"(\w+): (?:u8|u16|usize),", inside)
            if arrays and (counts or len(arrays) > 1):
                rows.append(f"{path}:{line_of(text, m.start())} {m.group(1)}: {', '.join(arrays)} / {', '.join(counts)}")
    yield "a struct with an array and a count, or with parallel arrays", rows
    yield "a function that takes a buffer and how much of it is filled", [f.row() for f in functions(root) if re.search(r"\b(?:filled|count|end|at): usize", f.parameters) and re.search(r": &(?:'\w+ )?(?:mut )?\[", f.parameters)]
    yield "links as numbers of cells", list(lines(root, r"\w+: Option<u32>,"))


def point7(root):
    yield "a switch on a stage, a heading, a side or a call", list(lines(root, r"match (?:stage|heading|side|call|\(node, side\)|op\b|self\.stage)"))
    yield "tables of functions, function pointers", list(lines(root, r": fn\(|\[fn\("))


def point8(root):
    rows = {}
    for path in glob.glob(os.path.join(root, "crates/*/proofs/**/*.antt"), recursive=True):
        crate = os.path.relpath(path, root).split("/")[1]
        with open(path, encoding="utf-8") as f:
            n = sum(1 for line in f if line.strip() and not line.startswith("--"))
        files, count = rows.get(crate, (0, 0))
        rows[crate] = (files + 1, count + n)
    yield "lines of proof", [f"{c}: {files} files, {n} lines" for c, (files, n) in sorted(rows.items())] + [
        f"all: {sum(f for f, _ in rows.values())} files, {sum(n for _, n in rows.values())} lines"]


def main():
    points = {"1": point1, "2": point2, "3": point3, "4": point4, "5": point5, "6": point6, "7": point7, "8": point8}
    wanted = [a for a in sys.argv[1:] if a in points]
    root = next((a for a in sys.argv[1:] if a not in points), ".")
    for name in wanted or points:
        for title, rows in points[name](root):
            print(f"{name}. {title}: {len(rows)}")
            if wanted:
                for row in rows:
                    print("   " + row)


main()
