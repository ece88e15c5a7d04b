#!/usr/bin/env python3
"""Gives the definitions that README.md and docs/ name in code spans the spelling that they have in specs/ and proofs/."""
import glob
import re

DEFINED = re.compile(r"^\s*(?:(?:abbrev|unfoldable|pub|data|record|mutual)\s+)*([A-Za-z][^\s(){}:;.,]*)\s*(?:[({].*)?:(?!=)\s")
TOKEN = re.compile(r"(?<![A-Za-z0-9_'\-])[A-Za-z][A-Za-z0-9_'\-]*-[A-Za-z0-9_'\-]+")
SPECIAL = {"Next-label": "IsNextLabel", "sheet-text": "passes_as_text"}


def names():
    found = set()
    for path in glob.glob("crates/*/specs/**/*.antt", recursive=True) + glob.glob("crates/*/proofs/*.antt"):
        with open(path, encoding="utf-8") as f:
            for line in f:
                m = DEFINED.match(line)
                if m:
                    found.add(m.group(1))
    return found


def respelled(word, known):
    new = SPECIAL.get(word)
    if not new:
        new = "".join(p[0].upper() + p[1:] for p in word.split("-") if p) if word[0].isupper() else word.replace("-", "_")
    return new if new in known else word


def main():
    known = names()
    for path in ["README.md", *sorted(glob.glob("docs/*.md"))]:
        with open(path, encoding="utf-8") as f:
            text = f.read()
        after = re.sub(r"`[^`\n]+`", lambda span: TOKEN.sub(lambda m: respelled(m.group(0), known), span.group(0)), text)
        if after != text:
            with open(path, "w", encoding="utf-8") as f:
                f.write(after)
            print(path)


if __name__ == "__main__":
    main()
