#!/usr/bin/env python3
"""Gives the names of goals and steps in proofs/ the form of rattle-kit-13f: a name of the source keeps its underscores.

usage: python3 tools/respell_steps.py [CRATE..]
"""
import glob
import re
import sys

IDENT = re.compile(r"\b(?:[a-z][a-z0-9]*(?:_[a-z0-9]+)+|[A-Z][A-Z0-9]*(?:_[A-Z0-9]+)+)\b")
TOKEN = re.compile(r"(?<![A-Za-z0-9_'\-])[A-Za-z][A-Za-z0-9_'\-]*-[A-Za-z0-9_'\-]+(?:·\d+)*")


def read(path):
    with open(path, encoding="utf-8") as f:
        return f.read()


def identifiers():
    found = {"copy_from_slice", "in_ok", "in_err", "in_default", "slice_known", "from_residual", "overflow_add", "overflow_sub", "overflow_mul", "overflow_shl", "overflow_shr", "overflow_cast", "overflow_step", "nonzero_div", "nonzero_rem", "slice_bounds", "offset_bounds", "invariant_of", "type_inv"}
    for path in glob.glob("crates/*/src/*.rt"):
        for line in read(path).splitlines():
            if not line.lstrip().startswith(("//", "ghost", "requires", "ensures")):
                found |= set(IDENT.findall(line))
    return {tuple(i.split("_")) for i in found}


def joined(token, idents, longest):
    token = re.sub(r"·(\d+)", r"-\1", token)
    parts = token.split("-")
    out, i = [], 0
    while i < len(parts):
        for n in range(min(longest, len(parts) - i), 1, -1):
            if tuple(parts[i:i + n]) in idents:
                out.append("_".join(parts[i:i + n]))
                i += n
                break
        else:
            out.append(parts[i])
            i += 1
    return "-".join(out)


def main(names):
    idents = identifiers()
    longest = max(map(len, idents))
    count = 0
    for path in sorted(glob.glob("crates/*/proofs/**/*.antt", recursive=True)):
        if names and path.split("/")[1] not in names:
            continue
        text = read(path)
        kept = set()
        for line in text.splitlines():
            if line.startswith("use ") and ".Goals" not in line and ".Given" not in line:
                kept |= set(TOKEN.findall(line))
        after = TOKEN.sub(lambda m: m.group(0) if m.group(0) in kept else joined(m.group(0), idents, longest), text)
        if after != text:
            count += 1
            with open(path, "w", encoding="utf-8") as f:
                f.write(after)
    print(f"{count} files")


if __name__ == "__main__":
    main(sys.argv[1:])
