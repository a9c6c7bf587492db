#!/usr/bin/env python3
"""Brings the repository's own names in specs/ and proofs/ to the library's spelling: words in snake case, types and facts
in upper camel case, an apostrophe for a prime.

usage: python3 tools/respell_names.py      at the top of the repository, once, after port.py

It renames what the repository itself declares in its .antt files, wherever that name stands in an .antt file, in a clause
or ghost item of an .rt file, or between backticks in a page. Code, strings and comments of .rt files keep their words. It
stops, and writes nothing, where two declared names would fall together. Where a declared name comes to be that of a function
or a field of the code, it says so: a clause cannot call the code, so both may stand, as the library's own words do.
"""
import collections
import os
import re

WORD = r"[^\s(){}\[\]:;,.λ→`\"«»|]+"
DECLARED = re.compile(r"^\s*(?:(?:abbrev|unfoldable|pub|private)\s+)*(data |record )?(" + WORD + r")((?:\s+" + WORD + r")*)\s*((?:\{[^}]*\}\s*|\([^)]*\)\s*)*):\s(.*)$")
TOKEN = re.compile(r"(?<![\w'′-])[^\W\d][\w'′]*(?:-[\w'′*+≡≤<∷∪∩≢]+)*-?[\w'′]*")
KEPT = {"Answers.antt", "Invariants.antt", "Choices.antt", "Proof.antt"}
# words of the library that some declared names share
LIBRARY = {"the-variants"}


def files(top):
    for folder, dirs, names in os.walk(os.path.join(top, "crates")):
        dirs[:] = sorted(d for d in dirs if d != "out")
        for name in sorted(names):
            yield os.path.join(folder, name)


def respelled(name, is_type):
    name = name.replace("′", "'")
    if is_type:
        return "".join(w[:1].upper() + w[1:] for w in re.split("[-_]", name))
    words = []
    for w in name.split("-"):
        w = re.sub(r"(?<=[a-z0-9])([A-Z])", lambda m: "_" + m.group(1).lower(), w)
        words.append(w)
    return "_".join(words)


def declarations(top):
    """Each declared name that is to change, with whether it names a type or a fact."""
    found, declared = {}, set()
    for path in files(top):
        if not path.endswith(".antt") or not re.search(r"/(specs|proofs)/", path):
            continue
        answers = os.path.basename(path) in KEPT
        for line in open(path, encoding="utf-8"):
            if line.lstrip().startswith(("--", "use ", "pub use ")):
                continue
            m = DECLARED.match(line)
            if not m:
                continue
            if answers and re.match(r"(goal|given)\.", m.group(5)):
                continue
            names = [m.group(2)] + m.group(3).split()
            goal = m.group(5).split("→")[-1].strip()
            is_type = bool(m.group(1)) or (goal.startswith("Type") and m.group(2)[:1].isupper())
            for name in names:
                if name in LIBRARY:
                    continue
                declared.add(name)
                if "-" in name or "′" in name or (is_type and "_" in name) or (not is_type and re.search(r"[a-z0-9][A-Z]", name)):
                    if re.fullmatch(r"[^\W\d][\w'′]*(-[\w'′]+)*", name):
                        found[name] = found.get(name, False) or is_type
    return {name: respelled(name, is_type) for name, is_type in found.items() if respelled(name, is_type) != name}, declared


def renamed(text, names):
    return TOKEN.sub(lambda m: names.get(m.group(0), m.group(0)), text)


def clauses(text, names):
    """An .rt file with the names changed outside strings, character literals and comments."""
    out, i = [], 0
    for m in re.finditer(r'//[^\n]*|b?"(?:\\.|[^"\\])*"|b?\'(?:\\.|[^\'\\])\'', text):
        out.append(renamed(text[i:m.start()], names))
        piece = m.group(0)
        out.append(re.sub(r"`[^`]*`", lambda t: renamed(t.group(0), names), piece) if piece.startswith("//") else piece)
        i = m.end()
    out.append(renamed(text[i:], names))
    return "".join(out)


def collisions(text, names):
    words = set(TOKEN.findall(text))
    by_new = collections.defaultdict(set)
    for w in words:
        by_new[names.get(w, w)].add(w)
    return {new: old for new, old in by_new.items() if len(old) > 1}


def main():
    top = os.getcwd()
    names, declared = declarations(top)
    writes, bad = {}, 0
    by_new = collections.defaultdict(set)
    for name in declared:
        by_new[names.get(name, name)].add(name)
    for new, old in sorted(by_new.items()):
        if len(old) > 1:
            print(f"left: {', '.join(sorted(old))} would all be {new}")
            bad += 1
    for path in files(top):
        if not path.endswith((".antt", ".rt", ".edit")):
            continue
        text = open(path, encoding="utf-8").read()
        for new, old in collisions(text, names).items():
            print(f"look: {os.path.relpath(path, top)}: {', '.join(sorted(old))} are all {new} now")
        new = clauses(text, names) if path.endswith((".rt", ".edit")) else renamed(text, names)
        if new != text:
            writes[path] = new
    for page in ["README.md"] + [os.path.join("docs", f) for f in sorted(os.listdir("docs"))]:
        if page.endswith(".md") and "PORT" not in page:
            text = open(page, encoding="utf-8").read()
            new = re.sub(r"`[^`\n]*`", lambda t: renamed(t.group(0), names), text)
            if new != text:
                writes[os.path.join(top, page)] = new
    if bad:
        print(f"{bad} names fall together: nothing was written")
        return 1
    for path, text in writes.items():
        with open(path, "w", encoding="utf-8") as f:
            f.write(text)
    print(f"{len(names)} names, {len(writes)} files")
    return 0


if __name__ == "__main__":
    raise SystemExit(main())
