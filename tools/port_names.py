#!/usr/bin/env python3
"""Brings the names of this repository's own definitions and lemmas to the toolchain's spelling, once, after port.py.

usage: python3 tools/port_names.py [--list]      at the top of the repository

A function, a lemma, a field or a constructor of specs/ and proofs/ is in snake case. A dash stays where it joins the names of two functions
(`length-edit`) or follows a fact's name (`Lasts-next`). Names from src/, types and the names that the toolchain makes are left. The names are turned
in .antt files, in the clauses and comments of .rt files, in must-fail edits and, inside backticks, in the pages. Each crate's root file gets the
line #![tactic(auto)], and `rt fmt` lays the files out.
"""

import collections
import os
import re
import subprocess
import sys

NAME = r"[^\s(){}\[\],;:.\"=`|]+"
DECLARED = re.compile(r"^\s*(?:pub\s+|abbrev\s+|unfoldable\s+|ruleset\s+)*(" + NAME + r"(?:\s+" + NAME + r")*)\s+:(?:\s|$)")
FIELD = re.compile(r"(?:record\s*\{|;)\s*(" + NAME + r") :\s")
TOKEN = re.compile(r"[^\s(){}\[\],;.«»\"`|:]+")
MADE = re.compile(r"\b(tie|lts|own|goal)\.(Need|the|invariant|decreases)|statement M")
# port.py gave this lemma the name that its definition gets here
BEFORE = [("crates/dependency/proofs/validation/Passing.antt", "same_kind", "same-kind")]
# functions of the library that lemmas are named after
STD = set("length append take drop set sets get_or map reverse add sub mul div mod pow min max cond leb ltb eqb not bit_and bit_or replicate".split())


def files(*ends):
    listed = subprocess.run(["git", "ls-files", "--cached", "--others", "--exclude-standard"], capture_output=True, text=True, check=True).stdout.split("\n")
    return [f for f in listed if f.endswith(ends) and os.path.isfile(f)]


def declared_in(text):
    for line in text.split("\n"):
        bare = line.lstrip()
        if bare.startswith(("--", "use ", "let ", "pub use ", "elim ")):
            continue
        found = DECLARED.match(line)
        if found and not MADE.search(line):
            yield from found.group(1).split()
        yield from FIELD.findall(line)


def snake(word):
    if word == "getD":
        return "get_or"
    word = re.sub(r"([a-z0-9])([A-Z])", r"\1_\2", word)
    return word.lower()


def turned(name, functions):
    """The name in today's spelling."""
    tail = ""
    found = re.search(r"[₀-₉'′]+$", name)
    if found:
        name, tail = name[: found.start()], found.group(0)
    parts = name.split("-")
    if parts[0][:1].isupper() and not re.fullmatch(r"P\d+", parts[0]):
        return parts[0] + "".join("-" + snake(p) for p in parts[1:2]) + "".join("_" + snake(p) for p in parts[2:]) + tail
    parts = [snake(p) for p in parts]
    out = parts[0]
    for k, part in enumerate(parts[1:], 1):
        left = {"_".join(parts[i:k]) for i in range(k)}
        right = {"_".join(parts[k:j]) for j in range(k + 1, len(parts) + 1)}
        out += ("-" if left & functions and right & functions else "_") + part
    return out + tail


def table():
    names, functions = set(), set(STD)
    for f in files(".antt"):
        with open(f, encoding="utf-8") as it:
            text = it.read()
        found = set(declared_in(text)) | {"mayRaise", "mayClear"}
        names |= found
        if "/specs/" in f:
            for line in text.split("\n"):
                m = re.match(r"(?:abbrev pub|unfoldable pub|pub unfoldable|pub) (" + NAME + r") :", line)
                if m:
                    functions.add(snake(m.group(1)))
    for f in files(".rt"):
        with open(f, encoding="utf-8") as it:
            names |= set(re.findall(r" as ([a-z]\w*[A-Z]\w*)", it.read()))
    out = {}
    taken = {n for n in names if "-" not in n} | {snake(n) for n in names if "-" not in n and n[:1].islower()}
    for n in sorted(names):
        if not re.search(r"\w", n) or n[0] in "+◌" or not re.match(r"[A-Za-z]", n):
            continue
        if n[:1].isupper() and "-" not in n:
            continue
        new = turned(n, functions)
        if "-" in n and new in taken:
            # a lemma that would have its function's name
            new += "_lem"
        if new != n:
            out[n] = new
    return out, names


def main(argv):
    if "--list" not in argv:
        for f, old, new in BEFORE:
            with open(f, encoding="utf-8") as it:
                text = it.read()
            with open(f, "w", encoding="utf-8") as it:
                it.write(TOKEN.sub(lambda m: new if m.group(0) == old else m.group(0), text))
    out, names = table()
    if "--list" in argv:
        for n in sorted(out):
            print(n, out[n])
        return 0
    meet = collections.defaultdict(list)
    for n in names:
        meet[out.get(n, n)].append(n)
    for new, olds in sorted(meet.items()):
        if len(olds) > 1:
            print("look: fall together:", new, "<-", " ".join(sorted(olds)))

    def turn(text):
        return TOKEN.sub(lambda m: out.get(m.group(0), m.group(0)), text)

    def turn_page(text):
        # pages and edits still have the names that port.py turned in the sources
        def name(m):
            word = m.group(0)
            new = turned(word, set())
            return out.get(word) or (new if re.match(r"[a-z]", word) and new in names else word)

        return TOKEN.sub(name, text)

    for f in files(".antt", ".rt", ".edit", ".md"):
        with open(f, encoding="utf-8") as it:
            old = it.read()
        if f.endswith(".md"):
            new = re.sub(r"`[^`\n]+`", lambda m: turn_page(m.group(0)), old)
        elif f.endswith(".antt"):
            lines = []
            for line in old.split("\n"):
                code, mark, said = line.partition("--") if line.lstrip().startswith("--") else (line, "", "")
                lines.append(turn(code) + mark + re.sub(r"`[^`\n]+`", lambda m: turn(m.group(0)), said))
            new = "\n".join(lines)
        elif f.endswith(".edit"):
            new = "\n".join(turn_page(line) if line.startswith(("old:", "new:")) else line for line in old.split("\n"))
        else:
            new = turn(old)
        if new != old:
            with open(f, "w", encoding="utf-8") as it:
                it.write(new)
    for crate in sorted(os.listdir("crates")):
        root = next((r for r in (f"crates/{crate}/src/lib.rt", f"crates/{crate}/src/main.rt") if os.path.isfile(r)), None)
        if root is None:
            continue
        with open(root, encoding="utf-8") as it:
            text = it.read()
        if "#![tactic(auto)]" not in text:
            lines = text.split("\n")
            at = next((k for k, line in enumerate(lines) if line.strip() and not line.startswith("//")), len(lines))
            lines.insert(at, "#![tactic(auto)]")
            with open(root, "w", encoding="utf-8") as it:
                it.write("\n".join(lines).rstrip("\n") + "\n")
        subprocess.run(["rt", "fmt"], cwd=f"crates/{crate}", stdout=subprocess.DEVNULL, stderr=subprocess.DEVNULL)
    return 0


if __name__ == "__main__":
    raise SystemExit(main(sys.argv[1:]))
