#!/usr/bin/env python3
"""Brings the repository's own names to the library's spelling, after port.py: run once, at the top of the repository.

Definitions, lemmas, fields and the variables of clauses are in snake case. In a name a dash stays where it joins two names, as in `length-append`;
a plain word is joined by `_`. Types, facts and modules keep their capitals. Names of the library, of src/ and of what the checker makes stay.
Structs and enums of src/ are small and plain, so each is copied: #[derive(Clone, Copy)] stands where the turning wrote #[derive(Drop)].
Before it: as port.py left the files. Afterwards `rt fmt` lays them out. The table of names that were turned is written to docs/names.tsv.
"""

import os
import re
import subprocess
import sys

TOKEN = r"[^\s(){}.;,@\"«»\[\]`:⌜⌝]+"
DECLARED = re.compile(rf"^\s*(?:abbrev |unfoldable |pub |mod _ )*((?:{TOKEN} )*{TOKEN}) : ")
USE = re.compile(r"^\s*(?:ghost )?use ([^\s{]+)\.\{([^}]*)\}")
CAMEL = re.compile(r"^[a-z][A-Za-z0-9']*[A-Z]")
# lemmas that would fall together with a definition
APART = {"by_hand": "by_hand_lem"}
# names that lemmas of lists and numbers are named by, beside those that are defined here
WORDS = set("append map filter length take drop set get_or sum zero add sub mul min max suc cons nil leb ltb eqb not replicate slice".split())


def files(ends):
    for folder, dirs, names in os.walk("crates"):
        dirs[:] = sorted(d for d in dirs if d != "out")
        for name in sorted(names):
            if name.endswith(ends):
                yield os.path.join(folder, name)


def read(path):
    with open(path, encoding="utf-8") as f:
        return f.read()


def snake(part):
    """A part of a name, where a capital begins a word of a camel-case name: listsLaid to lists_laid. A capital word keeps its capital."""
    if not CAMEL.match(part):
        return part
    return re.sub(r"(?<=[a-z0-9])([A-Z])", lambda m: "_" + m.group(1).lower(), part)


def main():
    declared, library, defined = {}, set(), set()
    for path in files(".antt"):
        for line in read(path).split("\n"):
            m = USE.match(line)
            if m and not re.match(r"Rattle\.(?!std\b|core\b)", m.group(1)):
                library |= {w.strip().split(" as ")[0] for w in m.group(2).split(",")}
            if os.path.basename(path) == "Proof.antt":
                continue
            m = DECLARED.match(line)
            if m and not line.lstrip().startswith(("--", "use ", "module ")):
                for name in m.group(1).split():
                    if re.match(r"^[a-zA-Z]", name):
                        declared.setdefault(name, path)
                        if "/specs/" in path and not line.startswith(" "):
                            defined.add(name)
    simple = WORDS | {snake(n) for n in defined if "-" not in n}

    def turned(name):
        parts = ["get_or" if p == "getD" else snake(p) for p in name.split("-")]
        out = last = parts[0]
        for p in parts[1:]:
            joins = (out in simple or last in simple) and p in simple
            out += ("-" if joins else "_") + p
            last = p
        return out

    table = {}
    for name in sorted(declared):
        if name in library or not ("-" in name or CAMEL.match(name)):
            continue
        new = turned(name)
        if new != name:
            table[name] = new
    # the other camel-case words of clauses and proofs: variables
    for path in files((".antt", ".rt")):
        for word in re.findall(rf"(?<![^\s(){{}}.;,@\"«»\[\]`:⌜⌝]){TOKEN}", read(path)):
            if CAMEL.match(word) and "-" not in word and word not in library and word not in table and re.match(r"^[A-Za-z0-9']+$", word):
                table[word] = snake(word)
    # a lemma that would have a definition's name, or another lemma's, gets _lem, as the library's do
    for old, new in sorted(table.items()):
        if "-" in old and (new in library or new in declared or any(o != old and n == new for o, n in table.items())):
            table[old] = new + "_lem"
            print(f"{old} is {new}_lem: {new} is another's")
    table |= APART
    groups = {}
    for old, new in table.items():
        groups.setdefault(new, set()).add(old)
    for new in list(groups):
        if new in declared and new not in table:
            groups[new].add(new)
        if new in library:
            print(f"look: {new} is the library's too")
        if len(groups[new]) > 1:
            for path in files((".antt", ".rt")):
                if os.path.basename(path) != "Proof.antt":
                    words = set(re.findall(TOKEN, read(path)))
                    if len(groups[new] & words) > 1:
                        print(f"look: {path} has {sorted(groups[new] & words)}, which fall together as {new}")

    word = {".antt": re.compile(rf"(?<![^\s(){{}}.;,@\"«»\[\]`:⌜⌝])({TOKEN})")}
    word[".rt"] = re.compile(word[".antt"].pattern.replace("⌜⌝", "⌜⌝&"))
    made = re.compile(r"(?:^|[^\w.])(?:tie|goal)\.$")

    def turn(text, kind):
        out, at = [], 0
        for m in word[kind].finditer(text):
            w = m.group(1)
            if w in table and not made.search(text[max(0, m.start() - 8) : m.start()]):
                out += [text[at : m.start()], table[w]]
                at = m.end()
        return "".join(out) + text[at:]

    changed = 0
    for path in list(files((".antt", ".rt"))):
        old = read(path)
        new = old.replace("#[derive(Drop)]", "#[derive(Clone, Copy)]") if path.endswith(".rt") else old
        new = turn(new, os.path.splitext(path)[1])
        if new != old:
            with open(path, "w", encoding="utf-8") as f:
                f.write(new)
            changed += 1
    os.makedirs("docs", exist_ok=True)
    with open("docs/names.tsv", "w", encoding="utf-8") as f:
        f.writelines(f"{old}\t{new}\n" for old, new in sorted(table.items()))
    print(f"{len(table)} names turned in {changed} files")
    for crate in sorted(os.listdir("crates")):
        if os.path.isdir(os.path.join("crates", crate, "src")):
            subprocess.run(["rt", "fmt"], cwd=os.path.join("crates", crate), stdout=subprocess.DEVNULL, stderr=subprocess.DEVNULL)


if __name__ == "__main__":
    sys.exit(main())
