#!/usr/bin/env python3
"""Brings the repository's own names of definitions, lemmas, fields and proofs to snake case.

Run once, at the top, after the kit's port.py: words are in snake case, types and modules in camel case. It goes over
specs/, proofs/, the clauses of src/ and the must-fail edits; functions of src/, strings, inputs and outputs keep their
names. A name that would fall together with another stands in APART.
"""
import glob
import re
import sys

# What would fall together with another name, or what the kit wants otherwise.
APART = {name: name.replace("-", "_") + "_lem" for name in (
    "enough-steps", "fine-alone", "hop-bound", "in-range", "is-origin", "no-sibling", "port-above", "sent-up",
    "under-port", "well-made")}
# A lemma that port.py spelled like the definition that it is about, in these files alone.
LEMMA = ("off_list", "off_list_lem", ("crates/config/proofs/ListLaws.antt", "crates/config/proofs/list/off_list/Proof.antt"))
# Texts of must-fail edits that port.py leaves, of which a script of names doesn't see how they are spelled.
EDITS = [(" .request", ".request"), (" .b p", ".b p"), (" .t p", ".t p"), ("(t .«address_type»)", "t.address_type"),
         ("requires { ⌜ ", "requires { "), (" ⌝ }", " }"), ("length (now s)", "length s.now")]
WORD = re.compile(r"[^\s(){}\[\];,.@«»\"]+")
DEFINES = re.compile(
    r"^ *(?:(?:abbrev|unfoldable|pub|data|record) +)*([^\s(){}\[\];,.«»λ]+)((?: +(?:\([^)]*\)|\{[^}]*\}))*) *:(?: |$)", re.M)
KEEP = {"where", "module", "use", "_"}


def snake(name):
    if name in APART:
        return APART[name]
    if not re.search(r"[a-z0-9][A-Z]|[^-]-[^-]", name) or name[0].isupper() or not name[0].isalpha():
        return name
    if not re.fullmatch(r"[\w'₀-₉-]+", name):
        return name
    spelled = re.sub(r"([a-z0-9])([A-Z])", lambda m: m.group(1) + "_" + m.group(2), name)
    return re.sub(r"_[A-Z]", lambda m: m.group(0).lower(), spelled).replace("-", "_")


def antt_files():
    return sorted(f for part in ("specs", "proofs") for f in glob.glob(f"crates/*/{part}/**/*.antt", recursive=True))


def own_names():
    names = set()
    for file in antt_files():
        for match in DEFINES.finditer(open(file, encoding="utf-8").read()):
            if match.group(1) not in KEEP and not match.group(1).startswith(("decreases-", "invariant-")):
                names.add(match.group(1))
    return names


def foreign(names):
    """Names that a library has too: those that are imported from elsewhere than a crate of this repository."""
    crates = {line.split("/")[1] for line in glob.glob("crates/*")}
    found = set()
    for file in antt_files() + glob.glob("crates/*/src/**/*.rt", recursive=True):
        for path, items in re.findall(r"\buse ([\w.·+-]+)\.\{([^}]*)\}", open(file, encoding="utf-8").read()):
            parts = path.split(".")
            if parts[0] == "Rattle" and parts[1] in crates and "Goals" not in parts and "Lts" not in parts:
                continue
            found |= {item.strip().split(" as ")[0] for item in items.split(",")} & names
    return found


def turn(text, table):
    return WORD.sub(lambda m: table.get(m.group(0), m.group(0)), text)


def turn_source(text, table):
    """Clauses and their imports, and comments; no name of Rust's has a capital inside, and strings are left alone."""
    parts = re.split(r'(b?"(?:[^"\\\\]|\\\\.)*")', text)
    return "".join(p if k % 2 else re.sub(r"[A-Za-z_][\w']*", lambda m: table.get(m.group(0), m.group(0)), p) for k, p in enumerate(parts))


def turn_edit(text, table):
    for old, new in EDITS:
        text = text.replace(old, new)
    return WORD.sub(lambda m: table.get(m.group(0)) or (snake(m.group(0)) if re.match(r"[a-z]+[A-Z]", m.group(0)) else m.group(0)), text)


def write(file, turned):
    with open(file, encoding="utf-8") as f:
        if f.read() == turned:
            return
    with open(file, "w", encoding="utf-8") as f:
        f.write(turned)


def main():
    names = own_names()
    table = {n: snake(n) for n in names if snake(n) != n}
    for name in foreign(set(table)):
        print("kept, a library has it:", name)
        del table[name]
    everywhere = set()
    for file in antt_files():
        everywhere |= set(WORD.findall(open(file, encoding="utf-8").read()))
    back = {}
    for old, new in table.items():
        back.setdefault(new, []).append(old)
    for new, olds in sorted(back.items()):
        if len(olds) > 1 or new in everywhere:
            print("together:", new, "<-", olds, "and it stands already" if new in everywhere else "")
    if "--try" in sys.argv:
        print(len(table), "names;", " ".join(f"{o}>{n}" for o, n in sorted(table.items())))
        return
    for file in antt_files():
        text = open(file, encoding="utf-8").read()
        if file in LEMMA[2]:
            text = re.sub(rf"(?<![\w.-]){LEMMA[0]}(?![\w.`-])", LEMMA[1], text)
        write(file, turn(text, table))
    for file in glob.glob("crates/*/src/**/*.rt", recursive=True):
        write(file, turn_source(open(file, encoding="utf-8").read(), table))
    for file in glob.glob("crates/*/must-fail/*.edit"):
        write(file, turn_edit(open(file, encoding="utf-8").read(), table))


main()
