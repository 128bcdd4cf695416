#!/usr/bin/env python3
"""Counts the places of older forms in crates/*/src, for docs/DESIGN-PASS.md.

    tools/forms.py [FOLDER]          a line for each form: point, places, files
    tools/forms.py -v [FOLDER]       the places themselves, too
    tools/forms.py --twins [FOLDER]  functions whose text is the same but for names of types, numbers and constants
"""
import glob
import os
import re
import sys

# point, what, pattern of a line
LINES = [
    ("1", "own enums", r"^\s*(pub )?enum "),
    ("1", "fields that are flags", r"^\s*(pub )?\w+: bool,"),
    ("1", "numbers for kinds: parameters", r"fn .*\b(kind|above|form|action|call|why|letter): u8"),
    ("1", "numbers for kinds: tests", r"\b(kind|form|call) == (0x)?[0-9A-F]+\b|1 <= kind"),
    ("1", "numbers for kinds: constants and fields", r"pub const [A-Z_]+: u8 =|\b(Up\(u8\)|Beyond\(.*, u8\))"),
    ("3", "loops", r"^\s*('\w+: )?(for|while|loop)\b"),
    ("3", "loops that count by hand", r"^\s*while .* [<>] |^\s*for _? ?\w* in .*\.\.[^.]"),
    ("4", "comparisons through a field", r"\.0 (==|!=|<=|<|>=|>) |(==|!=|<=|<|>=|>) [a-z_.()]*\.0\b"),
    ("4", "conversions by a table of numbers", r"=> [0-9]+,$"),
    ("4", "conversions by `as`", r" as (u8|u16|u32|u64|usize)\b"),
    ("4", "characters and digits by number", r"\b(48|87) \+ "),
    ("6", "a buffer and the place in it", r"\b(out|buffer): &mut \[u8(; \w+)?\],?( (at|k): usize)?|^\s*mut k: usize"),
]

# a fact that stands in contracts: point 5
FACTS = [
    "HasRecord",
    r"Accepted \w+\.now",
    r"24 ≤ length",
    r"parent_fine .* ≡ true",
    r"Earlier ",
    r"reflects ≡ validation_reflects",
    r"is_origin .* ≡ true",
    r"\b[km] < 6\b",
    r"\b[cipq] < count ",
    r"length image\.\w+ ≡",
    r"at \+ 4 ≤",
    r"12 ≤ length",
    r"first ≡ address",
    r"length into\.old ≡",
    r"\bPut ",
]

# parameters that travel together: point 5
PARAMETERS = [
    r"\(s: &\[u8\], i: u16",
    r"s: &\[u8\], (reflects: bool, )?t: Tlp",
    r"reflects: bool",
]


def sources(folder):
    return sorted(glob.glob(os.path.join(folder, "crates/*/src/**/*.rt"), recursive=True))


def places(folder, pattern, only=None):
    found = []
    for path in sources(folder):
        with open(path, encoding="utf-8") as f:
            for number, line in enumerate(f, 1):
                if line.lstrip().startswith("//") or (only and not re.search(only, line)):
                    continue
                if re.search(pattern, line):
                    found.append((os.path.relpath(path, folder), number, line.strip()))
    return found


def show(point, what, found, verbose):
    print(f"{point}\t{len(found)}\t{len({f for f, _, _ in found})}\t{what}")
    if verbose:
        for path, number, line in found:
            print(f"\t\t{path}:{number}: {line[:110]}")


def functions(path):
    """Each function of a file: its name and its text from `fn` to the closing brace."""
    with open(path, encoding="utf-8") as f:
        text = re.sub(r"//.*", "", f.read())
    for m in re.finditer(r"^( *)(?:pub )?(?:extern \"C\" )?fn (\w+)", text, re.M):
        end = text.find("\n" + m.group(1) + "}", m.start())
        if end > 0:
            yield m.group(2), text[m.start():end]


def skeleton(name, text):
    text = re.sub(r"(requires|ensures)\b.*", "", text)
    text = re.sub(r"\b" + name + r"\b", "F", text)
    text = re.sub(r"\bu(8|16|32|64|size)\b", "U", text)
    text = re.sub(r"\b(0x)?[0-9][0-9A-Fa-f_]*\b|\b[A-Z][A-Z_0-9]+\b|\b[A-Z]\w*(::\w+)?\b|b?\"[^\"]*\"|b'.'", "C", text)
    text = re.sub(r"\b\w+(?=\()", "g", text)
    text = re.sub(r"(?<=\.)\w+", "f", text)
    names = {}
    keep = {"fn", "pub", "let", "mut", "if", "else", "return", "for", "in", "while", "loop", "match", "self", "as", "f", "g", "F", "U", "C"}
    text = re.sub(r"\b[a-z_]\w*\b", lambda m: m.group(0) if m.group(0) in keep else names.setdefault(m.group(0), f"v{len(names)}"), text)
    return re.sub(r"\s+", " ", text)


def twins(folder):
    groups = {}
    for path in sources(folder):
        for name, text in functions(path):
            groups.setdefault(skeleton(name, text), []).append((os.path.relpath(path, folder), name))
    for group in sorted((g for g in groups.values() if len(g) > 1), key=lambda g: -len(g)):
        print(f"2\t{len(group)}\t" + ", ".join(f"{p.split('/')[1]}::{n}" for p, n in group))


def main():
    args = sys.argv[1:]
    folder = next((a for a in args if not a.startswith("-")), ".")
    if "--twins" in args:
        twins(folder)
        return
    verbose = "-v" in args
    print("point\tplaces\tfiles\twhat")
    for point, what, pattern in LINES:
        show(point, what, places(folder, pattern), verbose)
    for fact in FACTS:
        show("5", "contracts with " + fact, places(folder, fact, r"requires|ensures"), verbose)
    for parameter in PARAMETERS:
        show("5", "functions with " + parameter, places(folder, parameter, r"fn |: &\[u8\]|bool"), verbose)
    proofs = glob.glob(os.path.join(folder, "crates/*/proofs/**/Proof.antt"), recursive=True)
    print(f"8\t{len(proofs)}\t{len(proofs)}\tproofs that walk the code by hand (Proof.antt)")


main()
