#!/usr/bin/env python3
"""Spells this repository's own definitions and lemmas in snake case, as its Rattle does: `exact-sum` becomes `exact_sum`. Run once, at the top, behind
Rattle's own port script, which respells the names of its libraries alone.

A name is turned where a text of specs/ or proofs/ declares it. A dash stays where it joins a name to an operator, as in `whole-+`, and so do operators.
In the edits, which Rattle's script leaves alone, paths, operators, projections and the values of a reference are turned too.
"""

import glob
import json
import re
import sys

DECLARED = re.compile(
    r"(?m)^ *(?:(?:abbrev|unfoldable|pub|record|data) )*([^\s(){}.;,@\"«»:]+)"
    r"(?: (?:\([^\n]*?\)|\{[^\n]*?\}))* :(?= |$)"
)
# Several constructors or fields of one type on a line.
TOGETHER = re.compile(r"(?m)^ +(?:pub )?([a-z][\w-]*(?: [a-z][\w-]*)+) : ")
# What a library's text declares keeps its name in the files that bring it in.
BROUGHT = re.compile(r"^(?:pub )?(?:ghost )?use (\S+)\.\{([^}]*)\}", re.M)
# What the prover asks for in a proof that walks the code: its names are Rattle's.
ASKED = re.compile(r"(?m)^(\S+) : (?:tie|kit|step|walk|reads|kinds)\.")
TOKEN = re.compile(r"[^\s(){}.;,@\"«»`]+")
DASH = re.compile(r"(?<=[^\s-])-(?=[a-z0-9])")
TICKED = re.compile(r"`[^`\n]*`")


with open("crates.txt", encoding="utf-8") as f:
    CRATES = {line.split(":")[0].strip() for line in f}

# Operators that are words, and parameters of a definition.
OTHERS = {"◌stop-at◌", "stop-at", "◌clips-to◌", "clips-to", "too-often", "at-limit", "figure-powers"}


def turned(name):
    return DASH.sub("_", name)


def read(path):
    with open(path, encoding="utf-8") as f:
        return f.read()


def write(path, text):
    with open(path, "w", encoding="utf-8") as f:
        f.write(text)


def sources(pattern):
    return sorted(glob.glob(pattern, recursive=True))


def is_turned(name):
    return "◌" not in name and name[0] not in "+-" and turned(name) != name


def declared():
    names = set()
    for path in sources("crates/*/specs/**/*.antt") + sources("crates/*/proofs/**/*.antt"):
        text = read(path)
        asked = set(ASKED.findall(text)) if path.endswith("/Proof.antt") else set()
        names |= {n for n in DECLARED.findall(text) if n not in asked}
        for line in TOGETHER.findall(text):
            if not line.startswith(("let ", "in ", "pub ")):
                names |= set(line.split())
    return {n: turned(n) for n in OTHERS} | {n: turned(n) for n in names if is_turned(n)} | {
        n: n[0] + turned(n[1:]) for n in names if n[0] in "+-*/^<" and "◌" not in n and turned(n[1:]) != n[1:]
    }


def within(text, names):
    """The names to turn in a file: not those that it brings in from a library."""
    kept = set()
    for path, items in BROUGHT.findall(text):
        steps = path.split(".")
        if steps[0] != "Rattle" or steps[1] not in CRATES:
            kept |= {item.strip() for item in items.split(",")}
    return {n: new for n, new in names.items() if n not in kept}


def tokens(text, names):
    return TOKEN.sub(lambda m: names.get(m[0], m[0]), text)


def ticked(text, names):
    return TICKED.sub(lambda m: tokens(m[0], names), text)


def in_antt(text, names):
    names = within(text, names)
    lines = text.split("\n")
    for i, line in enumerate(lines):
        code, dashes, comment = line.partition("-- ") if line.lstrip().startswith("-- ") else (line, "", "")
        lines[i] = tokens(code, names) + dashes + ticked(comment, names)
    return "\n".join(lines)


# The clauses and ghost lines of a .rt file, line by line.
GHOST = re.compile(r"^\s*(?:pub )?(?:ghost|requires|ensures|decreases)\b|⌜|◌|≡|≤")


def in_rust(text, names):
    names = within(text, names)
    lines = text.split("\n")
    for i, line in enumerate(lines):
        if GHOST.search(line) and not line.lstrip().startswith("//"):
            lines[i] = tokens(line, names)
        else:
            lines[i] = ticked(line, names)
    return "\n".join(lines)


def old_forms(text):
    text = re.sub(r"Rattle·(\w+)·(\w+)\.(?:specs|proofs)\.", r"Rattle.\1.\2.", text)
    text = re.sub(r"Rattle·(\w+)\.", r"Rattle.\1.", text)
    text = re.sub(r"\(now \((\w+) \.entry\)\)", r"\1.old", text)
    text = re.sub(r"\(now \((\w+) \.exit\)\)", r"\1.new", text)
    text = re.sub(r"\(now (\w+)\)", r"\1.now", text)
    # projections stand tight: of a name, and of a bracketed name with its projections
    before = None
    while before != text:
        before = text
        text = re.sub(r"(?<=[\w')]) \.([a-z][\w-]*)", r".\1", text)
        text = re.sub(r"(?<=[ (])\(([\w'-]+(?:\.[\w-]+)+)\)", r"\1", text)
    return text


def in_edit(text, names):
    lines = text.split("\n")
    rust = False
    for i, line in enumerate(lines):
        if line.startswith("file: "):
            rust = line.endswith(".rt")
        elif line.startswith(("old: ", "new: ")):
            if not rust or re.search(r"⌜|≡|≤|now|ghost|\.entry", line):
                lines[i] = tokens(old_forms(line), names)
        else:
            lines[i] = ticked(line, names)
    return "\n".join(lines)


def main():
    names = declared()
    taken = set()
    for path in sources("crates/*/**/*.antt"):
        taken |= set(TOKEN.findall(read(path)))
    for name, new in sorted(names.items()):
        if new in taken:
            print(f"falls together: {name} and {new}", file=sys.stderr)
    for path in sources("crates/*/specs/**/*.antt") + sources("crates/*/proofs/**/*.antt"):
        write(path, in_antt(read(path), names))
    for path in sources("crates/*/src/**/*.rt"):
        write(path, in_rust(read(path), names))
    # Rattle's script has turned some of the names in the sources, and none in the edits and the documents.
    stand = set()
    for path in sources("crates/*/specs/**/*.antt") + sources("crates/*/proofs/**/*.antt"):
        text = read(path)
        stand |= set(DECLARED.findall(text)) | {n for line in TOGETHER.findall(text) for n in line.split()}
    names |= {n.replace("_", "-"): n for n in stand if "_" in n and "-" not in n}
    for path in sources("crates/*/must-fail/*.edit") + sources("crates/*/faults/*.edit"):
        write(path, in_edit(read(path), names))
    for path in sources("docs/*.md") + sources("crates/*/README.md"):
        write(path, ticked(read(path), names))
    for path in sys.argv[1:]:
        write(path, json.dumps(names, ensure_ascii=False, indent=0))


if __name__ == "__main__":
    main()
