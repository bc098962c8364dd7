#!/usr/bin/env python3
"""Counts the places of the crates' code that an older form of the language would show, and lists them with --list.

    tools/places.py [--list] [FOLDER]

Points, as docs/DESIGN-PASS.md has them: 1 enums of the shape of Option or Result, flags beside a value, numbers for kinds; 2 functions of one crate whose
bodies are the same but for names of calls, types and constants; 3 loops that are no `for`; 4 functions whose body is one conversion, and equality, order or
printing by hand; 5 facts that stand in the `requires` of three or more functions, and parameters that travel together through three or more; 6 buffers with a
length beside them and arrays of sections; 7 functions with a parameter that selects; 8 files and lines of proofs of functions. It finds shapes, and a reader
decides what each is.
"""
import re
import sys
from collections import Counter, defaultdict
from pathlib import Path

NUMBERS = r"(?:u8|u16|u32|u64|usize|i32|i64)"


class Function:
    """A function by its lines: the signature, the `requires` and the body."""

    def __init__(self, path, number, lines):
        self.place = f"{path}:{number}"
        self.crate = path.split("/")[1]
        opened = next(i for i, line in enumerate(lines) if line.strip() == "{" or line.endswith(" {"))
        head = "\n".join(lines[: opened + 1]).rstrip("{ \n")
        self.body = "\n".join(lines[opened + 1 : -1])
        self.signature = re.split(r"\n\s+(?:requires|ensures)\b", head)[0]
        self.name = re.search(r"fn (\w+)", self.signature).group(1)
        self.requires = re.findall(r"\n\s+requires (?:\w+ )?\{(.*)\}", head)
        inside = re.search(r"fn \w+(?:<[^(]*>)?\((.*)\)", self.signature, re.S)
        self.parameters = re.findall(r"(\w+): ((?:[^,()\[\]]|\[[^\]]*\]|\([^)]*\))+)", inside.group(1)) if inside else []


def sources(folder):
    return sorted(p for p in Path(folder).glob("crates/*/src/**/*.rt"))


def functions(folder):
    for path in sources(folder):
        lines = path.read_text(encoding="utf-8").split("\n")
        for at, line in enumerate(lines):
            start = re.match(r"( *)(?:pub(?:\(crate\))? )?(?:const )?(?:extern \"C\" )?fn ", line)
            if not start:
                continue
            opened = next(i for i in range(at, len(lines)) if lines[i].strip() == "{" or lines[i].endswith((" {", ";")))
            if not lines[opened].endswith(";"):
                end = lines.index(start.group(1) + "}", at)
                yield Function(str(path.relative_to(folder)), at + 1, lines[at : end + 1])


def grep(folder, pattern):
    for path in sources(folder):
        for number, line in enumerate(path.read_text(encoding="utf-8").split("\n"), 1):
            if re.search(pattern, line) and not line.lstrip().startswith("//"):
                yield f"{path.relative_to(folder)}:{number}: {line.strip()}"


def enums(folder):
    """Enums with two or three variants of which one at least carries a value."""
    for path in sources(folder):
        for found in re.finditer(r"enum (\w+)[^{]*\{\n(.*?)\n\}", path.read_text(encoding="utf-8"), re.S):
            variants = re.findall(r"^    (\w+)(\(.*\))?,", found.group(2), re.M)
            if len(variants) <= 3 and any(value for _, value in variants):
                yield f"{path.relative_to(folder)}: enum {found.group(1)} {[v + w for v, w in variants]}"


def twins(all_functions):
    """Groups of functions of one crate with bodies of the same shape, of seven signs or more."""
    groups = defaultdict(list)
    for f in all_functions:
        body = re.sub(r"//.*", "", f.body)
        signs = re.findall(r"[A-Za-z_]\w*|\d[\d_]*|\S", body)
        shape = tuple("x" if re.match(r"[A-Za-z_]", s) and s not in ("if", "else", "return", "while", "loop", "match", "let", "mut", "for") else "0" if s[0].isdigit() else s for s in signs)
        if len(shape) >= 7:
            groups[(f.crate, shape)].append(f)
    return [g for g in groups.values() if len(g) > 1]


def conversions(all_functions):
    for f in all_functions:
        body = " ".join(f.body.split())
        if re.fullmatch(r"[^;{}]* as " + NUMBERS + r"\)?(?: [-+] [\d_]+)?|p [-+] q|if \w+ \{ [^ ]+ \} else \{ [^ ]+ \}|if e < 0 .*", body):
            yield f"{f.place}: {f.name}: {body}"
        elif f.name in ("is_same", "both", "at_or_below", "is_class1", "is_slow", "is_death", "is_continued", "word", "ten_to", "with_decimal", "with_last", "with_signed", "with_figure"):
            yield f"{f.place}: {f.name}"


def facts(all_functions):
    count = defaultdict(set)
    for f in all_functions:
        for clause in f.requires:
            for part in re.split(r" × ", clause):
                word = re.match(r"[( ]*([A-Z]\w+|\w+\.[A-Z]\w+)", part)
                if word:
                    count[word.group(1)].add(f.place + " " + f.name)
                elif "length" in part and "≡" in part:
                    count["a length"].add(f.place + " " + f.name)
    return {k: sorted(v) for k, v in count.items() if len(v) >= 3}


def together(all_functions):
    count = Counter()
    for f in all_functions:
        names = [re.sub(r"\s+", " ", f"{n}: {t.strip()}") for n, t in f.parameters]
        for size in (2, 3, 4):
            for i in range(len(names) - size + 1):
                count[tuple(names[i : i + size])] += 1
    found = {k: v for k, v in count.items() if v >= 3}
    return {k: v for k, v in found.items() if not any(set(k) < set(l) and found[l] == v for l in found)}


def main():
    arguments = [a for a in sys.argv[1:] if a != "--list"]
    folder, listing = (arguments or ["."])[0], "--list" in sys.argv
    fs = list(functions(folder))
    groups = twins(fs)
    points = [
        ("1a enums of the shape of Option or Result", list(enums(folder))),
        ("1b fields that are flags", list(grep(folder, r"^\s+(?:pub(?:\(crate\))? )?(?:\w*kept\w*|rest|failed|known|filled|\w+_exact): (?:bool|u64),"))),
        ("1c numbers for kinds, refusals and places", list(grep(folder, r"\bkind\(\w+\) [!=]= |\bk == \d|quantity\([^)]*, \d+, \d+, \d+, \d\)|\b100[24689]\b|^\s+1[78]$|if 0 < \w+ \{"))),
        ("2 twins", [f"{', '.join(f'{f.place} {f.name}' for f in g)}" for g in groups]),
        ("3 loops that are no for", list(grep(folder, r"^\s*while |\bloop \{"))),
        ("4 conversions, equality, order and printing by hand", list(conversions(fs))),
        ("5a facts in three or more requires", [f"{k}: {len(v)} functions" for k, v in sorted(facts(fs).items())]),
        ("5b parameters that travel together", [f"{v} functions: {', '.join(k)}" for k, v in sorted(together(fs).items(), key=lambda x: -x[1])]),
        ("6 buffers with a length, arrays of sections", list(grep(folder, r"\[u(?:8|16|32|64); |\[Pair; |\b[a-z]+\[[^\]]*(?:\+|\*) ?[^\]]*\]|, len: usize|count: usize\)"))),
        ("7 parameters that select", [f"{f.place}: {f.name}({n}: {t})" for f in fs for n, t in f.parameters if t.strip() == "bool" or n == "at" and "RowTable" in f.signature]),
    ]
    for name, places in points:
        extra = f" ({sum(len(g) for g in groups)} functions)" if name.startswith("2") else ""
        print(f"{name}: {len(places)}{extra}")
        if listing:
            for place in places:
                print(f"    {place}")
    proofs = [p for p in Path(folder).glob("crates/*/proofs/**/*.antt") if p.parent.name != "proofs"]
    lines = sum(len(p.read_text(encoding="utf-8").split("\n")) - 1 for p in proofs)
    print(f"8 proofs of functions: {len(proofs)} files, {lines} lines")


main()
