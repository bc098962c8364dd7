"""Which pages of specs/ the public contracts rest on: what a reader has to compare with the documents.

    python3 tools/closure.py            the number of pages and of their lines, and their list
    python3 tools/closure.py --each     the same for each public function apart

A public function's contract names definitions; their pages name further pages in their `use` lines, and so on. In the crates whose functions are open to
makers (OPEN below) that closure must stay in pages that stand directly in specs/: a page in specs/Internal says what private functions do for one another,
and a page in proofs/ is no definition. In every crate specs/, and the contract of every function, must take nothing from proofs/. Ends with 0 if this holds, else with 1.
"""
import re
import sys
from pathlib import Path

ROOT = Path(__file__).resolve().parent.parent
CRATES = ROOT / "crates"
# the crates whose public functions makers call
OPEN = ["orprob", "bounds", "text", "embed"]
MODULE = re.compile(r"Rattle\.(\w+)\.(specs|proofs)(?:\.(.+))?")
USE = re.compile(r"^(?:(?:pub|unfoldable) )*(ghost )?use ([^\s;{]+?)(?:\.\{([^}]*)\})?(?: as (\S+?))?;?\s*$", re.M)
FUNCTION = re.compile(r"^[ \t]*pub (?:extern \"C\" )?fn (\w+)", re.M)
CLAUSE = re.compile(r"\b(?:(?:requires|ensures)\*?(?:\s+\w+)?|ghost\s+\w+:)\s*$")


def page(module):
    """The file of a module of one of the crates; None for the toolchain's own, and for the types that are made from the code."""
    m = MODULE.fullmatch(module)
    if not m or not (CRATES / m[1]).is_dir() or (m[3] or "").startswith("declared."):
        return None
    return CRATES / m[1] / m[2] / ((m[3] or "Lib").replace(".", "/") + ".antt")


def uses(text, ghost):
    """The modules that a file uses, each with the names that it brings in; of a source file only what its contracts use."""
    found = []
    for m in USE.finditer(text):
        if bool(m[1]) == ghost:
            names = [n.strip().split(" as ")[-1] for n in m[3].split(",")] if m[3] else [m[4] or m[2].split(".")[-1]]
            found.append((m[2], names))
    return found


def closure(pages):
    todo, seen = list(pages), set()
    while todo:
        at = todo.pop()
        if at not in seen:
            seen.add(at)
            todo += [p for p in (page(module) for module, _ in uses(at.read_text(encoding="utf-8"), False)) if p]
    return seen


def behind(text, at, opened, closed):
    """The place behind the bracket that closes the one at a place."""
    depth = 0
    for place in range(at, len(text)):
        depth += (text[place] == opened) - (text[place] == closed)
        if depth == 0:
            return place + 1
    sys.exit(f"closure: {opened} is not closed: {text[at : at + 60]}")


def clauses(text, at):
    """What stands in the braces of the clauses of the function whose parameters begin behind a place; its body ends them."""
    at = behind(text, text.index("(", at), "(", ")")
    while True:
        brace = text.index("{", at)
        if not CLAUSE.search(text[at:brace]):
            return
        at = behind(text, brace, "{", "}")
        yield text[brace + 1 : at - 1]


def is_named(name, words):
    """Whether a name stands among the words; of an operator one of its parts does."""
    return bool(words.intersection(filter(None, name.split("◌"))))


def contracts(source):
    """Each public function of a file with the pages that its contract names."""
    text = re.sub(r"//.*$", "", source.read_text(encoding="utf-8"), flags=re.M)
    named = [(page(module), names) for module, names in uses(text, True)]
    for m in FUNCTION.finditer(text):
        words = set(re.split(r"[\s(){}.,;⌜⌝«»]+", " ".join(clauses(text, m.end()))))
        yield m[1], [p for p, names in named if p and any(is_named(name, words) for name in names)]


def short(path):
    return str(path.relative_to(ROOT))


def inward():
    """Pages of specs/, and contracts of any function, that take something from proofs/."""
    pages = [(at, False) for at in sorted(CRATES.glob("*/specs/**/*.antt"))]
    sources = [(at, True) for at in sorted(CRATES.glob("*/src/*.rt"))]
    for at, ghost in pages + sources:
        for module, _ in uses(at.read_text(encoding="utf-8"), ghost):
            taken = page(module)
            if taken and "proofs" in taken.relative_to(CRATES).parts:
                yield f"{short(at)} takes {module}"


def main(arguments):
    wrong, all_pages = list(inward()), set()
    for crate in OPEN:
        for source in sorted((CRATES / crate / "src").glob("*.rt")):
            for name, pages in contracts(source):
                rests_on = closure(pages)
                all_pages |= rests_on
                wrong += [f"{short(source)} {name} rests on {short(p)}" for p in sorted(rests_on) if "Internal" in p.parts or "specs" not in p.parts]
                if arguments == ["--each"]:
                    print(f"{short(source)} {name}: {len(rests_on)} pages")
    lines = sum(len(p.read_text(encoding="utf-8").splitlines()) for p in all_pages)
    print(f"{len(all_pages)} pages, {lines} lines")
    for p in sorted(all_pages):
        print(short(p))
    print("\n".join(wrong), end="\n" if wrong else "", file=sys.stderr)
    return 1 if wrong or not all_pages else 0


sys.exit(main(sys.argv[1:]))
