"""Checks the quotations of documents 01 and 02 in the comments of specs/ and src/: each stands in one of the two, word for word.

    python3 tools/check_quotations.py

A quotation stands between two " in comment lines that follow one another. Where it leaves something out it has "..", and what it adds stands in brackets;
each part between these is looked up. A part of fewer than three words is not, since names and short texts stand in such marks too. The documents' texts are
kept in docs/documents. Ends with 0 if every part was found, else with 1.
"""
import re
import sys
from pathlib import Path

ROOT = Path(__file__).resolve().parent.parent
DOCUMENTS = sorted((ROOT / "docs/documents").glob("*.md"))
LEAST_WORDS = 3


def plain(text):
    """Text without marks of headings, items and code, in one line."""
    lines = [re.sub(r"^\s*(#+|[-*]) ", "", l) for l in text.splitlines()]
    return re.sub(r"\s+", " ", " ".join(lines).replace("`", "").replace("**", "")).strip()


def comments(text, mark):
    """Each run of comment lines as one text, with the number of its first line."""
    run, first = [], 0
    for number, line in enumerate(text.splitlines() + [""], 1):
        m = re.match(rf"\s*{mark} ?(.*)$", line)
        if m:
            first = first if run else number
            run.append(m[1])
        elif run:
            yield first, re.sub(r"\s+", " ", " ".join(run).replace("`", ""))
            run = []


def parts(quotation):
    for part in re.split(r"\s*(?:\.\.+|…|\[[^\]]*\])\s*", quotation):
        part = part.strip(" ,;:.")
        if len(part.split()) >= LEAST_WORDS:
            yield part


def main():
    texts = [plain(d.read_text(encoding="utf-8")) for d in DOCUMENTS]
    files = sorted((ROOT / "crates").glob("*/specs/**/*.antt")) + sorted((ROOT / "crates").glob("*/src/*.rt"))
    count, wrong = 0, []
    for at in files:
        mark = "--" if at.suffix == ".antt" else "//"
        for line, text in comments(at.read_text(encoding="utf-8"), mark):
            for quotation in re.findall(r'"([^"]+)"', text):
                for part in parts(quotation):
                    count += 1
                    if not any(part in t for t in texts):
                        wrong.append(f"{at.relative_to(ROOT)}:{line}: no document says: {part}")
    print("\n".join(wrong), end="\n" if wrong else "")
    print(f"{count} parts of quotations, {len(wrong)} wrong")
    return 1 if wrong or not count or not texts else 0


sys.exit(main())
