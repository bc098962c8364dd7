"""Makes the input, the expected output and the table of the papers' models of the program `vectors` from models of other hands.

    python3 tools/vectors.py MODELS PAPERS.jsonl crates/vectors

A line of a file .jsonl is {"name": text, "words": [hexadecimal, ..], "budget": number, "expect": text, ..}. A word "-", only ever the last, stands
for left-over bytes: one byte is written for it. A line of the papers has besides "source", where the model stands; "printed", what the paper
prints of SURE's run; and "approximated", the quantities that had to be rounded to six digits. MODELS can also be a file as the independent
implementation keeps them, reference/tests/data/models.txt: name, budget, words of eight digits (`-` at the end for left-over bytes, `.` for
none) and the answer, with `|` for line ends and `=` for spaces.

The input is one model after the other: three numbers of four bytes, least significant first (the number of bytes of the name's line, the number of
bytes of the words, the budget), then the name's line, then the words, four bytes each, least significant first. The output is for each model
its name's line and the text of the answer. The table stands in README.md, below the line that says so.
"""
import json
import os
import sys

MARK = "<!-- below this line: tools/vectors.py -->\n"


def model_of(line):
    if line.startswith("{"):
        return json.loads(line)
    name, budget, digits, answer = line.split()
    whole = digits.strip(".-")
    words = [whole[at : at + 8] for at in range(0, len(whole), 8)] + (["-"] if digits.endswith("-") else [])
    return {"name": name, "words": words, "budget": int(budget), "expect": answer.replace("|", "\n").replace("=", " ") + "\n"}


def models_of(path):
    with open(path, encoding="utf-8") as f:
        return [model_of(line) for line in f if line.strip()]


def number(n):
    return n.to_bytes(4, "little")


def bytes_of(words):
    return b"".join(b"\xff" if w == "-" else number(int(w, 16)) for w in words)


def figures(model):
    """The lower and the upper figure of the expected text."""
    lines = dict(line.split(" ", 1) for line in model["expect"].splitlines())
    return lines["lower"], lines["upper"]


def row(model):
    printed = model["printed"]
    lower, upper = figures(model)
    sure = [(printed[side] or "-").upper() for side in ("lower", "upper")]
    rounded = str(len(model["approximated"])) if model["approximated"] else ""
    return "| " + " | ".join([model["name"], model["source"], *sure, lower, upper, rounded]) + " |\n"


def main(models, papers, crate):
    papers = models_of(papers)
    stdin, stdout = bytearray(), bytearray()
    for model in models_of(models) + papers:
        name = model["name"].encode("ascii") + b"\n"
        words = bytes_of(model["words"])
        stdin += number(len(name)) + number(len(words)) + number(model["budget"]) + name + words
        stdout += name + model["expect"].encode("ascii")
    readme = os.path.join(crate, "README.md")
    with open(readme, encoding="utf-8") as f:
        head = f.read().split(MARK)[0]
    with open(readme, "w", encoding="utf-8") as f:
        f.write(head + MARK)
        f.write("\n| model | source document and place | SURE lower | SURE upper | our lower | our upper | rounded |\n|---|---|---|---|---|---|---|\n")
        f.writelines(map(row, papers))
    with open(os.path.join(crate, "stdin"), "wb") as f:
        f.write(stdin)
    with open(os.path.join(crate, "stdout"), "wb") as f:
        f.write(stdout)


main(*sys.argv[1:])
