"""Checks docs/TRACE.md, docs/CLAIMS.md, docs/GLOSSARY.md and docs/ARCHITECTURE.md: each file that they name exists, and each name is declared in the file
named with it. Each must-fail edit is named by the trace or the claims.

    python3 tools/check_trace.py                 files and names
    python3 tools/check_trace.py DOCUMENT ..     also each sentence of the trace, word for word, and that none of the documents is left out

In a cell of the trace's and the glossary's tables and in an item of the claims that begins "Says so", "Refused edits" or "A model" ("Models", "Pairs") "that would
answer otherwise", what stands in backticks is a file (it has a slash and a suffix, or ends in stdin or stdout) or a name, which belongs to the file before it
in that cell or item. Of all else in the claims and the
architecture only files are looked at, but for those with a word such as NAME in their path. Files are below crates/ or else below the repository's root.
In the trace's column of vectors a name without a file is a case of reference/tests/data/models.txt, papers.txt, rows.txt, or.txt or products.txt, and one letter is one of
document 01's models A to L, as the list in crates/tree/specs/Marked.antt has it. A cell that holds only a dash is empty.

The rows below a heading "Document 02, Item N" of the trace have the sentences of that item, all other rows those of document 01. A document whose paragraphs
begin with "**Item N. TITLE.**" is one of requests: of it only the items that have landed are expected, each below its own heading. An item has landed if
there is a note on it, docs/landings/item-NN.md; each note has its heading and each heading its note. Ends with 0 if nothing is wrong, else with 1.
"""
import re
import sys
from pathlib import Path

ROOT = Path(__file__).resolve().parent.parent
TRACE, CLAIMS, GLOSSARY, ARCHITECTURE = "docs/TRACE.md", "docs/CLAIMS.md", "docs/GLOSSARY.md", "docs/ARCHITECTURE.md"
ITEMS = ("- Says so:", "- Refused edits:", "- A model that would answer otherwise:", "- Models that would answer otherwise:",
         "- Pairs that would answer otherwise:")
MODELS = ["reference/tests/data/models.txt", "reference/tests/data/papers.txt", "reference/tests/data/rows.txt", "reference/tests/data/or.txt",
          "reference/tests/data/products.txt"]
MARKED = "tree/specs/Marked.antt"
EMPTY = "—"
HEADING = re.compile(r"## Document 02, Item (\d+)\b")
REQUEST = re.compile(r"^\*\*Item (\d+)\. [^*]*\*\*(.*)$", re.M)
NOTES = "docs/landings/item-*.md"
FILE = re.compile(r"[\w+.-]+(/[\w+.-]+)*/([\w+.-]+\.\w+|stdin|stdout)")
STANDS_FOR = re.compile(r"(^|/)\+?(NAME|MODULE|TYPE|FUNCTION|METHOD|SUBJECT|LABEL)[/.]")
PART_OF_NAME = r"[\w\-'ᶠ◌]"


def found(path):
    """The file below crates/ or below the root, or None."""
    for place in (ROOT / "crates" / path, ROOT / path):
        if place.is_file():
            return place
    return None


def whole(name):
    return rf"(?<!{PART_OF_NAME}){re.escape(name)}(?!{PART_OF_NAME})"


def comments_out(text, mark):
    return re.sub(rf"{mark}.*$", "", text, flags=re.M)


def declared(name, path, text):
    """Whether a file of definitions or of code declares a name, or, in code, a contract cites it; in any other file it need only stand."""
    if path.endswith(".antt"):
        text = comments_out(text, "--")
        heads = rf"^ *(?:(?:abbrev|unfoldable|pub|private) +)*(?:(?:record|data|module) +)?(?:[^\s:=()]+ +)*{whole(name)}(?: +[^\s:=()]+)* *(?:[:({{]|$)"
        return re.search(heads, text, re.M) is not None
    if path.endswith(".rt"):
        text = comments_out(text, "//")
        kinds = rf"\b(?:fn|struct|enum|trait|const|type|mod|let|let mut) {whole(name)}"
        fields = rf"^\s*(?:pub )?{whole(name)}(?::|[,(])"
        clauses = rf"\b(?:requires|ensures)\*?(?: \w+)? \{{.*{whole(name)}"
        return any(re.search(r, text, re.M) for r in (kinds, fields, clauses))
    return re.search(whole(name), text) is not None


def quoted(text):
    return re.findall(r"`([^`]+)`", text)


class Trace:
    """What the tables say, and what is wrong with it."""

    def __init__(self):
        self.rows, self.files, self.names, self.empty, self.wrong = 0, set(), 0, 0, []
        self.sentences, self.texts, self.document = {None: []}, {}, TRACE

    def text(self, path):
        if path not in self.texts:
            place = found(path)
            self.texts[path] = place.read_text(encoding="utf-8") if place else None
        return self.texts[path]

    def lines(self, document):
        if self.text(document) is None:
            self.fail(0, "there is no such document")
        return (self.text(document) or "").splitlines()

    def fail(self, line, words):
        self.wrong.append(f"{self.document}:{line}: {words}")

    def file(self, line, path):
        if path.startswith("target/"):
            return  # what a build makes
        self.files.add(found(path) or path)
        if found(path) is None:
            self.fail(line, f"there is no file {path}")

    def name(self, line, path, name):
        self.names += 1
        text = self.text(path)
        if text is not None and not declared(name, path, text):
            self.fail(line, f"{name} is not declared in {path}")

    def vector(self, line, name):
        self.names += 1
        if re.fullmatch("[A-L]", name):
            if not re.search(rf"^\s*-- {name}([:;]|$)", self.text(MARKED) or "", re.M):
                self.fail(line, f"model {name} does not stand in {MARKED}")
        elif not any(re.search(rf"^{re.escape(name)} ", self.text(m) or "", re.M) for m in MODELS):
            self.fail(line, f"no model is called {name}")

    def cell(self, line, cell, vectors):
        if cell == EMPTY:
            self.empty += 1
            return
        if not cell:
            self.fail(line, "a cell without a dash is empty")
        path = None
        for item in quoted(cell):
            if FILE.fullmatch(item):
                path = item
                self.file(line, path)
            elif path is not None:
                self.name(line, path, item)
            elif vectors:
                self.vector(line, item)
            else:
                self.fail(line, f"{item} has no file before it")

    def claims(self):
        """Files and names of the items that tell what shows a claim, each with the lines indented below it; files of the other lines."""
        self.document = CLAIMS
        item, path = False, None
        for line, text in enumerate(self.lines(CLAIMS), 1):
            if not (item and text.startswith("  ")):
                item, path = text.startswith(ITEMS), None
            for word in quoted(text):
                if FILE.fullmatch(word):
                    path = word
                    self.file(line, path)
                elif item and path:
                    self.name(line, path, word)
                elif item:
                    self.fail(line, f"{word} has no file before it")

    def architecture(self):
        self.document = ARCHITECTURE
        for line, text in enumerate(self.lines(ARCHITECTURE), 1):
            for word in filter(FILE.fullmatch, quoted(text)):
                if not STANDS_FOR.search(word):
                    self.file(line, word)

    def tables(self, document):
        """The rows of a page's tables: a sentence or a letter, then cells of files and names. The sentences are kept by item, None being document 01."""
        self.document, columns, request = document, [], None
        for line, row in enumerate(self.lines(document), 1):
            if not row.startswith("|"):
                columns = []
                if document == TRACE and row.startswith("## "):
                    heading = HEADING.match(row)
                    request = int(heading[1]) if heading else None
                    self.sentences.setdefault(request, [])
                continue
            cells = [c.strip() for c in row.strip().strip("|").split("|")]
            if not columns:
                columns = cells
            elif set(row) - set("|-: "):
                self.rows += 1
                if len(cells) != len(columns):
                    self.fail(line, f"{len(cells)} cells in a table of {len(columns)} columns")
                if document == TRACE:
                    self.sentences[request].append((line, cells[0]))
                for column, cell in zip(columns[1:], cells[1:]):
                    self.cell(line, cell, column == "Vector")


def edits(trace):
    """Each must-fail edit is named by the trace or the claims."""
    for folder in ("must-fail", "faults"):
        for edit in sorted((ROOT / "crates").glob(f"*/{folder}/*.edit")):
            if edit not in trace.files:
                trace.wrong.append(f"no page names {edit.relative_to(ROOT)}")


def plain(text):
    """Text without marks and headings, in one line."""
    lines = [l for l in text.splitlines() if not l.startswith(("#", "```"))]
    lines = [re.sub(r"^\s*- ", "", l) for l in lines]
    return re.sub(r"\s+", " ", " ".join(lines).replace("`", "")).strip()


def compare(trace, sentences, text):
    """Each sentence stands in the text, and nothing of the text stands in no sentence."""
    trace.document, text = TRACE, plain(text)
    covered = bytearray(len(text))
    for line, sentence in sentences:
        for part in plain(sentence).split(" … "):
            at = text.find(part)
            if at < 0:
                trace.fail(line, f"the document does not say: {part}")
            while at >= 0:
                covered[at : at + len(part)] = b"\1" * len(part)
                at = text.find(part, at + 1)
    left = "".join(c if not covered[i] else "\n" for i, c in enumerate(text))
    for rest in filter(lambda r: re.search(r"\w", r), left.split("\n")):
        trace.wrong.append(f"no row has: {rest.strip()}")


def compare_document(trace, document):
    """The rows of document 01, or of the items of one of requests that have landed."""
    text = Path(document).read_text(encoding="utf-8")
    requests = {int(number): words for number, words in REQUEST.findall(text)}
    if not requests:
        compare(trace, trace.sentences[None], text)
        return
    for number in sorted(n for n in trace.sentences if n is not None):
        if number in requests:
            compare(trace, trace.sentences[number], requests[number])
        else:
            trace.wrong.append(f"{document} has no Item {number}")


def landed(trace):
    """The items that the trace has are those with a note on their landing."""
    notes = {int(re.search(r"(\d+)\.md$", note.name)[1]) for note in ROOT.glob(NOTES)}
    for number in sorted(notes ^ (set(trace.sentences) - {None})):
        trace.wrong.append(f"{TRACE} has no heading of Item {number}" if number in notes else f"there is no note on the landing of Item {number}")


def main(arguments):
    trace = Trace()
    trace.tables(TRACE)
    landed(trace)
    for document in arguments:
        compare_document(trace, document)
    trace.tables(GLOSSARY)
    trace.claims()
    edits(trace)
    trace.architecture()
    print("\n".join(trace.wrong), end="\n" if trace.wrong else "")
    print(f"{trace.rows} rows, {len(trace.files)} files, {trace.names} names, {trace.empty} empty cells, {len(trace.wrong)} wrong")
    return 1 if trace.wrong or not trace.rows else 0


sys.exit(main(sys.argv[1:]))
