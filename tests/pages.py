#!/usr/bin/env python3
"""Says what the pages of the repository get wrong, a line for each: a crate without a page; an example of a page that does not stand,
line by line, in the tests that the page names; a file of a crate that a page names and that is not there; a paragraph or a cell of a
table that is too long to be read; a line of code, or of a definition, that is; and a wrong body whose old text is not there.

pages.py TOP
"""

import pathlib
import re
import sys
import textwrap

EXAMPLE = re.compile(r"^```rust\n((?:(?!```).*\n)*)```\n\nThese lines stand in `(\w+)`(?: of `(\w+)`)?", re.M)
CODE = re.compile(r"^```.*?^```$", re.M | re.S)
FILE = re.compile(r"(?:crates/(\w+)/)?(?:(specs|src|proofs)/)?((?:\w+/)*\w+\.(?:antt|rt))")
# How a heading, a row, or an item of a list begins.
BEGINS = re.compile(r"#|\||- |\d+\. ")
TICKED = re.compile(r"`([^`\n]+)`")
# The most characters of a paragraph, or of a cell of a table.
MOST = 1000
# The most columns of a line of a crate's sources, and of its definitions but for what they import.
MOST_COLUMNS = 120


def has_lines(source, example):
    """Whether the lines of an example stand in a source, one behind the other, however far they are moved in."""
    lines, wanted = source.split("\n"), example.rstrip("\n").split("\n")
    fronts = range(len(lines) - len(wanted) + 1)
    return any(textwrap.dedent("\n".join(lines[front : front + len(wanted)])) == "\n".join(wanted) for front in fronts)


def pieces(text):
    """The headings, paragraphs, items of lists and rows of tables of a page, without its blocks of code."""
    found = [""]
    for line in CODE.sub("", text).split("\n"):
        if not line.strip() or BEGINS.match(line) or BEGINS.match(found[-1]) and found[-1].startswith(("|", "#")):
            found.append("")
        found[-1] += f"{line}\n"
    return found


def examples_of(crates, name, page):
    """How many examples the page of a crate has, and those that stand in no test."""
    found = EXAMPLE.findall(page.read_text(encoding="utf-8"))
    lost = []
    for example, place, crate in found:
        folder = crates / crate / "src" / place if crate else crates / place / "src"
        sources = [path.read_text(encoding="utf-8") for path in folder.rglob("*.rt")]
        if not any(has_lines(source, example) for source in sources):
            lost.append(f"{name}: its example is not in {place}{crate and f' of {crate}'}")
    return len(found), lost


def lost_files(crates, names, page, piece):
    """The files that a piece of a page names and that no crate has that it names too, or whose page it is."""
    own = [page.parent.name] if page.parent.parent == crates else []
    ticked = TICKED.findall(piece)
    named = [word for word in ticked if word in names] + own
    for word in ticked:
        match = FILE.fullmatch(word)
        if not match:
            continue
        crate, folder, file = match.groups()
        folder = folder or ("specs" if file.endswith(".antt") else "src")
        if word != "src/lib.rt" and not any((crates / it / folder / file).is_file() for it in [crate or "", *named] if it):
            yield f"{page.name}: {word} is in none of {', '.join([crate] if crate else named) or 'the crates, since none is named'}"


def long_pieces(page, piece):
    """The cells of a row, or the paragraph, that have more characters than a reader takes in at once."""
    for text in piece.split("|") if piece.startswith("|") else [piece]:
        if len(text) > MOST:
            yield f"{page.name}: {len(text)} characters in one piece: {text.strip()[:60]}.."


def long_lines(crates):
    """The lines of the sources and of the definitions that are wider than they may be. What only proves is left out."""
    sources = list(crates.glob("*/src/**/*.rt"))
    definitions = [path for path in crates.glob("*/specs/**/*.antt") if "lemmas" not in path.parts]
    for path in sorted(sources + definitions):
        for number, line in enumerate(path.read_text(encoding="utf-8").split("\n"), start=1):
            is_import = path.suffix == ".antt" and line.startswith(("use ", "pub use "))
            if len(line) > MOST_COLUMNS and not is_import:
                yield f"{path.relative_to(crates)}:{number}: {len(line)} columns"


def lost_edits(crates):
    """A line for each wrong body of which an old text does not stand just once in the file that it names: it would never be tried."""
    for edit in sorted([*crates.glob("*/assure/*.edit"), *crates.glob("*/must-fail/*.edit")]):
        crate, source, counts = edit.parent.parent, "", []
        for line in edit.read_text(encoding="utf-8").splitlines():
            word, _, text = line.partition(": ")
            if word == "file":
                source = (crate / text).read_text(encoding="utf-8") if (crate / text).is_file() else ""
            elif word == "old":
                counts.append(source.count(text))
        if not counts or any(count != 1 for count in counts):
            yield f"{crate.name}/{edit.parent.name}/{edit.name} changes text that stands {' and '.join(map(str, counts)) or 0} times"


def main(top):
    top = pathlib.Path(top)
    crates, examples, wrong = top / "crates", 0, []
    listed = (top / "crates.txt").read_text(encoding="utf-8").splitlines()
    names = {line.partition(":")[0] for line in listed if line and not line.startswith("#")}
    for name in sorted(names):
        page = crates / name / "README.md"
        if page.is_file():
            count, lost = examples_of(crates, name, page)
            examples, wrong = examples + count, wrong + lost
        elif name != "library_tests":
            wrong.append(f"{name} has no page")
    if examples < 20:
        wrong.append(f"{examples} examples")
    pages = [top / "README.md", top / "CONTRIBUTING.md", *sorted((top / "docs").glob("*.md")), *sorted(crates.glob("*/README.md"))]
    for page in pages:
        for piece in pieces(page.read_text(encoding="utf-8")):
            wrong += lost_files(crates, names, page, piece)
            wrong += [] if page.name == "DECISIONS.md" else long_pieces(page, piece)
    wrong += [*long_lines(crates), *lost_edits(crates)]
    print("".join(f"{line}\n" for line in wrong), end="")


if __name__ == "__main__":
    main(*sys.argv[1:])
