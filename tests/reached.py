#!/usr/bin/env python3
"""Looks whether the program runs each public function that a page of the theorem, of the promises or of what is proved names.

A promise is worth something to a user only where the program keeps it, so a clause that stands on a function which no
path of the program reaches has to be known as that. A function is reached where its name stands in the body of one that
is, so a name that several functions have reaches them all: what this finds is surely not run.

    tests/reached.py          fails where a page names a function that the program does not run and that is not listed below,
                              or where the list names one that it does run or that no page names
    tests/reached.py --count  says how many there are, too
"""
import re
import sys
from collections import defaultdict
from pathlib import Path

PAGES = ["docs/theorem.md", "docs/promises.md", "docs/proved.md"]

FOR_TESTS = ("library_tests", "memory_host", "test_volumes")

# What the library has for others, with the reason why the program does not run it.
WHOLE = "the commands for a caller with a reader and two writers: the program does the same by the stages that they stand on"
LIBRARY_ONLY = {
    "run_command": WHOLE,
    "run_job": WHOLE,
    "job_of_words": WHOLE,
    "parse_words": WHOLE,
    "Reply::deliver": WHOLE,
    "replay": "the events of a mover, for who keeps them: the program has its image and its certificate",
}

WORD = re.compile(r"[A-Za-z_][A-Za-z_0-9]*")


# A text, a character or a comment, whichever comes first.
NO_CODE = re.compile(r"""b?"(?:\\[\s\S]|[^"\\])*"|b?'(?:\\.[^']*|[^'\\])'|//[^\n]*""")


def without_comments(text):
    return NO_CODE.sub('""', text)


def behind_block(text, at):
    """The position behind the block whose opening brace stands at a position."""
    depth = 0
    for place in range(at, len(text)):
        if text[place] == "{":
            depth += 1
        elif text[place] == "}":
            depth -= 1
            if depth == 0:
                return place + 1
    return len(text)


def end_of_head(text, at):
    """Where the head of a function ends: at the brace of its body, or at the semicolon of one that has none."""
    depth = 0
    for place in range(at, len(text)):
        if text[place] in "([":
            depth += 1
        elif text[place] in ")]":
            depth -= 1
        elif depth == 0 and text[place] in "{;":
            return place
    return len(text)


def without_clauses(text):
    """The text without contracts and ghost items."""
    found = []
    at = 0
    for match in re.finditer(r"\b(requires|ensures)\b(\s+[a-z_]+)?\s*\{|\bghost\s+(use|[a-z_]+)\b[^;{]*(\{|;)", text):
        if match.start() < at:
            continue
        found.append(text[at:match.start()])
        at = match.end()
        if text[at - 1] == "{":
            at = behind_block(text, at - 1)
    found.append(text[at:])
    return "".join(found)


def owner_of(head):
    """The type of an `impl` or the name of a trait, and whether its methods are those of a trait."""
    head = re.sub(r"<[^<>]*>", "", re.sub(r"<[^<>]*>", "", re.sub(r"<[^<>]*>", "", head)))
    if head.startswith("trait"):
        return WORD.findall(head)[1], True
    parts = head.split(" for ")
    return WORD.findall(parts[-1].split(" where ")[0])[-1 if len(parts) == 2 else -1], len(parts) == 2


class Function:
    def __init__(self, crate, owner, of_trait, name, is_public, body):
        self.crate, self.owner, self.of_trait = crate, owner, of_trait
        self.name, self.is_public, self.words = name, is_public, set(WORD.findall(body))
        # A law is about what it says alone: nothing is done in it, but that other laws are called.
        self.is_law = not of_trait and re.fullmatch(r"\{(\s*\w+\(\);)*\s*\}", body) is not None

    def shown(self):
        return f"{self.owner}::{self.name}" if self.owner else self.name


def functions_in(crate, text):
    text = without_clauses(without_comments(text))
    text = re.sub(r"#\[cfg\(test\)\]\s*mod \w+ \{", "mod {", text)
    blocks = []
    for match in re.finditer(r"^(?:pub(?:\([a-z]+\))? )?(impl\b|trait\b)([^{;]*)\{", text, re.M):
        owner, of_trait = owner_of((match.group(1) + match.group(2)).strip())
        blocks.append((match.start(), behind_block(text, match.end() - 1), owner, of_trait))
    for match in re.finditer(r"(pub(?:\([a-z]+\))? )?(?:const |final |unsafe )*fn ([a-z_0-9]+)", text):
        end = end_of_head(text, match.end())
        body = text[end:behind_block(text, end)] if end < len(text) and text[end] == "{" else ""
        owner, of_trait = None, False
        for start, stop, name, is_trait in blocks:
            if start < match.start() < stop:
                owner, of_trait = name, is_trait
        is_public = bool(match.group(1)) and match.group(1).strip() == "pub" or of_trait
        yield Function(crate, owner, of_trait, match.group(2), is_public, body)


def crates_of(tree):
    listed = {}
    for line in (tree / "crates.txt").read_text(encoding="utf-8").splitlines():
        if line.strip() and not line.startswith("#"):
            name, below = line.split(":")
            listed[name.strip()] = below.split()
    return listed


def all_functions(tree):
    found = []
    for crate in crates_of(tree):
        for path in sorted((tree / "crates" / crate / "src").rglob("*.rt")):
            found.extend(functions_in(crate, path.read_text(encoding="utf-8")))
    return found


def below_of(tree, program):
    listed = crates_of(tree)
    found, left = set(), [program]
    while left:
        crate = left.pop()
        if crate in listed and crate not in found:
            found.add(crate)
            left.extend(listed[crate])
    return found


def reached_from(functions, crate):
    by_name = defaultdict(list)
    for function in functions:
        by_name[function.name].append(function)
    # What a trait asks is called through the trait, by code of others too.
    left = [it for it in functions if it.crate == crate or it.of_trait]
    reached = set(left)
    while left:
        for word in left.pop().words:
            for other in by_name.get(word, []):
                if other not in reached:
                    reached.add(other)
                    left.append(other)
    return reached


def named_in(tree, functions):
    """The public functions that the pages name, by the name as it is shown."""
    by_shown, by_name = defaultdict(list), defaultdict(list)
    for function in functions:
        if function.is_public:
            by_shown[function.shown()].append(function)
            if function.owner is None:
                by_name[function.name].append(function)
    named = {}
    for page in PAGES:
        for said in re.findall(r"`([A-Za-z_0-9:]+)`", (tree / page).read_text(encoding="utf-8")):
            for function in by_shown.get(said, []) or by_name.get(said, []):
                named.setdefault(function, page)
    return named


def main():
    tree = Path(__file__).resolve().parent.parent
    functions = [it for it in all_functions(tree) if it.crate not in FOR_TESTS]
    below = below_of(tree, "shop_program")
    reached = reached_from([it for it in functions if it.crate in below], "shop_program")
    named = named_in(tree, functions)
    unreached = {it.shown(): page for it, page in named.items() if it not in reached and not it.is_law}
    faults = 0
    for shown, page in sorted(unreached.items()):
        if shown not in LIBRARY_ONLY:
            faults += 1
            print(f"{page} names {shown}, which the program does not run")
    for shown in sorted(LIBRARY_ONLY):
        if shown not in unreached:
            faults += 1
            print(f"{shown} is listed as the library's own: the program runs it, or no page names it")
    if "--count" in sys.argv[1:]:
        print(f"{len(named)} public functions that pages name, {len(unreached)} of them the library's own")
    return 1 if faults else 0


if __name__ == "__main__":
    sys.exit(main())
