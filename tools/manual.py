#!/usr/bin/env python3
"""Makes the manual page and the completions of the shells from what the program itself tells of its commands; what its answers mean is
taken from the tables of its explanations.

tools/manual.py PROGRAM          writes man/a2shop.1 and completions/ anew
tools/manual.py PROGRAM --check  writes nothing, and fails where one of them is not what the program tells
"""

import pathlib
import re
import subprocess
import sys

TOP = pathlib.Path(__file__).resolve().parent.parent
TABLES = [TOP / "crates/explanations/src" / name for name in ("refusals.rt", "findings.rt")]

DESCRIPTION = """\
.B a2shop
lists, checks, reads, edits, converts and optimizes images of Apple II disks: volumes of DOS 3.3 and of ProDOS, in images in DOS order,
in ProDOS order, of nibble tracks, and in 2IMG files.
.PP
Answers go to standard output. A command writes to no file but those that its words name: the image of
.BR \\-\\-out ,
with
.B \\-\\-in\\-place
the image's own file, the certificate of
.BR \\-\\-cert ,
and the new folder of
.BR "extract \\-\\-into" .
A file that is replaced, and a new folder, are written beside their place and renamed once they are whole.
.PP
Without a command it lists the DOS 3.3 disk in DOS order on standard input.
.PP
.B \\-\\-auto
finds out the file system and the order that the words leave out, as
.B identify
does; where no way to read the image is best, the command is refused. The value
.B auto
of
.B \\-\\-fs
or
.B \\-\\-order
does the same for one of them, and
.B \\-\\-order 2img
uses the order in the header of a 2IMG file.
.B \\-\\-explain
adds, on standard error, what the answer means and what to do next. Both may stand before the command's name and behind it."""

STATUSES = [
    ("0", "Done; also for help and the version."),
    ("1", "Something was found: a fault, a difference, a wrong certificate, a file that can't be read, or doubt about the order."),
    ("2", "The command line is bad; the message says what is wrong."),
    ("3", "Refused, and nothing was changed; one line says why."),
    ("4", "Failed: a file, a sector, the output, or not enough memory."),
]

VERSION = "Print the version"

NOTES = [
    "Sectors 0 and 15 of a track are the same in DOS order and in ProDOS order, so a volume may seem sound in the wrong order."
    " Where the listing lacks files, or places are lost without a reason, try the other order before anything is written.",
    "Lost places are marked used and belong to no file.  They come of a save that was stopped, but also of an image that is read in"
    " the wrong order, or of a disk whose first tracks hold what is no file.  \\fB\\-\\-reclaim\\fR gives them to files.",
    "\\fB\\-\\-data\\-disk\\fR says that tracks 1 and 2 hold files.  Together with \\fB\\-\\-reclaim\\fR on a disk that starts a machine it"
    " gives the tracks of the system to files.",
    "What \\fB\\-\\-out\\fR names is at every moment what stood there before or the whole new image.  It is first written to a file"
    " beside it, whose name has a number and \\fB.new\\fR behind it, and that file then takes its place.  Where the program is killed,"
    " such a file may stay behind: it is part of an image, or the whole of one that was never told, and may be deleted.",
    "While an image is read, its file has a shared lock; while it is changed, with \\fB\\-\\-in\\-place\\fR or by an \\fB\\-\\-out\\fR that"
    " names the image itself, it has a lock that nobody else gets.  Where another program holds such a lock, the answer is"
    " \\fBFAILED Input\\fR and nothing is written.",
    "\\fBcheck\\fR looks at the directory, the map and the pointers of a volume.  It does not read what stands in the files.",
    "A captured track may hold one sector twice.  The first field that counts is read and written, and the other stays as it was;"
    " \\fBa2shop convert \\-\\-order nibble \\-\\-to nibble\\fR makes every track anew.",
]

EXAMPLES = [
    ("See how an image can be read", "a2shop identify disk.dsk"),
    ("List a disk", "a2shop catalog disk.dsk --auto"),
    ("List all about its files as JSON", "a2shop list disk.dsk --format json"),
    ("Take all files out, with their texts in a form that can be read", "a2shop extract disk.dsk --into files --texts"),
    ("Make a disk, and put the files in", "a2shop create --fs prodos --out new.po && a2shop add new.po --from files --out new.po"),
    ("Save one text", "a2shop save disk.dsk LETTER --auto --from letter.txt --as text --out disk.dsk"),
    ("Check a disk, and say what the faults mean", "a2shop check disk.dsk --auto --explain"),
    ("Put its files in order, in a file of its own", "a2shop optimize disk.dsk --auto --out ordered.dsk"),
    ("Make nibble tracks of it", "a2shop convert disk.dsk --order dos --to nibble --out disk.nib"),
]

# What help says of an option that takes some words alone.
CHOICES = re.compile(r" ?\[possible values: (.*)\]$")


class Command:
    """A command: its name, one line of what it does, its usage, and its arguments and options with their texts."""

    def __init__(self, program, name, text):
        self.name, self.text = name, text
        told = help_of(program, name)
        self.usage = " ".join(re.search(r"^Usage: (.*(?:\n {7}.*)*)$", told, re.M)[1].split())
        self.arguments = rows_of(told, "Arguments")
        self.options = [row for row in rows_of(told, "Options") if row[0] != "-h, --help"]


def help_of(program, *words):
    return subprocess.run([program, *words, "--help"], capture_output=True, text=True, check=False).stdout


def rows_of(told, section):
    """The rows of a section: the words and what they mean, which may go on in further lines."""
    found = re.search(rf"^{section}:\n((?:  .*\n?)+)", told, re.M)
    rows = []
    for line in found[1].splitlines() if found else []:
        row = re.match(r" {2,6}([-<]\S.*?)  +(\S.*)$", line)
        if row:
            rows.append((row[1].replace("...", ""), row[2]))
        elif rows:
            rows[-1] = (rows[-1][0], f"{rows[-1][1]} {line.strip()}")
    return rows


def commands_of(program):
    """The commands, in the order of the groups in which the program's help lists them."""
    groups = re.findall(r"^[A-Z][a-z, ]*:\n((?:  [a-z]+ +\S.*\n)+)", help_of(program), re.M)
    return [Command(program, name, text) for group in groups for name, text in re.findall(r"^  ([a-z]+) +(\S.*)$", group, re.M)]


def choices_of(text):
    """The words that an option takes, where it takes some words alone."""
    found = CHOICES.search(text)
    return found[1].split(", ") if found else []


def meaning_of(text):
    return CHOICES.sub("", text)


def takes_file(words):
    return words.endswith(("<FILE>", "<IMAGE>", "<FOLDER>"))


def troff(text):
    """A text as troff takes it, with the words between backquotes in bold letters."""
    return re.sub("`([^`]*)`", r"\\fB\1\\fR", text.replace("\\", "\\e").replace("-", "\\-"))


def explanations():
    """The rows of the tables: what is told, what it means, and what to do next."""
    rows = "".join(table.read_text(encoding="utf-8") for table in TABLES)
    texts = re.findall(r'(?:front|meaning|advice): "((?:[^"\\]|\\.|\\\n)*)"', rows)
    texts = [re.sub(r"\\\n\s*", "", text) for text in texts]
    return list(zip(texts[::3], texts[1::3], texts[2::3]))


def manual(commands):
    lines = ['.TH A2SHOP 1 "" "a2shop" "User Commands"', ".SH NAME", "a2shop \\- work on images of Apple II disks", ".SH SYNOPSIS"]
    for command in commands:
        lines += [f".B {troff(command.usage)}", ".br"]
    lines += [".SH DESCRIPTION", DESCRIPTION, ".SH COMMANDS"]
    for command in commands:
        lines += [f".SS {troff(command.name)}", troff(command.text) + "."]
        for words, text in command.arguments + command.options:
            lines += [".TP", f".B {troff(words)}", troff(text) + "."]
    lines += [".SH EXIT STATUS"]
    for status, text in STATUSES:
        lines += [".TP", f".B {status}", troff(text)]
    lines += [".SH DIAGNOSTICS", "How a line begins, and what that means.  \\fB\\-\\-explain\\fR tells the same of an answer on standard error."]
    for front, meaning, advice in explanations():
        lines += [".TP", f".B {troff(front)}", troff(meaning), troff(advice)]
    lines += [".SH NOTES"]
    for text in NOTES:
        lines += [".PP", text]
    lines += [".SH EXAMPLES"]
    for text, line in EXAMPLES:
        lines += [".TP", troff(text), f".B {troff(line)}"]
    return "\n".join(lines) + "\n"


def flag_of(words):
    return words.split()[0]


def bash(commands):
    names = " ".join(command.name for command in commands)
    lines = [
        "# The completion of a2shop for bash.",
        "_a2shop() {",
        "  local word=${COMP_WORDS[COMP_CWORD]} before=${COMP_WORDS[COMP_CWORD-1]}",
        "  COMPREPLY=()",
        '  if [ "$COMP_CWORD" -eq 1 ]; then',
        f'    mapfile -t COMPREPLY < <(compgen -W "{names} help --auto --explain --help --version" -- "$word")',
        "    return",
        "  fi",
        '  case "${COMP_WORDS[1]} $before" in',
    ]
    for command in commands:
        for words, text in command.options:
            flag, choices = flag_of(words), choices_of(text)
            if choices:
                lines.append(f"""    '{command.name} {flag}') mapfile -t COMPREPLY < <(compgen -W "{' '.join(choices)}" -- "$word"); return ;;""")
            elif takes_file(words):
                lines.append(f"""    '{command.name} {flag}') mapfile -t COMPREPLY < <(compgen -f -- "$word"); return ;;""")
            elif "<" in words:
                lines.append(f"    '{command.name} {flag}') return ;;")
    lines += ["  esac", '  if [[ $word != -* ]]; then', '    mapfile -t COMPREPLY < <(compgen -f -- "$word")', "    return", "  fi", '  case "${COMP_WORDS[1]}" in']
    for command in commands:
        flags = " ".join(flag_of(words) for words, _ in command.options)
        lines.append(f"""    {command.name}) mapfile -t COMPREPLY < <(compgen -W "{flags} --help" -- "$word") ;;""")
    lines += ["  esac", "}", "complete -o filenames -F _a2shop a2shop"]
    return "\n".join(lines) + "\n"


def quoted(text):
    return text.replace("'", "'\\''").replace("[", "(").replace("]", ")").replace(":", "\\:")


def zsh(commands):
    lines = ["#compdef a2shop", "# The completion of a2shop for zsh.", "_a2shop() {", "  local -a commands", "  commands=("]
    lines += [f"    '{command.name}:{quoted(command.text)}'" for command in commands]
    lines += ["  )", "  if (( CURRENT == 2 )); then", "    _describe command commands", f"    _arguments '--version[{VERSION}]'", "    return", "  fi", "  local command=$words[2]", "  shift words", "  (( CURRENT -= 1 ))", "  case $command in"]
    for command in commands:
        lines.append(f"    {command.name}) _arguments \\")
        for words, text in command.options:
            flag, choices = flag_of(words), choices_of(text)
            value = f":value:({' '.join(choices)})" if choices else ":file:_files" if takes_file(words) else ":value: " if "<" in words else ""
            lines.append(f"      '{flag}[{quoted(meaning_of(text))}]{value}' \\")
        lines.append("      '*:file:_files' ;;")
    lines += ["  esac", "}", '_a2shop "$@"']
    return "\n".join(lines) + "\n"


def fish(commands):
    lines = [
        "# The completion of a2shop for fish.",
        f"complete -c a2shop -n __fish_use_subcommand -l version -d '{VERSION}'",
    ]
    for command in commands:
        text = command.text.replace("'", "\\'")
        lines.append(f"complete -c a2shop -n __fish_use_subcommand -f -a {command.name} -d '{text}'")
        for words, text in command.options:
            flag, choices = flag_of(words)[2:], choices_of(text)
            value = f" -x -a '{' '.join(choices)}'" if choices else " -r" if takes_file(words) else " -x" if "<" in words else ""
            text = meaning_of(text).replace("'", "\\'")
            lines.append(f"complete -c a2shop -n '__fish_seen_subcommand_from {command.name}' -l {flag}{value} -d '{text}'")
    return "\n".join(lines) + "\n"


def main():
    words = sys.argv[1:]
    if len(words) not in (1, 2) or words[1:] not in ([], ["--check"]):
        sys.exit(__doc__)
    commands = commands_of(words[0])
    made = {
        "man/a2shop.1": manual(commands),
        "completions/a2shop.bash": bash(commands),
        "completions/_a2shop": zsh(commands),
        "completions/a2shop.fish": fish(commands),
    }
    old = []
    for name, text in made.items():
        path = TOP / name
        if words[1:] != ["--check"]:
            path.parent.mkdir(exist_ok=True)
            path.write_text(text, encoding="utf-8")
        elif not path.is_file() or path.read_text(encoding="utf-8") != text:
            old.append(name)
    if old:
        sys.exit(f"not what the program tells: {', '.join(old)}; make them anew by tools/manual.py PROGRAM")


if __name__ == "__main__":
    main()
