#!/usr/bin/env python3
"""Readable forms of files: texts, programs in Applesoft and in Integer BASIC, and AppleSingle files, worked out from docs/formats.md alone.

texts.py

Without words it weighs the worked examples, as they are printed, and tells how many of them held. A text is its bytes in UTF-8.
"""

import hashlib
import sys
from typing import NamedTuple

RETURN, TAB, DELETE = 0x0D, 0x09, 0x7F
DELETE_PICTURE = "\u2421"


# ---- characters ----
def picture(code):
    """A code of seven bits where each control character is shown by its picture."""
    if code == DELETE:
        return DELETE_PICTURE
    return chr(code) if code >= 0x20 else chr(0x2400 + code)


def code_of(character):
    """The code that a character or a picture stands for, or None."""
    if character == DELETE_PICTURE:
        return DELETE
    if "\u2400" <= character <= "\u241f":
        return ord(character) - 0x2400
    return ord(character) if " " <= character <= "~" else None


def lines_of(text):
    """The lines of a text, without the newlines that end them; a return right before a newline is part of it."""
    *ended, last = text.split(b"\n")
    lines = [line[:-1] if line.endswith(b"\r") else line for line in ended]
    return [*lines, last] if last else lines


# ---- texts ----
def shown_character(byte):
    """What stands in a text for a byte."""
    code = byte & 0x7F
    return {RETURN: "\n", TAB: "\t"}.get(code) or picture(code)


def shown_text(data):
    """The text that bytes are shown as."""
    return "".join(map(shown_character, data)).encode("utf-8")


def taken_line(line, zeros):
    """The codes of a line of a text, or None where it can't be taken."""
    try:
        characters = line.decode("utf-8")
    except UnicodeDecodeError:
        return None
    codes = [TAB if character == "\t" else code_of(character) for character in characters]
    refused = {"\u2409", "\u240d"} | (set() if zeros else {"\u2400"})
    return None if None in codes or refused & set(characters) else bytes(codes)


def taken_text(text, high, zeros):
    """The bytes of a text with the high bit that is asked for, or the number of the first line that can't be taken."""
    lines = [taken_line(line, zeros) for line in lines_of(text)]
    if None in lines:
        return 1 + lines.index(None)
    codes = bytes([RETURN]).join([*lines, b""] if text.endswith(b"\n") else lines)
    return bytes(code | 0x80 for code in codes) if high else codes


# ---- Applesoft ----
APPLESOFT_WORDS = """
END FOR NEXT DATA INPUT DEL DIM READ GR TEXT PR# IN# CALL PLOT HLIN VLIN
HGR2 HGR HCOLOR= HPLOT DRAW XDRAW HTAB HOME ROT= SCALE= SHLOAD TRACE NOTRACE NORMAL INVERSE FLASH
COLOR= POP VTAB HIMEM: LOMEM: ONERR RESUME RECALL STORE SPEED= LET GOTO RUN IF RESTORE &
GOSUB RETURN REM STOP ON WAIT LOAD SAVE DEF POKE PRINT CONT LIST CLEAR GET NEW
TAB( TO FN SPC( THEN AT NOT STEP + - * / ^ AND OR >
= < SGN INT ABS USR FRE SCRN( PDL POS SQR RND LOG EXP COS SIN
TAN ATN PEEK LEN STR$ VAL ASC CHR$ LEFT$ RIGHT$ MID$
""".split()
FIRST_TOKEN = 0x80
DATA, REM, PRINT, THEN, AT = (FIRST_TOKEN + APPLESOFT_WORDS.index(word) for word in ("DATA", "REM", "PRINT", "THEN", "AT"))
PROGRAM, GREATEST_LINK, GREATEST_NUMBER, LONGEST_LINE = 0x0801, 0xFFFD, 65_535, 255
CAPITALS = {ord(small): ord(small) - 0x20 for small in "abcdefghijklmnopqrstuvwxyz"}
# The tokens by the first character of their words, in the order of the table.
TOKENS_FROM = {
    first: [(token, word) for token, word in enumerate(APPLESOFT_WORDS, FIRST_TOKEN) if word[0] == first]
    for first in {word[0] for word in APPLESOFT_WORDS}}


def low_first(data):
    return int.from_bytes(data, "little")


def applesoft_line(number, code):
    """A line of a listing, or None where some byte is no token."""
    if max(code, default=0) >= FIRST_TOKEN + len(APPLESOFT_WORDS):
        return None
    pieces = [picture(byte) if byte < FIRST_TOKEN else f" {APPLESOFT_WORDS[byte - FIRST_TOKEN]} " for byte in code]
    return f"{number} {''.join(pieces)}\n"


def applesoft_listing(data):
    """The listing of a program in Applesoft, or None of bytes that are none."""
    lines, at = [], 0
    while data[at:at + 2] != b"\0\0":
        end = data.find(b"\0", at + 4)
        line = None if end < 0 else applesoft_line(low_first(data[at + 2:at + 4]), data[at + 4:end])
        if line is None:
            return None
        lines.append(line)
        at = end + 1
    return "".join(lines).encode("utf-8")


class BadLine(Exception):
    """A line of a text that no program can have."""


def as_it_is(character):
    """The code of a character that stands for itself."""
    code = code_of(character)
    if not code:
        raise BadLine
    return code


def word_ends(line, at, word):
    """Where a word ends that stands at a place of a line, spaces between its characters passed over, or None."""
    for number, wanted in enumerate(word):
        while number > 0 and line[at:at + 1] == " ":
            at += 1
        if line[at:at + 1].translate(CAPITALS) != wanted:
            return None
        at += 1
    return at


def token_at(line, at):
    """The first token whose word stands at a place of a line, and where the word ends, or None."""
    for token, word in TOKENS_FROM.get(line[at].translate(CAPITALS), []):
        end = word_ends(line, at, word)
        if end is not None and not (token == AT and line[end:end + 1] in set("NnOo")):
            return token, end
    return None


def end_of_string(line, at):
    """Where a string ends that begins at a place of a line."""
    end = line.find('"', at + 1)
    return len(line) if end < 0 else end + 1


def end_of_data(line, at):
    """Where the data end that begin at a place of a line: at the first colon outside of quotation marks."""
    while at < len(line) and line[at] != ":":
        at = end_of_string(line, at) if line[at] == '"' else at + 1
    return at


def applesoft_item(line, at, begins):
    """What is taken at a place of a line that is no space: its token or None, and where it ends; a statement may begin there or not."""
    character = line[at]
    if character == '"':
        return None, end_of_string(line, at)
    if character == "?":
        if not begins:
            raise BadLine
        return PRINT, at + 1
    if character in "0123456789:;":
        return None, at + 1
    return token_at(line, at) or (None, at + 1)


def applesoft_code(line):
    """The bytes of a line behind its number."""
    code, at, begins = [], 0, True
    while at < len(line):
        if line[at] == " ":
            at += 1
            continue
        token, end = applesoft_item(line, at, begins)
        taken = line[at:end]
        begins = taken == ":" or token == THEN
        if token is None:
            code += map(as_it_is, taken if len(taken) > 1 else taken.translate(CAPITALS))
        else:
            code.append(token)
        if token in (DATA, REM):
            first = end + (line[end:end + 1] == " ")
            end = len(line) if token == REM else end_of_data(line, first)
            code += map(as_it_is, line[first:end])
        at = end
    return bytes(code)


def numbered_line(line):
    """The number of a line, and what stands behind it."""
    line = line.lstrip(" ")
    digits = line[:len(line) - len(line.lstrip("0123456789"))]
    if not digits or len(digits.lstrip("0")) > 5:
        raise BadLine
    return int(digits.lstrip("0") or "0"), line[len(digits):]


def linked_line(line, least, address):
    """A line of a program at an address, whose number is `least` at least, and its number."""
    number, rest = numbered_line(line.decode("utf-8"))
    code = applesoft_code(rest)
    length = 4 + len(code) + 1
    if not least <= number <= GREATEST_NUMBER or not code or length > LONGEST_LINE or address + length > GREATEST_LINK:
        raise BadLine
    return (address + length).to_bytes(2, "little") + number.to_bytes(2, "little") + code + b"\0", number


def applesoft_tokens(text):
    """The program of a text, or the number of the first line with which the lines before it are no program."""
    program, least = b"", 0
    for count, line in enumerate(lines_of(text), 1):
        if not line.strip(b" "):
            continue
        try:
            linked, number = linked_line(line, least, PROGRAM + len(program))
        except (BadLine, UnicodeDecodeError):
            return count
        program, least = program + linked, number + 1
    return program + b"\0\0"


# ---- Integer BASIC ----
# A row has eight words; None stands for a token that has no word of which all accounts agree.
INTEGER_WORDS = [
    None, None, None, ":", "LOAD", "SAVE", "CON", "RUN",
    "RUN", "DEL", ",", "NEW", "CLR", "AUTO", ",", "MAN",
    "HIMEM:", "LOMEM:", "+", "-", "*", "/", "=", "#",
    ">=", ">", "<=", "<>", "<", "AND", "OR", "MOD",
    "^", None, "(", ",", "THEN", "THEN", ",", ",",
    '"', '"', "(", None, None, "(", "PEEK", "RND",
    "SGN", "ABS", "PDL", None, "(", "+", "-", "NOT",
    "(", "=", "#", "LEN(", "ASC(", "SCRN(", ",", "(",
    "$", "$", "(", ",", ",", ";", ";", ";",
    ",", ",", ",", "TEXT", "GR", "CALL", "DIM", "DIM",
    "TAB", "END", "INPUT", "INPUT", "INPUT", "FOR", "=", "TO",
    "STEP", "NEXT", ",", "RETURN", "GOSUB", "REM", "LET", "GOTO",
    "IF", "PRINT", "PRINT", "PRINT", "POKE", ",", "COLOR=", "PLOT",
    ",", "HLIN", ",", "AT", "VLIN", ",", "AT", "VTAB",
    "=", "=", ")", ")", "LIST", ",", "LIST", "POP",
    "NODSP", "NODSP", "NOTRACE", "DSP", "DSP", "TRACE", "PR#", "IN#"]
END_OF_LINE, OPENING, CLOSING, INTEGER_REM = 0x01, 0x28, 0x29, 0x5D
SPACE_BEFORE = {"AND", "OR", "MOD", "THEN", "TO", "STEP", "AT"}
DIGITS, LETTERS = range(0xB0, 0xBA), range(0xC1, 0xDB)


class NoProgram(Exception):
    """Bytes that are no program in Integer BASIC."""


def low_pictures(data):
    """Bytes by their low seven bits, control characters as their pictures."""
    return "".join(picture(byte & 0x7F) for byte in data)


def spaced_word(token):
    """The word of a token with its spaces."""
    word = INTEGER_WORDS[token] if token < len(INTEGER_WORDS) else None
    if word is None:
        raise NoProgram
    letters = sum(map(str.isalpha, word))
    after = " " if letters >= 2 and word[-1] not in "(:=#" and word != "END" else ""
    return (" " if word in SPACE_BEFORE else "") + word + after


def integer_item(code, at):
    """The item that stands at a place of a line's code, as it is shown, and where it ends."""
    byte = code[at]
    if byte == OPENING:
        end = code.find(CLOSING, at + 1)
        if end < 0:
            raise NoProgram
        return f'"{low_pictures(code[at + 1:end])}"', end + 1
    if byte == INTEGER_REM:
        return "REM " + low_pictures(code[at + 1:]), len(code)
    if byte in DIGITS:
        if at + 3 > len(code):
            raise NoProgram
        return str(low_first(code[at + 1:at + 3])), at + 3
    if byte in LETTERS:
        end = at + 1
        while end < len(code) and (code[end] in LETTERS or code[end] in DIGITS):
            end += 1
        return low_pictures(code[at:end]), end
    return spaced_word(byte), at + 1


def integer_line(line):
    """A line of a listing, of its bytes from its length to its end."""
    if len(line) < 4 or len(line) != line[0] or line[-1] != END_OF_LINE:
        raise NoProgram
    code, items, at = line[3:-1], [], 0
    while at < len(code):
        item, at = integer_item(code, at)
        items.append(item)
    return f"{low_first(line[1:3]):5} {''.join(items)}\n"


def integer_listing(data):
    """The listing of a program in Integer BASIC, or None of bytes that are none."""
    lines, at = [], 0
    try:
        while at < len(data) and data[at] != 0:
            lines.append(integer_line(data[at:at + data[at]]))
            at += data[at]
    except NoProgram:
        return None
    return "".join(lines).encode("utf-8")


# ---- AppleSingle ----
SINGLE, HEADER, ROW, MOST_ENTRIES = bytes.fromhex("0005160000020000"), 26, 12, 64
DATA_FORK, RESOURCE_FORK, REAL_NAME, PRODOS_INFO = 1, 2, 3, 11


class Info(NamedTuple):
    """What an AppleSingle file says of a file of ProDOS."""

    access: int
    type: int
    aux: int


def high_first(data):
    return int.from_bytes(data, "big")


def single_print(name, access, kind, aux, data):
    """The AppleSingle file of a file: its name in seven bits, its access, type and aux type, and its bytes."""
    info = access.to_bytes(2, "big") + kind.to_bytes(2, "big") + aux.to_bytes(4, "big")
    entries = [(REAL_NAME, name), (PRODOS_INFO, info), (DATA_FORK, data)]
    at, rows = HEADER + ROW * len(entries), b""
    for identity, content in entries:
        rows += b"".join(number.to_bytes(4, "big") for number in (identity, at, len(content)))
        at += len(content)
    return SINGLE + bytes(16) + len(entries).to_bytes(2, "big") + rows + name + info + data


def single_entries(file):
    """The entries of an AppleSingle file by their IDs, or None of a file that is none."""
    count = high_first(file[24:HEADER])
    if len(file) < HEADER or file[:8] != SINGLE or count > MOST_ENTRIES or HEADER + ROW * count > len(file):
        return None
    entries = {}
    for row in range(HEADER, HEADER + ROW * count, ROW):
        identity, at, length = (high_first(file[row + field:row + field + 4]) for field in (0, 4, 8))
        if identity in entries or at + length > len(file):
            return None
        entries[identity] = file[at:at + length]
    return entries


def single_read(file):
    """What an AppleSingle file says of its file, or None where it says nothing, and the bytes; None of a file that is not taken."""
    entries = single_entries(file)
    if entries is None or DATA_FORK not in entries or entries.get(RESOURCE_FORK):
        return None
    told = entries.get(PRODOS_INFO)
    if told is None:
        return None, entries[DATA_FORK]
    info = Info(high_first(told[0:2]), high_first(told[2:4]), high_first(told[4:8]))
    if len(told) < 8 or info.type > 0xFF or info.aux > 0xFFFF:
        return None
    return info, entries[DATA_FORK]


# ---- the forms of a file ----
def text_bytes(file_system, whole, body):
    """The bytes of a file that are a text: of DOS 3.3 all before the first $00."""
    return whole.split(b"\0")[0] if file_system == "dos" else body


def comes_back_as_text(file_system, whole, body):
    """Whether the text of a file gives its bytes back, all with the high bit that the first one has."""
    data = text_bytes(file_system, whole, body)
    rest = whole[len(data):] if file_system == "dos" else b""
    return not any(rest) and taken_text(shown_text(data), data[:1] >= b"\x80", True) == data


def comes_back_as_program(body):
    """Whether a file is a program in Applesoft whose listing gives its bytes back."""
    listing = applesoft_listing(body)
    return listing is not None and applesoft_tokens(listing) == body


def readable_form(file_system, kind, plain, whole, body):
    """The readable form that `extract --texts` writes of a file whose type is that of ProDOS, or None where it has none."""
    if kind == 0x04 and comes_back_as_text(file_system, whole, body):
        return shown_text(text_bytes(file_system, whole, body))
    if kind == 0xFC and comes_back_as_program(body):
        return applesoft_listing(body)
    return integer_listing(body) if kind == 0xFA and plain else None


# ---- the worked examples ----
TEXT_BYTES, TEXT = bytes.fromhex("C8C9A084C48D"), bytes.fromhex("484920E29084440A")
PROGRAM_TEXT = b"""\
10 HOME : PRINT "HELLO, WORLD"
20 FOR I=1 TO 10: PRINT I;: NEXT
30 REM  DONE
40 DATA  A, "B:C",3: GOTO 10
"""
PROGRAM_BYTES = bytes.fromhex("""
17 08 0A 00 97 3A BA 22 48 45 4C 4C 4F 2C 20 57 4F 52 4C 44 22 00 29 08 14 00 81 49 D0 31 C1 31 30 3A BA 49 3B 3A 82 00
34 08 1E 00 B2 20 44 4F 4E 45 00 49 08 28 00 83 20 41 2C 20 22 42 3A 43 22 2C 33 3A AB 31 30 00 00 00""")
PROGRAM_LISTING = b'10  HOME : PRINT "HELLO, WORLD"\n20  FOR I = 1 TO 10: PRINT I;: NEXT \n30  REM  DONE\n40  DATA  A, "B:C",3: GOTO 10\n'
LINES = {
    "10 IF A THEN 20": "AD C5 48 45 4E 32 30", "10 IF A=1 THEN ? B": "AD 41 D0 31 C4 BA 42", "10 FORI=ATOB": "81 49 D0 41 C1 42",
    "10 X=ATN(1)": "58 D0 E1 28 31 29", "10 HPLOT A TO B AT N": "93 41 C1 42 C5 4E",
    '10 ? CHR$(4)"CATALOG"': "BA E7 28 34 29 22 43 41 54 41 4C 4F 47 22", "10 ONERRGOTO 100": "A5 AB 31 30 30",
    "10 IF A<>B THEN 20": "AD 41 D1 CF 42 C4 32 30", "10 NOTRACE:NOT A": "9C 3A C6 41", "10 HGR2:HGR": "90 3A 91", "10 COLOR =3": "A0 33",
    "10 REM": "B2", '10 A$="X': "41 24 D0 22 58", "10 &X": "AF 58", "10 SCRN(1,2)": "D7 31 2C 32 29",
    '10 print "lower"': "BA 22 6C 6F 77 65 72 22"}
INTEGER_BYTES = bytes.fromhex("09 0A 00 61 28 C8 C9 29 01 0E 14 00 55 C9 56 B1 01 00 57 B1 0A 00 01 07 1E 00 5D C8 C9 01")
INTEGER_TEXT = b'   10 PRINT "HI"\n   20 FOR I=1 TO 10\n   30 REM HI\n'
SINGLE_BYTES = bytes.fromhex("""
00 05 16 00 00 02 00 00 00 00 00 00 00 00 00 00 00 00 00 00 00 00 00 00 00 03 00 00 00 03 00 00 00 3E 00 00 00 05 00 00
00 0B 00 00 00 43 00 00 00 08 00 00 00 01 00 00 00 4B 00 00 00 03 48 45 4C 4C 4F 00 C3 00 06 00 00 03 00 A9 00 60""")
# What cc65 writes: entry 1 at offset 3A, entry 11 at 32, access C3, type 06, aux $0803; behind it bytes of ours.
CC65_BYTES = SINGLE + bytes(16) + bytes.fromhex("0002 00000001 0000003A 00000003 0000000B 00000032 00000008 00C3 0006 00000803 A90060")


def program_line(code):
    """The program whose one line has the number 10 and some code."""
    return (PROGRAM + 5 + len(code)).to_bytes(2, "little") + b"\x0a\0" + code + b"\0\0\0"


def worked_examples():
    """Each worked example: its name, what is worked out, and what is wanted."""
    yield "a text", shown_text(TEXT_BYTES), TEXT
    yield "a text with zeros behind it", shown_text(text_bytes("dos", TEXT_BYTES + bytes(250), b"")), TEXT
    yield "a text taken back", taken_text(TEXT, True, False), TEXT_BYTES
    digest = hashlib.sha256("\n".join(APPLESOFT_WORDS).encode()).hexdigest()
    yield "the words of Applesoft", (len(APPLESOFT_WORDS), digest[:16]), (107, "974a522e33a75e2b")
    yield "a program", applesoft_tokens(PROGRAM_TEXT), PROGRAM_BYTES
    yield "a program of 74 bytes", len(PROGRAM_BYTES), 74
    yield "a listing", applesoft_listing(PROGRAM_BYTES), PROGRAM_LISTING
    yield "a listing taken back", applesoft_tokens(PROGRAM_LISTING), PROGRAM_BYTES
    for line in (b"10 PO?", b"10 A?", b"10"):
        yield f"no line {line.decode()}", applesoft_tokens(line), 1
    for line, code in LINES.items():
        yield f"the line {line}", applesoft_tokens(line.encode()), program_line(bytes.fromhex(code))
    yield "a THEN that is none", applesoft_listing(program_line(bytes.fromhex(LINES["10 IF A THEN 20"]))), b"10  IF  AT HEN20\n"
    yield "a program in Integer BASIC", integer_listing(INTEGER_BYTES), INTEGER_TEXT
    yield "128 tokens of Integer BASIC", (len(INTEGER_WORDS), INTEGER_WORDS.count(None)), (128, 7)
    yield "an AppleSingle file", single_print(b"HELLO", 0xC3, 0x06, 0x0300, bytes.fromhex("A90060")), SINGLE_BYTES
    yield "an AppleSingle file of 78 bytes", len(SINGLE_BYTES), 78
    yield "an AppleSingle file that is read", single_read(SINGLE_BYTES), (Info(0xC3, 0x06, 0x0300), bytes.fromhex("A90060"))
    yield "an AppleSingle file of cc65", single_read(CC65_BYTES), (Info(0xC3, 0x06, 0x0803), bytes.fromhex("A90060"))


def main():
    examples = list(worked_examples())
    broken = [(name, found, wanted) for name, found, wanted in examples if found != wanted]
    for name, found, wanted in broken:
        print(f"{name}: {found!r}, wanted {wanted!r}")
    print(f"{len(examples) - len(broken)} of {len(examples)} worked examples held")
    sys.exit(bool(broken))


if __name__ == "__main__":
    main()
