#!/usr/bin/env python3
"""The model of looks.py on the samples: literal texts, as plain asserts.

test_looks.py
"""

import json
import os

import looks
import make_samples

SAMPLES = make_samples.samples()
HELLO_SHA = "34831b59f82b9703e0c7f9a85eb844b64d755aa7a58150a3debd249f82c76324"
HELLO_STORED = "C8C5CCCCCF" + "A0" * 25
HELLO_HEAD = '{"entries":1,"free":494,"fs":"dos","places":560,"volume":"254"}\n'
HELLO_ROW = (
    '{"access":null,"aux":768,"bytes":3,"created":null,"directory":false,"eof":null,"kind":4,"locked":true,"modified":null,"path":"HELLO",'
    f'"sha256":"{HELLO_SHA}","size":2,"stored":"{HELLO_STORED}","type":"B"}}\n')
WORK_LINES = (
    '{"entries":3,"free":268,"fs":"prodos","places":280,"volume":"WORK"}\n'
    '{"access":227,"aux":0,"bytes":131075,"created":"1986-05-01T12:30","directory":false,"eof":131075,"kind":6,"locked":false,'
    '"modified":"1986-05-01T12:30","path":"BIG","sha256":"58e25f60b023ae0fde42ac779ff7f2fc25a8d8af79c0a6bfff22c2ac3846bd14","size":3,'
    '"stored":"424947","type":"$06"}\n'
    '{"access":227,"aux":0,"bytes":null,"created":"1986-05-01T12:30","directory":true,"eof":512,"kind":15,"locked":false,'
    '"modified":"1986-05-01T12:30","path":"SUB","sha256":null,"size":1,"stored":"535542","type":"$0f"}\n'
    '{"access":227,"aux":0,"bytes":2,"created":null,"directory":false,"eof":2,"kind":4,"locked":false,"modified":null,"path":"SUB/A",'
    '"sha256":"8f434346648f6b96df89dda901c5176b10a6d83961dd3c1ac88b59b2dc327aa4","size":1,"stored":"5355422F41","type":"$04"}\n')
CSV_HEAD = "path,directory,type,kind,aux,access,locked,size,eof,created,modified"
# Where the entry of HELLO and its two sectors stand.
ENTRY, LIST, BODY = 256 * (17 * 16 + 15) + 0x0B, 256 * (3 * 16 + 14), 256 * (3 * 16 + 15)


def told(line, **images):
    """The status and the text of a command line over images by name, and over the samples."""
    return looks.Looks({**SAMPLES, **images}.__getitem__).told(line.split())


def same(line, status, text, **images):
    wanted, got = (status, None if text is None else text.encode("ascii")), told(line, **images)
    assert got == wanted, f"{line}: {got}, not {wanted}"


def changed(*changes):
    """The first sample with bytes put at places."""
    image = bytearray(SAMPLES["hello.dsk"])
    for at, data in changes:
        image[at:at + len(data)] = bytes(data)
    return bytes(image)


def dead_sector(track, sector):
    """The first sample in tracks, with a sector that can't be read."""
    image = bytearray(SAMPLES["hello.nib"])
    at = 6656 * track + 48 + 396 * make_samples.DOS_SKEW[sector]
    image[at + 24:at + 34] = bytes(10)
    return bytes(image)


def catalog_and_check():
    same("catalog hello.dsk --fs dos --order dos", 0, "DISK VOLUME 254\n*B 002 HELLO\nFREE 494\n")
    same("catalog hello.nib --auto", 0, "DISK VOLUME 254\n*B 002 HELLO\nFREE 494\n")
    work = ["VOLUME /WORK", " $06     3   131075 1986-05-01 12:30 BIG", " $0f     1      512 1986-05-01 12:30 SUB/",
            " $04     1        2 <NO DATE>        SUB/A", "FREE 268", ""]
    for image in ("work.po", "work.dsk", "work.nib"):
        same(f"catalog {image} --auto", 0, "\n".join(work))
        same(f"check {image} --auto", 0, "ACCEPTED files 2 parts 4 available 272 lost 0\n")
    same("check hello.po --auto", 0, "ACCEPTED files 1 parts 2 available 496 lost 0\n")
    same("check hello.dsk --auto --data-disk", 0, "ACCEPTED files 1 parts 2 available 528 lost 32\n")
    same("check hello.dsk --auto --reserve 3/15", 1, "FAULT InSystem 3/15\n")
    same("check hello.dsk --auto --reserve 3/16", 3, "REFUSED Reserve\n")
    same("catalog hello.dsk --fs dos --order nibble", 3, "REFUSED Length\n")
    same("catalog hello.dsk --fs prodos --order prodos", 3, "REFUSED Check\n")
    same("check hello.dsk --auto --fs prodos", 3, "REFUSED Unknown\n")
    same("check hello.dsk --fs dos", 2, None)


def list_as_data():
    same("list hello.dsk", 0, "HELLO\n")
    same("list work.po", 0, "BIG\nSUB/\nSUB/A\n")
    same("list hello.dsk --format json --digests", 0, HELLO_HEAD + HELLO_ROW)
    same("list hello.nib --format json --digests", 0, HELLO_HEAD + HELLO_ROW)
    same("list hello.dsk --format csv", 0, CSV_HEAD + '\n"HELLO",false,B,4,768,,true,2,,,\n')
    same("list hello.dsk --format csv --digests", 0, f'{CSV_HEAD},bytes,sha256\n"HELLO",false,B,4,768,,true,2,,,,3,{HELLO_SHA}\n')
    same("list hello.dsk --digests", 0, f"{HELLO_SHA}  HELLO\n")
    same("list work.po --fs prodos --order prodos --format json --digests", 0, WORK_LINES)
    same("list hello.dsk --digests --most 3", 0, f"{HELLO_SHA}  HELLO\n")
    same("list hello.dsk --digests --most 2", 3, "REFUSED TooLarge\n")
    same("list hello.dsk --most 0", 0, "HELLO\n")
    without = HELLO_ROW.replace('"bytes":3,', "").replace(f'"sha256":"{HELLO_SHA}",', "")
    same("list hello.dsk --format json", 0, HELLO_HEAD + without)


def list_of_places():
    row = HELLO_ROW.replace('"path"', '"parts":["list 0 3/14","body 0 3/15"],"path"')
    same("list hello.dsk --places --format json --digests", 0, HELLO_HEAD + row)
    _, text = told("list work.po --places --format json")
    parts = [json.loads(line)["parts"] for line in text.splitlines()[1:]]
    assert parts == [["master 0 block 7", "index 1 block 9", "body 256 block 8"], None, ["body 0 block 11"]], parts
    same("list hello.dsk --places", 2, None)
    same("list hello.dsk --places --format csv", 2, None)


def files_that_have_no_text():
    """A wild pointer, a sector that can't be read, and a list that can't be."""
    wild = changed((LIST + 0x0C + 2, [99, 0]))
    dead_body, dead_list = dead_sector(3, 15), dead_sector(3, 14)
    null_row = HELLO_ROW.replace('"bytes":3', '"bytes":null').replace(f'"{HELLO_SHA}"', "null").replace("768", "null")
    places, none = '"parts":["list 0 3/14","body 0 3/15"],"path"', '"parts":null,"path"'
    for image, order, parts in ((wild, "dos", none), (dead_list, "nibble", none), (dead_body, "nibble", places)):
        way = f"--fs dos --order {order}"
        row = null_row.replace('"path"', parts)
        same(f"list image {way}", 0, "HELLO\n", image=image)
        same(f"list image {way} --digests", 1, "-" * 64 + "  HELLO\n", image=image)
        same(f"list image {way} --digests --format json", 1, HELLO_HEAD + null_row, image=image)
        same(f"list image {way} --digests --format json --places", 1, HELLO_HEAD + row, image=image)
    same("check image --fs dos --order nibble", 0, "ACCEPTED files 1 parts 2 available 496 lost 0\n", image=dead_body)
    same("check image --fs dos --order nibble --bodies", 1, "UNREADABLE 3/15 HELLO\n", image=dead_body)
    same("check image --fs dos --order nibble --bodies", 4, "FAILED Device\n", image=dead_list)
    same("check hello.nib --auto --bodies", 0, "ACCEPTED files 1 parts 2 available 496 lost 0\n")
    same("list image --fs dos --order nibble", 4, "FAILED Device\n", image=dead_sector(17, 0))


def compare_two():
    same("compare hello.dsk hello.po --fs dos --order dos --other-order prodos", 0, "EQUAL files 1\n")
    same("compare hello.dsk hello.nib --all", 0, "SAME HELLO\nEQUAL files 1\n")
    unlocked = changed((ENTRY + 2, [0x04]))
    different = "DIFFERENT same 0 body {} entry {} only1 {} only2 {} unreadable 0\n".format
    same("compare hello.dsk image --fs dos --order dos", 1, "ENTRY HELLO\n" + different(0, 1, 0, 0), image=unlocked)
    other = changed((BODY + 4, [0xAA]))
    same("compare hello.dsk image --fs dos --order dos", 1, "BODY HELLO\n" + different(1, 0, 0, 0), image=other)
    renamed = changed((ENTRY + 2, [0x04, 0xC2, 0xD9, 0xC5, 0xA0, 0xA0]))
    text = "ONLY 1 HELLO\nONLY 2 BYE\n" + different(0, 0, 1, 1)
    same("compare one two --fs dos --order dos", 1, text, one=unlocked, two=renamed)
    same("compare hello.dsk image --fs dos --order dos", 3, "REFUSED Length 2\n", image=other[:-1])
    same("compare hello.dsk work.po --fs prodos", 3, "REFUSED Unknown 1\n")
    same("compare hello.dsk work.po --fs dos --order dos", 3, "REFUSED Check 2\n")
    same("compare hello.dsk work.po", 3, "REFUSED Unknown 2\n")
    same("compare hello.dsk hello.po --most 2", 3, "REFUSED TooLarge 1\n")
    same("compare - - --fs dos --order dos", 2, None)


def map_of_places():
    text = told("map hello.dsk --fs dos --order dos")[1].decode("ascii").splitlines()
    rest = "." * 13 + "S" + "." * 17
    assert text[:2] == ["15 SSSx" + rest, "14 SSSx" + rest], text
    assert text[2:16] == [f"{sector:2} SSS.{rest}" for sector in range(13, -1, -1)], text
    assert text[16:] == ["PARTS 2 IN ORDER 0 ELSEWHERE 2 LOST 0 FREE 494"], text
    reserved = told("map hello.dsk --fs dos --order dos --reserve 0/0,4/15")[1].decode("ascii").splitlines()
    assert reserved[0] == "15 SSSxR" + "." * 12 + "S" + "." * 17 and reserved[15].startswith(" 0 SSS."), reserved
    assert reserved[16] == "PARTS 2 IN ORDER 0 ELSEWHERE 2 LOST 0 FREE 493", reserved
    blocks = ["SSSSSSSoxxSo" + "." * 52, *["." * 64] * 3, "." * 24]
    wanted = [f"{64 * number:5} {line}" for number, line in enumerate(blocks)]
    wanted.append("PARTS 4 IN ORDER 2 ELSEWHERE 2 LOST 0 FREE 268")
    same("map work.po", 0, "\n".join([*wanted, ""]))
    same("map hello.dsk --reserve 3/15", 3, "REFUSED Check\n")


def the_sample_files():
    """The samples in their folder are those that are made."""
    folder = os.path.dirname(os.path.abspath(make_samples.__file__))
    for name, image in SAMPLES.items():
        with open(os.path.join(folder, name), "rb") as file:
            assert file.read() == image, name


def main():
    for case in (the_sample_files, catalog_and_check, list_as_data, list_of_places, files_that_have_no_text, compare_two, map_of_places):
        case()
    print("the model tells what the pages say")


if __name__ == "__main__":
    main()
