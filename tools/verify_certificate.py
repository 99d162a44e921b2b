#!/usr/bin/env python3
"""Verifies a certificate by itself: a second verifier, written from docs/certificates.md, that shares nothing with a2shop.

verify_certificate.py CERTIFICATE [OTHER]

The certificate is weighed for the layout that it tells, or for that of another certificate (as `a2shop plan` prints it of a
volume). Answers `OPTIMAL b`, `REFUSED Syntax line`, or `REFUSED` with the first fault; the status is 0 or 1.
"""

import re
import sys

NUMBER = r"(0|[1-9][0-9]{0,9})"
MOST = 4294967295


class Refused(Exception):
    """The first fault of a certificate."""


class Certificate:
    """What a certificate tells. A text that is none is refused with the first line that can't stand where it stands."""

    def __init__(self, text):
        self.lines = text.split("\n")
        self.last = self.lines.pop()
        self.line = 0
        self.need("A2CERT 1")
        parts, self.places = self.need(f"PARTS {NUMBER} PLACES {NUMBER}")
        self.at = []
        while len(self.at) < parts:
            self.at += self.need(f"AT {NUMBER}")
        self.off = [part for part, in self.all(f"OFF {NUMBER}")]
        self.rings = self.all(f"RING {NUMBER}(?: {NUMBER})*")
        self.bound, = self.need(f"BOUND {NUMBER}")
        self.moves = self.all(f"MOVE {NUMBER} {NUMBER}")
        self.need("END")
        if self.line < len(self.lines) or self.last:
            raise Refused(f"Syntax {self.line + 1}")

    def next(self, form):
        """The numbers of the next line, where it has this form."""
        if self.line == len(self.lines) or not re.fullmatch(form, self.lines[self.line]):
            return None
        numbers = [int(it) for it in re.findall(r"(?<= )[0-9]+", self.lines[self.line])]
        if any(it > MOST for it in numbers):
            return None
        self.line += 1
        return numbers

    def need(self, form):
        numbers = self.next(form)
        if numbers is None:
            raise Refused(f"Syntax {self.line + 1}")
        return numbers

    def all(self, form):
        found = []
        while (numbers := self.next(form)) is not None:
            found.append(numbers)
        return found


def refuse_repeats(numbers):
    seen = set()
    for number in numbers:
        if number in seen:
            raise Refused(f"Repeated {number}")
        seen.add(number)


def is_ring(ring, at):
    following = ring[1:] + ring[:1]
    return len(ring) > 1 and all(part < len(at) and at[part] == after for part, after in zip(ring, following))


def verify(cert, at, places):
    """The bound of a certificate that is good for a layout."""
    if (cert.at, cert.places) != (at, places):
        raise Refused("OtherLayout")
    for part in cert.off:
        if part >= len(at) or at[part] == part:
            raise Refused(f"NotMisplaced {part}")
    refuse_repeats(cert.off)
    refuse_repeats(part for ring in cert.rings for part in ring)
    for number, ring in enumerate(cert.rings):
        if not is_ring(ring, at):
            raise Refused(f"NotARing {number}")
    now, taken = list(at), set(at)
    for number, (part, place) in enumerate(cert.moves):
        if part >= len(now) or place >= places or place in taken:
            raise Refused(f"IllegalMove {number}")
        taken ^= {now[part], place}
        now[part] = place
    if now != list(range(len(now))):
        raise Refused("NotAtTarget")
    if not cert.bound == len(cert.off) + len(cert.rings) == len(cert.moves):
        raise Refused("Sum")
    return cert.bound


def answer(text, other):
    try:
        cert = Certificate(text)
        layout = Certificate(other) if other is not None else cert
        return f"OPTIMAL {verify(cert, layout.at, layout.places)}\n", 0
    except Refused as fault:
        return f"REFUSED {fault}\n", 1


if __name__ == "__main__":
    if len(sys.argv) not in (2, 3):
        sys.exit(__doc__)
    texts = [open(path, encoding="latin-1", newline="").read() for path in sys.argv[1:]]
    told, status = answer(texts[0], texts[1] if len(texts) > 1 else None)
    sys.stdout.write(told)
    sys.exit(status)
