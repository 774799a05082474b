"""What a mirror promises over several runs, by scripts and reports alone: each sector is a register.

A sector that was written good has those bytes, and one whose write was stopped or refused may have them. A
good read shows a value that the sector may have, and from then on it has that one. So no older bytes come
back, whatever the order of the images and wherever the power was cut. After a `power` that is `ready N` only
the first N sectors are shown. A `press` makes new discs, and a lead that is given by hand is trusted: after
both nothing is known.
"""
from __future__ import annotations

import re
from typing import Dict, Iterator, List, Optional, Set, Tuple

from .medium import SECTOR
from .mirror import Line, line_of
from .script import lines_of

SHOWN = re.compile(r"sector ([0-9]+) (?:fill ([0-9a-f]{2})|hex ([0-9a-f]{4096}))")
STOPS = ("cut", "unread", "no", "too")
"""The first words of the answers of a write or a format that may have done a part."""


def answers_of(report: bytes) -> Iterator[Tuple[int, List[str]]]:
    """The answers of a report: the number of the line, and the answer with the lines after it."""
    number, found = 0, []
    for line in report.decode("ascii").splitlines():
        first, _, rest = line.partition(" ")
        if first == "sector":
            found.append(line)
            continue
        if found:
            yield number, found
        number, found = (int(first), [rest]) if first.isdigit() else (0, [])
    if found:
        yield number, found


class MirrorPromise:
    """The registers of a mirror's sectors, over one run after another on the same images."""

    def __init__(self) -> None:
        self.values: Dict[int, Set[bytes]] = {}
        self.capacity: Optional[int] = None

    def of(self, sector: int) -> Optional[Set[bytes]]:
        """What the sector may have, if that is known."""
        return self.values.get(sector)

    def see(self, script: bytes, report: bytes) -> Optional[str]:
        """Where the report of a run breaks the promise, if it does."""
        lines = {number: line_of(raw) for number, raw in lines_of(script)}
        for number, answer in answers_of(report):
            line = lines.get(number)
            broken = self.take(line, answer) if line is not None else None
            if broken is not None:
                return f"line {number}: {broken}"
        return None

    def take(self, line: Line, answer: List[str]) -> Optional[str]:
        words = answer[0]
        if (line.name == "press" and words == "pressed") or (line.name == "give" and words in ("a", "b")):
            self.values.clear()
            self.capacity = None
        elif line.name == "power" and words.startswith("ready "):
            self.capacity = int(words[len("ready "):])
        elif line.name == "format":
            self.capacity = None
            self.fill(words)
        elif line.name == "write":
            self.write(line, words)
        elif line.name == "read" and words == "good":
            return self.show(answer[1:])
        return None

    def fill(self, words: str) -> None:
        """A format made each sector zeros, or may have."""
        zeros = bytes(SECTOR)
        for sector, held in self.values.items():
            if words == "good":
                self.values[sector] = {zeros}
            elif words.split(" ")[0] in STOPS:
                held.add(zeros)

    def write(self, line: Line, words: str) -> None:
        first, count = line.numbers
        for at in range(count):
            data = line.data[SECTOR * at:SECTOR * (at + 1)]
            if words == "good":
                self.values[first + at] = {data}
            elif words.split(" ")[0] in STOPS and first + at in self.values:
                self.values[first + at].add(data)

    def show(self, shown: List[str]) -> Optional[str]:
        for text in shown:
            match = SHOWN.fullmatch(text)
            if match is None:
                return f"no sector: {text[:40]}"
            sector, fill, digits = match.groups()
            if self.capacity is not None and int(sector) >= self.capacity:
                return f"sector {sector} is shown of a disc with {self.capacity}"
            data = bytes.fromhex(fill) * SECTOR if fill else bytes.fromhex(digits)
            held = self.of(int(sector))
            if held is not None and data not in held:
                return f"sector {sector} shows bytes that it may not have"
            self.values[int(sector)] = {data}
        return None
