"""The lines of a script, what each of them does, and the report."""
from __future__ import annotations

import re
from enum import IntEnum
from typing import Callable, Iterator, List, NamedTuple, Optional, Tuple, TypeVar

from .cache import CachedDrive
from .commands import READS, Block, Target
from .drive import Check
from .medium import MOST_WEARS, SECTOR, Cut, Fate, Geometry, LayoutKind, Medium, PowerCut, State, Wear
from .scrub import Scrubber

LONGEST_LINE = 70_000
LONGEST_SCRIPT = 67_108_864
LONGEST_BLOCK = 16
LARGEST_NUMBER = 4_294_967_295
WORDS = {"NUMBER": "([0-9]{1,10})", "HEX": "((?:[0-9a-fA-F]{2})+)", "XX": "([0-9a-fA-F]{2})"}
FORMS = ("(press) NUMBER NUMBER NUMBER", "(power)", "(tick)", "(scrub)", "(scrub) (all)",
         "(fail) NUMBER", "(wear) NUMBER NUMBER", "(cut) NUMBER (old|new|torn)", "(cdb) HEX",
         "(cdb) HEX (fill|count) XX", "(cdb) HEX (hex) HEX")
PATTERNS = [re.compile(re.sub("NUMBER|HEX|XX", lambda word: WORDS[str(word.group())], form))
            for form in FORMS]

AnyLine = TypeVar("AnyLine")
"""The lines of a script, of one drive or of a mirror."""


class Status(IntEnum):
    """The exit status, as far as script and image decide it."""
    DONE = 0
    SCRIPT = 3
    NOT_A_DISC = 8


class End(Exception):
    """The run ends here, with a status and the words of its last line."""

    def __init__(self, status: Status, words: str) -> None:
        super().__init__()
        self.status, self.words = status, words


class Line(NamedTuple):
    """A line of the script: its name, and its other words as what they stand for."""
    name: str
    numbers: Tuple[int, ...] = ()
    fate: Fate = Fate.OLD
    block: Block = Block(b"")
    kind: str = ""
    data: bytes = b""

    @property
    def is_within_limits(self) -> bool:
        least = 1 if self.name in ("wear", "cut") else 0
        return all(number <= LARGEST_NUMBER
                   for number in self.numbers) and min(self.numbers[-1:], default=1) >= least


def line_of(line: bytes) -> Optional[Line]:
    """The line that these bytes are, if they have one of the forms."""
    text = " ".join(word for word in line.decode("latin-1").split(" ") if word)
    match = next((match for match in (pattern.fullmatch(text) for pattern in PATTERNS) if match), None)
    if match is None:
        return None
    name, *words = match.groups()
    if name == "cdb":
        block, kind, data = words if len(words) == 3 else (words[0], "hex", "")
        found = Line(name, block=Block(bytes.fromhex(block)), kind=kind, data=bytes.fromhex(data))
        return found if len(found.block.bytes) <= LONGEST_BLOCK else None
    if name == "scrub":
        return Line(name, kind="".join(words))
    fate = Fate(words.pop()) if name == "cut" else Fate.OLD
    found = Line(name, tuple(int(word) for word in words), fate)
    return found if found.is_within_limits else None


def lines_of(script: bytes) -> Iterator[Tuple[int, bytes]]:
    """The lines that have answers, with their numbers."""
    at = line_number = 0
    while at < len(script):
        line_number += 1
        feed = script.find(b"\n", at)
        end = len(script) if feed < 0 else feed
        if end - at > LONGEST_LINE and at + LONGEST_LINE < LONGEST_SCRIPT:
            raise End(Status.SCRIPT, f"{line_number} too long")
        if end > LONGEST_SCRIPT or feed == LONGEST_SCRIPT:
            raise End(Status.SCRIPT, "script too long")
        line = script[at:end]
        if line[-1:] == b"\r":
            line = line[:-1]
        if line.strip(b" ") and line[:1] != b"#":
            yield line_number, line
        at = end + 1


def sector_line(sector: int, data: bytes) -> str:
    if data == data[:1] * SECTOR:
        return f"sector {sector} fill {data[:1].hex()}"
    return f"sector {sector} hex {data.hex()}"


def data_of(line: Line) -> bytes:
    """The data of a command's line."""
    takes = line.block.takes
    if line.kind == "fill":
        return line.data * takes
    if line.kind == "count":
        return b"".join(bytes([(line.data[0] + at // SECTOR) % 256]) * min(takes - at, SECTOR)
                        for at in range(0, takes, SECTOR))
    return line.data


class Run:
    """A run of a script over an image, as that of a disc of this layout."""

    def __init__(self, image: bytes, layout: LayoutKind) -> None:
        self.image = bytearray(image)
        self.layout = layout
        self.target: Optional[Target] = None
        self.scrubber = Scrubber()
        self.insert()

    def insert(self) -> None:
        """Serves the image, with its power off, if it is a disc's."""
        geometry = Geometry.of(self.image, self.layout)
        self.target = Target(CachedDrive(Medium(self.image, geometry))) if geometry else None

    def answer(self, line: Line) -> List[str]:
        """Does what a line says: its answer, and the lines after it."""
        if line.name in ("press", "power"):
            self.scrubber = Scrubber()
        if line.name == "press":
            zones, scale, spares = line.numbers
            return [self.press(Geometry(zones, scale, spares, self.layout))]
        if self.target is None:
            raise End(Status.NOT_A_DISC, "not a disc")
        try:
            if line.name == "power":
                return [self.power(self.target)]
            if line.name == "tick":
                return [self.target.drive.tick()]
            if line.name == "scrub":
                return self.scrub(self.target, line.kind == "all")
            if line.name == "cdb":
                return self.command(self.target, line)
        except PowerCut:
            self.target.drive.cut()
            return ["cut"]
        return [self.arm(self.target.drive.medium, line)]

    def press(self, geometry: Geometry) -> str:
        if not geometry.is_lawful:
            return "not pressed"
        self.image = geometry.blank()
        self.insert()
        return "pressed"

    @staticmethod
    def power(target: Target) -> str:
        target.power()
        return "not formatted" if target.drive.lists is None else f"ready {target.drive.sectors}"

    def scrub(self, target: Target, everything: bool) -> List[str]:
        drive = target.drive
        return self.scrubber.scrub_all(drive) if everything else [self.scrubber.step(drive)]

    @staticmethod
    def arm(medium: Medium, line: Line) -> str:
        if line.name == "cut":
            medium.cut = Cut(line.numbers[0], line.fate)
            return "armed"
        block = line.numbers[0]
        if not medium.has(block):
            return "no such block"
        if line.name == "fail":
            medium.set_state(block, State.DEAD)
            return "failed"
        if len(medium.wears) == MOST_WEARS:
            return "full"
        medium.wears.append(Wear(block, line.numbers[1]))
        return "armed"

    @staticmethod
    def command(target: Target, line: Line) -> List[str]:
        block = line.block
        if not target.drive.on:
            return ["off"]
        try:
            reply = target.command(block, data_of(line))
        except Check as check:
            return [f"check {check.sense}"]
        if block.code in READS:
            return ["good"] + [sector_line(block.first + at, reply[SECTOR * at:SECTOR * (at + 1)])
                               for at in range(block.sectors)]
        return ["good"] + ([f"data {len(reply)} {reply.hex()}"] if reply else [])


def report_of(script: bytes, line_in: Callable[[bytes], Optional[AnyLine]],
              answer_to: Callable[[AnyLine], List[str]]) -> Tuple[bytes, int]:
    """The report of a script whose lines are read and answered so, and the exit status."""
    report, answered, status = [], 0, Status.DONE
    try:
        for line_number, raw in lines_of(script):
            line = line_in(raw)
            if line is None:
                raise End(Status.SCRIPT, f"{line_number} not in the script language")
            try:
                answer, *more = answer_to(line)
            except End as end:
                raise End(end.status, f"{line_number} {end.words}") from None
            report += [f"{line_number} {answer}", *more]
            answered += 1
        report.append(f"end {answered}")
    except End as end:
        status = end.status
        report.append(end.words)
    return "".join(f"{line}\n" for line in report).encode("ascii"), int(status)


def run(script: bytes, image: bytes, layout: LayoutKind = LayoutKind.ONE_GROUP,
        over: Optional[Run] = None) -> Tuple[bytes, int, bytes]:
    """The report of a script over an image, the exit status, and the image afterwards."""
    state = over or Run(image, layout)
    report, status = report_of(script, line_of, state.answer)
    return report, status, bytes(state.image)
