"""A mirror of two discs, made from docs/MIRROR.md alone: which side leads, what it knows of the other, and
the lines of its script."""
from __future__ import annotations

import re
from contextlib import suppress
from dataclasses import dataclass, field
from typing import Callable, List, NamedTuple, Optional, Set, Tuple

from .drive import Check, Drive, TooMany
from .lists import LAST_COUNTER, SECTORS_IN_BLOCK
from .medium import BLOCK, MOST_WEARS, SECTOR, Cut, Fate, Geometry, LayoutKind, Medium, PowerCut, State, Wear
from .script import LARGEST_NUMBER, End, Status, report_of, sector_line

MOST_SECTORS = 1_024
SIGNATURE = b"\x4c\x45\x01"
NUMBER_AT = slice(4, 8)


class Record:
    """The record of the lead on one disc: its copies, of which the one with the greatest number counts."""

    def __init__(self, drive: Drive) -> None:
        self.drive = drive
        edge = drive.medium.geometry.lead_out
        self.blocks = [6, 7, edge + 6, edge + 7]

    @staticmethod
    def text(number: int) -> bytes:
        return (SIGNATURE + b"\0" + number.to_bytes(4, "big")).ljust(BLOCK, b"\0")

    def number_in(self, data: Optional[bytes]) -> Optional[int]:
        if data is None:
            return None
        number = int.from_bytes(data[NUMBER_AT], "big")
        return number if data == self.text(number) else None

    def read(self) -> Optional[int]:
        """Chooses the record, and repairs its copies: its number, or nothing where all copies are dead."""
        found = [self.number_in(self.drive.medium.read(block)) for block in self.blocks]
        number = max((one for one in found if one is not None), default=0)
        return number if self.put(self.drive.mend, number) else None

    def write(self, number: int) -> bool:
        """Whether a copy is left."""
        return self.put(self.drive.put, number)

    def put(self, call: Callable[[int, bytes], bool], number: int) -> bool:
        return any([call(block, self.text(number)) for block in self.blocks])


class Stopped(Exception):
    """The power of a side was cut."""


@dataclass
class Side:
    """One disc of a mirror."""
    drive: Drive
    number: Optional[int] = None
    """That of its record, as it was read in the newest `power`, or written since."""
    most: Optional[int] = None
    """The greatest number that was read here or begun to be written in this run."""

    def __post_init__(self) -> None:
        self.record = Record(self.drive)

    def tries(self, call: Callable[[], object]) -> object:
        """What a call makes of the drive; it may be stopped."""
        try:
            return call()
        except PowerCut:
            self.drive.cut()
            self.number = None
            raise Stopped from None

    def power(self) -> bool:
        """Whether its power is on then."""
        self.number = None
        try:
            self.tries(self.drive.power)
        except Stopped:
            return False
        return True

    def read_record(self) -> None:
        number = self.tries(self.record.read)
        assert number is None or isinstance(number, int)
        self.number, self.most = number, number or 0

    def write_record(self, number: int) -> bool:
        """Whether it is written: a copy can be read."""
        self.most = number
        written = self.tries(lambda: self.record.write(number)) is True
        self.number, self.most = (number, number) if written else (None, 0)
        return written

    @property
    def sectors(self) -> Optional[int]:
        return self.drive.sectors if self.drive.on and self.drive.lists is not None else None


class Refused(Exception):
    """A side refused a call, with these words."""

    def __init__(self, words: str, sector: Optional[int] = None) -> None:
        super().__init__()
        self.words, self.sector = words, sector

    def is_behind(self, block: int) -> bool:
        """Whether this block comes before the one that was refused, or all of them may be concerned."""
        return self.sector is None or block < self.sector // SECTORS_IN_BLOCK

    def is_from(self, block: int) -> bool:
        """Whether this block is the one that was refused or comes after it, or all may be concerned."""
        return self.sector is None or block >= self.sector // SECTORS_IN_BLOCK


def refusal(check: Check) -> Refused:
    """What a mirror calls the refusal of a read or a write of a side."""
    code, qualifier, sector = check.sense.code, check.sense.qualifier, check.sense.sector
    if code == 0x11:
        return Refused(f"unread {sector}", sector)
    if (code, qualifier) == (0x32, 0x00):
        return Refused(f"no spare {sector}", sector)
    return Refused(f"no update {check.number}")


class Mirror:
    """Two discs, of which one leads."""

    def __init__(self, media: Tuple[Medium, Medium]) -> None:
        self.sides = [Side(Drive(medium)) for medium in media]
        self.lead_is: Optional[int] = None
        self.by_hand = False
        self.on = self.up = False
        self.apart: Set[int] = set()

    @property
    def lead(self) -> Side:
        assert self.lead_is is not None
        return self.sides[self.lead_is]

    @property
    def other(self) -> Side:
        assert self.lead_is is not None
        return self.sides[1 - self.lead_is]

    def turn_off(self) -> None:
        self.on = self.up = False

    # The power, and who leads.

    def power(self) -> str:
        self.turn_off()
        ready = [side.power() for side in self.sides]
        for at, side in enumerate(self.sides):
            try:
                if ready[at]:
                    side.read_record()
            except Stopped:
                ready[at] = False
        knew, self.lead_is = self.lead_is, self.choose(ready)
        if self.lead_is is None:
            self.by_hand = False
            return "unknown"
        told = self.raise_numbers(ready)
        if told is None:
            return self.begin()
        self.lead_is = knew if told == "cut" else None
        self.by_hand = self.by_hand and self.lead_is is not None
        return told

    def choose(self, ready: List[bool]) -> Optional[int]:
        """Which side leads after the power went on, if that can be told."""
        lost = [on and side.number is None for on, side in zip(ready, self.sides)]
        if self.lead_is is None:
            if not all(ready) or any(lost):
                return None
            first, second = (side.number or 0 for side in self.sides)
            return 0 if first >= second else 1
        if lost[self.lead_is] or (any(lost) and not self.by_hand):
            return None if ready[self.lead_is] else self.lead_is
        return self.lead_is

    def raise_numbers(self, ready: List[bool]) -> Optional[str]:
        """Makes the lead's number greater than any that the other may have: why it cannot, if it cannot."""
        assert self.lead_is is not None
        lead, other = self.lead, self.other
        is_lost = ready[1 - self.lead_is] and other.number is None
        try:
            if not ready[self.lead_is]:
                return "cut"
            if other.number is None and not is_lost and other.most is None:
                return "unknown"
            most = other.number if ready[1 - self.lead_is] else other.most
            due = max(2, (most or 0) + 1)
            if (lead.number or 0) < due and (due > LAST_COUNTER or not lead.write_record(due)):
                return "unknown"
        except Stopped:
            return "cut"
        return self.number_new_disc()

    def number_new_disc(self) -> Optional[str]:
        """Gives the other side the number 1, where it has none: why the mirror is not on, if it is not."""
        try:
            is_new = self.other.drive.on and self.other.number == 0
            if is_new and not self.other.write_record(1) and not self.by_hand:
                return "unknown"
        except Stopped:
            pass
        return None

    def begin(self) -> str:
        """The power is on, and this side leads."""
        self.on = True
        sectors = self.lead.sectors
        if sectors is None:
            return "not formatted"
        self.up = self.other.sectors == sectors
        self.apart = set(range(sectors // SECTORS_IN_BLOCK))
        return f"ready {sectors}"

    def give_lead(self, at: int) -> str:
        """Gives the lead to a side by hand."""
        side, most = self.sides[at], self.sides[1 - at].most or 0
        if not side.drive.on:
            return "off"
        self.turn_off()
        due = max(2, most + 1)
        try:
            if (side.number or 0) < due and (due > LAST_COUNTER or not side.write_record(due)):
                return f"no update {min(due, LAST_COUNTER)}"
        except Stopped:
            return "cut"
        self.lead_is, self.by_hand = at, True
        return "ab"[at]

    def hand_over(self) -> bool:
        """Gives the lead of a side that was stopped to the other one: whether it leads now."""
        due = (self.lead.most or 0) + 1
        if not self.up or self.apart or due > LAST_COUNTER:
            self.turn_off()
            return False
        try:
            given = self.other.write_record(due)
        except Stopped:
            given = False
        if not given:
            self.turn_off()
            return False
        assert self.lead_is is not None
        self.lead_is, self.up = 1 - self.lead_is, False
        return True

    # Reads and writes.

    def check(self, first: int, count: int) -> None:
        """Refuses what the lead refuses before it does anything."""
        if not self.on or not self.lead.drive.on:
            raise Refused("off")
        if self.lead.sectors is None:
            raise Refused("not formatted")
        if first + count > self.lead.sectors:
            raise Refused(f"range {self.lead.sectors}")

    @staticmethod
    def read_side(side: Side, first: int, count: int) -> bytes:
        try:
            data = side.tries(lambda: side.drive.read(first, count))
        except Check as check:
            raise refusal(check) from None
        assert isinstance(data, bytes)
        return data

    @staticmethod
    def write_side(side: Side, first: int, data: bytes) -> None:
        try:
            side.tries(lambda: side.drive.write(first, data))
        except Check as check:
            raise refusal(check) from None

    def read(self, first: int, count: int) -> bytes:
        self.check(first, count)
        try:
            return b"".join(self.read_part(part, end - part) for part, end in parts_of(first, count))
        except Stopped:
            if not self.hand_over():
                raise
        try:
            return self.read_side(self.lead, first, count)
        except Stopped:
            self.turn_off()
            raise

    def read_part(self, first: int, count: int) -> bytes:
        try:
            return self.read_side(self.lead, first, count)
        except Refused as refused:
            if not self.up or first // SECTORS_IN_BLOCK in self.apart:
                raise
            told = refused
        try:
            return self.read_side(self.other, first, count)
        except Refused:
            raise told from None
        except Stopped:
            self.up = False
            raise told from None

    def write(self, first: int, data: bytes) -> None:
        self.check(first, len(data) // SECTOR)
        try:
            self.write_lead(first, data)
        except Stopped:
            if not self.hand_over():
                raise
            self.write_alone(first, data)
            return
        if self.up:
            self.follow(first, data)

    def write_lead(self, first: int, data: bytes) -> None:
        """Writes the lead. Where it refuses, the blocks that it may have written are apart."""
        try:
            self.write_side(self.lead, first, data)
        except Refused as refused:
            self.apart.update(block for block in covered_by(first, data) if refused.is_behind(block))
            raise

    def write_alone(self, first: int, data: bytes) -> None:
        try:
            self.write_lead(first, data)
        except Stopped:
            self.turn_off()
            raise

    def follow(self, first: int, data: bytes) -> None:
        """Writes the other side after the lead."""
        count, covered = len(data) // SECTOR, covered_by(first, data)
        try:
            self.write_side(self.other, first, data)
        except Refused as refused:
            self.apart.update(block for block in covered if refused.is_from(block))
            return
        except Stopped:
            self.up = False
            return
        self.apart.difference_update(block for block in covered
                                     if first <= 16 * block and 16 * block + 16 <= first + count)

    # What concerns all of a disc.

    def format_side(self, side: Side) -> Optional[str]:
        """Formats a side fully: how it refused, if it did."""
        try:
            side.tries(lambda: side.drive.format(False, True))
        except TooMany as many:
            return f"too many {many.number}"
        except Check as check:
            return f"no update {check.number}"
        return None

    def format(self) -> str:
        if not self.on or not self.lead.drive.on:
            return "off"
        try:
            refused = self.format_side(self.lead)
        except Stopped:
            self.turn_off()
            raise
        if refused is not None:
            self.up = self.up and self.lead.sectors is not None
            return refused
        self.up = False
        self.apart = set()
        try:
            if self.other.drive.on and self.format_side(self.other) is None:
                self.up = self.other.sectors == self.lead.sectors
        except Stopped:
            pass
        return "good"

    def resync(self) -> str:
        if not self.on or not self.lead.drive.on:
            return "off"
        sectors = self.lead.sectors
        if sectors is None:
            return "not formatted"
        for block in range(sectors // SECTORS_IN_BLOCK):
            if self.up:
                self.bring_up(block)
        return f"left {len(self.apart) if self.up else sectors // SECTORS_IN_BLOCK}"

    def bring_up(self, block: int) -> None:
        """Copies a block that is apart to the other side, and one that is not to a lead that lacks it."""
        try:
            data = self.read_block(self.lead, block)
            if block in self.apart:
                if data is not None:
                    self.copy(block, data)
            elif data is None:
                self.mend(block)
        except Stopped:
            self.turn_off()
            raise

    def read_block(self, side: Side, block: int) -> Optional[bytes]:
        """All of a block, where the side can read it."""
        try:
            return self.read_side(side, SECTORS_IN_BLOCK * block, SECTORS_IN_BLOCK)
        except Refused:
            return None

    def copy(self, block: int, data: bytes) -> None:
        """Writes a block of the lead to the other side."""
        try:
            self.write_side(self.other, SECTORS_IN_BLOCK * block, data)
        except Refused:
            return
        except Stopped:
            self.up = False
            return
        self.apart.discard(block)

    def mend(self, block: int) -> None:
        """Writes a block that the lead lacks as the other side has it."""
        try:
            data = self.read_block(self.other, block)
        except Stopped:
            self.up = False
            return
        if data is not None:
            with suppress(Refused):
                self.write_side(self.lead, SECTORS_IN_BLOCK * block, data)


def covered_by(first: int, data: bytes) -> range:
    """The blocks of which a write has a sector."""
    return range(first // SECTORS_IN_BLOCK, (first + len(data) // SECTOR - 1) // SECTORS_IN_BLOCK + 1)


def parts_of(first: int, count: int) -> List[Tuple[int, int]]:
    """The first sector of each part of a request in one block, and the one after its last."""
    found, sector, end = [], first, first + count
    while sector < end:
        stop = min(end, (sector // SECTORS_IN_BLOCK + 1) * SECTORS_IN_BLOCK)
        found.append((sector, stop))
        sector = stop
    return found


# The script.

WORDS = {"NUMBER": "([0-9]{1,10})", "HEX": "((?:[0-9a-fA-F]{2})+)", "XX": "([0-9a-fA-F]{2})"}
FORMS = ("(press) NUMBER NUMBER NUMBER", "(power)", "(format)", "(resync)", "(lead)", "(lead) (a|b)",
         "(read) NUMBER NUMBER", "(write) NUMBER NUMBER (fill|count) XX", "(write) NUMBER NUMBER (hex) HEX",
         "(a|b) (fail) NUMBER", "(a|b) (wear) NUMBER NUMBER", "(a|b) (cut) NUMBER (old|new|torn)")
PATTERNS = [re.compile(re.sub("NUMBER|HEX|XX", lambda word: WORDS[str(word.group())], form))
            for form in FORMS]


class Line(NamedTuple):
    """A line of the script: its name, the side that it names, its numbers, and the sectors of a write."""
    name: str
    side: int = 0
    numbers: Tuple[int, ...] = ()
    data: bytes = b""
    fate: Fate = Fate.OLD


def sectors_of(count: int, kind: str, data: bytes) -> bytes:
    if kind == "fill":
        return data * SECTOR * count
    if kind == "count":
        return b"".join(bytes([(data[0] + at) % 256]) * SECTOR for at in range(count))
    return data


def line_of(raw: bytes) -> Optional[Line]:
    """The line that these bytes are, if they have one of the forms."""
    text = " ".join(word for word in raw.decode("latin-1").split(" ") if word)
    match = next((match for match in (pattern.fullmatch(text) for pattern in PATTERNS) if match), None)
    if match is None:
        return None
    words = list(match.groups())
    side = "ab".index(words.pop(0)) if words[0] in ("a", "b") else 0
    name = words.pop(0)
    if name == "lead":
        return Line("give" if words else "lead", "ab".index(words[0]) if words else 0)
    kind, data = (words[2], bytes.fromhex(words[3])) if name == "write" else ("", b"")
    fate = Fate(words.pop()) if name == "cut" else Fate.OLD
    numbers = tuple(int(word) for word in (words[:2] if name == "write" else words))
    if any(number > LARGEST_NUMBER for number in numbers):
        return None
    if name in ("wear", "cut") and numbers[-1] < 1:
        return None
    if name in ("read", "write") and not 1 <= numbers[1] <= MOST_SECTORS:
        return None
    if kind == "hex" and len(data) != SECTOR * numbers[1]:
        return None
    return Line(name, side, numbers, sectors_of(numbers[1], kind, data) if kind else b"", fate)


@dataclass
class Pair:
    """A run of a mirror's script over two images."""
    images: List[bytearray]
    mirror: Optional[Mirror] = field(init=False, default=None)

    def __post_init__(self) -> None:
        geometries = [Geometry.of(bytes(image), LayoutKind.ONE_GROUP) for image in self.images]
        first, second = geometries
        if first is not None and second is not None and first == second:
            self.mirror = Mirror((Medium(self.images[0], first), Medium(self.images[1], second)))

    def answer(self, line: Line) -> List[str]:
        """Does what a line says: its answer, and the lines after it."""
        if line.name == "press":
            zones, scale, spares = line.numbers
            return [self.press(Geometry(zones, scale, spares))]
        if self.mirror is None:
            raise End(Status.NOT_A_DISC, "not a disc")
        if line.name in ("fail", "wear", "cut"):
            return [arm(self.mirror.sides[line.side].drive.medium, line)]
        try:
            return self.call(self.mirror, line)
        except Stopped:
            return ["cut"]
        except Refused as refused:
            return [refused.words]

    def press(self, geometry: Geometry) -> str:
        if not geometry.is_lawful:
            return "not pressed"
        self.images = [geometry.blank(), geometry.blank()]
        self.mirror = Mirror((Medium(self.images[0], geometry), Medium(self.images[1], geometry)))
        return "pressed"

    @staticmethod
    def call(mirror: Mirror, line: Line) -> List[str]:
        if line.name == "read":
            first, count = line.numbers
            data = mirror.read(first, count)
            return ["good"] + [sector_line(first + at, data[SECTOR * at:SECTOR * (at + 1)])
                               for at in range(count)]
        if line.name == "write":
            mirror.write(line.numbers[0], line.data)
            return ["good"]
        if line.name == "lead":
            return ["unknown" if mirror.lead_is is None else "ab"[mirror.lead_is]]
        if line.name == "give":
            return [mirror.give_lead(line.side)]
        return [{"power": mirror.power, "format": mirror.format, "resync": mirror.resync}[line.name]()]


def arm(medium: Medium, line: Line) -> str:
    if line.name == "cut":
        medium.cut = Cut(line.numbers[0], line.fate)
        return "armed"
    block = line.numbers[0]
    if not medium.has(block):
        return "no such block"
    if line.name == "fail":
        medium.set_state(block, State.DEAD)
        return "failed"
    if len(medium.wears) == MOST_WEARS:
        return "full"
    medium.wears.append(Wear(block, line.numbers[1]))
    return "armed"


def run(script: bytes, images: Tuple[bytes, bytes]) -> Tuple[bytes, int, Tuple[bytes, bytes]]:
    """The report of a script over two images, the exit status, and the images afterwards."""
    pair = Pair([bytearray(image) for image in images])
    report, status = report_of(script, line_of, pair.answer)
    first, second = pair.images
    return report, status, (bytes(first), bytes(second))
