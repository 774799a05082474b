"""A mirror of two discs, which lives on over several runs of the program as a single drive does.

docs/MIRROR.md has its lines and answers.
"""
from __future__ import annotations

import re

from . import NoLine, Refused
from .drive import LINE_ROOM, MOST_SECTORS, RENEW_AT, Drive, in_session
from .protocol import HEX, LINE_LIMIT, NUMBER, SECTOR

SIDES = "a", "b"
LARGEST = 0xFFFFFFFF
FORMS = re.compile(
    rf"power|format|resync|lead(?: [ab])?|read {NUMBER} {NUMBER}"
    rf"|write {NUMBER} {NUMBER} (?:(?:fill|count) {HEX}|hex {HEX}+)"
    rf"|[ab] (?:fail {NUMBER}|wear {NUMBER} {NUMBER}|cut {NUMBER} (?:old|new|torn))", re.ASCII)
PAST_ALL = f"read {LARGEST} 1"
"""No disc has this sector, and the refusal tells how many it has."""


def line_of(text: str) -> str:
    """The line with one space between its words. Raises `NoLine` where it is none that a person may send."""
    line = " ".join(word for word in text.split(" ") if word)
    if len(line) > LINE_LIMIT or not FORMS.fullmatch(line) or not is_within_limits(line):
        raise NoLine("not in the script language")
    return line


def is_within_limits(line: str) -> bool:
    """Whether the numbers of a line, which has one of the forms, are such as they may be."""
    words = line.split(" ")
    name, *rest = words[1:] if words[0] in SIDES else words
    numbers = [int(word) for word in rest[:2] if word.isdecimal()]
    if name in ("wear", "cut") and not numbers[-1]:
        return False
    if name in ("read", "write") and not 1 <= numbers[1] <= MOST_SECTORS:
        return False
    is_fitting = rest[2:3] != ["hex"] or len(rest[3]) == 2 * SECTOR * numbers[1]
    return is_fitting and all(number <= LARGEST for number in numbers)


class Mirror(Drive):
    """A mirror of the discs in two images, the first of which is side `a`. It has no write cache, and a host
    is told no attention.

    After `power` the program may not know that the sides have the same sectors. So where `resyncs` says it, a
    `resync` follows each `power` that is not a person's. It says so once a person had them made alike, until
    one gives the lead by hand: its side may have older sectors.
    """

    def __init__(self, program: list[str], images: tuple[str, str], *, is_on: bool = True,
                 resyncs: bool = False, renew_at: int = RENEW_AT) -> None:
        super().__init__(program, images[0], is_on=is_on, renew_at=renew_at)
        self.images, self.resyncs = images, resyncs
        self.is_by_hand = False
        """Whether a person gave the lead to a side."""

    @property
    def discs(self) -> list[tuple[str, str]]:
        return [(f"{side} ", image) for side, image in zip(SIDES, self.images)]

    @property
    def words(self) -> list[str]:
        return ["mirror", *self.images]

    @staticmethod
    def line_of(text: str) -> str:
        return line_of(text)

    @staticmethod
    def read_line(sector: int, count: int) -> bytes:
        return b"read %d %d" % (sector, count)

    @staticmethod
    def write_line(sector: int, count: int) -> bytes:
        return b"write %d %d" % (sector, count)

    @in_session
    def turn_on(self) -> None:
        self.exchange("power")
        if self.is_on and self.resyncs:
            self.exchange("resync")

    @in_session
    def renew(self) -> None:
        """Begins a new session. Where a person gave the lead and the program cannot tell who leads, it gets
        the side that led till then."""
        lead = self.exchange("lead")[0] if self.is_on and self.is_by_hand else None
        super().renew()
        if lead and not self.is_on:
            self.exchange(f"lead {lead}")
            self.turn_on()

    def settle(self) -> None:
        """Nothing waits in a mirror."""

    def heed(self, line: str, text: str) -> None:
        name, *rest = line.split(" ")
        if name == "power":
            self.is_on = text not in ("cut", "unknown")
        elif name == "lead" and rest and text != "off":
            self.is_on = self.resyncs = False
            self.is_by_hand = self.is_by_hand or text in SIDES
        elif name == "resync" and text.startswith("left ") or name == "format" and text == "good":
            self.resyncs = True
        elif text == "armed":
            kept = [arm for arm in self.armed if rest[0] != "cut" or not arm.startswith(f"{name} cut")]
            self.armed = [*kept, line]

    @in_session
    def cut_now(self) -> str:
        """Turns the power off: that of both sides is cut at the first use of the next mount, which only
        reads."""
        if not self.is_on:
            return "off"
        for side in SIDES:
            self.command(f"{side} cut 1 old")
        return self.command("power")[0]

    @in_session
    def capacity(self) -> int:
        self.make_room(LINE_ROOM)
        answer = self.exchange(PAST_ALL)[0]
        if not answer.startswith("range "):
            raise Refused(answer)
        return int(answer.split()[1])

    @in_session
    def synchronize(self) -> None:
        """What was acknowledged is on the discs already. Raises `Refused` where the mirror is off."""
        self.capacity()
