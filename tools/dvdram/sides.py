"""What is done before a disc or a mirror is served: each disc is made ready by itself, and those of a mirror
are seen to belong together."""
from __future__ import annotations

import os
from dataclasses import dataclass, replace

from . import NoDisc, Wrong
from .disc import Disc, State
from .drive import Drive
from .lists import LayoutKind
from .mirror import SIDES, Mirror
from .prepare import Parameters, end, prepare


@dataclass
class SidesParameters(Parameters):
    """What the command line says."""

    image2: str = ""

    def complete(self) -> None:
        super().complete()
        self.image2 = self.image2 and os.path.abspath(self.image2)
        if self.image2 == self.image:
            raise Wrong(f"image2={self.image2}: a mirror has two images")
        if self.image2 and self.layout != "run":
            raise Wrong(f"layout={self.layout}: the discs of a mirror have one group of spares")

    @property
    def sides(self) -> list[Parameters]:
        """The same words for each disc alone."""
        return [replace(self, image=image, image2="") for image in (self.image, self.image2) if image]


def ready_drive(words: SidesParameters, program: list[str]) -> Drive:
    """The drive that is served, its disc ready, or the mirror of both discs."""
    if not words.image2:
        prepare(words, program)
        return Drive(program, words.image, words.kind)
    old = prepare_sides(words, program)
    see_pair(words, program)
    lead = lead_of(words, program)
    return Mirror(program, (words.image, words.image2), resyncs=old in ([], [lead]))


def prepare_sides(words: SidesParameters, program: list[str]) -> list[str]:
    """Makes the discs ready: the sides that were formatted before. These are only looked at, but by force:
    nothing but a mirror is to write them."""
    old = [side for side, disc in zip(SIDES, words.sides)
           if words.force == "no" and is_formatted(disc.image, program)]
    if old == ["b"] and words.format == "yes" and not had_lead(Disc(program, words.image2)):
        raise Wrong(f"{words.image} would be new, and lead: name {words.image2} first, which has the files")
    for side, disc in zip(SIDES, words.sides):
        if side not in old:
            prepare(disc, program)
    return old


def is_formatted(image: str, program: list[str]) -> bool:
    try:
        return Disc(program, image, LayoutKind.ONE_GROUP).lists is not None
    except NoDisc:
        return False


def see_pair(words: SidesParameters, program: list[str]) -> None:
    """Sees that the discs have the same numbers, and as many sectors where both are formatted."""
    one, other = (Disc(program, side.image) for side in words.sides)
    if one.geometry != other.geometry:
        raise Wrong(f"{words.image} and {words.image2} hold discs of different numbers: they make no mirror")
    if one.sectors and other.sectors and one.sectors != other.sectors:
        raise Wrong(f"{words.image} has {one.sectors} sectors, and {words.image2} {other.sectors}: "
                    "they make no mirror")


def had_lead(disc: Disc) -> bool:
    """Whether a disc has a record of the lead. One without it leads only over another one without."""
    return any(disc.states[block] is State.GOOD for block in disc.geometry.record_blocks)


def lead_of(words: SidesParameters, program: list[str]) -> str:
    """The side that leads. It may be unknown where a person can give the lead by hand."""
    mirror = Mirror(program, (words.image, words.image2), is_on=False)
    mirror.say("power")
    lead = mirror.say("lead")[0]
    end(mirror)
    if lead == "unknown" and not words.control:
        raise Wrong(f"which of {words.image} and {words.image2} leads cannot be told: with control=SOCKET "
                    "`lead a` or `lead b` says it")
    return lead
