"""The two defect lists of a disc, and where its blocks lie by them. Which lists these are, the program tells
(`certificate`)."""
from __future__ import annotations

from dataclasses import dataclass
from enum import Enum
from functools import cached_property
from itertools import accumulate

MOST_SPARES = 4_092  # of all zones together


class LayoutKind(Enum):
    """Whether a disc has one group of spares, or a group in each zone: the word by which the program serves
    it."""

    ONE_GROUP = "run"
    EACH_ZONE = "groups"


@dataclass(frozen=True)
class Geometry:
    """The zones of a disc, their scale, and its primary spares, or those of each zone."""

    zones: int
    scale: int
    spares: int
    layout: LayoutKind = LayoutKind.ONE_GROUP

    @property
    def sizes(self) -> list[int]:
        return [self.scale * (25 + zone) for zone in range(self.zones)]

    @cached_property
    def data_of_zones(self) -> list[range]:
        """The data blocks of each zone: all of them but its first and its last."""
        starts = accumulate(self.sizes, initial=8)
        return [range(start + 1, start + size - 1) for start, size in zip(starts, self.sizes)]

    @property
    def lead_out(self) -> int:
        return 8 + sum(self.sizes)

    @property
    def total(self) -> int:
        return self.lead_out + 8

    @property
    def guards(self) -> list[int]:
        return [block for zone in self.data_of_zones for block in (zone.start - 1, zone.stop)]

    @property
    def structure_blocks(self) -> list[int]:
        """The blocks of the four copies of the structure."""
        return [0, 2, self.lead_out, self.lead_out + 2]

    @property
    def secondary_blocks(self) -> list[tuple[int, int]]:
        """The blocks of the four copies of the secondary list: of the first part, and of the second where it
        has two."""
        return [(1, 4), (3, 5), (self.lead_out + 1, self.lead_out + 4),
                (self.lead_out + 3, self.lead_out + 5)]

    @property
    def record_blocks(self) -> list[int]:
        """The blocks of the four copies of the record of the lead, which a disc of a mirror has."""
        return [6, 7, self.lead_out + 6, self.lead_out + 7]

    def fits_zones(self) -> bool:
        """Each zone has room for its spares, and a list for those of all."""
        return self.zones * self.spares <= MOST_SPARES and self.spares + 2 < 25 * self.scale


@dataclass(frozen=True)
class Structure:
    """The disc definition structure, with the blocks that are slipped over: the primary list."""

    version: int
    counter: int
    slipped: list[int]


@dataclass(frozen=True)
class Secondary:
    """The secondary list: pairs of a dead block and what replaces it, which is none for a spare that is
    retired; and how many supplementary spares there are."""

    counter: int
    spares: int
    entries: list[tuple[int, int | None]]


@dataclass(frozen=True)
class Lists:
    """Both lists of a disc, and where its blocks lie by them."""

    geometry: Geometry
    structure: Structure
    secondary: Secondary

    @cached_property
    def unslipped_of_zones(self) -> list[list[int]]:
        slipped = set(self.structure.slipped)
        return [[block for block in zone if block not in slipped] for zone in self.geometry.data_of_zones]

    @cached_property
    def pools(self) -> list[tuple[list[int], list[int]]]:
        """The block of each logical block, before any is replaced, with the spares to which these may move:
        of the disc, or of each zone."""
        if self.geometry.layout is LayoutKind.EACH_ZONE:
            counts = [len(zone) - self.geometry.spares for zone in self.geometry.data_of_zones]
            return [(zone[:count], zone[count:]) for zone, count in zip(self.unslipped_of_zones, counts)]
        unslipped = [block for zone in self.unslipped_of_zones for block in zone]
        first = self.geometry.spares - len(self.structure.slipped)
        end = len(unslipped) - self.secondary.spares
        return [(unslipped[first:end], unslipped[:first] + unslipped[end:])]

    @cached_property
    def logical(self) -> list[int]:
        """The block of each logical block, before any is replaced."""
        return [block for blocks, _ in self.pools for block in blocks]

    @cached_property
    def spares(self) -> list[int]:
        return [spare for _, spares in self.pools for spare in spares]
