"""The medium: the bytes of an image as blocks, which fail and in whose uses the power is cut."""
from __future__ import annotations

from dataclasses import dataclass
from enum import Enum, IntEnum
from functools import cached_property
from typing import List, Optional, Tuple

SECTOR = 2_048
BLOCK = 32_768
HEADER = 16
SIGNATURE = b"DVDRAM01"
EDGE = 8
"""How many blocks the lead-in has, and the lead-out."""
MOST_SPARES = 4_092
"""How many primary spares there are at most, and how many in all groups together."""
MOST_WEARS = 64


class LayoutKind(Enum):
    """Where the spares of a disc lie: in one group, or in a group in each zone. The value is the word by
    which the program serves such discs."""
    ONE_GROUP = "run"
    EACH_ZONE = "groups"

    @property
    def other(self) -> LayoutKind:
        return LayoutKind.EACH_ZONE if self is LayoutKind.ONE_GROUP else LayoutKind.ONE_GROUP


class State(IntEnum):
    """A block's state byte. Each byte that is none of these is a torn block too."""
    BLANK = 0
    GOOD = 1
    TORN = 2
    DEAD = 3


class Fate(Enum):
    """What becomes of a block in whose write the power is cut."""
    OLD = "old"
    NEW = "new"
    TORN = "torn"


class PowerCut(Exception):
    """The power was cut in a use."""


@dataclass(frozen=True)
class Geometry:
    """The numbers of a disc, and where its blocks are."""
    zones: int
    scale: int
    spares: int
    """The primary ones, or those of each zone."""
    layout: LayoutKind = LayoutKind.ONE_GROUP

    @classmethod
    def of(cls, image: bytes, layout: LayoutKind) -> Optional[Geometry]:
        """The geometry of an image, where it is a disc's of this layout: the image does not tell it."""
        zones, scale, spares = (int.from_bytes(image[at:at + 2], "big") for at in (8, 10, 12))
        found = cls(zones, scale, spares, layout)
        is_disc = found.is_lawful and len(image) == found.image_length and image[:HEADER] == found.header
        return found if is_disc else None

    @property
    def is_lawful(self) -> bool:
        return (1 <= self.zones <= 35 and 1 <= self.scale <= 100
                and 1 <= self.spares <= MOST_SPARES and self.spares < len(self.data_blocks)
                and (self.layout is LayoutKind.ONE_GROUP or self.fits_zones))

    @property
    def fits_zones(self) -> bool:
        """Whether each zone has room for its spares, and the list for all of them."""
        return self.zones * self.spares <= MOST_SPARES and self.spares + 2 < 25 * self.scale

    @property
    def header(self) -> bytes:
        return SIGNATURE + b"".join(number.to_bytes(2, "big")
                                    for number in (self.zones, self.scale, self.spares, 0))

    @cached_property
    def data_of_zones(self) -> List[List[int]]:
        """The blocks of each zone but its first and its last, which are guards."""
        found: List[List[int]] = []
        begin = EDGE
        for zone in range(self.zones):
            end = begin + self.scale * (25 + zone)
            found.append(list(range(begin + 1, end - 1)))
            begin = end
        return found

    @cached_property
    def data_blocks(self) -> List[int]:
        return [block for zone in self.data_of_zones for block in zone]

    @cached_property
    def groups(self) -> List[List[int]]:
        """The spares of each group, where no block is slipped."""
        if self.layout is LayoutKind.ONE_GROUP:
            return [self.data_blocks[:self.spares]]
        return [zone[-self.spares:] for zone in self.data_of_zones]

    @cached_property
    def logical(self) -> List[int]:
        """The block of each logical block, where none is slipped and none replaced."""
        spares = {spare for group in self.groups for spare in group}
        return [block for block in self.data_blocks if block not in spares]

    @property
    def lead_out(self) -> int:
        return self.data_blocks[-1] + 2

    @property
    def blocks(self) -> int:
        return self.lead_out + EDGE

    @property
    def image_length(self) -> int:
        return HEADER + self.blocks * (1 + BLOCK)

    @property
    def structure_blocks(self) -> List[int]:
        """The block of the structure in each area."""
        return [0, 2, self.lead_out, self.lead_out + 2]

    @property
    def secondary_blocks(self) -> List[Tuple[int, int]]:
        """The two blocks of the secondary list in each area. The second is in use where the list has two
        parts."""
        return [(1, 4), (3, 5), (self.lead_out + 1, self.lead_out + 4),
                (self.lead_out + 3, self.lead_out + 5)]

    @property
    def list_blocks(self) -> List[int]:
        return self.structure_blocks + [block for area in self.secondary_blocks for block in area]

    def blank(self) -> bytearray:
        """The image of a new disc."""
        return bytearray(self.header + bytes(self.image_length - HEADER))


@dataclass
class Wear:
    """A block that dies when this many uses of it have come."""
    block: int
    left: int


@dataclass
class Cut:
    """A cut of the power that comes after this many uses of any block."""
    left: int
    fate: Fate


class Medium:
    """The blocks of a disc's image, with what is armed on them."""

    def __init__(self, image: bytearray, geometry: Geometry) -> None:
        self.image = image
        self.geometry = geometry
        self.wears: List[Wear] = []
        self.cut: Optional[Cut] = None

    def state(self, block: int) -> int:
        return self.image[HEADER + block]

    def set_state(self, block: int, state: State) -> None:
        self.image[HEADER + block] = state

    def bytes_at(self, block: int) -> slice:
        begin = HEADER + self.geometry.blocks + BLOCK * block
        return slice(begin, begin + BLOCK)

    def read(self, block: int) -> Optional[bytes]:
        """One use: the bytes of the block, where it is good."""
        if self._is_cut_in_use_of(block) is not None:
            raise PowerCut
        return bytes(self.image[self.bytes_at(block)]) if self.state(block) == State.GOOD else None

    def write(self, block: int, data: bytes) -> None:
        """One use: the block is good and has these bytes, where it is not dead."""
        fate = self._is_cut_in_use_of(block)
        if self.state(block) != State.DEAD:
            self._leave(block, data, fate or Fate.NEW)
        if fate is not None:
            raise PowerCut

    def _leave(self, block: int, data: bytes, fate: Fate) -> None:
        if fate == Fate.TORN:
            self.set_state(block, State.TORN)
        elif fate == Fate.NEW:
            self.image[self.bytes_at(block)] = data
            self.set_state(block, State.GOOD)

    def _is_cut_in_use_of(self, block: int) -> Optional[Fate]:
        """Counts a use, first for the wears of the block and then for the cut: the fate, where the power is
        cut in it."""
        for wear in self.wears:
            wear.left -= wear.block == block
        if any(wear.left == 0 for wear in self.wears):
            self.set_state(block, State.DEAD)
            self.wears = [wear for wear in self.wears if wear.left]
        if self.cut is None:
            return None
        self.cut.left -= 1
        if self.cut.left:
            return None
        fate, self.cut = self.cut.fate, None
        return fate

    def has(self, block: int) -> bool:
        return block < self.geometry.blocks
