"""The two defect lists of a disc: their texts, and what they say of its blocks."""
from __future__ import annotations

from dataclasses import dataclass
from enum import IntEnum
from functools import cached_property
from typing import Dict, Iterable, List, NamedTuple, Optional, Tuple

from .medium import BLOCK, MOST_SPARES, SECTOR, Geometry, LayoutKind

SECTORS_IN_BLOCK = BLOCK // SECTOR
LAST_COUNTER = 2 ** 32 - 1
VERSIONS = (1, 2)
"""The versions of the lists. That of the secondary list is the number of its parts, too."""
MADE = 2
"""The version that a full format makes. With a group of spares in each zone there is no other."""
FORM_OF_ZONES = 3
"""The third byte of a structure with a group of spares in each zone; else that is the version."""
MOST_IN_PART = 4_092
"""How many entries a part of the secondary list has at most, and how many supplementary spares there are for
each part."""


def number(block: bytes, at: int, length: int) -> int:
    return int.from_bytes(block[at:at + length], "big")


def rises(blocks: List[int]) -> bool:
    return all(one < next_one for one, next_one in zip(blocks, blocks[1:]))


class Kind(IntEnum):
    """By what a block came into the primary list."""
    FIRST_FORMAT = 0
    LATER_FORMAT = 1
    SECONDARY_LIST = 2


class Slipped(NamedTuple):
    """An entry of the primary list."""
    kind: int
    block: int

    @property
    def text(self) -> bytes:
        return bytes([self.kind]) + self.block.to_bytes(3, "big")


@dataclass(frozen=True)
class Structure:
    """The disc definition structure, which has the primary list."""
    version: int
    formatted: bool
    counter: int
    spares: int
    entries: Tuple[Slipped, ...] = ()
    layout: LayoutKind = LayoutKind.ONE_GROUP

    @property
    def form(self) -> int:
        return self.version if self.layout is LayoutKind.ONE_GROUP else FORM_OF_ZONES

    @property
    def text(self) -> bytes:
        head = bytes([0x0a, 0x0a, self.form, 0x80 if self.formatted else 0x00])
        head += self.counter.to_bytes(4, "big") + self.spares.to_bytes(2, "big")
        entries = b"".join(entry.text for entry in self.entries)
        tail = bytes([0x00, 0x01]) + len(self.entries).to_bytes(2, "big") + entries
        return (head.ljust(SECTOR, b"\0") + tail).ljust(BLOCK, b"\0")

    @classmethod
    def of(cls, block: Optional[bytes]) -> Optional[Structure]:
        """The structure whose text these bytes are, if there is one."""
        if block is None:
            return None
        count = number(block, 2_050, 2)
        entries = tuple(Slipped(block[at], number(block, at + 1, 3))
                        for at in range(2_052, 2_052 + 4 * count, 4)
                        if at < BLOCK)
        of_zones = block[2] == FORM_OF_ZONES
        version, layout = (MADE, LayoutKind.EACH_ZONE) if of_zones else (block[2], LayoutKind.ONE_GROUP)
        found = cls(version, block[3] == 0x80, number(block, 4, 4), number(block, 8, 2), entries, layout)
        return found if found.is_text and found.text == block else None

    @property
    def most_entries(self) -> int:
        """How many entries the text has at most."""
        if not self.formatted:
            return 0
        return self.spares if self.layout is LayoutKind.ONE_GROUP else MOST_SPARES

    @property
    def is_text(self) -> bool:
        return (self.version in VERSIONS
                and 1 <= self.spares <= MOST_SPARES
                and len(self.entries) <= self.most_entries
                and all(entry.kind in tuple(Kind) for entry in self.entries) and rises(self.blocks))

    @cached_property
    def blocks(self) -> List[int]:
        return [entry.block for entry in self.entries]


@dataclass(frozen=True)
class Secondary:
    """The secondary list: each defective block with its replacement, or with none if it is a spare that is
    retired."""
    version: int
    counter: int
    structure: int
    spares: int = 0
    entries: Tuple[Tuple[int, Optional[int]], ...] = ()

    @property
    def texts(self) -> List[bytes]:
        """The text of each part."""
        if self.version == 1:
            return [self.part(0, self.entries)]
        return [self.part(1, self.entries[:MOST_IN_PART]), self.part(2, self.entries[MOST_IN_PART:])]

    def part(self, which: int, entries: Tuple[Tuple[int, Optional[int]], ...]) -> bytes:
        """The text of the part with this number, which has these entries."""
        head = bytes([0x00, 0x02, self.version, which])
        head += self.counter.to_bytes(4, "big") + self.structure.to_bytes(4, "big")
        head += self.spares.to_bytes(2, "big") + len(self.entries).to_bytes(2, "big")
        text = b"".join(bytes([spare is None]) + block.to_bytes(3, "big") + (spare or 0).to_bytes(4, "big")
                        for block, spare in entries)
        return (head.ljust(32, b"\0") + text).ljust(BLOCK, b"\0")

    @classmethod
    def of(cls, first: Optional[bytes], second: Optional[bytes]) -> Optional[Secondary]:
        """The secondary list whose text these bytes are, if there is one. The second block counts for a list
        of two parts."""
        if first is None or first[2] not in VERSIONS:
            return None
        parts = [first, second][:first[2]]
        left, entries = number(first, 14, 2), []
        for part in parts:
            entries += [] if part is None else entries_at(part, min(left, MOST_IN_PART))
            left -= min(left, MOST_IN_PART)
        found = cls(first[2], number(first, 4, 4), number(first, 8, 4), number(first, 12, 2), tuple(entries))
        return found if found.is_text and found.texts == parts else None

    @property
    def is_text(self) -> bool:
        most = MOST_IN_PART * self.version
        return (self.spares <= most and len(self.entries) <= most
                and rises([block for block, _ in self.entries])
                and all((spare or 0) < 2 ** 24 for _, spare in self.entries))

    @cached_property
    def replacements(self) -> Dict[int, Optional[int]]:
        return dict(self.entries)


def entries_at(part: bytes, count: int) -> List[Tuple[int, Optional[int]]]:
    """The first entries in a part of the secondary list."""
    return [(number(part, at + 1, 3), None if part[at] else number(part, at + 4, 4))
            for at in range(32, 32 + 8 * count, 8)]


def goes_on(first: Optional[bytes]) -> bool:
    """Whether a block says in its first 32 bytes that it is the first of two parts."""
    most = 2 * MOST_IN_PART
    return (first is not None and first[:4] == bytes([0x00, 0x02, 2, 1])
            and number(first, 12, 2) <= most and number(first, 14, 2) <= most and not any(first[16:32]))


def named_structure(first: Optional[bytes]) -> Optional[int]:
    """The counter of the structure that the first block of a secondary list names, whatever its second one
    is."""
    if first is not None and (goes_on(first) or Secondary.of(first, None)):
        return number(first, 8, 4)
    return None


@dataclass(frozen=True)
class Lists:
    """Both lists of a disc."""
    geometry: Geometry
    structure: Structure
    secondary: Secondary

    @property
    def most_spares(self) -> int:
        """How many spares there may be, primary and supplementary ones together."""
        return MOST_IN_PART * self.secondary.version

    @cached_property
    def of_zones(self) -> bool:
        return self.geometry.layout is LayoutKind.EACH_ZONE

    @cached_property
    def unslipped_in_zones(self) -> List[List[int]]:
        """The data blocks of each zone that the primary list does not name."""
        slipped = set(self.structure.blocks)
        return [[block for block in zone if block not in slipped] for zone in self.geometry.data_of_zones]

    @cached_property
    def unslipped(self) -> List[int]:
        return [block for zone in self.unslipped_in_zones for block in zone]

    @cached_property
    def groups(self) -> List[Tuple[List[int], List[int]]]:
        """The logical blocks of each zone, before replacement, and its spares: with a group in each zone."""
        counts = [len(zone) - self.structure.spares for zone in self.geometry.data_of_zones]
        return [(zone[:count], zone[count:]) for zone, count in zip(self.unslipped_in_zones, counts)]

    @property
    def primary_left(self) -> int:
        """How many primary spares the slipped blocks have left: with one group."""
        return self.structure.spares - len(self.structure.entries)

    @cached_property
    def primary(self) -> List[int]:
        """The primary spares, or all spares of the zones."""
        if self.of_zones:
            return [spare for _, spares in self.groups for spare in spares]
        return self.unslipped[:self.primary_left]

    @cached_property
    def supplementary(self) -> List[int]:
        return self.unslipped[len(self.unslipped) - self.secondary.spares:]

    @cached_property
    def logical(self) -> List[int]:
        """The block of each logical block, before replacement."""
        if self.of_zones:
            return [block for blocks, _ in self.groups for block in blocks]
        return self.unslipped[self.primary_left:len(self.unslipped) - self.secondary.spares]

    @cached_property
    def zone_of(self) -> Dict[int, int]:
        """The zone of each data block."""
        return {block: at for at, zone in enumerate(self.geometry.data_of_zones) for block in zone}

    def spares_for(self, block: int) -> List[int]:
        """The spares to which a logical block may move, in the order in which they are tried: from the
        greatest number down and the primary ones first, or those of its zone from the lowest number up."""
        if self.of_zones:
            return self.groups[self.zone_of[block]][1]
        return [*reversed(self.primary), *reversed(self.supplementary)]

    @property
    def sectors(self) -> int:
        return SECTORS_IN_BLOCK * len(self.logical)

    def home(self, logical: int) -> int:
        block = self.logical[logical]
        replacement = self.secondary.replacements.get(block)
        return block if replacement is None else replacement

    @property
    def named(self) -> List[int]:
        """All blocks that the entries of the secondary list name."""
        replacements = [spare for _, spare in self.secondary.entries if spare is not None]
        return replacements + [block for block, _ in self.secondary.entries]

    def free(self, spares: List[int]) -> List[int]:
        """Those of some spares that are free."""
        named = set(self.named)
        return [spare for spare in spares if spare not in named]

    @property
    def free_spares(self) -> List[int]:
        return self.free(self.primary + self.supplementary)

    @property
    def has_lawful_area(self) -> bool:
        """Whether there may be this many supplementary spares."""
        if self.of_zones:
            return self.secondary.spares == 0
        spares = self.structure.spares + self.secondary.spares
        return spares <= self.most_spares and spares < len(self.geometry.data_blocks)

    @property
    def is_valid(self) -> bool:
        """Whether the secondary list is valid under the structure."""
        named = self.secondary.version, self.secondary.structure
        if named != (self.structure.version, self.structure.counter):
            return False
        if not self.has_lawful_area or len(set(self.named)) < len(self.named):
            return False
        logical, spares = set(self.logical), set(self.primary) | set(self.supplementary)
        return all(block in spares if spare is None else block in logical and spare in self.spares_for(block)
                   for block, spare in self.secondary.entries)


def structure_fits(structure: Structure, geometry: Geometry) -> bool:
    """Whether a structure may be the one in use on a disc."""
    return (structure.layout is geometry.layout and structure.spares == geometry.spares
            and set(structure.blocks) <= set(geometry.data_blocks)
            and not slips_too_many(structure.blocks, geometry))


def slips_too_many(slipped: Iterable[int], geometry: Geometry) -> bool:
    """Whether there are more slipped blocks than spares: of all zones, or of one."""
    zones = [geometry.data_blocks] if geometry.layout is LayoutKind.ONE_GROUP else geometry.data_of_zones
    blocks = set(slipped)
    return any(len(blocks.intersection(zone)) > geometry.spares for zone in zones)
