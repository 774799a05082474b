"""What is done to a disc: the mount, reads, writes, verifications, formats and expansions."""
from __future__ import annotations

from dataclasses import dataclass, replace
from typing import Callable, Dict, Iterator, List, NamedTuple, Optional, Tuple

from .lists import (LAST_COUNTER, MADE, SECTORS_IN_BLOCK, Kind, Lists, Secondary, Slipped, Structure, goes_on,
                    named_structure, slips_too_many, structure_fits)
from .medium import BLOCK, SECTOR, LayoutKind, Medium

Copies = List[List[Tuple[int, bytes]]]
"""The blocks of a list in each area, with the text that belongs there."""


class Sense(NamedTuple):
    """Why a command was not done: a key and two codes, and the sector that is concerned."""
    key: int
    code: int
    qualifier: int
    sector: Optional[int] = None

    def __str__(self) -> str:
        told = f"{self.key:x}/{self.code:02x}/{self.qualifier:02x}"
        return told if self.sector is None else f"{told} info {self.sector}"


class Check(Exception):
    """A command was not done, or not all of it. Where a list could not be written or too many blocks are
    defective, a number says more than the sense: the counter, or how many are."""

    def __init__(self, *sense: int, number: int = 0) -> None:
        super().__init__()
        self.sense = Sense(*sense)
        self.number = number


class TooMany(Check):
    """More blocks are defective than may be slipped."""


BUFFERED_BLOCKS = 8

FORMAT_FAILED = (3, 0x31, 0x01)
UNREADABLE = (3, 0x11, 0x00)
NO_SPARE = (3, 0x32, 0x00)
NO_UPDATE = (3, 0x32, 0x01)


@dataclass(frozen=True)
class Part:
    """What a request has of one logical block: its sectors, counted from the beginning of the request and of
    the block."""
    logical: int
    first: int
    in_request: int
    in_block: int
    sectors: int

    @property
    def is_whole(self) -> bool:
        return self.sectors == SECTORS_IN_BLOCK


def parts(first: int, count: int) -> Iterator[Part]:
    sector, end = first, first + count
    while sector < end:
        logical, in_block = divmod(sector, SECTORS_IN_BLOCK)
        sectors = min(end - sector, SECTORS_IN_BLOCK - in_block)
        yield Part(logical, sector, sector - first, in_block, sectors)
        sector += sectors


class Drive:
    """A disc in a drive. Each call may raise PowerCut; the power is then off."""

    def __init__(self, medium: Medium) -> None:
        self.medium = medium
        self.on = False
        self.lists: Optional[Lists] = None
        self.mark = 0
        """The greatest counter of a structure that a copy has, if it is of the disc's layout, or names."""
        self.buffered: Dict[int, bytes] = {}
        """The logical blocks used last, the one used last behind the others."""

    def cut(self) -> None:
        """What a power cut leaves in memory: nothing."""
        self.on, self.lists, self.buffered = False, None, {}

    # The copies of lists.

    def put(self, block: int, data: bytes) -> bool:
        """Writes a block and reads it back: whether it has the bytes."""
        self.medium.write(block, data)
        return self.medium.read(block) == data

    def mend(self, block: int, data: bytes) -> bool:
        """Reads a block, and writes it where it does not have these bytes: whether it has them then."""
        return self.medium.read(block) == data or self.put(block, data)

    @staticmethod
    def on_copies(call: Callable[[int, bytes], bool], copies: Copies) -> bool:
        """Calls this for each block of each copy of a list, with its text: whether a whole copy is left."""
        return any([all([call(block, text) for block, text in copy]) for copy in copies])

    def structure_copies(self, structure: Structure) -> Copies:
        return [[(block, structure.text)] for block in self.medium.geometry.structure_blocks]

    def secondary_copies(self, secondary: Secondary) -> Copies:
        return [list(zip(blocks, secondary.texts)) for blocks in self.medium.geometry.secondary_blocks]

    def update_secondary(self, secondary: Secondary) -> None:
        """Takes the next secondary list into use, if its counter has room and a copy of it can be read."""
        assert self.lists is not None
        counter = self.lists.secondary.counter
        if counter == LAST_COUNTER:
            raise Check(*NO_UPDATE, number=counter)
        new = replace(secondary, counter=counter + 1)
        if not self.on_copies(self.put, self.secondary_copies(new)):
            raise Check(*NO_UPDATE, number=counter)
        self.lists = replace(self.lists, secondary=new)

    # The mount.

    def power(self) -> None:
        self.cut()
        self.on = True
        geometry = self.medium.geometry
        structures = [Structure.of(self.medium.read(block)) for block in geometry.structure_blocks]
        secondaries = self.read_secondaries()
        own = [one for one in structures if one and one.layout is geometry.layout]
        self.mark = max([self.mark] + [one.counter for one in own])
        fitting = [one for one in own if structure_fits(one, geometry)]
        if not fitting:
            return
        structure = max(fitting, key=lambda one: one.counter)
        found = [Lists(geometry, structure, one) for one in secondaries if structure.formatted]
        found = [lists for lists in found if lists.is_valid]
        self.on_copies(self.mend, self.structure_copies(structure))
        if found:
            self.lists, self.mark = max(found, key=lambda lists: lists.secondary.counter), structure.counter
            self.on_copies(self.mend, self.secondary_copies(self.lists.secondary))

    def read_secondaries(self) -> List[Secondary]:
        """The secondary lists of the areas. The mark is the greatest counter of a structure that one of them
        names."""
        found, self.mark = [], 0
        for first_block, second_block in self.medium.geometry.secondary_blocks:
            first = self.medium.read(first_block)
            second = self.medium.read(second_block) if goes_on(first) else None
            found.append(Secondary.of(first, second))
            self.mark = max(self.mark, named_structure(first) or 0)
        return [one for one in found if one]

    # Sectors.

    def fetch(self, logical: int) -> Optional[bytes]:
        """A logical block, out of the buffer or off the medium; it is buffered then."""
        assert self.lists is not None
        data = self.buffered.get(logical)
        if data is None:
            data = self.medium.read(self.lists.home(logical))
        if data is not None:
            self.buffer(logical, data)
        return data

    def buffer(self, logical: int, data: bytes) -> None:
        """Makes a logical block the one used last. The one used longest ago makes room for it."""
        self.buffered.pop(logical, None)
        self.buffered[logical] = data
        if len(self.buffered) > BUFFERED_BLOCKS:
            del self.buffered[next(iter(self.buffered))]

    def read(self, first: int, count: int) -> bytes:
        read = b""
        for part in parts(first, count):
            block = self.fetch(part.logical)
            if block is None:
                raise Check(*UNREADABLE, part.first)
            read += block[SECTOR * part.in_block:SECTOR * (part.in_block + part.sectors)]
        return read

    def verify(self, first: int, count: int) -> None:
        assert self.lists is not None
        for part in parts(first, count):
            if self.medium.read(self.lists.home(part.logical)) is None:
                raise Check(*UNREADABLE, part.first)

    def write(self, first: int, data: bytes) -> None:
        for part in parts(first, len(data) // SECTOR):
            old = bytes(BLOCK) if part.is_whole else self.fetch(part.logical)
            if old is None:
                raise Check(*UNREADABLE, part.first)
            new = data[SECTOR * part.in_request:SECTOR * (part.in_request + part.sectors)]
            block = old[:SECTOR * part.in_block] + new + old[SECTOR * (part.in_block + part.sectors):]
            self.write_block(part, block)
            self.buffer(part.logical, block)

    def write_block(self, part: Part, block: bytes) -> None:
        """Writes a logical block to its home, or to the first free spare that is not dead."""
        assert self.lists is not None
        home, defective = self.lists.home(part.logical), self.lists.logical[part.logical]
        if self.put(home, block):
            return
        entries = dict(self.lists.secondary.entries)
        for spare in self.lists.free(self.lists.spares_for(defective)):
            if self.put(spare, block):
                entries[home] = None
                entries[defective] = spare
                self.update_secondary(replace(self.lists.secondary, entries=tuple(sorted(entries.items()))))
                return
            entries[spare] = None
        raise Check(*NO_SPARE, part.first)

    # Formats and the expansion.

    def format(self, rewriting: bool, forgets: bool) -> None:
        if rewriting and self.lists is not None:
            self.rewrite(self.lists)
        elif LAST_COUNTER - self.mark < 2:
            raise Check(*FORMAT_FAILED, number=self.mark)
        else:
            kept: Dict[int, int] = {} if self.lists is None else self.kept(self.lists, forgets)
            kind = Kind.FIRST_FORMAT if self.lists is None else Kind.LATER_FORMAT
            self.lists, self.buffered = None, {}
            self.format_fully(kept, kind)

    def rewrite(self, lists: Lists) -> None:
        self.buffered = {}
        repaired = [self.on_copies(self.mend, copies)
                    for copies in (self.structure_copies(lists.structure),
                                   self.secondary_copies(lists.secondary))]
        if not all(repaired):
            raise Check(*FORMAT_FAILED)

    @staticmethod
    def kept(lists: Lists, forgets: bool) -> Dict[int, int]:
        """The blocks that a full format keeps as defective, with their kinds."""
        found: Dict[int, int] = {}
        if not forgets:
            found = {block: Kind.SECONDARY_LIST for block, _ in lists.secondary.entries}
        return {**found, **{entry.block: entry.kind for entry in lists.structure.entries}}

    def format_fully(self, defects: Dict[int, int], kind: Kind) -> None:
        geometry = self.medium.geometry
        self.mark += 1
        begun = Structure(MADE, False, self.mark, geometry.spares, layout=geometry.layout)
        if not self.on_copies(self.put, self.structure_copies(begun)):
            raise Check(*FORMAT_FAILED, number=self.mark)
        for block in geometry.data_blocks:
            if block not in defects and not self.put(block, bytes(BLOCK)):
                defects[block] = kind
        if slips_too_many(defects, geometry):
            raise TooMany(*FORMAT_FAILED, number=len(defects))
        self.mark += 1
        entries = tuple(Slipped(defects[block], block) for block in sorted(defects))
        ended = Structure(MADE, True, self.mark, geometry.spares, entries, geometry.layout)
        secondary = Secondary(MADE, 1, ended.counter)
        if not self.on_copies(self.put, self.secondary_copies(secondary)):
            raise Check(*FORMAT_FAILED, number=secondary.counter)
        if not self.on_copies(self.put, self.structure_copies(ended)):
            raise Check(*FORMAT_FAILED, number=ended.counter)
        self.lists = Lists(geometry, ended, secondary)

    @property
    def sectors(self) -> int:
        return 0 if self.lists is None else self.lists.sectors

    @property
    def sectors_after_format(self) -> int:
        return SECTORS_IN_BLOCK * len(self.medium.geometry.logical)

    def may_expand_to(self, sectors: int) -> bool:
        """Whether the disc can have this capacity after an expansion."""
        assert self.lists is not None
        if self.medium.geometry.layout is LayoutKind.EACH_ZONE:
            return sectors == self.sectors
        blocks, left = divmod(sectors, SECTORS_IN_BLOCK)
        spares = len(self.medium.geometry.data_blocks) - blocks
        return left == 0 and 0 < sectors <= self.sectors and spares <= self.lists.most_spares

    def expand(self, sectors: int) -> None:
        """Makes the last logical blocks supplementary spares, so that this many sectors are left."""
        assert self.lists is not None
        self.buffered = {}
        if sectors == self.sectors:
            return
        old, blocks = self.lists, sectors // SECTORS_IN_BLOCK
        spares = old.secondary.spares + len(old.logical) - blocks
        given_up = set(old.logical[blocks:])
        entries = tuple((block, None if block in given_up else spare)
                        for block, spare in old.secondary.entries)
        self.update_secondary(replace(old.secondary, spares=spares, entries=entries))
