"""A disc in its image: the state of each block, and what each is by the lists that a mount would choose. Only
reads."""
from __future__ import annotations

from dataclasses import dataclass
from enum import Enum
from functools import cached_property

from .certificate import HEADER, certificate_of
from .lists import LayoutKind, Lists


class State(Enum):
    """What a block holds."""

    BLANK = "blank"
    GOOD = "good"
    TORN = "torn"
    DEAD = "dead"


STATES = {0: State.BLANK, 1: State.GOOD, 3: State.DEAD}  # any other byte is that of a torn block


class Role(Enum):
    """What a block is for."""

    LEAD_IN = "lead-in"
    LEAD_OUT = "lead-out"
    STRUCTURE = "structure copy"
    SECONDARY = "secondary list copy"
    GUARD = "guard"
    UNFORMATTED = "unformatted"
    DATA = "data"
    SPARE = "spare"
    SLIPPED = "slipped"
    REPLACED = "replaced"
    REPLACEMENT = "replacement"
    RETIRED = "retired"


@dataclass
class Block:
    """A block of the medium. `sector` is the first of its logical block, `partner` the other one of a
    replacement."""

    role: Role
    state: State
    sector: int | None = None
    partner: int | None = None

    def goes_on(self, before: Block, distance: int) -> bool:
        """Whether this block, so far behind the other one, belongs to the same run."""
        follows = None if before.sector is None else before.sector + 16 * distance
        return ((self.role, self.state, self.sector) == (before.role, before.state, follows)
                and self.partner is None and before.partner is None)


class Disc:
    """A disc as its image is now: its lists and what they lost by its certificate, and the state bytes of its
    blocks. The image does not tell the layout: where none is named, that is a group of spares in each zone if
    lists of this kind alone are found. Raises `NoDisc` where it is the image of no disc, `Ended` where the
    program does not tell, and `OSError`."""

    def __init__(self, program: list[str], path: str, layout: LayoutKind | None = None) -> None:
        with open(path, "rb") as file:
            told = certificate_of(program, path, layout)
            self.geometry, self.lists, self.lost = told.geometry, told.lists, told.lost
            file.seek(HEADER)
            self.states = [STATES.get(byte, State.TORN) for byte in file.read(self.geometry.total)]

    @cached_property
    def blocks(self) -> list[Block]:
        """Each block, by its number."""
        blocks = [Block(role, state) for role, state in zip(self.fixed_roles(), self.states)]
        if self.lists:
            name_by_lists(blocks, self.lists)
        return blocks

    def fixed_roles(self) -> list[Role]:
        """What the blocks are by the geometry, and by the version of the lists: in version 1 the secondary
        one has one part."""
        geometry = self.geometry
        roles = [Role.LEAD_IN] * 8 + [Role.UNFORMATTED] * (geometry.lead_out - 8) + [Role.LEAD_OUT] * 8
        for block in geometry.guards:
            roles[block] = Role.GUARD
        parts = self.lists.structure.version if self.lists else 2
        for structure, copy in zip(geometry.structure_blocks, geometry.secondary_blocks):
            roles[structure] = Role.STRUCTURE
            for block in copy[:parts]:
                roles[block] = Role.SECONDARY
        return roles

    @property
    def sectors(self) -> int:
        """How many sectors a host sees."""
        return 16 * len(self.lists.logical) if self.lists else 0

    def runs(self) -> list[tuple[int, int]]:
        """The first block and the length of each run of blocks that are alike."""
        starts = [number for number, block in enumerate(self.blocks)
                  if not number or not block.goes_on(self.blocks[number - 1], 1)]
        return [(start, end - start) for start, end in zip(starts, [*starts[1:], len(self.blocks)])]


def name_by_lists(blocks: list[Block], lists: Lists) -> None:
    """Names the data blocks by the lists of the disc."""
    for number in lists.spares:
        blocks[number].role = Role.SPARE
    for number in lists.structure.slipped:
        blocks[number].role = Role.SLIPPED
    for at, number in enumerate(lists.logical):
        blocks[number].role, blocks[number].sector = Role.DATA, 16 * at
    for number, other in lists.secondary.entries:
        blocks[number].role, blocks[number].partner = Role.RETIRED if other is None else Role.REPLACED, other
        if other is not None:
            blocks[other] = Block(Role.REPLACEMENT, blocks[other].state, blocks[number].sector, number)
