"""Mounts of discs with mixtures of ten kinds of copy of one list, beside some of the other: an old and a new
list, another of the new one's counter, one that is not valid, one of another structure or that is being
formatted, a torn block, bytes of no list, a text of the other list, and new lists in blocks that die at their
first use or at their second."""
from __future__ import annotations

from itertools import product
from typing import Iterator, List, NamedTuple, Sequence, Tuple

from model.lists import Structure
from model.medium import State

from .copies import JUNK
from .laying import FORMAT, POWER, SMALL, Case, Laid, mounted, read, secondary, structure


class Copy(NamedTuple):
    """What a block has, its state, and in which use it dies, if in any."""
    text: bytes
    state: int = State.GOOD
    dies: int = 0


def structure_kinds() -> List[Copy]:
    new = structure(5, version=1).text
    return [
        Copy(structure(4, version=1).text), Copy(new), Copy(structure(5, version=1, slipped=[20]).text),
        Copy(Structure(1, True, 9, 5).text), Copy(structure(6, version=1, formatted=False).text),
        Copy(JUNK, State.TORN), Copy(JUNK), Copy(secondary(4, 5, version=1).texts[0]),
        Copy(new, dies=1), Copy(new, dies=2),
    ]


def secondary_kinds() -> List[Copy]:
    new = secondary(4, 5, version=1).texts[0]
    return [
        Copy(secondary(3, 5, version=1).texts[0]), Copy(new),
        Copy(secondary(4, 5, version=1, entries=[(9, None)]).texts[0]),
        Copy(secondary(8, 5, version=1, entries=[(8, None)]).texts[0]),
        Copy(secondary(7, 4, version=1).texts[0]),
        Copy(JUNK, State.TORN), Copy(JUNK), Copy(structure(6, version=1).text),
        Copy(new, dies=1), Copy(new, dies=2),
    ]


STRUCTURE_KINDS, SECONDARY_KINDS = structure_kinds(), secondary_kinds()
Kinds = Tuple[int, ...]
BESIDE_STRUCTURES = [(1, 1, 1, 1), (0, 1, 4, 4), (1, 0, 1, 2)]
BESIDE_SECONDARIES = [(1, 1, 1, 1), (1, 0, 1, 0), (0, 2, 0, 8)]


def case_of(structures: Kinds, secondaries: Kinds, behind: Sequence[str]) -> Case:
    """A mount, with the power cut right behind it; another one, and these lines."""
    disc = Laid()
    first: List[str] = []
    firsts = [block for block, _ in SMALL.secondary_blocks]
    first += lay_copies(disc, SMALL.structure_blocks, [STRUCTURE_KINDS[kind] for kind in structures])
    first += lay_copies(disc, firsts, [SECONDARY_KINDS[kind] for kind in secondaries])
    title = f"structures {structures} beside lists {secondaries}"
    return mounted(title, disc.image, first, [*POWER, *behind])


def lay_copies(disc: Laid, blocks: Sequence[int], copies: Sequence[Copy]) -> List[str]:
    """Lays copies. The lines that are to come before all others."""
    for block, copy in zip(blocks, copies):
        disc.lay(block, copy.text, copy.state)
    return [f"wear {block} {copy.dies}" for block, copy in zip(blocks, copies) if copy.dies]


def mixtures(every: bool) -> Iterator[Case]:
    """All 10,000 mixtures of copies of either list; or 1,000, in which each three areas have each three
    kinds. Behind some comes a format, whose counter tells the greatest one that was found."""
    some = ((one, two, three, (one + two + three) % 10) for one, two, three in product(range(10), repeat=3))
    for turn, copies in enumerate(product(range(10), repeat=4) if every else some):
        behind = [FORMAT] if every or turn % 4 == 0 else [read(0)]
        yield case_of(copies, BESIDE_STRUCTURES[turn % 3], behind)
        yield case_of(BESIDE_SECONDARIES[turn % 3], copies, behind)
