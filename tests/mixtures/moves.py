"""Writes of a block whose home is dead, with each mixture of dead spares, and of copies of the secondary list
that are dead or that die in its update."""
from __future__ import annotations

from itertools import product
from typing import Dict, Iterator, List, Optional, Tuple

from .laying import (POWER, SMALL, SPARES, Case, Laid, read, secondary, structure, uses_after, verify,
                     write)

PRIMARY = SMALL.groups[0]
LOST_WITH = {1: (1, 3, 34, 36), 2: (1, 5, 34, 38)}
"""The block with which each copy is lost, for each version: of two blocks the first and the second by
turns."""


def some_of(blocks: Tuple[int, ...], bits: int) -> List[int]:
    return [block for at, block in enumerate(blocks) if bits >> at & 1]


def case_of(version: int, spares: int, copies: int, dying: bool) -> Case:
    """The write, with the power cut right behind it, in a verification; then what is found."""
    disc = Laid()
    disc.structures(structure(5, version))
    disc.secondaries(secondary(1, 5, version))
    disc.number(SMALL.data_blocks)
    lost = some_of(LOST_WITH[version], copies)
    disc.fail(13, *some_of(tuple(PRIMARY), spares), *([] if dying else lost))
    first = [f"wear {block} 3" for block in lost] if dying else []  # a mount uses it twice
    case = Case(f"version {version}, spares {spares}, copies {copies}, {'dying' if dying else 'dead'}",
                disc.image, [*first, *POWER, write(0, 0xaa)])
    cut = f"cut {uses_after(case)[-1] + 1} old"
    return case._replace(lines=[cut, *case.lines, verify(5), *POWER, read(0), SPARES])


def mixtures(_every: bool) -> Iterator[Case]:
    for version, dying, copies, spares in product((1, 2), (True, False), range(16), range(16)):
        if dying or copies < 15:  # a disc of which all copies are dead is not formatted
            yield case_of(version, spares, copies, dying)


def states(_every: bool) -> Iterator[Case]:
    """All 81 ways in which four spares may be free, replacements or retired: which one is taken next, and
    after that, and how many are free."""
    for ways in product(("free", "replacement", "retired"), repeat=4):
        entries: Dict[int, Optional[int]] = {}
        for at, (spare, way) in enumerate(zip(PRIMARY, ways)):
            if way != "free":
                entries[20 + at if way == "replacement" else spare] = spare if way == "replacement" else None
        disc = Laid()
        disc.structures(structure(5))
        disc.secondaries(secondary(1, 5, entries=sorted(entries.items())))
        disc.number(SMALL.data_blocks)
        disc.fail(13, 14, 15, 16, 17)
        moves = [line for logical in range(5) for line in (write(logical, 0xa0 + logical), SPARES)]
        reads = [read(logical) for logical in range(19)]
        yield Case(f"spares {ways}", disc.image, [*POWER, SPARES, *reads, *moves, *POWER, *reads])
