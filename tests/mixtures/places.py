"""Where logical blocks and spares lie, with blocks slipped at the borders of zones: a scrub tells which
logical blocks are dead of a disc half of whose blocks are, and dead ones move to spares."""
from __future__ import annotations

from itertools import combinations
from random import Random
from typing import Iterator, List, Sequence, Tuple

from model.lists import slips_too_many
from model.medium import Geometry, LayoutKind

from .laying import POWER, SPARES, Case, Laid, secondary, structure, write

ONE, EACH = LayoutKind.ONE_GROUP, LayoutKind.EACH_ZONE
BORDERS = [Geometry(1, 1, 4), Geometry(2, 1, 4), Geometry(3, 2, 5), Geometry(3, 1, 4, EACH),
           Geometry(2, 1, 3, EACH), Geometry(2, 2, 40, EACH)]
SLIPPED: List[Tuple[Geometry, Sequence[int]]] = [
    (Geometry(1, 1, 4), ()), (Geometry(1, 1, 4), (9, 10, 30, 31)), (Geometry(1, 1, 4), (9, 10, 11, 12)),
    (Geometry(1, 1, 22), (20,)), (Geometry(2, 1, 4), (30, 31, 34, 35)), (Geometry(2, 1, 4), (9, 31, 34, 57)),
    (Geometry(2, 1, 4), (9, 10, 11)), (Geometry(3, 2, 4), ()),
    (Geometry(2, 1, 4, EACH), (9, 10, 11, 12, 34, 35, 36, 37)), (Geometry(2, 1, 4, EACH), (20,)),
    (Geometry(35, 1, 4), (9, 31, 34, 57)), (Geometry(35, 1, 4, EACH), (9, 31, 34, 57)),
    (Geometry(35, 1, 22, EACH), ()),
]


def case_of(geometry: Geometry, slipped: Sequence[int], spares: int, random: Random) -> Case:
    """A scrub of a disc half of whose blocks are dead; then blocks are written that are."""
    disc, one = Laid(geometry), structure(5, slipped=slipped, geometry=geometry)
    disc.structures(one)
    disc.secondaries(secondary(1, 5, spares=spares))
    data = geometry.data_blocks
    disc.number(data)
    disc.fail(*random.sample(data, len(data) // 2))
    logical = range(max(1, len(geometry.logical) - spares))
    writes = [write(block, block % 256) for block in random.sample(logical, min(6, len(logical)))]
    lines = [*POWER, "cdb 25000000000000000000", SPARES, "scrub all", *writes, SPARES, *POWER, "scrub all"]
    return Case(f"{geometry}, slipped {slipped}, {spares} more spares", disc.image, lines, geometry.layout)


def at_borders(geometry: Geometry) -> Iterator[Tuple[int, ...]]:
    """None, one or two of the first and the last blocks of each zone."""
    near = sorted({block for zone in geometry.data_of_zones for block in (*zone[:2], *zone[-2:])})
    for count in (0, 1, 2):
        yield from (some for some in combinations(near, count) if not slips_too_many(some, geometry))


def borders(every: bool) -> Iterator[Case]:
    random = Random(1)
    for geometry in BORDERS:
        most = 0 if geometry.layout is EACH else len(geometry.data_blocks) - geometry.spares - 1
        for turn, slipped in enumerate(at_borders(geometry)):
            for spares in (0, 2, most) if every and most else [(0, 2, most)[turn % 3] if most else 0]:
                yield case_of(geometry, slipped, spares, random)


def some(_every: bool) -> Iterator[Case]:
    random = Random(2)
    for geometry, slipped in SLIPPED:
        yield case_of(geometry, slipped, 0, random)
