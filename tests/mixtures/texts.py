"""Lists of which one byte is another, in all four copies: whether they are lists still is told by the mount,
and by the counter of the next format."""
from __future__ import annotations

from dataclasses import replace
from typing import Dict, Iterator, List, Optional, Sequence, Tuple

from model.lists import MOST_IN_PART, Secondary, Slipped, Structure
from model.medium import BLOCK, Geometry, LayoutKind

from .laying import FORMAT, POWER, SMALL, Case, Laid, mounted, read, secondary, structure

ZONES = Geometry(2, 1, 4, LayoutKind.EACH_ZONE)
LINES = [*POWER, read(0), read(1), FORMAT, *POWER]
Changes = Sequence[Tuple[int, Sequence[int]]]

OF_STRUCTURES: Changes = [
    (0, (0x0b, 0)), (1, (0, 0x0b)), (2, (0, 1, 2, 3, 4)), (3, (0, 1, 0x80, 0x81, 0xff)), (4, (9,)),
    (7, (0, 9)), (8, (0x10,)), (9, (0, 3, 5)), (10, (1,)), (11, (1,)), (2_047, (0x80,)), (2_048, (1,)),
    (2_049, (0, 2)),
    (2_050, (1, 0x80)), (2_051, (0, 1, 2, 5)), (2_052, (1, 2, 3, 0xff)), (2_053, (1,)),
    (2_055, (8, 9, 31, 32)), (2_056, (1,)), (BLOCK - 1, (1,)),
]
OF_SECONDARIES: Changes = [
    (0, (1,)), (1, (0, 3)), (2, (0, 1, 2, 3)), (3, (0, 1, 2)), (4, (1, 0x80)), (7, (2, 9)), (8, (1, 0x80)),
    (11, (3, 6)), (12, (0x10, 0x1f, 0x20)), (13, (1, 18, 19)), (14, (0x10, 0x1f, 0x20)),
    (15, (0, 1, 2, 0xfc)), (16, (1,)), (31, (1,)), (32, (1, 2, 0xff)), (33, (1,)), (35, (9, 14, 31)),
    (36, (1,)), (37, (1,)), (39, (8, 11, 13)), (40, (1,)), (BLOCK - 1, (1,)),
]


def changed(text: bytes, at: int, byte: int) -> bytes:
    return text[:at] + bytes([byte]) + text[at + 1:]


def laid(structure_text: Optional[bytes], parts: Sequence[Optional[bytes]],
         geometry: Geometry = SMALL) -> bytes:
    """A disc whose areas all have these texts."""
    disc = Laid(geometry)
    disc.number(geometry.data_blocks)
    for block, blocks in zip(geometry.structure_blocks, geometry.secondary_blocks):
        for place, text in zip((block, *blocks), (structure_text, *parts)):
            if text is not None:
                disc.lay(place, text)
    return disc.image


def texts(_every: bool) -> Iterator[Case]:
    """One byte of a structure, of a secondary list of one block, or of either part of one of two."""
    for geometry, version in ((SMALL, 1), (SMALL, 2), (ZONES, 2)):
        whole = structure(5, version, [20], geometry=geometry)
        parts = secondary(3, 5, version, entries=[(14, 12 if geometry is SMALL else 28)]).texts
        blocks = [whole.text, *parts]
        for place, changes in enumerate([OF_STRUCTURES, OF_SECONDARIES, OF_SECONDARIES][:1 + len(parts)]):
            for at, byte in ((at, byte) for at, some in changes for byte in some):
                new = [changed(text, at, byte) if of == place else text for of, text in enumerate(blocks)]
                title = f"{geometry.layout.value}, version {version}: byte {at} of text {place} is {byte:02x}"
                yield mounted(title, laid(new[0], new[1:], geometry), [], LINES, geometry.layout)


def retired(first: int, last: int) -> Tuple[Tuple[int, Optional[int]], ...]:
    return tuple((block, None) for block in range(first, last + 1))


def named() -> Dict[str, Secondary]:
    """Secondary lists that are none, or that fit no disc: only the structure counts that they name."""
    one, two = secondary(2, 900, 1), secondary(2, 900)
    most = MOST_IN_PART
    return {
        "4,092 entries": replace(one, entries=retired(1, most)),
        "4,093 entries in one block": replace(one, entries=retired(1, most + 1)),
        "4,093 entries": replace(two, entries=retired(1, most + 1)),
        "8,184 entries": replace(two, entries=retired(1, 2 * most)),
        "8,185 entries": replace(two, entries=retired(1, 2 * most + 1)),
        "equal from part to part": replace(two, entries=(*retired(1, most), (most, None))),
        "rising from part to part": replace(two, entries=(*retired(1, most), (most + 1, None))),
        "falling from part to part": replace(two, entries=(*retired(2, most + 1), (1, None))),
        "falling": replace(one, entries=((14, 11), (13, 12))),
        "equal": replace(one, entries=((13, 12), (13, 11))),
        "4,092 spares": replace(one, spares=most), "4,093 spares": replace(one, spares=most + 1),
        "8,184 spares": replace(two, spares=2 * most), "8,185 spares": replace(two, spares=2 * most + 1),
    }


def lists(_every: bool) -> Iterator[Case]:
    """Lists with too many entries, or whose entries fall, and slipped blocks that a disc cannot have."""
    for title, one in named().items():
        yield mounted(title, laid(None, [text[:BLOCK] for text in one.texts]), [], LINES)
    for version, blocks in ((version, blocks) for version in (1, 2) for blocks in SLIPS):
        whole = Structure(version, True, 5, 4, tuple(Slipped(0, block) for block in blocks))
        parts = secondary(3, 5, version).texts
        yield mounted(f"version {version}, slipped {blocks}", laid(whole.text, parts), [], LINES)
    yield from pairs()


SLIPS: List[Tuple[int, ...]] = [(), (9,), (9, 10, 30, 31), (9, 10, 11, 12, 13), (8,), (20, 32), (33, 34),
                                (20, 20), (21, 20), (20, 21)]


def pairs() -> Iterator[Case]:
    """Parts of secondary lists that do not belong together."""
    lists_of = [secondary(counter, 5, entries=[(13, 12)]) for counter in (3, 4)]
    first, second, newer_first, newer_second = (text for one in lists_of for text in one.texts)
    by_title: Dict[str, Sequence[Optional[bytes]]] = {
        "the first part alone": [first, None], "the second part alone": [None, second],
        "the first part twice": [first, first], "the second part twice": [second, second],
        "the parts the other way round": [second, first], "a newer second part": [first, newer_second],
        "a newer first part": [newer_first, second],
        "one block and a second part": [secondary(3, 5, 1, entries=[(13, 12)]).texts[0], second],
    }
    for title, parts in by_title.items():
        for version in (1, 2):
            image = laid(structure(5, version).text, parts)
            yield mounted(f"version {version}: {title}", image, [], LINES)
