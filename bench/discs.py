"""Images of discs with defect lists, as they are measured. All blocks but those of the lists are blank, or
dead. The lists are laid by the model (tests/model)."""
from __future__ import annotations

import sys
from pathlib import Path
from typing import List, Optional, Sequence, Tuple

sys.path.append(str(Path(__file__).resolve().parent.parent / "tests"))

# pylint: disable-next=wrong-import-position
from model.lists import MADE, Lists, Secondary, Slipped, Structure  # noqa: E402
# pylint: disable-next=wrong-import-position
from model.medium import BLOCK, HEADER, MOST_SPARES, Geometry, LayoutKind, State  # noqa: E402

GREATEST = Geometry(35, 100, MOST_SPARES)
# Those with the most spares, of a disc that has a group of them in each zone; and the same of one group.
ZONES = Geometry(35, 5, 116, LayoutKind.EACH_ZONE)
ONE_GROUP = Geometry(35, 5, 116)


def empty_lists(geometry: Geometry, slipped: Sequence[int] = (), spares: int = 0) -> Lists:
    """Lists with these slipped blocks and so many supplementary spares, and none that is replaced."""
    entries = tuple(Slipped(0, block) for block in slipped)
    structure = Structure(MADE, True, 2, geometry.spares, entries, geometry.layout)
    return Lists(geometry, structure, Secondary(MADE, 1, 2, spares))


def lists_of(geometry: Geometry, slipped: Sequence[int] = (), spares: int = 0,
             retired_ones: Sequence[int] = (), every: int = 0, count: int = 0) -> Lists:
    """Lists of one group with these slipped blocks and retired spares, and so many supplementary spares; of
    every so many logical blocks one is replaced, until so many are, by the spares in their order."""
    lists = empty_lists(geometry, slipped, spares)
    free = [*reversed(lists.primary), *reversed(lists.supplementary)][:count]
    entries: List[Tuple[int, Optional[int]]] = [(block, None) for block in retired_ones]
    entries += zip(lists.logical[::every], free) if every else []
    entries.sort(key=lambda entry: entry[0])
    return Lists(geometry, lists.structure, Secondary(MADE, 1, 2, spares, tuple(entries)))


def press(path: Path, lists: Lists) -> None:
    """Makes the image of a disc with these lists. What is slipped, replaced or retired is dead."""
    geometry = lists.geometry
    states = bytearray(geometry.blocks)
    for block in [*lists.structure.blocks, *(block for block, _ in lists.secondary.entries)]:
        states[block] = State.DEAD
    texts = [(block, lists.structure.text) for block in geometry.structure_blocks]
    texts += [pair for area in geometry.secondary_blocks for pair in zip(area, lists.secondary.texts)]
    for block, _ in texts:
        states[block] = State.GOOD
    with path.open("wb") as image:
        image.truncate(geometry.image_length)
        image.write(geometry.header + states)
        for block, text in texts:
            image.seek(HEADER + geometry.blocks + BLOCK * block)
            image.write(text)


def put_states(path: Path, geometry: Geometry, state: int) -> None:
    """Gives all data blocks of a disc this state byte."""
    with path.open("r+b") as image:
        states = bytearray(image.read(HEADER + geometry.blocks))
        for block in geometry.data_blocks:
            states[HEADER + block] = state
        image.seek(0)
        image.write(states)


def plain(path: Path) -> None:
    """The greatest disc, without a defect."""
    press(path, lists_of(GREATEST))


def slipped_and_replaced(path: Path) -> None:
    """The greatest disc, with 4,092 slipped blocks and 4,092 replaced ones: one of 32 logical blocks."""
    slipped = GREATEST.data_blocks[17::35][:MOST_SPARES]
    press(path, lists_of(GREATEST, slipped, MOST_SPARES, (), 32, MOST_SPARES))


def replaced(path: Path) -> None:
    """The greatest disc, with 8,184 replaced blocks: one of 16 logical blocks."""
    press(path, lists_of(GREATEST, (), MOST_SPARES, (), 16, 2 * MOST_SPARES))


def retired(path: Path) -> None:
    """A disc whose spares are all retired: a list of 8,184 entries."""
    geometry = Geometry(4, 100, MOST_SPARES)
    all_spares = geometry.data_blocks[:MOST_SPARES] + geometry.data_blocks[-MOST_SPARES:]
    press(path, lists_of(geometry, (), MOST_SPARES, all_spares))


def plain_in_zones(path: Path) -> None:
    """A disc with a group of spares in each zone, without a defect."""
    press(path, lists_of_zones())


def plain_in_one_group(path: Path) -> None:
    """The same of one group."""
    press(path, lists_of(ONE_GROUP))


def slipped_in_zones(path: Path) -> None:
    """Such a disc with 4,060 slipped blocks: as many in each zone as it has spares."""
    press(path, lists_of_zones(slipped=ZONES.spares))


def full_in_zones(path: Path) -> None:
    """Such a disc whose 4,060 spares are all used up: a list of as many entries."""
    press(path, lists_of_zones(used=ZONES.spares))


def lists_of_zones(slipped: int = 0, used: int = 0) -> Lists:
    """Lists of a disc with a group of spares in each zone, of which each zone has so many slipped blocks,
    every other one as far as that goes, and so many spares that are used up: they replace the first logical
    blocks of the zone, and where it has fewer the others are retired."""
    blocks = [block for zone in ZONES.data_of_zones for block in sorted([*zone[::2], *zone[1::2]][:slipped])]
    lists = empty_lists(ZONES, blocks)
    entries: List[Tuple[int, Optional[int]]] = []
    for logical, free in lists.groups:
        entries += zip(logical, free[:used])
        entries += [(spare, None) for spare in free[len(logical):used]]
    return Lists(ZONES, lists.structure, Secondary(MADE, 1, 2, 0, tuple(entries)))
