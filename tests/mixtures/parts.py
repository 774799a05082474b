"""Mixtures of the four copies of a secondary list that has two blocks. Each of the eight blocks is of one of
five kinds: the old list's, the new one's, torn, of another list or of none, or dying at its next use."""
from __future__ import annotations

from itertools import product
from typing import Iterator, List, Sequence, Tuple

from .copies import JUNK, KINDS, lay_copy
from .laying import (FORMAT, POWER, REWRITE, SMALL, Case, Laid, cut_at_ends, cut_everywhere, read, secondary,
                     structure, write)

PAIRS = list(product(KINDS, KINDS))
OLD_LIST = secondary(3, 5)
NEW_LIST = secondary(4, 5, entries=[(13, 12)])


def base() -> Laid:
    disc = Laid()
    disc.structures(structure(5))
    disc.number(SMALL.data_blocks)
    return disc


BEHIND = ["fail 14", write(1, 0xcc), REWRITE, *POWER, read(0), read(1)]


def case_of(pairs: Sequence[Tuple[int, ...]]) -> Case:
    """A mount, which chooses and repairs; an update, and another repair; and what is found then."""
    disc = base()
    first: List[str] = []
    for area, blocks in enumerate(SMALL.secondary_blocks):
        for part, block in enumerate(blocks):
            foreign = [structure(6).text, NEW_LIST.texts[1 - part]][area // 2]
            texts = [OLD_LIST.texts[part], NEW_LIST.texts[part], JUNK if area % 2 else foreign]
            first += lay_copy(disc, block, pairs[area][part], texts)
    return Case(f"parts {[*pairs]}", disc.image, [*first, *POWER, read(0), *BEHIND])


def of_strength_two() -> Iterator[List[Tuple[int, ...]]]:
    """625 mixtures, in which each two areas have each two pairs."""
    for one, other in product(range(25), range(25)):
        yield [PAIRS[at % 25] for at in (one, other, one + other, one + 2 * other)]


def mixtures(every: bool) -> Iterator[Case]:
    for turn, pairs in enumerate(of_strength_two()):
        yield from cut_at_ends(case_of(pairs), None if every else turn)


def stops(every: bool) -> Iterator[Case]:
    """Each use is cut, of 25 mixtures in which each area has each pair."""
    for turn, one in enumerate(range(25)):
        other = 7 * one
        pairs = [PAIRS[at % 25] for at in (one, other, one + other, one + 2 * other)]
        yield from cut_everywhere(case_of(pairs), None if every else turn)


def dead(every: bool) -> Iterator[Case]:
    """Each set of dead blocks among those of the four copies, before the mount or behind it."""
    blocks = [block for area in SMALL.secondary_blocks for block in area]
    disc = base()
    disc.secondaries(OLD_LIST)
    for turn, some in enumerate(product((False, True), repeat=8)):
        lost = [block for block, is_dead in zip(blocks, some) if is_dead]
        fail = [f"fail {block}" for block in lost]
        cases = [Case(f"parts {lost} die before the mount", disc.image, [*fail, *POWER, *BEHIND, FORMAT]),
                 Case(f"parts {lost} die behind the mount", disc.image, [*POWER, *fail, *BEHIND, FORMAT])]
        for case in cases if every else [cases[turn % 2]]:
            yield from cut_at_ends(case, None if every else turn)
