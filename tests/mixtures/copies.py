"""Mixtures of the four copies of a list that has one block: the old list, the new one, a torn block, bytes of
another list or of none, and the new list in a block that dies at its next use."""
from __future__ import annotations

from itertools import product
from typing import Iterator, List, Optional, Sequence, Tuple

from model.medium import BLOCK, State

from .laying import (FORMAT, POWER, REWRITE, SMALL, Case, Laid, cut_at_ends, cut_everywhere, read, secondary,
                     structure, write)

OLD, NEW, TORN, FOREIGN, FALLING = range(5)
KINDS = range(5)
JUNK = b"junk".ljust(BLOCK, b"\0")

Copies = Tuple[int, ...]


def lay_copy(disc: Laid, block: int, kind: int, texts: Sequence[bytes]) -> List[str]:
    """Lays a copy: texts are the old one, the new one, and one of another list. The line that is to come
    before all others."""
    text = {TORN: JUNK, FOREIGN: texts[2]}.get(kind) or texts[kind != OLD]
    disc.lay(block, text, State.TORN if kind == TORN else State.GOOD)
    return [f"wear {block} 1"] if kind == FALLING else []


def lay_structures(copies: Copies) -> Tuple[Laid, List[str]]:
    """Copies of the structure, beside secondary lists of which two belong to the old one and two to the new
    one."""
    disc, first = Laid(), []
    for area, (block, _) in enumerate(SMALL.secondary_blocks):
        disc.lay(block, secondary(1, 4 + area % 2, version=1).texts[0])
    foreign = secondary(9, 9, version=1).texts[0]
    for area, block in enumerate(SMALL.structure_blocks):
        texts = [structure(4, version=1).text, structure(5, version=1, slipped=[20]).text,
                 JUNK if area % 2 else foreign]
        first += lay_copy(disc, block, copies[area], texts)
    disc.number(SMALL.data_blocks)
    return disc, first


def lay_secondaries(copies: Copies) -> Tuple[Laid, List[str]]:
    """Copies of the secondary list, of which the new one has a replacement."""
    disc, first = Laid(), []
    disc.structures(structure(5, version=1))
    for area, (block, _) in enumerate(SMALL.secondary_blocks):
        texts = [secondary(3, 5, version=1).texts[0],
                 secondary(4, 5, version=1, entries=[(13, 12)]).texts[0],
                 JUNK if area % 2 else structure(6, version=1).text]
        first += lay_copy(disc, block, copies[area], texts)
    disc.number(SMALL.data_blocks)
    return disc, first


def case_of(copies: Copies, of_structure: bool) -> Case:
    """A mount, which chooses and repairs; an update, and another repair; and what is found then."""
    disc, first = lay_structures(copies) if of_structure else lay_secondaries(copies)
    update = [FORMAT] if of_structure else ["fail 14", write(1, 0xcc)]
    lines = [*first, *POWER, read(0), *update, REWRITE, *POWER, read(0), read(1)]
    what = "structure" if of_structure else "secondary list"
    return Case(f"copies {copies} of the {what}", disc.image, lines)


def of_strength_two() -> Iterator[Copies]:
    """25 mixtures, in which each two areas have each two kinds."""
    for one, other in product(KINDS, KINDS):
        yield (one, other, (one + other) % 5, (one + 2 * other) % 5)


def mixtures(every: bool) -> Iterator[Case]:
    """Each mixture, by turns of either list, or of both."""
    for turn, copies in enumerate(product(KINDS, repeat=4)):
        for of_structure in (True, False) if every else [turn % 2 == 0]:
            yield from cut_at_ends(case_of(copies, of_structure), None if every else turn)


def stops(every: bool) -> Iterator[Case]:
    """Each use is cut, of 25 mixtures of either list; or every third one, of the lists by turns."""
    for turn, copies in enumerate(of_strength_two()):
        for of_structure in (True, False) if every else [turn % 2 == 0]:
            yield from cut_everywhere(case_of(copies, of_structure), None if every else turn)


def dead(every: bool) -> Iterator[Case]:
    """Each set of dead copies of a list, of both, or of both where the one is the rest of the other; dead
    before the mount or behind it."""
    for some in product((False, True), repeat=4):
        rest = tuple(not one for one in some)
        nothing = (False,) * 4
        for of_structures, of_secondaries in [(some, nothing), (nothing, some), (some, some), (some, rest)]:
            yield from dead_cases(of_structures, of_secondaries, None if every else sum(some))


def dead_cases(of_structures: Sequence[bool], of_secondaries: Sequence[bool],
               turn: Optional[int]) -> Iterator[Case]:
    disc = Laid()
    disc.structures(structure(5, version=1))
    disc.secondaries(secondary(3, 5, version=1))
    disc.number(SMALL.data_blocks)
    firsts = [block for block, _ in SMALL.secondary_blocks]
    lost = [block for block, is_dead in zip([*SMALL.structure_blocks, *firsts],
                                            [*of_structures, *of_secondaries]) if is_dead]
    fail = [f"fail {block}" for block in lost]
    behind = ["fail 14", write(1, 0xcc), REWRITE, FORMAT, *POWER, read(1)]
    for name, lines in (("before", [*fail, *POWER, *behind]), ("behind", [*POWER, *fail, *behind])):
        yield from cut_at_ends(Case(f"{lost} die {name} the mount", disc.image, lines), turn)
