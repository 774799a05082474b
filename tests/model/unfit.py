"""Lists that are laid on a disc by hand: a pair that fits, and beside it or instead of it lists with a
flaw."""
from __future__ import annotations

from dataclasses import replace
from random import Random
from typing import Callable, Dict, List, Optional, Tuple

from .lists import LAST_COUNTER, MADE, MOST_IN_PART, VERSIONS, Lists, Secondary, Slipped, Structure
from .medium import BLOCK, SECTOR, Geometry, LayoutKind, Medium, State

Texts = List[Optional[bytes]]
"""What is laid in an area: the text of the structure, and that of each part of the secondary list. None is a
dead block."""


class Hand:
    """Draws lists for a disc."""

    def __init__(self, random: Random, geometry: Geometry) -> None:
        self.random = random
        self.geometry = geometry

    def image(self) -> bytes:
        """A disc with lists: in some areas a pair that fits, in the others one with a flaw or with other
        counters."""
        medium = Medium(self.geometry.blank(), self.geometry)
        fit = self.fit()
        areas = self.random.choices([[self.texts(fit)] * 4, [self.flawed(fit)] * 4, [self.foreign(fit)] * 4,
                                     self.mixed(fit), self.fronts(fit)], [6, 4, 2, 2, 3])[0]
        places: List[List[int]] = [[], [0], [0], [0], [0, 1], [0, 3], [1, 2], [3]]
        for place in self.random.choice(places):
            areas[place] = self.flawed(fit)
        for texts, structure, parts in zip(areas, self.geometry.structure_blocks,
                                           self.geometry.secondary_blocks):
            for text, block in zip(texts, (structure, *parts)):
                self.lay(medium, block, text)
        for block in self.random.sample(self.geometry.data_blocks, len(self.geometry.data_blocks) * 2 // 3):
            self.lay(medium, block, bytes([block % 256]) * BLOCK)
        return bytes(medium.image)

    def lay(self, medium: Medium, block: int, data: Optional[bytes]) -> None:
        medium.image[medium.bytes_at(block)] = data or bytes(BLOCK)
        medium.set_state(block, State.DEAD if data is None else State.GOOD)
        if self.random.random() < 0.03:
            medium.image[16 + block] = self.random.choice([0, 2, 3, 4, 0x81])

    def fit(self) -> Lists:
        """Lists that fit each other and the disc."""
        spares, layout = self.geometry.spares, self.geometry.layout
        most = len(self.geometry.data_blocks) - spares - 1
        is_one, entries = layout is LayoutKind.ONE_GROUP, self.slipped()
        first = self.random.choice([2, 2, 7, 7, LAST_COUNTER - 2, LAST_COUNTER - 1, LAST_COUNTER])
        version = self.random.choice(VERSIONS) if is_one else MADE
        structure = Structure(version, True, first, spares, entries, layout)
        more = min(self.random.choice([0, 0, 1, 2, most]), most) if is_one else 0
        counter = self.random.choice([1, 1, 5, LAST_COUNTER - 1, LAST_COUNTER])
        secondary = Secondary(version, counter, structure.counter, more)
        lists = Lists(self.geometry, structure, secondary)
        return replace(lists, secondary=replace(lists.secondary, entries=self.fitting_entries(lists)))

    def fitting_entries(self, lists: Lists) -> Tuple[Tuple[int, Optional[int]], ...]:
        entries: Dict[int, Optional[int]] = {}
        for block in self.random.sample(lists.logical,
                                        min(len(lists.logical), self.random.choice([0, 0, 1, 2, 3]))):
            taken = {*entries, *entries.values()}
            free = [spare for spare in lists.free(lists.spares_for(block)) if spare not in taken]
            if free:
                spare, is_replaced = self.random.choice(free), self.random.random() < 0.7
                entries[block if is_replaced else spare] = spare if is_replaced else None
        return tuple((block, entries[block]) for block in sorted(entries))

    def slipped(self) -> Tuple[Slipped, ...]:
        """Entries of blocks of which no group has more than it has spares."""
        data, spares = self.geometry.data_blocks, self.geometry.spares
        zones = [data] if self.geometry.layout is LayoutKind.ONE_GROUP else self.geometry.data_of_zones
        return tuple(Slipped(self.random.randrange(3), block) for zone in zones for block in sorted(
            self.random.sample(zone, self.random.choice([0, 0, 1, min(2, spares), spares]))))

    def texts(self, lists: Lists) -> Texts:
        """The texts of two lists. Where the secondary one has one part, another list may lie behind it."""
        parts: Texts = list(lists.secondary.texts)
        if len(parts) == 1 and self.random.random() < 0.3:
            parts.append(replace(lists.secondary, version=2).texts[1])
        return [lists.structure.text, *parts]

    def foreign(self, lists: Lists) -> Texts:
        """The lists of a disc that has another number of spares, whose structure is newer than the secondary
        list says."""
        structure = lists.structure
        other = replace(structure, spares=structure.spares + 1,
                        counter=min(structure.counter + 1, LAST_COUNTER))
        return [other.text, *self.texts(lists)[1:]]

    def mixed(self, lists: Lists) -> List[Texts]:
        """The lists, but in two areas a newer one, of which one area has lost the second part, and the other
        the first."""
        newer = replace(lists.secondary, counter=min(lists.secondary.counter + 1, LAST_COUNTER))
        parts: Texts = list(replace(newer, entries=self.fitting_entries(lists)).texts)
        areas = [self.texts(lists) for _ in range(4)]
        one, other = self.random.sample(range(4), 2)
        areas[one][1:] = [parts[0], None]
        areas[other][1:] = [None, *parts[1:]]
        return areas

    def fronts(self, lists: Lists) -> List[Texts]:
        """In each area the first part of a list that names a structure, mostly another one, and no second
        part of it. It may have a flaw, most often in the first bytes, by which a drive sees whether there is
        a second part."""
        fit = replace(lists.secondary, version=2)
        named = min(fit.structure + self.random.choice([0, 9, 9]), LAST_COUNTER)
        first, second = replace(fit, structure=named,
                                spares=self.random.choice([fit.spares, 2 * MOST_IN_PART])).texts
        flaws = [first, first[:12] + b"\x1f\xf9" + first[14:], first[:14] + b"\x1f\xf9" + first[16:],
                 first[:14] + b"\x1f\xf8" + first[16:], self.spoiled(first, [0, 1, 2, 3]),
                 self.spoiled(first, [16, 17, 31]), self.spoiled(first, [32, 35, BLOCK - 1])]
        behind: List[Texts] = [[], [None], [fit.texts[1]], [second]]
        flaw, rest = self.random.choice(flaws), self.random.choice(behind)
        return [[lists.structure.text, flaw, *rest]] * 4

    def flawed(self, lists: Lists) -> Texts:
        """The texts of two lists, one of which has a flaw or another counter."""
        structure, *parts = self.texts(lists)
        if self.random.random() < 0.5:
            return [self.flawed_structure(lists.structure), *parts]
        if lists.secondary.version == 2 and self.random.random() < 0.6:
            return [structure, *self.flawed_parts(lists.secondary)]
        return [structure, *self.flawed_secondary(lists)]

    def other_counter(self, counter: int) -> int:
        return self.random.choice([counter, max(counter - 1, 0), *[min(counter + 1, LAST_COUNTER)] * 3, 0,
                                   LAST_COUNTER])

    def spoiled(self, text: bytes, places: List[int]) -> bytes:
        """A text in which one byte is another."""
        at = self.random.choice(places)
        return text[:at] + bytes([text[at] ^ self.random.choice([1, 2, 3, 0x80])]) + text[at + 1:]

    def outside(self) -> int:
        """A block that is no data block."""
        return self.random.choice([0, 7, 8, self.geometry.lead_out - 1, self.geometry.lead_out,
                                   self.geometry.blocks, 2 ** 24 - 1])

    def any_of(self, blocks: List[int]) -> int:
        return self.random.choice(blocks) if blocks else self.outside()

    def flawed_structure(self, fit: Structure) -> bytes:
        data = self.geometry.data_blocks
        entries = fit.entries or (Slipped(0, self.random.choice(data)),)
        outside = sorted([*entries[1:], Slipped(0, self.outside())], key=lambda entry: entry.block)
        other = self.other_counter(fit.counter)
        crowd = self.random.choice([data, *self.geometry.data_of_zones])
        draws: Dict[Callable[[], Structure], float] = {
            lambda: replace(fit, counter=other): 2,
            lambda: replace(fit, version=3 - fit.version, counter=other): 3,
            lambda: replace(fit, version=MADE, layout=fit.layout.other, counter=other): 4,
            lambda: replace(fit, counter=other, formatted=False, entries=()): 2,
            lambda: replace(fit, formatted=False, entries=entries): 3,
            lambda: replace(fit, spares=self.random.choice([0, fit.spares + 1, fit.spares + 1, 4_093]),
                            counter=other): 7,
            lambda: replace(fit, entries=tuple(outside), counter=other): 3,
            lambda: replace(fit, entries=tuple(Slipped(2, block) for block in crowd[:fit.spares + 1])): 2,
            lambda: replace(fit, entries=tuple(reversed((*entries[:1], Slipped(0, data[-1]))))): 3,
            lambda: replace(fit, entries=(entries[0], entries[0])): 2,
            lambda: replace(fit, entries=(Slipped(3, entries[0].block),)): 4,
            lambda: replace(fit, entries=(Slipped(1, self.random.choice(data)),)): 2,
        }
        if self.random.random() < 0.3:
            last = 2_052 + 4 * len(fit.entries)
            places = [0, 1, 2, 3, 10, SECTOR - 1, SECTOR + 1, SECTOR + 3, last, BLOCK - 1, BLOCK - 1,
                      BLOCK - 1]
            return self.spoiled(fit.text, places)
        return self.random.choices(list(draws), list(draws.values()))[0]().text

    def flawed_parts(self, fit: Secondary) -> Texts:
        """The two parts of a list, which do not belong together, or one of which is not there or has a
        flaw."""
        first, second = fit.texts
        older, newer = (replace(fit, counter=min(max(fit.counter + step, 0), LAST_COUNTER)).texts
                        for step in (-1, 1))
        many = range(MOST_IN_PART + self.random.choice([0, 1, 2]))
        long = replace(fit, entries=tuple((block, None) for block in many)).texts
        spoiled = self.spoiled(second, [0, 1, 2, 3, 7, 11, 12, 13, 14, 15, 16, 31, 32, BLOCK - 1])
        draws: List[Texts] = [
            [first], [first, None], [None, second], [newer[0], second], [first, newer[1]], [first, older[1]],
            [second, first], [first, first], [second, second], [long[0], second], [*long], [first, spoiled],
            [first, spoiled],
        ]
        return self.random.choice(draws)

    def flawed_secondary(self, lists: Lists) -> Texts:
        fit, data = lists.secondary, len(self.geometry.data_blocks)
        most = MOST_IN_PART * fit.version
        named = set(lists.named)
        logical = self.any_of([block for block in lists.logical if block not in named])
        own = lists.free(lists.spares_for(logical)) if logical in lists.zone_of else []
        spare, other = self.any_of(own), self.any_of(own)
        foreign = self.any_of([block for block in lists.free_spares if block not in own])
        second = self.any_of([block for block in lists.logical if block not in named and block > logical])
        draws: Dict[Callable[[], Secondary], float] = {
            lambda: replace(fit, counter=self.other_counter(fit.counter)): 3,
            lambda: replace(fit, structure=self.other_counter(fit.structure)): 5,
            lambda: replace(fit, version=3 - fit.version): 2,
            lambda: replace(fit, spares=self.random.choice([most, most + 1, MOST_IN_PART + 1]),
                            entries=()): 1,
            lambda: replace(fit, spares=data - lists.structure.spares, entries=()): 3,
            lambda: replace(fit, spares=1): 1,
            lambda: self.with_entries(fit, (logical, foreign)): 3,
            lambda: self.with_entries(fit, (logical, None)): 2,
            lambda: self.with_entries(fit, (spare, other)): 1,
            lambda: self.with_entries(fit, (spare, spare)): 1,
            lambda: self.with_entries(fit, (logical, second)): 1,
            lambda: self.with_entries(fit, (logical, spare), (second, spare)): 2,
            lambda: self.with_entries(fit, (logical, spare), (spare, None)): 2,
            lambda: self.with_entries(fit, (logical, self.outside())): 1,
            lambda: self.with_entries(fit, (self.outside(), self.random.choice([None, spare]))): 2,
            lambda: self.with_entries(fit,
                                      (self.any_of(lists.structure.blocks),
                                       self.random.choice([None, spare]))): 1,
            lambda: replace(fit, entries=((second, spare), (logical, other))): 1,
            lambda: replace(fit, entries=((logical, spare), (logical, other))): 1,
        }
        if self.random.random() < 0.3:
            last = 32 + 8 * len(fit.entries)
            places = [0, 1, 2, 3, 12, 15, 16, 31, 32, 36, 39, last - 1, last, BLOCK - 1]
            return [self.spoiled(fit.texts[0], places), *fit.texts[1:]]
        return [*self.random.choices(list(draws), list(draws.values()))[0]().texts]

    @staticmethod
    def with_entries(fit: Secondary, *more: Tuple[int, Optional[int]]) -> Secondary:
        entries: Dict[int, Optional[int]] = {**dict(fit.entries), **dict(more)}
        return replace(fit, entries=tuple((block, entries[block]) for block in sorted(entries)))
