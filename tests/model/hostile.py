"""Images that are changed by hand: bytes of headers, states, lists and data."""
from __future__ import annotations

from random import Random
from typing import Callable, List, Tuple

from .lists import FORM_OF_ZONES, LAST_COUNTER, MADE
from .medium import BLOCK, HEADER, Geometry, Medium, State


class Hand:
    """A disc's image, with what may be done to it."""

    def __init__(self, random: Random, image: bytes, geometry: Geometry) -> None:
        self.random = random
        self.geometry = geometry
        self.medium = Medium(bytearray(image), geometry)
        self.lists = geometry.list_blocks

    def change(self) -> bytes:
        """The image after some changes."""
        changes: List[Tuple[Callable[[], None], int]] = [
            (self.header, 3), (self.length, 1), (self.states, 4), (self.list_byte, 4), (self.data, 1),
            (self.copy, 2), (self.counters, 4), (self.layouts, 2),
        ]
        for change in self.random.choices([one for one, _ in changes], [weight for _, weight in changes],
                                          k=self.random.randint(1, 4)):
            change()
        return bytes(self.medium.image)

    def put(self, block: int, data: bytes) -> None:
        self.medium.image[self.medium.bytes_at(block)] = data
        self.medium.set_state(block, State.GOOD)

    def header(self) -> None:
        byte = self.random.choice([0, 1, 2, 3, 0xff])
        self.medium.image[self.random.choice([0, 7, 9, 11, 13, 13, 13, 14, 15, 15, 15])] = byte

    def length(self) -> None:
        if self.random.random() < 0.5:
            self.medium.image.append(0)
        else:
            del self.medium.image[-1]

    def any_block(self) -> int:
        return self.random.choice([self.random.choice(self.lists),
                                   self.random.randrange(self.geometry.blocks)])

    def states(self) -> None:
        for block in (self.any_block() for _ in range(4)):
            self.medium.image[HEADER + block] = self.random.choice([0, 1, 1, 2, 3, 4, 0x80, 0xff])

    def list_byte(self) -> None:
        """A byte of a copy of a list: most often of its head or of its first entries, else of the zeros."""
        block = self.random.choice(self.lists)
        begin = self.medium.bytes_at(block).start
        head, entries = self.random.randrange(40), 2_048 + self.random.randrange(20)
        place = self.random.choice([head, entries, self.random.randrange(BLOCK), BLOCK - 1])
        self.medium.image[begin + place] = self.random.choice([0, 1, 2, 3, 9, 13, 0x80, 0xff])

    def data(self) -> None:
        """Random bytes in a data block."""
        block = self.random.choice(self.geometry.data_blocks)
        data = self.random.getrandbits(8 * BLOCK).to_bytes(BLOCK, "big")
        self.medium.image[self.medium.bytes_at(block)] = data

    def copy(self) -> None:
        """A copy of a list in the place of another."""
        source, target = self.random.choice(self.lists), self.random.choice(self.lists)
        self.put(target, bytes(self.medium.image[self.medium.bytes_at(source)]))

    def counters(self) -> None:
        """Lists as they are, at another counter: the structure together with its secondary lists, or these
        alone."""
        counter = self.random.choice([0, 1, LAST_COUNTER - 2, LAST_COUNTER - 1, LAST_COUNTER])
        moves = self.random.random() < 0.5
        for block in self.lists:
            data = bytes(self.medium.image[self.medium.bytes_at(block)])
            if block not in self.geometry.structure_blocks:
                at = 8 if moves else 4
            elif moves:
                at = 4
            else:
                continue
            data = data[:at] + counter.to_bytes(4, "big") + data[at + 4:]
            self.medium.image[self.medium.bytes_at(block)] = data

    def layouts(self) -> None:
        """Structures as they are, but of the other layout, in all areas or in some."""
        for block in self.random.sample(self.geometry.structure_blocks, self.random.choice([1, 2, 4, 4])):
            at = self.medium.bytes_at(block).start + 2
            is_of_zones = self.medium.image[at] == FORM_OF_ZONES
            self.medium.image[at] = MADE if is_of_zones else FORM_OF_ZONES
