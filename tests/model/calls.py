"""The calls by which a run changes its image, and what the image is between two of them."""
from __future__ import annotations

from typing import List, NamedTuple, Sequence

from .cache import CachedDrive
from .commands import Target
from .medium import HEADER, Fate, Geometry, LayoutKind, Medium, State
from .script import Run


class Change(NamedTuple):
    """A call that gives the image this length, where there is one; else it puts these bytes at a place."""
    at: int
    data: bytes = b""
    length: int = -1

    def make(self, image: bytearray) -> None:
        if self.length < 0:
            image[self.at:self.at + len(self.data)] = self.data
        else:
            del image[self.length:]
            image.extend(bytes(self.length - len(image)))


class NotedMedium(Medium):
    """A medium that notes the calls. A write of a block is three: torn, its bytes, good."""

    def __init__(self, image: bytearray, geometry: Geometry, changes: List[Change]) -> None:
        super().__init__(image, geometry)
        self.changes = changes

    def set_state(self, block: int, state: State) -> None:
        self.changes.append(Change(HEADER + block, bytes([state])))
        super().set_state(block, state)

    def _leave(self, block: int, data: bytes, fate: Fate) -> None:
        if fate == Fate.NEW:
            self.set_state(block, State.TORN)
            self.changes.append(Change(self.bytes_at(block).start, data))
        super()._leave(block, data, fate)


class NotedRun(Run):
    """A run that notes the calls."""

    def __init__(self, image: bytes, layout: LayoutKind) -> None:
        self.changes: List[Change] = []
        super().__init__(image, layout)

    def insert(self) -> None:
        geometry = Geometry.of(self.image, self.layout)
        self.target = None
        if geometry:
            self.target = Target(CachedDrive(NotedMedium(self.image, geometry, self.changes)))

    def press(self, geometry: Geometry) -> str:
        answer = super().press(geometry)
        if answer == "pressed":
            whole = Change(0, length=geometry.image_length)
            self.changes += [Change(0, length=0), whole, Change(0, geometry.header)]
        return answer


def image_after(changes: Sequence[Change], image: bytes = b"") -> bytes:
    """What these calls make of an image."""
    made = bytearray(image)
    for change in changes:
        change.make(made)
    return bytes(made)
