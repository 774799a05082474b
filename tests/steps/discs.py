"""An image in a file, of which blocks are written and read by hand. That of a great disc is mostly holes."""
from __future__ import annotations

import os
from pathlib import Path
from typing import Optional

from model.medium import BLOCK, HEADER, Geometry, State

AT_ONCE = 1 << 20


def copy_file(source: Path, target: Path) -> None:
    """Copies a file, but for its holes."""
    with source.open("rb") as old, target.open("wb") as new:
        size, at = os.fstat(old.fileno()).st_size, 0
        os.truncate(new.fileno(), size)
        while at < size:
            try:
                begin = os.lseek(old.fileno(), at, os.SEEK_DATA)
            except OSError:  # only a hole is left
                return
            at = os.lseek(old.fileno(), begin, os.SEEK_HOLE)
            for piece in range(begin, at, AT_ONCE):
                data = os.pread(old.fileno(), min(AT_ONCE, at - piece), piece)
                os.pwrite(new.fileno(), data, piece)


class Disc:
    """A disc of this geometry in a file."""

    def __init__(self, path: Path, geometry: Geometry) -> None:
        self.path, self.geometry = path, geometry

    @classmethod
    def blank(cls, path: Path, geometry: Geometry) -> Disc:
        """A new disc: it has never been written."""
        path.write_bytes(geometry.header)
        os.truncate(path, geometry.image_length)
        return cls(path, geometry)

    def copy(self, path: Path) -> Disc:
        copy_file(self.path, path)
        return Disc(path, self.geometry)

    def place(self, block: int) -> int:
        return HEADER + self.geometry.blocks + BLOCK * block

    def bytes_at(self, at: int, count: int) -> bytes:
        with self.path.open("rb") as image:
            return os.pread(image.fileno(), count, at)

    def put(self, at: int, data: bytes) -> None:
        with self.path.open("r+b") as image:
            os.pwrite(image.fileno(), data, at)

    def state(self, block: int) -> int:
        return self.bytes_at(HEADER + block, 1)[0]

    def set_state(self, block: int, state: int) -> None:
        self.put(HEADER + block, bytes([state]))

    def read(self, block: int) -> Optional[bytes]:
        """What a block has, if it can be read."""
        return self.bytes_at(self.place(block), BLOCK) if self.state(block) == State.GOOD else None

    def write(self, block: int, data: bytes) -> None:
        """Writes a block, unless it is dead."""
        if self.state(block) != State.DEAD:
            self.put(self.place(block), data)
            self.set_state(block, State.GOOD)
