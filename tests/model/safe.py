"""Which blocks are safe, over the lines of a run: each can be read until its home dies.

A block is safe once it was written through the write cache, or flushed, until a line writes a sector of it
or makes the disc anew. A line that was only told that it is not done does neither. It says what
crates/ram_survival/specs/Living.antt says, and looks at the homes of the disc below the cache.
"""
from __future__ import annotations

import re
from typing import Iterator, List, Set

from .commands import WRITES, Code
from .lists import SECTORS_IN_BLOCK
from .medium import LayoutKind, State
from .script import Line, Run, data_of

UNREADABLE = re.compile("check 3/11/00 info ([0-9]+)")
COMES_LATE = re.compile("check ./(11|32|31/01)")
"""The reasons for which a command may be refused when it has done something."""


def is_only_told(answer: str) -> bool:
    return answer == "off" or (answer.startswith("check") and not COMES_LATE.match(answer))


def covered(line: Line) -> Set[int]:
    """The logical blocks of which a write has sectors."""
    if line.name != "cdb" or line.block.code not in WRITES or not line.block.sectors:
        return set()
    last = line.block.first + line.block.sectors - 1
    return {*range(line.block.first // SECTORS_IN_BLOCK, last // SECTORS_IN_BLOCK + 1)}


class Watched(Run):
    """A run that sees whether what is safe can be read."""

    def __init__(self, image: bytes, layout: LayoutKind) -> None:
        super().__init__(image, layout)
        self.safe: Set[int] = set()
        self.lost: List[str] = []
        """What was safe, and is lost though its home has not died."""

    @property
    def pending(self) -> Set[int]:
        return set(self.target.drive.pending) if self.target else set()

    def answer(self, line: Line) -> List[str]:
        pending, formatted = self.pending, self.target is not None and self.target.drive.lists is not None
        answer, *more = super().answer(line)
        if self.makes_anew(line, answer, formatted):
            self.safe = set()
        elif not is_only_told(answer):
            self.safe -= covered(line)
            self.safe |= self.flushed(line, answer, pending)
        self.lost += [f"{line.name} {line.block.bytes.hex()}: block {block} is lost"
                      for block in self.torn(answer)]
        return [answer, *more]

    @staticmethod
    def formats(line: Line) -> bool:
        return line.name == "cdb" and line.block.code == Code.FORMAT_UNIT

    def makes_anew(self, line: Line, answer: str, formatted: bool) -> bool:
        """Whether a line may make the disc anew, or found no formatted one."""
        if line.name != "cdb":
            return answer in ("pressed", "not formatted")
        if not self.formats(line) or is_only_told(answer):
            return False
        data = data_of(line)
        expands, rewrites = data[8] >> 2 == 1, data[1] & 0xa0 == 0xa0
        return not expands and not (rewrites and formatted)

    def flushed(self, line: Line, answer: str, pending: Set[int]) -> Set[int]:
        """The blocks that went to the disc in a line by which no power was lost."""
        if answer == "cut" or line.name not in ("cdb", "tick") or self.formats(line):
            return set()
        return (pending | (covered(line) if answer == "good" else set())) - self.pending

    def torn(self, answer: str) -> Iterator[int]:
        """The safe blocks whose homes have no whole bytes and are not dead, by the lists in use."""
        lists = self.target.drive.lists if self.target else None
        if self.target is None or lists is None:
            return
        homes = {block: self.target.drive.medium.state(lists.home(block))
                 for block in self.safe if block < len(lists.logical)}
        met = UNREADABLE.match(answer)
        unread = int(met.group(1)) // SECTORS_IN_BLOCK if met else -1
        for block, state in homes.items():
            if state not in (State.GOOD, State.DEAD) or (block == unread and state != State.DEAD):
                yield block
