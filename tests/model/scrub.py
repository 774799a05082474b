"""A scrubber: it verifies the logical blocks of a drive in turn, and remembers those that cannot be read."""
from __future__ import annotations

from typing import List, Set

from .drive import Check, Drive
from .lists import SECTORS_IN_BLOCK


class Scrubber:
    """The block that comes next, and those that were found. Each call may raise PowerCut."""

    def __init__(self) -> None:
        self.next = 0
        self.found: Set[int] = set()

    @staticmethod
    def without_disc(drive: Drive) -> str:
        """How a scrub is answered that meets no formatted disc."""
        return "not formatted" if drive.on else "off"

    def step(self, drive: Drive) -> str:
        """Verifies the next logical block, and tells how that went."""
        if drive.lists is None:
            return self.without_disc(drive)
        count = drive.sectors // SECTORS_IN_BLOCK
        self.found = {logical for logical in self.found if logical < count}
        logical = self.next = self.next if self.next < count else 0
        first = SECTORS_IN_BLOCK * logical
        try:
            drive.verify(first, SECTORS_IN_BLOCK)
        except Check:
            self.found.add(logical)
            words = f"unreadable {first}"
        else:
            self.found.discard(logical)
            words = f"readable {first}"
        self.next = logical + 1
        return words

    def scrub_all(self, drive: Drive) -> List[str]:
        """Verifies each logical block, and tells those that cannot be read."""
        self.next = 0
        if drive.lists is None:
            return [self.without_disc(drive)]
        for _ in range(drive.sectors // SECTORS_IN_BLOCK):
            self.step(drive)
        return [f"found {len(self.found)}",
                *(f"lost {SECTORS_IN_BLOCK * logical}" for logical in sorted(self.found))]
