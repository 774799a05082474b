"""A drive with a write cache: what is pending, and when it goes to the disc."""
from __future__ import annotations

from typing import Dict, List

from .drive import UNREADABLE, Check, Drive, parts
from .lists import SECTORS_IN_BLOCK
from .medium import SECTOR, Medium

PENDING_BLOCKS = 32
"""How many blocks are pending at most."""
BLOCKS_AT_ONCE = 16
"""How many blocks a write that goes into the cache covers at most."""


class CachedDrive(Drive):
    """A disc in a drive, with blocks that were written and are not on the disc yet."""

    def __init__(self, medium: Medium) -> None:
        super().__init__(medium)
        self.caches = False
        """Whether writes go into the cache (WCE)."""
        self.pending: Dict[int, bytes] = {}
        """The pending blocks, in the order in which they became pending."""

    def cut(self) -> None:
        super().cut()
        self.pending = {}

    def drain(self, due: List[int], enough: int) -> None:
        """Writes pending blocks to the disc, each once, in turn, until enough have left. One that is refused
        goes behind all others; where too few left the first refusal is told."""
        refusals: List[Check] = []
        for logical in due:
            if not enough:
                return
            block = self.pending.pop(logical)
            try:
                super().write(SECTORS_IN_BLOCK * logical, block)
                enough -= 1
            except Check as check:
                self.pending[logical] = block
                refusals.append(check)
        if enough:
            raise refusals[0]

    def read(self, first: int, count: int) -> bytes:
        read = b""
        for part in parts(first, count):
            block = self.pending.get(part.logical)
            if block is None:
                read += super().read(part.first, part.sectors)
            else:
                read += block[SECTOR * part.in_block:SECTOR * (part.in_block + part.sectors)]
        return read

    def write(self, first: int, data: bytes, through: bool = False) -> None:
        covered = [part.logical for part in parts(first, len(data) // SECTOR)]
        if self.caches and not through and len(covered) <= BLOCKS_AT_ONCE:
            self.write_into_cache(first, data)
            return
        due = [logical for logical in self.pending if logical in covered]
        self.drain(due, len(due))
        super().write(first, data)

    def write_into_cache(self, first: int, data: bytes) -> None:
        covered = [part.logical for part in parts(first, len(data) // SECTOR)]
        due = [logical for logical in self.pending if logical not in covered]
        self.drain(due, max(0, len(due) + len(covered) - PENDING_BLOCKS))
        blocks: Dict[int, bytes] = {}
        for part in parts(first, len(data) // SECTOR):
            old = self.pending.get(part.logical, bytes(SECTOR * SECTORS_IN_BLOCK))
            if not part.is_whole and part.logical not in self.pending:
                try:
                    old = super().read(SECTORS_IN_BLOCK * part.logical, SECTORS_IN_BLOCK)
                except Check:
                    raise Check(*UNREADABLE, part.first) from None
            new = data[SECTOR * part.in_request:SECTOR * (part.in_request + part.sectors)]
            begin, end = SECTOR * part.in_block, SECTOR * (part.in_block + part.sectors)
            blocks[part.logical] = old[:begin] + new + old[end:]
        self.pending.update(blocks)

    def synchronize(self) -> None:
        """Writes all pending blocks to the disc."""
        self.drain(list(self.pending), len(self.pending))

    def tick(self) -> str:
        """Writes the oldest pending block to the disc, and tells how that went."""
        if not self.on:
            return "off"
        if not self.pending:
            return "idle"
        oldest = next(iter(self.pending))
        try:
            self.drain([oldest], 1)
        except Check as check:
            return f"check {check.sense}"
        return f"written {SECTORS_IN_BLOCK * oldest}"

    def format(self, rewriting: bool, forgets: bool) -> None:
        writes_zeros = not rewriting or self.lists is None
        try:
            super().format(rewriting, forgets)
        finally:
            if self.lists is None:
                self.pending = {}
        if writes_zeros:
            self.pending = {}

    def expand(self, sectors: int) -> None:
        super().expand(sectors)
        self.pending = {logical: block
                        for logical, block in self.pending.items() if SECTORS_IN_BLOCK * logical < sectors}
