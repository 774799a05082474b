"""Requests of 1 to 40 blocks over buffers of up to eight, beside a plain list of the blocks that were used
last: how many uses each takes. The power is cut in the use behind those, which is that of a verification."""
from __future__ import annotations

from random import Random
from typing import Iterator, List, NamedTuple

from model.medium import Geometry

from .laying import FORMAT, POWER, Case, Laid, verify

KEPT = 8
GEOMETRY = Geometry(1, 4, 4)
BLOCKS = len(GEOMETRY.logical)
MOST = 40


class Request(NamedTuple):
    """Sectors, and whether they are written."""
    first: int
    sectors: int
    is_write: bool

    @property
    def blocks(self) -> range:
        return range(self.first // 16, (self.first + self.sectors + 15) // 16)

    def covers(self, block: int) -> bool:
        return self.first <= 16 * block and 16 * block + 16 <= self.first + self.sectors

    @property
    def line(self) -> str:
        code, data = ("2a", " fill 01") if self.is_write else ("28", "")
        return f"cdb {code}00{self.first:08x}00{self.sectors:04x}00{data}"


def touch(used: List[int], block: int) -> bool:
    """A block is used: it is the newest then. Whether it was among the last eight."""
    was_there = block in used
    used[:] = [block, *(other for other in used if other != block)][:KEPT]
    return was_there


def uses_of(request: Request, used: List[int]) -> int:
    """How many uses a request takes: of a read one for each block that is not buffered at its turn; of a
    write two for each block, and one for the rest of a block that is covered in part and not buffered."""
    uses = 0
    for block in request.blocks:
        was_there = touch(used, block)
        uses += 2 * request.is_write
        uses += not was_there and not (request.is_write and request.covers(block))
    return uses


def drawn(random: Random, count: int) -> Request:
    first = random.randrange(BLOCKS - count + 1)
    before, behind = random.choice([(0, 0), (random.randrange(8), random.randrange(8))])
    return Request(16 * first + before, 16 * count - before - behind, random.random() < 0.5)


def lines_of(random: Random, count: int) -> List[str]:
    """A buffer of random blocks, of those of the request and the four on each side; then the request."""
    request, lines = drawn(random, count), [*POWER]
    used: List[int] = []
    near = range(max(0, request.blocks[0] - 4), min(BLOCKS, request.blocks[-1] + 5))
    for block in random.choices(near, k=random.randrange(9)):
        touch(used, block)
        lines.append(Request(16 * block, 1, False).line)
    return [*lines, f"cut {uses_of(request, used) + 1} old", request.line, verify(0)]


def mixtures(every: bool) -> Iterator[Case]:
    random = Random(1)
    requests = 24 if every else 12
    for first in range(1, MOST + 1, MOST // 4):
        lines = [*POWER, FORMAT]
        for count in range(first, first + MOST // 4):
            for _ in range(requests):
                lines += lines_of(random, count)
        yield Case(f"requests of {first} blocks and more", Laid(GEOMETRY).image, lines,
                   cuts=requests * (MOST // 4))
