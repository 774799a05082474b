"""The promise of docs/PROMISE.md: each sector is a register. Says where a script and its report break it.

Of each sector it knows which registers it may be: one for each choice that the report leaves open. The
promise is broken where there is none. It has no drive in it: no block, no list, no cell.

The functions on registers are the definitions of the same names in crates/ram_machine/specs/Register.antt.
"""
from __future__ import annotations

from enum import Enum
from functools import partial
from typing import Callable, Dict, FrozenSet, Iterator, List, NamedTuple, Optional, Set, Tuple, Union

from .commands import READS, WRITES, Block, Code, judge_fields, pages_of
from .drive import Check
from .lists import SECTORS_IN_BLOCK, number
from .medium import BLOCK, HEADER, SECTOR
from .replies import CACHING, WCE
from .reports import COMMAND, EVENT, Answer, NoReport, Report
from .script import End, Line, data_of, line_of, lines_of

ZEROS = bytes(SECTOR)
CACHED_AT_ONCE = 16
"""How many blocks a write covers at most that waits in the write cache."""
MIDWAY = ("11", "32")
"""The codes of the reasons for which a write may stop midway."""
FORMAT_FAILED = "31"
DEFECTS = ("3/11/00", "3/32/00", "3/32/01", "3/31/01")
"""The reasons that tell of a block that failed."""


class Hidden(Enum):
    """What a register has where it has no bytes that are known."""
    UNSEEN = "bytes at the sector's place in some block of the image, which nothing has shown yet"
    LOST = "no read is good until the sector is written: its bytes lie nowhere"
    GONE = "no read is good: the power is off, no disc is formatted, or it has no such sector"


UNSEEN, LOST, GONE = Hidden.UNSEEN, Hidden.LOST, Hidden.GONE
Value = Union[bytes, Hidden]


class Register(NamedTuple):
    """A sector: what a good read shows now, and what it may have after a loss of power."""
    now: Value
    falls: FrozenSet[Value]


Change = Callable[[Register], List[Register]]
"""What happens to a sector: the registers that it may be afterwards."""


def settled(value: Value) -> Register:
    return Register(value, frozenset([value]))


def or_else(value: Value, r: Register) -> Register:
    return Register(r.now, r.falls | {value})


def gone(r: Register) -> Register:
    return Register(GONE, r.falls)


def left_by(answer: Answer, r: Register) -> Register:
    return gone(r) if answer.is_cut else r


def synchronised(r: Register) -> Register:
    return r if r.now is GONE else settled(r.now)


def after_write(through: bool, data: bytes, answer: Answer, r: Register) -> List[Register]:
    if answer.is_good:
        return [settled(data)] if through else [Register(data, r.falls | {data})]
    if through and answer.is_cut:
        return [gone(or_else(data, r))]
    if through and answer.code in MIDWAY:
        return [r, settled(data)]
    return [left_by(answer, r)]


def after_full(answer: Answer, r: Register) -> List[Register]:
    if answer.is_good:
        return [settled(ZEROS), gone(settled(ZEROS))]
    if answer.is_cut:
        return [gone(or_else(ZEROS, r))]
    return [r, gone(r)] if answer.code == FORMAT_FAILED else [r]


def after_rewrite(answer: Answer, r: Register) -> List[Register]:
    return [left_by(answer, r), *(after_full(answer, r) if r.now is GONE else [])]


def after_ready(r: Register) -> List[Register]:
    """After `ready`, of a sector that the disc has: one of its values, whichever it is."""
    return [settled(value) for value in r.falls]


def goes_through(caches: bool, first: int, sectors: int, fua: bool) -> bool:
    covered = (first + sectors - 1) // SECTORS_IN_BLOCK - first // SECTORS_IN_BLOCK + 1
    return fua or not caches or covered > CACHED_AT_ONCE


def caches_after(data: bytes, caches: bool) -> bool:
    for page in pages_of(data):
        caches = page[2] == WCE if page[0] == CACHING else caches
    return caches


def is_taken(block: Block, data: bytes) -> bool:
    """Whether neither the command block nor the data are a reason to refuse a command."""
    try:
        judge_fields(block, data)
    except Check:
        return False
    return block.code is not None


def lines_to_answer(script: bytes) -> Iterator[Tuple[int, Optional[Line]]]:
    """The lines of a script that have answers, with their numbers: up to one that is too long."""
    try:
        for line_number, line in lines_of(script):
            yield line_number, line_of(line)
    except End:
        return


class Sectors:
    """The registers that each sector may be. What happens to all is done to a sector once it is looked at."""
    OTHER = -1  # stands for the sectors that no line has named

    def __init__(self, first: Register) -> None:
        self.first = first
        self.known: Dict[int, Tuple[Set[Register], int]] = {}
        """The registers of each sector that was looked at, after this many of the changes."""
        self.changes: List[Tuple[Change, Optional[int]]] = []
        """What happened to all sectors; with a limit, to those below it, and the others are gone."""

    def of(self, at: int) -> Set[Register]:
        found, done = self.known.get(at, ({self.first}, 0))
        for change, limit in self.changes[done:]:
            if limit is None or at < limit:
                found = {after for r in found for after in change(r)}
            else:
                found = {gone(r) for r in found}
        self.known[at] = found, len(self.changes)
        return found

    def change(self, at: int, change: Change) -> None:
        self.take(at, {after for r in self.of(at) for after in change(r)})

    def take(self, at: int, found: Set[Register]) -> None:
        self.known[at] = found, len(self.changes)

    def change_all(self, change: Change, limit: Optional[int] = None) -> None:
        self.changes.append((change, limit))

    def all_are_gone(self) -> None:
        self.change_all(lambda r: [gone(r)])


class Promise:
    """What is known of the sectors of a disc, from an image on, over one run or more."""

    def __init__(self, image: bytes = b"") -> None:
        self.image = image
        blocks, rest = divmod(len(image) - HEADER, 1 + BLOCK)
        self.blocks = 0 if rest else max(blocks, 0)
        """How many blocks the image has, which are none where it has another length than a disc's."""
        self.sectors = Sectors(Register(GONE, frozenset([UNSEEN, LOST] if self.blocks else [LOST])))
        self.caches = False
        self.may_have_failed = bool(image)
        """Whether a block may have failed: a line that lets blocks fail came since the disc was pressed."""

    def again(self) -> None:
        """The run is over. The next one goes on with the image that it left."""
        self.sectors.change_all(lambda r: [gone(or_else(LOST, r))])
        self.caches = False

    def broken(self, script: bytes, report: bytes) -> Iterator[str]:
        """Where the report of a run breaks the promise, or tells of a defect where no block has failed."""
        try:
            yield from self.run(script, Report.of(report))
        except NoReport as error:
            yield str(error)

    def run(self, script: bytes, report: Report) -> Iterator[str]:
        lines = lines_to_answer(script)
        for place, answer in enumerate(report.answers, 1):
            due, line = next(lines, (0, None))
            if line is None or due != answer.number:
                raise NoReport(f"line {answer.number} of the script is answered, which is not due")
            breaks_off = place == len(report.answers) and not report.ends
            yield from (f"line {due}: {what}" for what in self.turn(line, answer, breaks_off))

    def turn(self, line: Line, answer: Answer, breaks_off: bool) -> Iterator[str]:
        """What is wrong with the answer to a line. The report may break off in the sectors behind it."""
        if not (COMMAND if line.name == "cdb" else EVENT).fullmatch(answer.words):
            raise NoReport(f"line {answer.number} of the script cannot be answered {answer.words!r}")
        if line.name == "cdb":
            yield from self.command(line.block, data_of(line), answer, breaks_off)
        elif answer.has_more:
            raise NoReport(f"line {answer.number} of the script is no command, and gives data")
        elif not breaks_off and len(answer.lost) != (answer.found or 0):
            raise NoReport(f"line {answer.number} of the script is answered {answer.words!r}, and tells "
                           f"{len(answer.lost)} blocks")
        elif line.name == "power":
            yield from self.power(answer)
        elif line.name == "press" and answer.words == "pressed":
            self.sectors.change_all(lambda r: [Register(GONE, frozenset())])
            self.caches = self.may_have_failed = False
        elif answer.is_cut:
            self.sectors.all_are_gone()
        self.may_have_failed |= line.name in ("fail", "wear", "cut")
        if answer.reason in DEFECTS and not self.may_have_failed:
            yield f"{answer.reason}, and no block can have failed since the disc was pressed"

    def power(self, answer: Answer) -> Iterator[str]:
        self.caches = False
        if answer.capacity is None:
            self.sectors.all_are_gone()
            return
        self.sectors.change_all(after_ready, limit=answer.capacity)
        if answer.capacity and not self.sectors.of(Sectors.OTHER):
            yield "the disc is ready, and was never formatted"

    def command(self, block: Block, data: bytes, answer: Answer, breaks_off: bool) -> Iterator[str]:
        shows = answer.is_good and block.code in READS
        if answer.sectors and not shows or answer.data is not None and (shows or not answer.is_good):
            raise NoReport(f"line {answer.number} of the script gives what its command cannot give")
        if not is_taken(block, data):
            if answer.has_more:
                yield "a command that is to be refused gives data"
            if answer.is_cut:
                self.sectors.all_are_gone()
        elif shows:
            yield from self.read(block, answer, breaks_off)
        elif block.code in WRITES:
            self.write(block, data, answer)
        elif block.code == Code.FORMAT_UNIT:
            self.format(data, answer)
        elif block.code == Code.SYNCHRONIZE_CACHE and answer.is_good:
            self.sectors.change_all(lambda r: [synchronised(r)])
        elif block.moves_disc and not block.bytes[4] & 0x01 and answer.is_good:
            self.sectors.change_all(lambda r: [synchronised(r)])
        elif block.code == Code.MODE_SELECT and answer.is_good:
            caches = caches_after(data, self.caches)
            if self.caches and not caches:
                self.sectors.change_all(lambda r: [synchronised(r)])
            self.caches = caches
        elif answer.is_cut:
            self.sectors.all_are_gone()

    def write(self, block: Block, data: bytes, answer: Answer) -> None:
        fua = block.code == Code.WRITE_AND_VERIFY or bool(block.bytes[1] & 0x08)
        through = goes_through(self.caches, block.first, block.sectors, fua)
        for k in range(block.sectors):
            sector = data[SECTOR * k:SECTOR * (k + 1)]
            self.sectors.change(block.first + k, partial(after_write, through, sector, answer))
        if answer.is_cut:
            self.sectors.all_are_gone()

    def format(self, data: bytes, answer: Answer) -> None:
        if data[8] >> 2 == 0:
            after_format = after_rewrite if data[1] & 0xa0 == 0xa0 else after_full
            self.sectors.change_all(partial(after_format, answer))
        elif answer.is_good:
            self.sectors.change_all(lambda r: [r], limit=number(data, 4, 4))
        elif answer.is_cut:
            self.sectors.all_are_gone()

    def read(self, block: Block, answer: Answer, breaks_off: bool) -> Iterator[str]:
        due = list(range(block.first, block.first + block.sectors))
        found = [at for at, _ in answer.sectors]
        if found != (due[:len(found)] if breaks_off else due):
            yield f"{len(found)} sectors are shown, and not those that were asked for"
        for at, shown in answer.sectors:
            before = self.sectors.of(at)
            self.sectors.change(at, partial(self.shows, at, shown))
            if not self.sectors.of(at):
                has = " or ".join(sorted({short(r.now) for r in before})) or "nothing"
                yield f"sector {at} shows {short(shown)}, and has {has}"
                self.sectors.take(at, {settled(shown)})

    def shows(self, at: int, shown: bytes, r: Register) -> List[Register]:
        """A good read shows these bytes: the register, where it has them now."""
        if r.now is UNSEEN and self.lies_in_image(at, shown):
            return [Register(shown, frozenset(shown if value is UNSEEN else value for value in r.falls))]
        return [r] if r.now == shown else []

    def lies_in_image(self, at: int, shown: bytes) -> bool:
        """Whether some block of the image had these bytes at the sector's place."""
        first = HEADER + self.blocks + SECTOR * (at % SECTORS_IN_BLOCK)
        places = range(first, len(self.image), BLOCK)
        return any(self.image[place:place + SECTOR] == shown for place in places)


def short(value: Value) -> str:
    """A value as it is told: its first bytes."""
    return value.name.lower() if isinstance(value, Hidden) else f"{value[:4].hex()}.."
