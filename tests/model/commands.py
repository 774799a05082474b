"""The commands of a host: when one is refused, what it does, and what it replies."""
from __future__ import annotations

from dataclasses import dataclass
from enum import Enum
from typing import Callable, Dict, List, NamedTuple, Optional

from .cache import CachedDrive
from .drive import Check, Sense
from .lists import number
from .medium import SECTOR
from .replies import (CACHING, IN_FORCE, INQUIRY, PAGE_CODES, VITAL_PAGES, WCE, capacity, configuration,
                      disc_information, events, mode_pages)

MOST_SECTORS = 1_024
ATTENTION = Sense(6, 0x29, 0x00)


class Code(Enum):
    """The operation codes."""
    TEST_UNIT_READY = 0x00
    REQUEST_SENSE = 0x03
    FORMAT_UNIT = 0x04
    INQUIRY = 0x12
    MODE_SENSE_6 = 0x1a
    START_STOP_UNIT = 0x1b
    PREVENT_ALLOW = 0x1e
    READ_FORMAT_CAPACITIES = 0x23
    READ_CAPACITY = 0x25
    READ_10 = 0x28
    WRITE_10 = 0x2a
    WRITE_AND_VERIFY = 0x2e
    VERIFY = 0x2f
    SYNCHRONIZE_CACHE = 0x35
    GET_CONFIGURATION = 0x46
    GET_EVENT_STATUS = 0x4a
    READ_DISC_INFORMATION = 0x51
    MODE_SELECT = 0x55
    MODE_SENSE = 0x5a
    READ_12 = 0xa8
    WRITE_12 = 0xaa
    READ_DVD_STRUCTURE = 0xad
    SET_STREAMING = 0xb6


CODES = {code.value: code for code in Code}
READS = (Code.READ_10, Code.READ_12)
WRITES = (Code.WRITE_10, Code.WRITE_AND_VERIFY, Code.WRITE_12)
MODE_SENSES = (Code.MODE_SENSE_6, Code.MODE_SENSE)
TRANSFERS = (*READS, *WRITES, Code.VERIFY)
UNTOLD = (Code.REQUEST_SENSE, Code.INQUIRY, Code.GET_CONFIGURATION, Code.GET_EVENT_STATUS)
"""The commands that do not wait for the attention."""
NEED_FORMATTED = (*TRANSFERS, Code.TEST_UNIT_READY, Code.READ_CAPACITY, Code.SYNCHRONIZE_CACHE,
                  Code.READ_DVD_STRUCTURE)
NEED_DISC = (*NEED_FORMATTED, Code.FORMAT_UNIT, Code.READ_DISC_INFORMATION)
ALLOCATIONS = {
    Code.REQUEST_SENSE: (4, 1), Code.INQUIRY: (3, 2), Code.READ_FORMAT_CAPACITIES: (7, 2),
    Code.GET_CONFIGURATION: (7, 2), Code.MODE_SENSE: (7, 2), Code.READ_DVD_STRUCTURE: (8, 2),
    Code.MODE_SENSE_6: (4, 1), Code.GET_EVENT_STATUS: (7, 2), Code.READ_DISC_INFORMATION: (7, 2),
}
"""Where the allocation length stands, and in how many bytes."""


class Block(NamedTuple):
    """A command block."""
    bytes: bytes

    @property
    def code(self) -> Optional[Code]:
        return CODES.get(self.bytes[0])

    @property
    def is_too_short(self) -> bool:
        return len(self.bytes) < (6 if self.bytes[0] < 0x20 else 10 if self.bytes[0] < 0x80 else 12)

    @property
    def first(self) -> int:
        return number(self.bytes, 2, 4)

    @property
    def sectors(self) -> int:
        return number(self.bytes, 6, 4) if self.bytes[0] >= 0xa0 else number(self.bytes, 7, 2)

    @property
    def takes(self) -> int:
        """How many bytes of data the command takes."""
        if self.code is None or self.is_too_short:
            return 0
        if self.code in WRITES:
            return SECTOR * self.sectors if self.sectors <= MOST_SECTORS else 0
        return {Code.FORMAT_UNIT: 12, Code.MODE_SELECT: number(self.bytes, 7, 2),
                Code.SET_STREAMING: 28}.get(self.code, 0)

    @property
    def has_lawful_fields(self) -> bool:
        byte = self.bytes
        if self.code in (*READS, *WRITES):
            return self.sectors <= MOST_SECTORS
        lawful: Dict[Optional[Code], Callable[[], bool]] = {
            Code.FORMAT_UNIT: lambda: byte[1] & 0xf7 == 0x11,
            Code.INQUIRY: lambda: not byte[2],
            Code.VERIFY: lambda: not byte[1] & 0x02,
            Code.GET_CONFIGURATION: lambda: byte[1] & 0x03 != 3,
            Code.GET_EVENT_STATUS: lambda: bool(byte[1] & 0x01),
            Code.READ_DISC_INFORMATION: lambda: not byte[1] & 0x07,
            Code.MODE_SELECT: lambda: byte[1] & 0x11 == 0x10,
            Code.MODE_SENSE_6: lambda: byte[2] & 0x3f in PAGE_CODES,
            Code.MODE_SENSE: lambda: byte[2] & 0x3f in PAGE_CODES,
            Code.READ_DVD_STRUCTURE: lambda: byte[7] in (0x08, 0x0a),
        }
        return lawful.get(self.code, lambda: True)()

    @property
    def moves_disc(self) -> bool:
        """Whether the disc is to be loaded or taken out: with a power condition it is not."""
        return self.code == Code.START_STOP_UNIT and self.bytes[4] & 0xf2 == 0x02


def pages_of(data: bytes) -> List[bytes]:
    """The pages of a list of mode pages, without the bit that is not looked at."""
    return [bytes([data[at] & 0x7f]) + data[at + 1:at + 12] for at in range(8, len(data), 12)]


def without_cache(page: bytes) -> bytes:
    """The page with the write cache off."""
    return page[:2] + bytes([page[2] & ~WCE]) + page[3:] if page[0] == CACHING else page


def is_taken_by_mode_select(data: bytes) -> bool:
    """Whether a list of mode pages changes nothing but WCE."""
    return not any(data[6:8]) and all(without_cache(page) in IN_FORCE.values() for page in pages_of(data))


def judge_fields(block: Block, data: bytes) -> None:
    """Raises the first reason why a known command is refused by its command block, the length of its data, or
    the list of a format: whatever the drive is then, and whatever the disc."""
    if block.is_too_short or not block.has_lawful_fields:
        raise Check(5, 0x24, 0x00)
    if block.code in MODE_SENSES and block.bytes[2] >> 6 == 3:
        raise Check(5, 0x39, 0x00)
    if len(data) != block.takes or block.code == Code.MODE_SELECT and len(data) not in (0, 8, 20, 32):
        raise Check(5, 0x1a, 0x00)
    if block.code == Code.FORMAT_UNIT and (data[2:4] != b"\0\x08" or data[8] >> 2 > 1):
        raise Check(5, 0x26, 0x00)


@dataclass
class Target:
    """A drive with what is remembered for its host."""
    drive: CachedDrive
    attention: bool = False
    prevented: bool = False
    out: bool = False
    kept: Optional[Sense] = None

    def power(self) -> None:
        self.attention, self.prevented, self.out, self.kept = True, False, False, None
        self.drive.caches = False
        self.drive.power()

    def command(self, block: Block, data: bytes) -> bytes:
        """Does a command: its reply. Check says why it was not done; it is kept."""
        try:
            self.judge(block, data)
            reply = self.do(block, data)
        except Check as check:
            self.kept = check.sense
            raise
        self.kept = None
        if block.code in ALLOCATIONS:
            return reply[:number(block.bytes, *ALLOCATIONS[block.code])]
        return reply

    def judge(self, block: Block, data: bytes) -> None:
        """Raises the first reason why the command is refused, in the order of the table."""
        code = block.code
        if code is None:
            raise Check(5, 0x20, 0x00)
        if self.attention and code not in UNTOLD:
            self.attention = False
            raise Check(*ATTENTION[:3])
        judge_fields(block, data)
        if code == Code.MODE_SELECT and not is_taken_by_mode_select(data):
            raise Check(5, 0x26, 0x00)
        if block.moves_disc and not block.bytes[4] & 0x01 and self.prevented:
            raise Check(5, 0x53, 0x02)
        self.judge_by_disc(block, data)

    def judge_by_disc(self, block: Block, data: bytes) -> None:
        if self.out and block.code in NEED_DISC:
            raise Check(2, 0x3a, 0x00)
        expands = block.code == Code.FORMAT_UNIT and data[8] >> 2 == 1
        if self.drive.lists is None and (block.code in NEED_FORMATTED or expands):
            raise Check(3, 0x31, 0x00)
        if block.code in TRANSFERS and block.first + block.sectors > self.drive.sectors:
            raise Check(5, 0x21, 0x00)
        if expands and not self.drive.may_expand_to(number(data, 4, 4)):
            raise Check(5, 0x26, 0x00)

    def do(self, block: Block, data: bytes) -> bytes:
        if block.code in READS:
            return self.drive.read(block.first, block.sectors)
        if block.code in WRITES:
            self.drive.write(block.first, data,
                             block.code == Code.WRITE_AND_VERIFY or bool(block.bytes[1] & 0x08))
        elif block.code == Code.VERIFY:
            self.drive.verify(block.first, block.sectors)
        elif block.code == Code.SYNCHRONIZE_CACHE:
            self.drive.synchronize()
        elif block.code == Code.MODE_SELECT:
            self.mode_select(data)
        elif block.code == Code.FORMAT_UNIT:
            self.format_unit(block, data)
        elif block.moves_disc:
            if not block.bytes[4] & 0x01:
                self.drive.synchronize()
            self.out = not block.bytes[4] & 0x01
        elif block.code == Code.PREVENT_ALLOW:
            self.prevented = bool(block.bytes[4] & 0x01)
        return self.reply(block.code, block.bytes)

    def reply(self, code: Optional[Code], byte: bytes) -> bytes:
        inside, is_formatted = not self.out, self.drive.lists is not None
        replies: Dict[Optional[Code], Callable[[], bytes]] = {
            Code.REQUEST_SENSE: self.sense,
            Code.INQUIRY: lambda: VITAL_PAGES if byte[1] & 0x01 else INQUIRY,
            Code.READ_FORMAT_CAPACITIES: self.format_capacities,
            Code.READ_CAPACITY: lambda: (self.drive.sectors - 1).to_bytes(4, "big")
            + SECTOR.to_bytes(4, "big"),
            Code.GET_CONFIGURATION: lambda: configuration(
                byte[1] & 0x03, number(byte, 2, 2), inside, is_formatted,
                self.drive.sectors if is_formatted else 0),
            Code.GET_EVENT_STATUS: lambda: events(bool(byte[4] & 0x10), inside),
            Code.READ_DISC_INFORMATION: lambda: disc_information(is_formatted),
            Code.MODE_SENSE_6: lambda: self.mode_sense(byte[2], short=True),
            Code.MODE_SENSE: lambda: self.mode_sense(byte[2], short=False),
            Code.READ_DVD_STRUCTURE: lambda: self.structure(byte[7]),
        }
        return replies.get(code, bytes)()

    def mode_sense(self, byte: int, short: bool) -> bytes:
        pages = mode_pages(byte, self.drive.caches, self.prevented)
        header = bytes([3 + len(pages), 0, 0, 0]) if short else (6 + len(pages)).to_bytes(2, "big") + bytes(6)
        return header + pages

    def format_unit(self, block: Block, data: bytes) -> None:
        if data[8] >> 2 == 1:
            self.drive.expand(number(data, 4, 4))
        else:
            self.drive.format(rewriting=data[1] & 0xa0 == 0xa0, forgets=bool(block.bytes[1] & 0x08))

    def mode_select(self, data: bytes) -> None:
        """Sets WCE as the last caching page says. Before the cache is turned off the disc is synchronised."""
        caches = self.drive.caches
        for page in pages_of(data):
            if page[0] == CACHING:
                caches = bool(page[2] & WCE)
        if not caches:
            self.drive.synchronize()
        self.drive.caches = caches

    def sense(self) -> bytes:
        told = self.kept or (ATTENTION if self.attention else Sense(0, 0x00, 0x00))
        self.attention = self.attention and self.kept is not None
        named = told.sector is not None
        return (bytes([0xf0 if named else 0x70, 0, told.key]) + (told.sector or 0).to_bytes(4, "big")
                + bytes([0x0a, 0, 0, 0, 0, told.code, told.qualifier]) + bytes(4))

    def format_capacities(self) -> bytes:
        given = self.drive.sectors_after_format
        if self.out:
            told = capacity(given, 3)
        elif self.drive.lists is None:
            told = capacity(given, 1) + capacity(given, 0)
        else:
            told = capacity(self.drive.sectors, 2) + capacity(given, 0)
        return len(told).to_bytes(4, "big") + told

    def structure(self, which: int) -> bytes:
        lists = self.drive.lists
        assert lists is not None
        if which == 0x08:
            return bytes.fromhex("08020000") + lists.structure.text[:SECTOR]
        numbers = (len(lists.free(lists.primary)), len(lists.free(lists.supplementary)),
                   len(lists.supplementary))
        return bytes.fromhex("000e0000") + b"".join(count.to_bytes(4, "big") for count in numbers)
