"""The drive as a SCSI logical unit: command blocks go to it as they are, and its answers come back.

Two things are hidden from a host: that a long command goes in parts, since a line of the script has room for
17 sectors, and that a session of the program is renewed. Answered here, and not by the drive, are REPORT LUNS
and the commands to other units, of which there are none.
"""
from __future__ import annotations

import os
from dataclasses import dataclass
from struct import pack

from . import Refused
from .drive import (BLOCK_SECTORS, IS_READY, MOST_SECTORS, SCRIPT_LIMIT, SYNCHRONIZE, Drive, bytes_of,
                    in_session, parts)
from .protocol import SECTOR

COUNTS = {0x28: (7, 9), 0xA8: (6, 10), 0x2A: (7, 9), 0xAA: (6, 10), 0x2E: (7, 9)}
"""Where a command that reads or writes says how many sectors it does."""
READS, WRITES, WITH_FUA = (0x28, 0xA8), (0x2A, 0xAA, 0x2E), (0x2A, 0xAA)
FUA = 8
LINE_SECTORS = 17  # which a line has room for
MOST_LONG = 16_384  # sectors of a command that goes in parts; the drive refuses a longer one
CACHED_BLOCKS = 16  # a write of more goes through the write cache
LISTS = {0x04: 12, 0xB6: 28}  # bytes that a command takes, whatever its block says
MODE_SELECT, SYNCHRONIZE_CACHE, INQUIRY, REPORT_LUNS = 0x55, 0x35, 0x12, 0xA0
REQUEST_SENSE = "cdb 030000001200"
PROFILE = "cdb 46000000000000000800"
CACHING = "cdb 5a000800000000001400"
CACHE_ON = "cdb 55100000000000001400 hex 0000000000000000080a04000000000000000000"
EJECT, PREVENT, ALLOW = "cdb 1b0000000200", "cdb 1e0000000100", "cdb 1e0000000000"


@dataclass
class Reply:
    """The answer to a command, with its data, or its sense where it is refused or failed."""

    answer: str
    data: bytes = b""
    sense: bytes = b""

    @property
    def is_good(self) -> bool:
        return self.answer == "good"

    @property
    def is_lost(self) -> bool:
        """Whether there is no answer, since the drive has no power."""
        return self.answer in ("cut", "off")


class HostDrive(Drive):
    """A drive whose host sees nothing of a session that is renewed, but that what was armed or buffered is
    gone. The attention, the write cache, the tray and the prevention of removal are as they were."""

    is_prevented = False

    def exchange(self, line: str) -> list[str]:
        rows = super().exchange(line)
        if line.startswith("cdb 1e") and rows[0] == "good":
            self.is_prevented = bool(int(line[12:14], 16) & 1)
        elif line.startswith("cdb 03") and rows[1:] and rows[1].split()[2][5:6] == "6":
            self.has_attention = False
        elif line == "power":
            self.is_prevented = False
        return rows

    def make_room(self, size: int) -> None:
        """Renews a session that has no room. One with blocks that wait and cannot be written goes on as long
        as it can: they would be lost, and nobody told."""
        try:
            super().make_room(size)
        except Refused:
            if self.live.sent + size > SCRIPT_LIMIT:
                raise

    @in_session
    def renew(self) -> None:
        due, prevented = self.has_attention, self.is_prevented
        restored = self.to_restore() if self.is_on and not due else []
        answer = self.exchange(SYNCHRONIZE)[0]
        if answer.startswith("check 3/32"):
            raise Refused(answer)
        super().renew()
        if self.is_on and not due:
            for line in (IS_READY, *restored, *((PREVENT,) if prevented else ())):
                self.exchange(line)

    def to_restore(self) -> list[str]:
        """The lines that make a drive whose power came on as this one is."""
        cache = self.exchange(CACHING)[1].split()[2][20:22]
        profile = self.exchange(PROFILE)[1].split()[2][12:16]
        return [CACHE_ON] * (cache == "04") + [EJECT] * (profile == "0000")


class Unit:
    """The logical unit of a drive over this open image."""

    def __init__(self, drive: HostDrive, image: int) -> None:
        self.drive, self.image = drive, image

    def execute(self, lun: bytes, block: bytes, data: bytes) -> Reply:
        """Does a command with these data, of which there are as many as `bytes_taken` says or fewer."""
        if any(lun):
            return other_unit(block)
        if block[0] == REPORT_LUNS:
            return report_luns(block)
        most = MOST_SECTORS if block[0] in READS else LINE_SECTORS
        is_whole = block[0] in READS or len(data) == bytes_taken(block)
        if block[0] in COUNTS and most < sectors_of(block) <= MOST_LONG and is_whole:
            reply = self.in_parts(block, data)
        else:
            reply = self.pass_on(block, data[:LINE_SECTORS * SECTOR])
        has_fua = block[0] in WITH_FUA and block[1] & FUA
        if reply.is_good and (has_fua or block[0] == SYNCHRONIZE_CACHE):
            os.fdatasync(self.image)
        return reply

    def pass_on(self, block: bytes, data: bytes = b"") -> Reply:
        """Does one command of the drive, and asks for its sense at once."""
        try:
            answer, *rows = self.drive.command(f"cdb {block.hex()}" + (f" hex {data.hex()}" if data else ""))
        except Refused as refused:
            answer, rows = refused.answer, []
        if answer in ("cut", "off"):
            return Reply(answer)
        if answer != "good":
            return Reply(answer, sense=bytes.fromhex(self.drive.exchange(REQUEST_SENSE)[1].split()[2]))
        if block[0] in READS:
            first = number(block, 2, 6)
            sectors = (bytes_of(row.encode(), first + at) for at, row in enumerate(rows))
            return Reply(answer, b"".join(sectors))
        return Reply(answer, bytes.fromhex(rows[0].split()[2]) if rows else b"")

    def in_parts(self, block: bytes, data: bytes) -> Reply:
        """Does a long read or write: first one of no sectors behind its last, which is refused where the
        whole would be, and then a part after the other, up to the first that is not good. The parts of a
        write that would go through the write cache as a whole do so by FUA."""
        first, count = number(block, 2, 6), sectors_of(block)
        spans = (first + count - 1) // BLOCK_SECTORS - first // BLOCK_SECTORS + 1
        flags = FUA if block[0] in WITH_FUA and spans > CACHED_BLOCKS else 0
        reply = self.pass_on(part_of(block, min(first + count, 0xFFFFFFFF), 0))
        shown = bytearray()
        for at, some in parts(first, count, MOST_SECTORS if block[0] in READS else BLOCK_SECTORS):
            if not reply.is_good:
                return reply
            piece = data[(at - first) * SECTOR:(at - first + some) * SECTOR]
            reply = self.pass_on(part_of(block, at, some, flags), piece)
            shown += reply.data
        return Reply(reply.answer, bytes(shown) if reply.is_good else b"", reply.sense)

    def end_nexus(self) -> None:
        """The session of a host that prevented the removal ended, and so does the prevention."""
        if self.drive.is_on and self.drive.is_prevented:
            self.drive.command(ALLOW)


def number(block: bytes, first: int, end: int) -> int:
    return int.from_bytes(block[first:end], "big")


def sectors_of(block: bytes) -> int:
    """How many sectors a command reads or writes."""
    return number(block, *COUNTS[block[0]])


def bytes_taken(block: bytes) -> int:
    """How many bytes of data a command takes; none where it is refused for their number."""
    if block[0] in WRITES:
        return sectors_of(block) * SECTOR if sectors_of(block) <= MOST_LONG else 0
    return number(block, 7, 9) if block[0] == MODE_SELECT else LISTS.get(block[0], 0)


def part_of(block: bytes, first: int, count: int, flags: int = 0) -> bytes:
    """The same command for other sectors, with these bits more."""
    at, end = COUNTS[block[0]]
    part = bytearray(block)
    part[1] |= flags
    part[2:6] = pack(">I", first)
    part[at:end] = count.to_bytes(end - at, "big")
    return bytes(part)


def sense_of(reason: str) -> bytes:
    """The sense data of a reason that is written K/AA/QQ."""
    key, code, more = (int(part, 16) for part in reason.split("/"))
    return bytes((0x70, 0, key, 0, 0, 0, 0, 10, 0, 0, 0, 0, code, more, 0, 0, 0, 0))


def refuse(reason: str) -> Reply:
    return Reply(f"check {reason}", sense=sense_of(reason))


def report_luns(block: bytes) -> Reply:
    """The list of the units: number 0 alone, which is no well-known one."""
    length = number(block, 6, 10)
    if length < 16 or block[2] > 2:
        return refuse("5/24/00")
    count = 0 if block[2] == 1 else 1
    return Reply("good", (pack(">II", 8 * count, 0) + bytes(8 * count))[:length])


def other_unit(block: bytes) -> Reply:
    """The answer of a unit that is not there."""
    if block[0] == INQUIRY and not block[1] & 1:
        return Reply("good", (b"\x7f\0\0\0\x1f" + bytes(31))[:number(block, 3, 5)])
    return report_luns(block) if block[0] == REPORT_LUNS else refuse("5/25/00")
