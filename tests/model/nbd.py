"""A session of an NBD client with the program's word `nbd`: what the client is told, the exit status, and the
image afterwards. After the NBD protocol, and docs/BLOCK_DEVICE.md, which says what is taken of it.
"""
from __future__ import annotations

import struct
from enum import IntEnum
from typing import List, NamedTuple, Optional, Sequence, Tuple

from .commands import Block
from .medium import SECTOR, LayoutKind
from .script import Line, Run, line_of

GREETING = b"NBDMAGICIHAVEOPT\0\3"
MOST_BYTES = 1 << 25
MOST_OPTION = 8_192
MOST_SECTORS = 1_024  # of a command
EXPORT_FLAGS = 93
OPTION_MAGIC, REQUEST_MAGIC = b"IHAVEOPT", 0x25609513
FAULTS = ("fail", "wear", "cut")
CACHE_ON = Block(bytes.fromhex("55100000000000001400"))
CACHE_PAGE = bytes(8) + bytes([8, 10, 4]) + bytes(9)


class Exit(IntEnum):
    """The exit status, as far as client, words and image decide it."""
    DONE = 0
    USAGE = 2
    SCRIPT = 3


class Option(IntEnum):
    EXPORT_NAME = 1
    ABORT = 2
    LIST = 3
    INFO = 6
    GO = 7


class Told(IntEnum):
    """The kinds of replies to options."""
    ACKNOWLEDGED = 1
    SERVER = 2
    FACT = 3
    UNSUPPORTED = 0x80000001
    INVALID = 0x80000003
    UNKNOWN = 0x80000006
    TOO_BIG = 0x80000009


class Kind(IntEnum):
    """The kinds of requests."""
    READ = 0
    WRITE = 1
    DISCONNECT = 2
    FLUSH = 3
    TRIM = 4
    WRITE_ZEROES = 6


class Error(IntEnum):
    NONE = 0
    IO = 5
    INVALID = 22
    NO_SPACE = 28
    SHUTDOWN = 108


class Request(NamedTuple):
    """A request but for its data."""
    kind: int
    cookie: int = 0
    offset: int = 0
    length: int = 0
    flags: int = 0

    def bytes(self, data: bytes = b"", magic: int = REQUEST_MAGIC) -> bytes:
        return struct.pack(">IHHQQI", magic, self.flags, self.kind, self.cookie, self.offset,
                           self.length) + data

    @property
    def has_fua(self) -> bool:
        return self.flags % 2 == 1

    @property
    def has_whole_sectors(self) -> bool:
        return self.offset % SECTOR == 0 and self.length % SECTOR == 0

    def refusal(self, size: int) -> Error:
        """Why it is not begun, on a disc of this many bytes."""
        inside = self.offset + self.length <= size
        if self.kind in (Kind.READ, Kind.WRITE):
            if self.flags > 1 or not self.has_whole_sectors or self.length > MOST_BYTES:
                return Error.INVALID
            past = Error.INVALID if self.kind == Kind.READ else Error.NO_SPACE
            return Error.NONE if inside else past
        if self.kind == Kind.WRITE_ZEROES:
            if self.flags > 3 or not self.has_whole_sectors:
                return Error.INVALID
            return Error.NONE if inside else Error.NO_SPACE
        if self.kind == Kind.FLUSH and self.flags < 2 and self.offset == self.length == 0:
            return Error.NONE
        return Error.NONE if self.kind == Kind.DISCONNECT else Error.INVALID


def option(number: int, data: bytes = b"") -> bytes:
    return OPTION_MAGIC + struct.pack(">II", number, len(data)) + data


def option_reply(number: int, kind: Told, data: bytes = b"") -> bytes:
    return struct.pack(">QIII", 0x3e889045565a9, number, kind, len(data)) + data


def reply(error: int, cookie: int, data: bytes = b"") -> bytes:
    return struct.pack(">IIQ", 0x67446698, error, cookie) + data


class Ended(Exception):
    """The session ends here, with this status."""

    def __init__(self, status: Exit) -> None:
        super().__init__()
        self.status = status


class Session:
    """A session over an image, in which a client sends these bytes."""

    def __init__(self, sent: bytes, image: bytes) -> None:
        self.sent, self.at = sent, 0
        self.run = Run(image, LayoutKind.ONE_GROUP)
        self.told = b""
        self.size: Optional[int] = None
        self.why = b"the image holds no disc"

    def take(self, count: int, ends: Exit = Exit.SCRIPT) -> bytes:
        """The next bytes. Where none comes any more the session ends with this status."""
        left = len(self.sent) - self.at
        if left < count:
            raise Ended(ends if left == 0 else Exit.SCRIPT)
        self.at += count
        return self.sent[self.at - count:self.at]

    # Before the greeting

    def open(self, faults: Sequence[Line]) -> None:
        """Turns power and write cache on, and does the faults, if the image holds a disc."""
        if self.run.target is None:
            return
        powered = self.run.answer(Line("power"))[0]
        if powered.startswith("ready "):
            self.size = SECTOR * int(powered.split()[1])
        self.why = b"the disc is not formatted" if powered == "not formatted" else b"the power is off"
        self.command(Block(bytes(6)))
        self.command(CACHE_ON, CACHE_PAGE)
        for fault in faults:
            if self.run.answer(fault)[0] in ("no such block", "full"):
                raise Ended(Exit.SCRIPT)

    def command(self, block: Block, data: bytes = b"") -> Tuple[Error, bytes]:
        """Does a command: the error that its answer is told as, and its data."""
        answer, *more = self.run.answer(Line("cdb", block=block, kind="hex", data=data))
        if answer == "good":
            return Error.NONE, b"".join(sector_of(line) for line in more if line.startswith("sector"))
        if answer in ("cut", "off"):
            return Error.SHUTDOWN, b""
        return (Error.NO_SPACE if answer.startswith("check 3/32/00") else Error.IO), b""

    # The handshake

    def shake_hands(self) -> None:
        """The greeting, the client's flags, and its options."""
        self.told += GREETING
        flags, = struct.unpack(">I", self.take(4, Exit.DONE))
        if flags not in (1, 3):
            raise Ended(Exit.SCRIPT)
        while not self.is_chosen(padded=flags == 1):
            pass

    def is_chosen(self, padded: bool) -> bool:
        """Takes an option. Whether the transmission begins."""
        head = self.take(16, Exit.DONE)
        number, length = struct.unpack(">II", head[8:])
        if head[:8] != OPTION_MAGIC:
            raise Ended(Exit.SCRIPT)
        data = self.take(length) if length else b""
        if number == Option.EXPORT_NAME:
            if self.size is None or data:
                raise Ended(Exit.SCRIPT)
            self.told += struct.pack(">QH", self.size, EXPORT_FLAGS) + bytes(124 if padded else 0)
            return True
        self.told += self.answer_to(number, data)
        if number == Option.ABORT and length <= MOST_OPTION:
            raise Ended(Exit.DONE)
        return number == Option.GO and self.told.endswith(option_reply(number, Told.ACKNOWLEDGED))

    def answer_to(self, number: int, data: bytes) -> bytes:
        if len(data) > MOST_OPTION:
            return option_reply(number, Told.TOO_BIG)
        if number == Option.ABORT:
            return option_reply(number, Told.ACKNOWLEDGED)
        if number == Option.LIST:
            if data:
                return option_reply(number, Told.INVALID)
            return option_reply(number, Told.SERVER, bytes(4)) + option_reply(number, Told.ACKNOWLEDGED)
        if number in (Option.INFO, Option.GO):
            return self.information(number, data)
        return option_reply(number, Told.UNSUPPORTED)

    def information(self, number: int, data: bytes) -> bytes:
        name = int.from_bytes(data[:4], "big")
        if len(data) < 6 + name or len(data) != 6 + name + 2 * int.from_bytes(data[4 + name:6 + name], "big"):
            return option_reply(number, Told.INVALID)
        if name:
            return option_reply(number, Told.UNKNOWN)
        if self.size is None:
            return option_reply(number, Told.UNKNOWN, self.why)
        return (option_reply(number, Told.FACT, struct.pack(">HQH", 0, self.size, EXPORT_FLAGS))
                + option_reply(number, Told.FACT, struct.pack(">HIII", 3, SECTOR, 32_768, MOST_BYTES))
                + option_reply(number, Told.ACKNOWLEDGED))

    # The requests

    def serve(self) -> None:
        """Answers a request."""
        assert self.size is not None
        head = self.take(28, Exit.DONE)
        magic, flags, kind, cookie, offset, length = struct.unpack(">IHHQQI", head)
        if magic != REQUEST_MAGIC:
            raise Ended(Exit.SCRIPT)
        request = Request(kind, cookie, offset, length, flags)
        data = self.take(length) if kind == Kind.WRITE and length else b""
        error, found = request.refusal(self.size), b""
        if error == Error.NONE:
            error, found = self.do(request, data)
        if kind == Kind.DISCONNECT:
            raise Ended(Exit.DONE)
        self.told += reply(error, cookie, found)

    def do(self, request: Request, data: bytes) -> Tuple[Error, bytes]:
        """Does the commands of a request, up to the first that is not good."""
        found = b""
        for block, payload in commands_of(request, data):
            error, more = self.command(block, payload)
            if error != Error.NONE:
                return error, b""
            found += more
        return Error.NONE, found


def sector_of(line: str) -> bytes:
    """The bytes of a sector that a report tells."""
    form, digits = line.split()[2:]
    data = bytes.fromhex(digits)
    return data if form == "hex" else data * SECTOR


def commands_of(request: Request, data: bytes) -> List[Tuple[Block, bytes]]:
    """The commands of a request, of at most 1,024 sectors each."""
    if request.kind in (Kind.FLUSH, Kind.DISCONNECT):
        return [(Block(bytes.fromhex("35") + bytes(9)), b"")]
    code = 0xa8 if request.kind == Kind.READ else 0xaa
    fua = 8 if code == 0xaa and request.has_fua else 0
    first, end = request.offset // SECTOR, (request.offset + request.length) // SECTOR
    if request.kind == Kind.WRITE_ZEROES:
        data = bytes(request.length)
    return [(Block(struct.pack(">BBIIBB", code, fua, at, min(MOST_SECTORS, end - at), 0, 0)),
             data[SECTOR * (at - first):SECTOR * (at - first + MOST_SECTORS)])
            for at in range(first, max(end, first + 1), MOST_SECTORS)]


def session(sent: bytes, image: bytes, words: Sequence[bytes] = ()) -> Tuple[bytes, int, bytes]:
    """What a client is told that sends these bytes, the exit status, and the image afterwards. Each of the
    words makes something fail."""
    faults = [line_of(word) for word in words]
    if any(fault is None or fault.name not in FAULTS for fault in faults):
        return b"", int(Exit.USAGE), image
    talk = Session(sent, image)
    try:
        talk.open([fault for fault in faults if fault is not None])
        talk.shake_hands()
        while True:
            talk.serve()
    except Ended as ended:
        return talk.told, int(ended.status), bytes(talk.run.image)
