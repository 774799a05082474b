"""A drive that lives on over several runs of the program: what a host and a person ask of it, as lines of the
script.

A new session is begun before a script passes its limit, or where the program ended, with the power as it was.
"""
from __future__ import annotations

import binascii
from collections import deque
from functools import wraps
from typing import Any, Callable, Iterable, Iterator, TypeVar

from . import Ended, Refused
from .lists import LayoutKind
from .protocol import SECTOR, Session, Statistics, line_of, rows_after

BLOCK_SECTORS = 16
MOST_SECTORS = 1024  # in one command that reads or writes
PIECE_SECTORS = 2048  # of a write, for which a session has room or is renewed
SCRIPT_LIMIT = (64 << 20) - 4096  # with room for the lines that end a session
RENEW_AT = 62_000_000
AHEAD = 32  # lines that are sent before the first of their answers is awaited
LINE_ROOM = 64  # bytes of a command without its data, at most

FORMAT = "cdb 041100000000 hex 000000080000000000000800"
IS_READY = "cdb 000000000000"
CAPACITY = "cdb 25000000000000000000"
SYNCHRONIZE = "cdb 35000000000000000000"

T = TypeVar("T")


def in_session(call: Callable[..., T]) -> Callable[..., T]:
    """A call that needs a session. Where the program ends under it, the next call begins another."""
    @wraps(call)
    def guarded(drive: Drive, *words: Any) -> T:
        try:
            drive.begin()
            return call(drive, *words)
        except Ended:
            drive.forget()
            raise
    return guarded


class Drive:
    """A drive over an image of a disc of this layout. A session is begun when it is needed first, and another
    after this many bytes. Each call raises `Ended` and `Refused`."""

    def __init__(self, program: list[str], image: str, layout: LayoutKind = LayoutKind.ONE_GROUP, *,
                 is_on: bool = True, renew_at: int = RENEW_AT) -> None:
        self.program, self.image, self.layout, self.renew_at = program, image, layout, renew_at
        self.session: Session | None = None
        self.is_on, self.has_attention = is_on, False
        self.armed: list[str] = []
        self.statistics = Statistics()

    @property
    def discs(self) -> list[tuple[str, str]]:
        """The image of each disc, and before it what stands in a line that names the disc."""
        return [("", self.image)]

    @property
    def words(self) -> list[str]:
        """Those of the program that begin a session."""
        return [self.layout.value, self.image]

    @property
    def live(self) -> Session:
        """The session in use."""
        assert self.session
        return self.session

    def begin(self) -> None:
        """Begins a session, where there is none, with the power as it was."""
        if not self.session:
            self.session = Session([*self.program, *self.words], self.statistics)
            if self.is_on:
                self.turn_on()

    @in_session
    def turn_on(self) -> None:
        """Turns the power on for a host."""
        self.exchange("power")

    def end(self) -> int:
        """Ends the session, where there is one, and gives its exit status. What was armed ends with it."""
        session, self.session, self.armed = self.session, None, []
        return session.end() if session else 0

    def forget(self) -> None:
        """Drops a session whose program ended."""
        session, self.session, self.armed = self.session, None, []
        if session:
            session.kill()
            self.statistics.restarts += 1

    @in_session
    def renew(self) -> None:
        """Begins a new session with the power as it was. What was armed is dropped, and so is what is
        buffered."""
        if self.is_on:
            self.settle()
        self.end()
        self.statistics.renewals += 1
        self.begin()

    def settle(self) -> None:
        """Has the drive write what it keeps, before a session ends."""
        self.exchange(SYNCHRONIZE)

    def make_room(self, size: int) -> None:
        """Renews a session that has no room for this many bytes. One in which something is armed goes on as
        long as it can."""
        if self.live.sent + size > (SCRIPT_LIMIT if self.armed else self.renew_at):
            self.renew()

    def serve_host(self, size: int) -> None:
        """Makes room for commands of n bytes, and takes the attention, of which a host is not told."""
        self.make_room(size + LINE_ROOM)
        if self.has_attention:
            self.exchange(IS_READY)
            self.has_attention = False

    def exchange(self, line: str) -> list[str]:
        """Sends a line, and gives its answer with the rows behind it."""
        text = self.answer_to(self.live.send(line.encode()))
        self.heed(line, text)
        return [text, *(self.live.row().decode() for _ in range(rows_after(line, text)))]

    def heed(self, line: str, text: str) -> None:
        """Heeds what the answer to a line tells of the power, and of what is armed."""
        words = line.split()
        if words[0] == "power":
            self.is_on = self.has_attention = text != "cut"
        if words[0] == "press" and text == "pressed":
            self.is_on = False
        if text == "armed":
            kept = [arm for arm in self.armed if words[0] != "cut" or not arm.startswith("cut")]
            self.armed = [*kept, line]

    def answer_to(self, number: int) -> str:
        """The answer to the line of this number. Heeds that the power was cut, and that an attention was
        told."""
        answer = self.live.answer(number)
        if answer == "cut":
            self.is_on = False
            self.armed = [arm for arm in self.armed if not arm.startswith("cut")]
        if answer == "check 6/29/00":
            self.has_attention = False
        return answer

    def do(self, lines: Iterable[bytes]) -> None:
        """Sends commands without rows, several ahead. Where an answer is not good, no more are sent, and it
        is raised."""
        waiting: deque[int] = deque()
        answers: list[str] = []
        for line in lines:
            waiting.append(self.live.send(line))
            if len(waiting) > AHEAD:
                answers.append(self.answer_to(waiting.popleft()))
                if answers[-1] != "good":
                    break
        answers += [self.answer_to(number) for number in waiting]
        for answer in answers:
            if answer != "good":
                raise Refused(answer)

    @in_session
    def command(self, line: str) -> list[str]:
        """The answer to a line, with its rows."""
        self.make_room(len(line) + 1)
        return self.exchange(line)

    @in_session
    def say(self, text: str) -> list[str]:
        """The answer to a line of a person, with its rows; none to an empty line and a comment. Raises
        `NoLine`."""
        if not text.strip(" ") or text.startswith("#"):
            return []
        return self.command(self.line_of(text))

    @staticmethod
    def line_of(text: str) -> str:
        """The line that a person sends. Raises `NoLine`."""
        return line_of(text)

    @in_session
    def cut_now(self) -> str:
        """Turns the power off: it is cut at the first use of the next mount, which only reads."""
        if not self.is_on:
            return "off"
        self.command("cut 1 old")
        return self.command("power")[0]

    @in_session
    def capacity(self) -> int:
        """How many sectors the disc has."""
        self.serve_host(LINE_ROOM)
        answer, *rows = self.exchange(CAPACITY)
        if answer != "good":
            raise Refused(answer)
        return int(rows[0].split()[2][:8], 16) + 1

    @in_session
    def read(self, sector: int, into: memoryview) -> None:
        """Reads sectors into the whole of `into`."""
        count = len(into) // SECTOR
        done = 0
        for first, some in parts(sector, count):
            self.serve_host(LINE_ROOM)
            self.read_part(first, into[done * SECTOR:(done + some) * SECTOR])
            done += some

    def read_part(self, sector: int, into: memoryview) -> None:
        """Reads sectors by one command."""
        count = len(into) // SECTOR
        answer = self.answer_to(self.live.send(self.read_line(sector, count)))
        if answer != "good":
            raise Refused(answer)
        for at in range(count):
            into[at * SECTOR:(at + 1) * SECTOR] = bytes_of(self.live.row(), sector + at)

    @in_session
    def write(self, sector: int, data: memoryview) -> None:
        """Writes sectors."""
        for at in range(0, len(data) // SECTOR, PIECE_SECTORS):
            piece = data[at * SECTOR:(at + PIECE_SECTORS) * SECTOR]
            self.serve_host(2 * len(piece) + LINE_ROOM * (2 + len(piece) // SECTOR // BLOCK_SECTORS))
            self.do(write_lines(self.write_line, sector + at, piece))

    @in_session
    def fill(self, sector: int, count: int) -> None:
        """Writes zeros."""
        self.serve_host(LINE_ROOM * (2 + count // (MOST_SECTORS - BLOCK_SECTORS)))
        self.do(self.write_line(*part) + b" fill 00" for part in parts(sector, count))

    @in_session
    def synchronize(self) -> None:
        """Has the drive write what it keeps."""
        self.serve_host(LINE_ROOM)
        self.do([SYNCHRONIZE.encode()])

    @staticmethod
    def read_line(sector: int, count: int) -> bytes:
        """The command that reads these sectors."""
        return b"cdb a800%08x%08x0000" % (sector, count)

    @staticmethod
    def write_line(sector: int, count: int) -> bytes:
        """The command that writes these sectors, without their data."""
        return b"cdb aa00%08x%08x0000" % (sector, count)


def bytes_of(row: bytes, sector: int) -> bytes:
    """The bytes of a sector, by its row of the report. Raises `Ended` where it is another row, or not all of
    it."""
    front = b"sector %d " % sector
    form, _, digits = row[len(front):].partition(b" ")
    if not row.startswith(front) or (form, len(digits)) not in ((b"fill", 2), (b"hex", 2 * SECTOR)):
        raise Ended(f"the program showed {row[:40].decode('ascii', 'replace')!r} in place of sector {sector}")
    data = binascii.unhexlify(digits)
    return data * SECTOR if form == b"fill" else data


def parts(sector: int, count: int, most: int = MOST_SECTORS) -> Iterator[tuple[int, int]]:
    """The parts of a request, of at most this many sectors, which end with a logical block: the first sector,
    and how many."""
    end = sector + count
    while sector < end:
        some = min(end - sector, most - sector % BLOCK_SECTORS)
        yield sector, some
        sector += some


def write_lines(front: Callable[[int, int], bytes], sector: int, data: memoryview) -> Iterator[bytes]:
    """The commands of a write, each behind its front: one for each logical block, but for a row of them whose
    bytes are all equal."""
    row: tuple[int, int, int] | None = None
    at = 0
    for first, count in parts(sector, len(data) // SECTOR, BLOCK_SECTORS):
        block = data[at:at + count * SECTOR].tobytes()
        at += count * SECTOR
        is_fill = block == block[:1] * len(block)
        if row and not (is_fill and row[2] == block[0] and row[1] + count <= MOST_SECTORS):
            yield front(*row[:2]) + b" fill %02x" % row[2]
            row = None
        if not is_fill:
            yield front(first, count) + b" hex " + binascii.hexlify(block)
        else:
            row = (row[0], row[1] + count, row[2]) if row else (first, count, block[0])
    if row:
        yield front(*row[:2]) + b" fill %02x" % row[2]
