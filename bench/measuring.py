"""The program that is measured, and the loops beside it. A time is that which a processor spent on the work,
by the system's count: other work on the machine then counts less."""
from __future__ import annotations

import ctypes
import itertools
import os
import subprocess
import sys
import time
from pathlib import Path
from typing import Callable, List, NamedTuple, Sequence, Tuple

HERE = Path(__file__).resolve().parent
sys.path.append(str(HERE.parent / "tools"))

from dvdram.protocol import Session, Statistics, rows_after  # noqa: E402

# The power goes on, and the first command is told so.
POWER = "power\ncdb 000000000000\n"
FORMAT = "cdb 041100000000 hex 000000080000000000000000\n"
# A list of mode pages that turns the write cache on, and SYNCHRONIZE CACHE.
CACHE_ON = "cdb 55100000000000001400 hex 0000000000000000080a04000000000000000000\n"
SYNCHRONIZE = "cdb 35000000000000000000\n"

Job = Callable[[], float]
"""What is measured: it gives the seconds that it took."""
Turn = Callable[[int], float]
"""The same by the number of its turn."""


def best(jobs: Sequence[Job], rounds: int = 9) -> List[float]:
    """The least that each of these took, of some rounds over all of them: the pace of a machine may
    change."""
    times = [[job() for job in jobs] for _ in range(rounds)]
    return [min(each) for each in zip(*times)]


def read_command(lba: int, sectors: int) -> str:
    return f"cdb 2800{lba:08x}00{sectors:04x}00\n"


def write_command(lba: int, sectors: int, byte: int, fua: bool = False) -> str:
    return f"cdb 2a{8 if fua else 0:02x}{lba:08x}00{sectors:04x}00 fill {byte % 256:02x}\n"


def mirror_read(lba: int, sectors: int) -> str:
    return f"read {lba} {sectors}\n"


def mirror_write(lba: int, sectors: int, byte: int) -> str:
    return f"write {lba} {sectors} fill {byte % 256:02x}\n"


class Commands(NamedTuple):
    """The lines that read and write sectors, of a drive or of a mirror."""

    read: Callable[[int, int], str]
    write: Callable[[int, int, int], str]


OF_DRIVE = Commands(read_command, write_command)
OF_MIRROR = Commands(mirror_read, mirror_write)


def command_of(program: Path, image: Path, word: str) -> List[str]:
    """The command that serves an image by this word; a mirror is that of the image and of its twin."""
    return [str(program), word, str(image), *([str(twin_of(image))] if word == "mirror" else [])]


def twin_of(image: Path) -> Path:
    """The second image of a mirror."""
    return image.with_suffix(".twin")


class Bench:
    """A program over an image, which it serves by this word."""

    def __init__(self, program: Path, image: Path, word: str = "run") -> None:
        self.program, self.image, self.word = program, image, word

    def once(self, script: str) -> float:
        """Runs a script, and gives the seconds that it took."""
        words = self.image.with_suffix(".script")
        words.write_text(script, encoding="ascii")
        with words.open("rb") as lines:
            process = subprocess.Popen(command_of(self.program, self.image, self.word), stdin=lines,
                                       stdout=subprocess.DEVNULL)
            _, process.returncode, usage = os.wait4(process.pid, 0)
        if process.returncode:
            raise SystemExit(f"{self.program} ended with status {process.returncode}")
        return float(usage.ru_utime + usage.ru_stime)

    def runs(self, script: str) -> Job:
        """A run of this script as a job."""
        return lambda: self.once(script)


class Timed(Session):
    """A session of a program over an image, of which each part is timed."""

    def __init__(self, program: Path, image: Path, word: str = "run") -> None:
        super().__init__(command_of(program, image, word), Statistics())
        clock = ctypes.c_int()
        if ctypes.CDLL(None).clock_getcpuclockid(self.process.pid, ctypes.byref(clock)):
            raise OSError("the processor time of the program cannot be read")
        self.clock = clock.value

    def asks(self, script: str) -> Tuple[List[str], float]:
        """Sends these lines together, and gives their answers, without the rows behind them, and the seconds
        that it took."""
        lines = script.splitlines()
        start = time.clock_gettime(self.clock)
        first = self.lines + 1
        if lines:
            self.send("\n".join(lines).encode())
        self.lines = first + len(lines) - 1
        answers = [self.answer_with_rows(number, line) for number, line in enumerate(lines, first)]
        return answers, time.clock_gettime(self.clock) - start

    def answer_with_rows(self, number: int, line: str) -> str:
        answer = self.answer(number)
        for _ in range(rows_after(line, answer)):
            self.row()
        return answer


def in_session(program: Path, image: Path, script: str) -> Job:
    """A job that sends this script in a session of its own."""
    def once() -> float:
        session = Timed(program, image)
        _, seconds = session.asks(script)
        session.end()
        return seconds
    return once


def is_well(answer: str) -> bool:
    return not answer.startswith(("cut", "off", "check", "unread", "no spare", "no update", "range"))


class Piece(NamedTuple):
    """A piece of a session: one of these scripts is sent, by the number of its turn. The lines before it are
    sent too, and what they take does not count."""

    scripts: List[str]
    before: str = ""

    def of(self, session: Timed) -> Turn:
        """The piece as a job. All lines are to be answered well."""
        def once(turn: int) -> float:
            told, _ = session.asks(self.before)
            answers, seconds = session.asks(self.scripts[turn % len(self.scripts)])
            assert all(map(is_well, told + answers)), (told, answers)
            return seconds
        return once


class Measured(NamedTuple):
    """A program over an image, the lines that begin a session of it, pieces of the session, and the word by
    which the image is served."""

    program: Path
    image: Path
    start: str
    pieces: List[Piece]
    word: str = "run"

    def begin(self) -> Tuple[Timed, List[Turn]]:
        """A new session, and its pieces as jobs."""
        session = Timed(self.program, self.image, self.word)
        session.asks(self.start)
        return session, [piece.of(session) for piece in self.pieces]


def in_turn(all_measured: Sequence[Measured], rounds: int,
            sessions: int = 10) -> List[List[Tuple[float, ...]]]:
    """The seconds that each piece of each of these took, in some sessions, each of this many rounds over all
    pieces: where the memory of a program lies may change its pace from one session to the next. A piece has
    another script than the one before it, and so finds none of its blocks near. In every other session the
    last of these comes first."""
    found: List[List[List[float]]] = []
    turns = itertools.count()
    for number in range(sessions):
        begun = [one.begin() for one in all_measured]
        order = -1 if number % 2 else 1
        for _ in range(rounds):
            times = [[job(next(turns)) for job in jobs] for _, jobs in begun[::order]]
            found.append(times[::order])
        for session, _ in begun:
            session.end()
    return [list(zip(*times)) for times in zip(*found)]


def loops_in(folder: Path) -> Path:
    """The program of bare.c, built in this folder."""
    program = folder / "bare"
    subprocess.run(["cc", "-O2", "-o", program, HERE / "bare.c"], check=True)
    return program


def loop_line(what: str, disc: Tuple[int, int], blocks: int, group: int, kept: int = 8) -> str:
    """The line that asks for a loop over n blocks, in groups, where this many are kept. Of the disc is said
    how many blocks it has, and with which of them the loop begins."""
    total, first = disc
    return f"{what} {total} {first} {blocks} {group} {kept}\n"
