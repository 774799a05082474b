"""The protocol of the pipes: lines of the script go to the program, and their answers come back. All tools
speak by this module.

docs/SCRIPT.md has the lines, docs/REPORT.md the answers.
"""
from __future__ import annotations

import fcntl
import io
import re
import subprocess
from dataclasses import dataclass, fields
from typing import cast

from . import Ended, NoLine

SECTOR = 2048
LINE_LIMIT = 70_000
PIPE = 1 << 20
SET_PIPE_SIZE = 1031  # of Linux

HEX = "(?:[0-9a-fA-F]{2})"
NUMBER = r"\d{1,10}"
FORMS = re.compile(
    rf"power|tick|scrub(?: all)?|fail {NUMBER}|wear {NUMBER} {NUMBER}|cut {NUMBER} (?:old|new|torn)"
    rf"|cdb {HEX}{{1,16}}(?: (?:fill|count) {HEX}| hex {HEX}+)?", re.ASCII)


COUNTED = {
    0x28: (7, 9), 0xA8: (6, 10), 0x03: (4, 5), 0x12: (3, 5), 0x1A: (4, 5), 0x23: (7, 9), 0x46: (7, 9),
    0x4A: (7, 9), 0x51: (7, 9), 0x5A: (7, 9), 0xAD: (8, 10),
}
"""Where a command block says how many sectors it reads, or how many bytes of a reply it takes."""


@dataclass
class Statistics:
    """What went through the pipes since the start, in lines and bytes, and how often a session was begun
    anew."""

    lines: int = 0
    sent: int = 0
    received: int = 0
    renewals: int = 0
    restarts: int = 0

    def rows(self) -> list[str]:
        return [f"{item.name} {getattr(self, item.name)}" for item in fields(self)]


def line_of(text: str) -> str:
    """The line with one space between its words. Raises `NoLine` where it is none that a person may send."""
    line = " ".join(word for word in text.split(" ") if word)
    numbers = [int(word) for word in line.split()[1:3] if not line.startswith("cdb") and word.isdecimal()]
    counted = numbers[1:] if line.startswith("wear") else numbers if line.startswith("cut") else [1]
    is_form = FORMS.fullmatch(line) and len(line) <= LINE_LIMIT
    if not is_form or any(n > 0xFFFFFFFF for n in numbers) or 0 in counted:
        raise NoLine("not in the script language")
    return line


def rows_after_good(command: bytes) -> int:
    """How many lines stand behind `good` in the answer to this command block: a report has no mark for its
    end."""
    code = command[0]
    first, end = COUNTED.get(code, (0, 0))
    number = int.from_bytes(command[first:end], "big")
    if code in (0x28, 0xA8):
        return number
    return 1 if code == 0x25 or number else 0


def rows_after(line: str, text: str) -> int:
    """How many lines stand behind this answer to this line."""
    if text.startswith("found "):
        return int(text.split()[1])
    if text != "good":
        return 0
    if line.startswith("read "):  # of a mirror
        return int(line.split()[2])
    return rows_after_good(bytes.fromhex(line.split()[1])) if line.startswith("cdb ") else 0


class Session:
    """One run of the program with a script, by a command such as `ram_drive run IMAGE`. Raises `Ended` where
    the program cannot be run, or ended."""

    def __init__(self, command: list[str], statistics: Statistics) -> None:
        self.statistics, self.lines, self.sent = statistics, 0, 0
        try:
            self.process = subprocess.Popen(command, stdin=subprocess.PIPE, stdout=subprocess.PIPE, bufsize=0,
                                            start_new_session=True)
        except OSError as error:
            raise Ended(f"{command[0]} cannot be run: {error.strerror}") from None
        assert self.process.stdin and self.process.stdout
        self.script, report = self.process.stdin, self.process.stdout
        for pipe in (self.script, report):
            try:
                fcntl.fcntl(pipe, SET_PIPE_SIZE, PIPE)
            except OSError:  # the system may allow less
                pass
        self.report = io.BufferedReader(cast(io.RawIOBase, report), PIPE >> 2)

    def send(self, line: bytes) -> int:
        """Sends a line, and gives its number."""
        self.lines += 1
        self.statistics.lines += 1
        rest = memoryview(line + b"\n")
        self.sent += len(rest)
        self.statistics.sent += len(rest)
        try:
            while rest:
                rest = rest[self.script.write(rest):]
        except OSError:
            raise self.ended() from None
        return self.lines

    def row(self) -> bytes:
        """The next line of the report."""
        row = self.report.readline()
        self.statistics.received += len(row)
        if not row.endswith(b"\n"):
            raise self.ended()
        return row[:-1]

    def answer(self, number: int) -> str:
        """The answer to the line of this number, without the rows behind it."""
        found, _, text = self.row().decode().partition(" ")
        if found != str(number):
            raise Ended(f"the program answered line {found} in place of line {number}")
        return text

    def kill(self) -> None:
        """Ends the program, whatever it does."""
        self.process.kill()
        self.end()

    def ended(self) -> Ended:
        return Ended(f"the program ended with status {self.end()}")

    def end(self) -> int:
        """Ends the script, and gives the exit status; a negative one is the signal that killed the
        program."""
        self.script.close()
        if not self.report.closed:
            self.report.read()
            self.report.close()
        return self.process.wait()
