"""A report, read back: the answers in their order, with the sectors and the data behind each."""
from __future__ import annotations

import re
from dataclasses import dataclass, field
from typing import List, Optional, Tuple

from .medium import SECTOR
from .script import sector_line

NUMBER = "(?:0|[1-9][0-9]*)"
COMMAND = re.compile(f"good|cut|off|check [0-9a-f]/[0-9a-f]{{2}}/[0-9a-f]{{2}}(?: info {NUMBER})?")
"""What a command may be answered."""
EVENT = re.compile(
    f"pressed|not pressed|ready {NUMBER}|not formatted|failed|no such block|armed|full|idle|written {NUMBER}"
    f"|check 3/32/00 info {NUMBER}|check 3/32/01|cut|off|readable {NUMBER}|unreadable {NUMBER}"
    f"|found {NUMBER}")
"""What any other line may be answered."""
SHOWN = re.compile(f"sector ({NUMBER}) (?:fill ([0-9a-f]{{2}})|hex ([0-9a-f]{{4096}}))")
DATA = re.compile(f"data ({NUMBER}) ((?:[0-9a-f]{{2}})+)")
LOST = re.compile(f"lost ({NUMBER})")
LAST = re.compile(f"end {NUMBER}|script too long|{NUMBER} (?:not in the script language|too long|not a disc)")


class NoReport(Exception):
    """These lines are not the text of a report."""


@dataclass
class Answer:
    """What a line of the script is answered: its number, the words, and what the lines behind them have."""
    number: int
    words: str
    sectors: List[Tuple[int, bytes]] = field(default_factory=list)
    data: Optional[bytes] = None
    lost: List[int] = field(default_factory=list)

    @property
    def is_good(self) -> bool:
        return self.words == "good"

    @property
    def is_cut(self) -> bool:
        return self.words == "cut"

    @property
    def has_more(self) -> bool:
        """Whether lines stand behind the answer."""
        return bool(self.sectors) or self.data is not None

    @property
    def found(self) -> Optional[int]:
        """How many blocks a scrub of all of them found."""
        first, *rest = self.words.split(" ")
        return int(rest[0]) if first == "found" else None

    @property
    def reason(self) -> str:
        """The reason of a refusal, as in `3/11/00`; else nothing."""
        first, *rest = self.words.split(" ")
        return rest[0] if first == "check" else ""

    @property
    def code(self) -> str:
        """The second number of the reason."""
        return self.reason[2:4]

    @property
    def capacity(self) -> Optional[int]:
        """How many sectors a disc has that is ready."""
        first, *rest = self.words.split(" ")
        return int(rest[0]) if first == "ready" else None


@dataclass
class Report:
    """The answers of a report, and whether it has a last line. Without one it may break off anywhere."""
    answers: List[Answer]
    ends: bool

    @classmethod
    def of(cls, text: bytes) -> Report:
        """A report from its bytes. What stands behind the last line feed is left out."""
        *lines, _ = text.decode("latin-1").split("\n")
        ends = bool(lines) and bool(LAST.fullmatch(lines[-1]))
        answers: List[Answer] = []
        for number, line in enumerate(lines[:-1] if ends else lines, 1):
            if not (answers and add(answers[-1], line)):
                answers.append(answer_of(number, line))
        return cls(answers, ends)


def answer_of(number: int, line: str) -> Answer:
    """The answer that a line of the report begins."""
    first, _, words = line.partition(" ")
    if not re.fullmatch(NUMBER, first) or not (COMMAND.fullmatch(words) or EVENT.fullmatch(words)):
        raise NoReport(f"line {number} of the report is no answer: {line[:60]!r}")
    return Answer(int(first), words)


def add(answer: Answer, line: str) -> bool:
    """Adds a line that stands behind an answer, where it is one."""
    shown, data = SHOWN.fullmatch(line), DATA.fullmatch(line)
    if shown:
        at, fill, digits = shown.groups()
        sector = bytes.fromhex(fill) * SECTOR if fill else bytes.fromhex(digits)
        answer.sectors.append((int(at), sector))
        return line == sector_line(int(at), sector)
    lost = LOST.fullmatch(line)
    if lost:
        answer.lost.append(int(lost[1]))
        return answer.found is not None
    if data and answer.data is None:
        answer.data = bytes.fromhex(data[2])
        return len(answer.data) == int(data[1])
    return False
