"""A row, as its lines make it, and what is told of its runs on a program."""
from __future__ import annotations

import subprocess
from dataclasses import dataclass, field
from pathlib import Path
from typing import Callable, Dict, Iterator, List, Optional, Tuple

from . import images

FATES = ("old", "torn", "new")
COMMENT = b"#" * 65_535 + b"\n"

# What READ DVD STRUCTURE of format 08h replies on a new disc of one zone, scale 1 and four primary spares.
REPLY = bytes.fromhex("080200000a0a0280000000020004").ljust(2_052, b"\0")
FORMATTED = "press 1 1 4\npower\ncdb 000000000000\ncdb 041100000000 hex 000000080000013000000800\n"
FORMATTED_REPORT = "1 pressed\n2 not formatted\n3 check 6/29/00\n4 good\n"
LENGTHS_AT_ONCE = 158
BEHIND = ("sector", "lost")
"""The first words of lines that stand behind an answer."""


@dataclass
class Ran:
    """What a run of the program left."""
    report: str
    status: int
    image: bytes
    twin: bytes


class Program:
    """The program, run in a folder of its own over the image `disc`, and for a mirror over `twin` too."""

    def __init__(self, path: Path, folder: Path) -> None:
        self.path, self.disc, self.twin = path, folder / "disc", folder / "twin"

    def run(self, words: List[str], script: bytes, image: bytes, twin: bytes = b"") -> Ran:
        self.disc.write_bytes(image)
        self.twin.write_bytes(twin)
        done = subprocess.run([self.path, *words], input=script, stdout=subprocess.PIPE, cwd=self.disc.parent,
                              stderr=subprocess.DEVNULL, check=False)
        return Ran(done.stdout.decode("ascii"), done.returncode, self.disc.read_bytes(),
                   self.twin.read_bytes())

    def answer(self, script: bytes, image: bytes, word: str = "run", twin: bytes = b"") -> Ran:
        names = {"mirror": ["disc", "twin"], "turned": ["twin", "disc"]}.get(word, ["disc"])
        return self.run(["mirror" if word == "turned" else word, *names], script, image, twin)


def in_full(line: str) -> str:
    """A line of a script, with the command in place of its short form."""
    code = {"R ": "28", "W ": "2a"}.get(line[:2])
    if not code:
        return line
    first, count, *payload = line[2:].split(" ", 2)
    return f"cdb {code}00{int(first):08x}00{int(count):04x}00 {payload[0] if payload else ''}"


def answers_behind(report: str) -> str:
    """What the lines behind the cut are answered, without their numbers."""
    _, _, later = report.partition(" armed\n")
    answers = (line.split(" ", 1) for line in later.splitlines() if not line.startswith("end "))
    return ", ".join(" ".join(words) if words[0] in BEHIND else words[1] for words in answers)


def spans(texts: List[str]) -> Iterator[Tuple[int, int, str]]:
    """Numbers in a row, from 1 on, that have the same text."""
    first = 1
    for number, text in enumerate(texts, 1):
        if number == len(texts) or texts[number] != text:
            yield first, number, text
            first = number + 1


@dataclass
class Row:
    """A row, as far as its lines came."""
    image: bytearray = field(default_factory=bytearray)
    twin: bytes = b""
    script: str = ""
    begun: bool = False
    word: str = "run"
    words: Optional[List[str]] = None
    comments: int = 0
    cuts: int = 0
    lengths: int = 0
    last: Optional[int] = None
    first: Optional[int] = None
    tells_image: bool = False

    def add(self, line: str) -> None:
        """Adds a line: an order, or a line of the script in short form."""
        if line.startswith("@ "):
            name, _, rest = line[2:].partition(" ")
            ORDERS[name](self, rest)
        else:
            self.script += in_full(line) + "\n"
            self.begun = True

    def add_text(self, times: int, text: str) -> None:
        text = text.replace("\\n", "\n").replace("\\r", "\r").replace("\\t", "\t")
        self.script += text * times
        self.begun = True

    def set_length(self, rest: str) -> None:
        length = int(rest)
        del self.image[length:]
        self.image.extend(bytes(length - len(self.image)))

    def put(self, rest: str) -> None:
        at, digits = rest.split(" ")
        images.put(self.image, images.place(at), bytes.fromhex(digits))

    def fill(self, rest: str) -> None:
        at, count, byte = rest.split(" ")
        images.put(self.image, images.place(at), bytes.fromhex(byte) * int(count))

    def begin(self, **runs: object) -> None:
        """Has something else run than a script."""
        for name, value in runs.items():
            setattr(self, name, value)
        self.begun = True

    def ran(self, program: Program) -> Ran:
        """One run."""
        if self.words is not None:
            return program.run(self.words, b"", b"")
        if self.comments:
            script = COMMENT * -(-self.comments // len(COMMENT))
            return program.answer(script[: self.comments], b"")
        return self.over(program, self.script)

    def over(self, program: Program, script: str) -> Ran:
        """A run of this script over the images of the row."""
        return program.answer(script.encode("utf-8"), bytes(self.image), self.word, self.twin)

    def told(self, program: Program) -> Tuple[List[str], Tuple[bytes, bytes]]:
        """What is told of the row, and the images that it leaves."""
        if self.cuts:
            return list(self.told_cuts(program)), (b"", b"")
        if self.lengths:
            return list(self.told_lengths(program)), (b"", b"")
        ran = self.ran(program)
        lines = ran.report.splitlines()
        lines = lines[: self.first] if self.first is not None else lines
        lines = lines[max(0, len(lines) - self.last):] if self.last is not None else lines
        lines.append(f"exit status {ran.status}")
        lines += images.told(self.image, ran.image) if self.tells_image else []
        return lines, (ran.image, ran.twin)

    def told_cuts(self, program: Program) -> Iterator[str]:
        before, _, behind = self.script.partition("cut each\n")
        for fate in FATES:
            scripts = (f"{before}cut {use} {fate}\n{behind}" for use in range(1, self.cuts + 1))
            texts = [answers_behind(self.over(program, script).report) for script in scripts]
            for first, last, text in spans(texts):
                uses = f"{first}" if first == last else f"{first} to {last}"
                yield f"{fate} {uses}: {text}"

    def told_lengths(self, program: Program) -> Iterator[str]:
        for first in range(0, self.lengths, LENGTHS_AT_ONCE):
            script, due, line = FORMATTED, FORMATTED_REPORT, 4
            for length in range(first, min(first + LENGTHS_AT_ONCE, self.lengths)):
                script += f"cdb ad00000000000008{length:04x}0000\n"
                line, reply = line + 1, REPLY[:length]
                due += f"{line} good\n" + (f"data {len(reply)} {reply.hex()}\n" if reply else "")
            ran = program.answer(script.encode("ascii"), b"")
            is_so = ran.status == 0 and ran.report == f"{due}end {line}\n"
            yield f"from {first}: {'true' if is_so else 'false'}"


ORDERS: Dict[str, Callable[[Row, str], None]] = {
    "new": lambda row, rest: setattr(row, "image", images.new()),
    "formatted": lambda row, rest: setattr(row, "image", images.formatted()),
    "length": Row.set_length,
    "put": Row.put,
    "fill": Row.fill,
    "exact": lambda row, rest: row.add_text(1, rest),
    "repeat": lambda row, rest: row.add_text(int(rest.partition(" ")[0]), rest.partition(" ")[2]),
    "comments": lambda row, rest: row.begin(comments=int(rest)),
    "groups": lambda row, rest: setattr(row, "word", "groups"),
    "audit": lambda row, rest: row.begin(word="audit"),
    "check": lambda row, rest: row.begin(word="check"),
    "mirror": lambda row, rest: setattr(row, "word", rest or "mirror"),
    "words": lambda row, rest: row.begin(words=rest.split("|")),
    "lengths": lambda row, rest: row.begin(lengths=int(rest)),
    "cuts": lambda row, rest: setattr(row, "cuts", int(rest)),
    "last": lambda row, rest: setattr(row, "last", int(rest)),
    "first": lambda row, rest: setattr(row, "first", int(rest)),
    "image": lambda row, rest: setattr(row, "tells_image", True),
}


def told_of(text: str, program: Program) -> Iterator[str]:
    """What is told of the rows of a file, each behind its title."""
    row, alone = Row(), False
    for line in [*text.splitlines(), None]:
        title = line[3:] if line is not None and line.startswith("== ") else None
        if line is not None and title is None:
            row.add(line)
        if row.begun and (alone or line is None or title is not None):
            lines, (image, twin) = row.told(program)
            yield from lines
            row = Row(image=bytearray(image), twin=twin, word=row.word if alone else "run")
        if title is not None:
            alone = title.startswith("each")
            row = row if title.startswith("then") else Row()
            yield f"== {title}"
