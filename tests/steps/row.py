"""A row: its steps one after another, with the disc that there is then."""
from __future__ import annotations

import subprocess
from pathlib import Path
from random import Random
from typing import Callable, Dict, Iterator, List, NamedTuple, Optional, Tuple

from model.lists import SECTORS_IN_BLOCK, Lists, Secondary, Structure
from model.medium import BLOCK, HEADER, SECTOR, Geometry, LayoutKind, State
from model.script import run as run_model

from .calls import FAR, NO_ATTENTION, Answers, Call, call_of, number, request
from .discs import Disc
from .lists import secondary_in, secondary_of, structure_in, structure_of, told_copies

FATES = ("old", "new", "torn")
DISARMED = f"cut {FAR} old"

Program = Callable[[LayoutKind, str, Path], str]
"""Runs a script over the disc in a file, as one of this layout: its report."""


def built(program: Path) -> Program:
    """The program that was built."""
    def answered(layout: LayoutKind, script: str, disc: Path) -> str:
        done = subprocess.run([program, layout.value, disc], input=script.encode("ascii"),
                              stdout=subprocess.PIPE, check=False)
        return done.stdout.decode("ascii")
    return answered


def modelled(layout: LayoutKind, script: str, disc: Path) -> str:
    """The model in its place."""
    report, _, image = run_model(script.encode("ascii"), disc.read_bytes(), layout)
    disc.write_bytes(image)
    return report.decode("ascii")


def answers_in(report: str) -> Answers:
    """The answer of each line, with the lines behind it."""
    found: Answers = []
    for line in report.splitlines():
        word, _, rest = line.partition(" ")
        if word.isdigit():
            assert int(word) == len(found) + 1, f"no answer before {line[:80]!r}"
            found.append([rest])
        elif word != "end":
            found[-1].append(line)
    return found


class Open(NamedTuple):
    """A call whose lines are in the script that is not run yet: where they begin, and where it is told."""
    call: Call
    begin: int
    at: int


class Row:
    """The steps of a row, as far as they were made."""

    def __init__(self, program: Program, folder: Path, name: str = "disc") -> None:
        self.program, self.folder, self.name = program, folder, name
        self.disc: Optional[Disc] = None
        self.lines: List[str] = []
        self.calls: List[Open] = []
        self.told: List[str] = []

    # Runs.

    def copy(self, name: str) -> Row:
        """The row as it is, with a disc of its own."""
        found = Row(self.program, self.folder, name)
        found.disc = self.disc and self.disc.copy(self.folder / name)
        found.lines, found.calls, found.told = self.lines[:], self.calls[:], self.told[:]
        return found

    def ran(self, lines: List[str]) -> Answers:
        assert self.disc is not None
        script = "".join(f"{line}\n" for line in lines)
        return answers_in(self.program(self.disc.geometry.layout, script, self.disc.path))

    def end_run(self) -> None:
        """Runs the script as far as it came, tells the answers of its calls, and leaves the power off."""
        if self.lines:
            answers = self.ran(self.lines)
            for call, begin, at in self.calls:
                self.told[at] = call.tell(answers[begin:begin + len(call.lines)])
        self.lines, self.calls = [], []

    def in_passing(self, lines: List[str]) -> Answers:
        """What these lines would be answered next, with no cut armed. The row goes on as if nothing was."""
        other = self.copy("passing")
        return other.ran([*self.lines, DISARMED, *lines])[len(self.lines) + 1:]

    # Steps.

    def make(self, line: str) -> None:
        """Makes the step of a line."""
        words = line.split(" ")
        call = call_of(words)
        if call is not None:
            self.calls.append(Open(call, len(self.lines), len(self.told)))
            self.lines += call.lines
            self.told.append("not run")
            return
        looks: Dict[str, Callable[..., str]] = {"pending": self.pending, "below": self.below}
        if words[0] in looks:
            self.told.append(looks[words[0]](*words[1:]))
            return
        works: Dict[str, Callable[..., str]] = {
            "blank": self.blank, "formatted": self.formatted, "fill": self.fill, "count": self.count,
            "number": self.number, "put": self.put, "structure": self.structure, "list": self.secondary,
            "structures": self.structures, "copies": self.copies, "blocks": self.told_blocks,
            "medium": self.medium, "homes": self.homes, "pressed": self.pressed,
            "scrubbed": self.scrubbed,
        }
        self.end_run()
        self.told.append("")
        self.told[-1] = works[words[0]](*words[1:])

    def the_disc(self) -> Disc:
        assert self.disc is not None, "a row begins with a disc"
        return self.disc

    def blank(self, zones: str, scale: str, spares: str, *groups: str) -> str:
        """Puts in a disc that was never written."""
        layout = LayoutKind.EACH_ZONE if groups else LayoutKind.ONE_GROUP
        geometry = Geometry(int(zones), int(scale), int(spares), layout)
        if not geometry.is_lawful:
            return "no such disc"
        self.disc = Disc.blank(self.folder / self.name, geometry)
        return "blank"

    def pressed(self, zones: str, scale: str, spares: str, *groups: str) -> str:
        """Puts in a new disc that the program makes."""
        layout = LayoutKind.EACH_ZONE if groups else LayoutKind.ONE_GROUP
        path = self.folder / self.name
        path.write_bytes(b"")
        report = self.program(layout, f"press {zones} {scale} {spares}\n", path)
        answer = answers_in(report)[0][0]
        if answer != "pressed":
            return answer
        self.disc = Disc(path, Geometry(int(zones), int(scale), int(spares), layout))
        return f"pressed, {(path.stat().st_size - HEADER) / (1 + BLOCK):g} blocks"

    def formatted(self) -> str:
        """Puts in the small disc, and formats it."""
        self.blank("1", "1", "4")
        power, form = call_of(["power"]), call_of(["format", "full"])
        assert power is not None and form is not None
        self.lines += power.lines
        self.calls.append(Open(form, len(self.lines), len(self.told) - 1))
        self.lines += form.lines
        return "not run"

    # What is done by hand.

    def lay(self, block: int, data: bytes) -> str:
        self.the_disc().write(block, data)
        return "laid"

    def fill(self, block: str, byte: str) -> str:
        return self.lay(int(block), bytes.fromhex(byte) * BLOCK)

    def count(self, block: str, byte: str) -> str:
        begin = int(byte, 16)
        return self.lay(int(block), b"".join(bytes([(begin + at) % 256]) * SECTOR for at in range(16)))

    def number(self, first: str, last: str) -> str:
        for block in range(int(first), int(last) + 1):
            self.lay(block, bytes([block % 256]) * BLOCK)
        return "laid"

    def put(self, block: str, at: str, *digits: str) -> str:
        old = self.the_disc().read(int(block))
        if old is None:
            return "unreadable"
        new = bytes.fromhex("".join(digits))
        return self.lay(int(block), old[:int(at)] + new + old[int(at) + len(new):])

    def structure(self, areas: str, *words: str) -> str:
        disc = self.the_disc()
        text = structure_of(words, disc.geometry).text
        for area in areas:
            self.lay(disc.geometry.structure_blocks[int(area) - 1], text)
        return "laid"

    def secondary(self, areas: str, *words: str) -> str:
        disc = self.the_disc()
        texts = secondary_of(words, disc.geometry).texts
        for area in areas:
            for block, text in zip(disc.geometry.secondary_blocks[int(area) - 1], texts):
                self.lay(block, text)
        return "laid"

    # What is looked at by hand.

    def structures(self) -> str:
        return told_copies(self.the_disc(), structure_in)

    def copies(self) -> str:
        return told_copies(self.the_disc(), secondary_in)

    def told_blocks(self, first: str, last: str) -> str:
        """The byte that each block has all over."""
        found = [self.the_disc().read(block) for block in range(int(first), int(last) + 1)]
        return " ".join("--" if data is None else f"{data[0]:02x}" if data == data[:1] * BLOCK else "mixed"
                        for data in found)

    def medium(self) -> str:
        return f"{self.blocks} blocks"

    # What the program tells in passing.

    def pending(self) -> str:
        """How many logical blocks are read otherwise after the power was lost. An expansion to the present
        capacity empties the buffer, which would show blocks that are lost."""
        capacity = self.in_passing(["cdb 25000000000000000000"])[0]
        if capacity[0] != "good":
            return "0 pending"
        sectors = number(bytes.fromhex(capacity[1].split(" ")[2]), 0) + 1
        same = f"cdb 041100000000 hex 00000008{sectors:08x}04000000"
        reads = [request("28", str(sector), str(SECTORS_IN_BLOCK))
                 for sector in range(0, sectors, SECTORS_IN_BLOCK)]
        now = self.in_passing([same, *reads])[1:]
        later = self.in_passing(["power", NO_ATTENTION, *reads])[2:]
        return f"{sum(one != other for one, other in zip(now, later))} pending"

    def below(self, *words: str) -> str:
        """What a call would tell after the power was lost: of the disc alone."""
        call = call_of([*words])
        assert call is not None
        return call.tell(self.in_passing(["power", NO_ATTENTION, *call.lines])[2:])

    def homes(self, *logical: str) -> str:
        """The home of each logical block, bit by bit: just those data blocks can be read whose number has the
        bit."""
        lines = [request("2f", str(SECTORS_IN_BLOCK * int(block)), "1") for block in logical]
        found = [0] * len(logical)
        for bit in range(self.blocks.bit_length()):
            answers = self.probed([bool(block >> bit & 1) for block in range(self.blocks)], lines)
            found = [home | (answer[0] == "good") << bit for home, answer in zip(found, answers)]
        return ", ".join(f"{block} in {home}" for block, home in zip(logical, found))

    @property
    def blocks(self) -> int:
        return self.the_disc().geometry.blocks

    def probed(self, good: List[bool], lines: List[str]) -> Answers:
        """What lines would be answered by the disc if just these of its data blocks could be read."""
        probe = self.the_disc().copy(self.folder / "probe")
        first, end = probe.geometry.data_blocks[0], probe.geometry.data_blocks[-1] + 1
        states = bytes(State.GOOD if is_good else State.DEAD for is_good in good[first:end])
        probe.put(HEADER + first, states)
        script = "".join(f"{line}\n" for line in ["power", NO_ATTENTION, *lines])
        return answers_in(self.program(probe.geometry.layout, script, probe.path))[2:]

    def scrubbed(self) -> str:
        """Whether a scrub finds each logical block where a plain look at all blocks says."""
        disc = self.the_disc()
        first, second = disc.geometry.secondary_blocks[0]
        found = Structure.of(disc.read(disc.geometry.structure_blocks[0]))
        beside = Secondary.of(disc.read(first), disc.read(second))
        assert found is not None and beside is not None
        lists = Lists(disc.geometry, found, beside)
        random = Random(1)
        good = [random.random() < 0.5 for _ in range(self.blocks)]
        lost = [block for block in range(len(lists.logical)) if not good[lists.home(block)]]
        is_so = self.probed(good, ["scrub all"]) == [
            [f"found {len(lost)}", *(f"lost {SECTORS_IN_BLOCK * block}" for block in lost)]]
        return f"{len(lists.logical)} blocks {'as' if is_so else 'not as'} a plain look says"


def spans(texts: List[str]) -> Iterator[Tuple[int, int, str]]:
    """Numbers in a row, from 1 on, that have the same text."""
    begin = 1
    for count, text in enumerate(texts, 1):
        if count == len(texts) or texts[count] != text:
            yield begin, count, text
            begin = count + 1


def told_cuts(row: Row, uses: int, behind: List[str]) -> Iterator[str]:
    """What the steps behind a cut tell, for each use in which the power is cut, and each fate."""
    for fate in FATES:
        texts: List[str] = []
        for use in range(1, uses + 1):
            cut = row.copy("cut")
            begin = len(cut.told) + 1
            for line in [f"cut {use} {fate}", *behind]:
                cut.make(line)
            cut.end_run()
            texts.append(" / ".join(cut.told[begin:]))
        for first, last, text in spans(texts):
            yield f"{fate} {first} / {text}" if first == last else f"{fate} {first} to {last} / {text}"


def told(program: Program, folder: Path, lines: List[str]) -> Iterator[str]:
    """What is told of the steps of a row."""
    row = Row(program, folder)
    for at, line in enumerate(lines):
        if line.startswith("cut each "):
            yield from told_cuts(row, int(line.split(" ")[-1]), lines[at + 1:])
            return
        row.make(line)
    row.end_run()
    yield from (f"{at} {text}" for at, text in enumerate(row.told, 1))
