"""Images that are laid by hand, and cases: an image with a script."""
from __future__ import annotations

from typing import Iterator, List, NamedTuple, Optional, Sequence, Tuple

from model.lists import Kind, Secondary, Slipped, Structure
from model.medium import BLOCK, Cut, Fate, Geometry, LayoutKind, Medium, State
from model.script import Run, line_of, run

FATES = tuple(fate.value for fate in Fate)
SMALL = Geometry(1, 1, 4)
"""The small disc: its spares are 9 to 12, and its logical blocks 13 to 31."""
FAR = 4_294_967_295

POWER = ["power", "cdb 000000000000"]
FORMAT = "cdb 041100000000 hex 000000080000000000000000"
REWRITE = "cdb 041100000000 hex 00a000080000000000000000"
SPARES = "cdb ad0000000000000a00100000"


def read(logical: int, sectors: int = 1) -> str:
    return f"cdb 2800{16 * logical:08x}00{sectors:04x}00"


def verify(logical: int) -> str:
    """A line that takes one use, if the disc is there."""
    return f"cdb 2f00{16 * logical:08x}00000100"


def write(logical: int, byte: int, sectors: int = 16) -> str:
    return f"cdb 2a00{16 * logical:08x}00{sectors:04x}00 fill {byte:02x}"


class Case(NamedTuple):
    """A script over an image, with a title."""
    title: str
    image: bytes
    lines: Sequence[str]
    layout: LayoutKind = LayoutKind.ONE_GROUP
    cuts: Optional[int] = None
    """How many lines are answered `cut`, where that was found out beside the model."""

    @property
    def script(self) -> bytes:
        return "".join(f"{line}\n" for line in self.lines).encode("ascii")


class Laid:
    """An image that is laid by hand."""

    def __init__(self, geometry: Geometry = SMALL) -> None:
        self.geometry = geometry
        self.medium = Medium(geometry.blank(), geometry)

    @property
    def image(self) -> bytes:
        return bytes(self.medium.image)

    def lay(self, block: int, data: Optional[bytes], state: int = State.GOOD) -> None:
        """Writes a block, and gives it this state. Without data its bytes stay as they are."""
        if data is not None:
            self.medium.image[self.medium.bytes_at(block)] = data
        self.medium.image[16 + block] = state

    def fail(self, *blocks: int) -> None:
        for block in blocks:
            self.lay(block, None, State.DEAD)

    def number(self, blocks: Sequence[int]) -> None:
        """Writes blocks, each with its number all over."""
        for block in blocks:
            self.lay(block, bytes([block % 256]) * BLOCK)

    def structures(self, one: Structure) -> None:
        """Writes a structure into all areas."""
        for block in self.geometry.structure_blocks:
            self.lay(block, one.text)

    def secondaries(self, one: Secondary) -> None:
        """Writes a secondary list into all areas."""
        for blocks in self.geometry.secondary_blocks:
            for block, text in zip(blocks, one.texts):
                self.lay(block, text)


def structure(counter: int, version: int = 2, slipped: Sequence[int] = (), formatted: bool = True,
              geometry: Geometry = SMALL) -> Structure:
    entries = tuple(Slipped(Kind.FIRST_FORMAT, block) for block in slipped)
    return Structure(version, formatted, counter, geometry.spares, entries, geometry.layout)


def secondary(counter: int, under: int, version: int = 2, spares: int = 0,
              entries: Sequence[Tuple[int, Optional[int]]] = ()) -> Secondary:
    return Secondary(version, counter, under, spares, tuple(entries))


def uses_after(case: Case) -> List[int]:
    """How many uses of the medium the model has made after each line of a script without cuts."""
    state = Run(case.image, case.layout)
    assert state.target is not None
    medium = state.target.drive.medium
    medium.cut, found = Cut(FAR, Fate.OLD), []
    for text in case.lines:
        line = line_of(text.encode("ascii"))
        assert line is not None
        state.answer(line)
        found.append(FAR - medium.cut.left)
    return found


def mounted(title: str, image: bytes, first: Sequence[str], behind: Sequence[str],
            layout: LayoutKind = LayoutKind.ONE_GROUP) -> Case:
    """These lines; a mount that is cut in its last use, so that it takes no fewer, and one that is not cut in
    the use behind its last one, so that it takes no more; and the lines behind."""
    case = Case(title, image, [*first, "power"], layout)
    cut = case._replace(lines=[f"cut {uses_after(case)[-1]} old", *case.lines])
    _, _, left = run(cut.script, image, layout)
    again = f"cut {uses_after(Case(title, left, ['power'], layout))[-1] + 1} old"
    return case._replace(lines=[*cut.lines, again, "power", "power", *behind])


def cut_at(case: Case, use: int, fate: str) -> Case:
    """The case, cut in this use."""
    return case._replace(title=f"{case.title}, cut {use} {fate}", lines=[f"cut {use} {fate}", *case.lines])


def cut_at_ends(case: Case, turn: Optional[int]) -> Iterator[Case]:
    """The case, and cut in the last use of each line that uses the medium, and in the use behind that, with
    each fate; or, every other turn, cut in one of these."""
    yield case
    if turn is None or turn % 2:
        ends = sorted({use + more for use in uses_after(case) for more in (0, 1) if use})
        cuts = [(use, fate) for use in ends for fate in FATES]
        for use, fate in cuts if turn is None else [cuts[7 * turn % len(cuts)]]:
            yield cut_at(case, use, fate)


def cut_everywhere(case: Case, turn: Optional[int]) -> Iterator[Case]:
    """The case, cut in each use, and in the one behind all, with each fate; or in every third use, with the
    fates by turns."""
    uses = range(1, uses_after(case)[-1] + 2)
    if turn is None:
        yield from (cut_at(case, use, fate) for use in uses for fate in FATES)
    else:
        yield from (cut_at(case, use, FATES[(use // 3 + turn) % len(FATES)]) for use in uses[turn % 3::3])
