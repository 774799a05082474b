"""Reports that no program made: some of drives that keep the promise, the others of drives that break it."""
from __future__ import annotations

from typing import Iterator, List, NamedTuple, Tuple

from .medium import BLOCK, Geometry, Medium, State

Line = Tuple[str, str]
"""A line of a script, and its answer, with the lines that stand behind it; nothing where it has none."""

AGAIN: Line = ("", "")
"""Here another run begins, over the image that was left."""

FORMAT = ("cdb 041100000000 hex 000000080000000000000800", "good")
REWRITE = ("cdb 041100000000 hex 00a000080000000000000800", "good")
EXPAND = ("cdb 041100000000 hex 000000080000010004000000", "good")  # to 256 sectors
ON = ("cdb 55100000000000001400 hex 0000000000000000080a04000000000000000000", "good")
OFF = ("cdb 55100000000000001400 hex 0000000000000000080a00000000000000000000", "good")
SYNC = ("cdb 35000000000000000000", "good")
PRESS = ("press 1 1 3", "pressed")
POWER = ("power", "ready 320")
NOT_READY = ("power", "not formatted")
ATTENTION = ("cdb 000000000000", "check 6/29/00")
EJECT = ("cdb 1b0000000200", "good")
FAIL = ("fail 12", "failed")
UNREAD = ("cdb 28000000000500000100", "check 3/11/00 info 5")
NEW = [PRESS, NOT_READY, FORMAT]


def write(byte: str, answer: str = "good", fua: bool = False, sectors: int = 1, first: int = 5) -> Line:
    return f"cdb 2a{8 * fua:02x}{first:08x}00{sectors:04x}00 fill {byte}", answer


def read(*bytes_read: str, first: int = 5, sectors: int = 0) -> Line:
    shown = [f"sector {at} fill {byte}" for at, byte in enumerate(bytes_read, first)]
    return f"cdb 2800{first:08x}00{sectors or len(shown):04x}00", "\n".join(["good", *shown])


def answered(line: Line, answer: str) -> Line:
    return line[0], answer


def disc() -> bytes:
    """An image that may have bytes aa, bb or dd in sector 5, and has cc only in another place of a block."""
    medium = Medium(Geometry(1, 1, 3).blank(), Geometry(1, 1, 3))
    for block in range(medium.geometry.blocks):
        medium.image[medium.bytes_at(block)] = b"\xdd" * BLOCK
        medium.set_state(block, State.GOOD)
    for block, sector, byte in ((12, 5, b"\xaa"), (20, 5, b"\xbb"), (12, 6, b"\xcc")):
        begin = medium.bytes_at(block).start + 2_048 * sector
        medium.image[begin:begin + 2_048] = byte * 2_048
    return bytes(medium.image)


class Case(NamedTuple):
    title: str
    keeps: bool
    lines: List[Line]
    image: bytes = b""
    ends: bool = True

    @property
    def runs(self) -> Iterator[Tuple[bytes, bytes]]:
        """The script and the report of each run."""
        begin = 0
        for end in (*(at for at, line in enumerate(self.lines) if line is AGAIN), len(self.lines)):
            lines, begin = self.lines[begin:end], end + 1
            script = "".join(f"{line}\n" for line, _ in lines)
            report = "".join(f"{at} {answer}\n" for at, (_, answer) in enumerate(lines, 1) if answer)
            report += f"end {len(lines)}\n" if self.ends else ""
            yield script.encode("ascii"), report.encode("ascii")


CASES = [
    Case("a sector has zeros after a format", True, [*NEW, read("00")]),
    Case("and nothing else", False, [*NEW, read("11")]),
    Case("what was written", True, [*NEW, write("aa"), read("aa")]),
    Case("not what was before", False, [*NEW, write("aa"), read("00")]),
    Case("not what another sector has", False, [*NEW, write("aa"), write("bb", first=6), read("bb")]),
    Case("a write with the cache off is kept", False, [*NEW, write("aa"), POWER, read("00")]),
    Case("one into the cache may be lost", True, [*NEW, ON, write("aa"), POWER, read("00")]),
    Case("or kept", True, [*NEW, ON, write("aa"), POWER, read("aa")]),
    Case("but not before the power was lost", False, [*NEW, ON, write("aa"), read("00")]),
    Case("what was found stays", False, [*NEW, ON, write("aa"), POWER, ON, read("00"), POWER, read("aa")]),
    Case("also where it is the new bytes", False,
         [*NEW, ON, write("aa"), POWER, ON, read("aa"), POWER, read("00")]),
    Case("also where no read showed it before the next write", False,
         [*NEW, ON, write("aa"), POWER, ON, write("bb"), read("bb"), POWER, read("aa"), POWER, read("00")]),
    Case("a write with FUA is kept", False, [*NEW, ON, write("aa", fua=True), POWER, read("00")]),
    Case("so is WRITE AND VERIFY", False,
         [*NEW, ON, ("cdb 2e000000000500000100 fill aa", "good"), POWER, read("00")]),
    Case("a write of seventeen blocks is kept", False,
         [*NEW, ON, write("aa", sectors=257, first=0), POWER, read("00")]),
    Case("one of sixteen may be lost", True,
         [*NEW, ON, write("aa", sectors=256, first=0), POWER, read("00")]),
    Case("a synchronised write is kept", False, [*NEW, ON, write("aa"), SYNC, POWER, read("00")]),
    Case("a synchronisation that was refused keeps nothing", True,
         [*NEW, ON, write("aa"), FAIL, answered(SYNC, "check 3/32/00 info 5"), POWER, read("00")]),
    Case("with the cache off again a write is kept", False, [*NEW, ON, OFF, write("aa"), POWER, read("00")]),
    Case("what was pending then is kept too", False, [*NEW, ON, write("aa"), OFF, POWER, read("00")]),
    Case("so is what was pending at an ejection", False, [*NEW, ON, write("aa"), EJECT, POWER, read("00")]),
    Case("where that is refused it may be lost", True,
         [*NEW, ON, write("aa"), FAIL, answered(EJECT, "check 3/32/00 info 5"), POWER, read("00")]),
    Case("a power line turns the cache off", False, [*NEW, ON, POWER, write("aa"), POWER, read("00")]),
    Case("a write that was cut is old", True, [*NEW, write("aa"), write("bb", "cut"), POWER, read("aa")]),
    Case("or new", True, [*NEW, write("aa"), write("bb", "cut"), POWER, read("bb")]),
    Case("and nothing older", False, [*NEW, write("aa"), write("bb", "cut"), POWER, read("00")]),
    Case("nor both in turn", False, [*NEW, write("aa"), write("bb", "cut"), POWER, read("bb"), read("aa")]),
    Case("nor over the next power line", False,
         [*NEW, write("aa"), write("bb", "cut"), POWER, read("bb"), POWER, read("aa")]),
    Case("sectors of one write may fall apart", True,
         [*NEW, write("bb", "cut", sectors=2), POWER, read("bb", "00")]),
    Case("one into the cache that was cut wrote nothing", False,
         [*NEW, ON, write("aa", "cut"), POWER, read("aa")]),
    Case("a refused write is old", True, [*NEW, FAIL, write("bb", "check 3/32/00 info 5"), read("00")]),
    Case("or new", True, [*NEW, FAIL, write("bb", "check 3/11/00 info 5"), read("bb")]),
    Case("one that was refused before it began is old", False,
         [*NEW, write("bb", "check 6/29/00"), read("bb")]),
    Case("one that is out of range too", False,
         [*NEW, write("bb", "check 5/21/00", sectors=400), read("bb")]),
    Case("a refused one into the cache is old", False,
         [*NEW, FAIL, ON, write("bb", "check 3/32/00 info 5"), read("bb")]),
    Case("a disc that is ready has its sectors", False, [*NEW, write("aa"), POWER, REWRITE, read("00")]),
    Case("a format that was refused before it began leaves them", False,
         [*NEW, write("aa"), answered(FORMAT, "check 6/29/00"), REWRITE, read("00")]),
    Case("one that failed may leave none", True,
         [*NEW, write("aa"), FAIL, answered(FORMAT, "check 3/31/01"), REWRITE, read("00")]),
    Case("a rewriting one that failed leaves them", False,
         [*NEW, write("aa"), FAIL, answered(REWRITE, "check 3/31/01"), REWRITE, read("00")]),
    Case("a read with the power off", False, [*NEW, write("bb", "cut"), read("bb")]),
    Case("a read of a disc that is not formatted", False, [PRESS, NOT_READY, read("00")]),
    Case("a rewriting format leaves the sectors", False, [*NEW, write("aa"), REWRITE, read("00")]),
    Case("it makes zeros where no disc was", True, [PRESS, NOT_READY, REWRITE, read("00")]),
    Case("a rewriting format that was cut", False,
         [*NEW, write("aa"), answered(REWRITE, "cut"), POWER, read("00")]),
    Case("a full format that was cut", True, [*NEW, write("aa"), answered(FORMAT, "cut"), POWER, read("00")]),
    Case("a full format settles zeros", False, [*NEW, ON, write("aa"), FORMAT, POWER, read("aa")]),
    Case("a press leaves nothing to be ready", False, [*NEW, write("aa"), PRESS, POWER]),
    Case("nor to be read", False, [*NEW, write("aa"), PRESS, read("aa")]),
    Case("a sector past an expansion", False, [*NEW, write("aa", first=300), EXPAND, read("aa", first=300)]),
    Case("one before it", True, [*NEW, write("aa"), EXPAND, read("aa")]),
    Case("a sector past the capacity that was told", False,
         [*NEW, ("power", "ready 16"), read("00", first=16)]),
    Case("more sectors than were asked for", False, [*NEW, read("00", "00", sectors=1)]),
    Case("fewer", False, [*NEW, read("00", sectors=2)]),
    Case("fewer where the report breaks off", True, [*NEW, read("00", sectors=2)], ends=False),
    Case("wrong ones where it breaks off", False, [*NEW, read("11", sectors=2)], ends=False),
    Case("others", False, [*NEW, answered(read("00"), "good\nsector 6 fill 00")]),
    Case("sectors by what is no read", False, [*NEW, ("cdb 000000000000", "good\nsector 5 fill 00")]),
    Case("sectors by a read that was refused", False,
         [*NEW, answered(read("00"), "check 5/21/00\nsector 5 fill 00")]),
    Case("sectors by a read that is too short", False,
         [*NEW, ("cdb 28000000000500", "good\nsector 5 fill 00")]),
    Case("data by a command that the drive does not know", False, [*NEW, ("cdb ff", "good\ndata 1 00")]),
    Case("a reply", True, [*NEW, ("cdb 25000000000000000000", "good\ndata 8 0000013f00000800")]),
    Case("an answer to a line that is no line", False, [*NEW, ("powder", "ready 320")]),
    Case("an answer to a comment", False, [*NEW, ("# power", "ready 320")]),
    Case("no answer of this line", False, [*NEW, answered(read("00"), "ready 320")]),
    Case("no answer at all", False, [*NEW, answered(POWER, "here we are")]),
    Case("a comment has none", True, [*NEW, ("# power", ""), POWER]),
    Case("a line without its answer", False, [*NEW, ("power", ""), POWER]),
    Case("a run again over what was left", True, [*NEW, write("aa"), AGAIN, POWER, read("aa")]),
    Case("it never shows what is not there", False, [*NEW, write("aa"), AGAIN, POWER, read("00")]),
    Case("nor what was lost before", False,
         [*NEW, ON, write("aa"), POWER, read("00"), AGAIN, POWER, read("aa")]),
    Case("its power is off at first", False, [*NEW, write("aa"), AGAIN, read("aa")]),
    Case("what waited in the cache may be lost", True, [*NEW, ON, write("aa"), AGAIN, POWER, read("00")]),
    Case("the cache is off again", False, [*NEW, ON, AGAIN, POWER, write("aa"), POWER, read("00")]),
    Case("a sector that lay in the image", True, [POWER, read("aa")], disc()),
    Case("in any block", True, [POWER, read("bb")], disc()),
    Case("in one of them alone", False, [POWER, read("aa"), POWER, read("bb")], disc()),
    Case("in one of them alone, whatever was written meanwhile", False,
         [POWER, ON, read("aa"), write("ee"), POWER, read("bb")], disc()),
    Case("in one of them, of which nothing was read before", True,
         [POWER, ON, write("ee"), POWER, read("bb")], disc()),
    Case("in another place of a block", False, [POWER, read("cc")], disc()),
    Case("zeros for a block that cannot be read", False, [POWER, read("00")], disc()),
    Case("nor are they made by a rewriting format", False, [POWER, REWRITE, read("00")], disc()),
    Case("by a full one they are", True, [POWER, FORMAT, read("00")], disc()),
    Case("a lost sector is there again when it is written", True,
         [POWER, UNREAD, write("ee"), read("ee")], disc()),
    Case("an image that is no disc's shows nothing", False, [POWER, read("00")], b"DVDRAM01"),
    Case("all of it is lost before it is written", True,
         [POWER, UNREAD, write("aa"), read("aa")], b"DVDRAM01"),
    Case("a defect where nothing failed", False, [*NEW, UNREAD]),
    Case("and where something did", True, [*NEW, FAIL, UNREAD]),
    Case("a new disc has no defects", False, [*NEW, FAIL, *NEW, UNREAD]),
    Case("a disc that was there before may have some", True, [POWER, UNREAD], disc()),
]
