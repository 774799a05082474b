"""Draws scripts for a mirror: calls, failures and cuts on either side."""
from __future__ import annotations

from random import Random
from typing import List

from .drive import Drive
from .lists import SECTORS_IN_BLOCK
from .medium import SECTOR, Geometry, Medium
from .mirror import Record

FATES = ("old", "new", "torn")


class MirrorScript:
    """Draws lines for two discs of this geometry."""

    def __init__(self, random: Random, geometry: Geometry) -> None:
        self.random = random
        self.geometry = geometry
        self.records = Record(Drive(Medium(bytearray(geometry.blank()), geometry))).blocks
        self.blocks = [*self.records, *geometry.list_blocks, *geometry.data_blocks[:12]]

    def draw(self, pressed: bool) -> bytes:
        """A script: the discs are made first, unless they are there."""
        geometry = self.geometry
        press = f"press {geometry.zones} {geometry.scale} {geometry.spares}"
        begin = [] if pressed else [press, "power", "format"]
        lines = begin + ["power"] * (self.random.random() < 0.8)
        for _ in range(self.random.randint(4, 24)):
            lines += [self.line()] if self.random.random() < 0.95 else self.scene()
        lines += [self.no_form(), self.line()] if self.random.random() < 0.05 else []
        return "".join(f"{line}\n" for line in lines).encode("ascii")

    def line(self) -> str:
        kinds = {self.power: 20, self.write: 26, self.read: 20, self.resync: 7, self.format: 3, self.lead: 4,
                 self.give: 1, self.cut: 14, self.fail: 7, self.wear: 2, self.strange: 1}
        return self.random.choices(list(kinds), list(kinds.values()))[0]()

    def scene(self) -> List[str]:
        """Lines that seldom come one after another."""
        return self.random.choice([self.lost_home, self.lost_spares, self.lost_record])()

    def lost_home(self) -> List[str]:
        """A block dies in one side while both have the same bytes."""
        at = self.random.randrange(3)
        home = self.geometry.data_blocks[self.geometry.spares:][at:at + 1]
        fails = [f"{self.side()} fail {block}" for block in home]
        read = f"read {SECTORS_IN_BLOCK * at} {self.random.choice([1, SECTORS_IN_BLOCK])}"
        return ["resync", *fails, read, "resync", read, self.power(), read]

    def lost_spares(self) -> List[str]:
        """One side has no spare, and cannot write a block."""
        side, spares = self.side(), self.geometry.spares
        home = self.geometry.data_blocks[spares:spares + 3][-1]
        fails = [f"{side} fail {block}" for block in [*self.geometry.data_blocks[:spares], home]]
        return ["resync", *fails, self.write(), "write 0 48 count 10", self.cut(), "read 0 48", "resync"]

    def lost_record(self) -> List[str]:
        """The record of a side is lost, and the lead is given by hand."""
        side = self.side()
        fails = [f"{side} fail {block}" for block in self.records]
        later = [self.write(), self.cut(), self.write(), "power"]
        return [*fails, "power", self.give(), "power", "lead", *later]

    def side(self) -> str:
        return self.random.choice("ab")

    def request(self) -> str:
        anywhere = self.random.randrange(400)
        first = self.random.choice([0, 0, 0, 5, SECTORS_IN_BLOCK, 2 * SECTORS_IN_BLOCK, anywhere])
        return f"{first} {self.random.choice([1, 3, SECTORS_IN_BLOCK, 2 * SECTORS_IN_BLOCK, 40])}"

    def power(self) -> str:
        return "power"

    def resync(self) -> str:
        return "resync"

    def format(self) -> str:
        return "format"

    def lead(self) -> str:
        return "lead"

    def give(self) -> str:
        return f"lead {self.side()}"

    def read(self) -> str:
        return f"read {self.request()}"

    def write(self) -> str:
        kind = self.random.choice(["fill", "fill", "count", "count", "hex"])
        if kind == "hex":
            first = self.request().split(" ", maxsplit=1)[0]
            return f"write {first} 1 hex {self.random.getrandbits(8 * SECTOR):0{2 * SECTOR}x}"
        return f"write {self.request()} {kind} {self.random.randrange(256):02x}"

    def cut(self) -> str:
        uses = self.random.choice([1, 1, 2, 3, 5, 8, self.random.randint(9, 45)])
        return f"{self.side()} cut {uses} {self.random.choice(FATES)}"

    def fail(self) -> str:
        return f"{self.side()} fail {self.random.choice(self.blocks)}"

    def wear(self) -> str:
        return f"{self.side()} wear {self.random.choice(self.blocks)} {self.random.randint(1, 4)}"

    def strange(self) -> str:
        """A line that says nothing, or refuses."""
        lines: List[str] = ["", "# a comment", "press 0 1 4", "a fail 99999", f"read {2 ** 32 - 1} 2"]
        return self.random.choice(lines)

    def no_form(self) -> str:
        """A line that is none of the language, and ends the run."""
        return self.random.choice(["tick", "fail 3", "c fail 3", "a cut 0 old", "lead c", "read 0 0",
                                   "read 0 1025", "write 0 1 hex 00", "press 1 1", "read 0 1 2"])
