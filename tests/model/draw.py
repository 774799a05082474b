"""Scripts that are drawn at random, out of scenes: each goes where discs lose blocks, spares, copies of
lists, and power."""
from __future__ import annotations

from random import Random
from typing import Callable, Dict, List

from .commands import Code
from .draw_lines import FATES, Lines
from .lists import SECTORS_IN_BLOCK
from .medium import Geometry, LayoutKind


def draw_geometry(random: Random, layout: LayoutKind) -> Geometry:
    """Most of them have few spares, so that these run out; some have so many that few logical blocks are
    left."""
    if layout is LayoutKind.EACH_ZONE:
        zones, scale = random.choices([(1, 1), (2, 1), (3, 1), (1, 2)], [3, 6, 1, 1])[0]
        most = 25 * scale - 3
        return Geometry(zones, scale, random.choice([1, 2, 3, 4, 4, 6, most - 1, most]), layout)
    zones, scale = random.choices([(1, 1), (2, 1), (1, 2)], [8, 1, 1])[0]
    data = len(Geometry(zones, scale, 1).data_blocks)
    return Geometry(zones, scale, random.choice([1, 2, 3, 4, 4, 6, data - 2, data - 1]))


class Script(Lines):
    """A script that is drawn scene by scene."""

    def draw(self, pressed: bool) -> bytes:
        """A script over a disc that is pressed already, or that is to be."""
        lines = [] if pressed and self.random.random() < 0.95 else self.new_disc()
        lines += [self.cut()] if pressed and self.random.random() < 0.1 else []
        lines += [self.on()] if self.random.random() < 0.95 else []
        lines += [self.full_format()] if pressed and self.random.random() < 0.6 else []
        for _ in range(self.random.randrange(1, 5 if pressed else 10)):
            lines += self.scene()
        lines += self.last_scene()
        ends = self.random.choices(["\n", "\r\n"], [9, 1])[0]
        script = ends.join("\n".join(lines).split("\n"))
        return script.encode("ascii") + self.random.choice([b"", b"\n", b"\r\n"])

    def scene(self) -> List[str]:
        draws: Dict[Callable[[], List[str]], float] = {
            self.any_lines: 8, self.cut_scene: 4, self.lost_home: 4, self.lost_copies: 1.5, self.worn: 2,
            self.flood: 0.4, self.too_many_dead: 0.5, self.new_disc: 0.7, self.buffer_scene: 3,
            self.told: 1.5,
            self.ejected: 1, self.cached: 6, self.full_cache: 0.7,
        }
        again = [self.on()] if self.random.random() < 0.3 else []
        return again + self.one_of(draws)()

    def last_scene(self) -> List[str]:
        """A cut that no `power` repairs, so that the image shows it; or a line that has none of the forms; or
        nothing."""
        used = self.lost_home() if self.random.random() < 0.5 else [self.transfer()]
        draws: List[List[str]] = [[self.on(), self.cut(), *used], [self.no_form(), self.line()], []]
        return self.random.choices(draws, [4, 1, 5])[0]

    def maybe_new(self) -> List[str]:
        return self.new_disc() if self.random.random() < 0.3 else []

    def any_lines(self) -> List[str]:
        return self.several(self.line, 1, 4)

    def cut_scene(self) -> List[str]:
        lines = [self.cut(), self.transfer(), *self.several(self.line, 0, 1)]
        return lines if self.random.random() < 0.1 else [*lines, self.on(), self.transfer()]

    def home_of(self, logical: int) -> int:
        """The home of a logical block on a disc without defects, or else that of the last one."""
        return self.geometry.logical[min(logical, len(self.geometry.logical) - 1)]

    def spares_of(self, logical: int) -> List[int]:
        """The spares of a logical block on a disc without defects."""
        groups, home = self.geometry.groups, self.home_of(logical)
        return next((group for group in groups if home < group[0]), groups[-1])

    def lost_home(self) -> List[str]:
        """A logical block dies, and with it some spares; then it is written."""
        logical = self.random.choice([0, 0, 1, 2, self.random.randrange(len(self.geometry.logical)),
                                      len(self.geometry.logical) - 1])
        spares, dead = self.spares_of(logical), [self.home_of(logical)]
        dead += self.random.sample(spares, self.random.choice([0, 0, 1, min(2, len(spares)), len(spares)]))
        data = f"fill {self.random.randrange(256):02x}"
        whole = self.request(Code.WRITE_10, SECTORS_IN_BLOCK * logical, SECTORS_IN_BLOCK, data)
        again = [f"fail {spares[-1]}", whole] if self.random.random() < 0.3 else []
        return [*self.several(self.read, 0, 1), *(f"fail {block}" for block in dead),
                self.random.choice([whole, whole, self.write()]), *again,
                *self.several(self.free_spares, 0, 1), *self.several(self.transfer, 0, 2)]

    def lost_copies(self) -> List[str]:
        """Most copies of a list die or are going to, or all of them; then the list is used."""
        of_secondary = [self.random.choice(blocks) for blocks in self.geometry.secondary_blocks]
        blocks = self.random.choice([self.geometry.structure_blocks, of_secondary])
        lost = self.random.sample(blocks, self.random.choice([2, 3, 4, 4, 4]))
        uses = [self.full_format, self.rewriting_format, self.expansion, self.on]
        lines = [f"fail {block}" for block in lost]
        if self.random.random() < 0.4:
            lines = [f"wear {block} {self.random.randint(1, 4)}" for block in lost]
        lines += self.lost_home() if self.random.random() < 0.3 else []
        if self.random.random() < 0.4:
            lines.append(f"cut {self.random.randint(9, 40)} {self.random.choice(FATES)}")
        return [*lines, self.random.choice(uses)(),
                *self.several(self.transfer, 0, 2), *(self.new_disc() if self.random.random() < 0.7 else [])]

    def worn(self) -> List[str]:
        return [*self.several(self.wear, 1, 3), self.transfer(), *self.several(self.line, 1, 3)]

    def too_many_dead(self) -> List[str]:
        """More blocks die than there are primary spares, or as many in a zone and one more; the disc is
        formatted, more than once."""
        data = self.random.choice([self.geometry.data_blocks, *self.geometry.data_of_zones])
        dead = self.geometry.spares + self.random.choice([0, 1, 1, 1])
        lines = [f"fail {block}" for block in self.random.sample(data, min(dead, len(data), 8))]
        return [*lines, *self.several(self.full_format, 1, 2), *self.several(self.line, 0, 2),
                *self.new_disc()]

    def new_disc(self) -> List[str]:
        return [self.press(), self.on(), *self.several(self.fail, 0, 1), self.full_format()]

    def flood(self) -> List[str]:
        """A block is to die at many uses, and does at the first of them; then so many are armed that there is
        no more room."""
        wears = [f"wear 0 {self.random.randint(1, 40)}" for _ in range(self.random.randint(10, 50))]
        later = [f"wear {self.geometry.blocks - 1} {self.random.randint(40, 99)}" for _ in range(60)]
        return [*wears, self.on(), *later, f"wear {self.geometry.blocks} 1", self.transfer(),
                *self.several(self.wear, 3, 6)]

    def buffer_scene(self) -> List[str]:
        """A block is buffered and its home dies; something is done; then the block is read, which tells
        whether it is buffered."""
        logical = self.random.choice([0, 1, 2])
        home = self.home_of(logical)
        read = self.request(Code.READ_10, SECTORS_IN_BLOCK * logical, 1)
        part = self.request(Code.WRITE_10, SECTORS_IN_BLOCK * logical + 3, 2, "fill 55")
        between = self.random.choice([self.rewriting_format, self.expansion, self.expansion, self.verify,
                                      self.query, self.write, self.on, self.full_format])()
        if self.random.random() < 0.3:
            dead = [f"fail {spare}" for spare in self.spares_of(logical)]
            return [*self.maybe_new(), self.read(), *dead[:8], f"wear {home} {self.random.choice([2, 3])}",
                    part, read, read]
        return [*self.maybe_new(), self.random.choice([read, part]), f"fail {home}", between, read,
                self.read()]

    def cached(self) -> List[str]:
        """The write cache is on, and blocks are written into it, through it and out of it, while some die and
        the power is cut."""
        draws: Dict[Callable[[], str], float] = {
            self.write: 8, self.read: 4, self.tick: 4, self.synchronization: 2, self.fail: 1, self.wear: 1,
            self.cut: 0.7, self.verify: 1, self.transfer: 2, self.cache: 0.3,
        }
        lines = [self.cache(), *(self.one_of(draws)() for _ in range(self.random.randint(1, 8)))]
        lines += self.lost_home() if self.random.random() < 0.3 else []
        lines += self.random.choice([[], [self.synchronization()], ["tick"] * 3,
                                     [self.cut(), self.synchronization()]])
        return lines if self.random.random() < 0.5 else [*lines, self.on(), self.read()]

    def full_cache(self) -> List[str]:
        """So many blocks are written into the cache that older ones have to leave it."""
        order = list(range(min(40, self.sectors // SECTORS_IN_BLOCK)))
        if self.random.random() < 0.5:
            self.random.shuffle(order)
        data = f"fill {self.random.randrange(256):02x}"
        writes = [self.request(Code.WRITE_10, SECTORS_IN_BLOCK * at, self.random.choice([16, 16, 16, 1]),
                               data) for at in order]
        return [*self.maybe_new(), self.cache(), *writes, *self.several(self.line, 0, 2),
                *self.several(self.read, 1, 2)]

    def told(self) -> List[str]:
        """The power comes on, and commands come that are told so, or that are not."""
        draws = [self.query, self.any_command, self.unknown, self.spoiled_command, self.request_sense,
                 self.read]
        return ["power", *(self.random.choice(draws)() for _ in range(self.random.randint(1, 4))),
                "cdb 000000000000"]

    def ejected(self) -> List[str]:
        """The disc is out, and in again."""
        return [self.cdb(Code.START_STOP_UNIT, 0, 0, 0, 2, 0), *self.several(self.query, 1, 4),
                *self.several(self.line, 0, 2), self.cdb(Code.START_STOP_UNIT, 0, 0, 0, 3, 0)]
