"""Lines of scripts that are drawn at random: those that fail blocks and cut the power, and commands of a
host."""
from __future__ import annotations

from random import Random
from typing import Callable, Dict, List, Tuple, TypeVar

from .commands import CODES, Code
from .lists import SECTORS_IN_BLOCK
from .medium import SECTOR, Fate, Geometry, LayoutKind

FATES = [fate.value for fate in Fate]
Drawn = TypeVar("Drawn")


class Lines:
    """Draws lines for a disc of a geometry, most of them as if none of its blocks were slipped over."""

    def __init__(self, random: Random, geometry: Geometry) -> None:
        self.random = random
        self.geometry = geometry
        self.sectors = SECTORS_IN_BLOCK * len(geometry.logical)

    def one_of(self, weights: Dict[Drawn, float]) -> Drawn:
        return self.random.choices(list(weights), list(weights.values()))[0]

    def several(self, draw: Callable[[], str], least: int, most: int) -> List[str]:
        return [draw() for _ in range(self.random.randint(least, most))]

    def transfer(self) -> str:
        """Something that uses the medium."""
        draws: Dict[Callable[[], str], float] = {
            self.write: 8, self.read: 8, self.verify: 1, self.full_format: 1, self.rewriting_format: 1,
            self.expansion: 1, self.on: 2, self.tick: 2, self.scrub: 2,
            self.synchronization: 1,
        }
        return self.one_of(draws)()

    def line(self) -> str:
        draws: Dict[Callable[[], str], float] = {
            self.transfer: 20, self.fail: 2, self.wear: 2, self.cut: 0.5, self.query: 10, self.ejection: 2,
            self.mode_select: 1, self.cache: 1, self.any_command: 1, self.spoiled_command: 1.5,
            self.no_answer: 0.5, self.press: 0.15, self.no_disc: 0.15,
        }
        return self.one_of(draws)()

    # Lines that are no commands.

    def press(self) -> str:
        return f"press {self.geometry.zones} {self.geometry.scale} {self.geometry.spares}"

    def no_disc(self) -> str:
        unfit = ["press 0 1 1", "press 36 1 1", "press 1 101 1", "press 1 1 23", "press 1 1 0",
                 "press 35 100 4093", "press 4294967295 1 1"]
        if self.geometry.layout is LayoutKind.EACH_ZONE:
            unfit += ["press 2 1 23", "press 3 1 24", "press 35 100 117", "press 2 100 2047"]
        return self.random.choice(unfit)

    def on(self) -> str:
        return "power" if self.random.random() < 0.1 else "power\ncdb 000000000000"

    def tick(self) -> str:
        return "tick"

    def scrub(self) -> str:
        return self.random.choice(["scrub", "scrub all"])

    def block(self) -> int:
        """A block of the medium: of a list, one of the first or last data blocks, or any."""
        geometry, data = self.geometry, self.geometry.data_blocks
        group = self.random.choice(geometry.groups)
        return self.random.choices(
            [self.random.choice(geometry.structure_blocks),
             self.random.choice(self.random.choice(geometry.secondary_blocks)),
             self.random.choice([*group, *geometry.logical[:3]]), self.random.choice(data[-4:]),
             self.random.choice(data), self.random.randrange(geometry.blocks + 2)], [2, 2, 8, 2, 2, 1])[0]

    def fail(self) -> str:
        return f"fail {self.block()}"

    def wear(self) -> str:
        return f"wear {self.block()} {self.random.choice([1, 1, 2, 2, 3, 4, self.random.randint(1, 40)])}"

    def cut(self) -> str:
        uses = self.random.choice([1, 2, 3, self.random.randint(1, 12), self.random.randint(1, 80)])
        return f"cut {uses} {self.random.choice(FATES)}"

    def no_answer(self) -> str:
        return self.random.choice(["", "   ", "# cut 1 old", "#", "#".ljust(70_000)])

    def no_form(self) -> str:
        long = self.random.choice(["#".ljust(70_001), "#".rjust(70_001), "#".ljust(70_002)])
        return self.random.choice([" # a", "Power", "tick 1", "Tick", "scrub 1", "scrub all all", "press 1 1",
                                   "wear 13 0", "cut 0 old", "fail 4294967296", "cut 1 New", "cdb 0",
                                   "cdb " + "00" * 17, "cdb 00 fill", "cdb 00 hex 0", "cdb\t00", "power\t",
                                   "\tpower", long, long])

    # Commands.

    def cdb(self, code: Code, *rest: int, data: str = "") -> str:
        digits = "".join(f"{byte:02x}" for byte in (code.value, *rest))
        digits = digits.upper() if self.random.random() < 0.1 else digits
        return f"cdb {digits} {data}".rstrip()

    def span(self) -> Tuple[int, int]:
        """The first sector of a request, and how many: near the first blocks, or the end of the disc, or
        outside of it."""
        count = self.random.choice([0, 1, 1, 2, 5, 15, 16, 16, 16, 17, 32, self.random.randint(1, 80)])
        first = self.random.choice([0, 0, 16, 16, 32, 48, 8, 15, 31, self.random.randrange(64),
                                    self.border() - self.random.choice([0, 1, 16, 20]),
                                    self.sectors - count, self.random.randrange(self.sectors + 1)])
        if self.random.random() < 0.02:
            return self.random.choice([(0, 1_025), (self.sectors, 0), (self.sectors + 1, 0),
                                       (self.sectors, 1), (2 ** 32 - 1, 1), (2 ** 32 - 1, 0), (0, 65_535)])
        return max(first, 0), count

    def border(self) -> int:
        """The first sector behind a zone that has spares of its own, or that of the disc."""
        group = self.random.choice(self.geometry.groups)
        return SECTORS_IN_BLOCK * sum(block < group[0] for block in self.geometry.logical)

    def request(self, code: Code, first: int, count: int, data: str = "") -> str:
        long = code in (Code.READ_12, Code.WRITE_12)
        counted = count.to_bytes(4, "big") if long else b"\0" + count.to_bytes(2, "big")
        numbers = first.to_bytes(4, "big") + counted
        return self.cdb(code, self.random.choice([0, 0, 8]), *numbers, *bytes(2 if long else 1), data=data)

    def read(self) -> str:
        return self.request(self.random.choice([Code.READ_10, Code.READ_10, Code.READ_12]), *self.span())

    def verify(self) -> str:
        return self.request(Code.VERIFY, *self.span())

    def write(self) -> str:
        first, count = self.span()
        code = self.random.choice([Code.WRITE_10, Code.WRITE_10, Code.WRITE_12, Code.WRITE_AND_VERIFY])
        data = f"{self.random.choice(['fill', 'count'])} {self.random.randrange(256):02x}"
        if 0 < count <= 2 and self.random.random() < 0.5:
            data = f"hex {self.random.getrandbits(8 * SECTOR * count):0{2 * SECTOR * count}x}"
        return self.request(code, first, count, data)

    def synchronization(self) -> str:
        return self.cdb(Code.SYNCHRONIZE_CACHE, *bytes(9))

    def cache(self) -> str:
        """The write cache is turned on, or off."""
        byte = self.random.choice([0x04, 0x04, 0x04, 0x00])
        return self.cdb(Code.MODE_SELECT, 0x10, *bytes(5), 0, 20, 0,
                        data=f"hex {'00' * 8}080a{byte:02x}{'00' * 9}")

    def full_format(self) -> str:
        forgets = self.random.choice([0x11, 0x19])
        return self.cdb(Code.FORMAT_UNIT, forgets, 0, 0, 0, 0, data="hex 000000080000013000000800")

    def rewriting_format(self) -> str:
        return self.cdb(Code.FORMAT_UNIT, 0x11, 0, 0, 0, 0, data="hex 00a000080000013000000800")

    def expansion(self) -> str:
        less = 16 * self.random.randrange(40)
        capacity = self.random.choice([self.sectors - 16, self.sectors - 32, self.sectors - less,
                                       self.sectors, self.sectors + 16, 16, 0, 17])
        return self.cdb(Code.FORMAT_UNIT, 0x11, 0, 0, 0, 0,
                        data=f"hex 00000008{max(capacity, 0):08x}04000000")

    def query(self) -> str:
        """A command that only replies, with an allocation length that is often too small for the reply."""
        long, short = self.random.choice([0, 1, 8, 255, 4_096]), self.random.choice([0, 3, 18, 255])
        length = [long >> 8, long & 0xff]
        which = self.random.choice([0x08, 0x0a, 0x0a, 0x00])
        return self.random.choice([
            self.cdb(Code.TEST_UNIT_READY, *bytes(5)), self.cdb(Code.REQUEST_SENSE, 0, 0, 0, short, 0),
            self.cdb(Code.REQUEST_SENSE, 0, 0, 0, 18, 0),
            self.cdb(Code.READ_FORMAT_CAPACITIES, *bytes(6), *length, 0),
            self.cdb(Code.READ_CAPACITY, *bytes(9)), self.cdb(Code.SYNCHRONIZE_CACHE, *bytes(9)),
            self.mode_sense(length), self.mode_sense(length), self.of_the_drive(length),
            self.of_the_drive(length),
            self.cdb(Code.READ_DVD_STRUCTURE, 0, 0, 0, 0, 0, 0, which, *length, 0, 0),
        ])

    def mode_sense(self, length: List[int]) -> str:
        """Mode pages are asked for, behind either header."""
        page = self.random.choice([0x01, 0x08, 0x2a, 0x3f, 0x41, 0x48, 0x6a, 0x7f, 0x81, 0xaa, 0xbf, 0xc1,
                                   0x05, 0xea, 0xff])
        short = self.random.choice([4, 36, 60, 255])
        return self.random.choice([self.cdb(Code.MODE_SENSE, 0, page, 0, 0, 0, 0, *length, 0),
                                   self.cdb(Code.MODE_SENSE_6, 0, page, 0, short, 0)])

    def of_the_drive(self, length: List[int]) -> str:
        """What a host asks before it uses a drive: what it is and can do, and what disc is in it."""
        kind = self.random.choice([0, 0, 1, 1, 2, 2, 2, 3])
        first = self.random.choice([0, 0, 1, 3, 0x10, 0x1f, 0x20, 0x20, 0x23, 0x24, 0x28, 0xff])
        vital, page = self.one_of({(0, 0): 3, (1, 0): 3, (1, 0x80): 1, (0, 1): 1})
        polled, events = self.random.choice([1, 1, 1, 0]), self.random.choice([0x10, 0x10, 0xff, 0x02, 0])
        return self.random.choice([
            self.cdb(Code.GET_CONFIGURATION, kind, 0, first, 0, 0, 0, *length, 0),
            self.cdb(Code.GET_CONFIGURATION, kind, 0, first, 0, 0, 0, 0, 84, 0),
            self.cdb(Code.GET_CONFIGURATION, kind, 1, first, 0, 0, 0, *length, 0),
            self.cdb(Code.INQUIRY, vital, page, *length, 0),
            self.cdb(Code.GET_EVENT_STATUS, polled, 0, 0, events, 0, 0, *length, 0),
            self.cdb(Code.READ_DISC_INFORMATION, self.random.choice([0, 0, 0, 1, 8]), *bytes(5), *length,
                     0),
            self.cdb(Code.SET_STREAMING, *bytes(11), data=self.random.choice(["fill 00", "count 01", ""])),
        ])

    def request_sense(self) -> str:
        return self.cdb(Code.REQUEST_SENSE, 0, 0, 0, self.random.choice([0, 18, 18]), 0)

    def free_spares(self) -> str:
        return self.cdb(Code.READ_DVD_STRUCTURE, 0, 0, 0, 0, 0, 0, 0x0a, 0, 16, 0, 0)

    def ejection(self) -> str:
        """The disc is ejected or loaded, maybe after its removal was prevented or allowed."""
        prevention = self.cdb(Code.PREVENT_ALLOW, 0, 0, 0, self.random.choice([0, 1]), 0)
        bits = self.random.choice([0, 1, 2, 2, 3, 3, 0x12, 0x13, 0xf2])
        ejection = self.cdb(Code.START_STOP_UNIT, 0, 0, 0, bits, 0)
        lines = [prevention] if self.random.random() < 0.5 else []
        return "\n".join([*lines, ejection, *self.several(self.query, 0, 2)])

    def mode_select(self) -> str:
        choices: List[List[int]] = [[], [0x01], [0x08], [0x01, 0x08], [0x08, 0x81], [0x88, 0x88], [0x09],
                                    [0x2a], [0x01, 0x08, 0x01]]
        pages = self.random.choice(choices)
        in_force = {0x01: b"\x0a\x80", 0x08: bytes([0x0a, self.random.choice([0, 4])])}
        data = bytearray(8) + b"".join(bytes([page]) + in_force.get(page & 0x7f, b"").ljust(11, b"\0")
                                       for page in pages)
        if self.random.random() < 0.3:
            data[self.random.randrange(len(data))] ^= 1 << self.random.randrange(8)
        said = self.one_of({len(data): 5, self.random.choice([0, 8, 20, 32, 21, 65_535]): 1})
        bits = self.one_of({0x10: 8, 0x11: 1, 0x00: 1})
        words = self.one_of({f"hex {data.hex()}": 8, "fill 00": 1, "": 1})
        return self.cdb(Code.MODE_SELECT, bits, *bytes(5), *said.to_bytes(2, "big"), 0, data=words)

    def any_command(self) -> str:
        """A command block of random bytes, mostly of a code that the drive has."""
        code = self.random.choice([*CODES, self.random.randrange(256)])
        length = self.random.choice([0, 5, 9, 11, 15])
        rest = [self.random.choice([0, 0, 0, 1, 8, self.random.randrange(256)]) for _ in range(length)]
        data = self.random.choice(["", "", f"fill {self.random.randrange(256):02x}", "count fe", "hex 00",
                                   "hex " + "00" * 12])
        return f"cdb {bytes([code, *rest]).hex()} {data}".rstrip()

    def unknown(self) -> str:
        """A command of a code that the drive does not have."""
        return f"cdb {self.random.choice([0x01, 0x15, 0x43, 0x52, 0x5b, 0xa9, 0xff]):02x}0000000000"

    def spoiled_command(self) -> str:
        """A command in which a digit is another, or some are missing, or more follow."""
        words = self.random.choice([self.read, self.write, self.full_format, self.expansion,
                                    self.query])().split(" ")
        at = self.random.choice([1, len(words) - 1])
        word, place = words[at], self.random.randrange(len(words[at]))
        if at == 1 and self.random.random() < 0.3:
            is_shorter = self.random.random() < 0.5
            words[at] = word[:2 * self.random.randrange(1, 7)] if is_shorter else (word + "00ff")[:32]
        elif all(digit in "0123456789abcdefABCDEF" for digit in word):
            words[at] = word[:place] + self.random.choice("01248f") + word[place + 1:]
        return " ".join(words)
