"""The map of a disc, tried against the mounts of the program and against the model (tests/model), on images
that were made to mislead it."""
from __future__ import annotations

import json
import os
import random
import shutil
import sys
import unittest
from dataclasses import replace
from pathlib import Path
from typing import cast

from dvdram import NoDisc
from dvdram.disc import Disc, Role, State
from dvdram.lists import LayoutKind as Layout
from model import drive, hostile, unfit
from model.draw import draw_geometry
from model.lists import MOST_IN_PART, VERSIONS, Secondary, Slipped, Structure
from model.medium import BLOCK, HEADER, Geometry, LayoutKind, Medium
from support import PROGRAM, TOOLS, FolderTest, done, needs, run_script

GEOMETRY = Geometry(1, 1, 4)
ZONES = Geometry(2, 1, 4, LayoutKind.EACH_ZONE)
IMAGES = 200
MADE = """press 1 1 4
fail 20
power
cdb 000000000000
cdb 041100000000 hex 000000080000013000000800
cdb 041100000000 hex 000000080000011004000000
fail 15
fail 12
cdb 2a000000004000001000 fill aa
cdb 2a000000003000001000 fill aa
power
"""
MADE_OF_ZONES = """press 2 1 4
fail 20
power
cdb 000000000000
cdb 041100000000 hex 000000080000013000000800
fail 9
fail 40
fail 54
cdb 2a000000000000001000 fill aa
cdb 2a000000019000001000 fill bb
fail 12
power
"""

LOST_COPIES = MADE + "fail 0\nfail 5\nfail 35\n"
TABLE = """disc: 1 zones of scale 1, 4 primary spares, 41 blocks, 272 sectors
structure: version 2, counter 2, 1 blocks slipped
secondary list: counter 3, 1 entries, 2 supplementary spares
Block   Length  Role                 State  Sector   With
0       1       structure copy       dead   -        -
1       1       secondary list copy  good   -        -
2       1       structure copy       good   -        -
3       2       secondary list copy  good   -        -
5       1       secondary list copy  dead   -        -
6       2       lead-in              blank  -        -
8       1       guard                blank  -        -
9       2       spare                good   -        -
11      1       replacement          good   48       15
12      1       data                 dead   0        -
13      2       data                 good   16       -
15      1       replaced             dead   48       11
16      4       data                 good   64       -
20      1       slipped              dead   -        -
21      9       data                 good   128      -
30      2       spare                good   -        -
32      1       guard                blank  -        -
33      1       structure copy       good   -        -
34      1       secondary list copy  good   -        -
35      1       structure copy       dead   -        -
36      3       secondary list copy  good   -        -
39      2       lead-out             blank  -        -
"""
BARE = """disc: 1 zones of scale 1, 4 primary spares, 41 blocks, 0 sectors
not formatted
Block   Length  Role                 State  Sector   With
0       1       structure copy       blank  -        -
1       1       secondary list copy  blank  -        -
2       1       structure copy       blank  -        -
3       3       secondary list copy  blank  -        -
6       2       lead-in              blank  -        -
8       1       guard                blank  -        -
9       23      unformatted          blank  -        -
32      1       guard                blank  -        -
33      1       structure copy       blank  -        -
34      1       secondary list copy  blank  -        -
35      1       structure copy       blank  -        -
36      3       secondary list copy  blank  -        -
39      2       lead-out             blank  -        -
"""


class Image:
    """A disc whose blocks are all told apart by their bytes, and whose lists can be set."""

    def __init__(self, path: Path, geometry: Geometry) -> None:
        self.path, self.bytes, self.geometry = path, bytearray(path.read_bytes()), geometry

    def place(self, block: int) -> int:
        return HEADER + self.geometry.blocks + BLOCK * block

    def text(self, block: int) -> bytes:
        return bytes(self.bytes[self.place(block):self.place(block) + BLOCK])

    def put(self, block: int, text: bytes, state: int = 1) -> None:
        self.bytes[self.place(block):self.place(block) + BLOCK] = text
        self.bytes[HEADER + block] = state

    def save(self, path: Path) -> None:
        path.write_bytes(self.bytes)

    def take_version(self, version: int) -> None:
        """Gives the lists this version. What is in the second blocks belongs to no list of the first one."""
        for structure, blocks in zip(self.geometry.structure_blocks, self.geometry.secondary_blocks):
            whole = Structure.of(self.text(structure))
            parts = Secondary.of(*map(self.text, blocks))
            if whole and parts:
                self.put(structure, replace(whole, version=version).text)
                for block, text in zip(blocks, replace(parts, version=version).texts):
                    self.put(block, text)


def mislead(image: Image, chance: random.Random) -> None:
    """Changes some blocks of the copies of one list to the same text, and makes some of the others
    unreadable."""
    structures: list[tuple[int, ...]] = [(block,) for block in image.geometry.structure_blocks]
    secondaries: list[tuple[int, ...]] = [*image.geometry.secondary_blocks]
    copies = chance.choice((structures, secondaries))
    texts = changed([image.text(block) for block in chance.choice(copies)], image.geometry, chance)
    for block, text in (pair for blocks in copies for pair in zip(blocks, texts)):
        if chance.randrange(3):
            image.put(block, text)
        elif chance.randrange(2):
            image.bytes[HEADER + block] = chance.choice((0, 2, 3, 4, 255))


def changed(texts: list[bytes], geometry: Geometry, chance: random.Random) -> list[bytes]:
    """The texts of a list with one bit of one of them flipped, or those of a list that differs in one
    thing."""
    structure, secondary = Structure.of(texts[0]), Secondary.of(texts[0], texts[-1])
    if structure and chance.randrange(2):
        return [changed_structure(structure, geometry, chance).text]
    if secondary and chance.randrange(2):
        return changed_secondary(secondary, geometry, chance).texts
    which = chance.randrange(len(texts))
    flipped = bytearray(texts[which])
    place = chance.choice((*range(0, 64, 3), 2047, 2048, 2051, 2055, 2060, BLOCK - 1))
    flipped[place] ^= 1 << chance.randrange(8)
    return [*texts[:which], bytes(flipped), *texts[which + 1:]]


def changed_structure(old: Structure, geometry: Geometry, chance: random.Random) -> Structure:
    """A structure that differs in one thing, which may be one that no disc has."""
    slipped = tuple(Slipped(chance.randrange(3), block) for block in sorted(
        chance.sample(range(7, geometry.lead_out + 1), chance.choice((0, 1, 2, 3, 3, 9)))))
    return chance.choice((replace(old, counter=old.counter + 1), replace(old, version=3 - old.version),
                          replace(old, formatted=not old.formatted), replace(old, layout=old.layout.other),
                          replace(old, spares=chance.randrange(6)), replace(old, entries=slipped)))


def spares_near(block: int, geometry: Geometry) -> tuple[int, ...]:
    """Spares to which a block may move, and one or two to which it may not."""
    if geometry.layout is LayoutKind.ONE_GROUP:
        return 9, 10, 11, 30, 31
    return (29, 30, 31, 54) if block < 33 else (31, 54, 55, 56, 57)


def changed_secondary(old: Secondary, geometry: Geometry, chance: random.Random) -> Secondary:
    """A secondary list that differs in one thing, which may be one that no disc has."""
    end = geometry.lead_out
    pairs = tuple((block, chance.choice((None, chance.randrange(8, end))))
                  for block in sorted(chance.sample(range(8, end), chance.randrange(4))))
    spares = tuple((block, other if other is None or chance.randrange(2)
                    else chance.choice(spares_near(block, geometry))) for block, other in old.entries)
    moved = tuple(zip(sorted(chance.sample(range(12, 30), 3)), chance.sample(spares_near(12, geometry), 3)))
    if geometry.layout is LayoutKind.EACH_ZONE:
        moved = (*moved[:2], (chance.randrange(34, 55), chance.choice(spares_near(34, geometry))))
    return chance.choice((replace(old, counter=old.counter + chance.randrange(1, 3)),
                          replace(old, entries=pairs), replace(old, version=3 - old.version),
                          replace(old, version=3 - old.version, entries=moved),
                          replace(old, entries=moved), replace(old, counter=old.counter + 1, entries=moved),
                          replace(old, entries=spares), replace(old, spares=chance.randrange(25)),
                          replace(old, structure=old.structure + chance.choice((-1, 1)))))


def by_program(path: Path, geometry: Geometry) -> tuple[int, list[int | None]]:
    """How many sectors the program finds, and the block in which it finds each logical block, where it can be
    read."""
    reads = "".join(f"cdb 28{0:02x}{16 * block:08x}00000100\n" for block in range(len(geometry.data_blocks)))
    script = f"power\ncdb 000000000000\n{reads}"
    first, _, *rows = run_script(path, script, geometry.layout.value)
    sectors = int(first.split()[2]) if "ready" in first else 0
    answers, homes = iter(rows), cast("list[int | None]", [])
    for row in answers:
        if len(homes) < sectors // 16:
            homes.append(int(next(answers).split()[3], 16) if row.endswith("good") else None)
    return sectors, homes


def mapped(path: Path, layout: LayoutKind | None = None) -> Disc:
    return Disc([str(PROGRAM)], str(path), Layout(layout.value) if layout else None)


def homes_of(disc: Disc) -> list[int]:
    """The block in which each logical block lies, by the map."""
    homes = {block.sector: number for number, block in enumerate(disc.blocks)
             if block.sector is not None and block.role is not Role.REPLACED}
    return [homes[sector] for sector in range(0, disc.sectors, 16)]


def told_by_map(path: Path, layout: LayoutKind | None) -> list[object]:
    """What the map says of the lists in an image, and of the blocks by them."""
    try:
        disc = mapped(path, layout)
    except NoDisc:
        return ["no disc"]
    if not disc.lists:
        return ["not formatted"]
    structure, secondary = disc.lists.structure, disc.lists.secondary
    spares = [number for number, block in enumerate(disc.blocks) if block.role is Role.SPARE]
    return [structure.version, structure.counter, structure.slipped, secondary.counter, secondary.spares,
            [*secondary.entries], homes_of(disc), spares, sorted(disc.lost)]


def told_by_model(image: bytes, layout: LayoutKind) -> list[object]:
    """The same by the lists that a mount of the model chooses."""
    geometry = Geometry.of(image, layout)
    if not geometry:
        return ["no disc"]
    mounted = drive.Drive(Medium(bytearray(image), geometry))
    mounted.power()
    lists = mounted.lists
    if not lists:
        return ["not formatted"]
    homes = [lists.home(logical) for logical in range(len(lists.logical))]
    lost = [16 * at for at, home in enumerate(homes) if mounted.medium.state(home) != 1]
    return [lists.structure.version, lists.structure.counter, lists.structure.blocks,
            lists.secondary.counter, lists.secondary.spares, [*lists.secondary.entries], homes,
            sorted(lists.free_spares), lost]


def shown(form: str, *options: str) -> str:
    return done(TOOLS / "ram-map", "disc.img", f"--output={form}", *options).stdout


class Maps(FolderTest):
    """The map beside the program."""

    def test_hostile_images(self) -> None:
        """The map names the same sectors and homes as the program finds, whatever the lists are."""
        self.look_at_hostile_images(GEOMETRY, MADE, discs=12)

    def test_hostile_images_of_zones(self) -> None:
        """So it does of discs with a group of spares in each zone."""
        self.look_at_hostile_images(ZONES, MADE_OF_ZONES, discs=8)

    def look_at_hostile_images(self, geometry: Geometry, script: str, discs: int) -> None:
        """Compares the maps of images that are made of this disc, which give at least so many others."""
        made, tried = Path("made.img"), Path("tried.img")
        run_script(made, script, geometry.layout.value)
        plain = Image(made, geometry)
        for block in geometry.data_blocks:
            plain.put(block, bytes((block,)) * BLOCK, plain.bytes[HEADER + block])
        plain.save(made)
        seen: set[tuple[int, tuple[int | None, ...]]] = set()
        for number in range(IMAGES):
            chance, image = random.Random(number), Image(made, geometry)
            image.take_version(1 if number % 3 == 2 and geometry is GEOMETRY else 2)
            for _ in range(1 + chance.randrange(3)):
                mislead(image, chance)
            image.save(tried)
            disc = mapped(tried, geometry.layout)
            homes = homes_of(disc)
            lost = [16 * at for at, home in enumerate(homes) if disc.states[home] is not State.GOOD]
            found = by_program(tried, geometry)
            seen.add((found[0], tuple(found[1])))
            with self.subTest("a hostile image", number=number):
                self.assertEqual(sorted(disc.lost), lost)
                self.assertEqual((disc.sectors, [None if 16 * at in disc.lost else home
                                                 for at, home in enumerate(homes)]), found)
        self.assertGreaterEqual(len(seen), discs, "how many discs the hostile images give")

    def test_lists_of_the_model(self) -> None:
        """The map has the lists that a mount of the model chooses, whatever an image has, by either word and
        by none; and so it names the blocks."""
        seen, kinds = Path("seen.img"), [*LayoutKind]
        told: set[tuple[str, str]] = set()
        for number in range(IMAGES):
            chance = random.Random(number)
            geometry = draw_geometry(chance, chance.choice(kinds))
            image = unfit.Hand(chance, geometry).image()
            one_group = Geometry.of(image, LayoutKind.ONE_GROUP)
            if number % 2 and one_group:
                image = hostile.Hand(chance, image, one_group).change()
            seen.write_bytes(image)
            due = {layout: told_by_model(image, layout) for layout in kinds}
            with self.subTest("an image of another hand", number=number):
                for layout in kinds:
                    self.assertEqual(told_by_map(seen, layout), due[layout], layout.value)
                found = due[LayoutKind.ONE_GROUP]
                if found == ["not formatted"] and len(due[LayoutKind.EACH_ZONE]) > 1:
                    found = due[LayoutKind.EACH_ZONE]
                self.assertEqual(told_by_map(seen, None), found, "the layout of the lists that are found")
            told.add((str(due[kinds[0]][0]), str(due[kinds[1]][0])))
        self.assertGreaterEqual(told, {("no disc", "no disc"), ("2", "no disc"), ("1", "not formatted"),
                                       ("2", "not formatted"), ("not formatted", "not formatted"),
                                       ("not formatted", "2"), ("2", "2")}, "what the images have")

    def test_outputs(self) -> None:
        """Each output says what became of the blocks of a disc."""
        run_script("disc.img", MADE)
        runs = json.loads(shown("json"))
        self.assertEqual(sum(run["length"] for run in runs), GEOMETRY.blocks, "the runs cover the disc")
        named = {run["start"]: (run["role"], run["state"], run.get("sector"), run.get("with"))
                 for run in runs}
        for block, due in {
                15: ("replaced", "dead", 48, 11), 11: ("replacement", "good", 48, 15),
                20: ("slipped", "dead", None, None), 9: ("spare", "good", None, None),
                12: ("data", "dead", 0, None)}.items():
            self.assertEqual(named.get(block), due, f"block {block}")
        self.assertEqual(shown("ddrescue").splitlines()[4:],
                         ["0x00000000  0x00008000  -", "0x00008000  0x00080000  +"])
        self.assertEqual(shown("svg").count("<title>block "), GEOMETRY.blocks, "squares of the picture")
        self.assertEqual(shown("term").splitlines()[2][:8], "DSDSSS--")
        self.assertEqual(shown("human", "--layout=groups").splitlines()[1], "not formatted")
        Path("no.img").write_text("no disc", encoding="ascii")
        self.assertEqual(done(TOOLS / "ram-map", "no.img").stdout, "ram-map: no.img holds no disc\n")

    def test_layouts(self) -> None:
        """The map finds by the lists that a disc has a group of spares in each zone. Where there are none, it
        takes what it is told."""
        run_script("disc.img", MADE_OF_ZONES, "groups")
        runs = json.loads(shown("json"))
        named = {run["start"]: (run["role"], run.get("sector"), run.get("with")) for run in runs}
        for block, due in {9: ("replaced", 0, 29), 29: ("replacement", 0, 9), 20: ("slipped", None, None),
                           40: ("replaced", 400, 55), 54: ("retired", None, None), 56: ("spare", None, None),
                           34: ("data", 304, None)}.items():
            self.assertEqual(named.get(block), due, f"block {block}")
        heads = (("", "spares in each zone", "624"), ("--layout=groups", "spares in each zone", "624"),
                 ("--layout=run", "primary spares", "0"))
        for option, spares, sectors in heads:
            self.assertEqual(shown("human", *option.split()).splitlines()[0],
                             f"disc: 2 zones of scale 1, 4 {spares}, 67 blocks, {sectors} sectors")
        run_script("disc.img", "press 2 1 4\n", "groups")
        self.assertIn("4 primary spares, ", shown("human"))
        self.assertIn("4 spares in each zone, ", shown("human", "--layout=groups"))
        run_script("disc.img", "press 1 1 23\npress 1 1 22\n")
        self.assertIn("22 spares in each zone, ", shown("human", "--layout=groups"))
        run_script("disc.img", "press 2 1 40\n")
        self.assertEqual(shown("human", "--layout=groups"), "ram-map: disc.img holds no disc\n")

    def test_tables(self) -> None:
        """The table of a disc with dead copies of its lists, and of one that is not formatted."""
        for script, table in (LOST_COPIES, TABLE), ("press 1 1 4\n", BARE):
            run_script("disc.img", script)
            self.assertEqual(shown("human"), table)
            self.assertEqual(shown("human", "--layout=run"), table)
            head, found, *_ = shown("human", "--layout=groups").splitlines()
            self.assertEqual((head, found), ("disc: 1 zones of scale 1, 4 spares in each zone, 41 blocks, "
                                             "0 sectors", "not formatted"))

    def test_without_a_program(self) -> None:
        """The map says that there is no program, that it is not built, or that it told nothing."""
        run_script("disc.img", "press 1 1 4\n")
        tools, built = Path.cwd().resolve() / "tools", Path("crates/ram_drive/out/ram_drive")
        shutil.copytree(TOOLS, tools, ignore=shutil.ignore_patterns("__pycache__"))
        self.no_map(tools, "the program is not there: ram_drive is neither installed beside this tool nor on "
                    "the path")
        drive_of_checkout = tools.parent / "drive"
        drive_of_checkout.touch()
        self.no_map(tools, f"the program is not built: {drive_of_checkout} --version builds it")
        built.parent.mkdir(parents=True)
        for text, told in (("exit 7", "the program ended with status 7"),
                           ("echo audit", "the program told no whole certificate")):
            built.write_text(f"#!/bin/sh\n{text}\n", encoding="ascii")
            built.chmod(0o755)
            self.no_map(tools, told)

    def no_map(self, tools: Path, told: str) -> None:
        """These tools make no map, and tell this."""
        ended = done(sys.executable, tools / "ram-map", "disc.img", env={**os.environ, "PATH": "nowhere"})
        self.assertEqual((ended.stdout, ended.returncode), (f"ram-map: {told}\n", 9))

    @needs("ddrescuelog")
    def test_map_file(self) -> None:
        """ddrescuelog reads the map file, and finds the bad blocks in it."""
        run_script("disc.img", MADE)
        Path("disc.map").write_text(shown("ddrescue"), encoding="utf-8")
        self.assertEqual(done("ddrescuelog", "-b2048", "-l-", "disc.map").stdout.split(),
                         [str(k) for k in range(16)])


class Texts(unittest.TestCase):
    """The texts of the secondary list, as the model lays and reads them."""

    def test_parts(self) -> None:
        """A list is the text of its blocks, with its entries in the parts where they belong, and no other
        blocks are."""
        for version, count in ((1, 0), (1, MOST_IN_PART), (2, 0), (2, MOST_IN_PART), (2, MOST_IN_PART + 1),
                               (2, 2 * MOST_IN_PART)):
            with self.subTest(version=version, retired=count):
                value = Secondary(version, 7, 2, 0, tuple((block, None) for block in range(count)))
                self.assertEqual([sum(text[32::8]) for text in value.texts],
                                 [min(count, MOST_IN_PART), max(count - MOST_IN_PART, 0)][:version],
                                 "entries in each part")
                self.assertEqual(Secondary.of(value.texts[0], value.texts[1] if version > 1 else None), value)
                self.other_blocks(value, replace(value, counter=8))

    def other_blocks(self, value: Secondary, other: Secondary) -> None:
        """Blocks that are not those of a list, but some of them, or some of another one."""
        parts, others = value.texts, other.texts
        pairs: list[tuple[bytes | None, bytes | None]] = [
            (None, parts[-1]), (parts[0], None), (parts[0], others[-1]), (others[0], parts[-1]),
            (parts[-1], parts[0])]
        for first, second in pairs:
            one = value if first == parts[0] else other
            self.assertEqual(Secondary.of(first, second), one if value.version == 1 and first else None)

    def test_limits(self) -> None:
        """A list has no more entries and no more spares than there is room for."""
        for version in VERSIONS:
            full = tuple((block, None) for block in range(MOST_IN_PART * version + 1))
            self.assertFalse(Secondary(version, 7, 2, 0, full).is_text, "a list with too many entries")
            self.assertFalse(Secondary(version, 7, 2, len(full)).is_text, "a list with too many spares")
