"""The certificate of a disc: what `audit` of the program prints of an image, read back. docs/FORMATS.md has
its lines."""
from __future__ import annotations

import os
import tempfile
from collections import defaultdict
from dataclasses import dataclass, replace

from . import Ended, NoDisc
from .lists import Geometry, LayoutKind, Lists, Secondary, Structure
from .program import audit

HEADER = 16  # bytes of an image, before the state bytes of its blocks
EDGE = 8 * 32_768  # bytes of the blocks of the lead-in, and of those of the lead-out
VERSIONS = {"one": 1, "two": 2}


@dataclass(frozen=True)
class Certificate:
    """The geometry of a disc, and the lists that a mount chooses, which are none where it is not formatted.
    `lost` are the first sectors of its logical blocks that cannot be read, and `exact` the blocks that have
    just their part of these lists."""

    geometry: Geometry
    lists: Lists | None = None
    lost: frozenset[int] = frozenset()
    exact: frozenset[int] = frozenset()


def read_certificate(text: str) -> Certificate:
    """The certificate with this text. Raises `Ended` where that is not a whole one."""
    lines = [line.split(" ") for line in text.splitlines()]
    if not lines or lines[0] != ["audit"] or lines[-1] != ["end", str(len(lines) - 1)]:
        raise Ended("the program told no whole certificate")
    told: defaultdict[str, list[list[str]]] = defaultdict(list)
    for word, *rest in lines:
        told[word].append(rest)
    zones, scale, spares, *groups = told["geometry"][0]
    geometry = Geometry(int(zones), int(scale), int(spares),
                        LayoutKind.EACH_ZONE if groups else LayoutKind.ONE_GROUP)
    if not told["dds"]:
        return Certificate(geometry)
    version, counter, _ = told["dds"][0]
    structure = Structure(VERSIONS[version], int(counter), [int(block) for block, _ in told["pdl"]])
    counter, _, supplementary = told["sdl"][0]
    entries = [(int(block), int(other[0]) if other else None)
               for word, block, *other in lines[1:-1] if word in ("pair", "retired")]
    lists = Lists(geometry, structure, Secondary(int(counter), int(supplementary), entries))
    return Certificate(geometry, lists, frozenset(int(lost[0]) for lost in told["lost"]),
                       frozenset(int(block) for block, state in told["copy"] if state == "exact"))


def certificate_of(program: list[str], image: str, layout: LayoutKind | None = None) -> Certificate:
    """The certificate of an image, with the lists of this layout. Where none is named, it is that of the
    lists that are found, and one group of spares where there are none. Raises `NoDisc`, `Ended` and
    `OSError`."""
    told = read_certificate(audit(program, image))
    if layout is LayoutKind.EACH_ZONE:
        if not told.geometry.fits_zones():
            raise NoDisc(f"{image} holds no disc")
        if is_of_one_group(told):
            told = without_one_group(program, image, told.geometry)
    if layout is None or layout is told.geometry.layout:
        return told
    return Certificate(replace(told.geometry, layout=layout))


def without_one_group(program: list[str], image: str, geometry: Geometry) -> Certificate:
    """The certificate of an image without its structures of one group. The program looks for lists of one
    group first, so it is shown a copy of all that it reads, in which each structure of such lists that it
    tells is made blank."""
    with open(image, "rb") as file, tempfile.NamedTemporaryFile() as copy:
        copy.write(file.read(HEADER + geometry.total + EDGE))
        copy.seek(file.seek(-EDGE, os.SEEK_END))
        copy.write(file.read())
        copy.flush()
        while is_of_one_group(told := read_certificate(audit(program, copy.name))):
            for block in told.exact.intersection(geometry.structure_blocks):
                copy.seek(HEADER + block)
                copy.write(b"\0")
            copy.flush()
    return told


def is_of_one_group(told: Certificate) -> bool:
    return told.lists is not None and told.geometry.layout is LayoutKind.ONE_GROUP
