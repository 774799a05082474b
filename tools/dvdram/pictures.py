"""What `ram-map` prints of a disc: a table, JSON, a map file of ddrescue, characters, a picture."""
from __future__ import annotations

import json
from itertools import groupby
from typing import Iterator

from .disc import Block, Disc, Role, State
from .lists import LayoutKind
from .protocol import SECTOR

COLUMNS = 64
CELL = 12

SIGNS = {
    Role.LEAD_IN: "-", Role.LEAD_OUT: "-", Role.STRUCTURE: "D", Role.SECONDARY: "S", Role.GUARD: "|",
    Role.UNFORMATTED: "?", Role.DATA: ".", Role.SPARE: "s", Role.SLIPPED: "x", Role.REPLACED: "R",
    Role.REPLACEMENT: "u", Role.RETIRED: "r",
}
COLOURS = {
    Role.LEAD_IN: "#bdbdbd", Role.LEAD_OUT: "#bdbdbd", Role.STRUCTURE: "#fdd870", Role.SECONDARY: "#fdb45c",
    Role.GUARD: "#dedede", Role.UNFORMATTED: "#f2f2f2", Role.DATA: "#9ecae1", Role.SPARE: "#74c476",
    Role.SLIPPED: "#9e9ac8", Role.REPLACED: "#c6dbef", Role.REPLACEMENT: "#31a354", Role.RETIRED: "#969696",
}
NAMES = {Role.LEAD_IN: "lead-in, lead-out", Role.STRUCTURE: "structure", Role.SECONDARY: "secondary list"}
LEGEND = [(role, State.GOOD, NAMES.get(role, role.value)) for role in Role if role is not Role.LEAD_OUT]
LEGEND += [(Role.DATA, State.DEAD, "dead"), (Role.DATA, State.TORN, "torn")]
IN_ROW = 7
PAINTS = {State.DEAD: "\x1b[41m", State.TORN: "\x1b[43m"}


def heading(disc: Disc) -> str:
    geometry = disc.geometry
    spares = "primary spares" if geometry.layout is LayoutKind.ONE_GROUP else "spares in each zone"
    return (f"disc: {geometry.zones} zones of scale {geometry.scale}, {geometry.spares} {spares}, "
            f"{geometry.total} blocks, {disc.sectors} sectors")


def lists_in_words(disc: Disc) -> Iterator[str]:
    if not disc.lists:
        yield "not formatted"
        return
    structure, secondary = disc.lists.structure, disc.lists.secondary
    slipped = len(structure.slipped)
    yield f"structure: version {structure.version}, counter {structure.counter}, {slipped} blocks slipped"
    yield (f"secondary list: counter {secondary.counter}, {len(secondary.entries)} entries, "
           f"{secondary.spares} supplementary spares")


def human(disc: Disc) -> str:
    """A table of the runs of blocks, in the manner of `qemu-img map`."""
    rows = [("Block", "Length", "Role", "State", "Sector", "With")]
    for start, length in disc.runs():
        block = disc.blocks[start]
        sector, partner = ("-" if n is None else str(n) for n in (block.sector, block.partner))
        rows.append((str(start), str(length), block.role.value, block.state.value, sector, partner))
    table = (f"{a:<8}{b:<8}{c:<21}{d:<7}{e:<9}{f}" for a, b, c, d, e, f in rows)
    return "\n".join((heading(disc), *lists_in_words(disc), *table))


def as_json(disc: Disc) -> str:
    """A list of the runs of blocks, one a line."""
    runs = []
    for start, length in disc.runs():
        block = disc.blocks[start]
        run: dict[str, object] = {"start": start, "length": length, "role": block.role.value,
                                  "state": block.state.value}
        more = {"sector": block.sector, "with": block.partner}
        run.update({name: value for name, value in more.items() if value is not None})
        runs.append(json.dumps(run))
    return "[" + ",\n ".join(runs) + "]"


def ddrescue(disc: Disc) -> str:
    """What of the host's bytes can be read, as a map file of ddrescue."""
    rows, at = ["# Mapfile. Made by ram-map", "# current_pos  current_status  current_pass",
                "0x00000000     +               1", "#      pos        size  status"], 0
    for is_lost, group in groupby(range(0, disc.sectors, 16), lambda sector: sector in disc.lost):
        size = 16 * SECTOR * sum(1 for _ in group)
        rows.append(f"0x{at:08X}  0x{size:08X}  {'-' if is_lost else '+'}")
        at += size
    return "\n".join(rows)


def term(disc: Disc) -> str:
    """A line of characters for lead-in, each zone and lead-out; dead blocks are red, torn ones yellow."""
    lines, at = [heading(disc), "  ".join(f"{sign} {role.value}" for role, sign in SIGNS.items())], 0
    for size in (8, *disc.geometry.sizes, 8):
        lines.append("".join(painted(block) for block in disc.blocks[at:at + size]))
        at += size
    return "\n".join(lines)


def painted(block: Block) -> str:
    sign = SIGNS[block.role]
    return f"{PAINTS[block.state]}{sign}\x1b[0m" if block.state in PAINTS else sign


def svg(disc: Disc) -> str:
    """A picture: a square for each block, the zones one below the other; the title of each square says what
    it is."""
    squares, at, y = [], 0, CELL
    for size in (8, *disc.geometry.sizes, 8):
        squares += [square(at + k, disc.blocks[at + k], CELL * (1 + k % COLUMNS), y + CELL * (k // COLUMNS))
                    for k in range(size)]
        at += size
        y += CELL * (-(-size // COLUMNS)) + CELL // 2
    width, height = CELL * (COLUMNS + 2), y + 2 * CELL * -(-len(LEGEND) // IN_ROW)
    head = (f'<svg xmlns="http://www.w3.org/2000/svg" viewBox="0 0 {width} {height}" width="{width}" '
            f'font-family="sans-serif" font-size="{CELL - 1}">')
    return "\n".join((head, f"<title>{heading(disc)}</title>",
                      f'<rect width="{width}" height="{height}" fill="#fff"/>', *squares, *keys(y), "</svg>"))


def square(number: int, block: Block, x: int, y: int) -> str:
    words = [f"block {number}: {block.role.value}, {block.state.value}"]
    words += [] if block.sector is None else [f"sector {block.sector}"]
    words += [] if block.partner is None else [f"with block {block.partner}"]
    return shape(x, y, COLOURS[block.role], block.state, ", ".join(words))


def shape(x: int, y: int, colour: str, state: State, title: str) -> str:
    """A square. A dead block is crossed out, a torn one struck through, and a blank one pale."""
    side = CELL - 1
    pale = ' fill-opacity="0.45"' if state is State.BLANK else ""
    torn = f"M{x} {y + side}l{side} -{side}"
    strokes = {State.TORN: torn, State.DEAD: f"{torn}M{x} {y}l{side} {side}"}
    mark = f'<path d="{strokes[state]}" stroke="#c00" stroke-width="2"/>' if state in strokes else ""
    square_of = f'<rect x="{x}" y="{y}" width="{side}" height="{side}" fill="{colour}"{pale}/>'
    return f"<g><title>{title}</title>{square_of}{mark}</g>"


def keys(y: int) -> Iterator[str]:
    """The legend: a square for each colour and each mark, with its name."""
    for at, (role, state, name) in enumerate(LEGEND):
        x, row = CELL + (at % IN_ROW) * 9 * CELL, y + (at // IN_ROW) * 2 * CELL
        yield shape(x, row, COLOURS[role], state, name)
        yield f'<text x="{x + CELL + 4}" y="{row + CELL - 2}">{name}</text>'


OUTPUTS = {"human": human, "json": as_json, "ddrescue": ddrescue, "term": term, "svg": svg}
