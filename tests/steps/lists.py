"""Lists by words: the text that words are, and the words for what blocks say."""
from __future__ import annotations

from typing import Callable, Dict, Iterator, List, Optional, Sequence, Tuple

from model.lists import MADE, MOST_IN_PART, Kind, Secondary, Slipped, Structure, entries_at, number
from model.medium import BLOCK, Geometry, LayoutKind

from .discs import Disc

Entry = Tuple[int, Optional[int]]
"""A block with its replacement, or a spare that is retired."""

KINDS: Dict[int, str] = {Kind.FIRST_FORMAT: "P", Kind.LATER_FORMAT: "G1", Kind.SECONDARY_LIST: "G2"}
SLIPPED_AT = 2_052


def numbers_of(word: str) -> List[int]:
    """The numbers of `N`, of `FIRST-LAST`, which may fall, or of `FIRST-LAST/STEP`."""
    ends, _, step = word.partition("/")
    first, _, last = ends.partition("-")
    if not last:
        return [int(first)]
    way = int(step or 1) if int(first) <= int(last) else -1
    return list(range(int(first), int(last) + (1 if way > 0 else -1), way))


def entries_of(words: Sequence[str]) -> Tuple[Entry, ...]:
    """The entries of words such as `13>12`, `13-14>12-11` and `10-12>none`."""
    found: List[Entry] = []
    for word in words:
        blocks, _, spares = word.partition(">")
        if spares == "none":
            found += [(block, None) for block in numbers_of(blocks)]
        else:
            found += zip(numbers_of(blocks), numbers_of(spares))
    return tuple(found)


def option(words: List[str], name: str) -> Optional[str]:
    """The word behind this name, where words begin with it. Both are taken away."""
    if words[:1] != [name]:
        return None
    _, value = words.pop(0), words.pop(0)
    return value


def structure_of(words: Sequence[str], geometry: Geometry) -> Structure:
    """The structure of a formatted disc: `COUNTER [version 2] [slips BLOCK ..]`."""
    counter, *rest = words
    of_zones = geometry.layout is LayoutKind.EACH_ZONE
    version = MADE if of_zones else int(option(rest, "version") or 1)
    slipped = [block for word in rest[1:] for block in numbers_of(word)]
    return Structure(version, True, int(counter), geometry.spares,
                     tuple(Slipped(Kind.FIRST_FORMAT, block) for block in slipped), geometry.layout)


def secondary_of(words: Sequence[str], geometry: Geometry) -> Secondary:
    """The secondary list `COUNTER under COUNTER`, `version 2`, `with N` supplementary spares, and entries."""
    counter, _, under, *rest = words
    of_zones = geometry.layout is LayoutKind.EACH_ZONE
    version = MADE if of_zones else int(option(rest, "version") or 1)
    return Secondary(version, int(counter), int(under), int(option(rest, "with") or 0), entries_of(rest))


def runs(entries: Sequence[Entry]) -> Iterator[str]:
    """Entries in words: blocks in a row that are retired, or whose replacements fall one by one, together."""
    at = 0
    while at < len(entries):
        block, spare = entries[at]
        more = 1
        while (at + more < len(entries)
               and entries[at + more] == (block + more, None if spare is None else spare - more)):
            more += 1
        blocks = str(block) if more == 1 else f"{block}-{block + more - 1}"
        spares = "none" if spare is None else str(spare) if more == 1 else f"{spare}-{spare - more + 1}"
        yield f"{blocks}>{spares}"
        at += more


def told_structure(block: bytes) -> str:
    """What a block says as a structure, whether it is one for its disc or not."""
    of_zones = block[2] == 3
    count = min(number(block, 2_050, 2), (BLOCK - SLIPPED_AT) // 4)
    entries = tuple(Slipped(block[at], number(block, at + 1, 3))
                    for at in range(SLIPPED_AT, SLIPPED_AT + 4 * count, 4))
    found = Structure(MADE if of_zones else block[2], block[3] == 0x80, number(block, 4, 4),
                      number(block, 8, 2), entries,
                      LayoutKind.EACH_ZONE if of_zones else LayoutKind.ONE_GROUP)
    if block[2] not in (1, 2, 3) or found.text != block:
        return "no structure"
    return ", ".join([told_head(block), *(f"{entry.block} {KINDS.get(entry.kind, 'no kind')}"
                                          for entry in entries)])


def told_head(block: bytes) -> str:
    """What the first bytes of a structure say."""
    words = [f"{number(block, 4, 4)} {'formatted' if block[3] == 0x80 else 'formatting'}"]
    words += [] if block[2] == 1 else ["of zones" if block[2] == 3 else f"version {block[2]}"]
    return ", ".join([*words, f"{number(block, 8, 2)} spares"])


def is_first_part(block: bytes) -> bool:
    return block[:4] == bytes([0, 2, 2, 1])


def told_secondary(first: bytes, second: Optional[bytes]) -> str:
    """What blocks say as a secondary list, whether it is one for its disc or not."""
    parts = [first] if second is None else [first, second]
    count = number(first, 14, 2)
    entries = entries_at(first, min(count, MOST_IN_PART))
    if second is not None:
        entries += entries_at(second, min(count - len(entries), MOST_IN_PART))
    found = Secondary(len(parts), number(first, 4, 4), number(first, 8, 4), number(first, 12, 2),
                      tuple(entries))
    if count > len(parts) * MOST_IN_PART or found.texts != parts:
        return "no list"
    words = [f"{found.counter} under {found.structure}"]
    words += ["version 2"] if second is not None else []
    words += [f"with {found.spares}"] if found.spares else []
    return " ".join([*words, *runs(found.entries)])


def structure_in(disc: Disc, area: int) -> str:
    """What the copy of the structure in an area says."""
    block = disc.read(disc.geometry.structure_blocks[area])
    return "unreadable" if block is None else told_structure(block)


def secondary_in(disc: Disc, area: int) -> str:
    """What the copy of the secondary list in an area says. The second block counts where the first one says
    that it is the first of two parts."""
    first_block, second_block = disc.geometry.secondary_blocks[area]
    first = disc.read(first_block)
    if first is None:
        return "unreadable"
    if not is_first_part(first):
        return told_secondary(first, None)
    second = disc.read(second_block)
    return "unreadable" if second is None else told_secondary(first, second)


def told_copies(disc: Disc, copy_in: Callable[[Disc, int], str]) -> str:
    """What the four copies of a list say, each thing with the areas one after another that say it."""
    said: List[Tuple[str, List[str]]] = []
    for area in range(4):
        text = copy_in(disc, area)
        if not said or said[-1][0] != text:
            said.append((text, []))
        said[-1][1].append(str(area + 1))
    return "; ".join(f"{text} in {' '.join(areas)}" for text, areas in said)
