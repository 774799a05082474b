"""The steps that are lines of a script: which lines a step is, and what is told of their answers."""
from __future__ import annotations

from itertools import groupby
from typing import Callable, Dict, List, NamedTuple, Optional

from .lists import told_head

NO_ATTENTION = "cdb 000000000000"
"""TEST UNIT READY, which takes the attention and uses no block."""
CACHING_PAGE = "cdb 5a000800000000001400"
FAR = 4_294_967_295

Answers = List[List[str]]
"""What is answered to each line of a step, with the lines of the report behind it."""


class Call(NamedTuple):
    """Lines of a script, and how their answers are told."""
    lines: List[str]
    tell: Callable[[Answers], str]


def first(answers: Answers) -> str:
    return answers[0][0]


def each(answers: Answers) -> str:
    return ", ".join(answer[0] for answer in answers)


def last(answers: Answers) -> str:
    return answers[-1][0]


def data_of(answer: List[str]) -> Optional[bytes]:
    """What was replied, if the command was good."""
    return bytes.fromhex(answer[1].split(" ")[2]) if answer[0] == "good" and len(answer) > 1 else None


def number(data: bytes, at: int, length: int = 4) -> int:
    return int.from_bytes(data[at:at + length], "big")


def told_read(answers: Answers) -> str:
    """How a read went, and the byte that each sector has all over."""
    answer, *sectors = answers[0]
    words = [sector.split(" ") for sector in sectors]
    said = [what[3] if what[2] == "fill" else "mixed" for what in words]
    spans = ((byte, len(list(same))) for byte, same in groupby(said))
    return ", ".join([answer, *(byte if count == 1 else f"{byte} x {count}" for byte, count in spans)])


def told_capacity(answers: Answers) -> str:
    data = data_of(answers[0])
    return "no sectors" if data is None else f"{number(data, 0) + 1} sectors"


def told_structure(answers: Answers) -> str:
    """What the structure in use says, but for its entries."""
    data = data_of(answers[0])
    return "none in use" if data is None else told_head(data[4:])


def told_counts(answers: Answers) -> str:
    """How many sectors the disc has, or would have, and how many of its spares are free."""
    sectors, structure, spares = (data_of(answer) for answer in answers)
    if sectors is None:
        return first(answers)
    if structure is None or spares is None:
        return f"not formatted, {number(sectors, 4)} sectors after a format"
    primary, supplementary, area = (number(spares, at) for at in (4, 8, 12))
    return (f"{number(sectors, 4)} sectors, free {primary} of {number(structure, 12, 2)} "
            f"and {supplementary} of {area}")


def told_turn(answers: Answers) -> str:
    """Whether the write cache is on."""
    data = data_of(answers[1])
    return first(answers) if data is None else "on" if data[10] & 0x04 else "off"


def request(code: str, sector: str, count: str, payload: str = "", flags: str = "00") -> str:
    return f"cdb {code}{flags}{int(sector):08x}00{int(count):04x}00 {payload}".rstrip()


def format_unit(flags: str, parameters: str) -> Call:
    return Call([f"cdb 04{flags}00000000 hex {parameters}"], first)


FORMATS = {"full": ("11", "000000080000000000000000"), "full drop": ("19", "000000080000000000000000"),
           "rewrite": ("11", "00a000080000000000000000")}
NO_OPERANDS: Dict[str, Call] = {
    "power": Call(["power", NO_ATTENTION], first),
    "capacity": Call(["cdb 25000000000000000000"], told_capacity),
    "counts": Call(["cdb 23000000000000000c00", "cdb ad0000000000000808040000",
                    "cdb ad0000000000000a00100000"], told_counts),
    "structure": Call(["cdb ad0000000000000808040000"], told_structure),
    "synchronize": Call(["cdb 35000000000000000000"], first),
    "tick": Call(["tick"], first),
    "cache on": Call(["cdb 55100000000000001400 hex 0000000000000000080a04000000000000000000",
                      CACHING_PAGE], told_turn),
    "cache off": Call(["cdb 55100000000000001400 hex 0000000000000000080a00000000000000000000",
                       CACHING_PAGE], told_turn),
}


def call_of(words: List[str]) -> Optional[Call]:
    """The call that words are, if they are one."""
    name, *rest = words
    found = NO_OPERANDS.get(" ".join(words))
    if found is not None:
        return found
    calls: Dict[str, Callable[..., Call]] = {
        "format": lambda *kind: format_unit(*FORMATS[" ".join(kind)]),
        "expand": lambda sectors: format_unit("11", f"00000008{int(sectors):08x}04000000"),
        "read": lambda sector, count: Call([request("28", sector, count)], told_read),
        "write": lambda sector, count, byte: Call([request("2a", sector, count, f"fill {byte}")], first),
        "through": lambda sector, count, byte: Call(
            [request("2a", sector, count, f"fill {byte}", "08")], first),
        "verify": lambda sector, count: Call([request("2f", sector, count)], first),
        "fail": lambda *blocks: Call([f"fail {block}" for block in blocks], each),
        "wear": lambda block, uses, times="1": Call([f"wear {block} {uses}"] * int(times), last),
        "cut": lambda use, fate: Call([f"cut {use} {fate}"], first),
    }
    return calls[name](*rest) if name in calls else None
