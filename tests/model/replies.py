"""The bytes that a drive replies, before they are cut to the allocation length."""
from __future__ import annotations

from typing import List, Tuple

from .medium import SECTOR

INQUIRY = bytes.fromhex("058000021f000000") + b"DVDRAM".ljust(8) + b"SECTOR DRIVE".ljust(16) + b"1.00"
VITAL_PAGES = bytes.fromhex("0500000100")
IN_FORCE = {0x01: bytes.fromhex("010a80000000000000000000"), 0x08: bytes.fromhex("080a00000000000000000000")}
"""The pages that a list may set, with their default values."""
CHANGEABLE = {0x01: bytes([0x01, 0x0a]) + bytes(10), 0x08: bytes([0x08, 0x0a, 0x04]) + bytes(9)}
CACHING, WCE = 0x08, 0x04
"""The caching page, and the bit of its byte 2 by which writes are cached."""
CAPABILITIES, ALL_PAGES = 0x2a, 0x3f
PAGE_CODES = (*IN_FORCE, CAPABILITIES, ALL_PAGES)
OF_SECTORS = SECTOR.to_bytes(4, "big") + (16).to_bytes(2, "big") + b"\x01\0"
"""What a feature of sectors says of them."""


def capabilities(control: int, locked: bool) -> bytes:
    """The page of what the drive can do."""
    if control == 1:
        return bytes([CAPABILITIES, 30]) + bytes(30)
    loads = 0x29 | (0x02 if locked and control == 0 else 0)
    return (bytes([CAPABILITIES, 30, 0x28, 0x20, 0, 0, loads]) + bytes(5) + (256).to_bytes(2, "big")
            + bytes(18))


def mode_pages(byte: int, caches: bool, locked: bool) -> bytes:
    """The pages of MODE SENSE, by byte 2 of its command block."""
    control, wanted = byte >> 6, byte & ALL_PAGES
    values = dict(CHANGEABLE if control == 1 else IN_FORCE)
    if control == 0 and caches:
        values[CACHING] = CHANGEABLE[CACHING]
    values[CAPABILITIES] = capabilities(control, locked)
    return b"".join(page for code, page in values.items() if wanted in (code, ALL_PAGES))


def features(inside: bool, formatted: bool, sectors: int) -> List[Tuple[int, int, bytes]]:
    """The features of the drive, each with its flags, of which the lowest says that it is current, and with
    what it says."""
    ready = inside and formatted
    return [
        (0x0000, 3, bytes([0, 0x12, inside, 0])),
        (0x0001, 3, bytes([0, 0, 0, 1])),
        (0x0002, 3, bytes(4)),
        (0x0003, 3, bytes([0x29, 0, 0, 0])),
        (0x0010, ready, OF_SECTORS),
        (0x001f, ready, b""),
        (0x0020, 4 | ready, (sectors - 1 if ready else 0).to_bytes(4, "big") + OF_SECTORS),
        (0x0023, inside, b""),
        (0x0024, 4 | inside, bytes([0x80, 0, 0, 0])),
    ]


def configuration(kind: int, first: int, inside: bool, formatted: bool, sectors: int) -> bytes:
    """The reply of GET CONFIGURATION."""
    told = b""
    for code, flags, says in features(inside, formatted, sectors):
        is_asked = code == first if kind == 2 else code >= first and (kind == 0 or flags & 1)
        if is_asked:
            told += code.to_bytes(2, "big") + bytes([flags, len(says)]) + says
    return (4 + len(told)).to_bytes(4, "big") + bytes([0, 0, 0, 0x12 if inside else 0]) + told


def events(media: bool, inside: bool) -> bytes:
    """The reply of GET EVENT STATUS NOTIFICATION."""
    return bytes([0, 6, 4, 0x10, 0, 2 if inside else 1, 0, 0]) if media else bytes([0, 2, 0x80, 0x10])


def disc_information(formatted: bool) -> bytes:
    """The reply of READ DISC INFORMATION."""
    return bytes([0, 0x20, 0x1f if formatted else 0x10, 1, 1, 1, 1, 0x20]) + bytes(26)


def capacity(sectors: int, what: int) -> bytes:
    """A descriptor of READ FORMAT CAPACITIES: a number of sectors, and what it counts."""
    return sectors.to_bytes(4, "big") + bytes([what]) + SECTOR.to_bytes(3, "big")
