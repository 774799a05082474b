"""Images made by hand, of a disc of one zone, scale 1 and four primary spares; and what an image has."""
from __future__ import annotations

from typing import Iterator

HEADER = b"DVDRAM01\0\x01\0\x01\0\x04\0\0"
BLOCKS = 41
BLOCK_BYTES = 32_768
IMAGE_BYTES = len(HEADER) + BLOCKS * (1 + BLOCK_BYTES)

# The beginnings of both lists of a disc that was just formatted, and the blocks of their copies.
STRUCTURE = b"\x0a\x0a\x01\x80\0\0\0\x02\0\x04"
LIST = b"\0\x02\x01\0\0\0\0\x01\0\0\0\x02\0\0\0\0"
STRUCTURES = (0, 2, 33, 35)
LISTS = (1, 3, 34, 36)

PIECE = 16


def place(word: str) -> int:
    """A place in an image: a number, or a block and a byte of it with a colon between them."""
    block, colon, at = word.partition(":")
    return len(HEADER) + BLOCKS + int(block) * BLOCK_BYTES + int(at) if colon else int(word)


def put(image: bytearray, at: int, data: bytes) -> None:
    """Puts bytes into an image, as far as it goes."""
    fitting = data[: max(0, len(image) - at)]
    image[at: at + len(fitting)] = fitting


def new() -> bytearray:
    """A new disc: its header, its states and its blocks, all of them blank."""
    return bytearray(HEADER.ljust(IMAGE_BYTES, b"\0"))


def formatted() -> bytearray:
    """A formatted disc: four copies of each list, and zeros in the 23 data blocks."""
    image = new()
    for first, count in ((16, 4), (25, 23), (49, 4)):
        put(image, first, b"\1" * count)
    for block in STRUCTURES:
        put(image, place(f"{block}:0"), STRUCTURE)
        put(image, place(f"{block}:2048"), b"\0\x01\0\0")
    for block in LISTS:
        put(image, place(f"{block}:0"), LIST)
    return image


def told_block(number: int, block: bytes) -> Iterator[str]:
    """What a block has, unless it is zeros."""
    if block == block[:1] * len(block):
        if block[0]:
            yield f"block {number} is full of {block[0]:02x}"
        return
    pieces = ((at, block[at: at + PIECE]) for at in range(0, len(block), PIECE))
    yield " ".join([f"block {number} has", *(f"{at}:{piece.hex()}" for at, piece in pieces if any(piece))])


def told(before: bytes, image: bytes) -> Iterator[str]:
    """What an image has after a run, or that it is as it was before."""
    yield f"an image of {len(image)} bytes"
    if before == image:
        yield "as it was"
    elif len(image) == IMAGE_BYTES:
        states = len(HEADER) + BLOCKS
        yield f"header {image[:len(HEADER)].hex()}"
        yield f"states {image[len(HEADER):states].hex()}"
        for number in range(BLOCKS):
            at = states + number * BLOCK_BYTES
            yield from told_block(number, image[at: at + BLOCK_BYTES])
