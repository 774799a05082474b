"""The program: where it is, and what it prints of an image."""
from __future__ import annotations

import os
import shutil
import subprocess
from pathlib import Path

from . import Ended, NoDisc, Wrong

TOOLS = Path(__file__).resolve().parent.parent
DRIVE = TOOLS.parent / "drive"  # of a checkout: it builds the program first, if need be
BUILT = TOOLS.parent / "crates" / "ram_drive" / "out" / "ram_drive"
INSTALLED = TOOLS.parent.parent / "bin" / "ram_drive"  # beside these tools
NAME = "ram_drive"
NOT_A_DISC = 8


def find_program(named: str) -> list[str]:
    """The program: the one named, that of this checkout, the one installed beside these tools, or one on the
    path."""
    found = named or next((str(place) for place in (DRIVE, INSTALLED) if place.is_file()), NAME)
    program = shutil.which(found)
    if not program:
        raise Wrong(f"program={found}: there is no such program")
    version = subprocess.run([program, "--version"], stdin=subprocess.DEVNULL, stdout=subprocess.PIPE,
                             check=False)
    if not version.stdout.startswith(b"ram_drive "):
        raise Wrong(f"program={found}: it is no drive")
    return [os.path.abspath(program)]


def built_program() -> list[str]:
    """The same where none is named, and none is built: of a checkout it is what was built there. Raises
    `Ended`."""
    if DRIVE.is_file() and not BUILT.is_file():
        raise Ended(f"the program is not built: {DRIVE} --version builds it")
    program = shutil.which(next((str(place) for place in (BUILT, INSTALLED) if place.is_file()), NAME))
    if not program:
        raise Ended(f"the program is not there: {NAME} is neither installed beside this tool nor on the path")
    return [program]


def audit(program: list[str], image: str) -> str:
    """What the program tells of an image, which it only reads. Raises `NoDisc` and `Ended`."""
    try:
        done = subprocess.run([*program, "audit", image], stdin=subprocess.DEVNULL, stdout=subprocess.PIPE,
                              check=False)
    except OSError as error:
        raise Ended(f"{program[0]} cannot be run: {error.strerror}") from None
    if done.returncode == NOT_A_DISC:
        raise NoDisc(f"{image} holds no disc")
    if done.returncode:
        raise Ended(f"the program ended with status {done.returncode}")
    return done.stdout.decode("ascii")
