"""What is done before a disc is served: its image is opened and locked, and a disc is pressed and formatted
where that is due."""
from __future__ import annotations

import fcntl
import os
import re
from dataclasses import dataclass, fields
from struct import pack

from . import Ended, NoDisc, Refused, Wrong
from .disc import Disc, State
from .drive import FORMAT, IS_READY, Drive
from .lists import LayoutKind

CHOICES = {
    "layout": tuple(kind.value for kind in LayoutKind), "format": ("yes", "no"), "force": ("yes", "no"),
    "poweroff": ("stay", "again", "exit"),
}
SET_LOCK = 37  # F_OFD_SETLK, for which Python 3.8 has no name


@dataclass
class Parameters:
    """What the command line says."""

    image: str = ""
    layout: str = "run"
    press: str = ""
    format: str = "no"
    force: str = "no"
    program: str = ""
    control: str = ""
    poweroff: str = "stay"

    def take(self, key: str, value: str) -> None:
        """Takes a parameter."""
        names = [item.name for item in fields(self)]
        if key not in names:
            raise Wrong(f"{key} is no parameter: there are {', '.join(names)}")
        if value not in CHOICES.get(key, (value,)):
            raise Wrong(f"{key}={value}: it is one of {', '.join(CHOICES[key])}")
        setattr(self, key, value)

    @property
    def kind(self) -> LayoutKind:
        return LayoutKind(self.layout)

    def complete(self) -> None:
        """Sees that all is there, and makes paths whole: a server goes to another folder."""
        if not self.image:
            raise Wrong("image=FILE is missing")
        if self.press and not re.fullmatch(r"\d{1,10},\d{1,10},\d{1,10}", self.press, re.ASCII):
            raise Wrong(f"press={self.press}: it has three numbers, ZONES,SCALE,SPARES")
        self.image = os.path.abspath(self.image)
        self.control = self.control and os.path.abspath(self.control)


def lock(image: int) -> None:
    """Locks an open image against other servers, as long as this one has it open. The program locks it too
    while it runs, by flock, which this lock leaves free. Raises `BlockingIOError` where one has locked it."""
    fcntl.fcntl(image, SET_LOCK, pack("hhqqi", fcntl.F_WRLCK, os.SEEK_SET, 0, 0, 0))
    fcntl.flock(image, fcntl.LOCK_EX | fcntl.LOCK_NB)
    fcntl.flock(image, fcntl.LOCK_UN)


def open_image(words: Parameters) -> int:
    """Opens the image and locks it. It is made, empty, where a disc is to be pressed into it."""
    try:
        image = os.open(words.image, os.O_RDWR | os.O_CLOEXEC | (os.O_CREAT if words.press else 0), 0o666)
        lock(image)
    except FileNotFoundError:
        raise Wrong(f"{words.image} is not there: press=ZONES,SCALE,SPARES makes it") from None
    except BlockingIOError:
        raise Wrong(f"{words.image} is in use by another drive") from None
    except OSError as error:
        raise Wrong(f"{words.image}: {error.strerror}") from None
    return image


def prepare(words: Parameters, program: list[str]) -> bool:
    """Presses and formats the disc where that is asked for and due, and sees that it has sectors: whether it
    was formatted."""
    if must_press(words, program):
        press(words, program)
    drive = Drive(program, words.image, words.kind, is_on=False)
    is_bare = drive.say("power")[0] == "not formatted"
    if is_bare:
        see_layout(words, program)
        if words.format == "yes":
            format_disc(words, drive)
        elif not words.control:
            raise Wrong(f"{words.image} is not formatted: format=yes formats it")
    end(drive)
    return is_bare and words.format == "yes"


def see_layout(words: Parameters, program: list[str]) -> None:
    """Sees that a disc that is not formatted is not one of the other layout, but by force."""
    disc = Disc(program, words.image)
    other = disc.geometry.layout
    if disc.lists and other is not words.kind and words.force == "no":
        raise Wrong(f"{words.image} holds a disc of another layout: layout={other.value} serves it")


def must_press(words: Parameters, program: list[str]) -> bool:
    """Whether a disc is to be pressed: where there is none, or by force."""
    if words.press and words.force == "yes":
        return True
    try:
        disc = Disc(program, words.image)
        if words.kind is LayoutKind.EACH_ZONE and not disc.geometry.fits_zones():
            raise Wrong(f"{words.image} holds a disc without room for a group of spares in each zone: it is "
                        "no disc to layout=groups")
    except NoDisc:
        if not words.press:
            raise Wrong(f"{words.image} holds no disc: press=ZONES,SCALE,SPARES makes one") from None
        return True
    return False


def press(words: Parameters, program: list[str]) -> None:
    """Presses a disc into the image."""
    drive = Drive(program, words.image, words.kind, is_on=False)
    answer = drive.command(f"press {words.press.replace(',', ' ')}")[0]
    end(drive)
    if answer != "pressed":
        raise Wrong(f"press={words.press}: no disc has these numbers")


def format_disc(words: Parameters, drive: Drive) -> None:
    """Formats the disc. One that was written before, but for the record of a mirror's lead, is formatted by
    force alone: it may have lost its lists."""
    disc = Disc(drive.program, words.image)
    was_written = any(state in (State.GOOD, State.TORN) and block not in disc.geometry.record_blocks
                      for block, state in enumerate(disc.states))
    if was_written and words.force == "no":
        raise Wrong(f"{words.image} was written, and is not formatted any more: force=yes formats it anew")
    drive.command(IS_READY)
    answer = drive.command(FORMAT)[0]
    if answer != "good":
        raise Refused(answer)


def end(drive: Drive) -> None:
    """Ends the drive's session, and sees that all of it was done."""
    status = drive.end()
    if status:
        raise Ended(f"the program ended with status {status}")
