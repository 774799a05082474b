"""The drive as a disk: what speaks to the program, reads its images, and serves it to others.

`program` finds the program. `protocol` has a session of it, and `drive` a drive that lives on over
several, as `mirror` does with two discs. `certificate` reads what it tells of an image, `lists` and `disc`
say what each block is by that, and `pictures` shows it. `prepare` gets a disc ready to be served, and
`sides` those of a mirror; `control` has the socket of a person, and `plugin` the calls of nbdkit. `unit` is
the drive to a host's own drivers, `iscsi` its target, with `login` and `pdu` below it, and `target` the
command dvdram-iscsi. `ram_ctl` and `ram_map` are the commands of these names.
"""
from __future__ import annotations


class Refused(Exception):
    """The drive's answer to a command, where it is not `good`: `check K/AA/QQ`, `cut` or `off`, or how a
    mirror refuses it."""

    def __init__(self, answer: str) -> None:
        super().__init__(f"the drive answered: {answer}")
        self.answer = answer


class Ended(Exception):
    """The program could not be run, or ended before its answer."""


class NoLine(Exception):
    """The line is none of the forms that a person may send."""


class NoDisc(Exception):
    """The file is no image of a disc."""


class SocketInUse(Exception):
    """The path of the control socket cannot be taken."""


class Wrong(Exception):
    """A parameter, an image or a request that cannot be taken; its text says why."""
