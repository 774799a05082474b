"""The calls of nbdkit, which the plugin gives it. An error of a client is that of a host, with the drive's
answer."""
from __future__ import annotations

import errno
import os
import sys
from contextlib import suppress
from dataclasses import dataclass
from functools import wraps
from threading import Lock, Thread
from typing import Any, Callable, Optional, Tuple, TypeVar

import nbdkit

from . import Ended, NoDisc, Refused, SocketInUse, Wrong
from .control import Listener, answer_line, serve
from .drive import Drive
from .prepare import open_image
from .program import find_program
from .protocol import SECTOR
from .sides import SidesParameters, ready_drive

__all__ = [
    "API_VERSION", "after_fork", "block_size", "can_fast_zero", "can_flush", "can_fua", "can_multi_conn",
    "can_write", "can_zero", "cleanup", "config", "config_complete", "flush", "get_ready", "get_size",
    "is_rotational", "open", "pread", "pwrite", "thread_model", "zero",
]

API_VERSION = 2
PREFERRED, MOST = 32_768, 32 << 20
TOLD = (Wrong, Refused, Ended, NoDisc, SocketInUse, OSError)
"""What is told to a user. Every other exception is an error of these tools."""
NO_SPARE, NO_REQUEST = ("check 3/32/00", "no spare "), ("check 5/", "range ")
"""How a drive begins to tell that no spare is left, or that a request may not be; and how a mirror does."""
TRACE = 1_000  # lines of a trace that Python prints by itself

T = TypeVar("T")


@dataclass
class Serving:
    """What is served: the images, which are locked and synced by their files, the drive over them, and the
    control socket."""

    images: list[int]
    drive: Drive
    control: Optional[Listener]
    lock: Lock


parameters = SidesParameters()
serving: Optional[Serving] = None


def served() -> Serving:
    assert serving
    return serving


def told(call: Callable[..., T]) -> Callable[..., T]:
    """A call of nbdkit, which prints what is raised in it: of what is told to a user without the lines of its
    trace."""
    @wraps(call)
    def telling(*words: Any) -> T:
        sys.tracebacklimit = TRACE
        try:
            return call(*words)
        except TOLD:
            sys.tracebacklimit = 0
            raise
    return telling


@told
def config(key: str, value: str) -> None:
    parameters.take(key, value)


@told
def config_complete() -> None:
    parameters.complete()


def thread_model() -> int:
    return int(nbdkit.THREAD_MODEL_SERIALIZE_ALL_REQUESTS)


@told
def get_ready() -> None:
    """Tries all that can go wrong: clients are served once the server has forked, and an exception would
    leave them waiting."""
    global serving  # pylint: disable=global-statement
    program = find_program(parameters.program)
    images = [open_image(side) for side in parameters.sides]
    drive = ready_drive(parameters, program)
    control = Listener(parameters.control) if parameters.control else None
    serving = Serving(images, drive, control, Lock())


def after_fork() -> None:
    now = served()
    if now.control:
        Thread(target=serve, args=(now.control, answer_person, now.lock), daemon=True).start()


def cleanup() -> None:
    if serving:
        with serving.lock:
            serving.drive.end()
        if serving.control:
            serving.control.close()


def answer_person(line: str) -> list[str]:
    """The answer to a line of the control socket."""
    was_on = served().drive.is_on
    rows = answer_line(served().drive, line)
    heed_power(was_on)
    return rows


def heed_power(was_on: bool) -> None:
    """Does what `poweroff` says, where the power went off."""
    drive = served().drive
    if drive.is_on or not was_on:
        return
    if parameters.poweroff == "again":
        with suppress(Ended):  # the next request begins again
            drive.turn_on()
    if parameters.poweroff == "exit":
        nbdkit.shutdown()


def error_of(error: Exception) -> int:
    """The error of a host for an exception of a drive."""
    answer = error.answer if isinstance(error, Refused) else ""
    if answer.startswith(NO_SPARE):
        return errno.ENOSPC
    if isinstance(error, Wrong) or answer.startswith(NO_REQUEST):
        return errno.EINVAL
    return errno.EIO


def for_client(call: Callable[..., T]) -> Callable[..., T]:
    """A call of a client: what goes wrong in it is told as an error of a host."""
    @told
    @wraps(call)
    def serving_it(*words: Any) -> T:
        now = served()
        with now.lock:
            was_on = now.drive.is_on
            try:
                return call(*words)
            except TOLD as error:
                nbdkit.set_error(error_of(error))
                raise
            finally:
                heed_power(was_on)
    return serving_it


def sectors(offset: int, size: int) -> Tuple[int, int]:
    """The first sector of a request, and how many it has."""
    if offset % SECTOR or size % SECTOR:
        raise Wrong(f"a request for {size} bytes at {offset}, which are no whole sectors of {SECTOR}: "
                    f"--filter=blocksize minblock={SECTOR} makes them so")
    return offset // SECTOR, size // SECTOR


def synchronize() -> None:
    """What was acknowledged is on the host's own disk."""
    served().drive.synchronize()
    for image in served().images:
        os.fdatasync(image)


@for_client
def open(readonly: bool) -> int:  # pylint: disable=redefined-builtin
    """Refuses a client where there are no sectors: the power is off, or the disc is not formatted or out."""
    return served().drive.capacity()


def get_size(capacity: int) -> int:
    return capacity * SECTOR


def block_size(capacity: int) -> Tuple[int, int, int]:
    return SECTOR, PREFERRED, MOST


def can_write(capacity: int) -> bool:
    return True


def can_flush(capacity: int) -> bool:
    return True


def can_zero(capacity: int) -> bool:
    return True


def can_fast_zero(capacity: int) -> bool:
    return True


def can_multi_conn(capacity: int) -> bool:
    return True


def is_rotational(capacity: int) -> bool:
    return True


def can_fua(capacity: int) -> int:
    return int(nbdkit.FUA_NATIVE)


@for_client
def pread(capacity: int, into: bytearray, offset: int, flags: int) -> None:
    first, _ = sectors(offset, len(into))
    served().drive.read(first, memoryview(into))


@for_client
def pwrite(capacity: int, data: memoryview, offset: int, flags: int) -> None:
    first, _ = sectors(offset, len(data))
    served().drive.write(first, memoryview(data))
    if flags & nbdkit.FLAG_FUA:
        synchronize()


@for_client
def zero(capacity: int, size: int, offset: int, flags: int) -> None:
    served().drive.fill(*sectors(offset, size))
    if flags & nbdkit.FLAG_FUA:
        synchronize()


@for_client
def flush(capacity: int, flags: int) -> None:
    synchronize()
