"""The control socket: a second channel to a drive, on which a person lets blocks die and cuts the power.

Each line is answered by some lines and an empty one. Beside the lines of the script but `press`, which are
others for a mirror, there are `stats`, `list`, `disarm` and `cut now`.
"""
from __future__ import annotations

import os
import socket
import stat
from contextlib import suppress
from io import BufferedRWPair
from threading import Lock, Thread
from typing import Callable, List

from . import Ended, NoDisc, NoLine, Refused, SocketInUse
from .disc import Disc, State
from .drive import Drive
from .protocol import LINE_LIMIT

Answerer = Callable[[str], List[str]]


class Listener:
    """A socket at a path. One that was left there, and that nobody serves, is removed. Raises
    `SocketInUse`."""

    def __init__(self, path: str) -> None:
        self.path = path
        self.socket = socket.socket(socket.AF_UNIX, socket.SOCK_STREAM)
        try:
            remove_left(path)
            self.socket.bind(path)
            self.socket.listen()
        except OSError as error:
            raise SocketInUse(f"control={path}: {error.strerror or error}") from None

    def close(self) -> None:
        self.socket.close()
        with suppress(FileNotFoundError):
            os.unlink(self.path)


def remove_left(path: str) -> None:
    """Removes a socket that nobody serves."""
    if not os.path.lexists(path):
        return
    if not stat.S_ISSOCK(os.lstat(path).st_mode):
        raise SocketInUse(f"control={path}: there is a file of that name")
    with socket.socket(socket.AF_UNIX, socket.SOCK_STREAM) as probe:
        if probe.connect_ex(path) == 0:
            raise SocketInUse(f"control={path}: another drive serves it")
    os.unlink(path)


def serve(listener: Listener, answer: Answerer, lock: Lock) -> None:
    """Takes clients for ever, each in a thread of its own; the lock is held while a line is answered."""
    while True:
        try:
            client, _ = listener.socket.accept()
        except OSError:  # the socket was closed
            return
        Thread(target=talk, args=(client, answer, lock), daemon=True).start()


def talk(client: socket.socket, answer: Answerer, lock: Lock) -> None:
    """Answers the lines of a client until it goes away, or sends a line that is too long."""
    with client, client.makefile("rb") as lines, client.makefile("wb") as answers:
        try:
            while line := lines.readline(LINE_LIMIT + 2):
                whole = line.endswith(b"\n") or len(line) <= LINE_LIMIT
                with lock:
                    rows = answer(line.decode("utf-8", "replace").rstrip("\r\n")) if whole else ["too long"]
                answers.write("".join(f"{row}\n" for row in (*rows, "")).encode())
                answers.flush()
                if not whole:
                    return
        except OSError:  # the client went away
            return


def answer_line(drive: Drive, line: str) -> list[str]:
    """The answer to a line of the control socket."""
    try:
        words = " ".join(line.split())
        if words == "stats":
            return drive.statistics.rows()
        if words == "list":
            return list_blocks(drive)
        if words == "disarm":
            return disarm(drive)
        if words == "cut now":
            return [drive.cut_now()]
        return drive.say(line)
    except (NoLine, Ended, NoDisc, Refused) as error:
        return [str(error)]
    except OSError as error:
        return [f"{error.filename}: {error.strerror}"]


def list_blocks(drive: Drive) -> list[str]:
    """The dead and the torn blocks of each disc, and what was armed; what was armed for a block that is dead
    by now is left out."""
    bad = [(side, state, block) for side, image in drive.discs
           for block, state in enumerate(Disc(drive.program, image).states)
           if state in (State.DEAD, State.TORN)]
    dead = {f"{side}wear {block}" for side, state, block in bad if state is State.DEAD}
    return [*(f"{side}{state.value} {block}" for side, state, block in bad),
            *(f"armed {arm}" for arm in drive.armed if arm.rpartition(" ")[0] not in dead)]


def disarm(drive: Drive) -> list[str]:
    """Drops what is armed, which ends with a session."""
    drive.renew()
    return ["disarmed"]


def exchange(channel: BufferedRWPair, line: str) -> list[str]:
    """Sends a line to the control socket as a client of it, and gives the lines of its answer."""
    channel.write(line.encode() + b"\n")
    channel.flush()
    rows: list[str] = []
    while (row := channel.readline()) != b"\n":
        if not row:
            raise ConnectionError("the drive went away")
        rows.append(row.decode().rstrip("\n"))
    return rows
