"""Serves the disc in an image to clients of the NBD protocol, by the program's word `nbd`. A client that
starts its server hands over a listening socket, as libnbd, nbdkit and systemd do: the first connection is
then the standard input and output of the program. With --socket clients are served there, one after another.
"""
from __future__ import annotations

import argparse
import os
import socket
import subprocess
import sys
from contextlib import suppress

from . import Ended
from .program import built_program

HANDED_OVER = 3  # the first descriptor that is handed over
NO_SOCKET = 2


def first_client() -> socket.socket:
    """The first client of the socket that was handed over. Raises `Ended`."""
    if os.environ.get("LISTEN_PID") != str(os.getpid()) or os.environ.get("LISTEN_FDS") != "1":
        raise Ended("no socket was handed over: --socket=PATH serves clients at a path")
    with socket.socket(fileno=HANDED_OVER) as listener:
        return listener.accept()[0]


def become(program: list[str], client: socket.socket) -> None:
    """Becomes the program, with this client on its standard input and output."""
    for stream in (sys.stdin, sys.stdout):
        os.dup2(client.fileno(), stream.fileno())
    os.execv(program[0], program)


def serve(program: list[str], path: str) -> None:
    """Serves clients at a path, one after another, each by a program of its own, until it is interrupted."""
    with socket.socket(socket.AF_UNIX, socket.SOCK_STREAM) as listener:
        listener.bind(path)
        try:
            listener.listen()
            while True:
                client = listener.accept()[0]
                with client:
                    number = client.fileno()
                    subprocess.run(program, stdin=number, stdout=number, check=False)
        finally:
            with suppress(OSError):
                os.unlink(path)


def main() -> int:
    parser = argparse.ArgumentParser(prog="dvdram-nbd", description=__doc__)
    parser.add_argument("--socket", metavar="PATH", help="serve clients there, one after another")
    parser.add_argument("image", metavar="IMAGE")
    parser.add_argument("faults", metavar="FAULT", nargs="*",
                        help="what fails: 'fail BLOCK', 'wear BLOCK N' or 'cut N FATE'")
    words = parser.parse_args()
    try:
        program = [*built_program(), "nbd", words.image, *words.faults]
        if words.socket:
            serve(program, words.socket)
        become(program, first_client())
    except (Ended, OSError) as error:
        print(f"dvdram-nbd: {error}", file=sys.stderr)
        return NO_SOCKET
    except KeyboardInterrupt:
        pass
    return 0
