"""The command dvdram-iscsi: it gets a disc ready, and serves the drive over iSCSI to one initiator of this
machine."""
from __future__ import annotations

import argparse
import select
import signal
import socket
import sys
from contextlib import ExitStack, suppress
from dataclasses import dataclass
from threading import Thread

from . import Ended, NoDisc, Refused, SocketInUse, Wrong
from .control import Listener, answer_line, serve
from .drive import SYNCHRONIZE
from .iscsi import Session, Target
from .login import NAME
from .pdu import Channel
from .prepare import Parameters, open_image, prepare
from .program import find_program
from .unit import HostDrive, Unit

HOST = "127.0.0.1"  # there are no passwords
HIGHEST_PORT = 65_535
HELP = """A DVD-RAM drive as an iSCSI target of this machine: command blocks go to the proved program as they
are. docs/HOSTS.md has the parameters, and what initiators make of it."""


@dataclass
class TargetParameters(Parameters):
    """What the command line says."""

    port: str = "3260"
    log: str = ""

    def complete(self) -> None:
        super().complete()
        if not self.port.isdecimal() or int(self.port) > HIGHEST_PORT:
            raise Wrong(f"port={self.port}: it is a number up to {HIGHEST_PORT}")


def parameters_of(words: list[str]) -> TargetParameters:
    parameters = TargetParameters()
    for word in words:
        key, _, value = word.partition("=")
        parameters.take(key, value)
    parameters.complete()
    return parameters


def server_at(port: str) -> socket.socket:
    """A socket that listens at this port; at one that is free for 0."""
    try:
        return socket.create_server((HOST, int(port)))
    except OSError as error:
        raise Wrong(f"port={port}: {error.strerror}") from None


def make_target(parameters: TargetParameters, server: socket.socket, stack: ExitStack) -> Target:
    """A target over the disc, which is made ready, with the control socket beside it."""
    program = find_program(parameters.program)
    image = open_image(parameters)
    prepare(parameters, program)
    control = Listener(parameters.control) if parameters.control else None
    if control:
        stack.callback(control.close)
    log = stack.enter_context(open(parameters.log, "w", buffering=1, encoding="ascii")) \
        if parameters.log else None
    drive = HostDrive(program, parameters.image, parameters.kind)
    drive.begin()
    target = Target(Unit(drive, image), parameters.poweroff, lambda: server.shutdown(socket.SHUT_RDWR), log)
    stack.callback(end, target)
    if control:
        Thread(target=serve, args=(control, lambda line: answer_person(target, line), target.lock),
               daemon=True).start()
    return target


def answer_person(target: Target, line: str) -> list[str]:
    """The answer to a line of the control socket, for one who holds the lock."""
    rows = answer_line(target.unit.drive, line)
    target.heed_power()
    return rows


def end(target: Target) -> None:
    """Ends the drive's session, and has it write before that what waits."""
    with target.lock, suppress(Ended):
        if target.unit.drive.is_on:
            target.unit.drive.command(SYNCHRONIZE)
        target.unit.drive.end()


def wake_by_signals(stack: ExitStack) -> socket.socket:
    """A socket that can be read once a signal came. A signal that comes right before a call that waits does
    not end the wait by itself."""
    woken, waker = socket.socketpair()
    stack.enter_context(woken)
    stack.enter_context(waker)
    waker.setblocking(False)
    stack.callback(signal.set_wakeup_fd, signal.set_wakeup_fd(waker.fileno()))
    return woken


def accept(server: socket.socket, target: Target, woken: socket.socket) -> None:
    """Serves initiators until the server is shut down, or a signal is handled."""
    while True:
        select.select([server, woken], [], [])
        try:
            client, _ = server.accept()
        except OSError:
            return
        client.setsockopt(socket.IPPROTO_TCP, socket.TCP_NODELAY, 1)
        Thread(target=Session(target, Channel(client)).run, daemon=True).start()


def main() -> int:
    parser = argparse.ArgumentParser(prog="dvdram-iscsi", description=HELP)
    parser.add_argument("words", nargs="+", metavar="NAME=VALUE",
                        help="image=FILE, and port, log or one of the parameters of nbdkit-dvdram-plugin but "
                             "image2")
    signal.signal(signal.SIGTERM, lambda *_: sys.exit(0))
    try:
        parameters = parameters_of(parser.parse_args().words)
        with ExitStack() as stack:
            server = stack.enter_context(server_at(parameters.port))
            target = make_target(parameters, server, stack)
            print(f"iscsi://{HOST}:{server.getsockname()[1]}/{NAME}/0", flush=True)
            accept(server, target, wake_by_signals(stack))
    except (Wrong, Refused, Ended, NoDisc, SocketInUse, OSError) as error:
        print(f"dvdram-iscsi: {error}", file=sys.stderr)
        return 1
    except KeyboardInterrupt:
        pass
    return 0
