"""The units of iSCSI (RFC 7143) on a connection: a header of 48 bytes, and data. Nothing else is on it: there
are no digests."""
from __future__ import annotations

import select
import socket
from contextlib import suppress
from dataclasses import dataclass
from enum import IntEnum
from struct import pack
from typing import Mapping

HEADER = 48
WINDOW = 32  # commands that may be under way
NO_TAG = b"\xff" * 4
FINAL, IMMEDIATE, CODE = 0x80, 0x40, 0x3F


class Code(IntEnum):
    """What a unit is: below 20h an initiator sends it, above a target."""

    NOP_OUT, COMMAND, TASK, LOGIN, TEXT, DATA_OUT, LOGOUT = range(7)
    NOP_IN, RESPONSE, TASK_END, LOGIN_END, TEXT_END, DATA_IN, LOGOUT_END = range(0x20, 0x27)
    READY, REJECT = 0x31, 0x3F


class Gone(Exception):
    """The initiator went away, or sent what no initiator may send."""


@dataclass
class Pdu:
    """A unit that was received."""

    head: bytes
    data: bytes = b""

    @property
    def code(self) -> int:
        return self.head[0] & CODE

    @property
    def flags(self) -> int:
        return self.head[1]

    @property
    def is_immediate(self) -> bool:
        return bool(self.head[0] & IMMEDIATE)

    @property
    def lun(self) -> bytes:
        return self.head[8:16]

    @property
    def tag(self) -> bytes:
        return self.head[16:20]

    def number(self, at: int) -> int:
        """The four bytes at this place of the header."""
        return int.from_bytes(self.head[at:at + 4], "big")


class Channel:
    """A connection, with the numbers of what is sent and awaited on it. Raises `Gone`, or an error of the
    system."""

    def __init__(self, client: socket.socket) -> None:
        self.client = client
        self.status_number, self.command_number = 1, 0

    def receive(self, count: int) -> bytes:
        """As many bytes from the initiator."""
        whole = bytearray(count)
        rest = memoryview(whole)
        while rest:
            some = self.client.recv_into(rest)
            if not some:
                raise Gone("it went away")
            rest = rest[some:]
        return bytes(whole)

    def take(self) -> Pdu:
        """The next unit from the initiator. Further headers, which no command here needs, are dropped."""
        head = self.receive(HEADER)
        self.receive(4 * head[4])
        size = int.from_bytes(head[5:8], "big")
        return Pdu(head, self.receive(size + -size % 4)[:size])

    def is_next(self, pdu: Pdu) -> bool:
        """Whether a unit with a command's number is to be done, which counts it; else it is dropped."""
        if pdu.is_immediate or pdu.code == Code.DATA_OUT:
            return True
        ahead = (pdu.number(24) - self.command_number) & 0xFFFFFFFF
        if ahead >= WINDOW:
            return False
        if ahead:
            raise Gone("it left out a command")
        self.command_number += 1
        return True

    def send(self, code: Code, request: Pdu | None, fields: Mapping[int, bytes], data: bytes = b"", *,
             flags: int = FINAL, has_status: bool = True) -> None:
        """Sends a unit that answers a request, with these bytes at these places of its header."""
        head = bytearray(HEADER)
        head[0], head[1] = code, flags
        head[5:8] = len(data).to_bytes(3, "big")
        head[16:20] = request.tag if request else NO_TAG
        numbers = self.status_number, self.command_number, self.command_number + WINDOW - 1
        head[24:36] = pack(">III", *(value & 0xFFFFFFFF for value in numbers))
        for at, value in fields.items():
            head[at:at + len(value)] = value
        self.status_number += has_status
        self.client.sendall(bytes(head) + data + bytes(-len(data) % 4))

    def is_gone(self) -> bool:
        """Whether the initiator sends nothing more, or the connection was ended here."""
        poll = select.poll()
        poll.register(self.client, select.POLLRDHUP)
        return bool(poll.poll(0))

    def close(self) -> None:
        """Ends the connection, also under one who waits on it."""
        with suppress(OSError):
            self.client.shutdown(socket.SHUT_RDWR)
