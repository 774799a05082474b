"""An iSCSI initiator in a few lines, which shares nothing with the target that it tries."""
from __future__ import annotations

import socket
from dataclasses import dataclass
from struct import pack, unpack_from

TARGET = "iqn.2026-11.example.gornchik:dvdram"
WRITES, READS = 0xA0, 0xC0  # with the bit that says that no unsolicited data follow
BURST, SEGMENT = 65_536, 10_000  # a burst is no row of whole segments


@dataclass
class Answer:
    """The end of a command: its status, its sense as K/AA/QQ, its data, and the residual count with its
    flags."""

    status: int
    sense: str
    data: bytes
    residual: tuple[int, int]


class Initiator:
    """A session, or the status with which its login was refused."""

    def __init__(self, port: int, name: str = "one", *, kind: str = "Normal", target: str = TARGET) -> None:
        self.socket = socket.create_connection(("127.0.0.1", port))
        self.socket.settimeout(60)
        self.command_number = self.tag = 1
        self.skipped = 0  # bytes of the data that are asked for that are left out
        keys = {"InitiatorName": name and f"iqn.2026-11.example.tests:{name}", "TargetName": target,
                "SessionType": kind, "AuthMethod": "None", "HeaderDigest": "CRC32C,None",
                "MaxBurstLength": str(BURST), "MaxRecvDataSegmentLength": str(SEGMENT)}
        text = "".join(f"{key}={value}\0" for key, value in keys.items() if value)
        self.send(0x43, 0x87, {24: pack(">I", 1)}, text.encode())
        head, data = self.take()
        self.status = unpack_from(">H", head, 36)[0]
        self.keys = data.decode().split("\0")[:-1]
        if self.status:
            self.close()

    def close(self) -> None:
        self.socket.close()

    def send(self, code: int, flags: int, fields: dict[int, bytes], data: bytes = b"") -> None:
        """Sends a unit with these bytes at these places of its header."""
        head = bytearray(48)
        head[:2] = code, flags
        head[5:8] = len(data).to_bytes(3, "big")
        head[16:20] = pack(">I", self.tag)
        for at, value in fields.items():
            head[at:at + len(value)] = value
        self.socket.sendall(bytes(head) + data + bytes(-len(data) % 4))

    def receive(self, count: int) -> bytes:
        data = b""
        while len(data) < count:
            more = self.socket.recv(count - len(data))
            if not more:
                raise ConnectionError("the target closed the connection")
            data += more
        return data

    def take(self) -> tuple[bytes, bytes]:
        """The next unit: its header, and its data."""
        head = self.receive(48)
        size = int.from_bytes(head[5:8], "big")
        return head, self.receive(size + -size % 4)[:size]

    def text(self, keys: bytes) -> bytes:
        """The answer to a text."""
        self.send(0x44, 0x80, {24: pack(">I", self.command_number), 20: b"\xff" * 4}, keys)
        return self.take()[1]

    def do(self, block: str, data: bytes = b"", *, reads: int = 0, immediate: int = 0,
           lun: int = 0) -> Answer:
        """Does a command with these data, some of which go with it, or one that reads so many bytes."""
        self.tag += 1
        numbers = pack(">III", reads or len(data), self.command_number, 0)
        self.command_number += 1
        place = {8: pack(">BB", 0, lun), 20: numbers, 32: bytes.fromhex(block)}
        self.send(1, READS if reads else WRITES if data else 0x80, place, data[:immediate])
        shown, in_burst = b"", 0
        while True:
            head, part = self.take()
            if head[0] == 0x31:
                self.give(head, data)
            elif head[0] == 0x25:
                assert unpack_from(">I", head, 40)[0] == len(shown), "the place of the data"
                shown += part
                in_burst += len(part)
                assert len(part) <= SEGMENT and in_burst <= BURST, "too many data"
                in_burst = 0 if head[1] & 0x80 else in_burst
                if head[1] & 1:
                    return Answer(head[3], "", shown, residual_of(head))
            else:
                sense = f"{part[4] & 15:x}/{part[14]:02x}/{part[15]:02x}" if part else ""
                return Answer(head[3], sense, shown, residual_of(head))

    def give(self, head: bytes, data: bytes) -> None:
        """Sends the data that the target asks for."""
        at, size = unpack_from(">II", head, 40)
        at += self.skipped
        assert size <= BURST, "more than a burst is asked for"
        for count, start in enumerate(range(at, at + size, SEGMENT)):
            end = min(start + SEGMENT, at + size)
            self.send(5, 0x80 if end == at + size else 0,
                      {20: head[20:24], 36: pack(">II", count, start)}, data[start:end])


def residual_of(head: bytes) -> tuple[int, int]:
    return head[1] & 6, unpack_from(">I", head, 44)[0]
