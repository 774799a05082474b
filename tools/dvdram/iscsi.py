"""An iSCSI target (RFC 7143) over the drive: one session of one connection, without digests and passwords.
Commands are done one after another, in the order in which their data came.

Without power there is no session: its connection is closed, as of a cable that is pulled, and a login is
refused until the power is back.
"""
from __future__ import annotations

import sys
import time
from contextlib import suppress
from dataclasses import dataclass
from struct import pack
from threading import Condition, Lock
from typing import Callable, TextIO

from . import Ended
from .login import NAME, NO_ROOM, NO_SERVICE, Agreed, keys_of, text_of
from .pdu import FINAL, NO_TAG, Channel, Code, Gone, Pdu
from .unit import Reply, Unit, bytes_taken, sense_of

PATIENCE, LONG_PATIENCE = 0.2, 30.0  # seconds in which another session may end, if its initiator is gone
CHECK_CONDITION = 2
READS, WRITES = 0x40, 0x20  # flags of a command
HAS_STATUS, OVER, UNDER = 0x01, 0x04, 0x02  # flags of its answer
ABORT_TASK, TASK_SETS, RESETS = 1, (2, 4), (5, 6)
NO_TASK, NO_FUNCTION = 1, 5
NOT_DONE = 5  # why a unit is rejected: the target has no such command
WRONG_DATA = "b/0c/0d"  # unexpected unsolicited data, or data out of order
FULL = 3  # the last stage of a login


class Target:
    """What the connections share: the unit, its lock, and the place of the only session."""

    def __init__(self, unit: Unit, poweroff: str, stop: Callable[[], None], log: TextIO | None) -> None:
        self.unit, self.poweroff, self.stop, self.log = unit, poweroff, stop, log
        self.lock, self.start = Lock(), time.monotonic()
        self.channels: set[Channel] = set()
        self.host: Session | None = None
        self.place = Condition()
        self.was_on = unit.drive.is_on

    def execute(self, pdu: Pdu, data: bytes) -> Reply:
        """Does a command. Raises `Gone` where the drive loses its power in it."""
        block = pdu.head[32:48]
        try:
            with self.lock:
                reply = self.unit.execute(pdu.lun, block, data)
                self.heed_power()
        except Ended as error:
            print(f"dvdram-iscsi: {error}", file=sys.stderr)
            raise Gone("the program ended") from None
        if self.log:
            self.log.write(f"{time.monotonic() - self.start:.3f} {block.hex()} {len(data)} "
                           f"{len(reply.data)} {reply.answer}\n")
        if reply.is_lost:
            raise Gone("the drive lost its power")
        return reply

    def heed_power(self) -> None:
        """Closes the connections where the power went off, and does what `poweroff` says."""
        drive = self.unit.drive
        was_on, self.was_on = self.was_on, drive.is_on
        if drive.is_on or not was_on:
            return
        for channel in list(self.channels):
            channel.close()
        if self.poweroff == "again":
            with suppress(Ended):  # the next command begins again
                drive.say("power")
            self.was_on = drive.is_on
        if self.poweroff == "exit":
            self.stop()

    def admit(self, session: Session) -> bool:
        """Gives a session the place of the only one. For it an older one of the same initiator is ended, and
        the end of another one is awaited for a while: it may be under way."""
        with self.place:
            if self.host and self.host.name == session.name:
                self.host.channel.close()
            is_ending = self.host and self.host.channel.is_gone()
            if not self.place.wait_for(lambda: not self.host, LONG_PATIENCE if is_ending else PATIENCE):
                return False
            self.host = session
            return True

    def release(self, session: Session) -> None:
        """Takes the place back."""
        with self.place:
            if self.host is session:
                self.end_nexus()
                self.host = None
                self.place.notify()

    def end_nexus(self) -> None:
        with self.lock, suppress(Ended):
            self.unit.end_nexus()
            self.heed_power()


@dataclass
class Task:
    """A command whose data are still coming."""

    pdu: Pdu
    due: int
    data: bytearray
    asked: int = 0  # up to where data were asked for
    asks: int = 0
    pieces: int = 0  # that came since they were asked for


class Session:
    """What an initiator does on its connection, from its login on."""

    def __init__(self, target: Target, channel: Channel) -> None:
        self.target, self.channel = target, channel
        self.agreed, self.name = Agreed(), ("", b"")
        self.is_full = False
        self.tasks: dict[bytes, Task] = {}

    def run(self) -> None:
        """Serves the initiator until it goes away."""
        self.target.channels.add(self.channel)
        try:
            while not self.is_full:
                self.log_in(self.channel.take())
            while self.do(self.channel.take()):
                pass
        except (Gone, OSError, ValueError):
            pass
        finally:
            self.target.channels.discard(self.channel)
            self.target.release(self)
            self.channel.client.close()

    # the login

    def log_in(self, pdu: Pdu) -> None:
        """Answers a request of a login. The last one begins the session."""
        if pdu.code != Code.LOGIN:
            raise Gone("it did not log in")
        self.channel.command_number = pdu.number(24)
        rows = self.agreed.take(keys_of(pdu.data))
        self.name = self.agreed.initiator, pdu.head[8:14]
        is_last = bool(pdu.flags & FINAL) and pdu.flags & 3 == FULL
        status = self.refusal(is_last)
        fields = {8: pdu.head[8:14], 14: pack(">H", is_last), 36: pack(">H", status)}
        if status:
            self.channel.send(Code.LOGIN_END, pdu, fields, flags=0)
            raise Gone("it is not served")
        self.is_full = is_last
        stages = pdu.flags & 0x0F if pdu.flags & FINAL else pdu.flags & 0x0C
        self.channel.send(Code.LOGIN_END, pdu, fields, text_of(rows), flags=pdu.flags & FINAL | stages)

    def refusal(self, is_last: bool) -> int:
        """Why a login is refused, or 0. The last request of one that is not takes the place."""
        status = self.agreed.refusal()
        if not status and not self.target.unit.drive.is_on:
            status = NO_SERVICE
        if not status and is_last and not self.agreed.is_discovery and not self.target.admit(self):
            status = NO_ROOM
        return status

    # the session

    def do(self, pdu: Pdu) -> bool:
        """Does what a unit asks, and says whether the session goes on."""
        if not self.channel.is_next(pdu):
            return True
        if pdu.code == Code.NOP_OUT:
            if pdu.tag != NO_TAG:
                self.channel.send(Code.NOP_IN, pdu, {20: NO_TAG}, pdu.data)
        elif pdu.code == Code.COMMAND and not self.agreed.is_discovery:
            self.begin(pdu)
        elif pdu.code == Code.DATA_OUT:
            self.take_data(pdu)
        elif pdu.code == Code.TASK:
            self.channel.send(Code.TASK_END, pdu, {2: pack(">B", self.manage(pdu))})
        elif pdu.code == Code.TEXT:
            self.channel.send(Code.TEXT_END, pdu, {20: NO_TAG}, self.targets(pdu))
        elif pdu.code == Code.LOGOUT:
            self.target.release(self)
            self.channel.send(Code.LOGOUT_END, pdu, {})
            return False
        else:
            self.channel.send(Code.REJECT, None, {2: pack(">B", NOT_DONE)}, pdu.head)
        return True

    def targets(self, pdu: Pdu) -> bytes:
        """The answer to a text: where the target is, if that is asked."""
        if "SendTargets" not in keys_of(pdu.data):
            return b""
        host, port = self.channel.client.getsockname()[:2]
        return text_of([f"TargetName={NAME}", f"TargetAddress={host}:{port},1"])

    def manage(self, pdu: Pdu) -> int:
        """Ends tasks. A command is done at once, so only one that waits for its data is there to be ended."""
        function = pdu.flags & 0x7F
        if function == ABORT_TASK:
            return 0 if self.tasks.pop(pdu.head[20:24], None) else NO_TASK
        if function not in (*TASK_SETS, *RESETS):
            return NO_FUNCTION
        self.tasks.clear()
        if function in RESETS:
            self.target.end_nexus()
        return 0

    # commands, and their data

    def begin(self, pdu: Pdu) -> None:
        """Begins a command: it is done where its data came with it, else they are asked for. Of the data that
        it takes no more are asked for than the initiator has."""
        is_ours = pdu.flags & WRITES and not any(pdu.lun)
        due = min(pdu.number(20), bytes_taken(pdu.head[32:48])) if is_ours else 0
        task = Task(pdu, due, bytearray(pdu.data), len(pdu.data))
        if len(task.data) >= due:
            self.finish(task)
        else:
            self.tasks[pdu.tag] = task
            self.ask(task)

    def ask(self, task: Task) -> None:
        """Asks for the next data of a command."""
        size = min(task.due - task.asked, self.agreed.burst)
        self.channel.send(Code.READY, task.pdu, {
            8: task.pdu.lun, 20: task.pdu.tag, 36: pack(">III", task.asks, task.asked, size)},
            has_status=False)
        task.asks, task.asked, task.pieces = task.asks + 1, task.asked + size, 0

    def take_data(self, pdu: Pdu) -> None:
        """Takes data of a command; those of none are dropped, since it may have been ended."""
        task = self.tasks.get(pdu.tag)
        if not task:
            return
        expected = task.pieces, len(task.data)
        if (pdu.number(36), pdu.number(40)) != expected or len(task.data) + len(pdu.data) > task.asked:
            del self.tasks[pdu.tag]
            self.respond(task.pdu, Reply("", sense=sense_of(WRONG_DATA)), 0, 0)
            return
        task.data += pdu.data
        task.pieces += 1
        if len(task.data) >= task.due:
            del self.tasks[pdu.tag]
            self.finish(task)
        elif len(task.data) == task.asked:
            self.ask(task)

    def finish(self, task: Task) -> None:
        """Does a command whose data are there, and answers it."""
        pdu, room = task.pdu, task.pdu.number(20)
        reply = self.target.execute(pdu, bytes(task.data[:task.due]))
        moved = bytes_taken(pdu.head[32:48]) if pdu.flags & WRITES else len(reply.data)
        flags = OVER if moved > room else UNDER if moved < room else 0
        data = reply.data[:room] if pdu.flags & READS else b""
        if data:
            self.show(pdu, data, flags, abs(moved - room))
        else:
            self.respond(pdu, reply, flags, abs(moved - room))

    def show(self, pdu: Pdu, data: bytes, flags: int, rest: int) -> None:
        """Sends the data of a command that was good; the last of them say so, and how many are missing or too
        many."""
        at = count = 0
        while at < len(data):
            size = min(self.agreed.segment, self.agreed.burst - at % self.agreed.burst)
            end = min(at + size, len(data))
            is_last = end == len(data)
            is_final = is_last or end % self.agreed.burst == 0
            numbers = pack(">III", count, at, rest if is_last else 0)
            self.channel.send(Code.DATA_IN, pdu, {8: pdu.lun, 20: NO_TAG, 36: numbers}, data[at:end],
                              flags=FINAL * is_final | (HAS_STATUS | flags) * is_last, has_status=is_last)
            at, count = end, count + 1

    def respond(self, pdu: Pdu, reply: Reply, flags: int, rest: int) -> None:
        """Sends the answer to a command without data for its host; where it is not good, with its sense."""
        status = CHECK_CONDITION if reply.sense else 0
        sense = pack(">H", len(reply.sense)) + reply.sense if reply.sense else b""
        self.channel.send(Code.RESPONSE, pdu, {3: pack(">B", status), 44: pack(">I", rest)}, sense,
                          flags=FINAL | flags)
