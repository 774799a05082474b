"""The drive over iSCSI: what an initiator sees of it, and what libiscsi and QEMU make of it."""
from __future__ import annotations

import os
import random
import re
import signal
import socket
import subprocess
from pathlib import Path
from struct import pack
from unittest import mock

from dvdram import Refused
from dvdram.drive import FORMAT, RENEW_AT
from dvdram.unit import CACHE_ON, HostDrive, Unit
from initiator import TARGET, Initiator
from support import (PROGRAM, TOOLS, Control, FolderTest, children_of, done, needs, qemu_io, random_bytes,
                     run_script, wait_until)

NEW = "press=1,1,4", "format=yes"
LARGE = "press=2,10,24", "format=yes"
READY, CAPACITY, EJECT = "000000000000", "25000000000000000000", "1b0000000200"
REFUSED = (  # parameters, and how the line ends that tells of them
    ("image=disc.img", "disc.img is not there: press=ZONES,SCALE,SPARES makes it"),
    ("image=disc.img press=1,1,4 port=65536", "port=65536: it is a number up to 65535"),
    ("image=disc.img speed=4", "speed is no parameter: there are image, layout, press, format, force, "
                               "program, control, poweroff, port, log"),
    ("port=0", "image=FILE is missing"),
)
SESSIONS = "the target's: it has one session, and these tests want a second"
COMPARES = "the drive's choice: VERIFY compares no data with the disc, and refuses to (5/24/00)"
FAILURES = {  # of libiscsi's suite, with whose they are
    "ModeSense6.Control": "the suite's: the Control page is one that a device should have, not must",
    **{f"ProutReserve.{test}{kind}": SESSIONS for test in ("Access", "Ownership")
       for kind in ("EA", "WE", "EARO", "WERO", "EAAR", "WEAR")},
    **{f"Verify10.{test}": COMPARES for test in ("Simple", "BeyondEol", "ZeroBlocks", "Flags", "Mismatch")},
}


class Served(Control):
    """A drive that dvdram-iscsi serves at a port of its choice, with a control socket."""

    def __init__(self, *words: str) -> None:
        super().__init__(Path("disc.ctl"))
        self.uri, self.port = "", 0
        self.log = open("target.log", "w+", encoding="utf-8")
        self.process = subprocess.Popen(
            [TOOLS / "dvdram-iscsi", "port=0", "image=disc.img", f"control={self.control}",
             f"program={PROGRAM}", *words],
            stdin=subprocess.DEVNULL, stdout=self.log, stderr=self.log)

    def __enter__(self) -> Served:
        wait_until(lambda: "\n" in self.told() or self.process.poll() is not None, "the target serves")
        self.uri = self.told().strip()
        found = re.fullmatch(rf"iscsi://127\.0\.0\.1:(\d+)/{TARGET}/0", self.uri)
        if not found:
            self.__exit__()
            raise RuntimeError(f"nothing is served: {self.uri}")
        self.port = int(found[1])
        return self

    def __exit__(self, *_: object) -> None:
        self.process.terminate()
        try:
            self.process.wait(60)
        finally:
            self.process.kill()
            self.log.close()

    def told(self) -> str:
        self.log.seek(0)
        return self.log.read()


class Target(FolderTest):
    """The target, to an initiator that needs no package."""

    def test_commands(self) -> None:
        """Command blocks and data come to the drive as they are, and its answers and senses come back."""
        data = random_bytes(random.Random(8), 200 * 2048)
        with Served(*NEW) as served:
            host = Initiator(served.port)
            self.addCleanup(host.close)
            self.assertIn("HeaderDigest=None", host.keys)
            self.assertEqual(host.do(READY).sense, "6/29/00")
            self.assertEqual(host.do(READY).status, 0)
            self.assertIn(b"SECTOR DRIVE", host.do("120000002400", reads=36).data)
            self.assertEqual(host.do(CAPACITY, reads=8).data, bytes.fromhex("0000012f00000800"))
            self.assertEqual(host.do("2a00000000050000c800", data, immediate=4096).status, 0)
            self.assertTrue(host.do("2800000000050000c800", reads=len(data)).data == data, "what comes back")
            self.assertEqual(host.do("2a00000000050000c800", data[:2048]).sense, "5/1a/00", "data missing")
            self.assertEqual(host.do("28000000013000000100", reads=2048).sense, "5/21/00")
            self.assertEqual(host.do("2a000000010000003100", bytes(49 * 2048)).sense, "5/21/00", "too far")
            self.assertEqual(host.do("030000001200", reads=18).data[2], 0, "sense that is told is not kept")
            self.assertEqual(host.do(CAPACITY, reads=4).residual, (4, 4), "four bytes too many")
            self.assertEqual(host.do(CAPACITY, reads=12).residual, (2, 4), "four bytes missing")
            self.assertEqual(host.do("ff").sense, "5/20/00")
            self.assertEqual(host.do(READY, lun=1).sense, "5/25/00")
            units = host.do("a00000000000000000100000", reads=16).data
            self.assertEqual(units, bytes((0, 0, 0, 8)) + bytes(12), "unit 0 alone")

    def test_power(self) -> None:
        """A power cut ends the session; no login without power, and then the attention and the torn block."""
        block = b"\x5a" * 32768
        with Served(*NEW) as served:
            host = Initiator(served.port)
            host.do(READY)
            self.assertEqual(host.do("2a000000000000001000", block).status, 0)
            self.assertEqual(served.tell("cut 1 torn"), ["armed"])
            with self.assertRaises(ConnectionError):
                host.do("2a000000000000001000", bytes(32768))
            host.close()
            self.assertEqual(Initiator(served.port).status, 0x0301, "a login without power")
            self.assertEqual(served.tell("power"), ["ready 304"])
            host = Initiator(served.port)
            self.addCleanup(host.close)
            self.assertEqual([host.do(READY).sense, host.do(READY).status], ["6/29/00", 0])
            self.assertEqual(host.do("28000000000000000100", reads=2048).sense, "3/11/00")
            self.assertEqual(host.do("2a000000000000001000", block).status, 0)
            self.assertEqual(host.do("28000000000000000100", reads=2048).data, block[:2048])
        with Served("poweroff=again") as served:
            host = Initiator(served.port)
            served.tell("cut now")
            with self.assertRaises(ConnectionError):
                host.do(READY)
            host.close()
            host = Initiator(served.port)
            self.assertEqual(host.do(READY).sense, "6/29/00", "the power came again")
            host.close()
        with Served("poweroff=exit") as served:
            served.tell("cut now")
            self.assertEqual(served.process.wait(60), 0)

    def test_sessions(self) -> None:
        """There is one session; its place is free when it ends, and removal is allowed then."""
        with Served(*NEW) as served:
            host = Initiator(served.port)
            host.do(READY)
            self.assertEqual(host.do("1e0000000100").status, 0)
            self.assertEqual(host.do(EJECT).sense, "5/53/02", "removal is prevented")
            self.assertEqual(Initiator(served.port, "two").status, 0x0302)
            seeker = Initiator(served.port, kind="Discovery")
            self.assertIn(f"TargetName={TARGET}\0TargetAddress=127.0.0.1:{served.port},1".encode(),
                          seeker.text(b"SendTargets=All\0"))
            seeker.close()
            again = Initiator(served.port)
            self.assertEqual(again.status, 0, "the same initiator again")
            with self.assertRaises(ConnectionError):
                host.do(READY)
            host.close()
            self.assertEqual(again.do(EJECT).status, 0, "removal is allowed")
            self.assertEqual(again.do(CAPACITY, reads=8).sense, "2/3a/00")
            again.close()
            other = Initiator(served.port, "two")
            self.addCleanup(other.close)
            self.assertEqual(other.status, 0, "the place of one that is gone")

    def test_refused(self) -> None:
        """A login for another target is refused, and so is one without a name; data out of order end a
        command."""
        with Served(*NEW) as served:
            self.assertEqual(Initiator(served.port, target=f"{TARGET}2").status, 0x0203)
            self.assertEqual(Initiator(served.port, target="").status, 0x0207)
            self.assertEqual(Initiator(served.port, "").status, 0x0207)
            host = Initiator(served.port)
            self.addCleanup(host.close)
            host.do(READY)
            host.skipped = 1
            self.assertEqual(host.do("2a000000000000001000", bytes(32768)).sense, "b/0c/0d")
            host.skipped = 0
            self.assertEqual(host.do("2a000000000000001000", bytes(32768)).status, 0)
            host.command_number += 40
            host.send(1, 0x80, {24: pack(">I", host.command_number)})
            host.command_number -= 40
            self.assertEqual(host.do(READY).status, 0, "a command outside the window is dropped")
            host.command_number += 1
            with self.assertRaises(ConnectionError):
                host.do(READY)

    def test_end(self) -> None:
        """A target that is ended has the drive write what waits."""
        block = b"\x5a" * 32768
        with Served(*NEW) as served:
            host = Initiator(served.port)
            host.do(READY)
            self.assertEqual(served.tell(CACHE_ON), ["good"])
            self.assertEqual(host.do("2a000000000000001000", block).status, 0)
            host.close()
        with Served() as served:
            host = Initiator(served.port)
            self.addCleanup(host.close)
            host.do(READY)
            self.assertEqual(host.do("28000000000000001000", reads=32768).data, block)

    def test_accident(self) -> None:
        """The program is killed: the session ends, and the next one is told that the power came on."""
        with Served(*NEW, "log=commands.log") as served:
            host = Initiator(served.port)
            host.do(READY)
            self.assertEqual(host.do("2a000000000000001000", b"\x5a" * 32768).status, 0)
            for program in children_of(served.process.pid):
                os.kill(program, signal.SIGKILL)
            with self.assertRaises(ConnectionError):
                host.do(READY)
            host.close()
            host = Initiator(served.port)
            self.addCleanup(host.close)
            self.assertEqual(host.do(READY).sense, "6/29/00")
            self.assertEqual(host.do("28000000000000000100", reads=2048).data, b"\x5a" * 2048)
            rows = [row.split(maxsplit=1)[1] for row in Path("commands.log").read_text("ascii").splitlines()]
        self.assertEqual(rows, [f"{block:0<32} {counts}" for block, counts in (
            (READY, "0 0 check 6/29/00"), ("2a000000000000001000", "32768 0 good"),
            (READY, "0 0 check 6/29/00"), ("28000000000000000100", "0 2048 good"))])

    def test_layout(self) -> None:
        """The word `groups` serves a disc with a group of spares in each zone."""
        with Served("layout=groups", "press=2,1,4", "format=yes") as served:
            host = Initiator(served.port)
            self.addCleanup(host.close)
            host.do(READY)
            self.assertEqual(host.do(CAPACITY, reads=8).data[:4], (623).to_bytes(4, "big"))

    def test_bad_parameters(self) -> None:
        """Each is told in one line."""
        for words, due in REFUSED:
            with self.subTest(words):
                told = done(TOOLS / "dvdram-iscsi", f"program={PROGRAM}", *words.split())
                self.assertEqual(told.returncode, 1)
                self.assertEqual(told.stdout[-len(due) - 1:], f"{due}\n")
                self.assertEqual(told.stdout.count("\n"), 1)
        with socket.create_server(("127.0.0.1", 0)) as taken:
            port = taken.getsockname()[1]
            told = done(TOOLS / "dvdram-iscsi", "image=disc.img", f"port={port}")
        self.assertIn(f"port={port}: ", told.stdout)


class Units(FolderTest):
    """The unit without its target: long commands, what is synced, and sessions that are renewed."""

    def unit_over(self, renew_at: int = RENEW_AT) -> Unit:
        """The unit of a new disc, which is formatted. The attention was told."""
        run_script("disc.img", f"press 1 1 4\npower\ncdb {READY}\n{FORMAT}\n")
        drive = HostDrive([str(PROGRAM)], "disc.img", renew_at=renew_at)
        self.addCleanup(drive.end)
        with open("disc.img", "rb") as image:
            unit = Unit(drive, image.fileno())
        self.assertEqual(self.answer(unit, READY), "check 6/29/00")
        return unit

    @staticmethod
    def answer(unit: Unit, block: str, data: bytes = b"") -> str:
        return unit.execute(bytes(8), bytes.fromhex(block), data).answer

    def test_long_writes(self) -> None:
        """One that reaches too far changes nothing; one of many blocks goes through the write cache."""
        unit = self.unit_over()
        unit.drive.say(CACHE_ON)
        self.assertEqual(self.answer(unit, "2a000000010000003100", b"\x11" * 49 * 2048), "check 5/21/00")
        unit.drive.say("cdb 35000000000000000000")
        self.assertEqual(self.answer(unit, "2a000000000000011000", b"\x22" * 272 * 2048), "good")
        self.assertEqual(self.answer(unit, "2a000000011000001200", b"\x33" * 18 * 2048), "good")
        unit.drive.cut_now()
        self.assertEqual(unit.drive.say("power"), ["ready 304"])
        unit.drive.say(f"cdb {READY}")
        shown = unit.execute(bytes(8), bytes.fromhex("28000000000000013000"), b"").data
        self.assertEqual([value for value in (0, 0x11, 0x22, 0x33) if value in shown], [0, 0x22])
        self.assertEqual(shown.count(b"\x22"), 272 * 2048)

    def test_synced(self) -> None:
        """The image is synced by FUA and SYNCHRONIZE CACHE, where they are good, and by nothing else."""
        unit = self.unit_over()
        for block, due in (("2a000000000000001000", 0), ("2a080000000000001000", 1),
                           ("aa0800000000000000100000", 1), ("35000000000000000000", 1),
                           ("28080000000000001000", 0), ("2a080000ffff00001000", 0)):
            with self.subTest(block), mock.patch("os.fdatasync") as sync:
                self.answer(unit, block, bytes(32768) if block.startswith(("2a", "aa")) else b"")
                self.assertEqual(sync.call_count, due)

    def test_hidden(self) -> None:
        """A host is told no attention of a renewal; the cache, the tray and the prevention stay."""
        unit = self.unit_over(200_000)
        unit.drive.say(CACHE_ON)
        self.assertEqual(self.answer(unit, "1e0000000100"), "good")
        for _ in range(8):
            self.assertEqual(self.answer(unit, "2a000000000000001000", b"\x11" * 32768), "good")
        self.assertGreater(unit.drive.statistics.renewals, 1)
        caching = unit.execute(bytes(8), bytes.fromhex("5a000800000000001400"), b"").data
        self.assertEqual(caching[8:11].hex(), "080a04", "the cache is on")
        self.assertEqual(self.answer(unit, EJECT), "check 5/53/02", "removal is prevented")
        self.assertEqual(self.answer(unit, "1e0000000000"), "good")
        self.assertEqual(self.answer(unit, EJECT), "good")
        unit.drive.renew()
        self.assertEqual(self.answer(unit, READY), "check 2/3a/00", "the disc is out")
        unit.drive.say("power")
        unit.drive.renew()
        self.assertEqual(self.answer(unit, READY), "check 6/29/00", "an attention that was due stays so")
        unit.drive.say("power")
        self.assertEqual(unit.drive.say("cdb 030000001200")[1][:14], "data 18 700006")
        unit.drive.renew()
        self.assertEqual(self.answer(unit, READY), "good", "an attention that REQUEST SENSE reported")

    def test_nothing_lost(self) -> None:
        """Where a block waits and cannot be written, a session is not renewed: it would be lost."""
        unit = self.unit_over(100_000)
        unit.drive.say(CACHE_ON)
        for block in (9, 10, 11, 12, 13):
            unit.drive.say(f"fail {block}")
        for value in range(4):
            self.assertEqual(self.answer(unit, "2a000000000000001000", bytes([value]) * 32768), "good")
        self.assertEqual(unit.drive.statistics.renewals, 0)
        self.assertEqual(self.answer(unit, "35000000000000000000"), "check 3/32/00 info 0")
        with self.assertRaises(Refused):
            unit.drive.renew()
        shown = unit.execute(bytes(8), bytes.fromhex("28000000000000000100"), b"")
        self.assertEqual(shown.data, b"\x03" * 2048, "what waits is still shown")


class ByOthers(FolderTest):
    """What libiscsi and QEMU make of the target."""

    @needs("iscsi-ls", "iscsi-inq")
    def test_found(self) -> None:
        """libiscsi's tools find the drive, and decode what it says of itself."""
        with Served(*NEW) as served:
            told = done("iscsi-ls", "-s", f"iscsi://127.0.0.1:{served.port}/").stdout
            self.assertIn(f"Target:{TARGET} Portal:127.0.0.1:{served.port},1", told)
            self.assertRegex(told, r"Lun:0 +Type:MMC")
            told = done("iscsi-inq", served.uri).stdout
            self.assertIn("Product:SECTOR DRIVE", told)
            self.assertIn("Removable:1", told)
            told = done("iscsi-inq", "-e", "1", "-c", "0", served.uri).stdout
            self.assertIn("SUPPORTED_VPD_PAGES", told)

    @needs("qemu-io", "qemu-img", "qemu-iscsi")
    def test_qemu(self) -> None:
        """QEMU's block layer writes and reads by long commands, over a block that dies, and a whole image."""
        with Served(*LARGE) as served:
            self.assertEqual(qemu_io(served.uri, "write -P 7 6k 400k", "write -f -P 9 1M 4M", "flush",
                                     "read -P 7 6k 400k", "read -P 9 1M 4M"), [
                f"{verb} {size}/{size} bytes at offset {at}" for verb, size, at in (
                    ("wrote", 409600, 6144), ("wrote", 4194304, 1048576),
                    ("read", 409600, 6144), ("read", 4194304, 1048576))])
            self.assertEqual(served.tell("fail 97"), ["failed"])
            size = int(re.findall(r"\((\d+) bytes\)", done("qemu-img", "info", served.uri).stdout)[0])
            Path("raw").write_bytes(random_bytes(random.Random(9), size))
            told = done("qemu-img", "convert", "-n", "-f", "raw", "-O", "raw", "raw", served.uri)
            self.assertEqual(told.stdout, "")
            told = done("qemu-img", "compare", "-f", "raw", "-F", "raw", "raw", served.uri)
            self.assertEqual(told.stdout, "Images are identical.\n")

    @needs("iscsi-test-cu")
    def test_suite(self) -> None:
        """Of libiscsi's own tests these fail, and no others: none by a fault of the drive."""
        with Served(*LARGE) as served:
            told = done("iscsi-test-cu", "--dataloss", "-t", "ALL", served.uri).stdout
        self.assertEqual(failed_in(told), set(FAILURES))


def failed_in(told: str) -> set[str]:
    """The tests that the suite calls failed. Raises `ValueError` where it did not come to its end."""
    suite = test = ""
    failed = set()
    for line in told.splitlines():
        found = re.match(r"Suite: (\w+)|  Test: (\S+) \.\.\.(.*)", line)
        if found and found[1]:
            suite = found[1]
        elif found:
            test, line = f"{suite}.{found[2]}", found[3]
        if line.startswith("FAILED"):
            failed.add(test)
    if "Run Summary" not in told:
        raise ValueError(f"the suite ended in {test}")
    return failed
