"""A mirror of two discs as a network block device: either side is lost, the other goes on, and nothing older
comes back, whatever the order of the images."""
from __future__ import annotations

import os
import random
import signal
from pathlib import Path

from dvdram import Ended, NoLine
from dvdram.mirror import SIDES, Mirror, line_of
from support import (DISK, FILES, NBD, PROGRAM, FolderTest, Mount, Server, children_of, done, is_copied,
                     needs, random_bytes, run_script)
from test_served import CUT, READ, WROTE, Client, refusal

IMAGES = "image=one.img", "image2=two.img"
TURNED = "image=two.img", "image2=one.img"
NEW = "press=1,1,4", "format=yes"
SIZE = 304 * 2048
RECORD = 6, 7, 39, 40  # the blocks of the record of the lead on such a disc
SIDES_LOST = (  # lines for the control socket, and with @ commands of a client
    ("lead", "a"), ("a cut 1 old", "armed"), ("@write -P 1 0 32k", WROTE(0)), ("lead", "b"),
    ("@read -P 1 0 32k", READ(0)), ("power", "ready 304"), ("lead", "b"),
    ("b cut 3 torn", "armed"), ("@write -P 2 0 64k", f"write failed: {CUT}"),
    ("@read 0 2k", f"read failed: {CUT}"), ("read 0 1", "off"), ("resync", "off"), ("power", "ready 304"),
    ("@read -P 2 0 32k", READ(0)), ("@read 32k 2k", f"read failed: {CUT}"),
    ("@write -P 3 32k 32k", WROTE(32768)), ("resync", "left 0"), ("b cut 1 new", "armed"),
    ("@read -P 3 32k 32k", READ(32768)), ("lead", "a"), ("@write -P 4 0 32k", WROTE(0)),
)
ONE_LEADS = (  # where the power comes on again by itself, and the lead is given by hand
    ("lead", "b"), ("b cut 1 old", "armed"), ("@read 0 2k", f"read failed: {CUT}"),
    ("@read -P 4 0 32k", READ(0)), ("resync", "left 0"), ("a cut 1 old", "armed"),
    ("@write -P 5 0 32k", WROTE(0)), ("power", "ready 304"), ("lead a", "a"),
    ("@read -P 4 0 32k", READ(0)), ("lead b", "b"), ("@read -P 5 0 32k", READ(0)), ("lead", "b"),
)
BLOCKS_LOST = (
    ("a fail 14", "failed"), ("@read -P 0 32k 32k", READ(32768)),
    ("@write -P 1 32k 2k", f"write failed: {CUT}"), ("@write -P 1 32k 32k", WROTE(32768)),
    ("list", "a dead 14"), ("b wear 15 1", "armed"), ("list", "a dead 14|armed b wear 15 1"),
    ("@write -P 4 64k 32k", WROTE(65536)), ("list", "a dead 14|b dead 15"), ("a fail 9", "failed"),
    ("a fail 10", "failed"), ("a fail 11", "failed"), ("a fail 12", "failed"),
    ("@write -P 2 32k 32k", "write failed: No space left on device"),
    ("a fail 16", "failed"), ("b fail 16", "failed"), ("@read 96k 2k", f"read failed: {CUT}"),
    ("write 0 1 count 09", "good"), ("read 0 2", "good|sector 0 fill 09|sector 1 fill 00"),
    ("read 304 1", "range 304"), ("a fail 41", "no such block"), ("fail 3", "not in the script language"),
    ("cut now", "cut"), ("cut now", "off"), ("@read 0 2k", f"read failed: {CUT}"), ("power", "ready 304"),
    ("lead b", "b"), ("@read 0 2k", f"read failed: {CUT}"), ("lead", "b"), ("power", "ready 304"),
    ("@read -P 4 64k 32k", READ(65536)),
)
NO_LINES = (
    "press 1 1 4", "fail 3", "c fail 3", "a b fail 3", "a power", "a wear 3 0", "b cut 0 old", "lead c",
    "a fail 4294967296", "read 0 0", "read 0 1025", "read 0", "write 0 1 hex 00", "write 0 0 fill 00",
    "write 0 1 fill", "cdb 00", "tick", "",
)
REFUSED = (  # parameters, and what is told of them
    ("image=one.img image2=one.img", "one.img: a mirror has two images"),
    ("image=one.img image2=two.img layout=groups",
     "Wrong: layout=groups: the discs of a mirror have one group of spares"),
    ("image=one.img image2=none.img", "none.img is not there: press=ZONES,SCALE,SPARES makes it"),
    ("image=one.img image2=other.img", "other.img hold discs of different numbers: they make no mirror"),
    ("image=one.img image2=small.img", "small.img 272: they make no mirror"),
    ("image=one.img image2=bare.img", "bare.img is not formatted: format=yes formats it"),
    ("image=new.img image2=one.img press=1,1,4 format=yes", "one.img first, which has the files"),
    ("image=new.img image2=one.img press=1,1,4 format=yes", "one.img first, which has the files"),
)
SHRINK = "cdb 041100000000 hex 000000080000011004000000"
FORMATTED = "power\ncdb 000000000000\ncdb 041100000000 hex 000000080000000000000800\n"


def kill_program(server: Server) -> None:
    for program in children_of(server.process.pid):
        os.kill(program, signal.SIGKILL)


def new_mirror(renew_at: int) -> Mirror:
    """A mirror of two new discs, which have the same sectors."""
    for image in ("one.img", "two.img"):
        run_script(image, f"press 1 1 4\n{FORMATTED}")
    return Mirror([str(PROGRAM)], ("one.img", "two.img"), resyncs=True, renew_at=renew_at)


class Mirrored(FolderTest):
    """A mirror over nbdkit."""

    def see_answers(self, server: Server, steps: tuple[tuple[str, str], ...]) -> None:
        """Sees that lines and commands are answered so, while a client stays connected."""
        client = Client(server)
        try:
            for line, due in steps:
                found = client.do(line[1:]) if line.startswith("@") else "|".join(server.tell(line))
                self.assertEqual(found, due, line)
        finally:
            client.kill()
        self.assertNotIn("Traceback", server.told())

    @needs(*NBD, "qemu-io")
    def test_sides_are_lost(self) -> None:
        """A side that is lost is not missed where no block is apart, and else a client is told."""
        with Server(*IMAGES, *NEW) as server:
            self.see_answers(server, SIDES_LOST)
        with Server(*TURNED, "poweroff=again") as server:
            self.see_answers(server, ONE_LEADS)

    @needs(*NBD, "qemu-io")
    def test_blocks_are_lost(self) -> None:
        """Where the lead lacks a block the other side has it. Errors are those of docs/BLOCK_DEVICE.md."""
        with Server(*IMAGES, *NEW) as server:
            self.see_answers(server, BLOCKS_LOST)

    @needs(*NBD, "qemu-io")
    def test_no_record(self) -> None:
        """Where a record of the lead is lost nobody leads, until a person says who does."""
        with Server(*IMAGES, *NEW) as server:
            self.assertEqual(server.io("write -P 5 0 32k"), [WROTE(0)])
            self.assertEqual(server.tell(*(f"a fail {block}" for block in RECORD)), ["failed"] * 4)
            self.assertEqual(server.tell("power", "lead"), ["unknown", "unknown"])
        due = "two.img leads cannot be told: with control=SOCKET `lead a` or `lead b` says it"
        self.assertEqual(refusal(*IMAGES)[-len(due):], due)
        with Server(*IMAGES) as server:
            self.assertEqual(server.tell("lead a", "lead b", "power", "disarm", "lead"),
                             ["no update 2", "b", "ready 304", "disarmed", "b"])
            self.assertEqual(server.io("read -P 5 0 32k"), [READ(0)], "a read after a renewal")
            kill_program(server)
            self.assertEqual(server.tell("lead", "lead")[1:], ["unknown"], "the lead after the program ended")

    @needs(*NBD, "qemu-io")
    def test_a_new_disc(self) -> None:
        """A new disc takes the place of either one, whichever stands first, and is brought up to date."""
        with Server(*IMAGES, *NEW) as server:
            self.assertEqual(server.io("write -P 1 0 32k"), [WROTE(0)])
        cases = ("one.img", IMAGES, "b"), ("two.img", IMAGES, "a"), ("one.img", TURNED, "a")
        for number, (lost, words, lead) in enumerate(cases, 2):
            Path(lost).unlink()
            with self.subTest(number), Server(*words, *NEW) as server:
                self.assertEqual(server.io(f"read -P {number - 1} 0 32k"), [READ(0)])
                self.assertEqual(server.tell("lead", f"{lead} cut 1 old"), [lead, "armed"])
                self.assertEqual(server.io(f"write -P {number} 0 32k", f"read -P {number} 0 32k"),
                                 [WROTE(0), READ(0)])
                self.assertEqual(server.tell("lead"), [SIDES[lead == "a"]])

    @needs(*NBD)
    def test_bad_parameters(self) -> None:
        """Each is told in one line."""
        for image, numbers, more in (("one.img", "1 1 4", FORMATTED), ("bare.img", "1 1 4", ""),
                                     ("other.img", "1 1 5", FORMATTED),
                                     ("small.img", "1 1 4", f"{FORMATTED}{SHRINK}\n")):
            run_script(image, f"press {numbers}\n{more}")
        for words, due in REFUSED:
            with self.subTest(words):
                self.assertEqual(refusal(*words.split())[-len(due):], due)

    def test_lines(self) -> None:
        """What is no line of a mirror is told, and the program does not see it."""
        for line in NO_LINES:
            with self.subTest(line), self.assertRaises(NoLine):
                line_of(line)

    def test_renewals(self) -> None:
        """A session is renewed before its script is full, or where the program was killed, and the sides are
        then alike as before: each can be lost."""
        data, back = memoryview(random_bytes(random.Random(3), SIZE)), bytearray(SIZE)
        mirror = new_mirror(renew_at=200_000)
        self.addCleanup(mirror.end)
        for side in SIDES:
            before = mirror.statistics.renewals
            for at in range(0, SIZE, 38 * 2048):
                mirror.write(at // 2048, data[at:at + 38 * 2048])
            self.assertGreater(mirror.statistics.renewals, before + 4)
            mirror.renew()
            mirror.say(f"{side} cut 1 old")
            mirror.read(0, memoryview(back))
            self.assertTrue(bytes(back) == bytes(data), f"what was written, without side {side}")
            self.assertEqual(mirror.say("lead"), [SIDES[side == "a"]])
            mirror.live.process.kill()
            with self.assertRaises(Ended):
                mirror.say("lead")
            data = data[::-1]
        mirror.cut_now()
        mirror.renew()
        self.assertEqual(mirror.say("lead"), ["unknown"], "the power after a renewal without it")


ROUNDS = (  # the order of the images, the side that leads, the one that is lost, and the lead then
    (IMAGES, "a", "a", "b"), (TURNED, "a", "b", "a"), (IMAGES, "b", "b", "a"), (TURNED, "b", "a", "b"),
)


class FileSystems(FolderTest):
    """File systems on a mirror: in each round the sides are made alike, and one is lost in the middle of a
    write."""

    def keep(self, chance: random.Random, kept: dict[str, bytes], count: int) -> None:
        """Copies new files to the disk."""
        for _ in range(count):
            name = f"FILE{len(kept)}.BIN"
            kept[name] = random_bytes(chance, chance.randrange(1, 60_000))
            Path(name).write_bytes(kept[name])
            self.assertTrue(is_copied(name, f"d:{name}"), name)

    def see(self, kept: dict[str, bytes], when: str) -> None:
        """Sees that the file system is in order, and each file as it was copied."""
        self.assertEqual(done("fsck.fat", "-n", DISK).returncode, 0, when)
        for name, data in kept.items():
            self.assertTrue(is_copied(f"d:{name}", "read"), f"{name} {when}")
            self.assertTrue(Path("read").read_bytes() == data, f"{name} {when}")

    def see_lead(self, server: Server, lead: str, lost: str, left: int) -> None:
        """Sees who leads, and that the other side is down, so that as many blocks are left."""
        self.assertEqual(server.tell("lead", "resync"), [lead, f"left {left}"], f"without side {lost}")

    @needs(*FILES)
    def test_through_the_loss_of_a_side(self) -> None:
        """Files are copied while a side is lost, the lead or the other one. They are right then, and in the
        next round."""
        chance = random.Random(7)
        kept: dict[str, bytes] = {}
        DISK.parent.mkdir()
        for number, (images, lead, lost, next_lead) in enumerate(ROUNDS):
            server = Server(*images, "press=1,2,24", "format=yes", "minblock=2048",
                            options=("--filter=blocksize",))
            with server, Mount(DISK, server.uri) as mount:
                if not kept:
                    self.assertEqual(done("mkfs.fat", "-S", "2048", "-s", "1", DISK).returncode, 0)
                self.see(kept, f"at the start of round {number}")
                self.assertEqual(server.tell("lead", "resync"), [lead, "left 0"])
                self.keep(chance, kept, 1)
                server.tell(f"{lost} cut {7 + 6 * number} torn")
                self.keep(chance, kept, 3)
                self.see_lead(server, next_lead, lost, 24)
                mount.again()
                self.see(kept, f"at the end of round {number}")

    @needs(*NBD, "nbdfuse", "fuse", "mkfs.ext4", "e2fsck", "debugfs")
    def test_a_journal_through_the_loss_of_a_side(self) -> None:
        """A file system with a journal is made with files in it, while a side is lost."""
        DISK.parent.mkdir()
        Path("files").mkdir()
        for number, (images, lead, lost, next_lead) in enumerate(ROUNDS):
            Path("files", str(number)).write_bytes(random_bytes(random.Random(number), 300_000))
            with Server(*images, "press=1,10,16", "format=yes", "minblock=2048",
                        options=("--filter=blocksize",)) as server, Mount(DISK, server.uri) as mount:
                self.assertEqual(server.tell("lead", "resync"), [lead, "left 0"])
                server.tell(f"{lost} cut {31 + 22 * number} torn")
                made = done("mkfs.ext4", "-q", "-F", "-b", "2048", "-d", "files", DISK)
                self.assertEqual(made.stdout, "", f"round {number}")
                self.see_lead(server, next_lead, lost, 232)
                mount.again()
                self.assertEqual(done("e2fsck", "-f", "-n", DISK).returncode, 0, f"round {number}")
                for at in range(number + 1):
                    done("debugfs", "-R", f"dump {at} read", DISK)
                    self.assertTrue(Path("read").read_bytes() == Path("files", str(at)).read_bytes(),
                                    f"file {at} in round {number}")

    @needs(*NBD, "fio")
    def test_verified_load(self) -> None:
        """fio reads back what it wrote, with checksums, while a side is lost in the middle of it."""
        for number, (images, lead, lost, next_lead) in enumerate(ROUNDS):
            with Server(*images, "press=1,4,16", "format=yes") as server:
                self.assertEqual(server.tell("lead", "resync"), [lead, "left 0"])
                server.tell(f"{lost} cut {21 + 30 * number} torn")
                told = done("fio", "--name=load", "--ioengine=nbd", f"--uri={server.uri}", "--rw=randwrite",
                            "--bs=2k-64k", "--blockalign=2k", "--size=2m", "--io_size=2m",
                            "--verify=crc32c", "--do_verify=1", f"--randseed={number}")
                self.assertEqual(told.returncode, 0, told.stdout)
                self.see_lead(server, next_lead, lost, 82)
