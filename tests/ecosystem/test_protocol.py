"""The protocol of the pipes: sessions are renewed, answers that are cut short are told, and their rows are
counted rightly."""
from __future__ import annotations

import os
import random
from pathlib import Path

from dvdram import Ended, Refused
from dvdram.drive import FORMAT, RENEW_AT, Drive
from support import PROGRAM, FolderTest, random_bytes, run_script

SIZE = 304 * 2048
CUT_SHORT = {
    "no line feed": "printf '1 ready 304\\n2 good\\n3 good\\nsector 0 fill 00\\nsector 1 fill 00'",
    "digits missing": "printf '1 ready 304\\n2 good\\n3 good\\nsector 0 hex 00\\nsector 1 fill 00\\n'",
    "rows missing": "printf '1 ready 304\\n2 good\\n3 good\\nsector 0 fill 00\\n'",
    "another sector": "printf '1 ready 304\\n2 good\\n3 good\\nsector 1 fill 00\\nsector 0 fill 00\\n'",
    "another line": "printf '1 ready 304\\n2 good\\n4 good\\n'",
    "nothing": ":",
}


def drive_over(image: str, renew_at: int = RENEW_AT) -> Drive:
    """A drive over a new disc, which is formatted."""
    run_script(image, f"press 1 1 4\npower\ncdb 000000000000\n{FORMAT}\n")
    return Drive([str(PROGRAM)], image, renew_at=renew_at)


class Protocol(FolderTest):
    """Sessions of the program."""

    def test_renewals(self) -> None:
        """A session is renewed before its script is full, with the power as it was; one with something armed
        is put off."""
        data, back = memoryview(random_bytes(random.Random(3), SIZE)), bytearray(SIZE)
        drive = drive_over("disc.img", renew_at=200_000)
        self.addCleanup(drive.end)
        for at in range(0, SIZE, 38 * 2048):
            drive.write(at // 2048, data[at:at + 38 * 2048])
        drive.read(0, memoryview(back))
        self.assertTrue(bytes(back) == bytes(data), "what was written over renewals")
        self.assertGreater(drive.statistics.renewals, 4)
        before = drive.statistics.renewals
        drive.say("wear 20 1000")
        drive.write(0, data)
        self.assertEqual(drive.statistics.renewals, before, "renewals while something is armed")
        drive.renew()
        self.assertEqual(drive.armed, [], "what is armed after a renewal")
        drive.cut_now()
        drive.renew()
        self.assertEqual(drive.say("cdb 000000000000"), ["off"], "the power after a renewal without it")

    def test_answers_cut_short(self) -> None:
        """Where the program ends in the middle of an answer, or answers another line, that is told, and
        nothing waits."""
        for name, answer in CUT_SHORT.items():
            more = "read a; read b; read c\n"
            if name.startswith("another"):
                more = "cat >/dev/null\n"
            elif name == "nothing":
                more = ""
            Path("fake").write_text(f"#!/bin/sh\n{answer}\n{more}", encoding="ascii")
            os.chmod("fake", 0o755)
            with self.subTest(name), self.assertRaises(Ended):
                Drive([str(Path("fake").absolute())], "disc.img").read(0, memoryview(bytearray(4096)))

    def test_rows(self) -> None:
        """After each command, with its reply cut to each length, the next answer is that of the next line."""
        drive = drive_over("disc.img")
        self.addCleanup(drive.end)
        drive.say("cdb 000000000000")
        blocks = [f"{code}{n:02x}00" for code in ("03000000", "12000000", "12010000", "1a003f00")
                  for n in (0, 1, 18, 36, 255)]
        blocks += [f"{code}{n:04x}00" for code in ("23000000000000", "46000000000000", "4a010000100000",
                                                   "51000000000000", "5a003f00000000")
                   for n in (0, 1, 8, 300)]
        blocks += [f"ad000000000000{form}{n:04x}0000" for form in ("08", "0a") for n in (0, 4, 2052, 4000)]
        blocks += ["25000000000000000000", "28000000000f00000300", "2800000000000000000000",
                   "a80000000001000000110000", "2f000000000000013000", "35000000000000000000", "ff", "28",
                   "280000000000000500", "12",
                   "1e0000000100"]
        for block in blocks:
            with self.subTest(f"cdb {block}"):
                drive.say(f"cdb {block}")
                self.assertEqual(drive.say("fail 99"), ["no such block"])

    def test_refusals(self) -> None:
        """The first answer that is not good is raised, and the lines sent ahead do not get the drive out of
        step."""
        drive, data = drive_over("disc.img"), memoryview(random_bytes(random.Random(4), SIZE))
        self.addCleanup(drive.end)
        for spare in (9, 10, 11, 12, 15):
            drive.say(f"fail {spare}")
        with self.assertRaises(Refused) as refused:
            drive.write(0, data)
        self.assertEqual(refused.exception.answer, "check 3/32/00 info 32")
        back = bytearray(32 * 2048)
        drive.read(0, memoryview(back))
        self.assertTrue(bytes(back) == bytes(data[:32 * 2048]), "the blocks before")
