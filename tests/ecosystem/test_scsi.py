"""Our replies as sg3_utils decodes them: an eye on the drive that is none of this project's."""
from __future__ import annotations

import os
import re
from pathlib import Path

from support import NBD, ROOT, TOOLS, FolderTest, Server, done, needs

REASON = re.compile(r"^\| `(\d)/(\w\w)/(\w\w)(?: info N)?` \| ([^|]+) \|", re.M)
NEW = "press=1,1,4", "format=yes"
# What is called, its exit status, and what it has to tell.
STEPS = (
    ("sg_turs -v DEV", 6, "Power on"), ("sg_turs DEV", 0, ""),
    ("sg_inq DEV", 0, "Product identification: SECTOR DRIVE"),
    ("sg_inq DEV", 0, "Peripheral device type: cd/dvd"),
    ("sg_readcap DEV", 0, "Last LBA=303 (0x12f), Number of logical blocks=304"),
    ("sg_readcap DEV", 0, "length=2048 bytes"),
    ("sg_modes DEV", 0, "Read-Write error recovery, page_control: current\n 00     01 0a 80 00"),
    ("sg_modes DEV", 0, "Caching"),
    ("sg_modes --six --page=0x2a DEV", 0, "MM capabilities and mechanical status"),
    ("sg_get_config DEV", 0, "Current profile: DVD-RAM"),
    ("sg_get_config DEV", 0, "Loading mechanism: Tray type"),
    ("sg_get_config DEV", 0, "Hardware defect management feature\n"
                             "    version=1, persist=0, current=1 [0x24]\n      SSA=1\n"),
    ("sg_get_config --rt=2 --starting=0x20 DEV", 0,
     "Features:\n  Random writable feature\n    version=1, persist=0, current=1 [0x20]\n"
     "      Last lba=0x12f, Logical block size=0x800, blocking=0x10, PP=1\n"),
    ("sg_vpd DEV", 0, "Supported VPD pages [sv]"),
    ("sg_verify --lba=0 --count=16 DEV", 0, ""), ("sg_verify --lba=400 --count=1 -v DEV", 22, "out of range"),
    ("sg_wr_mode --page=8 --contents=08,0a,0,0,0,0,0,0,0,0,0,0 DEV", 0, ""),
    ("sg_wr_mode --page=8 --contents=08,0a,4,0,0,0,0,0,0,0,0,0 DEV", 0, ""),
    ("sg_wr_mode --page=8 --contents=08,0a,5,0,0,0,0,0,0,0,0,0 -v DEV", 5, "Invalid field in parameter list"),
    ("sg_raw --send=32768 --infile=block DEV 2a 00 00 00 00 10 00 00 10 00", 0, "Good"),
    ("sg_raw --request=2048 --outfile=sector DEV 28 00 00 00 00 10 00 00 01 00", 0, "Good"),
    ("sg_dd if=/dev/dvdram blk_sgio=1 bs=2048 count=16 skip=16 of=back", 0, "16+0 records in"),
    ("sg_raw --request=8 DEV ff 00 00 00 00 00", 9, "Invalid command operation code"),
)
AFTER_A_FAILURE = (
    ("sg_verify --lba=16 --count=16 /dev/dvdram", 18, "Unrecovered read error"),
    ("sg_verify --lba=20 --count=1 /dev/dvdram", 18, "[20]"),
)


class ByOthers(FolderTest):
    """What sg3_utils makes of our replies."""

    @needs("sg_decode_sense")
    def test_reasons(self) -> None:
        """Each reason of docs/REPORT.md has the name that sg3_utils gives its sense."""
        named = REASON.findall((ROOT / "docs" / "REPORT.md").read_text(encoding="utf-8"))
        self.assertEqual(len(named), 15, "reasons in docs/REPORT.md")
        for key, code, more, name in named:
            told = done("sg_decode_sense",
                        *f"70 0 {key} 0 0 0 0 a 0 0 0 0 {code} {more} 0 0 0 0".split()).stdout
            if key != "0":
                with self.subTest(f"{key}/{code}/{more}"):
                    self.assertIn(name.lower(), told.lower())

    @needs(*NBD, "cc", "sg_inq")
    def test_replies(self) -> None:
        """sg3_utils does commands over a served drive, and reads the same from its replies as the documents
        say."""
        library = Path("dvdram_sg.so").absolute()
        words = "-O2 -Wall -Wextra -Werror -shared -fPIC -o".split()
        self.assertEqual(done("cc", *words, library, TOOLS / "sg" / "dvdram_sg.c", "-ldl").stdout, "")
        with Server("image=disc.img", *NEW) as server:
            settings = {**os.environ, "LD_PRELOAD": str(library),
                        "DVDRAM_CONTROL": str(server.control.absolute())}
            Path("block").write_bytes(b"\x5a" * 32768)
            server.tell("power")
            self.does(STEPS, settings)
            server.tell("fail 14")
            self.does(AFTER_A_FAILURE, settings)
        self.assertEqual(Path("sector").read_bytes(), b"\x5a" * 2048, "the sector of sg_raw")
        self.assertEqual(Path("back").read_bytes(), b"\x5a" * 32768, "the sectors of sg_dd")

    def does(self, steps: tuple[tuple[str, int, str], ...], settings: dict[str, str]) -> None:
        """Each of these ends with its status, and tells what it has to."""
        for line, status, due in steps:
            with self.subTest(line):
                found = done(*line.replace("DEV", "/dev/dvdram").split(), env=settings)
                self.assertEqual(found.returncode, status)
                self.assertIn(due, found.stdout)
