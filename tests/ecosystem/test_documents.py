"""What the documents show of the tools: the session of docs/BLOCK_DEVICE.md, the lines of README, and the
picture."""
from __future__ import annotations

import re
import subprocess
from pathlib import Path

from support import FILES, NBD, ROOT, SECONDS, TOOLS, FolderTest, done, needs, run_script

PAGE = ROOT / "docs" / "BLOCK_DEVICE.md"
BLOCKS = re.compile(r"^```console\n(.*?)^```$", re.M | re.S)
PARTS = "Quick start|Use it as a disk|The program itself"
QUICK = re.compile(rf"^##+ (?:{PARTS})\n.*?^```text\n(.*?)^```$", re.M | re.S)
MARK = "@@@"
# Blocks are slipped, replaced and retired, spares are added, one block is torn, and one is dead that nobody
# has written since.
PICTURED = """press 3 3 24
fail 60
fail 61
fail 190
power
cdb 000000000000
cdb 041100000000 hex 000000080000000000000800
cdb 041100000000 hex 0000000800000c0004000000
fail 40
fail 41
fail 121
fail 29
cdb aa0000000000000004000000 fill aa
cdb aa0000000400000004000000 fill bb
fail 100
fail 146
cut 1 torn
cdb aa0000000800000000100000 fill cc
"""


def steps_of(text: str) -> list[tuple[str, str]]:
    """Each command of the blocks, with what stands below it."""
    parts = re.split(r"^\$ (.*)\n", "".join(BLOCKS.findall(text)), flags=re.M)
    return list(zip(parts[1::2], parts[2::2]))


def quick_starts(page: Path) -> list[str]:
    """The first lines of each part of a page, where the folder has what they name."""
    for name in ("tools", "examples"):
        Path(name).symlink_to(ROOT / name)
    drive = Path("drive")
    drive.write_text(f'#!/bin/sh\nexec {ROOT / "drive"} "$@"\n', encoding="utf-8")
    drive.chmod(0o755)
    return QUICK.findall(page.read_text(encoding="utf-8"))


class Documents(FolderTest):
    """The documents of the tools."""

    @needs(*FILES, "nbdinfo")
    def test_session(self) -> None:
        """Each command of the session prints what stands below it."""
        steps = steps_of(PAGE.read_text(encoding="utf-8"))
        Path("tools").symlink_to(TOOLS)
        script = "".join(f"{command}\necho '{MARK}'\n" for command, _ in steps)
        with open("printed", "w+", encoding="utf-8") as printed:
            subprocess.run(["bash", "-c", script], stdin=subprocess.DEVNULL, stdout=printed,
                           stderr=subprocess.STDOUT, timeout=4 * SECONDS, check=False)
            printed.seek(0)
            found = printed.read().split(f"{MARK}\n")
        self.assertGreater(len(steps), 20)
        self.assertEqual(len(found), len(steps) + 1)
        for (command, due), one in zip(steps, found):
            with self.subTest(command):
                self.assertEqual(one, due)

    @needs("nbdinfo")
    def test_quick_start_of_the_program(self) -> None:
        """The three lines on the program itself work as they stand, once the server listens."""
        served = quick_starts(PAGE)[0].replace("&\n", "& until [ -S disk.sock ]; do sleep 0.1; done\n")
        told = done("bash", "-c", served + "kill %1\n").stdout
        for due in ("end 4", "export-size: 32178176", "block_size_minimum: 2048"):
            self.assertIn(due, told)

    @needs("nbdfuse", "fuse")
    def test_disk_of_readme(self) -> None:
        """The lines of README make a disk of a new disc."""
        lines = quick_starts(ROOT / "README.md")[0].rstrip("\n")
        script = f"""{lines} 2>fuse.log &
until [ -e mnt/disk ]; do sleep 0.1; done
stat -c %s mnt/disk
until umount mnt 2>/dev/null; do sleep 0.1; done
wait
"""
        self.assertIn("end 4\n32178176\n", done("bash", "-c", script).stdout)

    @needs(*NBD, "nbdinfo")
    def test_quick_start_of_the_plugin(self) -> None:
        """The three lines on the plugin work as they stand."""
        script = quick_starts(PAGE)[1].replace("plugin ", "plugin -P disk.pid ") + "kill $(cat disk.pid)\n"
        told = done("bash", "-c", script).stdout
        for due in ("export-size: 32178176", "block_size_minimum: 2048", "failed\ndead 25\n"):
            self.assertIn(due, told)

    def test_picture(self) -> None:
        """docs/disc.svg is what the map makes of this disc."""
        run_script("disc.img", PICTURED)
        shown = done(TOOLS / "ram-map", "disc.img", "--output=svg").stdout
        self.assertTrue((ROOT / "docs" / "disc.svg").read_text(encoding="utf-8") == shown)

    @needs(*NBD, "nbdinfo", "make")
    def test_installation(self) -> None:
        """What `make install` puts under PREFIX and DESTDIR works there, and `make uninstall` leaves no
        file."""
        folder = Path("stage").absolute()
        words = ["make", "-C", str(ROOT), f"DESTDIR={folder}", "PREFIX=/opt/drive"]
        told = done(*words, "install")
        self.assertEqual(told.returncode, 0, told.stdout)
        place = folder / "opt" / "drive"
        for name in ("man/man1/ram_drive.1", "man/man1/nbdkit-dvdram-plugin.1", "man/man1/ram-map.1",
                     "man/man1/dvdram-iscsi.1", "bash-completion/completions/ram-ctl"):
            self.assertTrue((place / "share" / name).is_file(), name)
        plugin = place / "bin" / "nbdkit-dvdram-plugin"
        size = done(plugin, "-U", "-", "image=disc.img", "press=1,1,4", "format=yes",
                    "--run", 'nbdinfo --size "$uri"').stdout
        self.assertEqual(size, "622592\n")
        self.assertIn("304 sectors", done(place / "bin" / "ram-map", "disc.img").stdout)
        refusal = done(place / "bin" / "dvdram-iscsi", "image=none.img").stdout
        self.assertIn("none.img is not there", refusal)
        self.assertEqual(done(*words, "uninstall").returncode, 0)
        self.assertEqual([str(path) for path in folder.rglob("*") if not path.is_dir()], [],
                         "files that are left")
