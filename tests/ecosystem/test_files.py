"""A file system on the drive, through dying blocks and power cuts: what was acknowledged is there."""
from __future__ import annotations

import json
import random
from dataclasses import dataclass, field
from pathlib import Path
from typing import Any

from support import DISK, FILES, TOOLS, FolderTest, Mount, Server, done, is_copied, needs, random_bytes

NEW = "press=1,2,24", "format=yes", "minblock=2048", "poweroff=again"
COPIES = 20
DEAD = 35, 36, 38, 40, 41, 43, 45, 46, 32, 31  # blocks that have no file yet, and two spares


def runs_of(role: str, state: str) -> list[dict[str, Any]]:
    """The runs of blocks that the map of the disc names so."""
    runs = json.loads(done(TOOLS / "ram-map", "disc.img", "--output=json").stdout)
    return [run for run in runs if (run["role"], run["state"]) == (role, state)]


def heal(server: Server) -> None:
    """Writes each dead block of data whole, as docs/BLOCK_DEVICE.md has it, and has the file system
    repaired."""
    for run in runs_of("data", "dead"):
        for block in range(run["length"]):
            server.io(f"write -z {(run['sector'] + 16 * block) * 2048} 32k")
    done("fsck.fat", "-a", DISK)


@dataclass
class Tally:
    """What happened to the copies: how many files were kept, how many copies failed at first, and how many
    cuts fell in one."""

    kept: dict[str, bytes] = field(default_factory=dict)
    failed: int = 0
    cuts: int = 0

    def copy(self, server: Server, mount: Mount, name: str, arm: str | None) -> bool:
        """Copies a file to the disc with a cut armed, if one is named. What failed is healed and done again:
        whether that could be done."""
        server.tell(*([arm] if arm else []))
        is_done = is_copied(name, f"d:{name}")
        self.cuts += bool(arm) and f"armed {arm}" not in server.tell("list")
        server.tell("disarm")
        if not is_done:
            self.failed += 1
            mount.again()
            heal(server)
            is_done = is_copied(name, f"d:{name}")
        self.kept[name] = Path(name).read_bytes()
        return is_done


class FileSystem(FolderTest):
    """A file system on the drive."""

    @needs(*FILES, "qemu-io")
    def test_through_failures(self) -> None:
        """Files are copied while free blocks die and the power is cut; what failed is healed and done again.
        How often a copy uses the medium, and for what, depends on how the system reads ahead and puts writes
        together. But each uses it at least once, so that the first cut falls; and no file fills a block, so
        that the first copy into a dead one fails."""
        chance, tally = random.Random(5), Tally()
        DISK.parent.mkdir()
        options = ("--filter=blocksize",)
        with Server("image=disc.img", *NEW, options=options) as server, Mount(DISK, server.uri) as mount:
            self.assertEqual(done("mkfs.fat", "-S", "2048", "-s", "1", DISK).returncode, 0)
            server.tell(*(f"fail {block}" for block in DEAD))
            for number in range(COPIES):
                name = f"FILE{number}.BIN"
                Path(name).write_bytes(random_bytes(chance, chance.randrange(1, 30_000)))
                arm = f"cut {number} {chance.choice(('old', 'new'))}" if number % 2 else None
                self.assertTrue(tally.copy(server, mount, name, arm),
                                f"{name} after it failed and was healed")
            server.tell("power")
            mount.again()
            self.assertEqual(done("fsck.fat", "-n", DISK).returncode, 0)
            for name, data in tally.kept.items():
                self.assertTrue(is_copied(f"d:{name}", "read"), name)
                self.assertEqual(Path("read").read_bytes() == data, True, f"{name} after all")
            self.assertGreater(tally.failed, 0, "copies that failed at first")
            self.assertGreater(tally.cuts, 0, "cuts that fell")
            self.assertNotEqual(runs_of("replaced", "dead"), [], "blocks that were replaced")
