"""The program's word `nbd` under the clients that its users know: there and back, file systems, failures."""
from __future__ import annotations

import random
import subprocess
from pathlib import Path
from typing import Any

from support import (PROGRAM, SECONDS, TOOLS, FolderTest, Mount, done, needs, qemu_io, random_bytes,
                     run_script, wait_until)

SERVER = TOOLS / "dvdram-nbd"
SIZE = 304 * 2048
ACTIVATED = ("[", SERVER, "disc.img", "]")
CUT = "Cannot send after transport endpoint shutdown"
WROTE = "wrote 32768/32768 bytes at offset {}".format


def make_disc(press: str = "press 1 1 4") -> None:
    """A formatted disc in the folder."""
    script = f"{press}\npower\ncdb 000000000000\ncdb 041100000000 hex 000000080000000000000800\n"
    assert run_script("disc.img", script)[-1] == "end 4"


def mounted() -> Mount:
    """The disc as a file, by one connection, in which the parts of sectors that file systems write become
    sectors."""
    Path("mnt").mkdir(exist_ok=True)
    return Mount(Path("mnt") / "disk", "--command", "nbdkit", "-s", "--filter=blocksize", "nbd",
                 f"command={SERVER}", "arg=disc.img", "minblock=2048")


def served_by_pipes() -> subprocess.Popen[bytes]:
    """The program with pipes in place of a client."""
    return subprocess.Popen([PROGRAM, "nbd", "disc.img"], stdin=subprocess.PIPE, stdout=subprocess.PIPE)


class Listening:
    """`dvdram-nbd` at a path of this folder, with faults as words."""

    def __init__(self, *faults: str) -> None:
        self.process = subprocess.Popen([SERVER, "--socket=disk.sock", "disc.img", *faults])
        self.uri = "nbd+unix:///?socket=disk.sock"

    def __enter__(self) -> Listening:
        wait_until(Path("disk.sock").exists, "a server listens")
        return self

    def __exit__(self, *_: Any) -> None:
        self.process.terminate()
        self.process.wait(SECONDS)
        Path("disk.sock").unlink(missing_ok=True)


class Clients(FolderTest):
    """The program as a server of its own."""

    @needs("nbdinfo", "nbdcopy")
    def test_there_and_back(self) -> None:
        """What nbdcopy writes, without a flush too, is read back by the next session."""
        make_disc()
        raw = random_bytes(random.Random(1), SIZE - 65536) + bytes(32768) + b"\xaa" * 32768
        Path("raw").write_bytes(raw)
        self.assertEqual(done("nbdinfo", "--size", *ACTIVATED).stdout, f"{SIZE}\n")
        self.assertEqual(done("nbdcopy", "raw", *ACTIVATED).stdout, "")
        self.assertEqual(done("nbdcopy", *ACTIVATED, "back").stdout, "")
        self.assertTrue(Path("back").read_bytes() == raw, "the bytes that came back")

    @needs("nbdinfo", "qemu-io")
    def test_what_is_served(self) -> None:
        """nbdinfo tells what is offered; and qemu-io, of an image without a disc, why nothing is."""
        make_disc()
        told = done("nbdinfo", *ACTIVATED).stdout
        for line in ("is_rotational: true", "can_flush: true", "can_fua: true", "can_zero: true",
                     "can_trim: false", "block_size_minimum: 2048", "block_size_maximum: 33554432"):
            self.assertIn(line, told)
        run_script("disc.img", "press 1 1 4\n")
        with Listening() as server:
            self.assertIn("server reported: the disc is not formatted", qemu_io(server.uri, "read 0 2k"))
        Path("disc.img").write_bytes(b"no disc")
        with Listening() as server:
            self.assertIn("server reported: the image holds no disc", qemu_io(server.uri, "read 0 2k"))

    @needs("qemu-img", "qemu-io")
    def test_seen_by_qemu(self) -> None:
        """qemu-img converts and compares, and qemu-io writes parts, zeros and by FUA."""
        make_disc()
        Path("raw").write_bytes(random_bytes(random.Random(2), SIZE))
        with Listening() as server:
            for words, due in (("convert -n -f raw -O raw raw", ""),
                               ("compare -f raw -F raw raw", "Images are identical.\n")):
                self.assertEqual(done("qemu-img", *words.split(), server.uri).stdout, due, words)
            told = qemu_io(server.uri, "write -P 7 6k 40k", "write -z 32k 64k", "write -f -P 9 100k 2k",
                           "flush", "read -P 7 6k 26k", "read -P 0 32k 64k", "read -P 9 100k 2k")
            self.assertEqual(told, [f"{verb} {size}/{size} bytes at offset {at}" for verb, size, at in (
                ("wrote", 40960, 6144), ("wrote", 65536, 32768), ("wrote", 2048, 102400),
                ("read", 26624, 6144), ("read", 65536, 32768), ("read", 2048, 102400))])

    @needs("qemu-io")
    def test_faults(self) -> None:
        """Blocks die and the power is cut at the uses that the words name; the next session has the disc."""
        make_disc()
        with Listening("fail 14") as server:
            told = qemu_io(server.uri, "read 32k 2k", "write -P 2 32k 2k", "write -P 2 32k 32k", "flush")
            self.assertEqual(told, ["read failed: Input/output error", "write failed: Input/output error",
                                    WROTE(32768)])
        with Listening("cut 2 torn") as server:
            self.assertEqual(qemu_io(server.uri, "write -f -P 3 64k 32k", "read 0 2k"),
                             [f"write failed: {CUT}", f"read failed: {CUT}"])
        with Listening() as server:
            self.assertEqual(qemu_io(server.uri, "read -P 2 32k 32k", "write -f -P 4 64k 32k"),
                             ["read 32768/32768 bytes at offset 32768", WROTE(65536)])

    @needs("nbdkit", "nbdfuse", "fuse", "mkfs.fat", "mcopy", "fsck.fat")
    def test_a_file_system(self) -> None:
        """A file system of DOS lives on the disc, over two connections."""
        make_disc("press 1 2 24")
        Path("one").write_bytes(random_bytes(random.Random(3), 100_000))
        with mounted() as mount:
            self.assertEqual(done("mkfs.fat", "-S", "2048", mount.disk).returncode, 0)
            self.assertEqual(done("mcopy", "-i", mount.disk, "one", "::").stdout, "")
        with mounted() as mount:
            self.assertEqual(done("fsck.fat", "-n", mount.disk).returncode, 0)
            self.assertEqual(done("mcopy", "-i", mount.disk, "::one", "back").stdout, "")
        self.assertTrue(Path("back").read_bytes() == Path("one").read_bytes(), "the file that came back")

    @needs("nbdkit", "nbdfuse", "fuse", "mkfs.ext4", "e2fsck")
    def test_a_journal(self) -> None:
        """A file system with a journal is made over the disc, and is in order in the next connection."""
        make_disc("press 1 40 16")
        with mounted() as mount:
            self.assertEqual(done("mkfs.ext4", "-q", "-b", "2048", mount.disk).stdout, "")
        with mounted() as mount:
            self.assertEqual(done("e2fsck", "-f", "-n", mount.disk).returncode, 0)

    @needs("fio")
    def test_verified_load(self) -> None:
        """fio reads back what it wrote, with checksums."""
        make_disc("press 1 4 16")
        with Listening() as server:
            told = done("fio", "--name=load", "--ioengine=nbd", f"--uri={server.uri}", "--rw=randwrite",
                        "--bs=2k-64k", "--blockalign=2k", "--size=2m", "--io_size=4m", "--verify=crc32c",
                        "--do_verify=1", "--randseed=4")
            self.assertEqual(told.returncode, 0, told.stdout)

    def test_a_client_that_goes_away(self) -> None:
        """A client that goes away before it was told ends the program with status 6, and by no signal."""
        make_disc()
        with served_by_pipes() as served:
            assert served.stdin and served.stdout
            self.assertEqual(len(served.stdout.read(18)), 18)
            served.stdout.close()
            served.stdin.write(b"\0\0\0\3IHAVEOPT\0\0\0\3\0\0\0\0")
            served.stdin.close()
            self.assertEqual(served.wait(SECONDS), 6)

    def test_an_image_in_use(self) -> None:
        """A second drive over an image that is served is refused, and a look at it is not."""
        make_disc()
        with served_by_pipes() as served:
            assert served.stdin and served.stdout
            served.stdout.read(18)
            for word, status in (("nbd", 4), ("run", 4), ("groups", 4), ("audit", 0)):
                found = subprocess.run([PROGRAM, word, "disc.img"], stdin=subprocess.DEVNULL,
                                       stdout=subprocess.DEVNULL, timeout=SECONDS, check=False)
                self.assertEqual(found.returncode, status, word)
            served.stdin.close()
            self.assertEqual(served.wait(SECONDS), 0)
