"""What the tests of the tools share: the program, its tools, a served drive, and a folder for each test."""
from __future__ import annotations

import os
import random
import shutil
import signal
import socket
import subprocess
import tempfile
import time
import unittest
from contextlib import suppress
from functools import lru_cache, wraps
from pathlib import Path
from typing import Any, Callable

from dvdram.control import exchange
from dvdram.prepare import lock

ROOT = Path(__file__).resolve().parents[2]
TOOLS = ROOT / "tools"
PROGRAM = ROOT / "crates" / "ram_drive" / "out" / "ram_drive"
PLUGIN = TOOLS / "nbdkit-dvdram-plugin"
SECONDS = 120
"""In which a thing comes or ends, on a machine that is busy with others too: what takes longer hangs."""

DISK = Path("mnt/disk")
"""Where a test mounts a disk, in its folder."""

NBD = ("nbdkit", "nbdkit-plugin-python")
FILES = (*NBD, "nbdfuse", "fuse", "mkfs.fat", "fsck.fat", "mcopy")


class FolderTest(unittest.TestCase):
    """Tests that run in a folder of their own, and that are stopped where they do not end."""

    def setUp(self) -> None:
        self.addCleanup(signal.signal, signal.SIGALRM, signal.signal(signal.SIGALRM, too_long))
        self.addCleanup(signal.alarm, 0)
        folder = Path(tempfile.mkdtemp())
        self.addCleanup(clear, folder)
        self.addCleanup(os.chdir, os.getcwd())
        os.chdir(folder)
        signal.alarm(5 * SECONDS)


def too_long(*_: object) -> None:
    raise TimeoutError("it does not end")


def needs(*tools: str) -> Callable[[Callable[[Any], None]], Callable[[Any], None]]:
    """A test that is left out where one of these tools is missing."""
    def decorate(test: Callable[[Any], None]) -> Callable[[Any], None]:
        @wraps(test)
        def run(case: unittest.TestCase) -> None:
            missing = [tool for tool in tools if not is_there(tool)]
            if missing:
                raise unittest.SkipTest(", ".join(missing))
            test(case)
        return run
    return decorate


@lru_cache(maxsize=None)
def is_there(tool: str) -> bool:
    """Whether this command can be used, or what this word stands for."""
    if tool == "fuse":
        return is_there("nbdfuse") and is_there("nbdkit") and can_mount()
    if tool == "qemu-iscsi":
        return is_there("qemu-img") and "Unknown protocol" not in done("qemu-img", "info", "iscsi:").stdout
    if tool == "nbdkit-plugin-python":
        return is_there("nbdkit") and done("nbdkit", "--dump-plugin", "python").returncode == 0
    return shutil.which(tool, path=os.environ["PATH"] + ":/usr/sbin:/sbin") is not None


def can_mount() -> bool:
    """Whether a disk is mounted here, for a trial: that needs /dev/fuse, and the right to mount."""
    folder = Path(tempfile.mkdtemp())
    try:
        with Mount(folder / "disk", "--command", "nbdkit", "-s", "memory", "64k"):
            return True
    except (OSError, RuntimeError):
        return False
    finally:
        clear(folder)


def random_bytes(chance: random.Random, count: int) -> bytes:
    return chance.getrandbits(8 * count).to_bytes(count, "big")


def done(*words: str | Path, env: dict[str, str] | None = None) -> subprocess.CompletedProcess[str]:
    """Runs a command to its end; all that it printed stands together."""
    return subprocess.run([str(word) for word in words], stdin=subprocess.DEVNULL, stdout=subprocess.PIPE,
                          stderr=subprocess.STDOUT, text=True, errors="replace", timeout=SECONDS, check=False,
                          env=env)


def is_copied(*words: str) -> bool:
    """Copies a file to the mounted disk or from it. Each write is synced, else the system acknowledges what
    it only keeps in memory; and mcopy has to tell nothing, for its exit status may be 0 after a failed
    write."""
    Path("mtools.conf").write_text(f'drive d: file="{DISK.absolute()}" sync\n', encoding="utf-8")
    copied = done("mcopy", "-n", "-o", *words, env={**os.environ, "MTOOLSRC": "mtools.conf"})
    return copied.returncode == 0 and not copied.stdout


def run_script(image: str | Path, script: str, word: str = "run") -> list[str]:
    """The report of this script over an image, by lines."""
    return subprocess.run([PROGRAM, word, image], input=script.encode(), stdout=subprocess.PIPE,
                          timeout=SECONDS, check=False).stdout.decode().splitlines()


def qemu_io(uri: str, *commands: str) -> list[str]:
    """What qemu-io tells of these commands, without its times."""
    words = [word for command in commands for word in ("-c", command)]
    lines = done("qemu-io", "-f", "raw", *words, uri).stdout.splitlines()
    return [line for line in lines if "ops;" not in line]


def wait_until(holds: Callable[[], bool], what: str) -> None:
    """Waits until this holds."""
    end = time.monotonic() + SECONDS
    while not holds():
        if time.monotonic() > end:
            raise TimeoutError(f"{what}: not after {SECONDS} seconds")
        time.sleep(0.01)


def is_free(image: str | Path) -> bool:
    """Whether no drive has locked this image. One that serves a single command may live on for a while after
    it."""
    with open(image, "rb+") as file:
        try:
            lock(file.fileno())
        except BlockingIOError:
            return False
    return True


def children_of(process: int) -> list[int]:
    """The processes that this one has started, by any of its threads."""
    children = []
    for folder in Path("/proc").glob("[0-9]*"):
        with suppress(OSError):  # it may have ended
            status = (folder / "status").read_text(encoding="utf-8", errors="replace")
            if f"\nPPid:\t{process}\n" in status:
                children.append(int(folder.name))
    return children


def mounts_in(folder: Path) -> list[str]:
    """What is mounted in this folder, or on it."""
    lines = Path("/proc/self/mountinfo").read_text(encoding="utf-8").splitlines()
    mounts = [line.split()[4].replace("\\040", " ") for line in lines]
    return [mount for mount in mounts if f"{mount}/".startswith(f"{folder.resolve()}/")]


def unmount(folder: str | Path, *options: str) -> bool:
    """Unmounts this folder, and says whether that was done."""
    helper = next((tool for tool in ("fusermount3", "fusermount") if shutil.which(tool)), None)
    return done(*((helper, "-u") if helper else ("umount",)), *options, folder).returncode == 0


def clear(folder: Path) -> None:
    """Removes a folder, and before it what is mounted in it, and a server that serves an image of it
    still."""
    for mount in mounts_in(folder):
        if not unmount(mount, "-z"):
            done("umount", "-l", mount)
    is_served = not all(is_free(image) for image in folder.glob("*.img"))
    for number in folder.glob("*.pid") if is_served else ():
        with suppress(OSError, ValueError):
            os.kill(int(number.read_text(encoding="ascii")), signal.SIGTERM)
    shutil.rmtree(folder, ignore_errors=True)


class Mount:
    """A disk as a file, by nbdfuse, from this source. Its folder has to be there."""

    def __init__(self, disk: Path, *source: str) -> None:
        self.disk, self.source = disk, source
        self.process: subprocess.Popen[bytes] | None = None

    def __enter__(self) -> Mount:
        self.process = self.mounted()
        return self

    def __exit__(self, *_: object) -> None:
        self.end()

    def mounted(self) -> subprocess.Popen[bytes]:
        """The process that serves the disk, once it is mounted."""
        process = subprocess.Popen(["nbdfuse", self.disk, *self.source], stdin=subprocess.DEVNULL,
                                   stdout=subprocess.DEVNULL, stderr=subprocess.DEVNULL)
        try:
            wait_until(lambda: self.disk.exists() or process.poll() is not None, "nbdfuse mounts")
            if not self.disk.exists():
                raise RuntimeError(f"nbdfuse ends with status {process.returncode}, and nothing is mounted")
        except Exception:
            process.kill()
            raise
        return process

    def end(self) -> None:
        folder = self.disk.parent
        wait_until(lambda: unmount(folder) or not mounts_in(folder), f"{folder} is unmounted")
        if self.process:
            self.process.wait(SECONDS)

    def again(self) -> None:
        """Mounts the disk anew, so that what the system kept of it in memory is gone."""
        self.end()
        self.process = self.mounted()


class Control:
    """A client of a control socket."""

    def __init__(self, path: Path) -> None:
        self.control = path

    def tell(self, *lines: str) -> list[str]:
        """Sends lines to the control socket, and gives the answers."""
        with socket.socket(socket.AF_UNIX, socket.SOCK_STREAM) as connection:
            connection.connect(str(self.control))
            with connection.makefile("rwb") as channel:
                return [row for line in lines for row in exchange(channel, line)]


class Server(Control):
    """A drive that nbdkit serves on a socket in the present folder, with a control socket."""

    def __init__(self, *words: str, options: tuple[str, ...] = ()) -> None:
        super().__init__(Path("disk.ctl"))
        self.log = open("server.log", "w+", encoding="utf-8")
        self.socket, self.number = Path("disk.sock"), Path("disk.pid")
        self.socket.unlink(missing_ok=True)
        self.number.unlink(missing_ok=True)
        self.uri = f"nbd+unix:///?socket={self.socket.absolute()}"
        self.process = subprocess.Popen(
            [PLUGIN, "-f", "-U", self.socket, "-P", self.number, *options,
             f"program={PROGRAM}", f"control={self.control}", *words],
            stdin=subprocess.DEVNULL, stdout=self.log, stderr=self.log)

    def __enter__(self) -> Server:
        wait_until(lambda: self.serves() or self.process.poll() is not None, "nbdkit serves")
        if not self.serves():
            raise RuntimeError(f"nothing is served: {self.told()}")
        return self

    def serves(self) -> bool:
        """Whether clients are served: nbdkit writes its number when that is so."""
        return self.number.exists() and self.number.read_text(encoding="ascii").endswith("\n")

    def __exit__(self, *_: object) -> None:
        self.process.terminate()
        try:
            self.process.wait(SECONDS)
        finally:
            self.process.kill()
            self.log.close()

    def told(self) -> str:
        """What nbdkit told."""
        self.log.seek(0)
        return self.log.read()

    def io(self, *commands: str) -> list[str]:
        return qemu_io(self.uri, *commands)
