"""A machine of QEMU whose DVD-RAM drive is that of a target. Its shell answers on the second serial line."""
from __future__ import annotations

import socket
import subprocess
import time
from io import BufferedRWPair
from pathlib import Path

SECONDS = 240
"""In which a line of the shell ends, on a machine that is busy with others too: what takes longer hangs."""
ADAPTERS = {
    "virtio": ["-device", "virtio-scsi-pci,id=bus", "-device", "scsi-generic,bus=bus.0,drive=disc"],
    "usb": ["-device", "qemu-xhci,id=usb", "-device", "usb-bot,id=bus,bus=usb.0",
            "-device", "scsi-generic,bus=bus.0,lun=0,drive=disc"]}
MACHINE = ("-accel tcg -machine q35 -cpu qemu64 -smp 1 -m 384 -nodefaults -no-reboot -display none "
           "-bios qboot.rom").split()
DRIVE = "driver=iscsi,node-name=disc,transport=tcp,portal=127.0.0.1:{},target={},lun=0"
WAIT = "for n in $(seq 100); do [ -b /dev/sr0 ] && break; sleep 0.2; done; [ -b /dev/sr0 ]"


class Guest:
    """The machine of this folder of make-guest, which is on within its block."""

    def __init__(self, folder: Path, port: int, target: str, adapter: str) -> None:
        self.socket, self.console = Path("guest.sock").absolute(), Path("guest.log").absolute()
        self.errors = open("guest.err", "w+", encoding="utf-8")
        self.process = subprocess.Popen(
            ["qemu-system-x86_64", *MACHINE, "-kernel", folder / "vmlinux", "-initrd", folder / "initrd.gz",
             "-append", "console=ttyS0 quiet panic=-1 mitigations=off tsc=unstable no_timer_check",
             "-serial", f"file:{self.console}",
             "-chardev", f"socket,id=talk,path={self.socket},server=on,wait=off", "-serial", "chardev:talk",
             "-blockdev", DRIVE.format(port, target), *ADAPTERS[adapter]],
            stdin=subprocess.DEVNULL, stdout=self.errors, stderr=self.errors)
        self.connection = socket.socket(socket.AF_UNIX, socket.SOCK_STREAM)
        self.channel: BufferedRWPair | None = None

    def __enter__(self) -> Guest:
        try:
            self.connect()
            status, told = self.do(WAIT)
            if status:
                raise RuntimeError(f"the guest finds no drive: {told}")
        except BaseException:
            self.__exit__()
            raise
        return self

    def connect(self) -> None:
        """Waits until the guest's shell answers."""
        end = time.monotonic() + SECONDS
        while self.connection.connect_ex(str(self.socket)):
            if self.process.poll() is not None or time.monotonic() > end:
                raise RuntimeError(f"QEMU does not begin: {self.told()}")
            time.sleep(0.05)
        self.connection.settimeout(SECONDS)
        self.channel = self.connection.makefile("rwb")
        while b"ready" not in (row := self.channel.readline()):
            if not row:
                raise RuntimeError(f"the guest ended: {self.told()}")

    def __exit__(self, *_: object) -> None:
        self.process.kill()
        self.process.wait()
        self.connection.close()
        self.errors.close()

    def told(self) -> str:
        """What QEMU told."""
        return Path("guest.err").read_text(encoding="utf-8")

    def do(self, line: str) -> tuple[int, str]:
        """Does a line of the shell in the guest, and gives its status and what it printed."""
        assert self.channel
        self.channel.write(line.encode() + b"\n")
        self.channel.flush()
        rows: list[str] = []
        while row := self.channel.readline().decode("utf-8", "replace"):
            row = row.rstrip("\r\n")
            if row.startswith("= ") and row[2:].isdecimal():
                return int(row[2:]), "\n".join(rows).rstrip("\n")
            rows.append(row)
        raise RuntimeError(f"the guest ended: {self.told()}")
