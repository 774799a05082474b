"""The drive as a network block device: there and back, failures in use, and what can go wrong."""
from __future__ import annotations

import os
import random
import signal
import subprocess
from pathlib import Path

from dvdram.certificate import HEADER
from dvdram.drive import FORMAT
from support import (NBD, PLUGIN, PROGRAM, SECONDS, TOOLS, FolderTest, Server, children_of, done, is_free,
                     needs, random_bytes, run_script, wait_until)

SIZE = 304 * 2048
NEW = "press=1,1,4", "format=yes"
CUT = "Input/output error"
WROTE = "wrote 32768/32768 bytes at offset {}".format
READ = "read 32768/32768 bytes at offset {}".format
FAILURES = (  # lines for the control socket, and with @ commands of a client
    ("fail 14", "failed"), ("@read 32k 2k", f"read failed: {CUT}"),
    ("@write -P 1 32k 2k", f"write failed: {CUT}"),
    ("@write -P 1 32k 32k", WROTE(32768)), ("@read -P 1 32k 32k", READ(32768)),
    ("list", "dead 14"), ("fail 9", "failed"), ("fail 10", "failed"), ("fail 11", "failed"),
    ("fail 12", "failed"), ("@write -P 2 64k 32k", WROTE(65536)),
    ("@write -P 2 32k 32k", "write failed: No space left on device"),
    ("cut 1 torn", "armed"), ("list", "dead 9|dead 10|dead 11|dead 12|dead 14|armed cut 1 torn"),
    ("@write -P 3 64k 32k", f"write failed: {CUT}"), ("@read 64k 32k", f"read failed: {CUT}"),
    ("list", "dead 9|dead 10|dead 11|dead 12|dead 14|torn 15"),
    ("power", "ready 304"), ("@read 64k 2k", f"read failed: {CUT}"), ("@write -P 4 64k 32k", WROTE(65536)),
    ("@read -P 4 64k 32k", READ(65536)), ("cdb 041100000000 hex 000000080000011004000000", "good"),
    ("@read 544k 2k", "read failed: Invalid argument"),
    ("cut now", "cut"), ("cut now", "off"), ("@read 0 2k", f"read failed: {CUT}"),
)
REFUSED = (  # parameters, and what is told of them
    ("image=none.img", "none.img is not there: press=ZONES,SCALE,SPARES makes it"),
    ("image=raw", "raw holds no disc: press=ZONES,SCALE,SPARES makes one"),
    ("image=bare.img", "bare.img is not formatted: format=yes formats it"),
    ("image=bare.img format=yes control=left.ctl", "left.ctl: there is a file of that name"),
    ("image=new.img press=1,1,400", "Wrong: press=1,1,400: no disc has these numbers"),
    ("image=new.img press=1,1", "Wrong: press=1,1: it has three numbers, ZONES,SCALE,SPARES"),
    ("image=new.img format=maybe", "Wrong: format=maybe: it is one of yes, no"),
    ("image=new.img size=1",
     "size is no parameter: there are image, layout, press, format, force, program, control, poweroff, "
     "image2"),
    ("image=new.img layout=zones", "Wrong: layout=zones: it is one of run, groups"),
    ("image=new.img layout=groups press=1,1,23", "Wrong: press=1,1,23: no disc has these numbers"),
    ("image=one.img layout=groups press=2,1,4 format=yes",
     "one.img holds a disc of another layout: layout=run serves it"),
    ("image=zones.img", "zones.img holds a disc of another layout: layout=groups serves it"),
    ("image=full.img layout=groups press=2,1,4",
     "full.img holds a disc without room for a group of spares in each zone: it is no disc to layout=groups"),
    ("", "Wrong: image=FILE is missing"),
)


class Client:
    """A client that stays connected: qemu-io, which is told one command after another."""

    def __init__(self, server: Server) -> None:
        self.process = subprocess.Popen(["qemu-io", "-f", "raw", server.uri], stdin=subprocess.PIPE,
                                        stdout=subprocess.PIPE, stderr=subprocess.STDOUT, bufsize=0)
        assert self.process.stdin and self.process.stdout
        self.commands, self.shown = self.process.stdin, self.process.stdout
        self.until_prompt()

    def until_prompt(self) -> str:
        text = b""
        while not text.endswith(b"qemu-io> ") and (more := os.read(self.shown.fileno(), 65536)):
            text += more
        return text.decode()

    def do(self, command: str) -> str:
        """The first line that is told of this command."""
        self.commands.write(command.encode() + b"\n")
        return self.until_prompt().splitlines()[0]

    def kill(self) -> None:
        self.process.kill()
        self.process.wait()


def refusal(*words: str, program: Path | str = PROGRAM) -> str:
    """The end of the one line that a plugin tells that does not serve."""
    told = done(PLUGIN, "-f", "-U", "other.sock", f"program={program}",
                *words).stdout.split("\n\n")[0].splitlines()
    return told[0].rpartition("/")[2] if len(told) == 1 else "\n".join(told)


class Served(FolderTest):
    """The drive as a disk over nbdkit."""

    @needs(*NBD, "nbdinfo", "nbdcopy")
    def test_there_and_back(self) -> None:
        """What nbdcopy writes is read back, also after the server was started anew."""
        Path("raw").write_bytes(random_bytes(random.Random(1), SIZE - 65536) + bytes(32768) + b"\xaa" * 32768)
        with Server("image=disc.img", *NEW) as server:
            self.assertEqual(done("nbdinfo", "--size", server.uri).stdout, f"{SIZE}\n")
            self.assertEqual(done("nbdcopy", "--flush", "raw", server.uri).stdout, "")
        with Server("image=disc.img", *NEW) as server:
            self.assertEqual(done("nbdcopy", server.uri, "back").stdout, "")
            self.assertTrue(Path("back").read_bytes() == Path("raw").read_bytes(), "the bytes that came back")

    @needs(*NBD, "qemu-img", "qemu-io")
    def test_seen_by_qemu(self) -> None:
        """qemu-img compares and converts the disc, and qemu-io writes parts, zeros and by FUA."""
        Path("raw").write_bytes(random_bytes(random.Random(2), SIZE))
        with Server("image=disc.img", *NEW) as server:
            for words, due in (("convert -n -f raw -O raw raw", ""),
                               ("compare -f raw -F raw raw", "Images are identical.\n")):
                self.assertEqual(done("qemu-img", *words.split(), server.uri).stdout, due, words)
            told = server.io("write -P 7 6k 40k", "write -z 32k 64k", "write -f -P 9 100k 2k", "flush",
                             "read -P 7 6k 26k", "read -P 0 32k 64k", "read -P 9 100k 2k")
            self.assertEqual(told, [f"{verb} {size}/{size} bytes at offset {at}" for verb, size, at in (
                ("wrote", 40960, 6144), ("wrote", 65536, 32768), ("wrote", 2048, 102400),
                ("read", 26624, 6144), ("read", 65536, 32768), ("read", 2048, 102400))])
            names = [line.split()[0] for line in server.tell("stats")]
            self.assertEqual(names, ["lines", "sent", "received", "renewals", "restarts"])

    @needs(*NBD, "nbdinfo", "qemu-io")
    def test_failures(self) -> None:
        """Blocks die and the power is cut under a client, which is told the errors of
        docs/BLOCK_DEVICE.md."""
        with Server("image=disc.img", *NEW) as server:
            client = Client(server)
            for line, due in FAILURES:
                found = client.do(line[1:]) if line.startswith("@") else "|".join(server.tell(line))
                self.assertEqual(found, due, line)
            self.assertEqual(done("nbdinfo", server.uri).returncode, 1, "a new client while the power is off")
            self.assertEqual(server.tell("power"), ["ready 272"])
            self.assertEqual(done("nbdinfo", "--size", server.uri).stdout, f"{272 * 2048}\n", "a new client")
            client.kill()
            self.assertNotIn("Traceback", server.told())
        with Server("image=disc.img", "poweroff=again") as server:
            self.assertEqual(server.tell("cut 1 new"), ["armed"])
            self.assertEqual(server.io("write -P 5 0 32k", "read -P 5 0 32k"),
                             [f"write failed: {CUT}", READ(0)])
        with Server("image=disc.img", "poweroff=exit") as server:
            server.tell("cut now")
            self.assertEqual(server.process.wait(SECONDS), 0)

    @needs(*NBD, "qemu-io")
    def test_accidents(self) -> None:
        """A client goes away, and the program is killed: nothing hangs, and what was acknowledged stays."""
        with Server("image=disc.img", *NEW) as server:
            self.assertEqual(server.io("write -P 6 0 32k"), [WROTE(0)])
            for program in children_of(server.process.pid):
                os.kill(program, signal.SIGKILL)
            self.assertEqual(server.tell("cdb 000000000000"), ["the program ended with status -9"])
            self.assertEqual(server.io("read -P 6 0 32k"), [READ(0)], "a read after that")
            self.assertEqual(server.tell("stats")[-1:], ["restarts 1"])
            told = server.tell("press 1 1 4", "wear 3 0", "cdb 0", "fail 4294967296", "# no", "walk",
                               "fail 99")
            self.assertEqual(told, ["not in the script language"] * 5 + ["no such block"])
            self.assertEqual(server.tell("cdb 00 hex " + "00" * 35000), ["too long"])
            self.assertEqual(server.tell("wear 13 9", "cut 5 old", "list", "disarm", "list"),
                             ["armed", "armed", "armed wear 13 9", "armed cut 5 old", "disarmed"])
            client = Client(server)
            client.commands.write(b"read 0 512k\n")
            client.kill()
            self.assertEqual(server.io("read -P 6 0 32k"), [READ(0)], "a read after a client went away")
            self.assertTrue(refusal("image=disc.img").endswith("disc.img is in use by another drive"))

    @needs(*NBD)
    def test_an_image_in_use(self) -> None:
        """An image that the program runs over is not served."""
        with subprocess.Popen([PROGRAM, "run", "disc.img"], stdin=subprocess.PIPE, stdout=subprocess.PIPE,
                              bufsize=0) as program:
            assert program.stdin and program.stdout
            program.stdin.write(b"press 1 1 4\n")
            self.assertEqual(program.stdout.readline(), b"1 pressed\n")
            self.assertTrue(refusal("image=disc.img").endswith("disc.img is in use by another drive"))

    @needs(*NBD)
    def test_bad_parameters(self) -> None:
        """Each is told in one line."""
        Path("raw").write_bytes(b"no disc")
        Path("left.ctl").write_text("a file", encoding="ascii")
        bare = "image=bare.img", "press=1,1,4", "control=bare.ctl"
        done(PLUGIN, "-U", "-", f"program={PROGRAM}", *bare, "--run", "true")
        wait_until(lambda: is_free("bare.img"), "the server of a single command ends")
        for image, numbers, word in (("one.img", "2 1 4", "run"), ("zones.img", "2 1 4", "groups"),
                                     ("full.img", "2 1 30", "run")):
            run_script(image, f"press {numbers}\npower\ncdb 000000000000\n{FORMAT}\n", word)
        for words, due in REFUSED:
            with self.subTest(words):
                self.assertEqual(refusal(*words.split())[-len(due):], due)
        for program, due in (("no-program", "no-program: there is no such program"),
                             ("/bin/true", "true: it is no drive")):
            self.assertEqual(refusal("image=bare.img", program=program)[-len(due):], due)

    @needs(*NBD)
    def test_layout(self) -> None:
        """A disc with a group of spares in each zone: where a zone has none left, the other one goes on."""
        with Server("image=disc.img", "layout=groups", "press=2,1,4", "format=yes") as server:
            self.assertEqual(server.io("write -P 1 0 32k"), [WROTE(0)])
            self.assertEqual(server.tell("fail 9"), ["failed"])
            self.assertEqual(server.io("write -P 2 0 32k"), [WROTE(0)])
            dead = 28, 29, 30, 31, 34
            self.assertEqual(server.tell(*(f"fail {block}" for block in dead)), ["failed"] * 5)
            self.assertEqual(server.io("write -P 3 0 32k"), ["write failed: No space left on device"])
            self.assertEqual(server.io("write -P 4 608k 32k"), [WROTE(622592)])
            self.assertEqual(server.tell("power", "list"),
                             ["ready 624", *(f"dead {block}" for block in (9, *dead))])
            self.assertEqual(server.io("read -P 4 608k 32k"), [READ(622592)])
        rows = [row.split() for row in done(TOOLS / "ram-map", "disc.img").stdout.splitlines()]
        self.assertIn(["54", "1", "replacement", "good", "304", "34"], rows)

    @needs(*NBD)
    def test_force(self) -> None:
        """A disc that was written and lost its lists is formatted by force alone."""
        run_script("lost.img", "press 1 1 4\n")
        lost = bytearray(Path("lost.img").read_bytes())
        lost[HEADER + 12] = 1  # block 12 was written
        Path("lost.img").write_bytes(lost)
        due = "lost.img was written, and is not formatted any more: force=yes formats it anew"
        self.assertEqual(refusal("image=lost.img", *NEW), due)
        done(PLUGIN, "-U", "-", f"program={PROGRAM}", "image=lost.img", *NEW, "force=yes", "--run", "true")
        told = done(TOOLS / "ram-map", "lost.img").stdout.splitlines()
        self.assertEqual(told[1].partition(", ")[2], "counter 2, 0 blocks slipped")
