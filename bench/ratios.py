"""Ratios of two times that were measured in turn, each with the most that it is to be. Of pieces of sessions
it is the median."""
from __future__ import annotations

from pathlib import Path
from statistics import median
from typing import Iterable, List, Optional, Sequence, Tuple

import discs
from measuring import (CACHE_ON, FORMAT, OF_DRIVE, OF_MIRROR, POWER, SYNCHRONIZE, Bench, Commands, Measured,
                       Piece, Timed, best, in_session, in_turn, loop_line, twin_of, write_command)
from model.medium import MOST_SPARES, Geometry

# How many blocks are measured.
BLOCKS = 896
NEW_GEOMETRY = Geometry(1, 40, 16)
PRESS = "press 1 40 16\n"
NEW_DISC = PRESS + POWER + FORMAT
# What is measured is blocks this many logical blocks apart. Each of them is replaced on both discs with
# defects.
APART = 128
# And this many on the disc with a group of spares in each zone.
IN_ZONES = 3
# Whether a mirror is written, and the most that it may take beside one disc.
MIRRORED = (False, 1.02), (True, 2.05)
SPARES = MOST_SPARES
# The writes at the start and at the end of a run of many that are measured.
FEW = 16
# The uses of the medium for a write that needs a spare: two each for the home and the spare, eight for each
# part of the list.
USES = 2 + 2 + 16
# How many blocks a command reads.
READS = 1, 2, 4, 8, 14, 16, 32, 64
# The blocks of a piece that is measured, about.
IN_PIECE = 64
CACHED = 32
# A disc of nine zones: the blocks of its medium, the first logical block's, and how many it has.
SCRUBBED = 10_456, 25, 10_406
# In milliseconds.
MOST_MOUNT = 10.0
MOST_AUDIT = {"good": 100.0, "dead": 400.0}
STATES = {"good": 1, "dead": 3}

Case = Tuple[bool, int, float]
"""Whether blocks are written, how many a command has, and the most that the ratio is to be."""


def head() -> None:
    print(f"\n{'what':<62}{'us':>10}{'beside us':>12}{'ratio':>8}{'at most':>9}")


def exceeds(found: float, most: float) -> str:
    return "" if found <= most else "  exceeded"


def row(what: str, one: float, other: float, most: Optional[float] = None) -> None:
    """Prints two times in microseconds, and their ratio."""
    ratio = one / other
    bound = "" if most is None else f"{most:>9.2f}{exceeds(ratio, most)}"
    print(f"{what:<62}{one * 1e6:>10.2f}{other * 1e6:>12.2f}{ratio:>8.2f}{bound}")


def scripts_of(write: bool, starts: Iterable[int], count: int = 1,
               commands: Commands = OF_DRIVE) -> List[str]:
    """Scripts of commands that each write or read n blocks, from each of these logical blocks on. Each script
    has 64 blocks, or a few less."""
    lines = [commands.write(16 * i, 16 * count, i) if write else commands.read(16 * i, 16 * count)
             for i in starts]
    several = IN_PIECE // count
    return ["".join(lines[at:at + several]) for at in range(0, len(lines), several)]


def all_blocks(write: bool, count: int, commands: Commands = OF_DRIVE) -> List[str]:
    """Such scripts for all blocks that are measured."""
    return scripts_of(write, range(0, BLOCKS - count + 1, count), count, commands)


def of_a_block(seconds: float, count: int = 1) -> float:
    """The time of one block, of that of a script of `scripts_of`."""
    return seconds / (IN_PIECE // count * count)


def defects(program: Path, folder: Path) -> None:
    """Reads and writes of one block on discs with and without defects, and how long each takes to be
    mounted."""
    makers = [("4,092 slipped, 4,092 replaced", discs.slipped_and_replaced),
              ("8,184 replaced", discs.replaced), ("", discs.plain)]
    sets = [("replaced", range(0, BLOCKS * APART, APART)), ("in a row", range(BLOCKS))]
    cases = [(write, *each) for write in (False, True) for each in sets]
    benches = [Bench(program, folder / f"defects{number}.img") for number, _ in enumerate(makers)]
    for bench, (_, make) in zip(benches, makers):
        make(bench.image)
        bench.once(POWER + "".join(script for _, starts in sets for script in scripts_of(True, starts)))
    pieces = [Piece(scripts_of(write, starts)) for write, _, starts in cases]
    times = in_turn([Measured(program, bench.image, POWER, pieces) for bench in benches], 40)
    for (write, where, _), each in zip(cases, zip(*times)):
        *with_defects, without = [of_a_block(median(seconds)) for seconds in each]
        for (what, _), one in zip(makers, with_defects):
            row(f"a block {'written' if write else 'read'}, {where}: {what}", one, without, 1.05)
    mounts(program, folder / "retired.img", benches)
    for bench in benches:
        bench.image.unlink()


def mounts(program: Path, path: Path, benches: Sequence[Bench]) -> None:
    """Prints how long a mount of each disc with full lists takes."""
    discs.retired(path)
    names = "8,184 retired", "4,092 slipped, 4,092 replaced", "8,184 replaced"
    told_mounts(names, [Bench(program, path), *benches[:2]])
    path.unlink()


def told_mounts(names: Sequence[str], benches: Sequence[Bench]) -> None:
    """Prints how long a mount of each of these discs takes."""
    several = 20
    once = best([bench.runs("power\n") for bench in benches])
    often = best([bench.runs("power\n" * (1 + several)) for bench in benches])
    for name, one, many in zip(names, once, often):
        mount = (many - one) / several * 1e3
        bound = f"{MOST_MOUNT:>28.2f} ms{exceeds(mount, MOST_MOUNT)}"
        print(f"{f'the power goes on, {name}':<62}{mount:>10.2f} ms{bound}")


def groups(program: Path, folder: Path) -> None:
    """Reads and writes on a disc with a group of spares in each zone, beside those on one of the same numbers
    with one group; and how long full lists of such a disc take to be mounted."""
    zones, one = Bench(program, folder / "zones.img", "groups"), Bench(program, folder / "one.img")
    discs.plain_in_zones(zones.image)
    discs.plain_in_one_group(one.image)
    cases = [(write, range(0, BLOCKS - count + 1, count), count)
             for write in (False, True) for count in (1, 4, 16, 64)]
    cases += [(write, range(0, BLOCKS * IN_ZONES, IN_ZONES), 1) for write in (False, True)]
    pieces = [Piece(scripts_of(*case)) for case in cases]
    written = [line for write, starts, count in cases if write for line in scripts_of(True, starts, count)]
    for bench in (zones, one):
        bench.once(POWER + "".join(written))
    times = in_turn([Measured(program, bench.image, POWER, pieces, bench.word) for bench in (zones, one)], 25)
    for (write, starts, count), both in zip(cases, zip(*times)):
        this, that = (of_a_block(median(seconds), count) for seconds in both)
        where = f"{count} a command" if starts.step == count else "over all zones"
        row(f"a block {'written' if write else 'read'}, {where}: groups, beside run", this, that, 1.05)
    discs.full_in_zones(one.image)
    discs.slipped_in_zones(zones.image)
    names = "4,060 spares of 35 zones used up", "4,060 slipped in 35 zones"
    told_mounts(names, [Bench(program, one.image, "groups"), zones])
    for bench in (zones, one):
        bench.image.unlink()


def mirror(program: Path, folder: Path) -> None:
    """Reads and writes of a mirror beside those of one disc, and how long it takes to copy all blocks."""
    single, both = Bench(program, folder / "single.img"), Bench(program, folder / "both.img", "mirror")
    single.once(NEW_DISC + "".join(all_blocks(True, 1)))
    both.once(f"{PRESS}power\nformat\n{''.join(all_blocks(True, 1, OF_MIRROR))}")
    cases = [(write, blocks, most) for write, most in MIRRORED for blocks in (1, 4, 16, 64)]
    mirrored, plain = ([Piece(all_blocks(write, blocks, commands)) for write, blocks, _ in cases]
                       for commands in (OF_MIRROR, OF_DRIVE))
    times = in_turn([Measured(program, both.image, "power\nresync\n", mirrored, both.word),
                     Measured(program, single.image, POWER, plain)], 25)
    for (write, blocks, most), each in zip(cases, zip(*times)):
        this, that = (of_a_block(median(seconds), blocks) for seconds in each)
        what = f"a block {'written' if write else 'read'}, {blocks} a command: a mirror, beside a disc"
        row(what, this, that, most)
    resyncs(single, both)
    for image in (single.image, both.image, twin_of(both.image)):
        image.unlink()


def resyncs(single: Bench, both: Bench) -> None:
    """A `resync` of all blocks, beside a full format of one disc and a read of all its sectors. Each region
    of a mirror's map is written before, so that all are copied."""
    blocks = len(NEW_GEOMETRY.logical)
    apart = f"power\n{''.join(scripts_of(True, range(0, blocks, IN_PIECE), 1, OF_MIRROR))}power\n"
    whole = blocks - blocks % IN_PIECE
    reads = "".join(scripts_of(False, range(0, whole, IN_PIECE), IN_PIECE)
                    + scripts_of(False, range(whole, blocks)))
    none, copied, idle, formatted, read = best([
        both.runs(apart), both.runs(f"{apart}resync\n"), single.runs(POWER), single.runs(POWER + FORMAT),
        single.runs(POWER + reads)])
    row("a block of a resync, beside a full format and a read of all", (copied - none) / blocks,
        (formatted + read - 2 * idle) / blocks, 1.0)


def moves(bench: Bench) -> List[float]:
    """The time of each write that needs the next spare, from the first of 4,092 to the last, in one run. The
    last takes no more uses than the home, one spare and the list do: the use behind these is cut."""
    discs.press(bench.image, discs.lists_of(discs.GREATEST))
    session = Timed(bench.program, bench.image)
    session.asks(POWER)
    times = []
    for i, home in enumerate(discs.lists_of(discs.GREATEST).logical[:SPARES]):
        session.asks(f"fail {home}\n" + (f"cut {USES + 1} old\n" if i == SPARES - 1 else ""))
        answers, time = session.asks(write_command(i * 16, 16, i))
        assert answers == ["good"], answers
        times.append(time)
    assert session.asks(write_command(SPARES * 16, 16, 0))[0] == ["cut"]
    session.end()
    return times


def first_move(bench: Bench) -> float:
    """The time of the write that needs the last of 4,092 spares, as the first one after the power comes
    on."""
    lists = discs.lists_of(discs.GREATEST, every=1, count=SPARES - 1)
    discs.press(bench.image, lists)
    session = Timed(bench.program, bench.image)
    session.asks(f"{POWER}fail {lists.logical[SPARES - 1]}\n")
    answers, time = session.asks(write_command((SPARES - 1) * 16, 16, 0))
    assert answers == ["good"], answers
    session.end()
    return time


def expansions(bench: Bench) -> float:
    """The time of some updates of the list in use, by expansions, which need no spare."""
    session = Timed(bench.program, bench.image)
    session.asks(POWER)
    sectors = 16 * (len(discs.GREATEST.data_blocks) - SPARES)
    answers, time = session.asks("".join(
        f"cdb 041100000000 hex 00000008{sectors - 16 * (k + 1):08x}04000000\n" for k in range(FEW)))
    assert answers == ["good"] * FEW, answers
    session.end()
    return time


def spares(program: Path, folder: Path) -> None:
    """The write that needs the last spare beside the one that needs the first, with the longer list told
    apart."""
    bench = Bench(program, folder / "spares.img")
    rounds = []
    for _ in range(5):
        times = moves(bench)
        long_list = expansions(bench)
        discs.plain(bench.image)
        short_list = expansions(bench)
        rounds.append((sum(times[:FEW]), sum(times[-FEW:]), long_list, short_list, FEW * first_move(bench)))
    first, last, long_list, short_list, anew = [min(times) / FEW for times in zip(*rounds)]
    row("a write that needs the last of 4,092 spares, beside the first", last, first)
    row("an update of a list of 4,092 entries, beside one of none", long_list, short_list)
    row("the last spare, without what the longer list takes", last - (long_list - short_list), first, 1.3)
    row("the last spare, in the first write after the power comes on", anew, first)
    bench.image.unlink()


def cache(program: Path, folder: Path, loops: Path, disc: Tuple[int, int]) -> None:
    """What the write cache saves, and what it takes to synchronise it."""
    bench = Bench(program, folder / "cache.img")
    bench.once(NEW_DISC)
    sectors = range(16)
    into = "".join(write_command(lba, 1, lba) for lba in sectors) + SYNCHRONIZE
    through = "".join(write_command(lba, 1, lba, fua=True) for lba in sectors)
    pieces = [Piece([into]), Piece([through])]
    times, = in_turn([Measured(program, bench.image, POWER + CACHE_ON, pieces)], 50)
    cached, past = map(middle, times)
    row("16 writes into one block and a synchronisation, beside FUA", cached, past)
    synchronisations(bench, loops, disc)
    bench.image.unlink()


def scrubs(program: Path, folder: Path, loops: Path) -> None:
    """A scrub of all blocks, beside a loop of bare reads of as many, one after another."""
    bench = Bench(program, folder / "scrubs.img")
    bench.once("press 9 40 16\n" + POWER + FORMAT)
    total, first, blocks = SCRUBBED
    bare = in_session(loops, bench.image, loop_line("read", (total, first), blocks, 1))
    idle, scrubbed, read = best([bench.runs(POWER), bench.runs(POWER + "scrub all\n"), bare])
    row("a block scrubbed, beside a bare read", (scrubbed - idle) / blocks, read / blocks, 1.2)
    bench.image.unlink()


def audits(program: Path, folder: Path) -> None:
    """The certificate of the greatest disc, where all its data blocks are good, and where all are dead."""
    bench = Bench(program, folder / "audit.img", "audit")
    for state, most in MOST_AUDIT.items():
        discs.plain(bench.image)
        discs.put_states(bench.image, discs.GREATEST, STATES[state])
        milliseconds = best([bench.runs("")])[0] * 1e3
        bound = f"{most:>28.2f} ms{exceeds(milliseconds, most)}"
        print(f"{f'an audit, all blocks {state}':<62}{milliseconds:>10.2f} ms{bound}")
    bench.image.unlink()


def middle(seconds: Iterable[float]) -> float:
    """The median of some times."""
    return median(seconds)


def longer(more: Sequence[float], less: Sequence[float]) -> float:
    """The median of what each of these took longer than the one that was measured with it."""
    return median(one - other for one, other in zip(more, less))


def synchronised(drive: Measured, bare: Measured) -> List[float]:
    """What a synchronisation took, and what each loop of writes did, once: without what the writes or the
    data before them took."""
    (taken, both), (made, *written) = in_turn([drive, bare], 50, 20)
    return [longer(both, taken), *[longer(times, made) for times in written]]


def synchronisations(bench: Bench, loops: Path, disc: Tuple[int, int]) -> None:
    """A synchronisation of all that the cache holds, beside loops over as many blocks. The data of the loops
    come in the same way to where they are pending. It is measured five times, since a slower pace of the
    machine, which may last some seconds, costs the drive more than the loops; the medians count."""
    writes = "".join(write_command(lba, 256, lba) for lba in range(0, 16 * CACHED, 256))
    both = writes + SYNCHRONIZE
    begun = [Piece([writes], both), Piece([both], both)]
    drive = Measured(bench.program, bench.image, POWER + CACHE_ON, begun)
    pending, *writing = [loop_line(what, disc, CACHED, CACHED)
                         for what in ("pending", "write", "marked-write", "kept-write")]
    pieces = [Piece([pending + line], pending + writing[-1]) for line in ("", *writing)]
    bare = Measured(loops, bench.image, "", pieces)
    whole, write, marked, same = map(middle, zip(*[synchronised(drive, bare) for _ in range(5)]))
    row("32 blocks synchronised, beside bare writes and read-backs", whole, write, 1.25)
    row("the bare writes with state bytes, beside those without", marked, write)
    row("and with what is read back in the room that was written last", same, write)


def beside(program: Path, other: Path, folder: Path, name: str, cases: Sequence[Case]) -> None:
    """Reads and writes of both programs over one image, in each case."""
    bench = Bench(program, folder / "beside.img")
    bench.once(NEW_DISC)
    bench.once(POWER + "".join(all_blocks(True, 1)))
    pieces = [Piece(all_blocks(write, blocks)) for write, blocks, _ in cases]
    times = in_turn([Measured(each, bench.image, POWER, pieces) for each in (program, other)], 25, 20)
    for (write, blocks, most), both in zip(cases, zip(*times)):
        this, that = (of_a_block(median(seconds), blocks) for seconds in both)
        row(f"a block {'written' if write else 'read'}, {blocks} a command, beside {name}", this, that, most)
    bench.image.unlink()


def most_of(blocks: int) -> float:
    """The most that a read of this many blocks may take with eight blocks buffered, beside one with the last
    alone."""
    return 1.05 if blocks == 1 else 1.15 if blocks < 16 else 1.07


def kept(loops: Path, image: Path, disc: Tuple[int, int]) -> None:
    """Loops in C that keep the last eight blocks of a read, as the drive does, beside the same that keep the
    last alone."""
    total, first = disc
    starts = range(first, first + BLOCKS, IN_PIECE)
    pieces = [Piece([loop_line("moved-read", (total, start), IN_PIECE, count, some) for start in starts])
              for count in READS for some in (8, 1)]
    times, = in_turn([Measured(loops, image, "", pieces)], 50)
    for count, eight, one in zip(READS, times[::2], times[1::2]):
        many, few = (of_a_block(median(seconds), count) for seconds in (eight, one))
        row(f"a loop that reads {count} and keeps eight, beside one that keeps one", many, few)


def before_eight(program: Path, other: Path, folder: Path) -> None:
    """Beside a program that keeps one block in its buffer."""
    cases = [(False, blocks, most_of(blocks)) for blocks in READS]
    beside(program, other, folder, "one buffered", cases)


def before_cache(program: Path, other: Path, folder: Path) -> None:
    """Beside a program that has no write cache."""
    cases = [(write, blocks, 1.02) for write in (False, True) for blocks in (1, 4, 16, 64)]
    beside(program, other, folder, "no cache", cases)


def turned_and_formatted(program: Path, other: Path, folder: Path) -> None:
    """How long both programs take to turn the power off and on, and for a full format."""
    image = folder / "turned.img"
    benches = [Bench(each, image) for each in (program, other)]
    benches[0].once(NEW_DISC)
    for what, line, count in ("the power goes on", "power\n", 300), ("a full format", FORMAT, 10):
        both = [best([bench.runs(POWER + part) for bench in benches]) for part in (line * count, "")]
        this, that = ((many - none) / count for many, none in zip(*both))
        row(f"{what}, beside the program before", this, that, 1.02)
    image.unlink()


def before_change(program: Path, other: Path, folder: Path) -> None:
    """Beside the program before a change, than which this one is to be no slower."""
    cases = [(write, blocks, 1.02) for write in (False, True) for blocks in (1, 2, 4, 8, 16, 64)]
    beside(program, other, folder, "the program before", cases)
    turned_and_formatted(program, other, folder)
