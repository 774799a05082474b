"""Steps: discs that are laid by hand, what a host does with them, and what is left of them.

A file NAME.steps has rows, and NAME.told beside it what must be told of each step. A row begins with
`== TITLE`; each line behind it is a step, and is told in one line with its number. Both were worked out by
hand, by docs/SCRIPT.md and docs/FORMATS.md. `checks/steps` makes the steps with the built program: those of a
host are lines of a script, and what is done by hand is done to the image, which ends the run, so that the
power is off behind it and nothing is armed.

Numbers are decimal, and bytes have two hexadecimal digits. AREAS are some of the digits 1 to 4. A row begins
with one of the first three steps. The small disc is `1 1 4`: 41 blocks, with the spares 9 to 12.

blank Z S P, blank Z S P groups   puts in a disc of this geometry that was never written; its scripts are run
                            by the word `run`, or by `groups`
pressed Z S P, .. groups    puts in the disc that a `press` makes, and tells how many blocks the image has
formatted                   puts in the small disc, turns the power on and formats it; how that went is told

power, tick, wear BLOCK N [TIMES], cut N FATE                      those lines; behind `power` comes a TEST
                            UNIT READY, which takes the attention
fail BLOCK ..               that line for each block
format full, format full drop, format rewrite, expand SECTORS      FORMAT UNIT; `drop` forgets the secondary
                            list
read L N, write L N BYTE, through L N BYTE, verify L N             READ(10), WRITE(10), WRITE(10) with FUA,
                            VERIFY(10). The byte that each sector has all over is told, as `aa x 16`
synchronize, cache on, cache off                                   SYNCHRONIZE CACHE; MODE SELECT, and whether
                            the cache is on then
capacity, counts, structure                                        READ CAPACITY; how many sectors there are
                            and how many spares are free; what the structure in use says

pending                     how many logical blocks are read otherwise after the power was lost, in passing
below STEP                  what the step would tell after the power was lost, in passing

fill BLOCK BYTE             a block is written, with this byte all over
count BLOCK BYTE            the same; each sector has the next byte
number FIRST LAST           blocks are written, each with its number all over
put BLOCK AT BYTE ..        bytes of a block are changed, from byte AT on
structure AREAS COUNTER [version 2] [slips BLOCK ..]               the structure of a formatted disc is
                            written; `FIRST-LAST/N` is every N-th block
list AREAS COUNTER under COUNTER [version 2] [with N] [BLOCK>SPARE ..]   a secondary list is written, under
                            the structure of the second counter, with N supplementary spares. `13-14>12-11` is
                            short for `13>12 14>11`, and `BLOCK>none` is a retired spare

structures, copies          what the four copies of the structure say, or those of the secondary list, with
                            the areas that say so. Both may be told though they are not valid
blocks FIRST LAST           the byte that each block has all over, or `mixed`; `--` if it cannot be read
medium                      how many blocks there are
homes LOGICAL ..            where logical blocks are at home, as verifications tell if just those data blocks
                            can be read whose number has a bit, bit by bit
scrubbed                    whether a scrub finds each logical block where a plain look at all blocks of the
                            disc says (model/lists.py), if half of them can be read

A step that is not cut by `cut N+1` takes N uses of the medium at most, and one that is cut by `cut N` takes N
at least. That a `power` behind it is cut shows only that the cut was armed still. `checks/mixtures` counts
exactly.

In a row with a line `cut each 1 to N` the steps behind that are made once for each of these uses and each
fate, in which the power is cut, and are told in one line; uses in a row that are told alike once.
"""
