"""Rows: scripts, the images that they are run over, and what must be told of each run.

A file NAME.rows has the rows, and NAME.told beside it what must come. A row begins with `== TITLE`. Its
script is run over an empty image or, where the title begins with `then`, over the image that the row before
left; where it begins with `each`, each of its lines is a script of its own, over the image that the line
before left. What must come was worked out by hand, by the rules of docs/SCRIPT.md and docs/REPORT.md.

`R L N` stands for READ(10) of N sectors from sector L on, and `W L N ..` for WRITE(10). A line that begins
with `@ ` is an order:

new, formatted    the image is that of a disc of one zone, scale 1 and four primary spares
length N          the image gets this length; what grows is zeros
put PLACE DIGITS  bytes of the image are changed; a place is a number, or BLOCK:N, byte N of a block
fill PLACE N BYTE the same with N times one byte
exact TEXT        the script goes on with the text and no line feed; \\n, \\r and \\t stand for the bytes
repeat N TEXT     the same N times
comments N        the script has N bytes, in comments of 65,536
groups            the script is run by the word `groups`, in place of `run`
words WORD|WORD   the program has these words, and no script
cuts N            the script is run once for each of the first N uses behind its line `cut each`, and for
                  each fate; the power is cut there. What the lines behind that one are answered is told,
                  of uses in a row that are answered alike once
lengths N         whether READ DVD STRUCTURE replies as much as each allocation length below N asks for
last N, first N   this many lines of the report are told
image             what the image has then is told: that it is as it was, or all of it but zeros
"""
