"""Mixtures: images that are laid by hand in every way of a kind, each with a script, on which the built
program is compared with the model of tests/model: report, exit status and image.

`laying` lays images and makes cases of them, `copies` has the mixtures of the four copies of a list, `parts`
those of copies of two blocks, `mounts` those of ten kinds of copy, `moves` those of dead spares and dead
copies, `texts` lists with a changed byte, `places` where blocks and spares lie, and `buffers` requests over
buffers of any blocks. Where a cut is to come in the last use of a line, or right behind it, the model tells
which use that is.
"""
