"""A model of the drive, made from docs/SCRIPT.md, docs/REPORT.md and docs/FORMATS.md alone.

`medium` has the bytes of an image, and what one use of a block does; `lists` the two defect lists; `drive`
what is done to a disc, and `cache` the write cache before it; `commands` the commands of a host, and
`replies` the bytes of their replies; `script` the lines of a script and the report.

Beside the model stands what `checks/random` tries it with: `draw` and `draw_lines` draw scripts, `hostile`
changes an image by hand, and `unfit` lays lists on a disc that do not fit. And what `checks/promise` looks at
reports with, whatever drive they are of: `reports` reads one back, `promise` says where it breaks the promise
of docs/PROMISE.md, and `reports_by_hand` has some that do.

`mirror` has two drives as one, and the lines of its script, after docs/MIRROR.md; `draw_mirror` draws
scripts for it, and `mirror_promise` says where its reports break what it promises. `checks/mirrors` tries
them.

By `medium` and `lists` bench/discs.py, and the tests of maps in tests/ecosystem, lay lists on discs.

The model is short rather than fast: an author of another drive can read it beside the documents, and
compare with it.
"""
