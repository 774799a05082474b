"""Shows what each block of a disc is: by the lists that the drive would choose at the next `power`, as the
program tells them, and by the states of the blocks in its image."""
from __future__ import annotations

import argparse
import sys

from . import Ended, NoDisc
from .disc import Disc
from .lists import LayoutKind
from .pictures import OUTPUTS
from .program import built_program

NO_PROGRAM = 9  # as `drive` ends where it could not be built


def main() -> int:
    parser = argparse.ArgumentParser(prog="ram-map", description=__doc__)
    parser.add_argument("image", metavar="IMAGE")
    parser.add_argument("--output", choices=OUTPUTS, default="human", help="what is printed (default: human)")
    parser.add_argument("--layout", choices=[kind.value for kind in LayoutKind],
                        help="the word by which the disc is served (default: that of the lists found on it)")
    words = parser.parse_args()
    try:
        disc = Disc(built_program(), words.image, LayoutKind(words.layout) if words.layout else None)
        print(OUTPUTS[words.output](disc))
    except NoDisc as error:
        print(f"ram-map: {error}", file=sys.stderr)
        return 1
    except OSError as error:
        print(f"ram-map: {words.image}: {error.strerror}", file=sys.stderr)
        return 1
    except Ended as error:
        print(f"ram-map: {error}", file=sys.stderr)
        return NO_PROGRAM
    return 0
