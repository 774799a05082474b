"""Sends lines to the control socket of a drive, and prints the answers. Without LINE it sends those of
standard input."""
from __future__ import annotations

import argparse
import socket
import sys

from .control import exchange

REFUSED = ("not in the script language", "too long")


def main() -> int:
    parser = argparse.ArgumentParser(prog="ram-ctl", description=__doc__)
    parser.add_argument("socket", metavar="SOCKET")
    parser.add_argument("lines", metavar="LINE", nargs="*",
                        help="of the script, or of that of a mirror, but press; or one of: stats, list, "
                             "disarm, cut now")
    words = parser.parse_args()
    refused = 0
    try:
        with socket.socket(socket.AF_UNIX, socket.SOCK_STREAM) as connection:
            connection.connect(words.socket)
            with connection.makefile("rwb") as channel:
                for line in words.lines or sys.stdin:
                    rows = exchange(channel, line.rstrip("\n"))
                    refused |= any(row in REFUSED for row in rows)
                    print("\n".join(rows), end="\n" if rows else "", flush=True)
    except OSError as error:
        print(f"ram-ctl: {words.socket}: {error.strerror or error}", file=sys.stderr)
        return 1
    return refused
