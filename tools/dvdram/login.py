"""The texts of a login: what an initiator says of itself and offers, and what the target answers."""
from __future__ import annotations

from dataclasses import dataclass, field
from typing import Callable, Dict, Iterator, Tuple

NAME = "iqn.2026-11.example.gornchik:dvdram"
MOST_SEGMENT, MOST_BURST, MOST_FIRST = 262_144, 1 << 20, 65_536
LIMITS: Dict[str, Tuple[Callable[[int, int], int], int]] = {
    "MaxBurstLength": (min, MOST_BURST), "FirstBurstLength": (min, MOST_FIRST), "MaxConnections": (min, 1),
    "MaxOutstandingR2T": (min, 1), "ErrorRecoveryLevel": (min, 0), "DefaultTime2Retain": (min, 0),
    "DefaultTime2Wait": (max, 0)}
"""Numbers that both sides agree on, with what they make of the one that is offered."""
CHOICES = {
    "AuthMethod": "None", "HeaderDigest": "None", "DataDigest": "None", "InitialR2T": "Yes",
    "DataPDUInOrder": "Yes", "DataSequenceInOrder": "Yes", "IFMarker": "No", "OFMarker": "No"}
DECLARED = ("InitiatorName", "InitiatorAlias", "SessionType", "TargetName")

FOUND_NO_TARGET, MISSING, NO_SERVICE, NO_ROOM = 0x0203, 0x0207, 0x0301, 0x0302
"""Why a login is refused."""


@dataclass
class Agreed:
    """What the two sides of a session agreed on, and who the initiator is."""

    initiator: str = ""
    target: str = ""
    is_discovery: bool = False
    segment: int = 8192  # bytes of data that the initiator takes in one unit
    numbers: Dict[str, int] = field(default_factory=lambda: {"MaxBurstLength": 262_144})

    @property
    def burst(self) -> int:
        return self.numbers["MaxBurstLength"]

    def take(self, keys: Dict[str, str]) -> list[str]:
        """Takes the keys of a request, and gives the rows of the answer."""
        self.initiator = keys.get("InitiatorName", self.initiator)
        self.target = keys.get("TargetName", self.target)
        self.is_discovery |= keys.get("SessionType") == "Discovery"
        rows = [f"{key}={value}" for key, value in self.answers(keys)]
        return rows + ["TargetPortalGroupTag=1"] * ("TargetName" in keys)

    def answers(self, keys: Dict[str, str]) -> Iterator[tuple[str, str]]:
        for key, value in keys.items():
            if key == "MaxRecvDataSegmentLength":
                self.segment = min(int(value, 0), MOST_SEGMENT)
                yield key, str(MOST_SEGMENT)
            elif key in LIMITS:
                better, own = LIMITS[key]
                self.numbers[key] = better(int(value, 0), own)
                yield key, str(self.numbers[key])
            elif key == "ImmediateData":
                yield key, value
            elif key not in DECLARED:
                yield key, CHOICES.get(key, "NotUnderstood")

    def refusal(self) -> int:
        """Why this initiator is not served, or 0."""
        if not self.initiator or not (self.target or self.is_discovery):
            return MISSING
        return 0 if self.is_discovery or self.target == NAME else FOUND_NO_TARGET


def keys_of(data: bytes) -> Dict[str, str]:
    """The keys of a text, with their values."""
    rows = data.decode("utf-8", "replace").split("\0")
    return dict(row.split("=", 1) for row in rows if "=" in row)


def text_of(rows: list[str]) -> bytes:
    return "".join(f"{row}\0" for row in rows).encode()
