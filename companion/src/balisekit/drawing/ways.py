"""What a picture shows of a passage: the authorities, profiles and areas for one direction, as places on the track."""
from __future__ import annotations

from typing import List, NamedTuple, Optional, Sequence, Tuple

from balisekit.etcs.areas import Area, areas
from balisekit.etcs.geometry import DIRECTIONS, Authority, Profile, Site, authority, passed, profile, until_infill
from balisekit.etcs.variables import Form

Passed = Sequence[Tuple[Site, Form]]
"""Packets in the order of passing, and where each of them is."""


class Way(NamedTuple):
    """What a group or message sends for one direction."""

    direction: str
    authorities: Tuple[Authority, ...]
    gradients: Tuple[Profile, ...]
    speeds: Tuple[Profile, ...]
    areas: Tuple[Area, ...] = ()

    @classmethod
    def of(cls, direction: str, packets: Passed) -> Way:
        """What these packets say, which count from one group."""
        authorities = tuple(authority(*each) for each in packets if each[1]["nid_packet"] in (12, 15))
        gradients, speeds = (
            tuple(profile(*each) for each in packets if each[1]["nid_packet"] == number) for number in (21, 27)
        )
        found = tuple(area for _, packet in packets for area in areas(packet))
        return cls(direction, authorities, gradients, speeds, found)

    @property
    def supervised(self) -> Optional[int]:
        """The greatest supervised location of all its authorities."""
        return max((authority.supervised for authority in self.authorities), default=None)

    def __bool__(self) -> bool:
        return bool(self.authorities or self.gradients or self.speeds or self.areas)


def passages(forms: Sequence[Form], direction: str) -> Tuple[Passed, Passed]:
    """The packets of an aspect or message that count from its own group, and those from the group of a packet 136."""
    packets = passed(forms, direction)
    own, infill = until_infill(packets, [packet["nid_packet"] for _, packet in packets])
    return own, infill[1:]


def ways(forms: Sequence[Form], of_infill: bool = False) -> List[Way]:
    """What an aspect or message sends for each direction, from its own group or from the group of a packet 136."""
    return [Way.of(direction, passages(forms, direction)[of_infill]) for direction in DIRECTIONS]
