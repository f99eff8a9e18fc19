"""The names of packets, as SUBSET-026, 7.4 has them.

A packet whose number is not listed is called "not named here", and never "not assigned".
"""
from __future__ import annotations

from typing import Dict

TRACK: Dict[int, str] = {
    0: "virtual balise cover marker",
    2: "system version order",
    3: "national values",
    5: "linking",
    6: "virtual balise cover order",
    12: "movement authority of level 1",
    13: "staff responsible distance information from loop",
    15: "movement authority of levels 2 and 3",
    16: "repositioning information",
    21: "gradient profile",
    27: "international static speed profile",
    39: "track condition: change of traction system",
    40: "track condition: change of allowed current consumption",
    41: "level transition order",
    42: "session management",
    44: "data used by applications outside ERTMS/ETCS",
    45: "radio network registration",
    46: "conditional level transition order",
    49: "list of balises for shunting area",
    51: "axle load speed profile",
    52: "permitted braking distance information",
    57: "movement authority request parameters",
    58: "position report parameters",
    63: "list of balises in staff responsible authority",
    64: "inhibition of revocable temporary speed restrictions from balises in levels 2 and 3",
    65: "temporary speed restriction",
    66: "temporary speed restriction revocation",
    67: "track condition: big metal masses",
    68: "track condition",
    69: "track condition: station platforms",
    70: "route suitability data",
    71: "adhesion factor",
    72: "plain text message",
    76: "fixed text message",
    79: "geographical position information",
    80: "mode profile",
    88: "level crossing information",
    90: "track ahead free up to level 2/3 transition location",
    131: "RBC transition order",
    132: "danger for shunting information",
    133: "radio infill area information",
    134: "end of loop marker (EOLM)",
    135: "stop shunting on desk opening",
    136: "infill location reference",
    137: "stop if in staff responsible",
    138: "reversing area information",
    139: "reversing supervision information",
    140: "train running number from RBC",
    141: "default gradient for temporary speed restriction",
    143: "session management with neighbouring radio infill unit",
    145: "inhibition of balise group message consistency reaction",
    180: "LSSMA display toggle order",
    181: "generic limited supervision function marker",
    254: "default balise, loop or RIU information",
    255: "end of information",
}

TRAIN: Dict[int, str] = {
    0: "position report",
    1: "position report based on two balise groups",
    2: "on-board supported system versions",
    3: "on-board telephone numbers",
    4: "error reporting",
    5: "train running number",
    9: "level 2/3 transition information",
    11: "validated train data",
    44: "data used by applications outside ERTMS/ETCS",
}

MESSAGES: Dict[int, str] = {3: "movement authority", 136: "train position report"}


def packet_name(number: int, from_track: bool = True) -> str:
    """The name of packets with this number."""
    return (TRACK if from_track else TRAIN).get(number, "not named here")
