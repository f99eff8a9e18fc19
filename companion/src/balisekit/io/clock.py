"""The time of the run, and the time that outputs have, which SOURCE_DATE_EPOCH fixes.

https://reproducible-builds.org/specs/source-date-epoch/: it dates what is written, and decides nothing.
"""
from __future__ import annotations

import os
import re
from datetime import date, datetime, timezone
from typing import Optional

from balisekit.errors import TableError

LATEST = 253_402_300_799
"""The last second of the year 9999, after which Python and other tools have no date."""


def today() -> date:
    """The day in UTC by the clock, whatever SOURCE_DATE_EPOCH is. Accepted entries are judged on this day."""
    return datetime.now(timezone.utc).date()


def dated() -> Optional[date]:
    """The day of SOURCE_DATE_EPOCH, if it is set."""
    return None if os.environ.get("SOURCE_DATE_EPOCH") is None else now().date()


def now() -> datetime:
    """The time in UTC for outputs. TableError is raised for a SOURCE_DATE_EPOCH that is no number of seconds."""
    fixed = os.environ.get("SOURCE_DATE_EPOCH")
    if fixed is None:
        return datetime.now(timezone.utc)
    if not re.fullmatch("[0-9]{1,12}", fixed) or int(fixed) > LATEST:
        raise TableError(
            f'SOURCE_DATE_EPOCH is "{fixed[:40]}": write the seconds since 1970-01-01, from 0 to {LATEST}, or unset it'
        )
    return datetime.fromtimestamp(int(fixed), timezone.utc)


def stamp(time: datetime) -> str:
    """A time as pages have it."""
    return time.strftime("%Y-%m-%d %H:%M UTC")
