"""Instants and dates: one calendar for the client, the prompt and the tools.

What the instants of an index are is told by a note in the index itself, the value `clock` of a node of its first graph,
which `edges2script` and `from_csv` write. An index without one may have a calendar in a small file beside it. Without
either, instants are seconds since 1970.
"""
from __future__ import annotations

import json
import math
import os
import re
from datetime import date, datetime, timedelta, timezone
from fractions import Fraction
from typing import Any, NamedTuple, Optional, Union

from .failures import DeltagraphError

EPOCH = datetime(1970, 1, 1, tzinfo=timezone.utc)
DAY = 86_400  # seconds
DAYS_TO_EPOCH = date(1970, 1, 1).toordinal()
MICROSECOND = timedelta(microseconds=1)
UNITS = {  # in seconds
    "microseconds": Fraction(1, 1_000_000),
    "milliseconds": Fraction(1, 1000),
    "seconds": Fraction(1),
    "minutes": Fraction(60),
    "hours": Fraction(3600),
    "days": Fraction(DAY),
    "weeks": Fraction(7 * DAY),
}
DATE = re.compile(
    r"([0-9]{4})(?:-([0-9]{2})(?:-([0-9]{2})"
    r"(?:[T ]([0-9]{2}):([0-9]{2})(?::([0-9]{2})(\.[0-9]{1,9})?)?(?:[Zz]|([+-])([0-9]{2}):?([0-9]{2}))?)?)?)?",
    re.ASCII,
)
NOTE_KEY = "clock"  # the key whose value at a node of the first graph tells what instants are
NOTE = re.compile(
    r"(seconds since 1970|times of the file) times ([0-9]+(?:/[0-9]+)?) and (-?[0-9]+) more(?:, spread over ([0-9]+))?",
    re.ASCII,
)

Seconds = Union[int, Fraction]
Date = Union[date, datetime, str, Any]  # or numpy.datetime64


class NoDate(DeltagraphError, ValueError):
    """A text that is no date, a date before the zero of the calendar, or a calendar that contradicts another one."""


def seconds_of(text: str) -> Seconds:
    """The seconds from 1970 to the beginning of a date: a year, month, day or moment of ISO 8601, else in UTC.

    A text in no such form, or with a month, a day or an hour that there is none of, is a `NoDate`.
    """
    found = DATE.fullmatch(text)
    if found is None:
        raise NoDate(f"{text!r} is no date: one is 2023, 2023-06, 2023-06-10, 2023-06-10T12:30 or 2023-06-10T12:30:05+02:00")
    year, month, day, hour, minute, second, fraction, sign, zone_hours, zone_minutes = found.groups()
    try:
        days = date(int(year), int(month or 1), int(day or 1)).toordinal() - DAYS_TO_EPOCH
    except ValueError as error:
        raise NoDate(f"{text!r} is no date: {error}") from error
    if hour is None:
        return days * DAY
    if int(hour) > 23 or int(minute) > 59 or int(second or 0) > 59 or int(zone_minutes or 0) > 59:
        raise NoDate(f"{text!r} is no date: there is no such time of the day")
    seconds = days * DAY + int(hour) * 3600 + int(minute) * 60 + int(second or 0)
    if sign:
        ahead = int(zone_hours) * 3600 + int(zone_minutes) * 60
        seconds += ahead if sign == "-" else -ahead
    return seconds + Fraction(fraction) if fraction else seconds


def is_date(given: object) -> bool:
    """Whether a time is a date, and no number: a text, a date of Python or pandas, or one of numpy."""
    return isinstance(given, (str, date)) or type(given).__name__ == "datetime64"


def seconds_to(given: Date) -> Seconds:
    """The seconds from 1970 to a date of any kind: a day begins at midnight, and what has no zone is UTC."""
    if isinstance(given, str):
        return seconds_of(given)
    if given != given:  # what numpy and pandas have for a date that is missing
        raise NoDate("a time that is missing (NaT) is no date")
    if type(given).__name__ == "datetime64":  # of numpy, which need not be there
        return Fraction(given.astype("datetime64[us]").astype("int64").item(), 1_000_000)
    moment = given if isinstance(given, datetime) else datetime(given.year, given.month, given.day)
    moment = moment if moment.tzinfo else moment.replace(tzinfo=timezone.utc)
    return Fraction((moment - EPOCH) // MICROSECOND, 1_000_000)


class Calendar(NamedTuple):
    """What instants are: times in seconds since 1970, times `scale` and `shift` more, rounded down, and each of these
    parted into `spread` instants. Where `dates` is false, the times are the numbers of a file in place of seconds."""

    scale: Fraction = Fraction(1)
    shift: Seconds = 0  # instants, before they are spread
    spread: int = 1
    dates: bool = True

    # From a time or a date to an instant.

    def first(self, time: Seconds) -> int:
        """The instant at which a time begins."""
        return math.floor(time * self.scale + self.shift) * self.spread

    def last(self, time: Seconds) -> int:
        """The instant behind all changes of a time."""
        return self.first(time) + self.spread - 1

    def instant(self, given: Date) -> int:
        """The last instant that is no later than a date. Raises `NoDate` for one before the zero."""
        instant = self.last(seconds_to(given))
        if instant < 0:
            raise NoDate(f"{given} is before {self.text(0)}, which is instant 0")
        return instant

    # And back.

    def time(self, instant: int) -> Fraction:
        """The time that an instant belongs to."""
        return (Fraction(instant // self.spread) - self.shift) / self.scale

    def moment(self, instant: int) -> datetime:
        """The date of an instant. One that is before the year 1 or behind 9999 is an OverflowError."""
        return EPOCH + timedelta(microseconds=math.floor(self.time(instant) * 1_000_000))

    def date(self, instant: int) -> Optional[datetime]:
        """The date of an instant, or None where it is before the year 1 or behind 9999."""
        try:
            return self.moment(instant)
        except OverflowError:
            return None

    def text(self, instant: int) -> str:
        """An instant as a date, without its time where that is midnight, or as its number where it is none."""
        moment = self.date(instant)
        if moment is None:
            return str(instant)
        text = moment.replace(tzinfo=None).isoformat()
        return text[:10] if text.endswith("T00:00:00") else text

    def place(self, moment: datetime) -> float:
        """Where a date lies among the instants."""
        return float((seconds_to(moment) * self.scale + self.shift) * self.spread)

    def moments(self, instants: Any) -> Any:
        """An array of instants as an array of dates of numpy, in seconds where all are whole ones, else microseconds."""
        import numpy

        times = numpy.asarray(instants, numpy.int64) // self.spread
        if self.scale == 1 and Fraction(self.shift).denominator == 1:
            return (times - int(self.shift)).astype("datetime64[s]")
        # In whole numbers of Python, since the numbers in between are larger than 64 bits hold.
        found, places = numpy.unique(times, return_inverse=True)
        micros = [math.floor((time - self.shift) / self.scale * 1_000_000) for time in map(Fraction, found.tolist())]
        return numpy.array(micros, "datetime64[us]")[places]

    # What it is called.

    @property
    def zero(self) -> Optional[datetime]:
        """The date of instant 0."""
        return self.date(0)

    @property
    def unit(self) -> str:
        """The unit of instants: one of `UNITS`, or a part of a second."""
        known = {1 / (seconds * self.spread): name for name, seconds in UNITS.items()}
        return known.get(self.scale, f"1/{self.scale * self.spread} s")

    def same(self, other: "Calendar") -> bool:
        """Whether both give each date the same instants."""
        return (self.scale, self.shift, self.spread) == (other.scale, other.shift, other.spread)

    def note(self) -> str:
        """A text that tells all of it, for `noted`."""
        what = "seconds since 1970" if self.dates else "times of the file"
        spread = f", spread over {self.spread}" if self.spread != 1 else ""
        return f"{what} times {self.scale} and {self.shift} more{spread}"


def noted(note: str) -> Optional[Calendar]:
    """The calendar that a note tells of, or None where it is no note."""
    found = NOTE.fullmatch(note)
    if found is None:
        return None
    what, scale, shift, spread = found.groups()
    if not Fraction(scale) or spread == "0":
        return None
    return Calendar(Fraction(scale), int(shift), int(spread or 1), what == "seconds since 1970")


def calendar_of(zero: Date, unit: str) -> Calendar:
    """A calendar. Raises `NoDate` where the zero is no date, or the unit none of `UNITS`."""
    if unit not in UNITS:
        raise NoDate(f"{unit!r} is no unit of time: they are {', '.join(UNITS)}")
    scale = 1 / UNITS[unit]
    return Calendar(scale, -seconds_to(zero) * scale)


def file_beside(index: str) -> str:
    """The file with the calendar of an index."""
    return index + ".time"


def read_calendar(index: str) -> Optional[Calendar]:
    """The calendar beside an index, or None where there is none. Raises `NoDate` where the file holds no calendar."""
    try:
        with open(file_beside(index), encoding="utf-8") as file:
            found = json.load(file)
            return calendar_of(str(found["zero"]), found["unit"])
    except FileNotFoundError:
        return None
    except (ValueError, KeyError, TypeError, AttributeError) as error:
        raise NoDate(f"{file_beside(index)} holds no calendar: {error}") from error


def write_calendar(index: str, zero: Date, unit: str) -> None:
    """Keeps the calendar of an index beside it, whole or not at all."""
    moment = EPOCH + timedelta(microseconds=math.floor(seconds_to(zero) * 1_000_000))
    kept = json.dumps({"zero": moment.isoformat(), "unit": unit})
    new = file_beside(index) + ".new"
    with open(new, "w", encoding="utf-8") as file:
        file.write(kept + "\n")
    os.replace(new, file_beside(index))


def settled(index: str, note: Optional[Calendar], beside: Optional[Calendar]) -> Optional[Calendar]:
    """What the note of an index and the file beside it tell together, or None where neither tells anything.

    Raises `NoDate` where they contradict each other.
    """
    if note is None or beside is None:
        return note or beside
    if not note.same(beside):
        raise NoDate(
            f"{file_beside(index)} says that instant 0 is {beside.text(0)} and that instants are {beside.unit}, and the "
            f"index itself that it is {note.text(0)} and that they are {note.unit}; without that file the index is right"
        )
    return note
