"""Instants as dates: one calendar for the client, the prompt and the tools."""
from __future__ import annotations

import importlib.util
import json
import subprocess
import sys
import unittest
from datetime import date, datetime, timedelta, timezone
from fractions import Fraction
from pathlib import Path

from deltagraph import NoDate, OutOfRange
from deltagraph.calendar import UNITS, Calendar, calendar_of, noted, read_calendar, seconds_to
from deltagraph.words import LAST_INSTANT

from .support import Case, program

UTC = timezone.utc
TOOLS = Path(__file__).resolve().parents[2] / "tools"

# A letter of 1968 and a visit of 1975: all instants are 671 days later than the seconds since 1970.
MOVED = "seconds since 1970 times 1 and 57974400 more"
LETTERS = [
    "0 +node 1",
    "0 nset 1 name Ada",
    f"0 nset 1 clock {MOVED}",
    "0 +node 2",
    "0 +edge 1 1 2 dir",
    "228787200 +edge 2 2 1 dir",
    "300000000 +node 3",
]


def there(module: str) -> bool:
    return importlib.util.find_spec(module) is not None


class Calendars(unittest.TestCase):
    def test_dates_are_instants(self) -> None:
        for zero, unit, given, instant, text in (
            ("1970-01-01", "seconds", "2023-06-10", 1686355200, "2023-06-10"),
            ("1970-01-01", "seconds", "2023-06", 1685577600, "2023-06-01"),
            ("1970-01-01", "seconds", "2023", 1672531200, "2023-01-01"),
            ("1970-01-01", "seconds", "2023-06-10T12:30:05", 1686400205, "2023-06-10T12:30:05"),
            ("1970-01-01", "seconds", "2023-06-10 12:30", 1686400200, "2023-06-10T12:30:00"),
            ("1970-01-01", "seconds", "2023-06-10T12:30:05+02:00", 1686393005, "2023-06-10T10:30:05"),
            ("1970-01-01", "seconds", "2023-06-10T12:30:05Z", 1686400205, "2023-06-10T12:30:05"),
            ("1970-01-01", "milliseconds", "1970-01-01T00:00:01.250", 1250, "1970-01-01T00:00:01.250000"),
            ("1950-01-01", "days", "1950-03-01T23:59", 59, "1950-03-01"),
            ("1950-01-01", "hours", "1950-01-02", 24, "1950-01-02"),
            ("2000-01-03", "weeks", "2000-01-16", 1, "2000-01-10"),
            ("2000-01-03", "weeks", "2000-01-17", 2, "2000-01-17"),
            ("0001-01-01", "days", "9999-12-31", 3652058, "9999-12-31"),
        ):
            with self.subTest(given):
                calendar = calendar_of(zero, unit)
                self.assertEqual(calendar.instant(given), instant)
                self.assertEqual(calendar.text(instant), text)
                self.assertEqual(calendar.unit, unit)

    def test_dates_of_python(self) -> None:
        calendar = calendar_of(date(2020, 1, 1), "hours")
        self.assertEqual(calendar.instant(date(2020, 1, 2)), 24)
        self.assertEqual(calendar.instant(datetime(2020, 1, 1, 3, 59)), 3)
        east = timezone(timedelta(hours=2))
        self.assertEqual(calendar.instant(datetime(2020, 1, 1, 3, 59, tzinfo=east)), 1)
        self.assertEqual(calendar.date(25), datetime(2020, 1, 2, 1, tzinfo=UTC))

    @unittest.skipUnless(there("numpy"), "numpy is not installed")
    def test_dates_of_numpy(self) -> None:
        import numpy

        calendar = Calendar()
        for text in ("2015", "2015-03", "2015-03-01", "2015-03-01T12:30:05"):
            self.assertEqual(calendar.instant(numpy.datetime64(text)), calendar.instant(text))
        self.assertEqual(calendar.instant(numpy.datetime64("2015-03-01T00:00:00.999999999", "ns")), 1425168000)
        with self.assertRaises(NoDate):
            calendar.instant(numpy.datetime64("NaT"))
        moments = calendar.moments([0, 1425168000])
        self.assertEqual(moments.astype(str).tolist(), ["1970-01-01T00:00:00", "2015-03-01T00:00:00"])
        weeks = calendar_of("2000-01-03", "weeks").moments(numpy.array([0, 2]))
        self.assertEqual(weeks.astype("datetime64[D]").astype(str).tolist(), ["2000-01-03", "2000-01-17"])
        moved = noted("seconds since 1970 times 10 and 50 more, spread over 3")
        assert moved is not None
        half = moved.moments(numpy.array([165, 167, 168])).astype(str).tolist()
        self.assertEqual(half, ["1970-01-01T00:00:00.500000"] * 2 + ["1970-01-01T00:00:00.600000"])

    @unittest.skipUnless(there("pandas"), "pandas is not installed")
    def test_dates_of_pandas(self) -> None:
        import pandas

        self.assertEqual(Calendar().instant(pandas.Timestamp("2015-03-01")), 1425168000)
        self.assertEqual(Calendar().instant(pandas.Timestamp("2015-03-01", tz="Europe/Rome")), 1425168000 - 3600)
        with self.assertRaises(NoDate):
            Calendar().instant(pandas.NaT)

    def test_instants_behind_the_last_date(self) -> None:
        for unit in UNITS:
            calendar = calendar_of("1970-01-01", unit)
            if unit != "microseconds":
                self.assertIsNone(calendar.date(LAST_INSTANT))
            self.assertEqual(calendar.text(LAST_INSTANT), str(LAST_INSTANT))

    def test_what_is_no_date(self) -> None:
        for given in (
            "",
            "23",
            "2023-6",
            "20230610",
            "2023-W05-1",
            "2023-02-30",
            "2023-06-10T12",
            "10.06.2023",
            "2023-06-10+02:00",
            "2023-06-10T25:00",
            "2023-06-10x",
        ):
            with self.subTest(given), self.assertRaises(NoDate):
                seconds_to(given)
        with self.assertRaises(NoDate):
            calendar_of("1970-01-01", "months")
        with self.assertRaises(NoDate):
            calendar_of("1970-01-01", "days").instant("1969-12-31")

    def test_notes(self) -> None:
        for calendar in (
            Calendar(),
            Calendar(Fraction(1000), 5),
            Calendar(Fraction(1, 60), -7, 4),
            Calendar(dates=False),
        ):
            self.assertEqual(noted(calendar.note()), calendar)
        self.assertEqual(Calendar(shift=57974400).note(), MOVED)
        for text in ("", "seconds", MOVED + " ", "seconds since 1970 times 0 and 0 more"):
            self.assertIsNone(noted(text))
        spread = noted("times of the file times 1 and 0 more, spread over 3")
        assert spread is not None
        self.assertEqual((spread.first(5), spread.last(5), spread.time(16)), (15, 17, 5))


class Kept(Case):
    def test_a_calendar_is_kept_beside_the_index(self) -> None:
        with self.open() as store:
            store.create()
            store.load(["10 +node 1", "20 +node 2"])
            with self.assertRaises(OutOfRange) as raised:
                store.at("2020-01-11")
            self.assertIn("from 1970-01-01T00:00:10 to 1970-01-01T00:00:20", raised.exception.words())
            self.assertEqual(store.at("1970-01-01T00:00:10").counts().nodes, 1)
            store.set_calendar("2020-01-01", "days")
        kept = json.loads((self.folder / "history.dg.time").read_text())
        self.assertEqual(kept, {"zero": "2020-01-01T00:00:00+00:00", "unit": "days"})
        with self.open() as store:
            self.assertEqual(store.at("2020-01-11").counts().nodes, 1)
            self.assertEqual(store.at(date(2020, 1, 21)).counts().nodes, 2)
            self.assertEqual([of.time for of in store.several([10, "2020-01-12"])], [10, 11])
            self.assertTrue(store.certify("2020-01-12", "s", store.plan("2020-01-12")).valid)
            self.assertEqual(store.at(10).date, datetime(2020, 1, 11, tzinfo=UTC))
            with self.assertRaises(OutOfRange) as raised:
                store.several(["2020-01-12", "2020-02"])
            words = "the history goes from 2020-01-11 to 2020-01-21, the instants 10 to 20"
            self.assertEqual(raised.exception.words(), words)

    def test_times_that_are_none(self) -> None:
        with self.open() as store:
            store.create()
            store.load(["10 +node 1"])
            for given in (10.0, 1.5e9, None, (1,)):
                with self.subTest(given), self.assertRaises(TypeError):
                    store.at(given)
            with self.assertRaises(ValueError):
                store.at(10, "all")

    def test_a_file_that_holds_none(self) -> None:
        file = self.folder / "history.dg.time"
        for text in (
            "",
            "[]",
            '{"zero": "1970-01-01"}',
            '{"zero": 5, "unit": "days"}',
            '{"zero": "x", "unit": "days"}',
        ):
            file.write_text(text)
            with self.subTest(text), self.assertRaises(NoDate):
                read_calendar(str(self.index))
        with self.open() as store:  # which goes on by instants
            store.create()
            store.load(["10 +node 1"])
            self.assertEqual(store.at(10).counts().nodes, 1)
            with self.assertRaises(NoDate):
                store.at("1970-01-01")


class OneTruth(Case):
    """An index that notes what its instants are tells all of them the same."""

    def setUp(self) -> None:
        super().setUp()
        with self.open() as store:
            store.create()
            store.load(LETTERS)

    def ran(self, *words: str, script: bytes = b"") -> "subprocess.CompletedProcess[bytes]":
        command = [sys.executable, *words]
        environment = {"DELTAGRAPH": program()[0], "PYTHONPATH": str(TOOLS.parent / "python"), "PATH": "/usr/bin:/bin"}
        return subprocess.run(command, input=script, capture_output=True, env=environment)

    def edges_by_tool(self, day: str) -> int:
        ran = self.ran(str(TOOLS / "snapshot"), str(self.index), day, "--format", "edges")
        self.assertEqual(ran.returncode, 0, ran.stderr)
        return len(ran.stdout.splitlines()) - 1

    def edges_by_prompt(self, day: str) -> int:
        ran = self.ran("-m", "deltagraph", str(self.index), script=f"at {day} s\ncounts last\n".encode())
        self.assertEqual(ran.stderr, b"")
        return int(ran.stdout.split(b"\n")[2].split()[4])

    def test_client_prompt_and_tools_say_the_same(self) -> None:
        with self.open() as store:
            for day, due in (("1968-03-01", 1), ("1975-05-31", 1), ("1975-06-01", 2), ("1975-06-02", 2), ("1976", 2)):
                with self.subTest(day):
                    self.assertEqual(store.at(day).counts().edges, due)
                    if len(day) > 4:
                        self.assertEqual(self.edges_by_tool(day), due)
                        self.assertEqual(self.edges_by_prompt(day), due)
            self.assertEqual(store.calendar.text(0), "1968-03-01")
            self.assertEqual(store.dates(0, 228787200), ["1968-03-01", "1975-06-01"])

    def test_another_calendar_is_refused(self) -> None:
        with self.open() as store:
            with self.assertRaises(NoDate) as raised:
                store.set_calendar("1970-01-01", "seconds")
            self.assertIn("instant 0 is 1968-03-01", str(raised.exception))
            self.assertFalse((self.folder / "history.dg.time").exists())
            self.assertEqual(store.at("1975-06-02").counts().edges, 2)
            store.set_calendar("1968-03-01", "seconds")
            self.assertEqual(store.at("1975-06-02").counts().edges, 2)

    def test_a_file_that_contradicts_the_index_is_refused(self) -> None:
        (self.folder / "history.dg.time").write_text('{"zero": "1970-01-01", "unit": "seconds"}')
        with self.open() as store:
            with self.assertRaises(NoDate):
                store.at("1975-06-02")
            self.assertEqual(store.at(0).counts().edges, 1)
        ran = self.ran(str(TOOLS / "snapshot"), str(self.index), "1975-06-02")
        self.assertEqual((ran.returncode, ran.stdout), (2, b""))
        self.assertIn(b"history.dg.time says that instant 0 is 1970-01-01", ran.stderr)

    def test_tools_take_the_file_beside_the_index(self) -> None:
        other = self.folder / "days.dg"
        with self.open(other) as store:
            store.create()
            store.load(["10 +node 1", "10 +edge 1 1 1 dir", "20 +edge 2 1 1 dir"])
            store.set_calendar("2020-01-01", "days")
        self.index = other
        self.assertEqual([self.edges_by_tool(day) for day in ("2020-01-11", "2020-01-20", "2020-01-21")], [1, 1, 2])
