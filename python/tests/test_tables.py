"""From a table to an index: what is due is computed here from the rows, and never from what was loaded."""
from __future__ import annotations

import contextlib
import csv
import importlib.util
import io
import random
import unittest
from datetime import date, datetime, timedelta
from typing import Any, Optional
from unittest import mock

import deltagraph
from deltagraph import BadTable, IndexExists, tables
from deltagraph.calendar import Calendar

from .support import Case, program

HEAD = "source,target,start,end,weight"


def there(module: str) -> bool:
    return importlib.util.find_spec(module) is not None


class Tables(Case):
    def csv(self, *lines: str, name: str = "ties.csv") -> str:
        file = self.folder / name
        file.write_text("".join(line + "\n" for line in lines), "utf-8")
        return str(file)

    def made(self, *lines: str, **words: Any) -> deltagraph.Store:
        self.index.unlink(missing_ok=True)
        store = deltagraph.from_csv(self.index, self.csv(*lines), program=program(), quiet=True, **words)
        self.addCleanup(store.close)
        return store

    def ties(self, graph: deltagraph.Snapshot) -> list[tuple[Any, ...]]:
        """The ties by names, with their values."""
        names = {value.node: value.value for value in graph.node_attributes() if value.key == "name"}
        values: dict[int, dict[str, str]] = {}
        for edge, key, value in graph.edge_attributes():
            values.setdefault(edge, {})[key] = value
        found = [(names[edge.source], names[edge.target], values.get(edge.id, {})) for edge in graph.edges()]
        return sorted(found, key=repr)

    def test_a_table_of_dates(self) -> None:
        store = self.made(
            HEAD,
            "Bo Chen,Cleo Wu,2020-06-01,,1",
            "Ana Silva,Bo Chen,2019-03-01,2021-06-30,2",
            '"Wu, Cleo",Ana Silva,2020-06-01T12:00,,',
        )
        with store:
            self.assertEqual(self.ties(store.at("2019-03", "sne")), [("Ana Silva", "Bo Chen", {"weight": "2"})])
            at_noon = [
                ("Ana Silva", "Bo Chen", {"weight": "2"}),
                ("Bo Chen", "Cleo Wu", {"weight": "1"}),
                ("Wu, Cleo", "Ana Silva", {}),
            ]
            self.assertEqual(self.ties(store.at("2020-06-01T12:00", "sne")), at_noon)
            self.assertEqual(self.ties(store.at("2021-06-30", "sne")), at_noon[1:])
            self.assertEqual(store.report[:4], (3, 4, 3, 4 * 2 + 1 + 3 + 2 + 2))
            self.assertEqual((store.report.duplicates, store.report.disordered, store.report.empty), (0, 1, 0))
            self.assertEqual(store.told_calendar(), Calendar())
            self.assertTrue(store.verify().sound)

    def test_what_is_told(self) -> None:
        lines = [HEAD, "a,b,2020-01-01,,1", "a,b,2020-01-01,,1", "b,c,2019-01-01,2019-01-01,1", "c,d,2019-01-01,,2"]
        told = io.StringIO()
        with contextlib.redirect_stderr(told):
            deltagraph.from_csv(self.index, self.csv(*lines), program=program()).close()
        text = told.getvalue()
        self.assertEqual(text.count("\n"), 1)
        for part in (
            "4 rows, 4 nodes, 3 ties, ",
            "from 2019-01-01 to 2020-01-01",
            "rows earlier than the row before them, put in order: 1",
            "rows that repeat an earlier one, kept as ties of their own: 1",
            "rows that end when they begin, left out: 1",
        ):
            self.assertIn(part, text)

    def test_dates_before_1970(self) -> None:
        with self.made("source,target,start", "a,b,1968-03-01", "b,c,1975-06-01") as store:
            self.assertEqual(store.calendar.text(0), "1968-03-01")
            self.assertEqual([store.at(day).counts().edges for day in ("1968-03-01", "1975-05-31", "1975-06")], [1, 1, 2])

    def test_times_finer_than_seconds(self) -> None:
        with self.made("source,target,start,end", "a,b,2020-01-01T00:00:00.250,2020-01-01T00:00:01") as store:
            self.assertEqual(store.calendar.unit, "milliseconds")
            moments = "2020-01-01T00:00:00.250", "2020-01-01T00:00:00.999", "2020-01-01T00:00:01"
            self.assertEqual([store.at(moment).counts().edges for moment in moments], [1, 1, 0])

    def test_numbers(self) -> None:
        with self.made("from,to,year", "a,b,1990", "b,c,1995", source="from", target="to", start="year") as store:
            self.assertEqual([store.at(year).counts().edges for year in (1990, 1994, 1995)], [1, 1, 2])
            self.assertIsNone(store.told_calendar())
            self.assertEqual(store.report.calendar, None)
        with self.made("source,target,start", "a,b,1420070400", times="seconds") as store:
            self.assertEqual(store.at("2015").counts().edges, 1)
            self.assertEqual(store.told_calendar(), Calendar())
        with self.made("source,target,start", "a,b,1990", times="dates") as store:
            self.assertEqual(store.at("1990").counts().edges, 1)

    def test_tables_that_are_refused(self) -> None:
        for lines, words, told in (
            (["a,b,c", "1,2,3"], {}, "no column is named source: there are a, b, c"),
            (["source,target,start", "a,b,2020"], {"end": "until"}, "no column is named until"),
            (["source,target,start,end", "a,b,2020-01-01,2019-01-01"], {}, "the tie of a and b ends before it begins"),
            (["source,target,start", "a,b,2020-01-01", "a,b"], {}, "row 2: 2 fields, and 3 columns"),
            (["source,target,start", "a,b,2020-01-01", "a,b,1.2.2020"], {}, "row 2: '1.2.2020' is no date"),
            (["source,target,start", "a,b,2020-01-01", "a,b,"], {}, "row 2: it has no start"),
            (["source,target,start", "a,b,5", "a,b,5.5"], {}, "row 2: '5.5' is no whole number"),
            (["source,target,start", "a,,5"], {}, "row 1: a row has no name"),
            (["source,target,start", "a,b,-5"], {}, "below 0"),
            (["source,target,start,the weight", "a,b,5,1"], {}, "'the weight' is no key"),
            (["source,target,start,w", 'a,b,5,"x\ny"'], {}, "row 1: 'x\\ny' has an end of a line in it"),
            (["source,target,start,w", "a,b,5," + "v" * 1025], {}, "more than 1024 bytes"),
        ):
            with self.subTest(told), self.assertRaises(BadTable) as raised:
                self.made(*lines, **words)
            self.assertIn(told, str(raised.exception))
            self.assertEqual([path.name for path in self.folder.iterdir()], ["ties.csv"])
        with self.assertRaises(ValueError):
            self.made(HEAD, times="years")

    def test_bytes_that_are_no_text(self) -> None:
        file = self.folder / "ties.csv"
        for rows in (1, 5000):
            file.write_bytes(b"source,target,start\n" + b"a,b,5\n" * rows + b"\xff,b,5\n")
            with self.subTest(rows), self.assertRaises(BadTable) as raised:
                deltagraph.from_csv(self.index, file, program=program(), quiet=True)
            self.assertIn("ties.csv", str(raised.exception))
            self.assertIn("can't decode byte 0xff", str(raised.exception))
            self.assertFalse(self.index.exists())

    def test_an_index_that_is_there_stays(self) -> None:
        self.made("source,target,start", "a,b,5").close()
        with self.assertRaises(IndexExists):
            deltagraph.from_csv(self.index, self.csv("source,target,start", "c,d,6"), program=program(), quiet=True)
        with self.open() as store:
            self.assertEqual(self.ties(store.at(5, "sn")), [("a", "b", {})])

    def test_columns_that_are_chosen(self) -> None:
        lines = ["source,target,start,end,kind,weight", "a,b,5,9,x,2"]
        with self.made(*lines) as store:
            self.assertEqual(self.ties(store.at(5, "sne")), [("a", "b", {"kind": "x", "weight": "2"})])
        with self.made(*lines, values=["weight"], end=None, directed=False) as store:
            self.assertEqual(self.ties(store.at(5, "sne")), [("a", "b", {"weight": "2"})])
            self.assertEqual((store.span(), next(store.at(5).edges()).directed), ((5, 5), False))

    def test_other_forms_of_files(self) -> None:
        file = self.folder / "other.csv"
        file.write_bytes("source;target;start\nAna L\u00f3pez;B;5\n\n".encode("latin-1"))
        with deltagraph.from_csv(
            self.index, file, separator=";", encoding="latin-1", program=program(), quiet=True
        ) as store:
            self.assertEqual(self.ties(store.at(5, "sn")), [("Ana L\u00f3pez", "B", {})])
            self.assertEqual(store.at(5, "sn").node("Ana L\u00f3pez"), (1, 1, {"name": "Ana L\u00f3pez"}))

    def test_an_empty_table(self) -> None:
        with self.made("source,target,start") as store:
            self.assertIsNone(store.span())
            self.assertEqual(store.report[:4], (0, 0, 0, 0))

    def random_rows(self, seed: int) -> list[tuple[str, str, date, Optional[date], str]]:
        pick, names = random.Random(seed), ["Ana", "Bo", "Cleo W", "D\u00e9a", "5", "x,y"]
        begin, found = date(1960 + 5 * seed, 1, 1), []
        for _ in range(pick.randrange(1, 60)):
            start = begin + timedelta(pick.randrange(20))
            end = pick.choice([None, start + timedelta(pick.randrange(10))])
            found.append((pick.choice(names), pick.choice(names), start, end, pick.choice(["", "1", "2.5", "a b"])))
        return found

    def same(self, store: deltagraph.Store, rows: Any) -> None:
        span = store.span()
        for day in sorted({day for row in rows for day in row[2:4] if day}):
            if span is None or store.instant(day) > span.last or store.instant(day) < span.first:
                continue
            due = [
                (source, target, {"weight": weight} if weight else {})
                for source, target, start, end, weight in rows
                if start <= day and (end is None or day < end)
            ]
            found = self.ties(store.at(day, "sne"))
            self.assertEqual(sorted(map(repr, found)), sorted(map(repr, due)))

    def test_random_tables(self) -> None:
        for seed in range(20):
            rows = self.random_rows(seed)
            with self.subTest(seed):
                self.index.unlink(missing_ok=True)
                file = self.folder / "random.csv"
                with file.open("w", newline="", encoding="utf-8") as stream:
                    csv.writer(stream).writerows([HEAD.split(","), *rows])
                with deltagraph.from_csv(self.index, file, program=program(), quiet=True) as store:
                    self.same(store, rows)

    def test_random_tables_of_many_blocks(self) -> None:
        with mock.patch.multiple(tables, ROWS=3, CHUNK=5):
            self.test_random_tables()

    @unittest.skipUnless(there("pandas"), "pandas is not installed")
    def test_random_frames(self) -> None:
        import pandas

        for seed in range(20):
            rows = self.random_rows(seed)
            with self.subTest(seed):
                frame = pandas.DataFrame(rows, columns=HEAD.split(","))
                forms: list[Any] = [frame, frame.assign(start=pandas.to_datetime(frame.start), end=pandas.to_datetime(frame.end))]
                forms.append(forms[1].assign(start=forms[1].start.dt.tz_localize("UTC")))
                forms.append(frame.assign(start=frame.start.astype(str), end=frame.end.map(lambda end: end and str(end))))
                for form in forms:
                    self.index.unlink(missing_ok=True)
                    with deltagraph.from_pandas(self.index, form, program=program(), quiet=True) as store:
                        self.same(store, rows)

    @unittest.skipUnless(there("pandas"), "pandas is not installed")
    def test_a_frame_of_numbers(self) -> None:
        import pandas

        frame = pandas.DataFrame({"source": [1, 2], "target": [2, 3], "start": [10, 20], "end": [15, None], "w": [1.5, None]})
        with deltagraph.from_pandas(self.index, frame, program=program(), quiet=True) as store:
            self.assertEqual(self.ties(store.at(10, "sne")), [("1", "2", {"w": "1.5"})])
            self.assertEqual(self.ties(store.at(20, "sne")), [("2", "3", {})])
            self.assertEqual((store.at(15).counts().edges, store.told_calendar()), (0, None))
        self.index.unlink()
        moments = pandas.to_datetime(["2020-01-01T00:00:00.000001", "2020-01-02"])
        with deltagraph.from_pandas(self.index, frame.assign(start=moments, end=None), program=program(), quiet=True) as store:
            self.assertEqual(store.calendar.unit, "microseconds")
            self.assertEqual(store.at(moments[0]).counts().edges, 1)
        with self.assertRaises(BadTable) as raised:
            deltagraph.from_pandas(self.folder / "none", frame.assign(start=[10, None]), program=program(), quiet=True)
        self.assertIn("row 1 (from 0) has no start", str(raised.exception))


class Changes(unittest.TestCase):
    """The changes that rows make, line by line."""

    def lines(self, keys: list[str], *rows: tuple[Any, ...]) -> list[str]:
        names = tables.Names()
        columns = list(map(list, zip(*((names[row[0]], names[row[1]], *row[2:]) for row in rows))))
        instants = list(tables.Ties(names, keys, note="noted").instants([columns]))
        for time, count, text in instants:
            self.assertEqual({line.split(b" ")[0] for line in text.splitlines()}, {b"%d" % time})
            self.assertEqual((text.count(b"\n"), text[-1:]), (count, b"\n"))
        self.assertEqual([time for time, _, _ in instants], sorted({time for time, _, _ in instants}))
        return b"".join(text for _, _, text in instants).decode().splitlines()

    ROWS = [("a", "b", 5, 7), ("b", "c", 5, None), ("d", "d", 5, 5), ("a", "c", 5, 8), ("c", "a", 5, None), ("c", "e", 7, 8)]
    AT_FIRST = ["5 +node 1", "5 nset 1 name a", "5 nset 1 clock noted", "5 +node 2", "5 nset 2 name b"]

    def test_nodes_then_ties_that_last_then_others_then_ends(self) -> None:
        due = [*self.AT_FIRST, "5 +node 3", "5 nset 3 name c"]
        due += ["5 +edge 1 2 3 dir", "5 +edge 2 3 1 dir", "5 +edge 3 1 2 dir", "5 +edge 4 1 3 dir"]
        due += ["7 +node 4", "7 nset 4 name e", "7 +edge 5 3 4 dir", "7 -edge 3", "8 -edge 4", "8 -edge 5"]
        self.assertEqual(self.lines([], *self.ROWS), due)

    def test_an_instant_of_many_rows_comes_part_by_part(self) -> None:
        due = [*self.AT_FIRST, "5 +node 3", "5 nset 3 name c"]
        due += ["5 +edge 1 2 3 dir", "5 +edge 2 1 2 dir", "5 +edge 3 1 3 dir", "5 +edge 4 3 1 dir"]
        due += ["7 +node 4", "7 nset 4 name e", "7 +edge 5 3 4 dir", "7 -edge 2", "8 -edge 3", "8 -edge 5"]
        with mock.patch.multiple(tables, ROWS=1, CHUNK=2):
            self.assertEqual(self.lines([], *self.ROWS), due)

    def test_values_go_before_their_tie(self) -> None:
        rows = [("a", "b", 5, 7, "1", None, "x"), ("a", "b", 5, 7, "", "2 3", None), ("b", "a", 5, None, None, None, "y")]
        due = [*self.AT_FIRST, "5 +edge 1 2 1 dir", "5 eset 1 w y"]
        due += ["5 +edge 2 1 2 dir", "5 eset 2 u 1", "5 eset 2 w x", "5 +edge 3 1 2 dir", "5 eset 3 v 2 3"]
        due += ["7 edel 2 u", "7 edel 2 w", "7 -edge 2", "7 edel 3 v", "7 -edge 3"]
        self.assertEqual(self.lines(["u", "v", "w"], *rows), due)

    def test_blocks_of_whole_instants(self) -> None:
        for seed in range(200):
            pick = random.Random(seed)
            starts = sorted(pick.choices(range(pick.choice([1, 3, 30])), k=pick.randrange(40)))
            columns = [list(range(len(starts))), [], starts]
            cuts = sorted({0, len(starts), *pick.choices(range(len(starts) + 1), k=3)})
            blocks = [[column[begin:end] for column in columns] for begin, end in zip(cuts, cuts[1:])]
            with self.subTest(seed), mock.patch.multiple(tables, ROWS=pick.randrange(1, 6), CHUNK=7):
                found = list(tables.by_instants(blocks))
                self.assertEqual([row for block in found for row in block[0]], columns[0])
                begin = 0
                for block in found:
                    end = begin + len(block[0])
                    self.assertTrue(begin < end <= begin + 7)
                    if end < len(starts) and starts[end - 1] == starts[end]:
                        same = [place for place, start in enumerate(starts) if start == starts[end]]
                        self.assertEqual(((end - same[0]) % 7, len(same) > 7), (0, True))
                    begin = end


class Out(Case):
    """What comes out of an index of a table."""

    def setUp(self) -> None:
        super().setUp()
        file = self.folder / "ties.csv"
        file.write_text(
            HEAD + "\nAna,Bo,2019-03-01,2021-06-30,2\nBo,Cleo,2020-06-01,,1\nAna,Bo,2020-07-01,,3\nCleo,Cleo,2020-07-01,,\n"
        )
        self.store = deltagraph.from_csv(self.index, file, program=program(), quiet=True)
        self.addCleanup(self.store.close)

    def test_asked_as_in_networkx(self) -> None:
        graph = self.store.at("2020-07-01", "sn")
        self.assertEqual((len(graph), list(graph), 1 in graph, 9 in graph), (3, [1, 2, 3], True, False))
        self.assertEqual(("Bo" in graph, "Zoe" in graph, graph.node("Zoe"), graph.neighbours("Zoe")), (True, False, None, []))
        self.assertEqual((graph.degree("Bo"), graph.degree(3), graph.degree()), (3, 2, {1: 2, 2: 3, 3: 2}))
        with self.assertRaises(KeyError):
            graph.degree("Zoe")
        self.assertEqual(self.store.at("2020-07-01").node("Cleo"), (3, 2, {}))
        self.assertEqual(graph.date, datetime.fromisoformat("2020-07-01T00:00:00+00:00"))
        self.assertTrue(bool(self.store.at("2019-03-01")))

    def test_a_notebook_shows_it(self) -> None:
        told = self.store.at("2020-07-01", "sn")._repr_html_()
        for part in ("the graph as of 2020-07-01", "<th>nodes</th><td>3</td>", "<svg", ">Cleo<", "<th>edges</th><td>4</td>"):
            self.assertIn(part, told)
        graph = self.store.at("2020-07-01")
        graph.release()
        self.assertIn("released", graph._repr_html_())

    def test_forgotten_snapshots_give_their_handles_back(self) -> None:
        counts = [self.store.at("2020-07-01").counts().edges for _ in range(300)]
        self.assertEqual((set(counts), self.store.pool().live), ({4}, 0))
        base = self.store.materialise("leaf 1") if self.store.tree().leaves else None
        del base
        self.assertEqual(self.store.pool().live, 0)

    def test_many_instants(self) -> None:
        months = [f"{year}-{month:02d}" for year in (2019, 2020, 2021) for month in range(1, 13)]
        months = [month for month in months if "2019-03" <= month <= "2021-06"] * 5
        due = [1 if month < "2020-06" else 2 if month < "2020-07" else 4 for month in months]
        self.assertEqual(list(self.store.each(months, lambda graph: graph.counts().edges)), due)
        self.assertEqual(self.store.pool().live, 0)
        several = self.store.several(months[:70])
        self.assertEqual([graph.counts().edges for graph in several], due[:70])
        with self.assertRaises(deltagraph.PoolFull):
            self.store.several(months)
        several.release()
        self.assertEqual(self.store.pool().live, 0)

    @unittest.skipUnless(there("pandas"), "pandas is not installed")
    def test_series(self) -> None:
        import pandas

        days = pandas.date_range("2019-04-01", "2021-06-01", freq="MS")
        counts = self.store.series(days)
        due = [1 if day < pandas.Timestamp("2020-06-01") else 2 if day < pandas.Timestamp("2020-07-01") else 4 for day in days]
        self.assertEqual((counts.edges.tolist(), counts.index.tolist()), (due, list(days)))
        self.assertEqual(list(counts.columns), ["nodes", "edges", "node_attributes", "edge_attributes"])
        edges = self.store.series(days, lambda graph: graph.counts().edges)
        self.assertEqual((edges.tolist(), edges.index.tolist()), (due, list(days)))
        self.assertEqual(self.store.series([], len).tolist(), [])

    @unittest.skipUnless(there("pandas"), "pandas is not installed")
    def test_names_and_numbers_in_pandas(self) -> None:
        nodes, edges = self.store.at("2020-07-01", "sne").to_pandas(label="name")
        self.assertEqual(nodes.to_dict(), {"name": {1: "Ana", 2: "Bo", 3: "Cleo"}})
        found = {(row.source, row.target): row.weight for row in edges.itertuples() if row.weight == row.weight}
        self.assertEqual(found, {("Ana", "Bo"): 3.0, ("Bo", "Cleo"): 1.0})
        self.assertEqual(sorted(edges[edges.source == "Ana"].weight), [2.0, 3.0])
        texts = self.store.at("2020-07-01", "sne").to_pandas(numbers=False)[1]
        self.assertEqual(set(texts.weight), {"2", "1", "3", None})
        history = self.store.history()
        spells = history.edges(label="name")
        self.assertEqual(spells.end.astype(str).tolist(), ["2021-06-30", "NaT", "NaT", "NaT"])
        self.assertEqual(list(zip(spells.source, spells.target))[:2], [("Ana", "Bo"), ("Bo", "Cleo")])
        self.assertEqual(history.edge_values("weight").value.tolist(), [2, 1, 3])

    @unittest.skipUnless(there("networkx"), "networkx is not installed")
    def test_names_and_numbers_in_networkx(self) -> None:
        import networkx

        graph = self.store.at("2020-07-01", "sne").to_networkx(label="name")
        self.assertEqual(dict(graph.nodes(data=True)), {name: {"name": name} for name in ("Ana", "Bo", "Cleo")})
        self.assertEqual(graph.degree("Bo", weight="weight"), 6)
        self.assertEqual(networkx.dijkstra_path_length(graph, "Ana", "Cleo", weight="weight"), 3)

    @unittest.skipUnless(there("igraph"), "igraph is not installed")
    def test_names_and_numbers_in_igraph(self) -> None:
        graph = self.store.at("2020-07-01", "sne").to_igraph()
        self.assertEqual((graph.vs["name"], graph.vs["id"]), (["Ana", "Bo", "Cleo"], [1, 2, 3]))
        found = sorted((graph.vs[edge.source]["name"], graph.vs[edge.target]["name"], edge["weight"]) for edge in graph.es if edge["weight"])
        self.assertEqual(found, [("Ana", "Bo", 2.0), ("Ana", "Bo", 3.0), ("Bo", "Cleo", 1.0)])
        self.assertEqual((graph.is_directed(), graph.ecount(), max(graph.components(mode="weak").sizes())), (True, 4, 3))

    @unittest.skipUnless(there("numpy"), "numpy is not installed")
    def test_arrays(self) -> None:
        found = self.store.at("2020-07-01", "sne").to_arrays()
        self.assertEqual((found.nodes.tolist(), found.ids.tolist(), found.directed.tolist()), ([1, 2, 3], [1, 2, 3, 4], [True] * 4))
        by_id = dict(zip(found.ids.tolist(), zip(found.sources.tolist(), found.targets.tolist())))
        weights = found.edge_values["weight"]
        self.assertEqual(weights.values.dtype.kind, "i")
        self.assertEqual(sorted((*by_id[e], w) for e, w in zip(weights.owners.tolist(), weights.values.tolist())), [(1, 2, 2), (1, 2, 3), (2, 3, 1)])
        self.assertEqual(list(found.node_values), ["name"])

    @unittest.skipUnless(there("numpy"), "numpy is not installed")
    def test_what_is_a_number(self) -> None:
        from deltagraph.arrays import column_of

        for texts, due in (
            (["1", "-2", "0"], [1, -2, 0]),
            (["1", "2.5", "1e3"], [1.0, 2.5, 1000.0]),
            (["007", "1"], ["007", "1"]),
            (["1", ""], ["1", ""]),
            (["1 ", "2"], ["1 ", "2"]),
            (["nan", "inf"], ["nan", "inf"]),
            (["1_0", "+1"], ["1_0", "+1"]),
        ):
            found = column_of([text.encode() for text in texts], True).tolist()
            self.assertEqual((found, [type(one) for one in found]), (due, [type(one) for one in due]))
            self.assertEqual(column_of([text.encode() for text in texts], False).tolist(), texts)
