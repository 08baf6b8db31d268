"""What `vozgumb.pandas` answers of a series of texts, and `vozgumb.dask_dataframe` of one in partitions."""
import json
import pickle
import unittest

from vozgumb import DocumentError, JsonPath, PathError, QueryError

try:
    import pandas
    from vozgumb.pandas import RowError
except ImportError:
    pandas = None
try:
    import dask.dataframe
    import vozgumb.dask_dataframe
except ImportError:
    dask = None

MANY = 200_000
# The JSON of what each row holds below "a", or None where it is nothing; the dtype of the values, and what they are.
VALUES = [
    (["1", None, "-9223372036854775808"], "Int64", [1, None, -(2**63)]),
    (["1", "18446744073709551615"], "object", [1, 2**64 - 1]),
    (["1.5", None, "4.0"], "Float64", [1.5, None, 4.0]),
    (["1", "1.5", "9007199254740992"], "Float64", [1.0, 1.5, 2.0**53]),
    (["9007199254740993", "1.5"], "object", [2**53 + 1, 1.5]),
    (["true", "false", None], "boolean", [True, False, None]),
    (["true", "1"], "object", [True, 1]),
    (['"é"', '""', "null"], "string", ["é", "", None]),
    (['"x"', "1"], "object", ["x", 1]),
    (["[1]", '{"b": null}', None], "object", [[1], {"b": None}, None]),
    (["null", None], "object", [None, None]),
    ([], "object", []),
]


def listed(series):
    """The values of a series, with None for each that is missing."""
    return [None if not isinstance(it, (list, dict)) and pandas.isna(it) else it for it in series]


def with_types(values):
    """Values beside their types, since True equals 1 and 1 equals 1.0."""
    return [(type(value).__name__, value) for value in values]


@unittest.skipUnless(pandas, "pandas is not there")
class Answers(unittest.TestCase):
    def test_values(self):
        for held, dtype, wanted in VALUES:
            with self.subTest(held=held):
                texts = ["{}" if it is None else '{"a": ' + it + "}" for it in held]
                value = pandas.Series(texts, dtype=object).jsonpath.value("$.a")
                self.assertEqual((str(value.dtype), listed(value)), (dtype, wanted))
                if dtype == "object":
                    self.assertEqual(with_types(listed(value)), with_types(wanted))

    def test_first_of_several(self):
        series = pandas.Series(["[3, 1, 2]", "[]", "[[4]]"])
        self.assertEqual(listed(series.jsonpath.value("$..[?@ < 3]")), [1, None, None])

    def test_asked_dtype(self):
        series = pandas.Series(["[1]", "[]", None])
        for dtype, wanted in (("Float64", [1.0, None, None]), ("float64", [1.0, None, None]), (object, [1, None, None])):
            value = series.jsonpath.value("$[0]", dtype=dtype)
            self.assertEqual((value.dtype, listed(value)), (pandas.Series([], dtype=dtype).dtype, wanted))

    def test_calls(self):
        series = pandas.Series(['{"a": [1, 2]}', b'{"b": 3}', None, bytearray(b"[]"), '{"a": 4}'])
        calls = series.jsonpath
        rows = [
            (calls.values("$.a"), "object", [[[1, 2]], [], None, [], [4]]),
            (calls.values("$.a[*]"), "object", [[1, 2], [], None, [], []]),
            (calls.locations("$.a[*]"), "object", [["$['a'][0]", "$['a'][1]"], [], None, [], []]),
            (calls.exists("$.a"), "boolean", [True, False, None, False, True]),
            (calls.count("$.a[*]"), "Int64", [2, 0, None, 0, 0]),
        ]
        for answers, dtype, wanted in rows:
            self.assertEqual((str(answers.dtype), listed(answers)), (dtype, wanted))

    def test_missing(self):
        marks = [None, float("nan"), pandas.NA, pandas.NaT]
        for dtype, missing in ((object, marks), ("string", [None] * 4), ("category", [None] * 4)):
            series = pandas.Series(["[7]", *missing], dtype=dtype)
            self.assertEqual(listed(series.jsonpath.value("$[0]")), [7] + [None] * 4)
            self.assertEqual(listed(series.jsonpath.exists("$[0]")), [True] + [None] * 4)

    def test_index(self):
        index = pandas.MultiIndex.from_tuples([("b", 2), ("a", 1), ("b", 2)], names=["x", "y"])
        series = pandas.Series(["[1]", "[2]", "[3]"], index=index, name="doc")
        value = series.jsonpath.value("$[0]")
        self.assertTrue(value.index.equals(index) and value.name == "doc")
        frame = pandas.DataFrame({"doc": series.iloc[::-1].array}, index=[5, 3, 4])
        frame["value"] = frame["doc"].jsonpath.value("$[0]").sort_index()
        self.assertEqual(frame["value"].to_dict(), {5: 3, 3: 2, 4: 1})

    def test_numbers(self):
        series = pandas.Series(["[1, 1.5]"])
        text = "$[?@ <= 1.5]"
        for path, how, wanted in ((text, (), 2), (text, ("whole",), 1), (JsonPath(text, "whole"), (), 1)):
            self.assertEqual(listed(series.jsonpath.count(path, *how)), [wanted])

    def test_many(self):
        texts = [json.dumps({"id": number, "took": number % 11 / 2}) for number in range(MANY)]
        series = pandas.Series(texts, index=range(MANY, 0, -1))
        exists = series.jsonpath.exists("$[?@ == 2.5]")
        self.assertEqual(exists.tolist(), [number % 11 == 5 for number in range(MANY)])
        value = series.jsonpath.value("$.id")
        self.assertEqual((str(value.dtype), value.tolist()), ("Int64", list(range(MANY))))


@unittest.skipUnless(pandas, "pandas is not there")
class Refusals(unittest.TestCase):
    def test_texts(self):
        series = pandas.Series(["[1]", "[1, x]", "[" * 128 + "]" * 128, None], index=["a", "b", "c", "d"])
        with self.assertRaises(DocumentError) as caught:
            series.jsonpath.value("$[0]")
        error = caught.exception
        self.assertEqual((error.label, error.position, error.too_deep), ("b", 5, False))
        self.assertEqual(str(error), "row 'b': the document is refused at byte 5: not JSON")
        with self.assertRaises(RowError) as caught:
            series[["c"]].jsonpath.exists("$[0]")
        self.assertEqual((caught.exception.label, caught.exception.too_deep), ("c", True))
        self.assertEqual(listed(series.jsonpath.value("$[0]", errors="missing")), [1, None, None, None])
        self.assertEqual(listed(series.jsonpath.count("$[0]", errors="missing")), [1, None, None, None])

    def test_error_is_pickled(self):
        error = RowError(("b", 2), 5, True)
        copy = pickle.loads(pickle.dumps(error))
        self.assertEqual((str(copy), vars(copy)), (str(error), vars(error)))

    def test_paths_and_words(self):
        series = pandas.Series([], dtype=object)
        with self.assertRaises(PathError):
            series.jsonpath.value("$.a b")
        for how in ({"errors": "ignore"}, {"numbers": "some"}):
            with self.assertRaises(ValueError):
                series.jsonpath.value("$", **how)
        with self.assertRaises(QueryError):
            pandas.Series(['["a"]']).jsonpath.exists('$[?match(@, "\\\\w{1000}{10}")]', errors="missing")

    def test_no_texts(self):
        for values in ([1, 2], [1.5], [True]):
            with self.assertRaises(AttributeError):
                pandas.Series(values).jsonpath
            with self.assertRaises(AttributeError):
                pandas.Series(values, dtype="category").jsonpath
        for row in (3, {"a": 1}, [None]):
            with self.assertRaises(TypeError) as caught:
                pandas.Series(["{}", row], index=[8, 9]).jsonpath.exists("$", errors="missing")
            self.assertIn("row 9: ", str(caught.exception))


@unittest.skipUnless(pandas and dask, "dask.dataframe is not there")
class InPartitions(unittest.TestCase):
    TEXTS = ['{"a": 1}', None, "[]", '{"a": [2, 3]}', '{"a": 4}', '{"a": null}', '{"b": 5}']

    def setUp(self):
        self.whole = pandas.Series(self.TEXTS, index=[f"row {number}" for number in range(7)], name="doc")
        self.parts = dask.dataframe.from_pandas(self.whole, npartitions=3)

    def test_calls(self):
        calls = [("value", "$.a", {"dtype": object}), ("value", "$[?@ > 3]", {"dtype": "Int64"}), ("values", "$.a", {}),
                 ("locations", "$..*", {}), ("exists", "$.a", {}), ("count", "$..*", {"numbers": "whole"})]
        for name, path, how in calls:
            with self.subTest(call=name):
                alone = getattr(self.whole.jsonpath, name)(path, **how)
                lazy = getattr(self.parts.jsonpath, name)(path, **how)
                computed = lazy.compute(scheduler="threads")
                pandas.testing.assert_series_equal(computed, alone)
                self.assertEqual((lazy.dtype, lazy.name, lazy.npartitions), (alone.dtype, "doc", self.parts.npartitions))
                self.assertEqual(lazy._meta.index.dtype, alone.index.dtype)

    def test_default_dtype(self):
        lazy = self.parts.jsonpath.value("$.a")
        self.assertEqual((lazy.dtype, listed(lazy.compute())), (object, [1, None, None, [2, 3], 4, None, None]))

    def test_sums(self):
        self.assertEqual(self.parts.jsonpath.exists("$.a").sum().compute(), 4)

    def test_refusals(self):
        with self.assertRaises(PathError):
            self.parts.jsonpath.exists("$.a b")
        refused = dask.dataframe.from_pandas(pandas.Series(["1", "2", "x"]), npartitions=3)
        with self.assertRaises(RowError) as caught:
            refused.jsonpath.exists("$").compute(scheduler="processes")
        self.assertEqual(caught.exception.label, 2)
        self.assertEqual(listed(refused.jsonpath.exists("$", errors="missing").compute()), [True, True, None])
        with self.assertRaises(AttributeError):
            dask.dataframe.from_pandas(pandas.Series([1, 2]), npartitions=1).jsonpath


if __name__ == "__main__":
    unittest.main()
