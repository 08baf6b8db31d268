"""What a path selects from each JSON text of a series, by pandas.

    import pandas
    import vozgumb.pandas

    events = pandas.DataFrame({"doc": ['{"status": 200}', '{"status": 503}', None]})
    events["doc"].jsonpath.value("$.status")         # 200, 503 and <NA>, as Int64
    events[events["doc"].jsonpath.exists("$[?@ >= 500]").fillna(False)]

`vozgumb.dask_dataframe` gives the same to series of Dask.
"""
from __future__ import annotations

from typing import Any, Callable, Literal, Union

import pandas
from pandas.api.extensions import register_series_accessor
from pandas.api.types import is_scalar, is_string_dtype

from .errors import DocumentError
from .path import JsonPath, Numbers

Errors = Literal["raise", "missing"]
# The dtype of values that are all of one type.
DTYPES = {bool: "boolean", int: "Int64", float: "Float64", str: "string"}
INT64 = range(-(2**63), 2**63)
# The integers that a double holds exactly, as it does those between.
EXACT = range(-(2**53), 2**53 + 1)


class RowError(DocumentError):
    """A text of a series that is no document. `label` is that of its row; the rest is as of a `DocumentError`."""

    def __init__(self, label: Any, position: int, too_deep: bool = False) -> None:
        super().__init__(position, too_deep)
        # An exception is pickled as its arguments.
        self.args = label, position, too_deep
        self.label = label

    def __str__(self) -> str:
        return f"row {self.label!r}: {super().__str__()}"


@register_series_accessor("jsonpath")
class JsonPathAccessor:
    """What a path selects from each text of a series.

    A row is a JSON text, as `str`, `bytes` or `bytearray`, or it is missing, and its answer is then too. Each call gives a series
    with the index and the name of this one. The path is a text, or a `JsonPath`, which keeps its own rule for numbers; a path that
    is refused is a `PathError`. A text that is no document is a `RowError`, which names its row's label; with errors="missing" its
    answer is missing.
    """

    def __init__(self, series: pandas.Series) -> None:
        held = series.cat.categories if isinstance(series.dtype, pandas.CategoricalDtype) else series
        if not is_string_dtype(held.dtype):
            raise AttributeError(f"JSON texts are held as strings or objects, not as {held.dtype}")
        self._series = series

    def value(
        self, path: Union[str, JsonPath], numbers: Numbers = "all", errors: Errors = "raise", dtype: Any = None
    ) -> pandas.Series:
        """The first node of each text. It is missing where that is null, and where there is none.

        Without a dtype the series is of Int64, Float64, boolean or string where that holds every value as it is, and else of
        objects.
        """
        values = self._answers(path, numbers, errors, JsonPath.first)
        return self._as_series(values, _dtype_of(values) if dtype is None else dtype)

    def values(self, path: Union[str, JsonPath], numbers: Numbers = "all", errors: Errors = "raise") -> pandas.Series:
        """A list of the nodes of each text, as Python objects."""
        return self._as_series(self._answers(path, numbers, errors, JsonPath.values), object)

    def locations(self, path: Union[str, JsonPath], numbers: Numbers = "all", errors: Errors = "raise") -> pandas.Series:
        """A list of the normalised paths of the nodes of each text."""
        return self._as_series(self._answers(path, numbers, errors, JsonPath.locations), object)

    def exists(self, path: Union[str, JsonPath], numbers: Numbers = "all", errors: Errors = "raise") -> pandas.Series:
        """Whether the path selects a node of each text, as boolean."""
        return self._as_series(self._answers(path, numbers, errors, JsonPath.exists), "boolean")

    def count(self, path: Union[str, JsonPath], numbers: Numbers = "all", errors: Errors = "raise") -> pandas.Series:
        """How many nodes the path selects of each text, as Int64."""
        return self._as_series(self._answers(path, numbers, errors, JsonPath.count), "Int64")

    def _answers(
        self, path: Union[str, JsonPath], numbers: Numbers, errors: Errors, ask: Callable[[JsonPath, Any], Any]
    ) -> list[Any]:
        """What a method of the path answers of each text, and None where the answer is missing."""
        if errors not in ("raise", "missing"):
            raise ValueError(f"errors are 'raise' or 'missing', not {errors!r}")
        compiled = path if isinstance(path, JsonPath) else JsonPath(path, numbers)
        return [_answer(label, text, compiled, errors, ask) for label, text in self._series.items()]

    def _as_series(self, answers: list[Any], dtype: Any) -> pandas.Series:
        """The answers beside the labels of their rows."""
        return pandas.Series(answers, index=self._series.index, name=self._series.name, dtype=dtype)


def _answer(label: Any, text: Any, path: JsonPath, errors: Errors, ask: Callable[[JsonPath, Any], Any]) -> Any:
    """What a method of the path answers of the text of one row."""
    if not isinstance(text, (str, bytes, bytearray)):
        if is_scalar(text) and pandas.isna(text):
            return None
        raise TypeError(f"row {label!r}: a JSON text is str, bytes or bytearray, not {type(text).__name__}")
    try:
        return ask(path, text)
    except DocumentError as error:
        if errors == "missing":
            return None
        raise RowError(label, error.position, error.too_deep) from None


def _dtype_of(values: list[Any]) -> Any:
    """The dtype that holds each value as it is."""
    found = [value for value in values if value is not None]
    types = set(map(type, found))
    integers = [value for value in found if type(value) is int]
    if types == {int, float}:
        return "Float64" if all(value in EXACT for value in integers) else object
    if len(types) != 1 or not all(value in INT64 for value in integers):
        return object
    return DTYPES.get(types.pop(), object)
