"""What a path selects from each JSON text of a series of Dask, as `vozgumb.pandas` has it of a series of pandas.

    import dask.dataframe
    import vozgumb.dask_dataframe

    events = dask.dataframe.read_parquet("events")
    events["doc"].jsonpath.exists("$[?@.status >= 500]").sum().compute()

Workers need this package. Each compiles a path of the same text once, which its threads ask at once.
"""
from __future__ import annotations

from typing import Any, Union

import pandas
from dask.dataframe import Series
from dask.dataframe.extensions import register_series_accessor

from .dask import _compiled
from .pandas import Errors
from .path import JsonPath, Numbers


@register_series_accessor("jsonpath")
class JsonPathAccessor:
    """What a path selects from each text of a series, partition by partition.

    The calls are those of `vozgumb.pandas`. A path that is refused is so at once, and a text when the series is computed.
    """

    def __init__(self, series: Series) -> None:
        # What holds no texts is refused at once.
        series._meta.jsonpath
        self._series = series

    def value(
        self, path: Union[str, JsonPath], numbers: Numbers = "all", errors: Errors = "raise", dtype: Any = object
    ) -> Series:
        """The first node of each text. Name the dtype, such as "Int64", since values are known only once they are computed."""
        return self._asked("value", path, numbers, errors, dtype=dtype)

    def values(self, path: Union[str, JsonPath], numbers: Numbers = "all", errors: Errors = "raise") -> Series:
        """A list of the nodes of each text, as Python objects."""
        return self._asked("values", path, numbers, errors)

    def locations(self, path: Union[str, JsonPath], numbers: Numbers = "all", errors: Errors = "raise") -> Series:
        """A list of the normalised paths of the nodes of each text."""
        return self._asked("locations", path, numbers, errors)

    def exists(self, path: Union[str, JsonPath], numbers: Numbers = "all", errors: Errors = "raise") -> Series:
        """Whether the path selects a node of each text, as boolean."""
        return self._asked("exists", path, numbers, errors)

    def count(self, path: Union[str, JsonPath], numbers: Numbers = "all", errors: Errors = "raise") -> Series:
        """How many nodes the path selects of each text, as Int64."""
        return self._asked("count", path, numbers, errors)

    def _asked(self, call: str, path: Union[str, JsonPath], numbers: Numbers, errors: Errors, **how: Any) -> Series:
        """The answers to a call. What they look like is that of a series without rows."""
        compiled = path if isinstance(path, JsonPath) else JsonPath(path, numbers)
        arguments = call, str(compiled), compiled.numbers, {"errors": errors, **how}
        return self._series.map_partitions(_answers, *arguments, meta=_answers(self._series._meta, *arguments))


def _answers(part: pandas.Series, call: str, path: str, numbers: Numbers, how: dict[str, Any]) -> pandas.Series:
    """The answers of one partition to a call."""
    answers: pandas.Series = getattr(part.jsonpath, call)(_compiled(path, numbers), **how)
    return answers
