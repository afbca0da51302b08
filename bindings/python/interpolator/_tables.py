"""Tables: one format over many rows."""

from __future__ import annotations

import ctypes
import itertools
from collections.abc import Mapping as MappingClass, Set
from typing import TYPE_CHECKING, Any, Iterable, List, Mapping, Sequence, Tuple, Union

from . import _library as c
from ._faults import PLACED, FormatError
from ._plans import plan_of
from ._values import UNUSED, Fields, is_list

if TYPE_CHECKING:
    from ._templates import Template

Columns = Union[Mapping[str, Any], Iterable[Tuple[str, Any]]]
Row = Union[Sequence[Any], Mapping[str, Any]]

# How many rows are laid out at a time.
BATCH = 1024

# The most bytes of the first room for their texts; if they have more, the call is done again.
FIRST_ROOM = 2**20


def _heads_of(columns: Columns) -> List[Tuple[str, Any]]:
    """The columns as pairs."""
    heads = list(columns.items() if isinstance(columns, MappingClass) else columns)
    for head in heads:
        if not (isinstance(head, (tuple, list)) and len(head) == 2 and isinstance(head[0], str)):
            raise TypeError("columns are a dict of examples, or pairs of a name and an example")
    return [(name, example) for name, example in heads]


class Table:
    """A format with the columns of a table, of which each has a name and an example."""

    def __init__(self, template: "Template", columns: Columns) -> None:
        heads = _heads_of(columns)
        if any(is_list(example) for _, example in heads):
            raise TypeError("a column of a table may not have a list as its example")
        self._template = template
        self._heads = heads
        self._uses = [template._uses_of(name) for name, _ in heads]
        self._examples = Fields(are_examples=True)
        for (name, example), uses in zip(heads, self._uses):
            self._examples.add(name, example, uses)
        self._columns = self._examples.fields()
        names = {name: uses for (name, _), uses in zip(heads, self._uses)}
        # two columns of one name are rare
        self._plan = plan_of(template._bytes, names) if len(names) == len(heads) else None

    def texts(self, rows: Iterable[Row]) -> List[str]:
        """The text of the format for each row."""
        columns = bytes(self._columns)
        each = iter(rows)
        made: List[str] = []
        while True:
            batch = list(itertools.islice(each, BATCH))
            quick = self._plan.rows(columns, batch) if self._plan is not None else None
            made += self._slowly(batch, len(made)) if quick is None else quick
            if len(batch) < BATCH:
                return made

    def _slowly(self, rows: List[Row], start: int) -> List[str]:
        """The texts of some rows, of which the first has this number."""
        table = Fields()
        for number, row in enumerate(rows, start):
            cells = self._cells_of(row, number)
            if any(map(is_list, cells)):
                raise TypeError(f"row {number} has a list as a cell")
            table.add_row(cells, self._uses)
        return self._call(table, len(rows), start)

    def _cells_of(self, row: Row, number: int) -> Sequence[Any]:
        """The cells of a row in the order of the columns."""
        if isinstance(row, MappingClass) or hasattr(row, "keys"):
            return [self._cell_of(row, which, number) for which in range(len(self._heads))]
        if isinstance(row, (str, bytes, bytearray, Set)) or not hasattr(row, "__iter__"):
            its = type(row).__name__
            raise TypeError(f"row {number} is no tuple and no dict of cells, but of type {its}")
        cells = tuple(row)
        if len(cells) != len(self._heads):
            raise ValueError(f"row {number} has {len(cells)} cells, not {len(self._heads)}")
        return cells

    def _cell_of(self, row: Any, which: int, number: int) -> Any:
        """The cell of a row under a column. Where the format does not use the column, its example
        stands for a cell that is missing."""
        name, example = self._heads[which]
        try:
            return row[name]
        except (KeyError, IndexError) as cause:
            if self._uses[which] is UNUSED:
                return example
            raise ValueError(f"row {number} has no cell `{name}`") from cause

    def _call(self, table: Fields, count: int, start: int) -> List[str]:
        text, cells = self._template._bytes, table.fields()
        ends = (ctypes.c_size_t * count)()
        given = (text, len(text), self._columns, len(self._columns), cells, len(cells), ends, count)
        guess = min(count * (len(text) + 32) + 256, FIRST_ROOM)
        answer, room, length = c.with_room(c.library.interpolator_rows, given, guess)
        made = ctypes.string_at(room, length)
        if answer.code:
            raise self._fault(answer, made.decode(), table, start)
        starts = [0, *ends[:-1]]
        return [made[first:end].decode() for first, end in zip(starts, ends)]

    def _fault(self, answer: c.Answer, message: str, table: Fields, start: int) -> FormatError:
        """The exception for a fault: that of the format over the columns, or of a row."""
        template = self._template
        if answer.code not in PLACED or template._has_fault(self._examples):
            return template._fault(answer, message, self._examples)
        row = table.row(answer.row, [name for name, _ in self._heads])
        return template._fault(answer, message, row, row=start + answer.row)
