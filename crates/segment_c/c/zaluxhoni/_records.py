"""Records: structures and numbers of other widths, stored as the bytes that spell them."""
from __future__ import annotations

import ctypes
import dataclasses
import importlib
import operator
import struct
import typing
from typing import TYPE_CHECKING, Any, Callable, Iterable, Iterator, List, MutableSequence

from ._errors import BadCountError, BadValueError, Error, NoElementError, OutOfRangeError, WrongKindError, shown
from ._objects import Array, Vector, places_of
from ._values import listed, whole

if TYPE_CHECKING:
    from ._segment import Segment


class _Form:
    """How many bytes a record has, and how it converts to a value of Python. `plain` converts a record to what is
    compared: numbers and tuples."""

    def __init__(self, size: int, to_bytes: Callable[[Any], bytes], from_bytes: Callable[[bytes], Any],
                 plain: Callable[[Any], Any] = lambda value: value) -> None:
        self.size, self.to_bytes, self.from_bytes, self.plain = size, to_bytes, from_bytes, plain


def _form_of_struct(form: struct.Struct) -> _Form:
    one = len(form.unpack(bytes(form.size))) == 1
    if one:
        return _Form(form.size, form.pack, lambda record: form.unpack(record)[0])
    return _Form(form.size, lambda value: form.pack(*value), form.unpack)


def _form_of_ctypes(form: Any) -> _Form:
    def to_bytes(value: Any) -> bytes:
        return bytes(value if isinstance(value, form) else form(*value))
    return _Form(ctypes.sizeof(form), to_bytes, form.from_buffer_copy, _fields_of)


def _fields_of(value: Any) -> Any:
    """Returns a structure of ctypes as a tuple of its fields, and any other value as it is."""
    if isinstance(value, ctypes.Structure):
        own = [field for kind in reversed(type(value).__mro__) for field in vars(kind).get("_fields_", ())]
        return tuple(_fields_of(getattr(value, field[0])) for field in own)
    if isinstance(value, ctypes.Array):
        return tuple(map(_fields_of, value))
    return bytes(value) if isinstance(value, ctypes.Union) else value


_LETTERS = {float: "d", int: "q", bool: "?"}


def _form_of_dataclass(form: Any) -> _Form:
    """Lays its fields out as C lays out a structure of them."""
    extras: Any = {"include_extras": True} if hasattr(typing, "Annotated") else {}
    try:
        hints = typing.get_type_hints(form, **extras)
    except (NameError, TypeError) as error:
        raise WrongKindError(f"{form.__name__}: {error}") from None
    names = [field.name for field in dataclasses.fields(form) if field.init]
    letters = [_letter_of(form, name, hints[name]) for name in names]
    longest = max(letters, key=struct.calcsize, default="B")
    spelled = struct.Struct(f"@{''.join(letters)}0{longest}")

    def to_bytes(value: Any) -> bytes:
        return spelled.pack(*([getattr(value, name) for name in names] if isinstance(value, form) else value))

    def plain(value: Any) -> Any:
        return tuple(getattr(value, name) for name in names) if isinstance(value, form) else value
    return _Form(spelled.size, to_bytes, lambda record: form(**dict(zip(names, spelled.unpack(record)))), plain)


def _letter_of(form: Any, name: str, hint: Any) -> str:
    """Returns the letter of `struct` for a field: of float, int, bool, Annotated[int, "i"] or ctypes.c_int32."""
    letters = [each for each in (*getattr(hint, "__metadata__", ()), _LETTERS.get(hint), getattr(hint, "_type_", None))
               if isinstance(each, str) and len(each) == 1 and each in "?bBhHiIlLqQfd"]
    if not letters:
        raise WrongKindError(f"{form.__name__}.{name} is no number: records have fields of float, int, bool, "
                        'Annotated[int, "i"] or ctypes.c_int32')
    return letters[0]


def _form_of_dtype(form: Any) -> _Form:
    numpy: Any = importlib.import_module("numpy")

    def to_bytes(value: Any) -> bytes:
        return bytes(numpy.array(value, form).tobytes())
    return _Form(form.itemsize, to_bytes, lambda record: numpy.frombuffer(record, form)[0], _item_of)


def _item_of(value: Any) -> Any:
    """Returns a scalar or a record of numpy as a number or a tuple of Python, and any other value as it is."""
    return value.item() if hasattr(value, "dtype") and not getattr(value, "ndim", 0) else value


def _is_form(values: Any, form: Any, size: int) -> bool:
    """Tells whether an array has just the form. A form that numpy knows nothing of raises a TypeError there, and one
    that both know may have other bytes, such as "<l"."""
    dtype = getattr(values, "dtype", None)
    try:
        return dtype is not None and hasattr(values, "tobytes") and dtype.itemsize == size and bool(dtype == form)
    except (AttributeError, TypeError):
        return False


def _form_of(form: Any) -> _Form:
    """Returns the form of a struct format, a ctypes.Structure, a dataclass or a dtype of numpy."""
    try:
        if isinstance(form, (str, bytes, struct.Struct)):
            made = _form_of_struct(form if isinstance(form, struct.Struct) else struct.Struct(form))
        elif isinstance(form, type) and issubclass(form, (ctypes.Structure, ctypes.Union)):
            made = _form_of_ctypes(form)
        elif isinstance(form, type) and dataclasses.is_dataclass(form):
            made = _form_of_dataclass(form)
        elif hasattr(form, "itemsize") and not getattr(form, "hasobject", True):
            made = _form_of_dtype(form)
        else:
            raise WrongKindError(f"{shown(form)} is no form of records")
    except struct.error as error:
        raise BadValueError(f"{shown(form)}: {error}") from None
    if made.size == 0:
        raise BadValueError(f"{shown(form)} has no bytes")
    return made


class Records(MutableSequence[Any]):
    """Records of one form, used as a list: those of a vector of u8, or of an array of u8, whose length is fixed. A form
    is a struct format ("d" for doubles, whose records are numbers; "<ihx" for tuples), a ctypes.Structure, a dataclass
    whose fields are numbers, or a numpy dtype. The bytes are those of the form, as C and C++ lay it out.
    `Segment.records` makes one."""
    __slots__ = ("_elements", "_form", "_given", "_lock")

    def __init__(self, elements: Any, form: Any) -> None:
        self._elements, self._form, self._given, self._lock = elements, _form_of(form), form, elements._lock

    @property
    def elements(self) -> Any:
        """The Vector or Array that has the bytes."""
        return self._elements

    @property
    def form(self) -> Any:
        """The form of its records."""
        return self._given

    def __len__(self) -> int:
        count = len(self._elements)
        if count % self._form.size:
            raise BadCountError(f"{self._elements.key!r} has {count} bytes, and no records of {self._form.size}")
        return count // self._form.size

    def _bytes(self, value: Any) -> bytes:
        try:
            record = self._form.to_bytes(value)
        except Error:
            raise
        except (struct.error, TypeError, ValueError, OverflowError) as error:
            raise WrongKindError(f"{self._elements.key!r}: {shown(value)} is no {self._given!r}: {error}") from None
        if len(record) != self._form.size:
            raise WrongKindError(f"{self._elements.key!r}: {shown(value)} is no {self._given!r}")
        return record

    def _joined(self, values: Any) -> bytes:
        if isinstance(values, Records):
            values = list(values)
        if _is_form(values, self._given, self._form.size):
            return bytes(values.tobytes())
        return b"".join([self._bytes(value) for value in listed(values)])

    def _all(self) -> List[Any]:
        return self._read(0, len(self))

    def _plain(self, value: Any) -> Any:
        return self._form.plain(value)

    def _read(self, first: int, count: int) -> List[Any]:
        size, from_bytes = self._form.size, self._form.from_bytes
        joined = self._elements._memory(first * size, count * size).raw[:count * size]
        return [from_bytes(joined[at:at + size]) for at in range(0, len(joined), size)]

    def _place(self, index: Any, length: int) -> int:
        place = whole(index)
        place += length if place < 0 else 0
        if not 0 <= place < length:
            raise OutOfRangeError(f"{self._elements.key!r} has no record {shown(index)}")
        return place

    def __getitem__(self, index: Any) -> Any:
        length = len(self)
        if not isinstance(index, slice):
            return self._read(self._place(index, length), 1)[0]
        places = places_of(index, length)
        if not places:
            return []
        first, last = min(places[0], places[-1]), max(places[0], places[-1])
        records = self._read(first, last - first + 1)
        return records if places.step == 1 else [records[place - first] for place in places]

    def __setitem__(self, index: Any, value: Any) -> None:
        length, size = len(self), self._form.size
        if not isinstance(index, slice):
            self._elements._write(self._place(index, length) * size, self._bytes(value))
            return
        places, joined = places_of(index, length), self._joined(value)
        count = len(joined) // size
        if len(places) != count and (places.step != 1 or isinstance(self._elements, Array)):
            raise BadCountError(f"{self._elements.key!r}: {count} values for {len(places)}")
        if len(places) != count:
            self._splice(places.start, places.stop if places else places.start, joined)
        elif places:
            self._write_to(places, joined)

    def _write_to(self, places: range, joined: bytes) -> None:
        """Overwrites the records at some indexes, all by one call."""
        size, first = self._form.size, min(places[0], places[-1])
        records = bytearray(joined)
        if places.step != 1:
            count = abs(places[-1] - places[0]) + 1
            records = bytearray(self._elements._memory(first * size, count * size).raw[:count * size])
            for number, place in enumerate(places):
                records[(place - first) * size:(place - first + 1) * size] = joined[number * size:(number + 1) * size]
        self._elements._write(first * size, bytes(records))

    def _splice(self, start: int, stop: int, joined: bytes) -> None:
        """Replaces the records there by other bytes."""
        size = self._form.size
        kept = self._vector()._memory(0, len(self._elements)).raw[:len(self._elements)]
        self._vector().assign(kept[:start * size] + joined + kept[stop * size:])

    def _vector(self) -> Vector:
        if not isinstance(self._elements, Vector):
            raise WrongKindError(f"{self._elements.key!r} is an array, whose length stays")
        return self._elements

    def __delitem__(self, index: Any) -> None:
        length = len(self)
        if not isinstance(index, slice):
            place = self._place(index, length)
            return self._splice(place, place + 1, b"")
        places, size = sorted(places_of(index, length)), self._form.size
        kept = bytearray(self._vector()._memory(0, length * size).raw[:length * size])
        for place in reversed(places):
            del kept[place * size:(place + 1) * size]
        if places:
            self._vector().assign(kept)

    def insert(self, index: int, value: Any) -> None:
        """Inserts a record before the one at `index`; an index past an end means that end, as for a list. NoSpaceError,
        WrongKindError."""
        length, place = len(self), whole(index)
        place = min(max(place + length if place < 0 else place, 0), length)
        if place == length:
            return self._vector().extend(self._bytes(value))
        self._splice(place, place, self._bytes(value))

    def append(self, value: Any) -> None:
        """Appends a record. NoSpaceError, WrongKindError."""
        self._vector().extend(self._bytes(value))

    def extend(self, values: Iterable[Any]) -> None:
        """Appends records: all of them, or none. NoSpaceError, WrongKindError."""
        self._vector().extend(self._joined(values))

    def assign(self, values: Iterable[Any]) -> None:
        """Replaces all records: by all values, or none. NoSpaceError, WrongKindError."""
        self._vector().assign(self._joined(values))

    def clear(self) -> None:
        """Removes all records."""
        self._vector().clear()

    def index(self, value: Any, start: Any = 0, stop: Any = None) -> int:
        """Returns the first index of a record, from `start` on and before `stop`. NoElementError."""
        records = list(map(self._plain, self._all()))
        try:
            return records.index(self._plain(value), start, *(() if stop is None else (stop,)))
        except TypeError as error:
            raise WrongKindError(f"{self._elements.key!r}: {error}") from None
        except ValueError:
            raise NoElementError(f"{self._elements.key!r} has no record {shown(value)}") from None

    def count(self, value: Any) -> int:
        """Returns how often it has the record."""
        return list(map(self._plain, self._all())).count(self._plain(value))

    def remove(self, value: Any) -> None:
        """Removes the first record that is equal. NoElementError."""
        del self[self.index(value)]

    def reverse(self) -> None:
        """Reverses the records."""
        self.assign(self._all()[::-1])

    def sort(self, *, key: Any = None, reverse: bool = False) -> None:
        """Sorts the records, as list.sort does."""
        self.assign(sorted(self._all(), key=self._plain if key is None else key, reverse=reverse))

    def copy(self) -> List[Any]:
        """Returns its records as a list."""
        return self._all()

    def __reduce_ex__(self, _: Any) -> Any:
        return list, (self._all(),)

    def __contains__(self, value: object) -> bool:
        return self._plain(value) in list(map(self._plain, self._all()))

    def __iter__(self) -> Iterator[Any]:
        segment, place, many = self._elements._segment, 0, 1
        while True:
            changes, left = segment._changes, len(self) - place
            if left <= 0:
                return
            try:
                records = self._read(place, min(many, left))
            except OutOfRangeError:
                # another thread made it shorter
                many = 1
                continue
            many = min(2 * many, 256)
            for record in records:
                yield record
                place += 1
                if segment._changes != changes:
                    many = 1
                    break

    def _with(self, operation: Any, other: object, plain: bool = True) -> Any:
        """Applies an operator to two lists."""
        if not isinstance(other, (list, Records)):
            return NotImplemented
        own, others = self._all(), list(other)
        if plain:
            own, others = list(map(self._plain, own)), list(map(self._plain, others))
        return operation(own, others)

    def __eq__(self, other: object) -> Any:
        return self._with(operator.eq, other)

    def __lt__(self, other: object) -> Any:
        return self._with(operator.lt, other)

    def __le__(self, other: object) -> Any:
        return self._with(operator.le, other)

    def __gt__(self, other: object) -> Any:
        return self._with(operator.gt, other)

    def __ge__(self, other: object) -> Any:
        return self._with(operator.ge, other)

    def __add__(self, other: Any) -> Any:
        return self._with(operator.add, other, False)

    def __radd__(self, other: Any) -> Any:
        return self._with(lambda own, others: others + own, other, False)

    def __mul__(self, times: Any) -> Any:
        return self._all() * whole(times)

    __rmul__ = __mul__

    def __imul__(self, times: Any) -> Any:
        self.assign(self._all() * whole(times))
        return self

    __hash__ = None  # type: ignore[assignment]

    def __array__(self, dtype: Any = None, copy: Any = None) -> Any:
        numpy: Any = importlib.import_module("numpy")
        try:
            records = numpy.asarray(self._elements).view(numpy.dtype(self._given))
        except TypeError:
            raise WrongKindError(f"{self._given!r} is no dtype of numpy") from None
        if dtype is not None and records.dtype != dtype:
            return records.astype(dtype)
        return records.copy() if copy else records

    def __repr__(self) -> str:
        return f"<{self._given!r} in {self._elements!r}>"
