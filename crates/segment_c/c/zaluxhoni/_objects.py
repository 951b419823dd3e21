"""Objects of a segment: arrays, vectors, strings and maps."""
from __future__ import annotations

import collections.abc
import ctypes
import importlib
import operator
from typing import (TYPE_CHECKING, Any, Dict, ItemsView, Iterable, Iterator, KeysView, List, MutableMapping,
                    MutableSequence, Optional, Sequence, SupportsIndex, Tuple, TypeVar, Union, ValuesView, overload)

from . import _library
from ._errors import (AbsentError, BadCountError, BadValueError, Error, NoElementError, NoSpaceError, OutOfRangeError,
                      TooLargeError, WrongKindError, named, shown)
from ._library import BOOL, I32, I64, STRING, STRINGS, U8, U64, VECTOR, MAP, quick, zx
from ._values import (KINDS, SCALARS, Key, Row, Texts, decoded, encoded, from_words, is_scalar, listed,
                      natural, number_in, pairs_of, raw_key, row, scalar, unpacked, value_of, whole)

if TYPE_CHECKING:
    from ._segment import Info, Segment

_reads = {BOOL: zx.zx_read_bools, U8: zx.zx_read_u8s, I32: zx.zx_read_i32s, I64: zx.zx_read_i64s, U64: zx.zx_read_u64s}
_AHEAD = 4096
_SHOWN = 20
_Default = TypeVar("_Default")


SAME = "as of the segment"
"""The encoding of a group that takes that of its segment."""


class Left:
    """Holds the memory that a segment left to views, until the last of them is gone."""
    memory = _library.Memory()

    def __init__(self, is_mapped: bool) -> None:
        self.memory, self._is_mapped = _library.Memory(), is_mapped

    def __del__(self) -> None:
        if self.memory.at and self._is_mapped:
            _library.unmap(self.memory.at, self.memory.len)
        elif self.memory.at:
            _library.free(self.memory.at)


class Lease:
    """Lends the elements of an object in place, as long as this instance exists."""
    # the segment has weak references to its leases: nothing is to be done at their end
    left: Optional[Left] = None

    def __init__(self, owner: Any, code: int) -> None:
        segment = self._segment = owner._segment
        self._scalar, there = SCALARS[code], _library.Elements()
        self._readonly = bool(segment.mode == "read")
        owner._call(zx.zx_view if self._readonly else zx.zx_view_mut, there)
        self._at, self._count = there.at, there.count
        if self._count:
            segment._lend(self, owner.handle)
        form = f"{'|' if self._scalar.size == 1 else '<'}{_FORMS[self._scalar.letter]}{self._scalar.size}"
        self.__array_interface__ = {"version": 3, "data": (self._at, self._readonly), "shape": (self._count,),
                                    "typestr": form}

    @property
    def is_current(self) -> bool:
        """Whether the segment still lies where the lease shows it."""
        return self.left is None or not self.left.memory.at

    @property
    def memory(self) -> Tuple[int, int]:
        """Its address and its number of bytes."""
        return self._at, self._count * self._scalar.size

    def view(self) -> memoryview:
        """Returns a view that holds the lease."""
        if not self._count:
            return memoryview(bytearray(self._scalar.size)).cast(self._scalar.letter)[:0]
        memory = (ctypes.c_uint8 * (self._count * self._scalar.size)).from_address(self._at)
        memory.lease = self
        view = memoryview(memory).cast("B").cast(self._scalar.letter)
        return view.toreadonly() if self._readonly else view

    def array(self, dtype: Any, copy: Any) -> Any:
        """Returns a numpy array that holds the lease, or a copy."""
        numpy: Any = importlib.import_module("numpy")
        elements = numpy.asarray(self) if self._count else numpy.empty(0, self.__array_interface__["typestr"])
        if dtype is not None and elements.dtype != dtype:
            return elements.astype(dtype)
        return elements.copy() if copy else elements


_FORMS = {"?": "b", "B": "u", "i": "i", "q": "i", "Q": "u"}


def places_of(index: slice, length: int) -> range:
    """Returns the indexes that a slice means."""
    try:
        return range(*index.indices(length))
    except TypeError:
        raise WrongKindError(f"{shown(index)} is no slice of places") from None
    except ValueError:
        raise BadValueError(f"{shown(index)} has no step") from None


class Object(_library.Place):
    """An object of a segment. It looks its key up in each call, so it stays valid as long as the segment is open."""
    __slots__ = ("_segment", "_key", "_code", "_raw", "_lock", "_scalar_code", "_key_code", "_value_code",
                 "_own_encoding", "__weakref__")
    _own_encoding: Optional[str]

    def __init__(self, segment: Segment, key: Key, code: int) -> None:
        self._segment, self._key, self._code, self._raw = segment, key, code, raw_key(key)
        self._lock = segment._lock

    @property
    def key(self) -> Key:
        """Its key: its name, or what unique() or handle() returned."""
        return self._key

    def _start(self) -> None:
        """Tells the library's class which object this is."""
        segment = self._segment
        quick.zx_python_place(self, segment._handle, self._raw, self._code, segment._may_ask, (segment, self._raw))

    def _call(self, call: Any, *arguments: Any) -> None:
        code = self._segment._code(call, self._raw, *arguments)
        if code:
            raise self._error(code, arguments)

    def _error(self, code: int, arguments: Tuple[Any, ...] = ()) -> Error:
        """Returns the error of a call that failed: with the index and the length, or with the kind that the object has
        by now."""
        if code == OutOfRangeError.code and arguments and type(arguments[0]) is int:
            return OutOfRangeError(f"{shown(self._key)} has no element {arguments[0]}: its length is {len(self)}")
        told = self._segment._told(self._key) if code == WrongKindError.code else None
        if told is not None and told.kind != self._code:
            return WrongKindError(f"{shown(self._key)} is a {KINDS[told.kind]} now, and no {self.kind}")
        return self._segment._error(code, self._key, arguments)

    def _change(self, call: Any, *arguments: Any) -> None:
        """Makes a call that may move or change the elements."""
        segment = self._segment
        segment._changes += 1
        if segment._lent:
            segment._refuse_lent(self._key)
        self._call(call, *arguments)

    @property
    def kind(self) -> str:
        """Its kind, such as "vec<i64>"."""
        return KINDS[self._code]

    @property
    def _encoding(self) -> Optional[str]:
        """How its texts are decoded: as the segment says, or the group that it was asked of."""
        return self._segment.encoding if self._own_encoding is SAME else self._own_encoding

    def info(self) -> Info:
        """Returns its Info. NotFoundError."""
        return self._segment.info(self._key)

    @property
    def handle(self) -> int:
        """Its handle, a number. NotFoundError."""
        return self.info().handle

    def destroy(self) -> bool:
        """Destroys it, and returns whether it existed."""
        return self._segment.destroy(self._key)

    def _measure(self) -> Tuple[int, int]:
        length, places = ctypes.c_uint64(), ctypes.c_uint64()
        self._call(zx.zx_measure, length, places)
        return length.value, places.value

    def __len__(self) -> int:
        return self._measure()[0]

    def _place(self, index: Any) -> int:
        """Returns the place of an index; a negative index counts from the end."""
        number = whole(index)
        if number < 0:
            number += len(self)
        if not 0 <= number < 2**64:
            raise OutOfRangeError(f"{self._key!r} has no element {shown(index)}")
        return number

    def _scalar(self, index: int) -> int:
        value = _library.Value()
        self._call(zx.zx_get, index, value)
        return number_in(value)

    def _become(self, value: Any) -> None:
        raise NotImplementedError

    def _value(self) -> Any:
        """Returns its value as a list, dict, str or bytes."""
        raise NotImplementedError

    def copy(self) -> Any:
        """Returns its value as a list or dict."""
        return self._value()

    def __reduce_ex__(self, _: Any) -> Any:
        value = self._value()
        return type(value), (value,)

    def _front(self) -> str:
        """Returns the repr of its value, or the front of a long one."""
        return shown(self._value())

    def __repr__(self) -> str:
        try:
            return f"<{self.kind} {self._key!r} {self._front()}>"
        except Error as error:
            return f"<{self.kind} {self._key!r}: {error}>"

    def _named(self, error: Error) -> Error:
        """Returns the error, with the object's key."""
        return named(error, self._key)


class _Places(Object):
    """What vectors, strings and vectors of strings share: a capacity."""
    __slots__ = ()

    @property
    def capacity(self) -> int:
        """The number of elements that fit without more storage."""
        return self._measure()[1]

    def reserve(self, places: int) -> None:
        """Makes the capacity at least `places`. NoSpaceError."""
        self._change(zx.zx_reserve, natural(places))

    def trim(self) -> None:
        """Makes the capacity the length."""
        self._change(zx.zx_trim)

    def clear(self) -> None:
        """Removes all elements. Keeps the capacity."""
        self._change(zx.zx_clear)

    def _lengthen(self, more: int, call: Any, *arguments: Any) -> None:
        """Makes a call that adds `more` elements, which asks for twice the capacity. If there is no gap for that, and
        the segment cannot have one, asks for less."""
        try:
            return self._change(call, *arguments)
        except (NoSpaceError, TooLargeError):
            if not self._has_room(more):
                raise
        self._change(call, *arguments)

    def _has_room(self, more: int) -> bool:
        """Gets storage for `more` elements at least: for half of the capacity more, a fourth, and so on."""
        segment, (length, extra) = self._segment, self._measure()
        while extra // 2 > more:
            extra //= 2
            if not zx.zx_reserve(segment._handle, self._raw, length + extra):
                return True
        return not zx.zx_reserve(segment._handle, self._raw, length + more)


class _Elements(Object):
    """What objects of several elements share with a list."""
    __slots__ = ()

    def _get(self, place: int) -> Any:
        raise NotImplementedError

    def _read(self, first: int, count: int) -> List[Any]:
        """Reads elements from an index on."""
        raise NotImplementedError

    def _set_slice(self, index: slice, value: Any) -> None:
        raise NotImplementedError

    def _all(self) -> List[Any]:
        return self._read(0, len(self))

    def _value(self) -> Any:
        return self._all()

    def _front(self) -> str:
        count = len(self)
        if count <= _SHOWN:
            return shown(self._read(0, count))
        return f"{shown(self._read(0, _SHOWN))[:-1]}, ... {count} in all]"

    def _item(self, index: Any) -> Any:
        if not isinstance(index, slice):
            return self._get(self._place(index))
        places = places_of(index, len(self))
        if not places:
            return []
        first, last = min(places[0], places[-1]), max(places[0], places[-1])
        elements = self._read(first, last - first + 1)
        return elements if places.step == 1 else [elements[place - first] for place in places]

    def __iter__(self) -> Iterator[Any]:
        # reads elements ahead, twice as many each time; after a change of the segment it reads again, a few
        segment, place, many = self._segment, 0, 1
        while True:
            changes, left = segment._changes, len(self) - place
            if left <= 0:
                return
            try:
                elements = self._read(place, min(many, left))
            except OutOfRangeError:
                # another thread made it shorter
                many = 1
                continue
            many = min(2 * many, _AHEAD)
            for value in elements:
                yield value
                place += 1
                if segment._changes != changes:
                    many = 1
                    break

    def __reversed__(self) -> Iterator[Any]:
        for place in range(len(self) - 1, -1, -1):
            try:
                value = self._get(place)
            except OutOfRangeError:
                return
            yield value

    def __contains__(self, value: object) -> bool:
        return value in self._all()

    def count(self, value: Any) -> int:
        """Returns how often it has the value."""
        return self._all().count(value)

    def index(self, value: Any, start: Any = 0, stop: Any = None) -> int:
        """Returns the first index of a value, from `start` on and before `stop`. NoElementError."""
        try:
            return self._all().index(value, start, *(() if stop is None else (stop,)))
        except TypeError as error:
            raise WrongKindError(f"{self._key!r}: {error}") from None
        except ValueError:
            raise NoElementError(f"{self._key!r} has no element {shown(value)}") from None

    def _other(self, other: object) -> Optional[List[Any]]:
        """Returns the elements that are compared as a list."""
        return other._all() if isinstance(other, _Elements) else other if isinstance(other, list) else None

    def _with(self, operation: Any, other: object) -> Any:
        """Applies an operator to two lists."""
        elements = self._other(other)
        return NotImplemented if elements is None else operation(self._all(), elements)

    def __eq__(self, other: object) -> Any:
        return self._with(operator.eq, other)

    def __lt__(self, other: object) -> Any:
        return self._with(operator.lt, other)

    def __le__(self, other: object) -> Any:
        return self._with(operator.le, other)

    def __gt__(self, other: object) -> Any:
        return self._with(operator.gt, other)

    def __ge__(self, other: object) -> Any:
        return self._with(operator.ge, other)

    def __add__(self, other: Any) -> Any:
        return self._with(operator.add, other)

    def __radd__(self, other: Any) -> Any:
        return self._with(lambda own, others: others + own, other)

    def __mul__(self, times: Any) -> Any:
        return self._all() * whole(times)

    __rmul__ = __mul__

    __hash__ = None  # type: ignore[assignment]


class _Scalars(_Elements):
    """What arrays and vectors of scalars share: one call reads or writes many elements."""
    __slots__ = ()
    if TYPE_CHECKING:
        @overload
        def __getitem__(self, index: SupportsIndex) -> int: ...

        @overload
        def __getitem__(self, index: slice) -> List[int]: ...

        def __getitem__(self, index: Any) -> Any:
            raise NotImplementedError

        def __iter__(self) -> Iterator[int]:
            raise NotImplementedError

        def __reversed__(self) -> Iterator[int]:
            raise NotImplementedError

        def copy(self) -> List[int]:
            raise NotImplementedError

    def __init__(self, segment: Segment, key: Key, code: int) -> None:
        super().__init__(segment, key, code)
        self._scalar_code = code if is_scalar(code) else code - VECTOR

    def _get(self, place: int) -> int:
        return self._scalar(place)

    def _row(self, values: Any) -> Row:
        try:
            return row(self._scalar_code, values)
        except Error as error:
            raise self._named(error) from None

    def _number(self, value: Any) -> _library.Value:
        try:
            return value_of(self._scalar_code, scalar(self._scalar_code, value))
        except Error as error:
            raise self._named(error) from None

    def _memory(self, first: int, count: int) -> Any:
        """Returns the bytes of elements from an index on."""
        memory = ctypes.create_string_buffer(max(8, count * SCALARS[self._scalar_code].size))
        self._call(_reads[self._scalar_code], first, memory, count)
        return memory

    def _read(self, first: int, count: int) -> List[Any]:
        return unpacked(self._scalar_code, self._memory(first, count), count)

    def view(self) -> memoryview:
        """Returns a memoryview of the elements in place, without a copy; it may be read-only. Writing to it changes the
        elements. As long as it exists, calls that would move them raise LentError. NotFoundError."""
        return Lease(self, self._scalar_code).view()

    def __array__(self, dtype: Any = None, copy: Any = None) -> Any:
        return Lease(self, self._scalar_code).array(dtype, copy)

    def _set(self, place: int, value: Any) -> None:
        passed = self._number(value)
        self._segment._changes += 1
        self._call(zx.zx_set, place, passed)

    def _write(self, first: int, values: Any) -> None:
        """Overwrites elements from an index on."""
        passed = self._row(values)
        self._segment._changes += 1
        self._call(zx.zx_write_elements, first, passed.passed)

    def _write_to(self, places: range, values: List[Any]) -> None:
        """Overwrites the elements at some indexes."""
        if not places:
            return
        first, last = min(places[0], places[-1]), max(places[0], places[-1])
        elements = values
        if places.step != 1:
            elements = self._read(first, last - first + 1)
            for place, value in zip(places, values):
                elements[place - first] = value
        self._write(first, elements)

    def __setitem__(self, index: Any, value: Any) -> None:
        if isinstance(index, slice):
            return self._set_slice(index, value)
        self._segment._changes += 1
        if type(index) is int and index >= 0 and self._at(index, value):
            return
        self._set(self._place(index), value)


class Array(_Scalars, Sequence[int]):
    """One or more scalars that were made together, used as a list of fixed length."""
    __slots__ = ()

    def __len__(self) -> int:
        return self.info().count

    def _set_slice(self, index: slice, value: Any) -> None:
        places, values = places_of(index, len(self)), listed(value)
        if len(places) != len(values):
            raise BadCountError(f"{self._key!r}: {len(values)} values for {len(places)}")
        self._write_to(places, values)

    def _become(self, value: Any) -> None:
        # one number is used as a number, and another object is copied
        if len(self) == 1 and not isinstance(value, Array):
            self[0] = value
        elif is_list_for(self._code, value):
            self[:] = value
        else:
            raise WrongKindError(f"{self._key!r}: {shown(value)} is no list")


class _List(_Places, _Elements):
    """What vectors of scalars and of strings share."""
    __slots__ = ()

    def _insert(self, place: int, value: Any) -> None:
        raise NotImplementedError

    def _pop(self) -> Any:
        raise NotImplementedError

    def _extend(self, values: List[Any]) -> None:
        raise NotImplementedError

    def append(self, value: Any) -> None:
        """Appends a value. NoSpaceError, OutOfRangeError, WrongKindError."""
        self._insert(len(self), value)

    def assign(self, values: Iterable[Any]) -> None:
        """Replaces all elements."""
        raise NotImplementedError

    def _set_slice(self, index: slice, value: Any) -> None:
        elements = self._all()
        places, values = places_of(index, len(elements)), listed(value)
        if places.step == 1 and len(places) == len(values) and isinstance(self, _Scalars):
            return self._write_to(places, values)
        if places.step != 1 and len(places) != len(values):
            raise BadCountError(f"{self._key!r}: {len(values)} values for {len(places)}")
        elements[index] = values
        self.assign(elements)

    def __delitem__(self, index: Any) -> None:
        if not isinstance(index, slice):
            return self._change(zx.zx_erase, self._place(index))
        elements = self._all()
        if places_of(index, len(elements)):
            del elements[index]
            self.assign(elements)

    def insert(self, index: int, value: Any) -> None:
        """Inserts a value before the element `index`; an index past an end means that end, as for a list."""
        length, place = len(self), whole(index)
        self._insert(min(max(place + length if place < 0 else place, 0), length), value)

    def pop(self, index: int = -1) -> Any:
        """Removes an element, the last one by default, and returns it. OutOfRangeError."""
        if whole(index) == -1:
            return self._pop()
        place = self._place(index)
        value = self._get(place)
        self._change(zx.zx_erase, place)
        return value

    def remove(self, value: Any) -> None:
        """Removes the first element with a value. NoElementError."""
        del self[self.index(value)]

    def extend(self, values: Iterable[Any]) -> None:
        """Appends values: all of them, or none. NoSpaceError, OutOfRangeError, WrongKindError."""
        self._extend(values._all() if isinstance(values, _Elements) else values)  # type: ignore[arg-type]

    def reverse(self) -> None:
        """Reverses the elements."""
        self.assign(self._all()[::-1])

    def sort(self, *, key: Any = None, reverse: bool = False) -> None:
        """Sorts the elements, as list.sort does."""
        self.assign(sorted(self._all(), key=key, reverse=reverse))

    def clear(self) -> None:
        """Removes all elements. Keeps the capacity."""
        _Places.clear(self)

    def __iadd__(self, values: Any) -> Any:
        self.extend(values)
        return self

    def __imul__(self, times: Any) -> Any:
        self.assign(self._all() * whole(times))
        return self

    def _become(self, value: Any) -> None:
        if not is_list_for(self._code, value):
            raise WrongKindError(f"{self._key!r}: {shown(value)} is no list")
        self.assign(value)


class Vector(_Scalars, _List, MutableSequence[int]):
    """A vector of scalars, used as a list."""
    __slots__ = ()
    if TYPE_CHECKING:
        def pop(self, index: int = -1) -> int:
            raise NotImplementedError

    def _insert(self, place: int, value: Any) -> None:
        self._lengthen(1, zx.zx_insert, place, self._number(value))

    def _pop(self) -> int:
        value = _library.Value()
        self._change(zx.zx_pop, value)
        return number_in(value)

    def append(self, value: int) -> None:
        """Appends a value. NoSpaceError, OutOfRangeError, WrongKindError."""
        segment = self._segment
        segment._changes += 1
        if not segment._lent and self._at(-1, value):
            return
        self._lengthen(1, zx.zx_push, self._number(value))

    def _extend(self, values: Any) -> None:
        added = self._row(values)
        self._lengthen(added.count, zx.zx_extend, added.passed)

    def assign(self, values: Iterable[int]) -> None:
        """Replaces all elements: by all values, or none. NoSpaceError, OutOfRangeError, WrongKindError."""
        self._change(zx.zx_assign, self._row(values._all() if isinstance(values, _Elements) else values).passed)


class Strings(_List, MutableSequence[str]):
    """A vector of strings, used as a list of str; of bytes, if the encoding of its segment or group is None."""
    __slots__ = ()
    if TYPE_CHECKING:
        @overload
        def __getitem__(self, index: SupportsIndex) -> str: ...

        @overload
        def __getitem__(self, index: slice) -> List[str]: ...

        def __getitem__(self, index: Any) -> Any:
            raise NotImplementedError

        def __iter__(self) -> Iterator[str]:
            raise NotImplementedError

        def __reversed__(self) -> Iterator[str]:
            raise NotImplementedError

        def copy(self) -> List[str]:
            raise NotImplementedError

        def pop(self, index: int = -1) -> str:
            raise NotImplementedError

    def __init__(self, segment: Segment, key: Key, code: int) -> None:
        super().__init__(segment, key, code)
        self._own_encoding = SAME

    def _bytes(self, text: Any) -> bytes:
        try:
            return encoded(text, self._encoding)
        except Error as error:
            raise self._named(error) from None

    def _texts(self, texts: Any) -> Texts:
        try:
            return Texts(texts, self._encoding)
        except Error as error:
            raise self._named(error) from None

    def _get(self, place: int) -> Any:
        return self._read(place, 1)[0]

    def _read(self, first: int, count: int) -> List[Any]:
        read: List[Any] = []
        most = min(count, _AHEAD)
        room = max(256, 64 * most)
        ends, got = (ctypes.c_uint64 * max(1, most))(), ctypes.c_size_t()
        encoding = self._encoding
        memory = ctypes.create_string_buffer(room)
        while len(read) < count:
            code = self._segment._code(zx.zx_read_texts, self._raw, first + len(read), memory, room, ends,
                                       min(most, count - len(read)), got)
            if code == _SHORT_BUFFER:
                length = ctypes.c_uint64()
                self._segment._code(zx.zx_read_text, self._raw, first + len(read), memory, 0, length)
                room = max(length.value, room)
                memory = ctypes.create_string_buffer(room)
            elif code:
                raise self._error(code)
            else:
                read += _cut(memory, ends[:got.value], encoding)
        return read

    def __setitem__(self, index: Any, value: Any) -> None:
        if isinstance(index, slice):
            return self._set_slice(index, value)
        text = self._bytes(value)
        self._change(zx.zx_set_text, self._place(index), text, len(text))

    def _insert(self, place: int, value: Any) -> None:
        text = self._bytes(value)
        self._change(zx.zx_insert_text, place, text, len(text))

    def _pop(self) -> Any:
        last = self[-1]
        self._change(zx.zx_pop_text)
        return last

    def append(self, value: Union[str, bytes]) -> None:
        """Appends a string. NoSpaceError, WrongKindError."""
        text = self._bytes(value)
        self._change(zx.zx_push_text, text, len(text))

    def _extend(self, values: Any) -> None:
        texts, length = self._texts(values), len(self)
        try:
            self._change(zx.zx_push_texts, length, texts.passed, texts.count)
        except Error:
            for _ in range(len(self) - length):
                self._call(zx.zx_pop_text)
            raise

    def assign(self, values: Iterable[Union[str, bytes]]) -> None:
        """Replaces all strings: by all values, or none. NoSpaceError, WrongKindError."""
        texts = self._texts(values._all() if isinstance(values, _Elements) else values)
        self._change(zx.zx_assign_texts, texts.passed, texts.count)


_SHORT_BUFFER = 24


def _cut(memory: Any, ends: List[int], encoding: Optional[str]) -> List[Any]:
    """Splits texts that follow one another at their ends."""
    first, texts = 0, []
    joined = memory.raw[:ends[-1]] if ends else b""
    for end in ends:
        texts.append(decoded(joined[first:end], encoding))
        first = end
    return texts


class String(_Places):
    """A string: bytes that can be changed; bytes(s) copies them, and str(s) decodes them."""
    __slots__ = ()
    if TYPE_CHECKING:
        @overload
        def __getitem__(self, index: SupportsIndex) -> int: ...

        @overload
        def __getitem__(self, index: slice) -> bytes: ...

        def __getitem__(self, index: Any) -> Any:
            raise NotImplementedError

    def __init__(self, segment: Segment, key: Key, code: int) -> None:
        super().__init__(segment, key, code)
        self._own_encoding = SAME

    def view(self) -> memoryview:
        """Returns a memoryview of the bytes in place, as Vector.view does of elements."""
        return Lease(self, U8).view()

    def _text(self) -> bytes:
        length, room = ctypes.c_uint64(), 256
        while True:
            memory = ctypes.create_string_buffer(room)
            code = self._segment._code(zx.zx_read_string, self._raw, memory, room, length)
            if not code:
                return memory.raw[:length.value]
            if code != _SHORT_BUFFER:
                raise self._error(code)
            room = length.value

    def _bytes(self, text: Any) -> bytes:
        try:
            return encoded(text, self._encoding)
        except Error as error:
            raise self._named(error) from None

    def __bytes__(self) -> bytes:
        return self._text()

    def __str__(self) -> str:
        return str(decoded(self._text(), self._encoding or "utf-8"))

    def __format__(self, form: str) -> str:
        return format(str(self), form)

    def _value(self) -> Any:
        return decoded(self._text(), self._encoding)

    def _item(self, index: Any) -> Any:
        if isinstance(index, slice):
            places_of(index, 0)
            return self._text()[index]
        return self._scalar(self._place(index))

    def __setitem__(self, index: Any, value: Any) -> None:
        if isinstance(index, slice):
            text = bytearray(self._text())
            places, part = places_of(index, len(text)), self._bytes(value)
            if places.step != 1 and len(places) != len(part):
                raise BadCountError(f"{self._key!r}: {len(part)} bytes for {len(places)}")
            text[index] = part
            return self.assign(bytes(text))
        try:
            passed = value_of(U8, scalar(U8, value))
        except Error as error:
            raise self._named(error) from None
        self._segment._changes += 1
        self._call(zx.zx_set, self._place(index), passed)

    def __iter__(self) -> Iterator[int]:
        return iter(self._text())

    def __contains__(self, part: Any) -> bool:
        if isinstance(part, (str, bytes, bytearray, memoryview, String)):
            return self._bytes(part) in self._text()
        return part in list(self._text())

    def assign(self, text: Any) -> None:
        """Replaces the text by a str or bytes. NoSpaceError, WrongKindError."""
        passed = self._bytes(text)
        self._change(zx.zx_assign_string, passed, len(passed))

    def append(self, text: Any) -> None:
        """Appends a str or bytes. NoSpaceError, WrongKindError."""
        passed = self._bytes(text)
        self._lengthen(len(passed), zx.zx_append, passed, len(passed))

    def __iadd__(self, text: Any) -> String:
        self.append(text)
        return self

    def __eq__(self, other: object) -> bool:
        if isinstance(other, (str, bytes, bytearray, String)):
            return self._text() == encoded(other, self._encoding)
        return NotImplemented

    __hash__ = None  # type: ignore[assignment]

    def _become(self, value: Any) -> None:
        self.assign(value)


class _Keys(collections.abc.KeysView):  # type: ignore[type-arg]
    def __reversed__(self) -> Iterator[Any]:
        return reversed(list(self))

    def __repr__(self) -> str:
        return f"dict_keys({shown(list(self))})"


class _Items(collections.abc.ItemsView):  # type: ignore[type-arg]
    def __iter__(self) -> Iterator[Any]:
        return self._mapping._pairs()  # type: ignore[attr-defined, no-any-return]

    def __contains__(self, item: object) -> bool:
        if not isinstance(item, tuple) or len(item) != 2:
            return False
        missing = object()
        found = self._mapping.get(item[0], missing)  # type: ignore[attr-defined]
        return found is not missing and (found is item[1] or found == item[1])

    def __reversed__(self) -> Iterator[Any]:
        return reversed(list(self))

    def __repr__(self) -> str:
        return f"dict_items({shown(list(self))})"


class _ValuesView(collections.abc.ValuesView):  # type: ignore[type-arg]
    def __iter__(self) -> Iterator[Any]:
        return (value for _, value in self._mapping._pairs())  # type: ignore[attr-defined]

    def __reversed__(self) -> Iterator[Any]:
        return reversed(list(self))

    def __repr__(self) -> str:
        return f"dict_values({shown(list(self))})"


class _Pairs:
    """What maps and mappings of names share with dict, beside the methods of MutableMapping."""
    __slots__ = ()

    def _pairs(self) -> Iterator[Tuple[Any, Any]]:
        raise NotImplementedError

    def keys(self) -> Any:
        """Returns its keys, in order, as for a dict."""
        return _Keys(self)  # type: ignore[arg-type]

    def items(self) -> Any:
        """Returns its pairs, in the order of the keys, as for a dict."""
        return _Items(self)  # type: ignore[arg-type]

    def values(self) -> Any:
        """Returns its values, in the order of the keys, as for a dict."""
        return _ValuesView(self)  # type: ignore[arg-type]

    def __reversed__(self) -> Iterator[Any]:
        return reversed(self.keys())

    def __or__(self, other: Any) -> Any:
        return {**dict(self._pairs()), **other} if isinstance(other, collections.abc.Mapping) else NotImplemented

    def __ror__(self, other: Any) -> Any:
        return {**other, **dict(self._pairs())} if isinstance(other, collections.abc.Mapping) else NotImplemented

    def __ior__(self, other: Any) -> Any:
        self.update(other)  # type: ignore[attr-defined]
        return self


_missing = object()


class Map(_Pairs, Object, MutableMapping[int, int]):
    """A map from scalars to scalars, used as a dict, in the order of its keys."""
    __slots__ = ()
    if TYPE_CHECKING:
        def __getitem__(self, key: int) -> int:
            raise NotImplementedError

        def keys(self) -> KeysView[int]:
            raise NotImplementedError

        def items(self) -> ItemsView[int, int]:
            raise NotImplementedError

        def values(self) -> ValuesView[int]:
            raise NotImplementedError

        def copy(self) -> Dict[int, int]:
            raise NotImplementedError

    def __init__(self, segment: Segment, key: Key, code: int) -> None:
        super().__init__(segment, key, code)
        self._key_code, self._value_code = code >> 8 & 255, code & 255

    def _item(self, key: Any) -> int:
        value = self._get(key)
        if value is None:
            raise AbsentError(f"the map {self._key!r} has no key {shown(key)}")
        return value

    def _get(self, key: Any) -> Optional[int]:
        """Returns the value of a key, or None, also for what no map of this kind can have as a key."""
        value = _library.Value()
        try:
            at = value_of(self._key_code, scalar(self._key_code, key))
        except Error:
            return None
        code = self._segment._code(zx.zx_map_get, self._raw, at, value)
        if code == _ABSENT:
            return None
        if code:
            raise self._error(code)
        return number_in(value)

    @overload
    def get(self, key: object) -> Optional[int]: ...

    @overload
    def get(self, key: object, default: Union[int, _Default]) -> Union[int, _Default]: ...

    def get(self, key: Any, default: Any = None) -> Any:
        """Returns the value of a key, or `default`."""
        value = self._at(key)
        value = self._get(key) if value is None else value
        return default if value is None else value

    def __setitem__(self, key: int, value: int) -> None:
        self._segment._changes += 1
        if not self._at(key, value):
            self.put(key, value)

    def __delitem__(self, key: int) -> None:
        if self._get(key) is None:
            raise AbsentError(f"the map {self._key!r} has no key {shown(key)}")
        self.erase(key)

    def _number(self, code: int, value: Any) -> _library.Value:
        try:
            return value_of(code, scalar(code, value))
        except Error as error:
            raise self._named(error) from None

    def put(self, key: int, value: int) -> bool:
        """Puts a value at a key, and returns whether the key is new. NoSpaceError, OutOfRangeError, WrongKindError."""
        is_new = ctypes.c_bool()
        at, passed = self._number(self._key_code, key), self._number(self._value_code, value)
        self._segment._changes += 1
        self._call(zx.zx_map_put, at, passed, is_new)
        return is_new.value

    def erase(self, key: int) -> bool:
        """Removes a key, and returns whether it existed. OutOfRangeError, WrongKindError."""
        was_there = ctypes.c_bool()
        at = self._number(self._key_code, key)
        self._segment._changes += 1
        self._call(zx.zx_map_erase, at, was_there)
        return was_there.value

    def first(self) -> Optional[Tuple[int, int]]:
        """Returns the pair with the least key, or None."""
        return self._pair(zx.zx_map_first)

    def next_after(self, key: int) -> Optional[Tuple[int, int]]:
        """Returns the pair with the least key above another, or None. OutOfRangeError, WrongKindError."""
        return self._pair(zx.zx_map_next, self._number(self._key_code, key))

    def _pair(self, call: Any, *after: Any) -> Optional[Tuple[int, int]]:
        key, value = _library.Value(), _library.Value()
        code = self._segment._code(call, self._raw, *after, key, value)
        if code == _ABSENT:
            return None
        if code:
            raise self._error(code)
        return number_in(key), number_in(value)

    def _rows(self, after: Optional[int], count: int) -> Tuple[List[int], List[int]]:
        """Reads keys and values of at most `count` pairs: the first ones, or those above a key."""
        keys, values = ctypes.create_string_buffer(8 * count), ctypes.create_string_buffer(8 * count)
        read = ctypes.c_size_t()
        above = None if after is None else ctypes.byref(value_of(self._key_code, after))
        self._call(zx.zx_read_pairs, above, keys, values, count, read)
        return from_words(self._key_code, keys, read.value), from_words(self._value_code, values, read.value)

    def range(self, low: Optional[int] = None, high: Optional[int] = None) -> Iterator[Tuple[int, int]]:
        """Goes over the pairs whose keys are at least `low` and below `high`, in the order of the keys; None is no
        bound. It reads no other pairs.

        >>> import zaluxhoni
        >>> prices = zaluxhoni.create(4096).construct("map<i32,i64>", "prices", {1: 250, 2: 1999, 7: 75})
        >>> list(prices.range(2, 7)), list(prices.range(2))
        ([(2, 1999)], [(2, 1999), (7, 75)])
        """
        own = SCALARS[self._key_code]
        first = own.least if low is None else max(whole(low), own.least)
        stop = own.most + 1 if high is None else whole(high)
        if first > own.most:
            return iter(())
        return self._pairs(first - 1 if first > own.least else None, stop)

    def _pairs(self, last: Optional[int] = None, stop: Optional[int] = None) -> Iterator[Tuple[int, int]]:
        # reads pairs ahead, twice as many each time; after a change of the segment it reads again, a few
        segment, many = self._segment, 4
        while True:
            changes = segment._changes
            keys, values = self._rows(last, many)
            if not keys:
                return
            many = min(2 * many, _AHEAD)
            for pair in zip(keys, values):
                if stop is not None and pair[0] >= stop:
                    return
                yield pair
                if segment._changes != changes:
                    last, many = pair[0], 4
                    break
            else:
                last = keys[-1]

    def _value(self) -> Dict[int, int]:
        return dict(self._pairs())

    def _front(self) -> str:
        keys, values = self._rows(None, _SHOWN + 1)
        front = shown(dict(zip(keys[:_SHOWN], values)))
        return front if len(keys) <= _SHOWN else f"{front[:-1]}, ... {len(self)} in all}}"

    def __array__(self, dtype: Any = None, copy: Any = None) -> Any:
        """Returns a numpy array of its pairs, with the fields "key" and "value": a copy."""
        numpy: Any = importlib.import_module("numpy")
        forms = [_FORMS[SCALARS[code].letter] + str(SCALARS[code].size) for code in (self._key_code, self._value_code)]
        pairs = numpy.array(list(self._pairs()), [("key", forms[0]), ("value", forms[1])])
        return pairs if dtype is None or pairs.dtype == dtype else pairs.astype(dtype)

    def _ipython_key_completions_(self) -> List[int]:
        return self._rows(None, _AHEAD)[0]

    def __contains__(self, key: Any) -> bool:
        return self.get(key) is not None

    def __iter__(self) -> Iterator[int]:
        return (key for key, _ in self._pairs())

    def __eq__(self, other: object) -> bool:
        if isinstance(other, collections.abc.Mapping):
            return self._value() == dict(other.items())
        return NotImplemented

    __hash__ = None  # type: ignore[assignment]

    def popitem(self) -> Tuple[int, int]:
        """Removes the pair with the least key, and returns it. AbsentError."""
        pair = self.first()
        if pair is None:
            raise AbsentError(f"the map {self._key!r} is empty")
        self.erase(pair[0])
        return pair

    def pop(self, key: Any, default: Any = _missing) -> Any:
        """Removes a key and returns its value; for a missing key it returns `default`, or raises AbsentError."""
        value = self._get(key)
        if value is not None:
            self.erase(key)
            return value
        if default is _missing:
            raise AbsentError(f"the map {self._key!r} has no key {shown(key)}")
        return default

    def clear(self) -> None:
        """Removes all pairs."""
        self._segment._changes += 1
        self._call(zx.zx_clear_map)

    def update(self, *others: Any, **named: Any) -> None:
        """Puts the pairs of a mapping, of a list of pairs, or of a numpy array with two fields. It puts none if one is
        outside the kinds of the map: OutOfRangeError, WrongKindError. After NoSpaceError the first ones are put."""
        if len(others) > 1:
            raise WrongKindError(f"update of {self._key!r} takes one mapping, not {len(others)}")
        self._put_all(dict_of(self, *others, **named))

    def _put_all(self, pairs: Dict[Any, Any]) -> None:
        try:
            keys, values, count = pairs_of(self._code, pairs)
        except Error as error:
            raise self._named(error) from None
        self._segment._changes += 1
        self._call(zx.zx_put_pairs, self._key_code, self._value_code, keys, values, count)

    def _become(self, value: Any) -> None:
        """Replaces all pairs; a pair that stays keeps its block."""
        if not isinstance(value, collections.abc.Mapping):
            raise WrongKindError(f"{self._key!r}: {shown(value)} is no mapping")
        pairs = dict(value)
        try:
            pairs_of(self._code, pairs)
        except Error as error:
            raise self._named(error) from None
        for key in [key for key in self if key not in pairs]:
            self.erase(key)
        self._put_all(pairs)


_ABSENT = 10


def dict_of(about: Any, *others: Any, **named: Any) -> Dict[Any, Any]:
    """Returns the pairs that an update gets."""
    try:
        return dict(*map(_plain_pairs, others), **named)
    except Error:
        raise
    except TypeError as error:
        raise WrongKindError(f"{about._key!r}: {error}") from None
    except ValueError as error:
        raise BadValueError(f"{about._key!r}: {error}") from None


def _plain_pairs(other: Any) -> Any:
    """Returns the pairs of a map, or of an array with two fields, as dict takes them quickly."""
    names = getattr(getattr(other, "dtype", None), "names", None)
    if names is not None and len(names) == 2 and getattr(other, "ndim", 0) == 1:
        return zip(other[names[0]].tolist(), other[names[1]].tolist())
    return other._value() if isinstance(other, Map) else other


def bytes_in(arguments: Tuple[Any, ...], count: int) -> Optional[int]:
    """Returns how many bytes the values of a call have, or None if it gets none; a single one counts `count` times."""
    for each in arguments:
        if isinstance(each, _library.Values):
            own = SCALARS[each.kind]
            return int(getattr(each, own.counts)) * own.size
        if isinstance(each, _library.Value):
            return count * SCALARS[each.kind].size
        if isinstance(each, bytes):
            return len(each)
        if isinstance(each, ctypes.Array) and each._type_ is _library.Text:
            return sum(int(text.len) for text in each)
    return None


def is_list_for(code: int, value: Any) -> bool:
    """Whether an assignment by name takes the value as a list for an object of the kind."""
    if isinstance(value, (str, collections.abc.Mapping, collections.abc.Set, String)):
        return False
    if isinstance(value, (bytes, bytearray)):
        return code in (U8, VECTOR + U8)
    return isinstance(value, collections.abc.Sequence) or hasattr(value, "tolist")


def object_of(segment: Any, key: Key, code: int, encoding: Optional[str] = SAME) -> Any:
    """Returns the object of a key that has a kind. `encoding` says how its texts are decoded."""
    classes = segment._classes
    if is_scalar(code):
        return classes[Array](segment, key, code)
    if code in (STRING, STRINGS):
        made = classes[String if code == STRING else Strings](segment, key, code)
        made._own_encoding = encoding
        return made
    return classes[Vector if code < MAP else Map](segment, key, code)
