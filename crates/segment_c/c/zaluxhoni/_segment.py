"""Segments, groups of their names, and transactions."""
from __future__ import annotations

import atexit
import codecs
import collections.abc
import ctypes
import html
import inspect
import os
import struct
import sys
import threading
import warnings
import weakref
from typing import (TYPE_CHECKING, Any, Callable, Dict, ItemsView, Iterator, KeysView, List, Literal, MutableMapping,
                    NamedTuple, Optional, Tuple, ValuesView, overload)

from . import _library
from ._errors import (LONGEST_NAME, BadCountError, BadGrowthError, BadKeyError, BadNameError, BadValueError, Error,
                      FileForkedError, FileInStepError, FileUnsyncedError, LentError, NotFoundError, NotUndoneError,
                      TooLargeError, WrongKindError, WrongTaskError, WrongThreadError, error_of, file_error_of, named,
                      no_space, region_error, shown, too_large)
from ._library import BOOL, I32, I64, MAP, NO_SPACE, STRING, STRINGS, U8, U64, VECTOR, quick, zx
from ._objects import SAME, Array, Lease, Left, Map, Object, _Pairs, String, Strings, Vector, bytes_in, object_of
from ._records import Records
from ._values import (KINDS, MOST, TEXTS, Key, MapKind, ScalarKind, Texts, VectorKind, code_of, counted, encoded,
                      handle, is_scalar, is_truth, listed, natural, number_in, pairs_of, raw_key, row, scalar, value_of,
                      whole)

_ABSENT, _OUT_OF_RANGE, _CLOSED = 10, 8, 16
_NO_OBJECT = (6, 17, 18)
_AHEAD, _SHOWN = 1024, 100
_NOBODY = 2**64 - 1
"""The number of no thread."""
MODES = {"w": 0, "r": 1, "p": 2}
FILE_MODES = {"x": 16, "w": 17, "c": 18, "r": 19, "p": 20}
_missing = object()


class Info(NamedTuple):
    """What `info` tells about an object: "named", "unique" or "anonymous"; its name or None; its kind; its number of
    scalars, 1 for a container; its handle."""
    found_by: str
    name: Optional[str]
    kind: str
    count: int  # type: ignore[assignment]
    handle: int


class Tile(NamedTuple):
    """A block or a gap: its offset, its bytes, and "gap", "object", "index", "storage" or "node"."""
    offset: int
    len: int
    use: str


_CHANGES = frozenset(id(getattr(zx, f"zx_{name}")) for name in (
    "construct", "construct_vector", "construct_array", "construct_string", "construct_strings", "construct_map",
    "find_or_construct", "find_or_construct_vector", "find_or_construct_string", "find_or_construct_strings",
    "find_or_construct_map", "destroy", "set", "push", "pop", "insert", "assign", "extend", "erase", "reserve", "trim",
    "clear", "assign_string", "append", "set_text", "push_text", "pop_text", "insert_text", "assign_texts", "map_put",
    "map_erase", "write_elements", "put_pairs", "clear_map", "push_texts", "reserve_named", "reserve_unique",
    "shrink_indexes", "zero_free", "relocate", "file_grow", "file_shrink"))
"""The calls that change a segment, by their ids: functions of ctypes have no hash."""
_Row = Tuple[str, int, int, int, Optional[int]]
"""A named object: its name, its kind, its number of scalars, its handle, and its value if it is a single scalar."""
_INFO, _VALUE = struct.Struct("@IIIQQ"), struct.Struct("@IqQ")


def _info(told: _library.Info, name: bytes) -> Info:
    own = name[:told.name_len].decode() if told.found_by == 1 else None
    return Info(("anonymous", "named", "unique")[told.found_by], own, KINDS[told.kind], told.count, told.handle)


class _Here(threading.local):
    """The number of this thread, which no other thread has."""

    def __init__(self) -> None:
        self.number: int = quick.zx_thread()


_here = _Here()


class _Named(_Pairs, MutableMapping[str, Any]):
    """What segments and groups share: a mapping from names to objects, in the order of the names' bytes."""
    __slots__ = ()
    _segment: Segment
    _prefix: str
    _own_encoding: Optional[str]
    if TYPE_CHECKING:
        def keys(self) -> KeysView[str]:
            raise NotImplementedError

        def items(self) -> ItemsView[str, Any]:
            raise NotImplementedError

        def values(self) -> ValuesView[Any]:
            raise NotImplementedError

    def _full(self, key: Any) -> Any:
        """Returns the key for the segment: a group puts its prefix before a name."""
        raise NotImplementedError

    # -- objects

    @overload
    def construct(self, kind: ScalarKind, key: Optional[Key] = None, value: Any = None) -> Array: ...

    @overload
    def construct(self, kind: VectorKind, key: Optional[Key] = None, value: Any = None) -> Vector: ...

    @overload
    def construct(self, kind: Literal["string"], key: Optional[Key] = None, value: Any = None) -> String: ...

    @overload
    def construct(self, kind: Literal["vec<string>"], key: Optional[Key] = None, value: Any = None) -> Strings: ...

    @overload
    def construct(self, kind: MapKind, key: Optional[Key] = None, value: Any = None) -> Map: ...

    @overload
    def construct(self, kind: str, key: Optional[Key] = None, value: Any = None) -> Any: ...

    def construct(self, kind: str, key: Optional[Key] = None, value: Any = None) -> Any:
        """Makes an object and returns it: construct("i64", "a", 5), construct("i64[3]", "b", 7), construct("i64[3]",
        "c", [1, 2, 3]), construct("vec<i64>", "v", [1]), construct("string", "s", "text"), construct("vec<string>",
        "t", ["text"]) or construct("map<i32,i64>", "m", {1: 2}). The key is a name, unique(kind), or None for an object
        without a key. It makes a map with all its pairs, or not at all. ExistsError, NoSpaceError, BadKeyError,
        BadNameError, BadKindError, BadValueError, BadCountError, WrongKindError."""
        full, made = self._full(key), ctypes.c_uint64()
        code = self._make("construct", kind, full, value, made)
        return self._object(full if full is not None else handle(made.value), code)

    @overload
    def find_or_construct(self, kind: ScalarKind, key: Key, value: Any = None) -> Array: ...

    @overload
    def find_or_construct(self, kind: VectorKind, key: Key, value: Any = None) -> Vector: ...

    @overload
    def find_or_construct(self, kind: Literal["string"], key: Key, value: Any = None) -> String: ...

    @overload
    def find_or_construct(self, kind: Literal["vec<string>"], key: Key, value: Any = None) -> Strings: ...

    @overload
    def find_or_construct(self, kind: MapKind, key: Key, value: Any = None) -> Map: ...

    @overload
    def find_or_construct(self, kind: str, key: Key, value: Any = None) -> Any: ...

    def find_or_construct(self, kind: str, key: Key, value: Any = None) -> Any:
        """Returns the object of the key, unchanged, or makes it as `construct` does. WrongKindError, if an object of
        another kind has the key."""
        full = self._full(key)
        code = self._make("find_or_construct", kind, full, value, ctypes.c_uint64(), ctypes.c_uint32())
        return self._object(full, code)

    def _make(self, call: str, kind: str, key: Any, value: Any, *told: Any) -> int:
        segment = self._segment
        try:
            code, count = counted(kind)
            if is_scalar(code):
                self._make_scalars(call, code, count, key, value, told)
            elif code == STRING:
                text = encoded("" if value is None else value, self._texts)
                segment._change(f"{call}_string", key, text, len(text), *told)
            elif code == STRINGS:
                texts = Texts(() if value is None else value, self._texts)
                segment._change(f"{call}_strings", key, texts.passed, texts.count, *told)
            elif code < MAP:
                values = row(code - VECTOR, () if value is None else value, BadValueError)
                segment._change(f"{call}_vector", key, values.passed, *told)
            else:
                self._make_map(call, code, key, value, told)
        except Error as error:
            raise (error if key is None else named(error, key)) from None
        return code

    def _make_map(self, call: str, code: int, key: Any, value: Any, told: Tuple[Any, ...]) -> None:
        """Makes a map with its pairs. If one finds no space, it destroys the map again."""
        segment = self._segment
        pairs = value if value and self._is_new(call, code, key) else {}
        if pairs:
            pairs_of(code, pairs)
        segment._change(f"{call}_map", key, code >> 8 & 255, code & 255, *told)
        if not pairs:
            return
        made = object_of(segment, handle(told[0].value), code)
        try:
            made.update(pairs)
        except BaseException:
            made.destroy()
            raise

    def _make_scalars(self, call: str, code: int, count: Optional[int], key: Any, value: Any,
                      told: Tuple[Any, ...]) -> None:
        many = None if value is None or _is_number(value) else value
        if many is not None and not getattr(many, "ndim", hasattr(many, "__len__")):
            many = listed(many)
        count = count if count is not None else 1 if many is None else len(many)
        if many is not None and len(many) != count:
            raise BadCountError(f"{len(many)} values for {count}")
        if not 1 <= count <= 1048576:
            raise BadCountError(f"{count} values")
        if many is not None and self._is_new(call, code, key):
            self._segment._change("construct_array", key, row(code, many, BadValueError).passed, told[0])
            return
        first = value if many is None else listed(many)[0]
        number = 0 if first is None else _new_scalar(code, first)
        self._segment._change(call, key, count, value_of(code, number), *told)

    def _is_new(self, call: str, code: int, key: Any) -> bool:
        """Tells whether the call will make an object."""
        return call == "construct" or not self._segment._has(code, key)

    def vector(self, key: Key, kind: str = "i64") -> Vector:
        """Returns the vector of a name, and makes an empty one if there is none: vector("queue", "i64").
        WrongKindError, NoSpaceError."""
        return self._found_or_made(f"vec<{kind}>", key)  # type: ignore[no-any-return]

    def map(self, key: Key, keys: str = "i64", values: str = "i64") -> Map:
        """Returns the map of a name, and makes an empty one if there is none: map("prices", "i32", "i64").
        WrongKindError, NoSpaceError."""
        return self._found_or_made(f"map<{keys},{values}>", key)  # type: ignore[no-any-return]

    def string(self, key: Key) -> String:
        """Returns the string of a name, and makes an empty one if there is none. WrongKindError, NoSpaceError."""
        return self._found_or_made("string", key)  # type: ignore[no-any-return]

    def strings(self, key: Key) -> Strings:
        """Returns the vector of strings of a name, and makes an empty one if there is none. WrongKindError,
        NoSpaceError."""
        return self._found_or_made("vec<string>", key)  # type: ignore[no-any-return]

    def _found_or_made(self, kind: str, key: Key) -> Any:
        found = self.find(kind, key)
        return self.find_or_construct(kind, key) if found is None else found

    @overload
    def find(self, kind: ScalarKind, key: Key) -> Optional[Array]: ...

    @overload
    def find(self, kind: VectorKind, key: Key) -> Optional[Vector]: ...

    @overload
    def find(self, kind: Literal["string"], key: Key) -> Optional[String]: ...

    @overload
    def find(self, kind: Literal["vec<string>"], key: Key) -> Optional[Strings]: ...

    @overload
    def find(self, kind: MapKind, key: Key) -> Optional[Map]: ...

    @overload
    def find(self, kind: str, key: Key) -> Any: ...

    def find(self, kind: str, key: Key) -> Any:
        """Returns the object of a kind under a name or unique(kind), or None. WrongKindError, if an object of another
        kind has the key."""
        code, full = code_of(kind), self._full(key)
        return self._object(full, code) if self._segment._has(code, full) else None

    def object(self, key: Key) -> Any:
        """Returns the object of a name, of unique(kind) or of handle(number); one number as an Array, a text as a
        String. NotFoundError."""
        full = self._full(key)
        return self._object(full, code_of(self._segment._info(full).kind))

    def destroy(self, key: Key) -> bool:
        """Destroys the object of a name or of unique(kind), and returns whether it existed; or destroys that of
        handle(number), and raises NotFoundError if there is none."""
        was_there, full = ctypes.c_bool(), self._full(key)
        if self._segment._lent:
            self._segment._refuse_lent(full)
        self._segment._change("destroy", full, was_there)
        return was_there.value

    def info(self, key: Key) -> Info:
        """Returns the Info of an object. NotFoundError."""
        return self._segment._info(self._full(key))

    def records(self, key: Key, form: Any) -> Records:
        """Returns the records that the bytes of a name hold, in a form; the bytes are a vector or an array of u8. If
        the name is new, makes an empty vector: records("points", "dd"), records("points", Point) of a
        ctypes.Structure, of a dataclass or of a numpy dtype. WrongKindError, NoSpaceError."""
        told = self._segment._told(self._full(key))
        if told is not None and told.kind == U8:
            return self._segment._classes[Records](self.object(key), form)  # type: ignore[no-any-return]
        return self._segment._classes[Records](self.vector(key, "u8"), form)  # type: ignore[no-any-return]

    def group(self, prefix: str, *, encoding: Optional[str] = SAME) -> Group:
        """Returns the names that begin with a text, as a mapping from the rest of each name: group("prices/"). Its
        texts are decoded as here, or by another encoding; with None they are bytes: group("images/", encoding=None)."""
        if not isinstance(prefix, str):
            raise BadNameError(f"{shown(prefix)} is no front of names")
        own = self._own_encoding if encoding is SAME else known_encoding(encoding)
        return self._segment._classes[Group](self._segment, self._prefix + prefix, own)  # type: ignore[no-any-return]

    @property
    def _texts(self) -> Optional[str]:
        """How its texts are encoded and decoded."""
        return self._segment.encoding if self._own_encoding is SAME else self._own_encoding

    def _object(self, key: Any, code: int) -> Any:
        """Returns the object of a key that has a kind."""
        return object_of(self._segment, key, code, self._own_encoding)

    # -- as a mapping

    def __getitem__(self, key: Any) -> Any:
        full = self._full(key)
        told = self._segment._told(full)
        if told is None:
            raise NotFoundError(f"no object is {shown(full)}")
        if told.count == 1 and is_scalar(told.kind):
            return self._segment._number_of(raw_key(full), full)
        found = self._object(full, told.kind)
        return found._value() if told.kind == STRING else found

    def __setitem__(self, key: Any, value: Any) -> None:
        """Gives an object another value of its kind. If the name is new, makes an object: a bool of a bool, an i64 of a
        number (above its range a u64), a string of a text, a vector of a list, a map of a dict."""
        if key is None:
            raise WrongKindError("None is no name")
        full, kind = self._full(key), _kind_of_number(value)
        raw = raw_key(full)
        told = self._segment._told_by(raw, full)
        if told is None and kind:
            self._segment._make_number(raw, full, value_of(kind, value))
        elif told is None:
            self.construct(_kind_for(value, full), key, value._value() if isinstance(value, Object) else value)
        elif kind and told.count == 1 and is_scalar(told.kind):
            self._segment._set_number(raw, full, told.kind, value)
        else:
            self._object(full, told.kind)._become(value)

    def __delitem__(self, key: Any) -> None:
        full = self._full(key)
        if self._segment._told(full) is None:
            raise NotFoundError(f"no object is {shown(full)}")
        self.destroy(key)

    def __contains__(self, key: Any) -> bool:
        return self._segment._told(self._full(key)) is not None

    def __iter__(self) -> Iterator[str]:
        return (name[len(self._prefix):] for name, *_ in self._rows())

    def __eq__(self, other: Any) -> Any:
        if not isinstance(other, collections.abc.Mapping):
            return NotImplemented
        return self is other or dict(self._pairs()) == dict(other.items())

    __hash__ = None  # type: ignore[assignment]

    def setdefault(self, key: Any, default: Any = None) -> Any:
        """Returns self[key]; if the key is new, assigns `default` first."""
        if key not in self:
            self[key] = default
        return self[key]

    def pop(self, key: Any, default: Any = _missing) -> Any:
        """Destroys the object of a name and returns its value, as a number, str, list or dict. If there is none, it
        returns `default`, or raises NotFoundError."""
        if key not in self:
            if default is _missing:
                raise NotFoundError(f"no object is {shown(self._full(key))}")
            return default
        value = self[key]
        value = value._value() if isinstance(value, Object) else value
        del self[key]
        return value

    def popitem(self) -> Tuple[str, Any]:
        """Destroys the object of the first name, and returns the name and its value. NotFoundError."""
        for name in self:
            return name, self.pop(name)
        raise NotFoundError("there are no names")

    def clear(self) -> None:
        """Destroys the objects with these names."""
        for name in list(self):
            del self[name]

    def update(self, *others: Any, **named: Any) -> None:
        """Assigns self[key] = value for each pair."""
        if len(others) > 1:
            raise WrongKindError(f"update takes one mapping, not {len(others)}")
        try:
            pairs = [*_pairs_in(*others), *named.items()]
        except Error:
            raise
        except TypeError as error:
            raise WrongKindError(str(error)) from None
        except ValueError as error:
            raise BadValueError(str(error)) from None
        for key, value in pairs:
            self[key] = value

    def _pairs(self) -> Iterator[Tuple[str, Any]]:
        segment, begin = self._segment, len(self._prefix)
        for name, kind, _, _, value in self._rows():
            found: Any = value
            if value is None:
                found = self._object(name, kind)
                found = found._value() if kind == STRING else found
            yield name[begin:], found

    def _ipython_key_completions_(self) -> List[str]:
        return list(self)

    def _repr_html_(self) -> str:
        """Returns the first names as a table, for a notebook."""
        if not self._segment.is_open:
            return html.escape(repr(self))
        lines = []
        for number, (name, kind, count, _, value) in enumerate(self._rows()):
            if number == _SHOWN:
                lines.append("<tr><td>...</td></tr>")
                break
            front = self._object(name, kind)._front() if value is None else shown(value)
            cells = (name, KINDS[kind] if count == 1 else f"{KINDS[kind]}[{count}]", front)
            lines.append("<tr>" + "".join(f"<td>{html.escape(cell)}</td>" for cell in cells) + "</tr>")
        return f"{html.escape(repr(self))}<table>{''.join(lines)}</table>"

    # -- lists

    def named(self) -> List[Info]:
        """Lists the objects with these names by the bytes of the names, as Info with whole names."""
        return [Info("named", name, KINDS[kind], count, number) for name, kind, count, number, _ in self._rows()]

    def _rows(self) -> Iterator[_Row]:
        """Reads the objects with these names."""
        segment, prefix = self._segment, self._prefix
        index, many = segment._first_from(prefix.encode()), 8
        while True:
            changes, rows = segment._changes, segment._names(index, many)
            if not rows:
                return
            many = min(2 * many, _AHEAD)
            for row_of_name in rows:
                if prefix and not row_of_name[0].startswith(prefix):
                    return
                yield row_of_name
                index += 1
                if segment._changes != changes:
                    index, many = segment._first_from(row_of_name[0].encode() + b"\0"), 8
                    break


def _pairs_in(other: Any = ()) -> List[Tuple[Any, Any]]:
    if isinstance(other, collections.abc.Mapping):
        return list(other.items())
    if hasattr(other, "keys"):
        return [(key, other[key]) for key in other.keys()]
    return [(key, value) for key, value in other]


def _is_number(value: Any) -> bool:
    """Whether a value is one whole number or bool; numpy arrays have __index__ too."""
    return is_truth(value) or hasattr(value, "__index__") and not hasattr(value, "__len__")


def _kind_of_number(value: Any) -> int:
    """Returns the kind of a new object for one whole number or bool of Python, or 0."""
    if type(value) is bool:
        return BOOL
    if type(value) is int and -MOST <= value < 2 * MOST:
        return I64 if value < MOST else U64
    return 0


def known_encoding(encoding: Optional[str]) -> Optional[str]:
    """Returns the name of an encoding. BadValueError."""
    try:
        codecs.lookup(encoding or "utf-8")
    except (LookupError, TypeError):
        raise BadValueError(f"no encoding is {shown(encoding)}") from None
    return encoding


def _new_scalar(code: int, value: Any) -> int:
    """Returns the number for a value of a new object."""
    try:
        return scalar(code, value, BadValueError)
    except WrongKindError as error:
        if _is_number(value):
            raise BadValueError(str(error)) from None
        raise


def _kind_for(value: Any, key: Any) -> str:
    """Returns the kind of a new object for this value."""
    if isinstance(value, Object):
        return f"{value.kind}[{len(value)}]" if isinstance(value, Array) else value.kind
    if isinstance(value, TEXTS):
        return "string"
    if isinstance(value, collections.abc.Mapping):
        return f"map<{_scalar_for(value.keys(), key)},{_scalar_for(value.values(), key)}>"
    if isinstance(value, collections.abc.Sequence) or hasattr(value, "tolist") and getattr(value, "ndim", True):
        if isinstance(next(iter(value), None), TEXTS):
            return "vec<string>"
        return f"vec<{_scalar_for(value, key)}>"
    if isinstance(value, collections.abc.Iterable):
        raise WrongKindError(f"{shown(key)}: {shown(value)} is no list")
    return _scalar_for([value], key)


_letters = {"bool": "bool", "uint8": "u8", "int32": "i32", "int64": "i64", "uint64": "u64"}


def _scalar_for(values: Any, key: Any) -> str:
    exact = _letters.get(str(getattr(values, "dtype", "")))
    if exact is not None:
        return exact
    values = values if type(values) in (list, range) else list(values)
    if values and all(map(is_truth, values)):
        return "bool"
    try:
        return "u64" if any(MOST <= whole(value) < 2**64 for value in values) else "i64"
    except WrongKindError as error:
        raise WrongKindError(f"{shown(key)}: {error}") from None


class Segment(_Named, _library.Block):
    """A segment, used as a mapping from names to objects, in the order of the names' bytes. `open`, `create` and `load`
    make one."""
    __slots__ = ("_file", "_handle", "_prefix", "_own_encoding", "_thread_number", "_may_ask", "_opener", "_checked",
                 "_thread",
                 "_process", "_is_told", "_kept_changes", "_lock", "_changes", "_lent", "_any_name", "_was_lent",
                 "_path", "_is_mapped", "_is_durable", "_classes", "_steps", "_task", "_restored", "_torn", "_held",
                 "_was_refused", "growing", "encoding", "__weakref__")
    if TYPE_CHECKING:
        def __enter__(self) -> Segment:
            raise NotImplementedError

    def __init__(self, *, grow: bool = True, encoding: Optional[str] = "utf-8",
                 check_same_thread: bool = True) -> None:
        self._file = _library.File()
        self._handle = self._file.segment
        self._prefix, self._own_encoding = "", SAME
        # the number of the thread whose calls are not checked; 0: no call is checked; _NOBODY: each call is checked
        self._thread_number: int = _here.number if check_same_thread else 0
        self._may_ask = ctypes.c_uint64(self._thread_number)
        self._opener = self._checked = self._thread_number
        self._thread = threading.current_thread()
        self._process, self._is_told = os.getpid(), False
        self._lock = threading.RLock()
        # how often this package and the library changed the segment; the latter when its file had the same bytes
        self._changes = self._kept_changes = 0
        self._lent: List[Tuple[Callable[[], Optional[Lease]], int]] = []
        self._steps: List[_library.Step] = []
        self._task: Any = None
        self._restored: Optional[Tuple[bytes, int, int]] = None
        # the lock of its `with` block is its own, so no other thread waits while the block runs
        self._held, self._was_refused = threading.RLock(), False
        self._any_name = ctypes.create_string_buffer(LONGEST_NAME)
        self._was_lent = False
        # how many transactions were open when one of them could not be undone; 0: each was undone
        self._torn = 0
        self._path: Any = None
        self._is_mapped = self._is_durable = False
        self._classes: Dict[Any, Any] = _plain if check_same_thread else _locked_classes()
        self.growing = grow
        """Whether a call that finds no space makes the segment longer by half and goes on."""
        self.encoding = known_encoding(encoding)
        """The encoding of texts; with None, texts are bytes. Bytes that cannot be decoded become surrogates (PEP
        383)."""

    @property
    def _segment(self) -> Segment:  # type: ignore[override]
        return self

    def _full(self, key: Any) -> Any:
        return key

    # -- calls

    def _code(self, call: Any, *arguments: Any) -> int:
        """Returns the code of a library call."""
        if self._thread_number and _here.number != self._thread_number:
            self._refuse_stranger(call)
        code: int = call(self._handle, *arguments)
        if code == NO_SPACE and self.growing:
            return self._code_in_more_space(call, arguments)
        return code

    def _call(self, call: Any, *arguments: Any) -> None:
        """Makes a library call, and raises its error."""
        code = self._code(call, *arguments)
        if code:
            raise self._error(code)

    def _refuse_stranger(self, call: Any = None) -> None:
        """Raises WrongThreadError or WrongTaskError, unless the thread and the task may make calls; FileForkedError, if
        the call would change the segment of a file in a forked child, where nothing saves it."""
        if self._opener and _here.number != self._opener:
            raise WrongThreadError()
        if self._task is not None and self._task is not _task_here():
            raise WrongTaskError()
        if self._is_forked and id(call) in _CHANGES:
            raise FileForkedError(None, self._path)

    @property
    def _is_forked(self) -> bool:
        """Whether this process was forked by the one that opened the file for writing."""
        return self._process != os.getpid() and bool(self._file.held)

    def _error(self, code: int, about: object = None, arguments: Tuple[Any, ...] = (), count: int = 1) -> Error:
        """Returns the error of a call that failed."""
        if code == NO_SPACE:
            return no_space(about, bytes_in(arguments, count), self.free)
        if code == _CLOSED and self._file.held and self._process != os.getpid():
            return FileForkedError(None, self._path)
        return error_of(code, about)

    def _change(self, call: str, key: Any, *arguments: Any) -> None:
        """Makes a call with a key, which may change which objects exist."""
        self._changes += 1
        code = self._code(getattr(zx, f"zx_{call}"), raw_key(key), *arguments)
        if code:
            count = arguments[0] if call in ("construct", "find_or_construct") else 1
            raise self._error(code, key, arguments, count)

    def _file_call(self, call: Any, path: Any, *arguments: Any) -> None:
        """Makes a file call, and raises its error with the path."""
        if self._thread_number and _here.number != self._thread_number:
            self._refuse_stranger(call)
        code = call(self._file, *arguments)
        if code == _CLOSED:
            raise self._error(code)
        if code:
            raise file_error_of(code, self._file, path)

    def _code_in_more_space(self, call: Any, arguments: Tuple[Any, ...]) -> int:
        """Makes the segment longer until the call finds space. If it cannot become long enough, restores its length."""
        before, code = self.size, NO_SPACE
        try:
            while code == NO_SPACE:
                self._grow_by_half()
                code = call(self._handle, *arguments)
        except Error:
            self.shrink()
            if self.size < before:
                self.grow(before - self.size)
            raise
        return code

    def _grow_by_half(self) -> None:
        size = self.size
        wanted, left = (size // 2 + 4096) // 16 * 16, 2**30 - size
        self.grow(left if 32 <= left < wanted else wanted)

    def _number(self, call: Any) -> int:
        number = ctypes.c_uint64()
        self._call(call, number)
        return number.value

    def _truth(self, call: Any) -> bool:
        truth = ctypes.c_bool()
        self._call(call, truth)
        return truth.value

    def _has(self, code: int, key: Any) -> bool:
        """Tells whether an object of the kind has the key. WrongKindError."""
        found = self._code(zx.zx_find, raw_key(key), code, ctypes.c_uint64(), ctypes.c_uint32())
        if found == WrongKindError.code and isinstance(key, (str, bytes)):
            raise WrongKindError(f"{shown(key)} is a {self._info(key).kind}, and no {KINDS[code]}")
        if found and found != _ABSENT:
            raise self._error(found, key)
        return not found

    def _info(self, key: Any) -> Info:
        told, name = _library.Info(), ctypes.create_string_buffer(LONGEST_NAME)
        code = self._code(zx.zx_tell, raw_key(key), told, name, LONGEST_NAME)
        if code:
            raise self._error(code, key)
        return _info(told, name.raw)

    def _told(self, key: Any) -> Optional[_library.Info]:
        """Tells about an object, except its name; None also for a key that no object can have."""
        try:
            raw = raw_key(key)
        except (BadKeyError, BadNameError):
            return None
        return self._told_by(raw, key)

    def _told_by(self, raw: _library.Key, key: Any) -> Optional[_library.Info]:
        told = _library.Info()
        code = self._code(zx.zx_tell, raw, told, self._any_name, LONGEST_NAME)
        if code and code not in _NO_OBJECT:
            raise self._error(code, key)
        return None if code else told

    def _make_number(self, raw: _library.Key, key: Any, value: _library.Value) -> None:
        """Makes a single scalar."""
        self._changes += 1
        code = self._code(zx.zx_construct, raw, 1, value, ctypes.c_uint64())
        if code:
            raise self._error(code, key, (value,))

    def _number_of(self, raw: _library.Key, key: Any) -> int:
        """Returns the value of a single scalar."""
        value = _library.Value()
        code = self._code(zx.zx_get, raw, 0, value)
        if code:
            raise self._error(code, key)
        return number_in(value)

    def _set_number(self, raw: _library.Key, key: Any, kind: int, value: int) -> None:
        """Gives a single scalar another value."""
        try:
            passed = value_of(kind, scalar(kind, value))
        except Error as error:
            raise named(error, key) from None
        self._changes += 1
        code = self._code(zx.zx_set, raw, 0, passed)
        if code:
            raise self._error(code, key)

    def _leases(self) -> List[Lease]:
        """Returns the leases of the views that exist, and show the segment."""
        found = [lent[0]() for lent in self._lent]
        return [lease for lease in found if lease is not None and lease.is_current]

    def _is_lent(self) -> bool:
        """Tells whether a view exists. Views that are gone leave the list here, and not at the moment when they go: a
        signal could prevent that."""
        if self._lent:
            found = [(lent[0](), lent) for lent in self._lent]
            self._lent = [lent for lease, lent in found if lease is not None and lease.is_current]
        return bool(self._lent)

    def _refuse_lent(self, key: Any) -> None:
        """Raises LentError if a view holds the object's memory."""
        told = self._told(key) if self._is_lent() else None
        if told is not None and any(told.handle == number for _, number in self._lent):
            raise LentError(f"{shown(key)} is lent to a view that is still there")

    def _refuse_any_lent(self) -> None:
        if self._is_lent():
            raise LentError("an object of the segment is lent to a view that is still there")

    # -- the bytes

    @property
    def mode(self) -> str:
        """How the segment is open: "write", "read" or "copy on write". In a forked child, a file that its parent writes
        is open for "read"."""
        mode = ctypes.c_uint32()
        self._call(zx.zx_mode, mode)
        return "read" if self._is_forked else ("write", "read", "copy on write")[mode.value]

    @property
    def size(self) -> int:
        """The bytes of the segment."""
        return self._number(zx.zx_size)

    @property
    def free(self) -> int:
        """The bytes of all gaps."""
        return self._number(zx.zx_free_bytes)

    @property
    def region_left(self) -> int:
        """The bytes of its region after the segment."""
        return self._number(zx.zx_region_left)

    def image(self) -> bytes:
        """Returns the image: the bytes that `load` takes."""
        image = ctypes.create_string_buffer(self.size)
        self._call(zx.zx_save, image, len(image))
        return image.raw

    def grow(self, extra: int) -> None:
        """Makes the segment longer by `extra` bytes: a multiple of 16, at least 32. BadGrowthError, TooLargeError,
        NoMemoryError, ReadOnlyError, LentError."""
        self._refuse_any_lent()
        self._changes += 1
        added = natural(extra)
        try:
            self._file_call(zx.zx_file_grow, self._path, added)
        except TooLargeError:
            raise too_large(self.size, added) from None
        except BadGrowthError:
            raise BadGrowthError(f"a segment grows by a multiple of 16, at least 32, and not by {added}") from None

    def shrink(self) -> None:
        """Cuts the free bytes off the end of the segment. ReadOnlyError, LentError."""
        self._refuse_any_lent()
        self._changes += 1
        self._file_call(zx.zx_file_shrink, self._path)

    def relocate(self, capacity: int) -> None:
        """Moves the segment into a region of `capacity` bytes. BadSizeError, ShortRegionError, NoMemoryError,
        LentError."""
        self._refuse_any_lent()
        self._changes += 1
        wanted = natural(capacity)
        code = self._code(zx.zx_relocate, wanted)
        if code:
            raise region_error(code, wanted, self.size) if self.is_open else self._error(code)

    def transaction(self) -> Transaction:
        """Makes all calls of a block one step. `with segment.transaction():` keeps all that the block did; if an
        exception leaves the block, the segment is as before the block. The cost depends on what the block changed. A
        segment in memory, or opened by copy, is copied by its first transaction, by the next one after it moved to grow
        or the process forked, and always if it has less than 128 KiB. The end of the outermost block commits a file
        opened with `durable`: if that raises anything but FileUnsureError, the segment is as before the block. If a
        task of asyncio makes the transaction, calls of other tasks raise WrongTaskError until the transaction ends.
        NoMemoryError, ClosedError; the errors of `commit`."""
        if self._thread_number and _here.number != self._thread_number:
            self._refuse_stranger()
        return Transaction(self)

    def _begin_step(self, before: _library.Step) -> None:
        """Notes that a transaction begins. If it is the outermost one and in a task, each call checks its task from now
        on."""
        if not self._steps:
            self._task = _task_here()
        self._steps.append(before)
        before.is_kept = self._kept_changes == self._handle.changes
        if self._task is not None:
            self._thread_number = self._may_ask.value = _NOBODY

    def _end_step(self, before: _library.Step) -> None:
        self._steps = [step for step in self._steps if step is not before]
        if not self._steps:
            self._thread_number = self._may_ask.value = self._checked
            self._task = None

    def _depth_of(self, before: _library.Step) -> int:
        """Returns how many transactions are open up to this one."""
        return [step is before for step in self._steps].index(True) + 1

    def _keeps_step(self, before: _library.Step) -> bool:
        """Whether the pages of a mapped file stay private, since its transaction could not be undone."""
        return bool(self._torn) and self._is_mapped and not self._is_durable and len(self._steps) == 1

    def _refuse_torn(self) -> None:
        if self._torn:
            raise NotUndoneError()

    def _roll_back(self, before: _library.Step) -> None:
        """Restores the segment. Views keep their bytes, in memory of their own. If a signal handler interrupts it, a
        second call continues."""
        self._changes += 1
        if self._restored is None:
            if not self._is_lent():
                return self._file_call(zx.zx_file_undo, self._path, before)
            if self._is_mapped:
                return self._file_call(zx.zx_file_undo_beside, self._path, before, *self._leave_copy())
            length = ctypes.c_uint64()
            zx.zx_step_image(before, None, 0, length)
            image = ctypes.create_string_buffer(length.value)
            zx.zx_step_image(before, image, len(image), length)
            self._restored = image.raw, max(self.size + self.region_left, len(image)), MODES_OF[self.mode]
        image_before, capacity, mode = self._restored
        if self.is_open:
            self._leave_memory()
        self._call(zx.zx_open, image_before, len(image_before), capacity, mode)
        self._restored = None

    # -- its file

    def save(self) -> None:
        """Saves the segment in its file, unless the file has these bytes already. A new file replaces the old one when
        it is completely on the disk. So the name always leads to a whole file, the old or the new one. ReadOnlyError,
        NoFileError, FileError; of all errors, only FileUnsyncedError means that the segment is saved. FileInStepError
        in a transaction; NotUndoneError behind one that could not be undone."""
        self._save(zx.zx_file_save)

    def commit(self) -> None:
        """Commits the changes of a file opened with `durable`: then they are on the disk, and survive whatever ends the
        process. The cost depends on what was changed. For any other file it does what `flush` does. The errors of
        `save`; FileUnsureError if nobody knows whether the changes are on the disk."""
        self._save(zx.zx_file_commit)

    def flush(self) -> None:
        """Waits until the changes of a mapped file are on the disk, and commits a durable one; saves any other file.
        The errors of `save` and `commit`."""
        self._save(zx.zx_file_flush)

    def _save(self, call: Any) -> None:
        self._refuse_save()
        self._note_views()
        self._file_call(call, self._path)
        self._kept_changes = self._handle.changes

    def _refuse_save(self) -> None:
        """Raises FileInStepError in a transaction, since half a step is never saved, and NotUndoneError behind one."""
        if self._thread_number and _here.number != self._thread_number:
            self._refuse_stranger()
        if self._steps:
            raise FileInStepError(None, self._path)
        self._refuse_torn()

    def save_as(self, path: Any) -> None:
        """Saves the image to a new file. PathExistsError, FileError."""
        passed = path_bytes(path)
        self._file_call(zx.zx_file_save_as, os.fspath(path), passed, FILE_MODES["x"])

    def close(self) -> None:
        """Saves the file, if it is open for writing, and closes the segment. After an error other than
        FileUnsyncedError it is still open. The errors of `save`. A view keeps the bytes that it shows."""
        self._refuse_save()
        if not self._is_lent():
            self._changes += 1
            self._note_views()
            return self._file_call(zx.zx_file_close, self._path)
        if self._is_mapped:
            self._changes += 1
            self._note_views()
            return self._file_call(zx.zx_file_close_beside, self._path, True, *self._leave_copy())
        try:
            if self._file.held:
                self.save()
        except FileUnsyncedError:
            self.discard()
            raise
        self.discard()

    def discard(self) -> None:
        """Closes the segment without saving. Removes a file that it created and never saved. A mapped file stays, with
        all changes. A view keeps the bytes that it shows."""
        if self._thread_number and _here.number != self._thread_number:
            self._refuse_stranger()
        self._discard()

    def _discard(self) -> None:
        self._changes += 1
        if self._is_lent() and self._is_mapped:
            views = self._leave_copy()
            code = zx.zx_file_close_beside(self._file, False, *views)
            if code:
                raise file_error_of(code, self._file, self._path)
        elif self._is_lent():
            left, _ = self._leave(False)
            zx.zx_detach(self._handle, left.memory)
        zx.zx_file_discard(self._file)

    # -- views

    def _lend(self, lease: Lease, number: int) -> None:
        """Notes that a view holds the elements of an object."""
        self._was_lent = True
        self._lent.append((weakref.ref(lease), number))

    def _note_views(self) -> None:
        """Lets a save check whether views changed bytes."""
        if self._was_lent:
            self._handle.shared = True

    def _leave(self, is_mapped: bool) -> Tuple[Left, List[Lease]]:
        """Returns what holds the memory of the views that exist, once a call has left it to them. The views hold it
        before the call, since a signal handler may raise behind the call."""
        left, leases = Left(is_mapped), self._leases()
        for lease in leases:
            lease.left = left
        return left, leases

    def _leave_memory(self) -> None:
        """Closes the segment, and leaves its memory to the views that exist."""
        left, _ = self._leave(False)
        self._call(zx.zx_detach, left.memory)

    def _leave_copy(self) -> Tuple[Any, int, _library.Memory]:
        """Returns the last arguments of a call that leaves the views of a mapped file a copy of their bytes."""
        left, leases = self._leave(True)
        memory = [_library.Memory(*lease.memory) for lease in leases]
        return (_library.Memory * len(memory))(*memory), len(memory), left.memory

    @property
    def is_open(self) -> bool:
        """Whether the segment is open."""
        return bool(self._handle.at)

    def _begin(self) -> Segment:
        if not self.is_open:
            raise self._error(_CLOSED)
        self._was_refused = False
        return self

    def _end(self, depth: int, raised: Any) -> None:
        """Closes or discards the segment at the end of its `with` block. If a signal handler interrupts it, a second
        call continues. If the library refused it, a second call does nothing."""
        if raised is True or self._was_refused:
            return
        try:
            if raised is None or isinstance(raised, SystemExit) and (raised.code is None or raised.code == 0):
                self.close()
            else:
                self.discard()
        except NotUndoneError:
            self._was_refused = True
            self.discard()
            raise
        except Error:
            self._was_refused = True
            raise

    def __del__(self) -> None:
        # no other code has the segment now, so any thread can be the one that runs this
        file = getattr(self, "_file", None)
        if file is None or not (file.segment.at or file.held):
            return
        _ending[id(file)] = threading.get_ident()
        try:
            self._say_unclosed()
        finally:
            _ending.pop(id(file), None)
            zx.zx_file_discard(file)

    def _end_at_exit(self) -> None:
        """Discards a segment that nobody closed, unless another thread may be in a call of it."""
        is_here = not self._opener or self._thread is threading.current_thread() or not self._thread.is_alive()
        said = self._unclosed()
        if is_here and self._process == os.getpid() and self._lock.acquire(blocking=False):
            try:
                self._discard()
            finally:
                self._lock.release()
        self._say(said)

    def _say_unclosed(self) -> None:
        self._say(self._unclosed())

    def _unclosed(self) -> Tuple[str, bool]:
        """Returns what is to be said about a segment that nobody closed, or "", and whether changes are lost."""
        mode = ctypes.c_uint32()
        zx.zx_mode(self._handle, mode)
        if not self._file.held or mode.value != MODES["w"] or self._process != os.getpid() or self._is_told:
            return "", False
        self._is_told = True
        is_changed = self._kept_changes != self._handle.changes or self._was_lent
        lost = ("what its open transaction changed" if self._steps and self._is_mapped else
                "what was changed since its last commit" if self._is_durable and is_changed else
                "what was changed since its last save" if not self._is_mapped and is_changed else "")
        said = f"the segment of {self._path!r} was not closed"
        return (f"{said}: {lost} is lost", True) if lost else (said, False)

    def _say(self, said: Tuple[str, bool]) -> None:
        """Says on standard error what is lost, and by a warning that a segment was not closed."""
        text, is_lost = said
        if is_lost:
            try:
                print(f"zaluxhoni: {text}; close() saves, and so does the end of a `with` block", file=sys.stderr)
            except Exception:
                pass
        if text:
            warnings.warn(text, ResourceWarning, source=self)

    def __reduce_ex__(self, _: Any) -> Any:
        raise WrongKindError("a segment is not copied: load(segment.image()) makes another one")

    def __repr__(self) -> str:
        of = "" if self._path is None else f" of {self._path!r}"
        return f"<Segment{of}, {self.size} bytes, {len(self)} names>" if self.is_open else f"<Segment{of}, closed>"

    # -- lists

    def __len__(self) -> int:
        return self._number(zx.zx_num_named)

    def unique(self) -> List[Info]:
        """Lists the unique objects by kind code, as Info."""
        told = _library.Info()
        return [_info(told, b"") for _ in self._each(zx.zx_unique_at, told)]

    @property
    def num_unique(self) -> int:
        """The number of unique objects; len() counts those with names."""
        return self._number(zx.zx_num_unique)

    def tiles(self) -> List[Tile]:
        """Lists blocks and gaps by offset, as Tile. It takes quadratic time."""
        tile = _library.Tile()
        return [Tile(tile.offset, tile.len, ("gap", "object", "index", "storage", "node")[tile.use])
                for _ in self._each(zx.zx_tile_at, tile)]

    def _each(self, call: Any, *told: Any) -> Iterator[int]:
        """Asks for the entry at each index, until there is no more."""
        index = 0
        while True:
            code = self._code(call, index, *told)
            if code == _OUT_OF_RANGE:
                return
            if code:
                raise self._error(code)
            yield index
            index += 1

    def _names(self, index: int, many: int) -> List[_Row]:
        """Reads at most `many` named objects, from an index on."""
        infos, values = ctypes.create_string_buffer(many * _INFO.size), ctypes.create_string_buffer(many * _VALUE.size)
        room, read = max(LONGEST_NAME, 64 * many), ctypes.c_size_t()
        names = ctypes.create_string_buffer(room)
        self._call(zx.zx_read_names, index, infos, values, names, room, many, read)
        rows: List[_Row] = []
        joined, end, count = names.raw, 0, read.value
        for (_, kind, scalars, length, number), (scalar_kind, signed, unsigned) in zip(
                _INFO.iter_unpack(infos.raw[:count * _INFO.size]),
                _VALUE.iter_unpack(values.raw[:count * _VALUE.size])):
            begin, end = end, end + length
            value = None if not scalar_kind else signed if scalar_kind in (I32, I64) else unsigned
            value = bool(value) if scalar_kind == BOOL else value
            rows.append((joined[begin:end].decode(), kind, scalars, number, value))
        return rows

    def _first_from(self, text: bytes) -> int:
        """Counts the names below a text."""
        index = ctypes.c_uint64()
        self._call(zx.zx_named_from, text, len(text), index)
        return index.value

    # -- the two indexes, and all of the segment

    def reserve_named(self, places: int) -> None:
        """Makes the capacity of the index of names at least `places`. NoSpaceError."""
        self._call(zx.zx_reserve_named, natural(places))

    def reserve_unique(self, places: int) -> None:
        """Makes the capacity of the index of unique objects at least `places`. NoSpaceError."""
        self._call(zx.zx_reserve_unique, natural(places))

    def shrink_indexes(self) -> None:
        """Makes the capacity of each index its number of entries."""
        self._call(zx.zx_shrink_indexes)

    def zero_free(self) -> None:
        """Clears the bytes of all gaps."""
        self._call(zx.zx_zero_free)

    def sanity(self) -> bool:
        """Tells whether the segment is sound; it always is."""
        return self._truth(zx.zx_sanity)

    def all_deallocated(self) -> bool:
        """Tells whether no block is in use."""
        return self._truth(zx.zx_all_deallocated)


class Group(_Named):
    """The names of a segment that begin with a text: a mapping from the rest of each name to its object.
    `Segment.group` makes one; it stays valid as long as the segment is open."""
    __slots__ = ("_segment", "_prefix", "_own_encoding", "_lock")

    def __init__(self, segment: Segment, prefix: str, encoding: Optional[str] = SAME) -> None:
        self._segment, self._prefix, self._lock = segment, prefix, segment._lock
        self._own_encoding = encoding

    @property
    def prefix(self) -> str:
        """The text that its names begin with."""
        return self._prefix

    def _full(self, key: Any) -> Any:
        if isinstance(key, str):
            return self._prefix + key
        if isinstance(key, bytes):
            return self._prefix.encode() + key
        return _NoName(key)

    def __len__(self) -> int:
        prefix = self._prefix.encode()
        if not prefix:
            return len(self._segment)
        behind = prefix[:-1] + bytes([prefix[-1] + 1])
        return self._segment._first_from(behind) - self._segment._first_from(prefix)

    def __reduce_ex__(self, _: Any) -> Any:
        raise WrongKindError("a group is not copied: dict(group) has its names and objects")

    def __repr__(self) -> str:
        return f"<Group {self._prefix!r} of {self._segment!r}>"


class _NoName:
    """A key in a group that is no name."""

    def __init__(self, key: Any) -> None:
        self._key = key

    def __repr__(self) -> str:
        return f"{self._key!r}, which is no name of a group"


class Transaction(_library.Block):
    """Several calls as one step. `Segment.transaction` makes one."""
    __slots__ = ("_segment", "_held", "_copies", "_was_refused")
    if TYPE_CHECKING:
        def __enter__(self) -> Segment:
            raise NotImplementedError

    def __init__(self, segment: Segment) -> None:
        self._segment, self._held = segment, segment._lock
        self._copies: List[_library.Step] = []
        self._was_refused = False

    def __reduce_ex__(self, _: Any) -> Any:
        raise WrongKindError("a transaction is not copied: segment.transaction() makes another one")

    def _begin(self) -> Segment:
        segment, before = self._segment, _library.Step()
        segment._refuse_stranger()
        self._copies.append(before)
        segment._begin_step(before)
        if segment.mode != "read":
            segment._note_views()
            segment._file_call(zx.zx_file_begin, segment._path, before)
        return segment

    def _end(self, depth: int, raised: Any) -> None:
        """Ends the block of this depth. If a signal handler interrupts it, a second call continues."""
        if len(self._copies) < depth:
            return
        segment, before = self._segment, self._copies[depth - 1]
        is_open = segment.is_open or segment._restored is not None
        if raised is None and is_open and not self._was_refused:
            self._keep(before)
        elif (before.copy.at or before.kept) and is_open and not self._was_refused:
            self._undo(before)
        if (before.copy.at or before.kept) and not segment._keeps_step(before):
            # neither kept nor undone by the library
            zx.zx_file_leave(segment._file, before)
        segment._end_step(before)
        del self._copies[depth - 1:]

    def _keep(self, before: _library.Step) -> None:
        """Keeps what the block did. If it cannot be committed, the segment is as before the block."""
        segment = self._segment
        segment._note_views()
        try:
            segment._refuse_torn()
            segment._file_call(zx.zx_file_keep, segment._path, before)
            if segment._is_durable and len(segment._steps) == 1:
                segment._kept_changes = segment._handle.changes
        except Error:
            if before.copy.at or before.kept:
                self._undo(before)
            self._was_refused = True
            raise

    def _undo(self, before: _library.Step) -> None:
        """Restores the segment. If that fails, no call saves what the block did."""
        segment = self._segment
        try:
            segment._roll_back(before)
        except (Error, MemoryError):
            self._was_refused = True
            segment._torn = segment._torn or segment._depth_of(before)
            raise
        if segment._depth_of(before) < segment._torn:
            segment._torn = 0
        if before.is_kept:
            segment._kept_changes = segment._handle.changes


def _task_here() -> Any:
    """Returns the task of asyncio that makes the call, or None."""
    asyncio = sys.modules.get("asyncio")
    try:
        return None if asyncio is None else asyncio.current_task()
    except (AttributeError, RuntimeError):
        return None


# ---- segments that nobody closed

_opened: Any = weakref.WeakValueDictionary()
"""The segments that have a file, by their ids."""


def note_opened(segment: Segment) -> None:
    """Notes a segment that has a file, so that it is discarded at the end of the process if nobody closes it."""
    segment._kept_changes = segment._handle.changes
    if segment._file.held:
        _opened[id(segment)] = segment


_files: List[Tuple[Any, _library.File, int]] = []
"""The files of the segments that were opened: a weak reference to the segment, the file, and the process."""
_ending: Dict[int, int] = {}
"""The threads that close files in `__del__` now, by the ids of the files."""


def note_file(segment: Segment) -> None:
    """Notes the file of a segment that will be opened."""
    _files[:] = [each for each in _files if each[1].held or each[0]() is not None]
    _files.append((weakref.ref(segment), segment._file, os.getpid()))


def discard_lost() -> bool:
    """Discards the files of segments that were collected without it: a signal handler that raises can end `__del__` at
    any instruction. Returns whether there were any."""
    here, thread = os.getpid(), threading.get_ident()
    lost = [file for segment, file, process in _files
            if segment() is None and file.held and process == here and _ending.get(id(file), thread) == thread]
    for file in lost:
        zx.zx_file_discard(file)
    return bool(lost)


def _note_fork() -> None:
    """Has each call of a forked child checked that concerns a file of its parent."""
    for segment in list(_opened.values()):
        segment._checked = segment._thread_number = segment._may_ask.value = _NOBODY


def _end_all() -> None:
    errors: List[Exception] = []
    for segment in list(_opened.values()):
        try:
            segment._end_at_exit()
        except Exception as error:
            # each is ended, also where warnings are errors
            errors.append(error)
    if errors:
        raise errors[0]


os.register_at_fork(after_in_child=_note_fork)
atexit.register(_end_all)


MODES_OF = {"write": 0, "read": 1, "copy on write": 2}


# ---- segments of several threads

def _locks(call: Callable[..., Any]) -> Callable[..., Any]:
    """Wraps a method, so that each call locks the segment."""
    def alone(self: Any, *arguments: Any, **named: Any) -> Any:
        with self._lock:
            return call(self, *arguments, **named)
    alone.__name__, alone.__doc__ = call.__name__, call.__doc__
    return alone


def _locked(kind: Any) -> Any:
    """Makes a subclass whose methods each lock the segment."""
    members: Dict[str, Any] = {}
    for base in reversed(kind.__mro__[:-1]):
        for name, member in vars(base).items():
            if name in ("__init__", "__new__", "__del__", "__exit__", "__init_subclass__", "__class_getitem__",
                        "__subclasshook__", "_end_at_exit", "_say_unclosed", "_unclosed", "_say", "_discard"):
                continue
            if inspect.isfunction(member) and not inspect.isgeneratorfunction(member):
                members[name] = _locks(member)
            elif isinstance(member, property) and member.fget is not None and name != "_segment":
                members[name] = property(_locks(member.fget), doc=member.__doc__)
            elif name in ("_at", "__getitem__"):
                # methods of a class that the library for C makes: they are not functions of Python
                members[name] = _locks(member)
            elif name in members:
                del members[name]
    return type(kind.__name__, (kind,), {**members, "__slots__": (), "__doc__": kind.__doc__,
                                         "__module__": kind.__module__})


_kinds_of_objects = (Array, Vector, String, Strings, Map, Records, Group)
_plain: Dict[Any, Any] = {kind: kind for kind in (*_kinds_of_objects, Segment)}
_locked_kinds: Dict[Any, Any] = {}


def _locked_classes() -> Dict[Any, Any]:
    """Returns the classes of a segment that several threads use."""
    if not _locked_kinds:
        _locked_kinds.update({kind: _locked(kind) for kind in _plain})
    return _locked_kinds


def path_bytes(path: Any) -> bytes:
    """Returns the bytes of a path."""
    try:
        path = os.fsencode(path)
    except TypeError:
        raise WrongKindError(f"{shown(path)} is no path") from None
    if 0 in path:
        raise BadNameError(f"the path {shown(path)} has a byte 0")
    return bytes(path)


def new_segment(grow: bool, encoding: Optional[str], check_same_thread: bool) -> Segment:
    """Returns a segment that is still closed."""
    kind = Segment if check_same_thread else _locked_classes()[Segment]
    made: Segment = kind(grow=grow, encoding=encoding, check_same_thread=check_same_thread)
    return made
