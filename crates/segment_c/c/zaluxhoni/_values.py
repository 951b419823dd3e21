"""Kinds, values and rows of values: checked before the library gets them."""
from __future__ import annotations

import ctypes
import operator
import re
import struct
from typing import Any, Dict, Iterable, List, Literal, NamedTuple, Optional, Tuple, Type, Union

from . import _library
from ._errors import (BadKeyError, BadKindError, BadNameError, BadValueError, Error, OutOfRangeError, WrongKindError,
                      shown)
from ._library import BOOL, I32, I64, MAP, STRING, STRINGS, U8, U64, VECTOR

MOST = 2**63


class Scalar(NamedTuple):
    """A scalar kind: its name, its least and greatest value, its letter in `struct`, and its slice in zx_values."""
    name: str
    least: int
    most: int
    letter: str
    size: int
    field: str
    counts: str


SCALARS: Dict[int, Scalar] = {
    BOOL: Scalar("bool", 0, 1, "?", 1, "truths", "truth_count"),
    U8: Scalar("u8", 0, 255, "B", 1, "bytes", "byte_count"),
    I32: Scalar("i32", -2**31, 2**31 - 1, "i", 4, "i32s", "i32_count"),
    I64: Scalar("i64", -MOST, MOST - 1, "q", 8, "i64s", "i64_count"),
    U64: Scalar("u64", 0, 2**64 - 1, "Q", 8, "u64s", "u64_count"),
}
_codes: Dict[str, int] = {scalar.name: code for code, scalar in SCALARS.items()}
_codes.update({f"vec<{name}>": VECTOR + code for name, code in list(_codes.items())})
_codes.update({f"map<{key.name},{value.name}>": MAP + 256 * at + code
               for at, key in SCALARS.items() for code, value in SCALARS.items()})
_codes.update({"string": STRING, "vec<string>": STRINGS})
KINDS: Dict[int, str] = {code: name for name, code in _codes.items()}
_letters = {"?": "?", "B": "B", "i": "i", "l": "q", "q": "q", "L": "Q", "Q": "Q"}
_nothing = (ctypes.c_uint64 * 1)()
TEXTS = (str, bytes, bytearray, memoryview)


def is_scalar(code: int) -> bool:
    return BOOL <= code <= U64


def code_of(kind: str) -> int:
    """Returns the code of a kind as scripts spell it, such as "map<i32,i64>"."""
    code = _codes.get(kind.replace(" ", "")) if isinstance(kind, str) else None
    if code is None:
        raise BadKindError(f"no kind is {shown(kind)}{_way_for_kind(kind)}")
    return code


def _way_for_kind(kind: Any) -> str:
    """Returns a hint for a message, or "": how a segment keeps values of this kind, which does not exist."""
    if isinstance(kind, str) and re.search(r"f(32|64)|float|double", kind):
        return _way_for(0.0)
    return _way_for("") if isinstance(kind, str) and re.match(r"map<(str|text)", kind) else ""


def counted(kind: str) -> Tuple[int, Optional[int]]:
    """Returns the code and count of a kind, which may be an array, such as "i64[3]"."""
    array = re.fullmatch(r"(\w+)\[([0-9]{1,9})\]", kind) if isinstance(kind, str) else None
    if array is None:
        return code_of(kind), None
    code = code_of(array[1])
    if not is_scalar(code):
        raise BadKindError(f"{array[1]} has no arrays")
    return code, int(array[2])


ScalarKind = Literal["bool", "u8", "i32", "i64", "u64"]
VectorKind = Literal["vec<bool>", "vec<u8>", "vec<i32>", "vec<i64>", "vec<u64>"]
MapKind = Literal[
    "map<bool,bool>", "map<bool,u8>", "map<bool,i32>", "map<bool,i64>", "map<bool,u64>",
    "map<u8,bool>", "map<u8,u8>", "map<u8,i32>", "map<u8,i64>", "map<u8,u64>",
    "map<i32,bool>", "map<i32,u8>", "map<i32,i32>", "map<i32,i64>", "map<i32,u64>",
    "map<i64,bool>", "map<i64,u8>", "map<i64,i32>", "map<i64,i64>", "map<i64,u64>",
    "map<u64,bool>", "map<u64,u8>", "map<u64,i32>", "map<u64,i64>", "map<u64,u64>"]


# ---- one value

def whole(number: Any) -> int:
    """Returns an integer, also of another package's type, as an int; raises WrongKindError for any other value."""
    try:
        return operator.index(number)
    except TypeError:
        raise WrongKindError(f"{shown(number)} is no whole number{_way_for(number)}") from None


def _way_for(value: Any) -> str:
    """Returns a hint for a message, or "": how a segment keeps this value, which is not a scalar."""
    if isinstance(value, float):
        return '; records keep floats: segment.records(name, "d")'
    if isinstance(value, (str, bytes)):
        return "; a group keeps a value under each text: segment.group(prefix)[text] = value"
    return ""


def natural(number: Any) -> int:
    """Returns an integer as an int; raises OutOfRangeError unless it is from 0 to 2**64 - 1, and WrongKindError as
    whole()."""
    number = whole(number)
    if not 0 <= number < 2**64:
        raise OutOfRangeError(f"{shown(number)} is outside 0 to 2**64 - 1")
    return int(number)


def is_truth(value: Any) -> bool:
    return isinstance(value, bool) or type(value).__name__ in ("bool_", "bool8") and hasattr(value, "dtype")


def scalar(code: int, value: Any, refused: Type[Error] = OutOfRangeError) -> int:
    """Returns the value as a number. Raises WrongKindError for a wrong type, and `refused` outside the kind's range."""
    if (code == BOOL) != is_truth(value):
        raise WrongKindError(f"{shown(value)} is no {KINDS[code]}{_way_for(value)}")
    number = int(value) if code == BOOL else whole(value)
    if not SCALARS[code].least <= number <= SCALARS[code].most:
        raise refused(f"{shown(value)} is no {KINDS[code]}")
    return number


def value_of(code: int, number: int) -> _library.Value:
    """Returns a value as the library takes it."""
    return _library.Value(code, number, 0) if code in (I32, I64) else _library.Value(code, 0, number)


def number_in(value: _library.Value) -> int:
    """Returns the number or bool in a value of the library."""
    if value.kind == BOOL:
        return bool(value.natural)
    return int(value.number if value.kind in (I32, I64) else value.natural)


# ---- many values

class Row:
    """Values of one kind side by side. `passed` is what the library takes."""

    def __init__(self, code: int, memory: Any, count: int) -> None:
        self.code, self.memory, self.count = code, memory, count

    @property
    def passed(self) -> _library.Values:
        return self.part(0)

    def part(self, first: int) -> _library.Values:
        """Returns the values from an index on."""
        own = SCALARS[self.code]
        values = _library.Values(kind=self.code)
        for each in SCALARS.values():
            setattr(values, each.field, ctypes.addressof(_nothing))
        setattr(values, own.field, ctypes.addressof(self.memory) + first * own.size)
        setattr(values, own.counts, self.count - first)
        values.kept = self.memory
        return values


def listed(values: Any) -> List[Any]:
    try:
        return list(values)
    except TypeError:
        raise WrongKindError(f"{shown(values)} is no list") from None


def _buffer_of(code: int, values: Any) -> Optional[memoryview]:
    """Returns the bytes of a contiguous buffer of one dimension, with elements of exactly this kind, or None."""
    if isinstance(values, (list, tuple, range)):
        return None
    try:
        view = memoryview(values)
    except (TypeError, ValueError, BufferError):
        return None
    letter = _letters.get(view.format.lstrip("@=<") if view.itemsize == SCALARS[code].size else "")
    same = letter == SCALARS[code].letter and view.ndim == 1 and view.c_contiguous
    return view.cast("B") if same and view.nbytes else None


def _memory_of(view: memoryview) -> Any:
    """Returns the bytes of a buffer in place, if it is writable; otherwise a copy."""
    whole_of = ctypes.c_uint8 * view.nbytes
    return whole_of.from_buffer_copy(view) if view.readonly else whole_of.from_buffer(view)


def row(code: int, values: Any, refused: Type[Error] = OutOfRangeError) -> Row:
    """Returns the values as a Row. Raises WrongKindError for a wrong type, and `refused` outside the kind's range."""
    own = SCALARS[code]
    view = _buffer_of(code, values)
    if view is not None and code != BOOL:
        return Row(code, _memory_of(view), view.nbytes // own.size)
    # turns the arrays of other packages into lists of Python's numbers
    plain = values if type(values) in (list, range) else listed(getattr(values, "tolist", lambda: values)())
    memory = _spelled(own, code, plain)
    if memory is not None:
        return Row(code, memory, len(plain))
    packed = _packed(own, code, plain)
    if packed is None:
        packed = struct.pack(f"{len(plain)}{own.letter}", *[scalar(code, value, refused) for value in plain])
    memory = ctypes.create_string_buffer(packed, max(1, len(packed)))
    return Row(code, memory, len(plain))


def _spelled(own: Scalar, code: int, plain: Any) -> Any:
    """Returns memory with the values of a list if they all have the exact type of the kind; otherwise None."""
    if not _library.HAS_PYTHON or type(plain) is not list:
        return None
    memory = ctypes.create_string_buffer(max(1, len(plain) * own.size))
    return memory if _library.quick.zx_python_row(plain, code, memory, len(plain)) else None


def _packed(own: Scalar, code: int, plain: Any) -> Optional[bytes]:
    """Returns the bytes of a range of numbers, or of values that all have the type of the kind; otherwise None."""
    expected = bool if code == BOOL else int
    if not (type(plain) is range and expected is int) and not set(map(type, plain)) <= {expected}:
        return None
    try:
        return struct.pack(f"{len(plain)}{own.letter}", *plain)
    except (struct.error, OverflowError):
        return None


def unpacked(code: int, memory: Any, count: int) -> List[int]:
    """Returns `count` values at the start of the memory."""
    own = SCALARS[code]
    return memoryview(memory).cast("B")[:count * own.size].cast(own.letter).tolist()


def words(code: int, values: Iterable[Any], refused: Type[Error] = OutOfRangeError) -> Any:
    """Returns memory with the values in 64 bits each, as zx_put_pairs takes map keys and values."""
    numbers, own = values if isinstance(values, list) else list(values), SCALARS[code]
    is_plain = set(map(type, numbers)) <= {bool if code == BOOL else int}
    if not is_plain or numbers and not own.least <= min(numbers) <= max(numbers) <= own.most:
        numbers = [scalar(code, value, refused) for value in numbers]
    packed = struct.pack(f"{len(numbers)}{'q' if code in (I32, I64) else 'Q'}", *numbers)
    return ctypes.create_string_buffer(packed, max(8, len(packed)))


def from_words(code: int, memory: Any, count: int) -> List[int]:
    """Returns the first `count` values in memory that has 64 bits for each."""
    numbers = unpacked(U64 if code == U64 else I64, memory, count)
    return list(map(bool, numbers)) if code == BOOL else numbers


def pairs_of(code: int, value: Any) -> Tuple[Any, Any, int]:
    """Returns the keys, values and number of the pairs; raises WrongKindError or OutOfRangeError for a pair of another
    kind."""
    try:
        pairs = dict(value)
    except (TypeError, ValueError):
        raise WrongKindError(f"{shown(value)} has no pairs") from None
    return words(code >> 8 & 255, pairs.keys()), words(code & 255, pairs.values()), len(pairs)


# ---- texts

def encoded(text: Any, encoding: Optional[str]) -> bytes:
    """Returns the bytes of a text."""
    if isinstance(text, str):
        try:
            return text.encode(encoding or "utf-8", "surrogateescape")
        except UnicodeEncodeError:
            raise BadValueError(f"{shown(text)} cannot be encoded") from None
    if isinstance(text, (bytes, bytearray, memoryview)) or hasattr(text, "_text"):
        return bytes(text)
    raise WrongKindError(f"{shown(text)} is no text")


def decoded(text: bytes, encoding: Optional[str]) -> Any:
    """Returns the text of bytes, or the bytes if there is no encoding."""
    if encoding is None:
        return text
    try:
        return text.decode(encoding, "surrogateescape")
    except UnicodeDecodeError:
        raise BadValueError(f"{shown(text)} is no {encoding}") from None


class Texts:
    """Texts side by side. `passed` is what the library takes."""

    def __init__(self, texts: Any, encoding: Optional[str]) -> None:
        if isinstance(texts, TEXTS):
            raise WrongKindError(f"{shown(texts)} is one text, and no list of them")
        kept = [encoded(text, encoding) for text in listed(texts)]
        joined, at = b"".join(kept), 0
        self._memory = ctypes.create_string_buffer(joined, max(1, len(joined)))
        self.count = len(kept)
        first = ctypes.addressof(self._memory)
        places: List[int] = []
        for text in kept:
            places += (first + at, len(text))
            at += len(text)
        packed = struct.pack(f"{len(places)}Q", *places)
        self.passed = (_library.Text * max(1, len(kept))).from_buffer_copy(packed or bytes(16))

    def part(self, first: int) -> Any:
        """Returns the texts from an index on."""
        return ctypes.cast(ctypes.byref(self.passed, first * ctypes.sizeof(_library.Text)),
                           ctypes.POINTER(_library.Text))


# ---- keys

_BY_KIND, _BY_HANDLE = 1, 2


class ObjectKey:
    """A key that is no name: what unique() and handle() return."""

    def __init__(self, key: _library.Key, words: str) -> None:
        self._key, self._words = key, words

    def __repr__(self) -> str:
        return self._words

    def __eq__(self, other: object) -> bool:
        return isinstance(other, ObjectKey) and self._words == other._words

    def __hash__(self) -> int:
        return hash(self._words)

    def __reduce__(self) -> Tuple[Any, ...]:
        return (handle, (self._key.handle,)) if self._key.how == _BY_HANDLE else (unique, (KINDS[self._key.kind],))


Key = Union[str, bytes, ObjectKey]


def unique(kind: str) -> ObjectKey:
    """Returns the key of the unique object of a kind: unique("u64"). BadKindError."""
    return ObjectKey(_library.Key(_BY_KIND, code_of(kind), 0, b"", 0), f"unique({kind!r})")


def handle(number: int) -> ObjectKey:
    """Returns the key of the object with a handle."""
    return ObjectKey(_library.Key(_BY_HANDLE, 0, natural(number), b"", 0), f"handle({number})")


def raw_key(key: Any) -> _library.Key:
    """Returns a key as the library takes it; None means no key."""
    if isinstance(key, str):
        try:
            name = key.encode()
        except UnicodeEncodeError:
            raise BadNameError(f"{shown(key)} has no UTF-8") from None
        return _library.Key(0, 0, 0, name, len(name))
    if isinstance(key, bytes):
        return _library.Key(0, 0, 0, key, len(key))
    if isinstance(key, ObjectKey):
        return key._key
    if key is None:
        return _library.Key(3, 0, 0, b"", 0)
    raise BadKeyError(f"{shown(key)} is no name, and no key of unique() or handle()")
