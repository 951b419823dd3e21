"""Zaluxhoni: typed objects under names in one file, over the proved library libzaluxhoni.so.

    import zaluxhoni

    with zaluxhoni.open("shop.seg") as shop:
        shop.map("prices", "i32", "i64")[7] = 250
        shop.strings("basket").append("apples")

The end of the block saves the file, whole or not at all. If the block ends by an exception, the file stays unchanged.

A name finds an object. shop["prices"] is the value of one number, bool or text; any other object is used as a list
(Vector, Strings, Array) or as a dict (Map). Objects look their name up in each call, so they stay valid as long as the
segment is open. A refused call raises an Error, of the class with the refusal's name, and changes nothing; a method
that makes several calls may be done in part, as the guide says.

Only the thread that opened a segment uses it, unless it was opened with check_same_thread=False. The guide is the page
PYTHON.md, which packages put into share/doc/zaluxhoni."""
from __future__ import annotations

import ctypes
import os
import time
from typing import TYPE_CHECKING, Any, List, Optional

from . import _library
from ._errors import (AbsentError, BadContainerError, BadCountError, BadFreeTreeError, BadGrowthError, BadImageError,
                      BadImageSizeError, BadIndexError, BadKeyError, BadKindError, BadMagicError, BadModeError,
                      BadNameError, BadObjectError, BadReservedError, BadSizeError, BadTagError, BadValueError,
                      ClosedError, DanglingLinkError, Error, ExistsError, FileError, FileFaultError, FileForkedError,
                      FileInStepError, FileInUseError, FileLogForeignError, FileLogInTheWayError, FileLogLeftError,
                      FileMissingError, FileReplacedError, FileTooLargeError, FileUnsureError, FileUnsyncedError,
                      IsDeviceError, IsFolderError, IsPipeError, LentError, NoElementError, NoFileError, NoMemoryError,
                      NoSpaceError, NotFoundError, NotUndoneError, OrphanBlockError, OutOfRangeError, PathExistsError,
                      ReadOnlyError, SharedBlockError, ShortRegionError, TooLargeError, TruncatedError,
                      UnsupportedVersionError, WrongKindError, WrongTaskError, WrongThreadError, bad_size,
                      image_error_of, named_in_0_9, region_error, shown)
from ._library import zx
from ._objects import Array, Map, Object, String, Strings, Vector
from ._records import Records
from ._segment import (FILE_MODES, MODES, Group, Info, Segment, Tile, Transaction, discard_lost, new_segment, note_file,
                       note_opened, path_bytes)
from ._values import Key, ObjectKey, handle, natural, unique

__all__ = [
    "open", "create", "load", "check", "state", "unique", "handle", "ObjectKey", "Segment", "Group", "Transaction",
    "Object", "Array", "Vector", "Strings", "String", "Map", "Records", "Info", "Tile", "Error", "ReadOnlyError",
    "ExistsError", "NotFoundError", "WrongKindError", "OutOfRangeError", "NoSpaceError", "AbsentError",
    "NoElementError", "ClosedError", "BadKeyError", "BadNameError", "BadKindError", "BadValueError", "BadCountError",
    "BadSizeError", "BadModeError", "NoMemoryError", "ShortRegionError", "BadGrowthError", "TooLargeError", "LentError",
    "NotUndoneError", "WrongThreadError", "WrongTaskError", "BadImageError", "TruncatedError", "BadMagicError",
    "UnsupportedVersionError", "BadImageSizeError", "BadReservedError", "BadTagError", "BadFreeTreeError",
    "BadIndexError", "BadObjectError", "SharedBlockError", "BadContainerError", "OrphanBlockError", "NoFileError",
    "FileError", "FileInUseError", "PathExistsError", "FileMissingError", "DanglingLinkError", "IsFolderError",
    "IsDeviceError", "IsPipeError", "FileTooLargeError", "FileFaultError", "FileReplacedError", "FileUnsyncedError",
    "FileForkedError", "FileLogForeignError", "FileLogInTheWayError", "FileLogLeftError", "FileUnsureError",
    "FileInStepError",
]


_MAPPED = 256
_DURABLE = 512

_number = zx.zx_version()
__version__ = f"{_number // 10000}.{_number // 100 % 100}.{_number % 100}"


def __dir__() -> List[str]:
    return [*__all__, "__all__", "__doc__", "__name__", "__version__"]


if not TYPE_CHECKING:
    def __getattr__(name: str) -> Any:
        """Finds an exception by its name of version 0.9."""
        return named_in_0_9(__name__, name)


def _image_bytes(image: Any) -> bytes:
    try:
        return bytes(memoryview(image))
    except TypeError:
        raise WrongKindError(f"{type(image).__name__} is no image") from None


def create(size: int, *, grow: bool = True, encoding: Optional[str] = "utf-8",
           check_same_thread: bool = True) -> Segment:
    """Creates an empty segment of `size` bytes, without a file. It becomes longer if there is no space, unless `grow`
    is false. BadSizeError, NoMemoryError."""
    made, wanted = new_segment(grow, encoding, check_same_thread), natural(size)
    code = made._code(zx.zx_create, wanted)
    if code:
        raise bad_size(wanted) if code == BadSizeError.code else made._error(code)
    return made


def load(image: Any, mode: str = "w", *, capacity: Optional[int] = None, grow: bool = True,
         encoding: Optional[str] = "utf-8", check_same_thread: bool = True) -> Segment:
    """Opens a copy of an image, without a file. `mode` is "w", "r" for reading, or "p" for changes that are never
    saved. `capacity` is the length of its region in bytes: a multiple of 16. BadImageError, BadModeError,
    ShortRegionError, BadSizeError."""
    image = _image_bytes(image)
    if not isinstance(mode, str) or mode not in MODES:
        raise BadModeError(f"no mode is {shown(mode)}")
    made = new_segment(grow, encoding, check_same_thread)
    wanted = max(16, (len(image) + 15) // 16 * 16) if capacity is None else natural(capacity)
    place = ctypes.c_uint64()
    code = made._code(zx.zx_open_explained, image, len(image), wanted, MODES[mode], place)
    if code == ShortRegionError.code and capacity is None:
        # an image that states more bytes than there are is rejected by that class
        raise image_error_of(TruncatedError.code, len(image))
    if code in (ShortRegionError.code, BadSizeError.code):
        raise region_error(code, wanted, len(image))
    if code:
        raise image_error_of(code, place.value, None, image)
    return made


def open(path: Any, mode: str = "c", *, size: int = 65536, grow: bool = True, encoding: Optional[str] = "utf-8",
         check_same_thread: bool = True, mapped: bool = False, durable: bool = False,
         timeout: Optional[float] = None) -> Segment:
    """Opens the segment of a file. `mode` is one of

        "r"  opens a file that exists, and only reads it          (open_read_only)
        "w"  opens a file that exists; `close` saves it           (open_only)
        "c"  does so too, and creates a file that does not exist  (open_or_create)
        "x"  creates a file that must not exist                   (create_only)
        "p"  opens a file that exists; changes are private        (open_copy_on_write)

    The path is a str, bytes or an os.PathLike. A new segment has `size` bytes, and its file exists at once, with an
    empty segment. A segment becomes longer if there is no space, unless `grow` is false. In the modes that save, the
    file belongs to this segment until it is closed: anyone else gets FileInUseError, at once or after `timeout` seconds
    of waiting. With check_same_thread=False each thread may use the segment, and each call is alone on it. With
    `mapped` the segment lies in the file: opening copies nothing, each change is in the file at once, and `discard`
    reverts none; the guide C.md says what that costs. With `durable` changes are private until `commit`, or the end of
    a transaction, puts them into the log beside the file: whenever the process is killed or the power fails, the next
    opening finds the last commit that was done, or the one under way; the modes "r" and "p" find what was committed
    without it. FileError, if the file is refused; BadImageError, BadModeError, BadSizeError."""
    if not isinstance(mode, str) or mode not in FILE_MODES:
        raise BadModeError(f"no mode is {shown(mode)}")
    if durable and mode in "rp":
        raise BadModeError(f"mode {mode!r} saves nothing, so it takes no durable=True: the modes 'w', 'c' and 'x' do")
    opened = new_segment(grow, encoding, check_same_thread)
    how = FILE_MODES[mode] + (_DURABLE if durable else _MAPPED if mapped else 0)
    passed, bytes_wanted, ends = path_bytes(path), natural(size), _ends(timeout)
    path = os.fspath(path)
    opened._path, opened._is_mapped, opened._is_durable = path, bool(mapped or durable), bool(durable)
    note_file(opened)
    pause = 0.001
    while True:
        try:
            opened._file_call(zx.zx_file_open, path, passed, how, bytes_wanted)
            break
        except BadSizeError:
            raise bad_size(bytes_wanted, path) from None
        except FileInUseError:
            if discard_lost():
                continue
            left = ends - time.monotonic()
            if left <= 0:
                raise
        time.sleep(min(pause, left))
        pause = min(2 * pause, 0.05)
    note_opened(opened)
    return opened


def _ends(timeout: Optional[float]) -> float:
    """Returns the moment when a wait of so many seconds ends."""
    try:
        seconds = 0.0 if timeout is None else float(timeout)
    except (TypeError, ValueError, OverflowError):
        raise WrongKindError(f"{shown(timeout)} is no number of seconds") from None
    if not seconds >= 0:
        raise BadValueError(f"{shown(timeout)} is no number of seconds")
    return time.monotonic() + seconds


def state() -> str:
    """Returns the state of the crates that was proved, and the logic of the prover; dashes outside a package."""
    return str(zx.zx_state().decode())


def check(image: Any) -> None:
    """Raises the class of BadImageError that rejects the bytes, if they are no image; its `place` is the offset of a
    byte that shows it."""
    image, place = _image_bytes(image), ctypes.c_uint64()
    code = zx.zx_explain(image, len(image), place)
    if code:
        raise image_error_of(code, place.value, None, image)


# document and show the classes as those of this module
for _name in __all__:
    if isinstance(globals()[_name], type):
        globals()[_name].__module__ = __name__
