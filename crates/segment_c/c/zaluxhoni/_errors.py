"""Errors of the library, as classes that derive from Error."""
from __future__ import annotations

import errno
import os
import warnings
from typing import TYPE_CHECKING, Any, Dict, Optional, Tuple, Type

from . import _library

_LONGEST_SHOWN = 120
LONGEST_NAME, LARGEST = 255, 2**30


def shown(value: object) -> str:
    """Returns the repr of a value, or the front of a long one."""
    try:
        text = repr(value)
    except Exception:
        # a number of thousands of digits has no repr
        text = f"a number of {value.bit_length()} bits" if isinstance(value, int) else f"a {type(value).__name__}"
    return text if len(text) <= _LONGEST_SHOWN else f"{text[:_LONGEST_SHOWN]}..."


class Error(Exception):
    """The base of all errors. `code` is the number in zaluxhoni.h."""
    code: Optional[int] = None

    def __init__(self, *arguments: object) -> None:
        super().__init__(*(arguments or (_words(self.code),)))

    def __str__(self) -> str:
        return Exception.__str__(self)


class ReadOnlyError(Error, PermissionError):
    """The segment is open for reading."""
    code = 4


class ExistsError(Error, ValueError):
    """An object has the name, or is the unique one of its kind."""
    code = 5


class NotFoundError(Error, KeyError):
    """No object has the name, kind or handle."""
    code = 6


class WrongKindError(Error, TypeError):
    """The object, or a value, is of another kind."""
    code = 7


class OutOfRangeError(Error, IndexError, OverflowError):
    """An index is past the end, or a number outside the range of the element."""
    code = 8


class NoSpaceError(Error, MemoryError):
    """No gap of the segment is long enough; `grow` makes it longer. `wanted` is how many bytes the values of the call
    have, if it has some, and `free` how many all gaps have."""
    code = 9
    wanted: Optional[int] = None
    free: Optional[int] = None


class AbsentError(Error, KeyError):
    """A map has no such key."""
    code = 10


class ClosedError(Error, ValueError):
    """The segment is closed."""
    code = 16


class BadKeyError(Error, ValueError):
    """The call takes no such key: a handle for a name or kind, or None for an object."""
    code = 17


class BadNameError(Error, ValueError):
    """A name is 1 to 255 bytes of UTF-8 without control characters."""
    code = 18


class BadKindError(Error, ValueError):
    """No kind has this name, or the unique object is of another kind."""
    code = 19


class BadValueError(Error, ValueError):
    """A value for a new object is outside its kind."""
    code = 20


class BadCountError(Error, ValueError):
    """An array has 1 to 1048576 elements."""
    code = 21


class BadSizeError(Error, ValueError):
    """A segment has 144 bytes, or a multiple of 16 from 176 to 1073741824; a region a multiple of 16, from 16 on."""
    code = 22


class BadModeError(Error, ValueError):
    """No mode has this name."""
    code = 23


class ShortBufferError(Error, ValueError):
    """A buffer is too short; this package makes them long enough."""
    code = 24


class NullSliceError(Error, ValueError):
    """A pointer is null; this package passes none."""
    code = 25


class NoMemoryError(Error, MemoryError):
    """The system gave no memory."""
    code = 26


class ShortRegionError(Error, ValueError):
    """The region has fewer bytes than the segment."""
    code = 27


class BadGrowthError(Error, ValueError):
    """A segment grows by a multiple of 16, at least 32."""
    code = 28


class TooLargeError(Error, MemoryError):
    """The segment would have more than 1073741824 bytes."""
    code = 29


class BadImageError(Error, ValueError):
    """The bytes are no image of a segment; a derived class says why. `place` is the offset of a byte that shows it."""
    code: Optional[int] = None
    place: Optional[int] = None


class TruncatedError(BadImageError):
    """The image states more bytes than there are."""
    code = 101


class BadMagicError(BadImageError):
    """The first bytes are not those of an image."""
    code = 102


class UnsupportedVersionError(BadImageError):
    """The image has another format; `segment migrate` rewrites older ones."""
    code = 103


class BadImageSizeError(BadImageError):
    """The image states an illegal size, or not the size of the bytes."""
    code = 104


class BadReservedError(BadImageError):
    """Header bytes that must be 0 are not."""
    code = 105


class BadTagError(BadImageError):
    """The tags of the blocks are wrong."""
    code = 106


class BadFreeTreeError(BadImageError):
    """The free tree is wrong."""
    code = 107


class BadIndexError(BadImageError):
    """An index is wrong."""
    code = 108


class BadObjectError(BadImageError):
    """An object is wrong."""
    code = 109


class SharedBlockError(BadImageError):
    """Two owners share a block."""
    code = 110


class BadContainerError(BadImageError):
    """A vector, string or map is wrong."""
    code = 111


class OrphanBlockError(BadImageError):
    """A block has no owner."""
    code = 112


class NoFileError(Error, ValueError):
    """The segment has no file; `save_as` creates one."""
    code = 40


class FileError(Error, OSError):
    """A file was refused; a derived class says why. `errno` and `filename` are those of any OSError."""
    number = 0

    def __init__(self, number: Optional[int] = None, path: Any = None) -> None:
        number = self.number if number is None else number
        said = os.strerror(number) if self.code == FileFaultError.code else _words(self.code)
        OSError.__init__(self, number, said, path)

    def __str__(self) -> str:
        return OSError.__str__(self)

    def __reduce__(self) -> Tuple[Any, ...]:
        # FileFaultError has a class for each errno, which no module names
        kind = FileFaultError if isinstance(self, FileFaultError) else type(self)
        return _file_error, (kind, self.errno, self.filename), self.__dict__ or None


class FileInUseError(FileError, BlockingIOError):
    """Another program, or another segment of this one, may write the file."""
    code, number = 42, errno.EWOULDBLOCK


class PathExistsError(FileError, FileExistsError):
    """Something exists at the path."""
    code, number = 43, errno.EEXIST


class FileMissingError(FileError, FileNotFoundError):
    """Nothing exists at the path, or its folder does not exist."""
    code, number = 44, errno.ENOENT


class DanglingLinkError(FileError, FileNotFoundError):
    """The path is a link that leads to nothing."""
    code, number = 45, errno.ENOENT


class IsFolderError(FileError, IsADirectoryError):
    """The path leads to a folder."""
    code, number = 46, errno.EISDIR


class IsDeviceError(FileError):
    """The path leads to a device."""
    code, number = 47, errno.EINVAL


class IsPipeError(FileError):
    """The path leads to a pipe or a socket."""
    code, number = 48, errno.ESPIPE


class FileTooLargeError(FileError):
    """The file has more than 1073741824 bytes."""
    code, number = 49, errno.EFBIG


class FileFaultError(FileError):
    """The system refused. The exception is also of the class that Python has for its `errno`, such as
    PermissionError."""
    code, number = 50, errno.EIO


class FileReplacedError(FileError):
    """The name leads to another file now, which is left alone."""
    code, number = 51, errno.ESTALE


class FileUnsyncedError(FileError):
    """The file is saved, but its folder is not synced."""
    code, number = 52, errno.EIO


class FileForkedError(FileError, PermissionError):
    """The file belongs to the parent of this forked process."""
    code, number = 53, errno.EPERM


class FileLogForeignError(FileError):
    """The log beside the file belongs to another file, or is damaged. `filename` is the path of the log, as in each
    error about a log."""
    code, number = 54, errno.ESTALE


class FileLogInTheWayError(FileError):
    """A file that is no log has the name of the log. It is left alone, and nothing is committed: move or remove it."""
    code, number = 57, errno.EEXIST


class FileLogLeftError(FileError):
    """The log of a file that is gone lies beside the name of a new file. Put that file back, or remove the log."""
    code, number = 58, errno.EEXIST


class FileUnsureError(FileError):
    """A commit failed while the system synced it, and may be on the disk or not. Only `save` may follow."""
    code, number = 55, errno.EIO


class FileInStepError(FileError, BlockingIOError):
    """A transaction is open."""
    code, number = 56, errno.EBUSY


class WrongThreadError(Error, RuntimeError):
    """Only the thread that opened a segment uses it."""

    def __init__(self, *arguments: object) -> None:
        Exception.__init__(self, *(arguments or ("the segment belongs to another thread",)))


class WrongTaskError(Error, RuntimeError):
    """A transaction of another asyncio task is open; meanwhile only that task uses the segment."""

    def __init__(self, *arguments: object) -> None:
        Exception.__init__(self, *(arguments or ("another task has a transaction open",)))


class NotUndoneError(Error, RuntimeError):
    """A transaction failed, and memory or the system refused to undo it. The segment may have a part of its changes,
    and is not saved any more: `discard` it."""

    def __init__(self, *arguments: object) -> None:
        Exception.__init__(self, *(arguments or ("a transaction could not be undone: discard the segment",)))


class NoElementError(Error, ValueError):
    """A list has no such element."""

    def __init__(self, *arguments: object) -> None:
        Exception.__init__(self, *(arguments or ("the list has no such element",)))


class LentError(Error, BufferError):
    """A view holds the memory of the object, or of the segment."""

    def __init__(self, *arguments: object) -> None:
        Exception.__init__(self, *(arguments or ("its memory is lent to a view",)))


def _words(code: Optional[int]) -> str:
    return "" if code is None else _library.words(code)


def _all(kind: Type[Error]) -> Dict[int, Type[Error]]:
    """Maps the codes of a class and its subclasses to these classes."""
    classes = {} if kind.code is None else {kind.code: kind}
    for each in kind.__subclasses__():
        classes.update(_all(each))
    return classes


_classes = _all(Error)


def _named_in_0_9() -> Dict[str, Type[Error]]:
    """Maps the names that version 0.9 had for exceptions, which do not end in `Error`, to the classes."""
    classes = list(Error.__subclasses__())
    names: Dict[str, Type[Error]] = {"FileExists": PathExistsError}
    while classes:
        kind = classes.pop()
        classes += kind.__subclasses__()
        if kind not in (FileError, PathExistsError, NotUndoneError, FileLogInTheWayError, FileLogLeftError):
            names[kind.__name__[:-len("Error")]] = kind
    return names


_old_names = _named_in_0_9()


def named_in_0_9(module: str, name: str) -> Type[Error]:
    """Returns the exception that had this name in version 0.9, with a warning. A later version has these names no
    more."""
    kind = _old_names.get(name)
    if kind is None:
        raise AttributeError(f"module {module!r} has no attribute {name!r}")
    warnings.warn(f"{module}.{name} is now {module}.{kind.__name__}", DeprecationWarning, stacklevel=3)
    return kind


if not TYPE_CHECKING:
    def __getattr__(name: str) -> Any:
        return named_in_0_9(__name__, name)


def error_of(code: int, about: object = None) -> Error:
    """Returns the error of a code, with the name that the call was about."""
    kind = _classes.get(code, Error)
    said = _name_fault(about) if kind is BadNameError else _words(code)
    return kind(said if about is None else f"{said}: {shown(about)}")


def _name_fault(name: object) -> str:
    """Returns why a name is refused."""
    text = name.encode("utf-8", "surrogatepass") if isinstance(name, str) else name
    if isinstance(text, bytes) and len(text) > LONGEST_NAME:
        return f"a name has at most {LONGEST_NAME} bytes of UTF-8, and this one {len(text)}"
    return "a name has 1 to 255 bytes of UTF-8, without control characters"


def too_large(size: int, extra: int) -> TooLargeError:
    """Returns the error of a segment of `size` bytes that cannot become longer by `extra` bytes."""
    return TooLargeError(f"the segment has {size} bytes, and {extra} more are above the limit of {LARGEST}")


def region_error(code: int, capacity: int, size: int) -> Error:
    """Returns the error of a region of `capacity` bytes for a segment of `size`."""
    if code == ShortRegionError.code:
        return ShortRegionError(f"a region of {capacity} bytes is too short for {size} bytes")
    if code == BadSizeError.code:
        return BadSizeError(f"no region has {capacity} bytes: it has a multiple of 16, from 16 on")
    return error_of(code)


def bad_size(size: int, about: object = None) -> BadSizeError:
    """Returns the error of a new segment that cannot have so many bytes."""
    name = "" if about is None else f"{shown(about)}: "
    return BadSizeError(f"{name}no segment has {size} bytes: it has 144, or a multiple of 16 from 176 to {LARGEST}")


def named(error: Error, key: object) -> Error:
    """Returns the error, with the key of the object that it is about; the error of a file, which has `errno` and the
    name of the file, as it is."""
    if isinstance(error, FileError) or shown(key) in str(error):
        return error
    made = type(error)(f"{shown(key)}: {error}")
    made.__dict__.update(error.__dict__)
    return made


def no_space(about: object, wanted: Optional[int], free: int) -> NoSpaceError:
    """Returns the NoSpaceError of a call whose values have `wanted` bytes, if it has some."""
    name = "" if about is None else f": {shown(about)}"
    need = "" if wanted is None else f"{wanted} bytes wanted, "
    error = NoSpaceError(f"{_words(NoSpaceError.code)}{name}: {need}{free} free in all gaps; grow() makes the segment "
                         "longer, and without grow=False it becomes longer by itself")
    error.wanted, error.free = wanted, free
    return error


def image_error_of(code: int, place: int, about: object = None, image: bytes = b"") -> Error:
    """Returns the error of bytes that are no image, with the offset that shows why."""
    error = error_of(code, about)
    if isinstance(error, UnsupportedVersionError):
        version = f": version {int.from_bytes(image[8:12], 'little')}" if image else ""
        name = "" if about is None else f": {shown(about)}"
        error = UnsupportedVersionError(f"{_words(code)}{version}{name}; `segment migrate` rewrites an image of an "
                                        "older one")
    if isinstance(error, BadImageError):
        error.place = place
    return error


def file_error_of(code: int, file: _library.File, path: Any) -> Error:
    """Returns the error of a code that a file call returned."""
    kind = _classes.get(code, Error)
    if not issubclass(kind, FileError):
        return image_error_of(code, file.place, path)
    is_of_log = kind in (FileLogForeignError, FileLogInTheWayError, FileLogLeftError)
    return _file_error(kind, file.error, _log_path(path) if is_of_log else path)


def _log_path(path: Any) -> Any:
    """Returns the path of a file's log. A link has the log of the file to which it leads."""
    path = os.path.realpath(path) if os.path.islink(path) else path
    return path + (b"-log" if isinstance(path, bytes) else "-log")


def _file_error(kind: Type[FileError], number: Optional[int], path: Any) -> FileError:
    """Returns the error of a file; a FileFaultError is also of Python's class for its errno."""
    known, made = type(OSError(number, "")), kind  # type: Any, Any
    if kind is FileFaultError and known is not OSError:
        made = type("FileFaultError", (FileFaultError, known), {"__module__": FileFaultError.__module__})
    error: FileError = made(number, path)
    return error
