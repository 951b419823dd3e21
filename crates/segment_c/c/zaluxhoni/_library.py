"""Loads the shared object libzaluxhoni.so, and declares its calls: zaluxhoni.h, zaluxhoni_files.h and
zaluxhoni_rows.h."""
from __future__ import annotations

import ctypes
import os
from typing import TYPE_CHECKING, Any, Dict, List

BOOL, U8, I32, I64, U64, STRING, VECTOR, MAP, STRINGS = 1, 2, 3, 4, 5, 65536, 131072, 196608, 262144


class Handle(ctypes.Structure):
    _fields_ = [("at", ctypes.c_void_p), ("changes", ctypes.c_uint64), ("lent", ctypes.c_bool),
                ("shared", ctypes.c_bool)]


class Memory(ctypes.Structure):
    _fields_ = [("at", ctypes.c_void_p), ("len", ctypes.c_uint64)]


class Elements(ctypes.Structure):
    _fields_ = [("at", ctypes.c_void_p), ("offset", ctypes.c_uint64), ("count", ctypes.c_uint64),
                ("changes", ctypes.c_uint64), ("kind", ctypes.c_uint32)]


class File(ctypes.Structure):
    _fields_ = [("segment", Handle), ("error", ctypes.c_int32), ("held", ctypes.c_void_p),
                ("place", ctypes.c_uint64)]


class Step(ctypes.Structure):
    _fields_ = [("copy", Handle), ("kept", ctypes.c_void_p)]


class Key(ctypes.Structure):
    _fields_ = [("how", ctypes.c_uint32), ("kind", ctypes.c_uint32), ("handle", ctypes.c_uint64),
                ("name", ctypes.c_char_p), ("len", ctypes.c_size_t)]


class Value(ctypes.Structure):
    _fields_ = [("kind", ctypes.c_uint32), ("number", ctypes.c_int64), ("natural", ctypes.c_uint64)]


class Values(ctypes.Structure):
    _fields_ = [("kind", ctypes.c_uint32), ("truths", ctypes.c_void_p), ("truth_count", ctypes.c_size_t),
                ("bytes", ctypes.c_void_p), ("byte_count", ctypes.c_size_t), ("i32s", ctypes.c_void_p),
                ("i32_count", ctypes.c_size_t), ("i64s", ctypes.c_void_p), ("i64_count", ctypes.c_size_t),
                ("u64s", ctypes.c_void_p), ("u64_count", ctypes.c_size_t)]


class Text(ctypes.Structure):
    _fields_ = [("at", ctypes.c_void_p), ("len", ctypes.c_size_t)]


class Info(ctypes.Structure):
    _fields_ = [("found_by", ctypes.c_uint32), ("kind", ctypes.c_uint32), ("count", ctypes.c_uint32),
                ("name_len", ctypes.c_uint64), ("handle", ctypes.c_uint64)]


class Tile(ctypes.Structure):
    _fields_ = [("offset", ctypes.c_uint64), ("len", ctypes.c_uint64), ("use", ctypes.c_uint32)]


def _path() -> str:
    """Returns the library that ZALUXHONI_LIBRARY names, or one in or beside this folder, or the one that the system
    finds."""
    named = os.environ.get("ZALUXHONI_LIBRARY")
    if named:
        return named
    here = os.path.dirname(os.path.abspath(__file__))
    for folder in (here, os.path.dirname(here)):
        beside = os.path.join(folder, "libzaluxhoni.so")
        if os.path.exists(beside):
            return beside
    return "libzaluxhoni.so"


def _calls() -> Dict[str, List[Any]]:
    """Lists the arguments of each call after the segment's handle, as zaluxhoni.h and zaluxhoni_rows.h declare them."""
    pointer, u32, u64, size, text = ctypes.POINTER, ctypes.c_uint32, ctypes.c_uint64, ctypes.c_size_t, ctypes.c_char_p
    key, value, values, memory = pointer(Key), pointer(Value), pointer(Values), ctypes.c_void_p
    texts, info, truth = pointer(Text), pointer(Info), pointer(ctypes.c_bool)
    number, half, count = pointer(u64), pointer(u32), pointer(size)
    calls: Dict[str, List[Any]] = {
        "create": [u64], "open": [text, size, u64, u32], "save": [memory, size], "grow": [u64], "shrink": [],
        "relocate": [u64], "close": [], "mode": [half], "size": [number], "free_bytes": [number],
        "region_left": [number], "construct": [key, u32, value, number], "construct_vector": [key, values, number],
        "construct_array": [key, values, number],
        "construct_string": [key, text, size, number], "construct_strings": [key, texts, size, number],
        "construct_map": [key, u32, u32, number], "find_or_construct": [key, u32, value, number, half],
        "find_or_construct_vector": [key, values, number, half],
        "find_or_construct_string": [key, text, size, number, half],
        "find_or_construct_strings": [key, texts, size, number, half],
        "find_or_construct_map": [key, u32, u32, number, half], "find": [key, u32, number, half],
        "destroy": [key, truth], "tell": [key, info, memory, size], "get": [key, u64, value],
        "set": [key, u64, value], "push": [key, value], "pop": [key, value], "insert": [key, u64, value],
        "assign": [key, values], "extend": [key, values], "erase": [key, u64], "measure": [key, number, number],
        "reserve": [key, u64], "trim": [key], "clear": [key], "read_string": [key, memory, size, number],
        "assign_string": [key, text, size], "append": [key, text, size],
        "read_text": [key, u64, memory, size, number], "set_text": [key, u64, text, size],
        "push_text": [key, text, size], "pop_text": [key], "insert_text": [key, u64, text, size],
        "assign_texts": [key, texts, size], "map_get": [key, value, value], "map_put": [key, value, value, truth],
        "map_erase": [key, value, truth], "map_first": [key, value, value], "map_next": [key, value, value, value],
        "num_named": [number], "num_unique": [number], "named_at": [u64, info, memory, size],
        "unique_at": [u64, info], "tile_at": [u64, pointer(Tile)], "reserve_named": [u64], "reserve_unique": [u64],
        "shrink_indexes": [], "zero_free": [], "sanity": [truth], "all_deallocated": [truth],
        "open_explained": [text, size, u64, u32, number], "attach_explained": [pointer(Memory), u64, u32, number],
        "write_elements": [key, u64, values], "attach": [pointer(Memory), u64, u32], "detach": [pointer(Memory)],
        "view": [key, pointer(Elements)], "view_mut": [key, pointer(Elements)], "named_from": [text, size, number],
        "begin": [pointer(Handle)], "rollback": [pointer(Handle)],
        "read_pairs": [key, value, memory, memory, size, count],
        "put_pairs": [key, u32, u32, memory, memory, size], "clear_map": [key],
        "read_texts": [key, u64, memory, size, memory, size, count], "push_texts": [key, u64, texts, size],
        "read_names": [u64, memory, memory, memory, size, size, count],
    }
    for row in ("bools", "u8s", "i32s", "i64s", "u64s"):
        calls[f"read_{row}"] = [key, u64, memory, size]
    return calls


def _load() -> Any:
    """Loads the library, with the types of its calls."""
    library = ctypes.CDLL(_path())
    u32, u64 = ctypes.c_uint32, ctypes.c_uint64
    for name, arguments in _calls().items():
        call = getattr(library, "zx_" + name)
        call.argtypes, call.restype = [ctypes.POINTER(Handle), *arguments], u32
    library.zx_close.restype = None
    library.zx_explain.argtypes = [ctypes.c_char_p, ctypes.c_size_t, ctypes.POINTER(u64)]
    library.zx_explain.restype = u32
    for name in ("zx_words", "zx_file_words"):
        call = getattr(library, name)
        call.argtypes, call.restype = [u32, ctypes.POINTER(Text)], None
    library.zx_message.argtypes, library.zx_message.restype = [u32], ctypes.c_char_p
    library.zx_version.argtypes, library.zx_version.restype = [], u32
    library.zx_state.argtypes, library.zx_state.restype = [], ctypes.c_char_p
    files: Dict[str, List[Any]] = {"open": [ctypes.c_char_p, u32, u64], "save": [], "save_as": [ctypes.c_char_p, u32],
                                   "close": [], "discard": [], "grow": [u64], "shrink": [], "flush": [],
                                   "rollback": [ctypes.POINTER(Handle)], "commit": [],
                                   "begin": [ctypes.POINTER(Step)], "keep": [ctypes.POINTER(Step)],
                                   "undo": [ctypes.POINTER(Step)], "leave": [ctypes.POINTER(Step)]}
    views = [ctypes.POINTER(Memory), ctypes.c_size_t, ctypes.POINTER(Memory)]
    files.update({"undo_beside": [ctypes.POINTER(Step), *views], "close_beside": [ctypes.c_bool, *views]})
    for name, arguments in files.items():
        call = getattr(library, "zx_file_" + name)
        call.argtypes, call.restype = [ctypes.POINTER(File), *arguments], u32
    library.zx_file_discard.restype = library.zx_file_leave.restype = None
    library.zx_step_image.argtypes = [ctypes.POINTER(Step), ctypes.c_void_p, ctypes.c_size_t, ctypes.POINTER(u64)]
    library.zx_step_image.restype = u32
    return library


def _load_quick() -> Any:
    """Loads the calls of zaluxhoni_rows.h for objects of CPython, which keep the interpreter's lock."""
    library, pointer = ctypes.PyDLL(_path()), ctypes.POINTER
    library.zx_thread.argtypes, library.zx_thread.restype = [], ctypes.c_uint64
    for name in ("zx_python_class", "zx_python_block"):
        call = getattr(library, name)
        call.argtypes, call.restype = [], ctypes.py_object
    library.zx_python_place.argtypes = [ctypes.py_object, pointer(Handle), pointer(Key), ctypes.c_uint32,
                                        pointer(ctypes.c_uint64), ctypes.py_object]
    library.zx_python_place.restype = ctypes.c_bool
    library.zx_python_row.argtypes = [ctypes.py_object, ctypes.c_uint32, ctypes.c_void_p, ctypes.c_size_t]
    library.zx_python_row.restype = ctypes.c_bool
    return library


zx = _load()
free, unmap = ctypes.PyDLL(None).free, ctypes.PyDLL(None).munmap
free.argtypes, free.restype = [ctypes.c_void_p], None
unmap.argtypes, unmap.restype = [ctypes.c_void_p, ctypes.c_size_t], ctypes.c_int
quick = _load_quick()
HAS_PYTHON: bool = quick.zx_python_row([], U8, None, 0)
"""Whether the library takes this interpreter's own lists and numbers."""
if TYPE_CHECKING or not HAS_PYTHON:
    class Block:
        """Replaces the class of zx_python_block if the library makes none. A signal handler that raises at the start
        of `__exit__` leaves the block open."""
        __slots__ = ("_depth",)
        _held: Any
        _depth: int

        def __enter__(self) -> Any:
            self._held.acquire()
            self._depth = getattr(self, "_depth", 0) + 1
            try:
                return self._begin()
            except BaseException:
                self.__exit__(BaseException, True)
                raise

        def __exit__(self, kind: Any, raised: Any = None, *_: Any) -> None:
            try:
                self._end(self._depth, None if kind is None else raised)
            finally:
                self._depth -= 1
                self._held.release()

        def _begin(self) -> Any:
            raise NotImplementedError

        def _end(self, depth: int, raised: Any) -> None:
            raise NotImplementedError

    class Place:
        """Replaces the class of zx_python_class if the library makes none."""
        __slots__ = ()

        def _item(self, index: Any) -> Any:
            raise NotImplementedError

        def _at(self, *place: Any) -> Any:
            """Gets the value at a key or an index, or sets it. None means: let the other calls say why not."""
            return None

        def __getitem__(self, index: Any) -> Any:
            return self._item(index)
else:
    Place, Block = quick.zx_python_class(), quick.zx_python_block()
NO_SPACE = 9


def words(code: int) -> str:
    """Returns the library's words for a code."""
    return zx.zx_message(code).decode() or f"code {code}"
