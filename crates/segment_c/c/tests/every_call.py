"""Every call of the package zaluxhoni, and by it each of zaluxhoni.h, on the worked examples of docs/LANGUAGE.md,
section 11, and on what is raised. The files that it makes are in the folder that is its one argument."""
import asyncio
import copy
import ctypes
import dataclasses
import errno
import gc
import io
import json
import os
import pathlib
import pickle
import resource
import signal
import struct
import subprocess
import sys
import threading
import time
import typing
import warnings

import zaluxhoni
from zaluxhoni import handle, unique

folder = sys.argv[1]
checks = wrong = 0


def fails(what):
    global wrong
    wrong += 1
    print(f"every_call.py:{sys._getframe(2).f_lineno}: WRONG {what}"[:400])


def same(got, wanted):
    """The two are equal, and of one type."""
    global checks
    checks += 1
    if got != wanted or isinstance(got, bool) != isinstance(wanted, bool):
        fails(f"{got!r}, not {wanted!r}")


def raises(error, call, *arguments, **named):
    """The call raises the error, of the very class."""
    global checks
    checks += 1
    try:
        answer = call(*arguments, **named)
    except Exception as raised:
        if type(raised) is not error:
            fails(f"{type(raised).__name__} '{raised}', not {error.__name__}")
    else:
        fails(f"{answer!r}, not {error.__name__}")


def path_of(name):
    return os.path.join(folder, f"python-{name}.seg")


def new(name):
    """The path of a file that is not there, and has no log."""
    for path in (path_of(name), f"{path_of(name)}-log"):
        if os.path.lexists(path):
            os.unlink(path)
    return path_of(name)


def saved(segment, name):
    """Saves the segment in a file, checks its image and loads it."""
    image = segment.image()
    zaluxhoni.check(image)
    segment.save_as(new(name))
    segment.discard()
    with open(path_of(name), "rb") as file:
        return zaluxhoni.load(file.read(), grow=False)


def create(size, *, grow=False, **named):
    """A segment of just this size, so that calls find no space."""
    return zaluxhoni.create(size, grow=grow, **named)


def set_item(of, index, value):
    of[index] = value


def delete_item(of, index):
    del of[index]


# ---- worked examples

def an_anonymous_object():
    s = create(1024)
    same(s.construct("i64", None, 5).handle, 144)
    same(s[handle(144)], 5)
    same(s.free, 832)


def names():
    s = create(1024)
    same(s.construct("i64", "a", 5).handle, 192)
    same(s.free, 784)
    same(s.info("a"), ("named", "a", "i64", 1, 192))
    same(s.find("i64", "a").handle, 192)
    raises(zaluxhoni.WrongKindError, s.find, "u8", "a")
    same(s.find("i64", "b"), None)
    raises(zaluxhoni.ExistsError, s.construct, "u8", "a", 1)
    same(s.find_or_construct("i64[3]", "a", 9).handle, 192)
    same(list(s.object("a")), [5])
    s = saved(s, "names")
    same(s["a"], 5)
    same(s.destroy("a"), True)
    same(s.destroy("a"), False)
    same(s.free, 832)


def index_and_object_do_not_both_fit():
    s = create(224)
    raises(zaluxhoni.NoSpaceError, s.construct, "i64", "a", 5)
    same(s.free, 80)
    same(s.construct("i64", None, 5).handle, 144)
    same(s.free, 32)


def arrays():
    s = create(1024)
    v = s.construct("i64[3]", "v", 7)
    same(v.handle, 192)
    same(list(v), [7, 7, 7])
    same(s.free, 768)
    raises(zaluxhoni.BadCountError, s.construct, "i64[3]", "w", [1, 2])
    raises(zaluxhoni.BadValueError, s.construct, "u8", "x", 300)
    v[1] = 300
    same(v[1], 300)
    same(s["v"][-2], 300)
    raises(zaluxhoni.OutOfRangeError, v.__getitem__, 3)
    raises(zaluxhoni.OutOfRangeError, v.__getitem__, -4)
    raises(zaluxhoni.WrongKindError, set_item, v, 0, True)
    s.construct("i32[2]", "w", [1, -2])
    same(s["w"], [1, -2])
    same(s["w"][:1], [1])
    s["w"][:] = [3, 4]
    same(s["w"], [3, 4])
    s["w"][:] = [1, -2]
    raises(zaluxhoni.BadCountError, set_item, s["w"], slice(0, 2), [1])
    raises(zaluxhoni.BadCountError, s.construct, "i64[1048577]", "x", 0)
    raises(zaluxhoni.BadCountError, s.construct, "i64[0]", "x", 0)
    s = saved(s, "arrays")
    same(s["v"], [7, 300, 7])


def the_only_object_of_its_kind():
    s = create(1024)
    same(s.construct("u64", unique("u64"), 9).handle, 192)
    raises(zaluxhoni.ExistsError, s.construct, "u64", unique("u64"), 1)
    raises(zaluxhoni.WrongKindError, s.find, "u8", unique("u64"))
    same(s.info(unique("u64")), ("unique", None, "u64", 1, 192))
    same(s.unique(), [("unique", None, "u64", 1, 192)])
    same(s[unique("u64")], 9)
    same(s.destroy(unique("u64")), True)
    same(s.num_unique, 0)
    same(s.all_deallocated(), False)
    s.shrink_indexes()
    same(s.all_deallocated(), True)


def places_reserved_in_the_indexes():
    s = create(1024)
    s.reserve_named(5)
    s.reserve_unique(1)
    same([s.construct("i64", name, 1).handle for name in "abcd"], [240, 288, 336, 384])
    same(s.named(), [("named", "a", "i64", 1, 240), ("named", "b", "i64", 1, 288), ("named", "c", "i64", 1, 336),
                     ("named", "d", "i64", 1, 384)])
    same(list(s), ["a", "b", "c", "d"])
    same(len(s), 4)
    s.shrink_indexes()
    same(s.free, 624)
    s.shrink_indexes()
    same(s.free, 640)


def best_fit():
    s = create(1024)
    same([s.construct("i64", None, 1).handle for _ in range(4)], [144, 192, 240, 288])
    same(s.destroy(handle(144)), True)
    same(s.destroy(handle(240)), True)
    same(s.construct("i64", None, 2).handle, 144)
    raises(zaluxhoni.NotFoundError, s.destroy, handle(240))


def storage_is_lengthened_then_replaced():
    s = create(1024)
    v = s.construct("vec<i64>", "v")
    same(v.handle, 192)
    for number in range(1, 6):
        v.append(number)
    same(s.free, 688)
    same((len(v), v.capacity), (5, 8))
    same(s.construct("i64", None, 9).handle, 336)
    for number in range(6, 10):
        v.append(number)
    same(s.tiles(), [(128, 48, "index"), (176, 64, "object"), (240, 80, "gap"), (320, 48, "object"),
                     (368, 144, "storage"),
                     (512, 496, "gap")])
    s = saved(s, "storage")
    same(list(s["v"]), [1, 2, 3, 4, 5, 6, 7, 8, 9])


def a_string_grows_and_shrinks():
    s = create(1024)
    text = s.construct("string", "s", "ab")
    same(text.handle, 192)
    text.append("cdefg")
    same((len(text), text.capacity), (7, 16))
    same(s.free, 736)
    text.trim()
    text += b"0123456789"
    same((len(text), text.capacity), (17, 17))
    same(s.free, 720)
    same(text[0], 97)
    text[0] = 65
    raises(zaluxhoni.OutOfRangeError, text.__getitem__, 17)
    raises(zaluxhoni.WrongKindError, s.vector, "s", "u8")
    same(bytes(text), b"Abcdefg0123456789")
    same(str(text), "Abcdefg0123456789")
    same(text == "Abcdefg0123456789", True)
    same(text[-3:], b"789")
    same(("g01" in text, 65 in text, list(text)[:2]), (True, True, [65, 98]))
    s = saved(s, "string")
    same(s["s"], "Abcdefg0123456789")
    text = s.string("s")
    text.clear()
    same(bytes(text), b"")
    text.trim()
    same(s.free, 768)
    raises(zaluxhoni.NoSpaceError, text.assign, "x" * 2000)
    raises(zaluxhoni.WrongKindError, text.assign, 5)
    text.assign(b"a\0\xff" * 100)
    s = saved(s, "longer")
    text = s.string("s")
    same(bytes(text), b"a\0\xff" * 100)
    same(str(text).encode("utf-8", "surrogateescape"), b"a\0\xff" * 100)
    text.reserve(400)
    same(text.capacity, 400)


def a_map():
    s = create(1024)
    m = s.construct("map<i64,i64>", "m")
    same(m.handle, 192)
    same(m.first(), None)
    for key in (4, 2, 6, 1, 3, 5, 7):
        same(m.put(key, 10 * key), True)
    same(m.erase(4), True)
    same(m.erase(4), False)
    s = saved(s, "map")
    m = s["m"]
    same(list(m.items()), [(1, 10), (2, 20), (3, 30), (5, 50), (6, 60), (7, 70)])
    same((list(m), list(m.values()), len(m)), ([1, 2, 3, 5, 6, 7], [10, 20, 30, 50, 60, 70], 6))
    same(m.next_after(3), (5, 50))
    same(m.next_after(7), None)
    same(s.free, 480)
    same(m.put(1, 11), False)
    same(m.get(4), None)
    raises(zaluxhoni.AbsentError, m.__getitem__, 4)
    raises(zaluxhoni.AbsentError, delete_item, m, 4)
    same((4 in m, 7 in m, 2**64 in m), (False, True, False))
    m[7] = 71
    del m[1]
    same(m == {2: 20, 3: 30, 5: 50, 6: 60, 7: 71}, True)
    raises(zaluxhoni.WrongKindError, s.map, "m", "i32", "i64")
    raises(zaluxhoni.WrongKindError, set_item, m, "7", 1)
    raises(zaluxhoni.WrongKindError, set_item, m, 7, 1.5)
    raises(zaluxhoni.OutOfRangeError, set_item, m, 2**63, 1)
    same(m.pop(7), 71)
    # what is changed while it is gone over is seen: it goes on with the next key above
    s.growing = True
    m.update({key: 0 for key in range(20)})
    seen = []
    for key, value in m.items():
        seen.append((key, value))
        if key == 8:
            del m[9]
            m[10], m[30] = 1, 2
    same(seen, [(key, key == 10) for key in range(20) if key != 9] + [(30, 2)])
    m.clear()
    same(len(m), 0)


def refusals_of_a_vector():
    s = create(1024)
    w = s.construct("vec<i32>", "w", [1, 2, 3])
    same(w.handle, 192)
    w.insert(1, 9)
    same((len(w), w.capacity), (4, 6))
    del w[0]
    same(w.pop(), 3)
    raises(zaluxhoni.OutOfRangeError, w.__getitem__, 5)
    raises(zaluxhoni.WrongKindError, set_item, w, 7, True)
    raises(zaluxhoni.OutOfRangeError, set_item, w, 0, 3000000000)
    raises(zaluxhoni.WrongKindError, s.string, "w")
    raises(zaluxhoni.NoSpaceError, w.reserve, 1000)
    same(list(w), [9, 2])
    w.assign([5, -6, 7, 8])
    same((w.pop(0), w.pop(-2), list(w)), (5, 7, [-6, 8]))
    w[1:] = [1, 2, 3]
    same((w[::2], w[-1]), ([-6, 2], 3))
    del w[::2]
    same(list(w), [1, 3])
    w.insert(100, 4)
    w.insert(-100, 0)
    same(w, [0, 1, 3, 4])
    w.reverse()
    same((w.index(3), 3 in w, w == [4, 3, 1, 0], w == [4, 3, 1]), (1, True, True, False))
    raises(zaluxhoni.OutOfRangeError, w.assign, [3000000000])
    raises(zaluxhoni.WrongKindError, w.assign, [True])
    raises(zaluxhoni.WrongKindError, w.append, "x")
    w.trim()
    same(w.capacity, 4)
    w.clear()
    same(list(w), [])
    raises(zaluxhoni.OutOfRangeError, w.pop)


def a_vector_of_strings():
    s = create(1024)
    v = s.construct("vec<string>", "v", ["a", "bc"])
    same(v.handle, 192)
    same(s.free, 656)
    v.append("def")
    same(s.free, 592)
    same(v.pop(), "def")
    same(s.free, 624)
    v[0] = ""
    raises(zaluxhoni.WrongKindError, set_item, v, 0, 5)
    raises(zaluxhoni.WrongKindError, v.assign, "abc")
    same(list(v), ["", "bc"])
    s = saved(s, "texts")
    v = s["v"]
    v.insert(0, "größer " * 50)
    same(v[0], "größer " * 50)
    s = saved(s, "longer-texts")
    v = s.strings("v")
    same(v.pop(0), "größer " * 50)
    v.assign(["x", b"\xff", "z"])
    same((len(v), v.capacity), (3, 3))
    same(v[1], "\udcff")
    s.encoding = None
    same(v[1:], [b"\xff", b"z"])
    del v[1]
    same(list(v), [b"x", b"z"])
    v.reserve(4)
    v.trim()
    v.clear()
    raises(zaluxhoni.OutOfRangeError, v.pop)
    raises(zaluxhoni.OutOfRangeError, v.__getitem__, 0)


# ---- what the examples leave out

def objects_found_or_made():
    s = create(4096)
    for kind, value, other in (("vec<u8>", [200], [7, 8]), ("string", "text", "other"), ("vec<string>", ["only"], []),
                               ("i32[2]", [1, 2], 3)):
        first = s.find_or_construct(kind, kind, value)
        same(s.find_or_construct(kind, kind, other).handle, first.handle)
    same(s["vec<u8>"], [200])
    same(s["string"] == "text", True)
    same(s["vec<string>"], ["only"])
    same(s["i32[2]"], [1, 2])
    first = s.find_or_construct("map<i32,bool>", "m", {7: True})
    same(s.find_or_construct("map<i32,bool>", "m", {8: False}).handle, first.handle)
    same(dict(s.construct("map<u8,u8>", None, {1: 2})), {1: 2})
    same(dict(s.map("m", "i32", "bool")), {7: True})
    raises(zaluxhoni.WrongKindError, s.find_or_construct, "map<i32,bool>", "string")
    s.vector("made", "bool").append(True)
    s.map("made too", "u8", "u64")[255] = 2**64 - 1
    s.strings("made as well").append("text")
    s.string("made at last").append("text")
    same(s["made"][0], True)
    same(s["made too"][255], 2**64 - 1)
    anonymous = s.construct("vec<i64>", None, [1, 2])
    s[handle(anonymous.handle)].append(3)
    same(list(anonymous), [1, 2, 3])
    saved(s, "found")


def every_kind_of_scalar():
    s = create(4096)
    for kind, least, most in (("u8", 0, 255), ("i32", -2**31, 2**31 - 1), ("i64", -2**63, 2**63 - 1),
                              ("u64", 0, 2**64 - 1)):
        for number in (least, most):
            s.construct(kind, kind, number)
            same(s[kind], number)
            s[kind] = least
            s[kind] = most
            same(s[kind], most)
            raises(zaluxhoni.OutOfRangeError, set_item, s, kind, least - 1)
            raises(zaluxhoni.OutOfRangeError, set_item, s, kind, most + 1)
            raises(zaluxhoni.WrongKindError, set_item, s, kind, True)
            s.vector("vector", kind).assign([least, most])
            same(list(s["vector"]), [least, most])
            del s[kind], s["vector"]
    s.construct("bool", "truth", True)
    same(s["truth"], True)
    raises(zaluxhoni.WrongKindError, set_item, s, "truth", 1)
    raises(zaluxhoni.BadValueError, s.construct, "bool", "other", 1)
    raises(zaluxhoni.BadValueError, s.construct, "i64", "other", True)


def many_at_once():
    s = create(65536, grow=True)
    a = s.construct("i64[3]", "a", [7, -8, 9])
    same(list(a), [7, -8, 9])
    same(a[1:], [-8, 9])
    same(a[::-2], [9, 7])
    same(a[3:], [])
    a[1:] = [20, 30]
    same(list(a), [7, 20, 30])
    a[::2] = [1, 2]
    same(list(a), [1, 20, 2])
    a[3:] = []
    raises(zaluxhoni.OutOfRangeError, set_item, a, slice(0, 2), [5, 2**63])
    raises(zaluxhoni.WrongKindError, set_item, a, slice(0, 2), [5, True])
    same(list(a), [1, 20, 2])
    same(s.find_or_construct("i64[3]", "a", [4, 5, 6])[:], [1, 20, 2])
    same(s.find_or_construct("i64[2]", "n", [4, 5])[:], [4, 5])
    for kind, some in (("bool", [True, False]), ("u8", [0, 255]), ("i32", [-2**31, 9]), ("u64", [2**64 - 1, 0])):
        same(s.construct(f"{kind}[2]", kind, some)[:], some)
        s[kind][:] = some[::-1]
        same(list(s[kind]), some[::-1])
    v = s.vector("v", "i64")
    v.assign(range(10000))
    same(list(v), list(range(10000)))
    same(v[9000:10], [])
    same(v[-2:], [9998, 9999])
    # what is changed while it is gone over is seen, as in a list
    for place, number in enumerate(v):
        if place == 100:
            break
        v[place + 1] = number + 2
    same(v[:102], [2 * place for place in range(101)] + [101])
    for number in v:
        v.clear()
    same(list(v), [])
    saved(s, "many")


def one_of_each():
    """One object of each kind, by the calls that every_call.c makes: all three programs save the same bytes."""
    s = create(4096)
    text = s.construct("string", None, b'a\0"b')
    s.construct("vec<u8>", None, [1, 2, 255])
    s.construct("i32[2]", None, [-2**31, 2**31 - 1])
    a = s.construct("i64[2]", "a", [7, -2])
    s.construct("u64", "largest", 2**64 - 1)
    truths = s.construct("bool[3]", "truths", [True, False, True])
    texts = s.construct("vec<string>", "two words", ["hello", "", "größer"])
    numbers = s.construct("vec<i64>", "numbers", [1, 2, 3])
    s.construct("u8", unique("u8"), 200)
    m = s.construct("map<i32,bool>", unique("map<i32,bool>"), {7: True, -7: False, 0: True})
    s.construct("i64[5]", "gone", 9)
    a[1] = 300
    numbers.append(4)
    numbers.insert(0, 9)
    del numbers[1]
    truths[1:] = [True, False]
    texts.append("last")
    texts[0] = "first"
    m[7] = False
    same(m.erase(0), True)
    text.append("!")
    del s["gone"]
    saved(s, "each")


def a_segment_as_a_dict():
    s = create(1024, grow=True)
    s["number"] = 5
    s["number"] += 1
    s["large"] = 2**63
    s["truth"] = True
    s["text"] = "text"
    s["text"] += " and more"
    s["numbers"] = [1, 2]
    s["truths"] = [True]
    s["texts"] = ["a", b"b"]
    s["pairs"] = {1: 10}
    same({name: s.info(name).kind for name in s},
         {"large": "u64", "number": "i64", "numbers": "vec<i64>", "pairs": "map<i64,i64>", "text": "string",
          "texts": "vec<string>",
          "truth": "bool", "truths": "vec<bool>"})
    same((s["number"], str(s["text"]), "text" in s, "other" in s), (6, "text and more", True, False))
    s["numbers"] = [3]
    s["pairs"] = {2: 20, 1: 11}
    s["text"] = b"bytes"
    same((list(s["numbers"]), dict(s["pairs"]), s["text"]), ([3], {1: 11, 2: 20}, "bytes"))
    raises(zaluxhoni.WrongKindError, set_item, s, "numbers", ["a"])
    raises(zaluxhoni.WrongKindError, set_item, s, "truths", range(3))
    raises(zaluxhoni.WrongKindError, set_item, s, "new", 1.5)
    raises(zaluxhoni.NotFoundError, s.__getitem__, "other")
    raises(zaluxhoni.NotFoundError, delete_item, s, "other")
    same(s.get("other", 7), 7)
    del s["numbers"]
    same("numbers" in s, False)
    saved(s, "dict")


def maps_are_made_whole():
    s = create(1024)
    many, free = {number: 0 for number in range(100)}, s.free
    raises(zaluxhoni.OutOfRangeError, set_item, s, "m", {1: 2**64})
    raises(zaluxhoni.OutOfRangeError, set_item, s, "m", {1: 10, -2**63 - 1: 20})
    raises(zaluxhoni.WrongKindError, set_item, s, "m", {1: True, 2: 3})
    raises(zaluxhoni.WrongKindError, s.construct, "map<i32,bool>", "m", {1: True, 2: 0})
    raises(zaluxhoni.OutOfRangeError, s.find_or_construct, "map<u8,i64>", unique("map<u8,i64>"), {1: 2, 256: 3})
    raises(zaluxhoni.NoSpaceError, s.construct, "map<i64,i64>", None, many)
    same((len(s), s.num_unique, s.free), (0, 0, free))
    raises(zaluxhoni.NoSpaceError, s.find_or_construct, "map<i64,i64>", "m", many)
    same((list(s), [tile for tile in s.tiles() if tile.use in ("object", "node")]), ([], []))
    # of one that is there nothing is changed by pairs that are outside it, and it stays where it is asked for
    s["m"] = {1: 10, 2: 20}
    raises(zaluxhoni.OutOfRangeError, set_item, s, "m", {3: 30, 4: 2**63})
    raises(zaluxhoni.WrongKindError, set_item, s, "m", {3: True})
    same(dict(s.find_or_construct("map<i64,i64>", "m", many)), {1: 10, 2: 20})
    raises(zaluxhoni.ExistsError, s.construct, "map<i64,i64>", "m", {1: 11})
    same(dict(s["m"]), {1: 10, 2: 20})


def size_and_region():
    s = create(208)
    raises(zaluxhoni.NoSpaceError, s.construct, "i64[100]", "numbers", 0)
    raises(zaluxhoni.BadGrowthError, s.grow, 33)
    raises(zaluxhoni.TooLargeError, s.grow, 1073741824)
    s.grow(1024)
    s.construct("i64[100]", "numbers", 0)
    s.shrink()
    same(s.size, 1040)
    raises(zaluxhoni.ShortRegionError, s.relocate, 1024)
    raises(zaluxhoni.BadSizeError, s.relocate, 1030)
    s.relocate(2048)
    same(s.region_left, 1008)
    s.zero_free()
    same(s.sanity(), True)
    s.growing = True
    s.vector("v", "i64").extend(range(1000))
    same(s["v"][999], 999)
    before = s.size
    raises(zaluxhoni.TooLargeError, s["v"].reserve, 2**40)
    same(s.size, before)
    saved(s, "grown")


def calls_of_c():
    """The calls that Python has no names of its own for."""
    made = create(1024)
    made["a/1"] = 5
    image = made.image()
    made.discard()
    library = zaluxhoni._library
    room = ctypes.create_string_buffer(image, len(image))
    zx, handle = library.zx, library.Handle()
    memory, place = library.Memory(ctypes.addressof(room), len(image)), ctypes.c_uint64(7)
    same(zx.zx_attach_explained(handle, memory, 1008, 0, place), zaluxhoni.TruncatedError.code)
    same(place.value, 1008)
    same(zx.zx_attach(handle, memory, len(image), 0), 0)
    key, there, index = library.Key(0, 0, 0, b"a/1", 3), library.Elements(), ctypes.c_uint64(7)
    same(zx.zx_view(handle, key, there), 0)
    same(ctypes.c_int64.from_buffer(room, there.offset).value, 5)
    same(there.at, ctypes.addressof(room) + there.offset)
    before = library.Handle()
    same(zx.zx_begin(handle, before), 0)
    same(zx.zx_view_mut(handle, key, there), 0)
    ctypes.c_int64.from_address(there.at).value = 6
    same(zx.zx_rollback(handle, before), 0)
    same(zx.zx_file_rollback(library.File(), before), zaluxhoni.ClosedError.code)
    same(zx.zx_file_leave(library.File(), library.Step()), None)
    same(zx.zx_version(), 900)
    same(zaluxhoni.__version__, "0.9.0")
    same(zaluxhoni.state(), zx.zx_state().decode())
    same(zx.zx_message(zaluxhoni.NoSpaceError.code), b"no space")
    text = library.Text()
    zx.zx_words(zaluxhoni.NoSpaceError.code, text)
    same(ctypes.string_at(text.at, text.len), b"no space")
    zx.zx_file_words(zaluxhoni.NoSpaceError.code, text)
    same(ctypes.string_at(text.at, text.len), b"no space")
    same(ctypes.c_int64.from_buffer(room, there.offset).value, 5)
    same(zx.zx_named_from(handle, b"a/", 2, index), 0)
    same(index.value, 0)
    told, name = library.Info(), ctypes.create_string_buffer(255)
    same(zx.zx_named_at(handle, 0, told, name, 255), 0)
    same(name.raw[:told.name_len], b"a/1")
    same(zx.zx_detach(handle, memory), 0)
    same(memory.at, ctypes.addressof(room))


def what_shows_a_class():
    """The byte that shows each class, in the image of two vectors."""
    s = create(1024)
    s.construct("vec<i64>", "a", [1, 2, 3])
    s.construct("vec<i64>", "b", [1])
    image, at, other = s.image(), s.info("a").handle, s.info("b").handle
    path = path_of("shown")

    def word(place):
        return int.from_bytes(image[place:place + 8], "little")

    def changed(place, *words):
        made = b"".join(each.to_bytes(8, "little") for each in words)
        return image[:place] + made + image[place + len(made):]

    first, second = at + 24 + word(at + 24), other + 24 + word(other + 24)
    for error, bad, place in (
            (zaluxhoni.TruncatedError, image[:1008], 1008),
            (zaluxhoni.BadMagicError, changed(0, word(0) ^ 1 << 24), 3),
            (zaluxhoni.UnsupportedVersionError, changed(8, 9), 8),
            (zaluxhoni.BadImageSizeError, changed(16, 1025), 16),
            (zaluxhoni.BadImageSizeError, image + bytes(8), 1024),
            (zaluxhoni.BadReservedError, changed(88, 1), 88),
            (zaluxhoni.BadTagError, changed(128, 16), 128),
            (zaluxhoni.BadFreeTreeError, changed(24, 1), 24),
            (zaluxhoni.BadIndexError, changed(40, 99), 40),
            (zaluxhoni.BadObjectError, changed(at, 99), at),
            (zaluxhoni.SharedBlockError, changed(other + 24, first - (other + 24) & 2 ** 64 - 1), other + 24),
            (zaluxhoni.BadContainerError, changed(at + 32, 99), at),
            (zaluxhoni.OrphanBlockError, changed(other + 24, 1, 0, 0), second)):
        with open(path, "wb") as file:
            file.write(bad)
        for call, *arguments in ((zaluxhoni.check, bad), (zaluxhoni.load, bad), (zaluxhoni.open, path, "r"),
                                 (zaluxhoni.open, path, "w")):
            try:
                call(*arguments)
            except zaluxhoni.BadImageError as refused:
                same(type(refused), error)
                same(refused.place, place)
            else:
                fails(f"no {error.__name__}")
    os.unlink(path)


def what_is_refused():
    s = create(1024)
    image = s.image()
    raises(zaluxhoni.BadSizeError, zaluxhoni.create, 160)
    raises(zaluxhoni.OutOfRangeError, zaluxhoni.create, -1)
    raises(zaluxhoni.ShortRegionError, zaluxhoni.load, image, capacity=1008)
    raises(zaluxhoni.BadSizeError, zaluxhoni.load, image, capacity=1025)
    raises(zaluxhoni.BadModeError, zaluxhoni.load, image, "c")
    raises(zaluxhoni.TruncatedError, zaluxhoni.load, image[:512])
    raises(zaluxhoni.TruncatedError, zaluxhoni.load, b"")
    raises(zaluxhoni.TruncatedError, zaluxhoni.check, image[:512])
    raises(zaluxhoni.BadMagicError, zaluxhoni.check, b"x" + image[1:])
    same(issubclass(zaluxhoni.BadMagicError, zaluxhoni.BadImageError), True)
    same(zaluxhoni.BadImageError.place, None)
    raises(zaluxhoni.BadNameError, s.construct, "i64", "", 1)
    raises(zaluxhoni.BadNameError, s.construct, "i64", b"\xff", 1)
    raises(zaluxhoni.BadNameError, s.construct, "i64", "\udcff", 1)
    raises(zaluxhoni.BadNameError, s.construct, "i64", "n" * 256, 1)
    raises(zaluxhoni.BadKeyError, s.construct, "i64", 5, 1)
    raises(zaluxhoni.BadKeyError, s.construct, "i64", handle(144), 1)
    raises(zaluxhoni.BadKeyError, s.info, None)
    raises(zaluxhoni.BadKindError, s.construct, "i64", unique("u8"), 1)
    raises(zaluxhoni.BadKindError, s.construct, "vec<i64>[3]", "a")
    raises(zaluxhoni.BadKindError, s.construct, "f64", "a", 1)
    raises(zaluxhoni.NotFoundError, s.info, "a")
    for error, base in ((zaluxhoni.NotFoundError, KeyError), (zaluxhoni.AbsentError, KeyError),
                        (zaluxhoni.OutOfRangeError, IndexError),
                        (zaluxhoni.OutOfRangeError, OverflowError), (zaluxhoni.NoSpaceError, MemoryError),
                        (zaluxhoni.WrongKindError, TypeError),
                        (zaluxhoni.ReadOnlyError, PermissionError), (zaluxhoni.ExistsError, ValueError),
                        (zaluxhoni.TruncatedError, ValueError)):
        same((issubclass(error, base), issubclass(error, zaluxhoni.Error)), (True, True))
    same(str(zaluxhoni.ReadOnlyError()), "read only")
    same(str(zaluxhoni.NotFoundError()), "not found")
    s.discard()
    raises(zaluxhoni.ClosedError, s.construct, "i64", "a", 1)
    raises(zaluxhoni.ClosedError, lambda: s.size)


def one_thread():
    s = create(1024)
    errors = []

    def use():
        try:
            s["a"] = 5
        except zaluxhoni.Error as error:
            errors.append(type(error))

    thread = threading.Thread(target=use)
    thread.start()
    thread.join()
    same(errors, [zaluxhoni.WrongThreadError])
    same(len(s), 0)


# ---- what a user of Python expects

def values_of_one_kind_alone():
    """What is assigned by a name is what the object is: neither the keys of a dict, nor a set, nor a byte."""
    s = create(4096)
    s["n"], s["v"], s["t"], s["m"], s["text"] = 5, [1, 2], ["a"], {1: 2}, "x"
    s.construct("vec<u8>", "bytes", [1])
    for name, refused in (("n", b"A"), ("n", "A"), ("n", {5: 6}), ("n", {5}), ("n", 5.0), ("n", None), ("n", [6]),
                          ("v", {7: 8}),
                          ("v", {1, 2}),
                          ("v", b"ab"), ("v", "ab"), ("v", 5), ("v", ["a"]), ("t", {"a": 1}), ("t", {"a"}),
                          ("t", "ab"), ("t", 5),
                          ("t", [1]), ("m", [(1, 2)]), ("m", [1]), ("m", 5), ("m", "ab"), ("text", 5), ("text", ["a"]),
                          ("text", {1: 2}),
                          ("new", {1, 2}), ("new", iter([1])), ("new", None), ("new", [1.5]), ("new", {"a": 1}),
                          ("bytes", "ab")):
        raises(zaluxhoni.WrongKindError, set_item, s, name, refused)
    same(all_of(s), {"bytes": [1], "m": {1: 2}, "n": 5, "t": ["a"], "text": "x", "v": [1, 2]})
    s["bytes"] = b"ab"
    s["n"] = 6
    s["v"] = (3, 4)
    s["text"] = bytearray(b"y")
    same(all_of(s), {"bytes": [97, 98], "m": {1: 2}, "n": 6, "t": ["a"], "text": "y", "v": [3, 4]})
    # an object of a segment is copied with its kind
    s["copy"], s["map"], s["array"] = s["bytes"], s["m"], s.construct("i32[2]", None, [1, 2])
    same([s.info(name).kind for name in ("copy", "map", "array")], ["vec<u8>", "map<i64,i64>", "i32"])
    same(list(s["array"]), [1, 2])


def all_of(mapping):
    return {name: value.copy() if isinstance(value, zaluxhoni.Object) else value for name, value in mapping.items()}


def a_mapping_as_dict_is_one():
    s = create(4096)
    s["v"], s["t"], s["n"], s["text"], s["m"] = [1, 2], ["a"], 5, "x", {1: 2}
    same((s.pop("v"), s.pop("t"), s.pop("n"), s.pop("text"), s.pop("m"), s.pop("m", 7)),
         ([1, 2], ["a"], 5, "x", {1: 2}, 7))
    raises(zaluxhoni.NotFoundError, s.pop, "v")
    s.setdefault("q", []).append(1)
    s.setdefault("q", []).append(2)
    same(list(s["q"]), [1, 2])
    same((5 in s, None in s, "" in s, s.get(5), s.get(""), s.get("n" * 256, 8)), (False, False, False, None, None, 8))
    raises(zaluxhoni.NotFoundError, lambda: s[5])
    raises(zaluxhoni.NotFoundError, delete_item, s, 5)
    raises(zaluxhoni.BadKeyError, set_item, s, 5, 1)
    raises(zaluxhoni.BadNameError, set_item, s, "", 1)
    same(s.popitem(), ("q", [1, 2]))
    raises(zaluxhoni.NotFoundError, s.popitem)
    raises(zaluxhoni.WrongKindError, s.update, 5)
    m = s.map("m", "i32", "i64")
    m[1] = 10
    same(("a" in m, m.get("a"), m.get("a", 3), None in m, 1.5 in m, True in m, 2**31 in m),
         (False, None, 3, False, False, False, False))
    for key in ("a", None, 2**31, 1.5, True):
        raises(zaluxhoni.AbsentError, m.__getitem__, key)
        raises(zaluxhoni.AbsentError, delete_item, m, key)
        raises(zaluxhoni.AbsentError, m.pop, key)
    raises(zaluxhoni.WrongKindError, m.update, 5)
    raises(zaluxhoni.WrongKindError, m.update, {2: 20, "a": 1})
    raises(zaluxhoni.OutOfRangeError, m.update, {2: 20, 3: 2**63})
    same(dict(m), {1: 10})
    m |= {2: 20}
    same((m | {3: 30}, {0: 0} | m, list(reversed(m)), m.popitem(), len(m)),
         ({1: 10, 2: 20, 3: 30}, {0: 0, 1: 10, 2: 20}, [2, 1], (1, 10), 1))
    # texts are those of Python
    s["text"] = "one two"
    same((s["text"].upper(), s["text"].split(), f"{s.string('text'):>8}"), ("ONE TWO", ["one", "two"], " one two"))
    same((json.dumps(s["text"]), json.dumps(s["m"].copy())), ('"one two"', '{"2": 20}'))


def refusals_have_names():
    """Each error derives from Error, and tells which object it is about."""
    s = create(1024)
    v, m, t, n = s.vector("numbers", "i32"), s.map("pairs", "i32", "i64"), s.strings("texts"), s.construct("i64",
                                                                                                           "one", 5)
    text, reader = s.string("text"), zaluxhoni.load(s.image(), "r")
    gone = s.construct("vec<i64>", "gone")
    gone.destroy()
    for name, call in (
            ("missing", lambda: s["missing"]), ("missing", lambda: s.object("missing")), ("missing",
                                                                                          lambda: s.info("missing")),
            ("missing", lambda: delete_item(s, "missing")), ("missing", lambda: s.pop("missing")), ("gone",
                                                                                                    lambda: gone[0]),
            ("gone", lambda: len(gone)), ("gone", lambda: gone.append(1)),
            ("numbers", lambda: s.find("i64", "numbers")),
            ("numbers", lambda: s.map("numbers")), ("one", lambda: s.construct("u8", "one", 1)),
            ("one", lambda: s.string("one")),
            ("numbers", lambda: v[0]), ("numbers", lambda: v[-1]), ("numbers", lambda: v.pop()),
            ("numbers", lambda: v.append(2**31)),
            ("numbers", lambda: v.append("x")), ("numbers", lambda: v.append(True)),
            ("numbers", lambda: v.extend([1, "x"])),
            ("numbers", lambda: v.assign(5)), ("numbers", lambda: v.remove(7)), ("numbers", lambda: v.index(7)),
            ("numbers", lambda: v.reserve(10**6)), ("numbers", lambda: set_item(v, slice(0, 0, 2), [1])),
            ("pairs", lambda: m[4]),
            ("pairs", lambda: m.put(4, True)), ("pairs", lambda: m.put("x", 1)), ("pairs", lambda: m.update({1: "x"})),
            ("pairs", lambda: m.pop(4)), ("pairs", lambda: m.popitem()), ("texts", lambda: t.append(5)),
            ("texts", lambda: t[3]),
            ("texts", lambda: t.assign("x")), ("texts", lambda: t.extend([1])), ("texts", lambda: t.append("x" * 2000)),
            ("text", lambda: text.assign(5)), ("text", lambda: text[3]), ("text", lambda: set_item(text, 0, 1)),
            ("one", lambda: set_item(n, 0, "x")), ("one", lambda: set_item(s, "one", 2**63)), ("one", lambda: n[5]),
            ("numbers", lambda: set_item(reader, "numbers", [1])), ("new", lambda: set_item(reader, "new", 1)),
            ("numbers", lambda: reader["numbers"].append(1)), ("new", lambda: set_item(s, "new", 1.5)),
            ("new", lambda: s.construct("i64", "new", 2**63)), ("new", lambda: s.construct("vec<i64>", "new", 5)),
            ("new", lambda: s.construct("i64[2]", "new", 5.0)), ("new", lambda: s.construct("i64[2000]", "new", 5)),
            ("new", lambda: s.construct("i64[2]", "new", [1])), ("new", lambda: s.construct("string", "new",
                                                                                            "\ud800"))):
        try:
            call()
        except zaluxhoni.Error as error:
            same(repr(name) in str(error), True)
            if repr(name) not in str(error):
                print(f"  {type(error).__name__}: {error}, without {name!r}")
        except Exception as error:
            fails(f"a bare {type(error).__name__}: {error}")
        else:
            fails(f"no error about {name!r}")
    for call in (lambda: v["a"], lambda: v[1.5], lambda: v[:"a"], lambda: v[::0], lambda: t["a"], lambda: text[:"a"],
                 lambda: text["a"],
                 lambda: set_item(v, "a", 1), lambda: delete_item(v, "a"), lambda: v.insert("a", 1),
                 lambda: v.extend(5), lambda: v * "a",
                 lambda: create("a"), lambda: create(None), lambda: zaluxhoni.open(5),
                 lambda: zaluxhoni.open("a", 5),
                 lambda: zaluxhoni.open("a", []), lambda: zaluxhoni.load(5), lambda: zaluxhoni.load(b"", None),
                 lambda: create(1024, encoding="none such"), lambda: s.grow("a"), lambda: s.construct(5, "a"),
                 lambda: s.vector("a", 5), lambda: s.group(5), lambda: unique(5), lambda: handle("a"),
                 lambda: s.find(None, "a"),
                 lambda: s.find("i64", 5), lambda: s.info(5), lambda: s.destroy(5), lambda: m.update({}, {}),
                 lambda: m.next_after("a"),
                 lambda: s.records("numbers", "d"), lambda: s.records("r", "none such"), lambda: s.records("r", int)):
        try:
            call()
        except zaluxhoni.Error:
            same(True, True)
        except Exception as error:
            fails(f"a bare {type(error).__name__}: {error}, line {call.__code__.co_firstlineno}")
        else:
            fails(f"no error, line {call.__code__.co_firstlineno}")


def copies():
    s = create(1024)
    s["v"], s["t"], s["m"], s["x"] = [1, 2], ["a"], {1: 2}, "text"
    for name, value in (("v", [1, 2]), ("t", ["a"]), ("m", {1: 2})):
        for copied in (copy.copy(s[name]), copy.deepcopy(s[name]), pickle.loads(pickle.dumps(s[name])), s[name].copy()):
            same(copied, value)
            same(type(copied) in (list, dict), True)
    same(copy.copy(s.string("x")), "text")
    s.construct("i32[2]", "a", [3, 4])
    same(copy.copy(s["a"]), [3, 4])
    # records are a list too, and no other way to the same bytes
    doubles, points, pairs = s.records("d", "d"), s.records("p", Point), s.records("q", "<hI")
    doubles.extend([1.0, 2.0])
    points.append((1.5, 2.5, 3))
    pairs.append((1, 2))
    for records_of, value in ((doubles, [1.0, 2.0]), (pairs, [(1, 2)])):
        for copied in (copy.copy(records_of), copy.deepcopy(records_of), pickle.loads(pickle.dumps(records_of)),
                       records_of.copy()):
            same((copied, type(copied)), (value, list))
            copied.append(0)
            same(list(records_of), value)
    same([(point.x, point.name) for point in pickle.loads(pickle.dumps(points))], [(1.5, 3)])
    # what is the segment itself is refused, in words of this package
    for refused in (s, s.group("g/"), s.transaction()):
        for call in (copy.copy, copy.deepcopy, pickle.dumps):
            try:
                call(refused)
            except TypeError as error:
                same((type(error), "not copied" in str(error)), (zaluxhoni.WrongKindError, True))
            else:
                fails("no error")
    same(s.is_open, True)


def a_list_as_list_is_one():
    s = create(4096)
    v, free = s.vector("v", "i64"), s.free
    v.extend(range(5))
    # all of it or nothing
    raises(zaluxhoni.OutOfRangeError, v.extend, [1, 2**63])
    raises(zaluxhoni.NoSpaceError, v.extend, range(10**4))
    same((list(v), v.capacity), ([0, 1, 2, 3, 4], 5))
    t = s.strings("t")
    t.extend(["a", "b"])
    raises(zaluxhoni.NoSpaceError, t.extend, ["c", "d" * 10**4])
    raises(zaluxhoni.WrongKindError, t.extend, ["c", 5])
    same(list(t), ["a", "b"])
    # few behind many: places double, so that each is moved a few times
    many, moved = s.construct("vec<u8>", "many", [0] * 100), 0
    for number in range(200):
        before = many.capacity
        many.extend([number])
        moved += many.capacity != before
    same((len(many), moved < 4), (300, True))
    v.sort(reverse=True)
    v += [7]
    v *= 2
    same((v, v[::-3], v.count(7), [9] + v[:1], v[:1] + [9], v > [4, 3]), ([4, 3, 2, 1, 0, 7] * 2, [7, 2, 7, 2], 2,
                                                                          [9, 4], [4, 9], True))
    raises(zaluxhoni.NoElementError, v.remove, 9)
    raises(zaluxhoni.NoElementError, v.index, 4, 1, 6)
    same(v.index(4, 1), 6)
    s.discard()


# ---- threads

def on_a_thread(call):
    """What a call answers, or the name of its error, on a thread of its own."""
    answers = []
    thread = threading.Thread(target=lambda: answers.append(name_of_error(call)))
    thread.start()
    thread.join()
    return answers[0]


def threads_that_follow_each_other():
    """A thread that has the ident of the one that opened the segment, and is another one."""
    opened, idents = [], []

    def opens():
        idents.append(threading.get_ident())
        s = create(1024)
        s["v"], s["m"] = [1], {1: 2}
        opened.append((s, s["v"], s["m"]))

    on_a_thread(opens)
    s, v, m = opened[0]
    calls = (lambda: s.size, lambda: v[0], lambda: m[1], lambda: v.append(1), lambda: set_item(m, 1, 3),
             lambda: set_item(v, 0, 3),
             lambda: len(v), lambda: list(m), lambda: s.discard(), lambda: s.save())
    for _ in range(100):
        same(on_a_thread(lambda: (idents.append(threading.get_ident()), [name_of_error(call) for call in calls])[1]),
             ["WrongThreadError"] * len(calls))
        if idents[-1] == idents[0]:
            break
    same([name_of_error(call) for call in calls], ["WrongThreadError"] * len(calls))


def one_segment_of_many_threads():
    path = new("threads")
    with zaluxhoni.open(path, "x", size=4096, grow=True, check_same_thread=False) as s:
        s["n"] = 0
        s["m"], s["v"], s["t"] = {0: 0}, [0], ["a"]
        m, v, t, group = s["m"], s["v"], s["t"], s.group("g/")

        def works(own):
            for number in range(300):
                with s.transaction():
                    s["n"] += 1
                m.setdefault(number, number)
                m[1000 + own] = m.get(1000 + own, 0) + 1
                v.append(own)
                t.append(f"{own}")
                group[f"{own}/{number % 5}"] = number
                list(v), list(m.items()), list(group), v.index(own), s.pop(f"own {own}", None)
                s[f"own {own}"] = [number]

        threads = [threading.Thread(target=works, args=(own,)) for own in range(4)]
        for thread in threads:
            thread.start()
        for thread in threads:
            thread.join()
        same((s["n"], len(v), len(t), s.sanity()), (1200, 1201, 1201, True))
        same([m[1000 + own] for own in range(4)], [300] * 4)
        same([v.count(own) for own in range(1, 4)], [300] * 3)
        same((len(group), type(v).__name__, isinstance(v, zaluxhoni.Vector)), (20, "Vector", True))
    with zaluxhoni.open(path, "r") as s:
        same(s["n"], 1200)


# ---- groups, transactions, records

def groups():
    s = create(8192)
    prices = s.group("prices/")
    same((len(prices), list(prices), prices.get("a"), "a" in prices, 5 in prices), (0, [], None, False, False))
    prices["apples"], prices["pears"] = 250, {1: 2}
    prices.map("old", "i32", "i64")[7] = 8
    prices.group("of/").strings("kinds").append("red")
    s["prices"], s["prices0"], s["pric"], s["prices/"], s["q"] = 1, 2, 3, 4, 5
    same(list(prices), ["", "apples", "of/kinds", "old", "pears"])
    same((len(prices), prices["apples"], s["prices/apples"], prices[""]), (5, 250, 250, 4))
    same([info.name for info in prices.named()], ["prices/", "prices/apples", "prices/of/kinds", "prices/old",
                                                  "prices/pears"])
    same(all_of(prices), {"": 4, "apples": 250, "of/kinds": ["red"], "old": {7: 8}, "pears": {1: 2}})
    same(prices.group("of/").named()[0].name, "prices/of/kinds")
    same((prices.pop("apples"), prices.popitem(), len(prices)), (250, ("", 4), 3))
    raises(zaluxhoni.NotFoundError, lambda: prices["apples"])
    raises(zaluxhoni.BadKeyError, set_item, prices, 5, 1)
    raises(zaluxhoni.BadKeyError, prices.construct, "u8", unique("u8"), 1)
    raises(zaluxhoni.BadKeyError, prices.construct, "u8", None, 1)
    # what is made and destroyed while it is gone over is seen, or not, by its name
    seen = []
    for name in prices:
        seen.append(name)
        if name == "of/kinds":
            del prices["old"]
            prices["peaches"] = 1
    same(seen, ["of/kinds", "peaches", "pears"])
    prices.clear()
    same(list(s), ["pric", "prices", "prices0", "q"])
    # the last names that there are, and those behind them
    s["\U0010ffff"], s["\U0010ffffa"] = 1, 2
    same((list(s.group("\U0010ffff")), len(s.group("\U0010ffff")), len(s.group(""))), (["", "a"], 2, 6))


def transactions():
    s = create(1024, grow=True)
    s["a"], s["v"] = 1, [1]
    before, v = s.image(), s["v"]
    try:
        with s.transaction() as same_segment:
            same(same_segment is s, True)
            s["a"] = 2
            v.extend(range(1000))
            s["b"] = "text"
            with s.transaction():
                del s["a"]
            raise KeyError("gone")
    except KeyError as error:
        same(str(error), "'gone'")
    same((s.image() == before, s["a"], list(v)), (True, 1, [1]))
    with s.transaction():
        s["a"] = 3
        try:
            with s.transaction():
                s["a"] = 4
                raise ValueError
        except ValueError:
            pass
        same(s["a"], 3)
        v.append(2)
    same((s["a"], list(v)), (3, [1, 2]))
    path = new("transaction")
    with zaluxhoni.open(path, "x", size=1024) as s:
        s["a"] = 1
        s.save()
        try:
            with s.transaction():
                s["a"] = 2
                raise KeyError
        except KeyError:
            pass
        same((s["a"], s.mode), (1, "write"))
        s["b"] = 2
    with zaluxhoni.open(path, "p") as s:
        try:
            with s.transaction():
                s["a"] = 2
                raise KeyError
        except KeyError:
            pass
        same((all_of(s), s.mode), ({"a": 1, "b": 2}, "copy on write"))
    with zaluxhoni.open(path, "r") as s:
        with s.transaction():
            same(s["a"], 1)
    raises(zaluxhoni.ClosedError, s.transaction().__enter__)


class Point(ctypes.Structure):
    _fields_ = [("x", ctypes.c_double), ("y", ctypes.c_double), ("name", ctypes.c_int16)]


def records():
    s = create(4096)
    doubles = s.records("doubles", "d")
    doubles.extend([1.5, -2.5])
    doubles.append(3.5)
    doubles.insert(0, 0.25)
    doubles[1] = 1.75
    same((list(doubles), doubles[-1], doubles[1:3], len(doubles), len(s["doubles"])),
         ([0.25, 1.75, -2.5, 3.5], 3.5, [1.75, -2.5], 4, 32))
    del doubles[0]
    doubles[1:1] = [9.0, 8.0]
    del doubles[::2]
    same((list(doubles), doubles.index(-2.5), doubles.pop(), 8.5 in doubles), ([9.0, -2.5], 1, -2.5, False))
    doubles.assign([])
    same((list(doubles), doubles == []), ([], True))
    raises(zaluxhoni.WrongKindError, doubles.append, "x")
    raises(zaluxhoni.OutOfRangeError, lambda: doubles[0])
    pairs = s.records("pairs", "<hI")
    pairs.assign([(-1, 2), (3, 4)])
    same((list(pairs), bytes(s["pairs"][:6])), ([(-1, 2), (3, 4)], b"\xff\xff\2\0\0\0"))
    raises(zaluxhoni.WrongKindError, pairs.append, (1, 2, 3))
    raises(zaluxhoni.WrongKindError, pairs.append, (2**15, 2))
    points = s.records("points", Point)
    points.append(Point(1.5, 2.5, 3))
    points.append((4.5, 5.5, 6))
    same([(point.x, point.y, point.name) for point in points], [(1.5, 2.5, 3), (4.5, 5.5, 6)])
    same(len(s["points"]), 48)
    # an array of bytes is records too, whose number stays
    s.construct("u8[24]", "origin", bytes(Point(7, 8, 9)))
    origin = s.records("origin", Point)
    origin[0] = Point(origin[0].x + 1, 8, 9)
    same((origin[0].x, len(origin)), (8.0, 1))
    raises(zaluxhoni.WrongKindError, origin.append, Point())
    raises(zaluxhoni.BadCountError, len, s.records("origin", "5s"))
    raises(zaluxhoni.WrongKindError, s.records, "origin2", int)


def views():
    """Elements where they stand."""
    s = create(4096, grow=True)
    s["v"], s["n"], s["other"] = [1, 2, 3], 5, [7]
    text, v = s.string("text"), s["v"]
    text.assign("abc")
    view = v.view()
    same((view.tolist(), view.format, view.readonly, view.nbytes), ([1, 2, 3], "q", False, 24))
    view[1] = 20
    v[0] = 10
    v[2:] = [30]
    s["n"] = 6
    s["new"] = "text"
    s["other"].extend(range(20))
    same((view.tolist(), list(v)), ([10, 20, 30], [10, 20, 30]))
    # what would move the elements, or their segment, is refused while they are lent
    for call in (lambda: v.append(1), lambda: v.pop(), lambda: v.clear(), lambda: v.extend([1]), lambda: v.assign([1]),
                 lambda: v.insert(0, 1),
                 lambda: v.reserve(100), lambda: v.trim(), lambda: v.__delitem__(0), lambda: s.__delitem__("v"),
                 lambda: s.destroy("v"),
                 lambda: s.pop("v"), lambda: s.object(handle(v.handle)).append(1), lambda: set_item(s, "v", [1]),
                 lambda: s.grow(64), lambda: s.shrink(), lambda: s.relocate(2**20),
                 lambda: s["other"].extend(range(2000))):
        raises(zaluxhoni.LentError, call)
    same((view.tolist(), "v" in s), ([10, 20, 30], True))
    del view
    v.append(40)
    with v.view() as view:
        part = view[1:3]
    raises_bare(ValueError, lambda: view[0])
    raises(zaluxhoni.LentError, v.append, 1)
    part.release()
    v.append(50)
    same((bytes(text.view()), text.view().format, v.view().tolist()), (b"abc", "B", [10, 20, 30, 40, 50]))
    for kind, some in (("bool", [True, False]), ("u8", [1, 255]), ("i32", [-1, 2**31 - 1]), ("u64", [1, 2**64 - 1])):
        for made in (s.construct(f"vec<{kind}>", None, some), s.construct(f"{kind}[2]", None, some)):
            same(made.view().tolist(), some)
    same(s.vector("empty", "i64").view().tolist(), [])
    reader = zaluxhoni.load(s.image(), "r")
    view = reader["v"].view()
    same((view.readonly, view.tolist()), (True, [10, 20, 30, 40, 50]))
    # a segment that is closed, or rolled back, leaves them their memory
    view = v.view()
    try:
        with s.transaction():
            s["n"] = 8
            raise KeyError
    except KeyError:
        pass
    same((s["n"], view.tolist()), (6, [10, 20, 30, 40, 50]))
    view[0] = 11
    same(v[0], 10)
    v.append(60)
    path = new("views")
    with zaluxhoni.open(path, "x", size=1024) as s:
        s["v"] = [1, 2]
        s.save()
        view = s["v"].view()
        view[0] = 5
    view[1] = 6
    del s, v, reader
    gc.collect()
    same(view.tolist(), [5, 6])
    with zaluxhoni.open(path, "w") as s:
        same(s["v"].copy(), [5, 2])
        view = s["v"].view()
        s.save()
        view[0] = 7
        s["n"] = 1
        s.save()
        view[1] = 8
        del view
    with zaluxhoni.open(path, "r") as s:
        same(s["v"].copy(), [7, 8])
        view = s["v"].view()
    with create(4096, check_same_thread=False) as s:
        s["v"] = [1, 2]
        view = s["v"].view()
        same(on_a_thread(lambda: name_of_error(lambda: s["v"].append(3))), "LentError")
        same(on_a_thread(lambda: view.tolist()), [1, 2])
        view = None
        same(on_a_thread(lambda: s["v"].append(3)), None)
        same(s["v"].copy(), [1, 2, 3])
    # of a file that is mapped too, whose elements they do not change any more
    for mode, end, named in (("w", "close", {"mapped": True}), ("w", "discard", {"mapped": True}),
                             ("r", "close", {"mapped": True}), ("p", "discard", {"mapped": True}),
                             ("w", "close", {"durable": True}), ("w", "discard", {"durable": True})):
        with zaluxhoni.open(path, "w") as s:
            s["v"], s["long"] = [7, 8], range(2000)
        s = zaluxhoni.open(path, mode, **named)
        view, long = s["v"].view(), s["long"].view()
        if mode != "r":
            view[0] = 9
        getattr(s, end)()
        same((s.is_open, view.tolist(), long[:3].tolist(), long[-1]), (False, [7 if mode == "r" else 9, 8], [0, 1, 2],
                                                                      1999))
        with zaluxhoni.open(path, "w") as s:
            is_kept = mode == "w" and (end == "close" or "mapped" in named)
            same(s["v"].copy(), [9 if is_kept else 7, 8])
            s["v"] = [3, 4]
        if mode == "w":
            view[1] = 10
        del s
        gc.collect()
        same((view.tolist()[0], long[1999]), (7 if mode == "r" else 9, 1999))
        del view, long


def undone_beside_views():
    """A transaction that an exception leaves is undone, whatever views exist: they keep the bytes that they showed."""
    class Broken(Exception):
        pass

    for named in ({}, {"mapped": True}, {"durable": True}):
        for is_first in (True, False):
            for size in (4096, 1 << 20):
                undone_beside_a_view(named, is_first, size, Broken)
    # the view of a function whose frame is in the traceback
    for named in ({}, {"mapped": True}, {"durable": True}):
        path = new("undone")
        with zaluxhoni.open(path, "x", size=4096) as s:
            s["v"], s["n"] = [1, 2], 1

        def negates(s):
            view = s["v"].view()
            view[0], s["n"] = -1, 2
            raise Broken(view[0])

        s = zaluxhoni.open(path, "w", **named)
        try:
            with s.transaction():
                negates(s)
        except Broken as error:
            kept = error
        same((kept.args, s["n"], s["v"].copy()), ((-1,), 1, [1, 2]))
        s.close()
        with zaluxhoni.open(path, "r") as s:
            same((s["n"], s["v"].copy()), (1, [1, 2]))


def undone_beside_a_view(named, is_first, size, broken):
    path = new("undone")
    with zaluxhoni.open(path, "x", size=size, **named) as s:
        s["v"], s["n"] = [1, 2], 1
        s.flush()
        view = s["v"].view() if is_first else None
        inner = made = None
        try:
            with s.transaction():
                s["n"] = 2
                try:
                    with s.transaction():
                        inner = s["v"].view()
                        inner[1] = 3
                        s["new"] = [5] * 3
                        made = s["new"].view()
                        raise broken(1)
                except broken:
                    same((s["n"], s["v"].copy(), "new" in s, inner.tolist(), made.tolist()),
                         (2, [1, 2], False, [1, 3], [5] * 3))
                view = view or s["v"].view()
                s["v"][0] = 4
                s["more"] = range(100)
                raise broken(2)
        except broken as error:
            same(error.args, (2,))
        same((s["n"], s["v"].copy(), list(s), inner.tolist(), made.tolist()),
             (1, [1, 2], ["n", "v"], [1, 3], [5] * 3))
        # a view is one of the segment no more, whose elements move again
        view[0], made[0] = 9, 9
        same((s["v"].copy(), s.sanity()), ([1, 2], True))
        s["v"].extend(range(1000))
        with s.transaction():
            s["n"] = 6
        same((s["n"], len(s["v"]), view[0], inner[1]), (6, 1002, 9, 3))
    same((view[0], inner[1], made[1]), (9, 3, 5))
    with zaluxhoni.open(path, "r") as s:
        same((s["n"], len(s["v"]), list(s)), (6, 1002, ["n", "v"]))


def what_cannot_be_undone():
    """If memory is refused for the undo of a transaction, nothing of it is saved."""
    zx = zaluxhoni._library.zx
    undo = zx.zx_file_undo
    for named in ({}, {"mapped": True}, {"durable": True}):
        for size in (4096, 1 << 20):
            path = new("torn")
            with zaluxhoni.open(path, "x", size=size) as s:
                s["n"] = 1
            s = zaluxhoni.open(path, "w", **named)

            def fails_to_undo():
                zx.zx_file_undo = lambda *_: zaluxhoni.NoMemoryError.code
                try:
                    with s.transaction():
                        s["n"] = 2
                        raise KeyError
                finally:
                    zx.zx_file_undo = undo

            # an outer transaction undoes what an inner one could not, and is not kept otherwise
            def outer(is_kept):
                with s.transaction():
                    s["n"] = 3
                    try:
                        fails_to_undo()
                    except zaluxhoni.NoMemoryError:
                        if not is_kept:
                            raise
            raises(zaluxhoni.NoMemoryError, outer, False)
            same(s["n"], 1)
            raises(zaluxhoni.NotUndoneError, outer, True)
            same(s["n"], 1)
            s.flush()
            raises(zaluxhoni.NoMemoryError, fails_to_undo)
            for call in (s.save, s.flush, s.commit, s.close):
                raises(zaluxhoni.NotUndoneError, call)
            same((s.is_open, len(s._steps)), (True, 0))
            s.discard()
            with zaluxhoni.open(path, "r") as s:
                same(s["n"], 1)

            def in_block():
                with zaluxhoni.open(path, "w", **named) as opened:
                    nonlocal s
                    s = opened
                    try:
                        fails_to_undo()
                    except zaluxhoni.NoMemoryError:
                        pass
            raises(zaluxhoni.NotUndoneError, in_block)
            same(s.is_open, False)
            with zaluxhoni.open(path, "r") as s:
                same(s["n"], 1)


def saves_in_a_transaction():
    """Half a step is never saved, however the file is opened."""
    for named in ({}, {"mapped": True}, {"durable": True}):
        path = new("step")
        with zaluxhoni.open(path, "x", size=4096, **named) as s:
            s["n"] = 1
            s.flush()
            with s.transaction():
                s["n"] = 2
                with s.transaction():
                    for call in (s.save, s.commit, s.flush, s.close):
                        raises(zaluxhoni.FileInStepError, call)
                same(s.is_open, True)
                with zaluxhoni.open(path, "r") as reader:
                    same(reader["n"], 1)
                s.save_as(new("step-copy"))
            with zaluxhoni.open(path_of("step-copy"), "r") as copied:
                same(copied["n"], 2)
            s["n"] = 3
            try:
                with s.transaction():
                    s["n"] = 4
                    s.close()
            except zaluxhoni.FileInStepError as error:
                same((s["n"], error.filename), (3, path))
        with zaluxhoni.open(path, "r") as s:
            same(s["n"], 3)
        # a discard is no save
        s = zaluxhoni.open(path, "w", **named)
        with s.transaction():
            s["n"] = 5
            s.discard()
        with zaluxhoni.open(path, "r") as s:
            same(s["n"], 3)
    s = create(1024)
    with s.transaction():
        raises(zaluxhoni.FileInStepError, s.close)
    s.close()


def raises_bare(error, call):
    try:
        call()
    except error:
        same(True, True)
    else:
        fails(f"no {error.__name__}")


# ---- files

def files():
    path = new("file")
    raises(zaluxhoni.FileMissingError, zaluxhoni.open, path, "w")
    raises(zaluxhoni.FileMissingError, zaluxhoni.open, path, "r")
    with zaluxhoni.open(path, "x", size=1024) as s:
        # it stands there at once, and belongs to the segment
        with zaluxhoni.open(path, "r") as reader:
            same((len(reader), reader.size), (0, 1024))
        raises(zaluxhoni.FileInUseError, zaluxhoni.open, path, "c")
        s.construct("i64", "a", 5)
    same(os.path.getsize(path), 1024)
    raises(zaluxhoni.PathExistsError, zaluxhoni.open, path, "x")
    same(issubclass(zaluxhoni.PathExistsError, (FileExistsError, zaluxhoni.Error)), True)
    with zaluxhoni.open(path, size=7) as s:
        same((s["a"], s.mode, s.size), (5, "write", 1024))
        s["a"] = 6
        s.save()
        # the lock is held, also behind a save that has replaced the file
        raises(zaluxhoni.FileInUseError, zaluxhoni.open, path, "w")
        with zaluxhoni.open(path, "r") as reader:
            same((reader["a"], reader.mode), (6, "read"))
            raises(zaluxhoni.ReadOnlyError, set_item, reader, "a", 7)
            raises(zaluxhoni.ReadOnlyError, reader.save)
        s["a"] = 8
    with zaluxhoni.open(path, "p") as private:
        same(private.mode, "copy on write")
        private["a"] = 9
    with zaluxhoni.open(path, "r") as s:
        same(s["a"], 8)
    try:
        with zaluxhoni.open(path, "w") as s:
            s["a"] = 10
            raise KeyError
    except KeyError:
        pass
    with zaluxhoni.open(path, "w") as s:
        same(s["a"], 8)
        raises(zaluxhoni.PathExistsError, s.save_as, path)
    same(os.path.exists(path + ".new"), False)
    raises(zaluxhoni.BadModeError, zaluxhoni.open, path, "rw")
    raises(zaluxhoni.WrongKindError, zaluxhoni.open, 5)
    raises(zaluxhoni.BadNameError, zaluxhoni.open, "a\0b")
    raises(zaluxhoni.NoFileError, create(1024).save)
    # a close without changes writes nothing
    before = os.stat(path)
    with zaluxhoni.open(path, "w") as s:
        s["a"] = s["a"]
    same((os.stat(path).st_ino, os.stat(path).st_mtime_ns), (before.st_ino, before.st_mtime_ns))
    # nobody has the segment any more, and so nobody the file, whatever thread dropped it
    dropped = [zaluxhoni.open(path, "w")]
    with warnings.catch_warnings(record=True) as caught:
        warnings.simplefilter("always")
        thread = threading.Thread(target=dropped.clear)
        thread.start()
        thread.join()
        gc.collect()
    same([warning.category for warning in caught], [ResourceWarning])
    zaluxhoni.open(path, "w").close()


def files_that_are_mapped():
    path = new("mapped")
    s = zaluxhoni.open(path, "x", size=4096, mapped=True)
    s["a"] = 5
    with zaluxhoni.open(path, "r") as reader:
        same(reader["a"], 5)
    raises(zaluxhoni.FileInUseError, zaluxhoni.open, path, "w")
    raises(zaluxhoni.FileInUseError, zaluxhoni.open, path, "r", mapped=True)
    s.grow(4096)
    same((s.size, os.path.getsize(path), s["a"]), (8192, 8192, 5))
    s.flush()
    s.growing = True
    s["v"] = list(range(4000))
    same((s["v"][3999], os.path.getsize(path)), (3999, s.size))
    del s["v"]
    s.shrink()
    same(os.path.getsize(path), s.size)
    s["a"] = 6
    s.discard()
    with zaluxhoni.open(path, "r", mapped=True) as reader, zaluxhoni.open(path, "p", mapped=True) as private:
        private["a"] = 7
        same((reader["a"], private["a"]), (6, 7))
        raises(zaluxhoni.ReadOnlyError, set_item, reader, "a", 7)
        raises(zaluxhoni.FileInUseError, zaluxhoni.open, path, "w")
    with zaluxhoni.open(path, "w") as s:
        same(s["a"], 6)


def what_is_refused_by_name():
    s = create(1024)
    for call in (lambda: s["none"], lambda: s.object("none"), lambda: s.__delitem__("none"), lambda: s.info("none")):
        try:
            call()
        except zaluxhoni.NotFoundError as error:
            same("'none'" in str(error), True)
        else:
            same("no error", "NotFoundError")
    raises(zaluxhoni.WrongKindError, copy.copy, s)
    raises(zaluxhoni.WrongKindError, copy.deepcopy, s)
    raises(zaluxhoni.WrongKindError, pickle.dumps, s)
    same(s.is_open, True)
    raises(zaluxhoni.WrongKindError, zaluxhoni.load, 5)
    raises(zaluxhoni.WrongKindError, zaluxhoni.check, "text")
    raises(zaluxhoni.WrongKindError, s.construct, "vec<i64>", "v", 5)
    raises(zaluxhoni.WrongKindError, s.construct, "vec<string>", "v", 5)
    raises(zaluxhoni.WrongKindError, s.construct, "map<i64,i64>", "m", 5)
    raises(zaluxhoni.WrongKindError, s.construct, "i64[2]", "a", 5.0)


def forked(call):
    """What a child process prints."""
    ours, theirs = os.pipe()
    child = os.fork()
    if child == 0:
        try:
            os.write(theirs, str(call()).encode())
        finally:
            os._exit(0)
    os.close(theirs)
    with os.fdopen(ours) as said:
        answer = said.read()
    os.waitpid(child, 0)
    return answer


def name_of_error(call):
    try:
        return call()
    except Exception as error:
        return type(error).__name__


def a_process_that_forks():
    path = new("forked")
    s = zaluxhoni.open(path, "x", size=1024)
    s["a"] = 5
    same(forked(lambda: name_of_error(s.save)), "FileForkedError")
    same(forked(lambda: name_of_error(s.close)), "FileForkedError")
    same(forked(lambda: (s.discard(), os.path.exists(path))[1]), "True")
    same(forked(lambda: name_of_error(lambda: zaluxhoni.open(path, "w"))), "FileInUseError")
    s.close()

    def add():
        with zaluxhoni.open(path, "w") as own:
            own["a"] += 1
            return own["a"]

    same(forked(add), "6")
    same(add(), 7)
    # what a child changed would be nowhere: it reads what its parent had, and each call that changes it is refused
    for is_shared in (False, True):
        s = zaluxhoni.open(path, "w", check_same_thread=not is_shared)
        s["v"], s["m"], s["t"], s["text"] = [1, 2], {1: 2}, ["a"], "text"
        v, m, t, text, group, r = s["v"], s["m"], s["t"], s.string("text"), s.group("g/"), s.records("r", "d")
        v[0], m[1], text[0], r.extend([1.0])
        same(forked(lambda: (s["a"], v[0], list(v), m[1], dict(m), t[:], s["text"], r[:], len(s), s.mode)),
             str((7, 1, [1, 2], 2, {1: 2}, ["a"], "text", [1.0], 6, "read")))
        for call in (lambda: set_item(s, "a", 8), lambda: set_item(s, "new", 8), lambda: set_item(s, "v", [3]),
                     lambda: v.append(1), lambda: set_item(v, 0, 5), lambda: set_item(v, slice(0, 1), [5]), v.pop,
                     v.clear,
                     lambda: v.extend([1]), lambda: v.assign([1]), lambda: v.insert(0, 1), lambda: delete_item(v, 0),
                     lambda: v.reserve(100), v.trim, v.sort, lambda: set_item(m, 1, 3), lambda: set_item(m, 2, 3),
                     lambda: delete_item(m, 1), m.clear, m.popitem, lambda: m.update({3: 4}), lambda: t.append("b"),
                     lambda: set_item(t, 0, "b"), t.pop, lambda: t.extend(["b"]), lambda: t.insert(0, "b"), t.clear,
                     lambda: t.assign([]), lambda: text.append("!"), lambda: set_item(text, 0, 65),
                     lambda: text.assign("b"), lambda: r.append(2.0), lambda: set_item(r, 0, 2.0),
                     lambda: delete_item(s, "a"), lambda: s.destroy("a"), lambda: s.pop("a"), s.popitem, s.clear,
                     lambda: s.construct("i64", "b", 1), lambda: s.vector("b"), lambda: s.map("b"),
                     lambda: s.string("b"),
                     lambda: s.strings("b"), lambda: s.records("b", "d"), lambda: set_item(group, "b", 1),
                     lambda: s.grow(64), s.shrink, s.zero_free, s.shrink_indexes, lambda: s.reserve_named(9),
                     lambda: s.reserve_unique(9), lambda: s.relocate(1 << 20), s.save, s.commit, s.flush, s.close):
            same(forked(lambda: name_of_error(call)), "FileForkedError")

        def in_a_transaction():
            with s.transaction():
                v.append(1)
        same(forked(lambda: name_of_error(in_a_transaction)), "FileForkedError")
        same(forked(lambda: (v.view().readonly, name_of_error(lambda: set_item(v.view(), 0, 9)))),
             "(True, 'TypeError')")
        s.discard()
    # a segment without a file is the child's own
    s = create(1024)
    same(forked(lambda: (set_item(s, "a", 8), s["a"])[1]), "8")
    # of a mapped file a child has nothing
    s = zaluxhoni.open(path, "w", mapped=True)
    v = s.vector("v")
    for call in (lambda: s["a"], lambda: set_item(s, "a", 8), lambda: v.append(1), lambda: v[0], lambda: len(v), s.save,
                 s.flush, lambda: s.grow(64)):
        same(forked(lambda: name_of_error(call)), "FileForkedError")
    s.close()


def paths_of_each_type():
    """A path is a text, bytes or an object that has one; its bytes need be no UTF-8."""
    last = b"python-caf\xe9.seg"
    given = os.path.join(os.fsencode(folder), last)
    if os.path.lexists(given):
        os.unlink(given)
    for number, path in enumerate((given, os.fsdecode(given), pathlib.Path(os.fsdecode(given)))):
        with zaluxhoni.open(path, size=1024) as s:
            s["n"] = number
            same((s["n"], repr(os.fspath(path)) in repr(s)), (number, True))
        raises(zaluxhoni.PathExistsError, zaluxhoni.open, path, "x")
        try:
            zaluxhoni.open(path, "x")
        except zaluxhoni.PathExistsError as error:
            same((error.filename, str(error).isprintable()), (os.fspath(path), True))
        with create(1024) as other:
            try:
                other.save_as(path)
            except zaluxhoni.PathExistsError as error:
                same(error.filename, os.fspath(path))
    same(last in os.listdir(os.fsencode(folder)), True)
    os.unlink(given)
    for path in (None, 5, 5.0, ["a"], object()):
        raises(zaluxhoni.WrongKindError, zaluxhoni.open, path)
        raises(zaluxhoni.WrongKindError, create(1024).save_as, path)


def a_relative_path():
    path, start = os.path.relpath(new("relative")), os.getcwd()
    s = zaluxhoni.open(path, size=1024)
    s["a"] = 5
    os.chdir(folder)
    try:
        s.save()
        s["a"] = 6
        s.close()
    finally:
        os.chdir(start)
    with zaluxhoni.open(os.fsencode(path), "w") as s:
        same(s["a"], 6)
        s["a"] = 7
    with zaluxhoni.open(path, "r") as s:
        same(s["a"], 7)


def files_that_are_durable():
    path = new("durable")
    s = zaluxhoni.open(path, "x", size=8192, durable=True)
    s["a"] = 5
    s.commit()
    s["a"] = 6
    s.discard()
    s = zaluxhoni.open(path, "w", durable=True)
    same(s["a"], 5)
    with s.transaction():
        s["a"] = 6
        with s.transaction():
            s["a"] = 7
            raises(zaluxhoni.FileInStepError, s.commit)
            raises(zaluxhoni.FileInStepError, s.save)
    try:
        with s.transaction():
            s["a"] = 8
            s.grow(8192)
            raise KeyError("8")
    except KeyError:
        pass
    same((s["a"], s.size), (7, 8192))
    s["numbers"] = [1, 2, 3]
    view = s["numbers"].view()
    with s.transaction():
        view[0] = 10
    view[1] = 20
    s.discard()
    same(view.tolist(), [10, 20, 3])
    # what reads, and what maps otherwise, finds the commits; only who may write ends the log
    with zaluxhoni.open(path, "r") as reader:
        same((reader["a"], list(reader["numbers"])), (7, [10, 2, 3]))
    same(os.path.exists(path + "-log"), True)
    with zaluxhoni.open(path, "w", mapped=True) as s:
        same(s["a"], 7)
        same(os.path.exists(path + "-log"), False)
        with s.transaction():
            s["a"] = 9
        with zaluxhoni.open(path, "r") as reader:
            same(reader["a"], 9)
    with zaluxhoni.open(path, durable=True, mapped=True) as s:
        s["a"] = 10
    same(os.path.exists(path + "-log"), False)
    with zaluxhoni.open(path, "r") as reader:
        same(reader["a"], 10)
    for mode in "rp":
        try:
            zaluxhoni.open(path, mode, durable=True)
        except zaluxhoni.BadModeError as error:
            same((f"mode {mode!r}" in str(error), "durable" in str(error), path in str(error)), (True, True, False))
        else:
            fails("no BadModeError")
    # the log of another file
    s = zaluxhoni.open(path, "w", durable=True)
    s["a"] = 11
    s.commit()
    s.discard()
    with create(8192) as other:
        image = other.image()
    with open(path, "wb") as file:
        file.write(image)
    raises(zaluxhoni.FileLogForeignError, zaluxhoni.open, path, "w", durable=True)
    raises(zaluxhoni.FileLogForeignError, zaluxhoni.open, path, "w")
    raises(zaluxhoni.FileLogForeignError, zaluxhoni.open, path, "r")
    os.remove(path + "-log")
    zaluxhoni.open(path, "w", durable=True).close()


def logs_that_are_in_the_way():
    """A file that is no log stays, and is named where a commit needs its name. So is a log whose file is gone."""
    path = new("way")
    log = f"{path}-log"
    with open(log, "w") as file:
        file.write("somebody's notes")

    def refused(kind, call):
        try:
            call()
        except zaluxhoni.FileError as error:
            same((type(error), error.filename, error.errno, repr(log) in str(error)), (kind, log, errno.EEXIST, True))
        else:
            fails(f"no {kind.__name__}")

    with zaluxhoni.open(path, "x", size=1024) as s:
        s["n"] = 1
    for mode, named in (("w", {}), ("w", {"mapped": True}), ("r", {}), ("p", {}), ("r", {"mapped": True})):
        with zaluxhoni.open(path, mode, **named) as s:
            same(s["n"], 1)
    s = zaluxhoni.open(path, "w", durable=True)
    s["n"] = 2

    def step():
        with s.transaction():
            s["n"] = 3

    for call in (s.commit, s.flush, s.save, s.close, step):
        refused(zaluxhoni.FileLogInTheWayError, call)
        same((s.is_open, s["n"]), (True, 2))
    with open(log) as file:
        same(file.read(), "somebody's notes")
    os.unlink(log)
    step()
    s.discard()
    # the file is moved, and its log is not
    os.rename(path, f"{path}.old")
    for call in (lambda: zaluxhoni.open(path), lambda: zaluxhoni.open(path, "x", durable=True),
                 lambda: zaluxhoni.open(path, "x", mapped=True), lambda: create(1024).save_as(path)):
        refused(zaluxhoni.FileLogLeftError, call)
        same(os.path.exists(path), False)
    os.rename(f"{path}.old", path)
    with zaluxhoni.open(path, "w") as s:
        same(s["n"], 3)
    same(os.path.exists(log), False)


def files_that_fail():
    path = path_of("stranger")
    with open(path, "wb") as file:
        file.write(b"this is no image")
    for mode in "rwcp":
        raises(zaluxhoni.TruncatedError, zaluxhoni.open, path, mode)
    os.unlink(path)
    # no descriptor is left, whatever is opened
    descriptors = len(os.listdir("/proc/self/fd"))
    for mode in "rwcp":
        raises(zaluxhoni.IsFolderError, zaluxhoni.open, folder, mode)
        raises(zaluxhoni.IsDeviceError, zaluxhoni.open, "/dev/zero", mode)
    same(len(os.listdir("/proc/self/fd")), descriptors)
    # a save that fails: the old file stays, and the segment can still be saved
    path = new("kept")
    zaluxhoni.open(path, size=1024).close()
    s = zaluxhoni.open(path, "w")
    s["a"] = 5
    limits = resource.getrlimit(resource.RLIMIT_FSIZE)
    signal.signal(signal.SIGXFSZ, signal.SIG_IGN)
    resource.setrlimit(resource.RLIMIT_FSIZE, (512, limits[1]))
    try:
        raises(zaluxhoni.FileFaultError, s.save)
        raises(zaluxhoni.FileFaultError, s.close)
    finally:
        resource.setrlimit(resource.RLIMIT_FSIZE, limits)
    with zaluxhoni.open(path, "r") as kept:
        same(list(kept), [])
    s.close()
    with zaluxhoni.open(path, "r") as kept:
        same(list(kept), ["a"])
    # a link: what it leads to is replaced
    os.symlink("python-kept.seg", new("link"))
    with zaluxhoni.open(path_of("link"), "w") as s:
        s["a"] = 6
    same(os.path.islink(path_of("link")), True)
    with zaluxhoni.open(path, "r") as s:
        same(s["a"], 6)
    os.unlink(path_of("link"))


def files_that_fail_to_grow():
    """What the system refuses to an object that needs a longer file is the error of the file."""
    signal.signal(signal.SIGXFSZ, signal.SIG_IGN)
    limits = resource.getrlimit(resource.RLIMIT_FSIZE)
    calls = (lambda s: s.construct("string", "s", "x" * 200000), lambda s: set_item(s, "s", "x" * 200000),
             lambda s: s.strings("t").append("x" * 200000), lambda s: s["v"].extend(range(30000)),
             lambda s: s.construct("map<i64,i64>", "m", {n: n for n in range(5000)}),
             lambda s: s.records("r", "d").extend([0.5] * 30000), lambda s: s.grow(200000))
    path = new("full")
    with zaluxhoni.open(path, "x", size=4096) as s:
        s["v"] = [1]
    for call in calls:
        s = zaluxhoni.open(path, "w", mapped=True)
        resource.setrlimit(resource.RLIMIT_FSIZE, (8192, limits[1]))
        try:
            call(s)
        except zaluxhoni.FileFaultError as error:
            same((error.errno, error.strerror, error.filename, str(error)),
                 (errno.EFBIG, os.strerror(errno.EFBIG), path, f"[Errno {errno.EFBIG}] {error.strerror}: {path!r}"))
        else:
            fails("no error")
        finally:
            resource.setrlimit(resource.RLIMIT_FSIZE, limits)
        same((list(s["v"]), s.sanity()), ([1], True))
        s.close()
    for made in (zaluxhoni.FileReplacedError(None, path), zaluxhoni.FileFaultError(errno.ENOSPC, path),
                 zaluxhoni._errors._file_error(zaluxhoni.FileFaultError, errno.EACCES, path)):
        with_key = zaluxhoni._errors.named(made, "key")
        same((type(with_key), with_key.errno, with_key.strerror, with_key.filename),
             (type(made), made.errno, made.strerror, path))


def what_is_read_again():
    """An object that is read again and again is the one that has the name now."""
    s = create(4096)
    s["v"], s["m"], s["other"] = [1, 2], {1: 2, -1: 1}, [9]
    v, m, text = s["v"], s["m"], s.string("text")
    text.assign("abc")
    reads = (lambda: v[0], 1), (lambda: v[1], 2), (lambda: m[1], 2), (lambda: m.get(-1), 1), (lambda: text[0], 97)
    for _ in range(4):
        for read, wanted in reads:
            same(read(), wanted)
    s.destroy("v")
    for _ in range(3):
        raises(zaluxhoni.NotFoundError, lambda: v[0])
    s.construct("i64", "taken", 7)
    s["v"] = [3]
    for _ in range(3):
        same(v[0], 3)
        raises(zaluxhoni.OutOfRangeError, lambda: v[1])
    s.destroy("v")
    s.construct("vec<bool>", "v", [True])
    for _ in range(3):
        same(v[0], True)
        raises(zaluxhoni.WrongKindError, v.append, 1)
    s.destroy("m")
    s.construct("map<u8,u64>", "m", {1: 2**64 - 1})
    for _ in range(3):
        same(m[1], 2**64 - 1)
        raises(zaluxhoni.AbsentError, lambda: m[2])
    try:
        with s.transaction():
            s.destroy("m")
            s["m"] = {1: 5}
            for _ in range(3):
                same(m[1], 5)
            raise KeyError
    except KeyError:
        pass
    for _ in range(3):
        same(m[1], 2**64 - 1)
    for key in (True, 1.0, "1", None, 2**70, -2**70, b"1"):
        same(m.get(key, "none"), "none")
    w = s.vector("w", "i64")
    for value in (True, 1.5, "1", None):
        raises(zaluxhoni.WrongKindError, w.append, value)
        raises(zaluxhoni.WrongKindError, w.extend, [1, value])
    for value in (2**63, -2**63 - 1, 2**70):
        raises(zaluxhoni.OutOfRangeError, w.append, value)
        raises(zaluxhoni.OutOfRangeError, w.extend, [1, value])
    same(len(w), 0)
    s.discard()
    for _ in range(3):
        raises(zaluxhoni.ClosedError, lambda: m[1])
    # what is lent to a function of Python's goes with it
    s, counts = create(1024), []
    s["v"] = [1]
    for _ in range(3):
        for _ in range(100):
            s["v"][0]
        gc.collect()
        counts.append((sys.getrefcount(s), sys.getrefcount(None) // 10000))
    same(counts[1], counts[2])


def what_is_not_closed():
    """A segment that is collected while it is open is discarded, and a warning names its file."""
    path = new("dropped")
    for named, kept in (({}, 1), ({"durable": True}, 1), ({"mapped": True}, 2)):
        with zaluxhoni.open(path, "c", size=1024) as s:
            s["a"] = 1
        for change, word in ((1, None), (2, " is lost")):
            before, sys.stderr = sys.stderr, io.StringIO()
            with warnings.catch_warnings(record=True) as caught:
                warnings.simplefilter("always")
                s = zaluxhoni.open(path, "c", **named)
                if change != 1:
                    s["a"] = change
                del s
                gc.collect()
            said, sys.stderr = sys.stderr.getvalue(), before
            same([(warning.category, repr(path) in str(warning.message)) for warning in caught],
                 [(ResourceWarning, True)])
            is_lost = word is not None and "mapped" not in named
            same((path in said, " is lost" in said, said.count("\n")), (is_lost, is_lost, int(is_lost)))
        with zaluxhoni.open(path, "r") as s:
            same(s["a"], kept)
    # a file that it made and never saved is removed
    with warnings.catch_warnings():
        warnings.simplefilter("ignore")
        zaluxhoni.open(new("made"), "x")
        gc.collect()
    same(os.path.exists(path_of("made")), False)


def program(text, *arguments):
    """The status, the output and the errors of a program of Python, after it has imported this package."""
    ran = subprocess.run([sys.executable, "-c", f"import os, sys, threading, time, zaluxhoni\n{text}", *arguments],
                         capture_output=True, text=True)
    return ran.returncode, ran.stdout, ran.stderr


def kept_by(text, *words):
    """What is in the file behind a program that opened it as `s`, and the words that its errors have."""
    path = new("ended")
    with zaluxhoni.open(path, "x", size=4096) as s:
        s["a"] = 1
    status, _, errors = program(f"s = zaluxhoni.open(sys.argv[1], 'w')\n{text}", path)
    for word in words:
        same((word, word in errors, errors), (word, True, errors))
    if not words:
        same(errors, "")
    with zaluxhoni.open(path, "r") as s:
        return status, all_of(s)


def the_end_of_the_process():
    """What nobody saved is not saved, and a line says so if something changed."""
    lost = "not closed", "is lost"
    same(kept_by("s['a'] = 2", *lost), (0, {"a": 1}))
    same(kept_by("s['a'] = 2; sys.exit(0)", *lost), (0, {"a": 1}))
    same(kept_by("s['a'] = 2; sys.exit(3)", *lost), (3, {"a": 1}))
    same(kept_by("s['a'] = 2; raise KeyError", "KeyError", *lost), (1, {"a": 1}))
    same(kept_by("view = s.vector('v').view(); s['a'] = 2", *lost), (0, {"a": 1}))
    same(kept_by("s['v'] = [1]; s.save(); view = s['v'].view(); view[0] = 7", *lost), (0, {"a": 1, "v": [1]}))
    same(kept_by("s['a'] = 2; s.save(); s['a'] = 3", *lost), (0, {"a": 2}))
    same(kept_by("s['a'] = 2; s.save()"), (0, {"a": 2}))
    same(kept_by("s['a']"), (0, {"a": 1}))
    # what its program has saved or discarded is not touched
    same(kept_by("s['a'] = 2; s.discard()"), (0, {"a": 1}))
    same(kept_by("s['a'] = 2; s.close()"), (0, {"a": 2}))
    # what saves nothing has nothing to say
    for mode in "rp":
        for mapped in (False, True):
            opens = f"s = zaluxhoni.open(sys.argv[1], '{mode}', mapped={mapped})"
            same(kept_by(f"s.close(); {opens}"), (0, {"a": 1}))
            same(kept_by(f"s.close(); {opens}; del s"), (0, {"a": 1}))
    same(kept_by("s.close(); s = zaluxhoni.create(1024); s['a'] = 2"), (0, {"a": 1}))
    # a mapped file has what was changed, and a durable one what was committed
    mapped = "s.close(); s = zaluxhoni.open(sys.argv[1], 'w', mapped=True); "
    same(kept_by(mapped + "s['a'] = 2"), (0, {"a": 2}))
    durable = "s.close(); s = zaluxhoni.open(sys.argv[1], 'w', durable=True); "
    same(kept_by(durable + "s['a'] = 2; s.commit(); s['a'] = 3", *lost), (0, {"a": 2}))
    same(kept_by(durable + "s['a'] = 2; s.commit()"), (0, {"a": 2}))
    same(kept_by(durable + "s['a'] = 2\nwith s.transaction(): s['a'] = 3"), (0, {"a": 3}))
    same(kept_by(durable + "s['a'] = 2; view = s.vector('v').view()", *lost), (0, {"a": 1}))
    # what is no whole step is in no file
    for opens in ("", mapped, durable):
        same(kept_by(opens + "t = s.transaction(); t.__enter__(); s['a'] = 2", *lost), (0, {"a": 1}))
        same(kept_by(opens + "t = s.transaction(); t.__enter__(); s['a'] = 2; s = None; t = None"), (0, {"a": 1}))
    same(kept_by("def go():\n with s.transaction():\n  s['a'] = 2; yield\ng = go(); next(g); s = None; del g"),
         (0, {"a": 1}))
    # a transaction that is undone changes nothing
    same(kept_by("try:\n with s.transaction(): s['a'] = 2; 1/0\nexcept ZeroDivisionError: pass"), (0, {"a": 1}))
    # a thread that still runs may be within a call
    same(kept_by("s.close()\ndef go():\n global s\n s = zaluxhoni.open(sys.argv[1], 'w'); s['a'] = 2; ready.set()\n"
                 " time.sleep(60)\nready = threading.Event()\nthreading.Thread(target=go, daemon=True).start()\n"
                 "ready.wait()", *lost), (0, {"a": 1}))
    same(kept_by("s.close()\ndef go():\n global s\n s = zaluxhoni.open(sys.argv[1], 'w'); s['a'] = 2\n"
                 "t = threading.Thread(target=go); t.start(); t.join()", *lost), (0, {"a": 1}))
    shared = ("s.close(); s = zaluxhoni.open(sys.argv[1], 'w', check_same_thread=False)\ndef go():\n {}\n"
              "ready = threading.Event()\nthreading.Thread(target=go, daemon=True).start(); ready.wait()")
    same(kept_by(shared.format("s['a'] = 2; ready.set(); time.sleep(60)"), *lost), (0, {"a": 1}))
    same(kept_by(shared.format("s._lock.acquire(); s['a'] = 2; ready.set(); time.sleep(60)"), *lost), (0, {"a": 1}))
    # a forked child has nothing to say of its parent's file
    same(kept_by("s['a'] = 2\nif os.fork() == 0: sys.exit(0)\nos.wait(); s.save()"), (0, {"a": 2}))
    # files that were made, and never saved, are not left; warnings that are errors end no segment before the others
    path = new("ended")
    for words in ((), ("-W", "error")):
        ran = subprocess.run([sys.executable, *words, "-c", "import sys, zaluxhoni\n" + "\n".join(
            f"s{n} = zaluxhoni.open(sys.argv[1] + '{n}', 'x'); s{n}['a'] = 1" for n in range(3)), path],
            capture_output=True, text=True)
        same([os.path.exists(f"{path}{n}") for n in range(3)], [False] * 3)
        same((ran.returncode, ran.stderr.count("is lost;"), "ResourceWarning" in ran.stderr), (0, 3, bool(words)))


def the_end_of_a_block():
    def ends(raised):
        path = new("block")
        with zaluxhoni.open(path, "x", size=1024) as s:
            s["a"] = 1
        try:
            with zaluxhoni.open(path, "w") as s:
                s["a"] = 2
                raise raised
        except BaseException as error:
            same(error is raised, True)
        with zaluxhoni.open(path, "r") as s:
            return s["a"]

    same([ends(raised) for raised in (SystemExit(0), SystemExit(), SystemExit(None), SystemExit(False))], [2] * 4)
    same([ends(raised) for raised in (SystemExit(1), SystemExit(""), SystemExit("no"), KeyboardInterrupt(),
                                      GeneratorExit(), asyncio.CancelledError(), ValueError())], [1] * 7)
    s = create(1024)
    s["a"] = 1
    try:
        with s.transaction():
            s["a"] = 2
            sys.exit(0)
    except SystemExit:
        same(s["a"], 1)
    s.close()
    raises(zaluxhoni.ClosedError, s.__enter__)


def errors_are_copied():
    """Errors go through pickle and copy, as from a process of a pool."""
    names = [getattr(zaluxhoni, name) for name in zaluxhoni.__all__]
    kinds = [kind for kind in names if isinstance(kind, type) and issubclass(kind, zaluxhoni.Error)]
    same(len(kinds) > 40, True)
    errors = [kind() for kind in kinds]
    for call in (lambda: zaluxhoni.open("/nowhere/at all", "r"), lambda: zaluxhoni.open("/proc/none", "x"),
                 lambda: zaluxhoni.load(b"x" * 200), lambda: create(1024)["a"],
                 lambda: create(1024).construct("i64[1000]", "a"), lambda: zaluxhoni.open(folder, "r"),
                 lambda: zaluxhoni.open("a/" * 3000, "r")):
        try:
            call()
        except zaluxhoni.Error as error:
            errors.append(error)
    same(len(errors), len(kinds) + 7)
    for error in errors:
        for made in (pickle.loads(pickle.dumps(error)), copy.copy(error), copy.deepcopy(error)):
            same((made.__class__.__mro__[1:], str(made), made.args),
                 (error.__class__.__mro__[1:], str(error), error.args))
            for name in ("errno", "filename", "place", "code", "wanted", "free"):
                same(getattr(made, name, None), getattr(error, name, None))
    # a pool does not wait for ever for an error that it cannot read
    said = program("import multiprocessing\ndef go(path): zaluxhoni.open(path, 'r')\nwith multiprocessing.get_context("
                   "'fork').Pool(1) as pool:\n try: pool.apply_async(go, [sys.argv[1]]).get(60)\n except "
                   "zaluxhoni.FileMissingError as error: print(error.filename)", "/nowhere/at all")
    same(said, (0, "/nowhere/at all\n", ""))
    for key in (unique("map<i32,bool>"), handle(144)):
        for made in (pickle.loads(pickle.dumps(key)), copy.copy(key), copy.deepcopy(key)):
            same((made == key, repr(made), made._key.kind, made._key.handle),
                 (True, repr(key), key._key.kind, key._key.handle))


def names_of_version_0_9():
    """An exception is found by its old name too, with a warning."""
    kinds = {name: getattr(zaluxhoni, name) for name in zaluxhoni.__all__ if name.endswith("Error")}
    new = ("Error", "FileError", "NotUndoneError", "FileLogInTheWayError", "FileLogLeftError")
    for name, kind in kinds.items():
        old = "FileExists" if name == "PathExistsError" else name[:-len("Error")]
        with warnings.catch_warnings(record=True) as caught:
            warnings.simplefilter("always")
            found = getattr(zaluxhoni, old, None) if old else None
        same(found, None if name in new else kind)
        same([(each.category, name in str(each.message), each.filename) for each in caught],
             [] if name in new else [(DeprecationWarning, True, __file__)])
    with warnings.catch_warnings():
        warnings.simplefilter("ignore")
        from zaluxhoni import Closed, FileInUse
        same((Closed, pickle.loads(b"czaluxhoni\nFileInUse\n.")), (zaluxhoni.ClosedError, FileInUse))
    same((hasattr(zaluxhoni, "FilesInUse"), all(name.endswith("Error") for name, kind in vars(zaluxhoni).items() if
                                                isinstance(kind, type) and issubclass(kind, Exception))), (False, True))


def none_is_no_name():
    s = create(1024)
    for mapping in (s, s.group("g/")):
        for call in (lambda: set_item(mapping, None, 5), lambda: mapping.update({None: 1}),
                     lambda: mapping.setdefault(None, 3), lambda: mapping.update([(None, [1])])):
            raises(zaluxhoni.WrongKindError, call)
    same((len(s), [tile for tile in s.tiles() if tile.use == "object"]), (0, []))


class Series:
    """What pandas has: a dtype, elements one after another, and no tobytes."""

    def __init__(self, values, dtype):
        self.values, self.dtype = values, dtype

    def __iter__(self):
        return iter(self.values)

    def __len__(self):
        return len(self.values)

    def tolist(self):
        return list(self.values)


class Dtype:
    """What numpy has: it is equal to a format of struct, or knows nothing of it."""

    def __init__(self, itemsize, formats):
        self.itemsize, self.formats = itemsize, formats

    def __eq__(self, other):
        if other not in self.formats:
            raise TypeError(f"data type {other!r} not understood")
        return True

    __hash__ = None


class Ndarray(Series):
    def tobytes(self):
        return struct.pack(f"{len(self.values)}q", *self.values)


def records_of_other_packages():
    s = create(8192)
    doubles = s.records("doubles", "d")
    doubles.extend(Series([1.5, 2.5], Dtype(8, "d")))
    doubles.assign(Series([1.5, 3.5], Dtype(8, "d")))
    doubles[1:] = Series([4.5], Dtype(8, "d"))
    same(list(doubles), [1.5, 4.5])
    raises(zaluxhoni.WrongKindError, doubles.extend, 5)
    raises(zaluxhoni.WrongKindError, doubles.extend, Series(["a"], Dtype(8, "O")))
    s.records("pairs", "<hI").extend(Series([(1, 2)], Dtype(16, "none")))
    # "<l" has 4 bytes for struct and 8 for numpy
    halves = s.records("halves", "<l")
    halves.extend(Ndarray([1, 2], Dtype(8, ["<l"])))
    same(list(halves), [1, 2])
    longs = s.records("longs", "q")
    longs.extend(Ndarray([1, 2], Dtype(8, ["q"])))
    same(list(longs), [1, 2])
    v = s.vector("v", "i32")
    v.extend(Series([1, 2], Dtype(8, [])))
    v.assign(Series([3, 4], Dtype(8, [])))
    same(list(v), [3, 4])
    s["new"], s["texts"], s["none"] = Series([1, 2], "int32"), Series(["a", "b"], "object"), Series([], "u8")
    same([(s.info(name).kind, list(s[name])) for name in ("new", "texts", "none")],
         [("vec<i32>", [1, 2]), ("vec<string>", ["a", "b"]), ("vec<i64>", [])])
    s["new"], s["texts"] = Series([3], "int64"), Series(["c"], "object")
    same((list(s["new"]), list(s["texts"])), ([3], ["c"]))
    raises(zaluxhoni.WrongKindError, set_item, s, "floats", Series([1.5], "float64"))


def records_as_list_are_one():
    s = create(65536, grow=True)
    ours, model = s.records("r", "<hd"), []

    def both(call):
        same(call(ours), call(model))
        same(list(ours), model)

    some = [(number % 7, number / 2) for number in range(20)]
    both(lambda of: of.extend(some))
    both(lambda of: of.insert(3, (1, 0.5)))
    both(lambda of: of.insert(-100, (2, 0.5)))
    both(lambda of: of.pop())
    both(lambda of: of.pop(4))
    both(lambda of: of.index((3, 5.0)))
    both(lambda of: of.index((3, 5.0), 4, 15))
    both(lambda of: of.count((1, 0.5)))
    both(lambda of: of.remove((1, 0.5)))
    both(lambda of: (3, 5.0) in of)
    both(lambda of: (9, 9.0) in of)
    both(lambda of: of[::-2])
    both(lambda of: set_item(of, slice(2, 9, 3), [(5, 5.0)] * 3))
    both(lambda of: set_item(of, slice(9, 2, -3), [(number, 0.0) for number in range(3)]))
    both(lambda of: set_item(of, slice(2, 4), [(5, 5.0)] * 5))
    both(lambda of: set_item(of, slice(4, 2), [(6, 5.0)]))
    both(lambda of: set_item(of, slice(0, 2), []))
    both(lambda of: delete_item(of, slice(1, 12, 4)))
    both(lambda of: delete_item(of, -1))
    both(lambda of: of.reverse())
    both(lambda of: of.sort())
    both(lambda of: of.sort(key=lambda record: -record[1], reverse=True))
    both(lambda of: of.copy())
    both(lambda of: of + [(1, 1.0)])
    both(lambda of: [(1, 1.0)] + of)
    both(lambda of: of * 2)
    both(lambda of: of.__iadd__(some[:2]) is of)
    both(lambda of: of.__imul__(2) is of)
    both(lambda of: (of == of.copy(), of < [(100, 0.0)], of >= [], of != []))
    both(lambda of: of.extend(of))
    both(lambda of: of.clear())
    raises(zaluxhoni.NoElementError, ours.remove, (1, 1.0))
    raises(zaluxhoni.NoElementError, ours.index, (1, 1.0))
    raises(zaluxhoni.OutOfRangeError, ours.pop)
    raises(zaluxhoni.WrongKindError, ours.index, (1, 1.0), "a")
    # a slice reads no more than its records
    many, counts = s.records("many", "<hd"), []
    many.extend(some * 50)
    plain = zaluxhoni.Vector._memory
    zaluxhoni.Vector._memory = lambda of, first, count: (counts.append((first, count)), plain(of, first, count))[1]
    for index, first, count in ((slice(0, 10), 0, 10), (slice(990, None), 990, 10), (slice(5, 15, 3), 5, 10),
                                (slice(20, 10, -4), 12, 9), (slice(7, 3), None, 0), (slice(-3, -1), 997, 2)):
        counts.clear()
        same(many[index], (some * 50)[index])
        same(counts, [(10 * first, 10 * count)] if count else [])
    zaluxhoni.Vector._memory = plain
    points = s.records("points", Point)
    points.assign([Point(1.5, 2.5, 3), (4.5, 5.5, 6)])
    same((Point(4.5, 5.5, 6) in points, points.index(Point(4.5, 5.5, 6)),
          points == [Point(1.5, 2.5, 3), Point(4.5, 5.5, 6)]), (True, 1, True))
    points.remove(Point(1.5, 2.5, 3))
    same((len(points), points.count(Point(0, 0, 0))), (1, 0))


def tasks_with_transactions():
    """A transaction belongs to its task: what another one does is refused, and not undone with it."""
    def name_in(call):
        try:
            call()
        except zaluxhoni.Error as error:
            return type(error).__name__
        return "done"

    async def both(s):
        began, tried, said = asyncio.Event(), asyncio.Event(), []
        v, m = s["v"], s["m"]
        list(v), m[1], v.append(2), v[0]

        async def first():
            try:
                with s.transaction():
                    s["a"] = 2
                    m[1] = 11
                    began.set()
                    await tried.wait()
                    same((s["a"], m[1], v[0]), (2, 11, 1))
                    with s.transaction():
                        s["a"] = 3
                    raise KeyError
            except KeyError:
                pass
            same((s["a"], m[1]), (1, 10))

        async def second():
            await began.wait()
            for call in (lambda: s["a"], lambda: set_item(s, "b", 1), lambda: v[0], lambda: v.append(3), lambda: m[1],
                         lambda: set_item(m, 1, 12), lambda: set_item(v, 0, 9), lambda: m.get(1), lambda: len(v),
                         s.save, s.close, s.discard, s.shrink, lambda: s.grow(64), lambda: s.transaction().__enter__(),
                         lambda: list(v), lambda: v.view(), lambda: s.size, lambda: list(s),
                         lambda: s.records("r", "d")):
                said.append(name_in(call))
            asyncio.get_running_loop().call_soon(lambda: said.append(name_in(lambda: s["a"])))
            await asyncio.sleep(0.01)
            tried.set()

        await asyncio.gather(first(), second())
        same(said, ["WrongTaskError"] * len(said))
        same(len(said), 21)
        # behind it each may call again
        s["b"] = 7
        v.append(4)
        same((all_of(s), v[1]), ({"a": 1, "b": 7, "m": {1: 10}, "v": [1, 2, 4]}, 2))

    async def cancelled(s):
        async def waits():
            with s.transaction():
                s["a"] = 5
                await asyncio.sleep(60)

        task = asyncio.ensure_future(waits())
        await asyncio.sleep(0.01)
        task.cancel()
        await asyncio.gather(task, return_exceptions=True)
        same(s["a"], 1)

    async def inside(s):
        same(s["a"], 8)

    for shared in (False, True):
        s = create(4096, check_same_thread=not shared)
        s["a"], s["v"], s["m"] = 1, [1], {1: 10}
        asyncio.run(both(s))
        asyncio.run(cancelled(s))
        # one that a thread began before its loop belongs to the thread
        with s.transaction():
            s["a"] = 8
            asyncio.run(inside(s))
        same(s["a"], 8)
        if not shared:
            same(on_a_thread(lambda: s.transaction().__enter__()), "WrongThreadError")


def numbers_beyond_all():
    """Numbers of thousands of digits, and other long values, have messages and a repr of bounded length."""
    s = create(65536, grow=True)
    s["v"], s["n"], s["m"], s["t"], s["text"] = [1, 2, 3], 5, {1: 2}, ["a"], "text"
    v, m, t, text = s["v"], s["m"], s["t"], s.string("text")
    huge = 10**5000
    for error, call in (
            (zaluxhoni.OutOfRangeError, lambda: v.append(huge)),
            (zaluxhoni.OutOfRangeError, lambda: set_item(v, 0, huge)),
            (zaluxhoni.OutOfRangeError, lambda: v.extend([1, huge])),
            (zaluxhoni.OutOfRangeError, lambda: set_item(s, "n", huge)),
            (zaluxhoni.OutOfRangeError, lambda: set_item(s, "v", [huge])), (zaluxhoni.OutOfRangeError, lambda: v[huge]),
            (zaluxhoni.OutOfRangeError, lambda: v[-huge]), (zaluxhoni.OutOfRangeError, lambda: t[huge]),
            (zaluxhoni.OutOfRangeError, lambda: text[huge]), (zaluxhoni.OutOfRangeError, lambda: set_item(m, huge, 1)),
            (zaluxhoni.OutOfRangeError, lambda: set_item(m, 1, huge)),
            (zaluxhoni.OutOfRangeError, lambda: m.update({1: huge})),
            (zaluxhoni.AbsentError, lambda: m[huge]), (zaluxhoni.OutOfRangeError, lambda: v.reserve(huge)),
            (zaluxhoni.BadValueError, lambda: set_item(s, "new", huge)),
            (zaluxhoni.NoElementError, lambda: v.index(huge)),
            (zaluxhoni.BadValueError, lambda: s.construct("i64", "new", huge)),
            (zaluxhoni.OutOfRangeError, lambda: s.grow(huge)),
            (zaluxhoni.WrongKindError, lambda: v.append("x" * 10**6)),
            (zaluxhoni.WrongKindError, lambda: set_item(m, "x" * 10**6, 1)),
            (zaluxhoni.WrongKindError, lambda: set_item(s, "v", "x" * 10**6)),
            (zaluxhoni.NotFoundError, lambda: s["x" * 10**6]),
            (zaluxhoni.WrongKindError, lambda: v.assign({"x" * 10**6: 1})),
            (zaluxhoni.OutOfRangeError, lambda: handle(huge)),
            (zaluxhoni.OutOfRangeError, lambda: s.records("r", "d")[huge]),
            (zaluxhoni.WrongKindError, lambda: s.records("r", "b").append(huge))):
        try:
            call()
        except zaluxhoni.Error as raised:
            same((type(raised), len(str(raised)) < 500), (error, True))
        else:
            fails("no error")
    s["v"], s["t"], s["text"], s["m"] = range(10**5), ["x" * 10**4] * 100, "x" * 10**5, {key: 1 for key in range(1000)}
    for each in (v, t, text, m, s.records("r", "d"), m.keys(), m.items(), s.items()):
        same((len(repr(each)) < 500, len(repr(each)) > 10), (True, True))
    same(repr(s["v"]), f"<vec<i64> 'v' [{', '.join(map(str, range(20)))}, ... 100000 in all]>")
    same(repr(m).endswith("... 1000 in all}>"), True)


def small_rules():
    s = create(4096)
    s["n"], s["v"], s["m"] = 5, [1, 2, 3], {1: 2, 3: 4, 5: 6, 7: 8}
    # one number is no list
    raises(zaluxhoni.WrongKindError, set_item, s, "n", [7])
    raises(zaluxhoni.WrongKindError, set_item, s, "n", (7,))
    same(s["n"], 5)
    s.construct("i64[1]", "other", 9)
    s["n"] = s.object("other")
    same(s["n"], 9)
    for made in (s, s["v"], s["m"], s.group("g"), s.records("r", "d"), s.transaction(), create(
            1024, check_same_thread=False)):
        try:
            made.foo = 1
        except AttributeError:
            same(True, True)
        else:
            fails(f"{made!r} takes an attribute")
    s.growing, s.encoding = True, None
    s.growing, s.encoding = False, "utf-8"
    # a notebook shows names, kinds and values
    shown = create(65536)
    shown["n"], shown["<b>"], shown["v"] = 5, "a & b", range(1000)
    shown.construct("i64[2]", "two", [3, 4])
    table = shown._repr_html_()
    same([part in table for part in ("<td>n</td><td>i64</td><td>5</td>", "<td>&lt;b&gt;</td><td>string</td>",
                                     "a &amp; b", "1000 in all", "<td>i64[2]</td><td>[3, 4]</td>")], [True] * 5)
    shown.group("g/").update({f"{number}": number for number in range(200)})
    same((shown.group("g/")._repr_html_().count("<tr>"), shown.group("none")._repr_html_().count("<tr>")), (101, 0))
    shown.close()
    same(shown._repr_html_(), "&lt;Segment, closed&gt;")
    names = [name for name in dir(zaluxhoni) if not name.startswith("__")]
    same(sorted(names), sorted(zaluxhoni.__all__))
    # ranges of a map
    m = s["m"]
    model = dict(m)
    for low in (None, -2**70, 0, 1, 2, 7, 8, 2**70):
        for high in (None, -2**70, 0, 1, 2, 7, 8, 2**70):
            same(list(m.range(low, high)), [pair for pair in model.items() if (low is None or low <= pair[0]) and
                                            (high is None or pair[0] < high)])
    truths = s.construct("map<bool,u8>", "truths", {False: 1, True: 2})
    same((list(truths.range(True)), list(truths.range(None, True))), ([(True, 2)], [(False, 1)]))
    for kind, most in (("u8", 255), ("i32", 2**31 - 1), ("i64", 2**63 - 1), ("u64", 2**64 - 1)):
        ends = s.construct(f"map<{kind},u8>", kind, {most: 1, most - 1: 2})
        same((list(ends.range(most)), list(ends.range(most - 1, most)), list(ends.range(0))),
             ([(most, 1)], [(most - 1, 2)], [(most - 1, 2), (most, 1)]))
    raises(zaluxhoni.WrongKindError, m.range, "a")
    seen = []
    for key, _ in m.range(1, 7):
        seen.append(key)
        if key == 3:
            del m[5]
            m[6] = 1
    same(seen, [1, 3, 6])
    same((m._ipython_key_completions_(), s.group("tr")._ipython_key_completions_()), ([1, 3, 6, 7], ["uths"]))
    # what a map or a vector cannot keep: the error says what does
    for call, word in ((lambda: set_item(m, "a", 1), "group"), (lambda: set_item(m, 1, 1.5), "records"),
                       (lambda: set_item(s, "new", {"a": 1}), "group"), (lambda: set_item(s, "new", 1.5), "records"),
                       (lambda: set_item(s, "new", [1.5]), "records"), (lambda: s["v"].append(1.5), "records"),
                       (lambda: s.map("texts", "string", "i64"), "group"), (lambda: s.map("m2", "str"), "group"),
                       (lambda: s.vector("w", "f64"), "records"), (lambda: s.construct("float", "w"), "records"),
                       (lambda: s.map("floats", "i64", "double"), "records")):
        try:
            call()
        except (zaluxhoni.WrongKindError, zaluxhoni.BadKindError) as error:
            same((word in str(error), str(error)), (True, str(error)))
        else:
            fails("no error")


def no_space_says_more():
    s = create(1024)
    s["v"], s["t"] = [1], ["a"]
    v, t, m, text = s["v"], s["t"], s.map("m"), s.string("text")
    for wanted, call in ((80000, lambda: v.extend(range(10000))), (80000, lambda: s.construct("i64[10000]", "a", 0)),
                         (40000, lambda: s.construct("i32[10000]", "a", [0] * 10000)),
                         (5000, lambda: t.append("x" * 5000)), (6000, lambda: t.extend(["x" * 3000] * 2)),
                         (None, lambda: v.reserve(10000)), (5000, lambda: text.append("x" * 5000)),
                         (5000, lambda: s.construct("string", "b", "x" * 5000)),
                         (None, lambda: m.update({key: 0 for key in range(1000)}))):
        try:
            call()
        except zaluxhoni.NoSpaceError as error:
            same((error.wanted, error.free, str(error.free) in str(error), "grow" in str(error)),
                 (wanted, s.free, True, True))
            same(wanted is None or str(wanted) in str(error), True)
        else:
            fails("no NoSpaceError")


def what_messages_say():
    """A message names what it is about, and the figures that decide."""
    s = create(1024)
    s["v"], s["text"], s["n"] = [1], "text", 5
    gone = s.construct("vec<bool>", "gone", [True])
    del s["gone"]
    s["gone"] = [1]
    path, version = new("said"), bytearray(s.image())
    version[8] = 9
    bad = path_of("version")
    with open(bad, "wb") as file:
        file.write(version)
    for error, call, *words in (
            (zaluxhoni.BadNameError, lambda: s.construct("i64", "n" * 256, 1), "at most 255", "256"),
            (zaluxhoni.BadNameError, lambda: set_item(s, "é" * 128, 1), "at most 255", "256"),
            (zaluxhoni.BadNameError, lambda: s.info("n" * 300), "at most 255", "300"),
            (zaluxhoni.BadNameError, lambda: set_item(s.group("g" * 200), "n" * 100, 1), "at most 255", "300"),
            (zaluxhoni.BadNameError, lambda: set_item(s, "", 1), "1 to 255"),
            (zaluxhoni.BadNameError, lambda: set_item(s, "a\n", 1), "control", "'a\\n'"),
            (zaluxhoni.BadSizeError, lambda: create(160), "160", "176", "1073741824"),
            (zaluxhoni.BadSizeError, lambda: create(2**30 + 16), "1073741840", "1073741824"),
            (zaluxhoni.BadSizeError, lambda: zaluxhoni.open(path, "x", size=7), "7", "176", repr(path)),
            (zaluxhoni.BadSizeError, lambda: zaluxhoni.load(s.image(), capacity=1025), "1025", "16"),
            (zaluxhoni.ShortRegionError, lambda: zaluxhoni.load(s.image(), capacity=512), "512", "1024"),
            (zaluxhoni.ShortRegionError, lambda: s.relocate(512), "512", "1024"),
            (zaluxhoni.BadSizeError, lambda: s.relocate(1030), "1030"),
            (zaluxhoni.BadGrowthError, lambda: s.grow(33), "33", "32"),
            (zaluxhoni.TooLargeError, lambda: s.grow(2**30), "1024", "1073741824"),
            (zaluxhoni.WrongKindError, lambda: s.find("i64", "v"), "'v'", "vec<i64>"),
            (zaluxhoni.WrongKindError, lambda: s.vector("text"), "'text'", "string", "vec<i64>"),
            (zaluxhoni.WrongKindError, lambda: s.map("n"), "'n'", "i64", "map<i64,i64>"),
            (zaluxhoni.OutOfRangeError, lambda: s["v"][5], "'v'", "element 5", "length is 1"),
            (zaluxhoni.OutOfRangeError, lambda: set_item(s["v"], 7, 1), "'v'", "element 7", "length is 1"),
            (zaluxhoni.OutOfRangeError, lambda: delete_item(s["v"], 8), "'v'", "element 8", "length is 1"),
            (zaluxhoni.OutOfRangeError, lambda: s.string("text")[9], "'text'", "element 9", "length is 4"),
            (zaluxhoni.OutOfRangeError, lambda: s.object("n")[3], "'n'", "element 3", "length is 1"),
            (zaluxhoni.WrongKindError, lambda: gone.append(True), "'gone'", "vec<i64>", "vec<bool>"),
            (zaluxhoni.UnsupportedVersionError, lambda: zaluxhoni.load(bytes(version)), "version 9", "segment migrate"),
            (zaluxhoni.UnsupportedVersionError, lambda: zaluxhoni.check(bytes(version)), "version 9",
             "segment migrate"),
            (zaluxhoni.UnsupportedVersionError, lambda: zaluxhoni.open(bad, "r"), repr(bad), "segment migrate")):
        try:
            call()
        except zaluxhoni.Error as raised:
            same((type(raised), [word for word in words if word not in str(raised)], str(raised)),
                 (error, [], str(raised)))
        else:
            fails("no error")
    os.unlink(bad)
    # of a log that belongs to another file the log is named, also where a link leads to the file
    with zaluxhoni.open(path, "x", durable=True, size=1024) as s:
        s.commit()
    s = zaluxhoni.open(path, "w", durable=True)
    s["n"] = 1
    s.commit()
    s.discard()
    with create(1024) as other, open(path, "wb") as file:
        other["other"] = 2
        file.write(other.image())
    os.symlink(os.path.basename(path), new("said-link"))
    for given, log in ((path, f"{path}-log"), (os.fsencode(path), os.fsencode(f"{path}-log")),
                       (path_of("said-link"), os.path.realpath(path) + "-log")):
        try:
            zaluxhoni.open(given, "w")
        except zaluxhoni.FileLogForeignError as error:
            same((error.filename, repr(log) in str(error), pickle.loads(pickle.dumps(error)).filename),
                 (log, True, log))
        else:
            fails("no FileLogForeignError")
    os.unlink(f"{path}-log")
    os.unlink(path_of("said-link"))


def a_wait_for_the_writer():
    path = new("waited")
    s = zaluxhoni.open(path, "x", size=1024)
    for timeout in (None, 0, 0.0):
        raises(zaluxhoni.FileInUseError, zaluxhoni.open, path, "w", timeout=timeout)
    start = time.monotonic()
    raises(zaluxhoni.FileInUseError, zaluxhoni.open, path, "w", timeout=0.4)
    same(0.4 <= time.monotonic() - start < 30, True)
    s["a"] = 5
    waits = "with zaluxhoni.open(sys.argv[1], 'w', timeout=60) as s: s['a'] += 1"
    other = subprocess.Popen([sys.executable, "-c", f"import sys, zaluxhoni\nprint('here', flush=True)\n{waits}", path],
                             stdout=subprocess.PIPE)
    other.stdout.readline()
    time.sleep(0.1)
    s.close()
    same((other.wait(), other.stdout.close()), (0, None))
    with zaluxhoni.open(path, "w", timeout=5) as s:
        same(s["a"], 6)
    raises(zaluxhoni.FileMissingError, zaluxhoni.open, path + "none", "w", timeout=5)
    for timeout in (-1, float("nan")):
        raises(zaluxhoni.BadValueError, zaluxhoni.open, path, "w", timeout=timeout)
    raises(zaluxhoni.WrongKindError, zaluxhoni.open, path, "w", timeout="soon")


def the_module_as_program():
    def run(*arguments):
        words = [sys.executable, "-W", "error", "-m", "zaluxhoni", *arguments]
        ran = subprocess.run(words, capture_output=True, text=True)
        return ran.returncode, ran.stdout, ran.stderr

    path = new("listed")
    with zaluxhoni.open(path, "x", size=8192) as s:
        s["n"], s["v"], s["text"], s["m"] = 5, list(range(100)), "two words", {1: 2}
        s.construct("i32[2]", "array", [3, 4])
        s.construct("u64", unique("u64"), 9)
    front = ", ".join(map(str, range(20)))
    same(run(path), (0, f"array\ti32[2]\t[3, 4]\nm\tmap<i64,i64>\t{{1: 2}}\nn\ti64\t5\ntext\tstring\t'two words'\n"
                     f"v\tvec<i64>\t[{front}, ... 100 in all]\nunique('u64')\tu64\t9\n", ""))
    status, said, errors = run(path + "none")
    same((status, said, "zaluxhoni: " in errors, errors.count("\n")), (1, "", True, 1))
    # a name is shown as it is, and a reader that ends first is no error
    with zaluxhoni.open(new("listed"), "x") as s:
        s["café"] = 1
        for number in range(3000):
            s[f"z{number}"] = "x" * 60
    words = [sys.executable, "-W", "error", "-m", "zaluxhoni", path]
    ran = subprocess.run(words, capture_output=True, env={**os.environ, "PYTHONUTF8": "1"})
    same(ran.stdout.splitlines()[0], "café\ti64\t1".encode())
    lists = subprocess.Popen(words, stdout=subprocess.PIPE, stderr=subprocess.PIPE)
    same(lists.stdout.read(3), b"caf")
    lists.stdout.close()
    same((lists.stderr.read(), lists.wait()), (b"", -signal.SIGPIPE))
    lists.stderr.close()
    same(run()[:2], (2, ""))


def segments_grow():
    """A segment becomes longer, unless it is told not to."""
    path = new("grown")
    for made in (zaluxhoni.create(1024), zaluxhoni.open(path, "x", size=1024), zaluxhoni.load(create(1024).image())):
        same((made.growing, made.size), (True, 1024))
        made["v"] = range(10000)
        same((len(made["v"]), made.size > 80000), (10000, True))
        made.close()
    with zaluxhoni.open(path, "w", grow=False) as s:
        same(s.growing, False)
        raises(zaluxhoni.NoSpaceError, s["v"].extend, range(10000))
    for made in (zaluxhoni.create(1024, grow=False), zaluxhoni.load(create(1024).image(), grow=False)):
        raises(zaluxhoni.NoSpaceError, set_item, made, "v", range(10000))
        same(made.size, 1024)


def storage_that_cannot_double():
    """Storage for which there is no gap twice as long becomes longer all the same."""
    s = create(65536)
    v = s.construct("vec<i64>", "v", [7] * 5000)
    for _ in range(3000):
        v.append(1)
    v.insert(0, 3)
    v.extend([4, 5])
    same((len(v), v[0], v[-1], v.capacity < 10000, s.sanity()), (8003, 3, 5, True, True))
    raises(zaluxhoni.NoSpaceError, v.extend, [0] * 5000)
    same(len(v), 8003)
    s = create(65536)
    text = s.construct("string", "text", "a" * 40000)
    text.append("bc")
    text += "d"
    same((len(text), bytes(text)[-4:], s.sanity()), (40003, b"abcd", True))
    s = create(65536)
    points = s.records("points", "dd")
    points.extend([(1, 2)] * 2500)
    points.append((3, 4))
    same((len(points), points[-1]), (2501, (3.0, 4.0)))


def texts_that_stay_bytes():
    s = create(65536)
    blobs = s.group("blobs/", encoding=None)
    blobs["a"] = b"\x00\xff"
    same((blobs["a"], s["blobs/a"], blobs.get("a"), blobs.setdefault("a", b"")),
         (b"\x00\xff", "\x00\udcff", b"\x00\xff", b"\x00\xff"))
    blobs["a"] = b"b"
    blobs["list"] = [b"\xfe", "text"]
    same((blobs["a"], blobs["list"][:], list(blobs.strings("list")), blobs.strings("list").pop(), list(s["blobs/list"])),
         (b"b", [b"\xfe", b"text"], [b"\xfe", b"text"], b"text", ["\udcfe"]))
    blobs.construct("string", "c", b"\xfd")
    same((dict(blobs.items())["c"], blobs.object("c") == b"\xfd", str(blobs.object("c")), bytes(blobs.string("c")),
          blobs.find("string", "c").copy(), blobs.find_or_construct("string", "c", b"").copy()),
         (b"\xfd", True, "\udcfd", b"\xfd", b"\xfd", b"\xfd"))
    same((blobs.pop("c"), blobs.group("sub/").setdefault("d", b"\xfc"), s.group("blobs/")["sub/d"]),
         (b"\xfd", b"\xfc", "\udcfc"))
    same((blobs.group("sub/", encoding="latin-1")["d"], s.group("", encoding=None)["blobs/a"]), ("\xfc", b"b"))
    raises(zaluxhoni.BadValueError, s.group, "x", encoding="none such")
    raises(zaluxhoni.BadValueError, s.group, "x", encoding=5)
    # the encoding of a segment counts where a group has none of its own
    s.encoding = None
    same((s["blobs/a"], s.group("blobs/")["a"], blobs.group("", encoding="utf-8")["a"]), (b"b", b"b", "b"))
    shared = create(8192, check_same_thread=False).group("b/", encoding=None)
    shared["a"], shared["l"] = b"\xff", [b"\xfe"]
    same((shared["a"], shared["l"][0], dict(shared)["a"]), (b"\xff", b"\xfe", b"\xff"))


@dataclasses.dataclass
class Article:
    weight: float
    number: ctypes.c_int32
    is_there: bool
    count: int = 0


@dataclasses.dataclass(frozen=True)
class Spot:
    x: float
    y: float
    name: dataclasses.InitVar[int] = 0
    total: float = dataclasses.field(default=0.0, init=False)


def records_of_dataclasses():
    s = create(65536)
    articles = s.records("articles", Article)
    articles.append(Article(0.5, 7, True, 2**40))
    articles.extend([(1.5, 8, False, -1), Article(2.5, 9, True)])
    same((articles[0], articles[1], len(articles)), (Article(0.5, 7, True, 2**40), Article(1.5, 8, False, -1), 3))
    # laid out as a structure of C
    class Same(ctypes.Structure):
        _fields_ = [("weight", ctypes.c_double), ("number", ctypes.c_int32), ("is_there", ctypes.c_bool),
                    ("count", ctypes.c_int64)]
    same((len(s["articles"]), ctypes.sizeof(Same)), (72, 24))
    same([(each.weight, each.number, each.is_there, each.count) for each in s.records("articles", Same)],
         [(0.5, 7, True, 2**40), (1.5, 8, False, -1), (2.5, 9, True, 0)])
    articles[1] = dataclasses.replace(articles[1], count=5)
    same((articles.index(Article(1.5, 8, False, 5)), (2.5, 9, True, 0) in articles, articles == articles.copy()),
         (1, True, True))
    articles.sort(key=lambda each: -each.weight)
    same([each.number for each in articles], [9, 8, 7])
    for value in (Article(0.5, 2**31, True), Article("a", 1, True), (1.5, 8), 5, None):
        raises(zaluxhoni.WrongKindError, articles.append, value)
    if hasattr(typing, "Annotated"):
        @dataclasses.dataclass
        class Narrow:
            a: "typing.Annotated[int, 'h']"
            b: "typing.Annotated[float, 'f', 'and more']"
            c: ctypes.c_uint8
        narrow = s.records("narrow", Narrow)
        narrow.append(Narrow(-5, 0.5, 255))
        same((narrow[0], len(s["narrow"])), (Narrow(-5, 0.5, 255), 12))
        raises(zaluxhoni.WrongKindError, narrow.append, Narrow(2**15, 0.5, 1))
    points = s.records("points", Spot)
    raises(zaluxhoni.WrongKindError, s.records, "texts", dataclasses.make_dataclass("Texts", [("text", str)]))
    raises(zaluxhoni.BadValueError, s.records, "none", dataclasses.make_dataclass("None_", []))
    points.append(Spot(1.0, 2.0))
    same((points[0], len(s["points"])), (Spot(1.0, 2.0), 16))


def threads_that_shorten():
    """One thread goes over what another one makes shorter, and reads no element while a transaction is open."""
    s = create(1 << 20, check_same_thread=False)
    s["v"], s["t"], s["r"] = list(range(2000)), ["a"] * 500, [1]
    v, t, r = s["v"], s["t"], s.records("records", "d")
    r.extend([1.0] * 500)
    ends = threading.Event()

    def shortens():
        while not ends.is_set():
            for each, filled in ((v, list(range(2000))), (t, ["a"] * 500), (r, [1.0] * 500)):
                each.assign(filled[:3])
                each.clear()
                each.assign(filled)

    thread = threading.Thread(target=shortens)
    thread.start()
    errors = set()
    until = time.monotonic() + 1.5
    while time.monotonic() < until:
        for call in (lambda: list(v), lambda: list(reversed(v)), lambda: list(t), lambda: list(r), lambda: sum(v),
                     lambda: list(reversed(t))):
            errors.add(name_of_error(lambda: (call(), None)[1]))
    ends.set()
    thread.join()
    same(errors, {None})
    # an element is read within no transaction of another thread
    inside, seen = threading.Event(), []

    def reads():
        inside.wait()
        seen.append(v[0])

    s["v"] = [1]
    v[0]
    thread = threading.Thread(target=reads)
    thread.start()
    with s.transaction():
        v[0] = 2
        inside.set()
        time.sleep(0.2)
        v[0] = 3
    thread.join()
    same(seen, [3])


def large_pages():
    """A long segment has large pages where the system gives them on request; a short one has none."""
    def advised():
        with open("/proc/self/smaps") as maps:
            return sum("hg" in it.split() for it in maps if it.startswith("VmFlags:"))
    before = advised()
    short = zaluxhoni.create(1 << 20)
    same(advised(), before)
    long = zaluxhoni.create(8 << 20)
    same(advised() > before, os.path.isdir("/sys/kernel/mm/transparent_hugepage"))
    short.close()
    long.close()


for case in (an_anonymous_object, names, index_and_object_do_not_both_fit, arrays, the_only_object_of_its_kind,
             places_reserved_in_the_indexes, best_fit, storage_is_lengthened_then_replaced, a_string_grows_and_shrinks,
             a_map, refusals_of_a_vector, a_vector_of_strings, objects_found_or_made, every_kind_of_scalar,
             many_at_once, one_of_each, a_segment_as_a_dict, maps_are_made_whole, values_of_one_kind_alone,
             a_mapping_as_dict_is_one, refusals_have_names, copies, a_list_as_list_is_one,
             threads_that_follow_each_other, one_segment_of_many_threads, groups, transactions, records, views,
             undone_beside_views, what_cannot_be_undone, saves_in_a_transaction, size_and_region, calls_of_c,
             what_is_refused, what_shows_a_class, one_thread, files, files_that_are_mapped, files_that_are_durable,
             what_is_refused_by_name, a_process_that_forks, paths_of_each_type, a_relative_path, files_that_fail,
             files_that_fail_to_grow, logs_that_are_in_the_way, what_is_read_again, what_is_not_closed,
             the_end_of_the_process, the_end_of_a_block, errors_are_copied, names_of_version_0_9, none_is_no_name,
             records_of_other_packages, records_as_list_are_one, tasks_with_transactions, numbers_beyond_all,
             small_rules, no_space_says_more, what_messages_say, a_wait_for_the_writer, the_module_as_program,
             segments_grow, storage_that_cannot_double, texts_that_stay_bytes, records_of_dataclasses,
             threads_that_shorten, large_pages):
    try:
        case()
    except Exception as error:
        wrong += 1
        line = error.__traceback__.tb_next.tb_lineno
        print(f"every_call.py: WRONG {case.__name__}: {type(error).__name__}: {error}, line {line}")
print(f"every_call.py: {checks} checks, {wrong} wrong")
sys.exit(wrong != 0)
