"""Arrays of numpy as elements, and elements as arrays of numpy. It is run by a Python that has numpy."""
import array
import os
import sys
import tempfile

import numpy

import zaluxhoni

checks = wrong = 0
DTYPES = {"bool": "?", "u8": "u1", "i32": "i4", "i64": "i8", "u64": "u8"}
SOME = {"bool": [True, False, True], "u8": [0, 7, 255], "i32": [-2**31, 0, 2**31 - 1], "i64": [-2**63, 5, 2**63 - 1],
        "u64": [0, 1, 2**64 - 1]}


def same(got, wanted):
    global checks, wrong
    checks += 1
    if got != wanted or type(got) is not type(wanted):
        wrong += 1
        print(f"with_numpy.py:{sys._getframe(1).f_lineno}: WRONG {got!r}, not {wanted!r}"[:400])


def raises(error, call, *arguments):
    try:
        call(*arguments)
    except zaluxhoni.Error as raised:
        same(type(raised), error)
    else:
        same(None, error)


def set_item(of, index, value):
    of[index] = value


def arrays_as_elements():
    s = zaluxhoni.create(65536)
    for kind, some in SOME.items():
        given = numpy.array(some, DTYPES[kind])
        v = s.construct(f"vec<{kind}>", kind, given)
        same(v.copy(), some)
        v.extend(given)
        v[:3] = given[::-1]
        same(v.copy(), some[::-1] + some)
        given.flags.writeable = False
        v.assign(given)
        v += given[1:]
        same(v.copy(), some + some[1:])
        same(s.construct(f"{kind}[3]", None, given).copy(), some)
        s[f"new {kind}"] = given
        same(s.info(f"new {kind}").kind, f"vec<{kind}>")
        s[f"new {kind}"] = numpy.array(some[:2], DTYPES[kind])
        same(s[f"new {kind}"].copy(), some[:2])
        v.append(given[1])
        same((v[-1], given[1] in v), (some[1], True))
    i64, i32 = s["i64"], s["i32"]
    # values of another width are values, and are checked
    i64.assign(numpy.array([1, 2], "i4"))
    i32.assign(numpy.array([3, -4], "i8"))
    i64.extend(array.array("h", [5, -6]))
    same((i64.copy(), i32.copy()), ([1, 2, 5, -6], [3, -4]))
    i64.assign(numpy.arange(10)[::3])
    same(i64.copy(), [0, 3, 6, 9])
    i64.assign(numpy.array([], "i8"))
    same(i64.copy(), [])
    raises(zaluxhoni.OutOfRangeError, i32.assign, numpy.array([2**31]))
    raises(zaluxhoni.WrongKindError, i32.assign, numpy.array([1.5]))
    raises(zaluxhoni.WrongKindError, i32.assign, numpy.array([True]))
    raises(zaluxhoni.WrongKindError, i32.assign, numpy.array([[1, 2], [3, 4]]))
    raises(zaluxhoni.WrongKindError, i32.assign, numpy.array(5))
    raises(zaluxhoni.WrongKindError, s["bool"].assign, numpy.array([1, 0]))
    raises(zaluxhoni.WrongKindError, set_item, s, "float", numpy.array([1.5]))
    s["number"], s["truth"] = numpy.int32(7), numpy.bool_(True)
    same((s["number"], s["truth"]), (7, True))
    m = s.map("m")
    m[numpy.int64(5)] = numpy.uint8(6)
    m.update(zip(numpy.arange(3), numpy.arange(3)))
    same((m[5], m[numpy.int16(5)], m.copy()), (6, 6, {0: 0, 1: 1, 2: 2, 5: 6}))
    pairs = numpy.fromiter(m.items(), "i8,i8")
    same((pairs["f0"].tolist(), pairs["f1"].tolist()), ([0, 1, 2, 5], [0, 1, 2, 6]))
    pairs = numpy.asarray(m)
    same((pairs["key"].tolist(), pairs["value"].tolist(), pairs.dtype == numpy.dtype([("key", "i8"), ("value", "i8")])),
         ([0, 1, 2, 5], [0, 1, 2, 6], True))
    for kind, dtype in DTYPES.items():
        other = s.construct(f"map<i32,{kind}>", f"map of {kind}")
        same((numpy.asarray(other).tolist(), numpy.asarray(other).dtype[1] == numpy.dtype(dtype)), ([], True))
        other.update(numpy.array(list(enumerate(SOME[kind])), [("a", "i4"), ("b", dtype)]))
        same((other.copy(), numpy.asarray(other).tolist()), (dict(enumerate(SOME[kind])), list(enumerate(SOME[kind]))))
        again = s.construct(f"map<i32,{kind}>", None)
        again.update(numpy.asarray(other))
        again.update(zip(numpy.arange(3), numpy.array(SOME[kind], dtype)))
        same(again == other, True)
    raises(zaluxhoni.OutOfRangeError, s["map of i32"].update, numpy.array([(1, 2**31)], "i8,i8"))
    raises(zaluxhoni.WrongKindError, s["map of i32"].update, numpy.array([(1, 0.5)], "i8,f8"))
    raises(zaluxhoni.WrongKindError, s["map of i32"].update, numpy.array([(1, True)], "i8,?"))


def elements_as_arrays():
    s = zaluxhoni.create(65536)
    for kind, some in SOME.items():
        v = s.construct(f"vec<{kind}>", kind, some)
        a = numpy.asarray(v)
        same((a.dtype == numpy.dtype(DTYPES[kind]), a.tolist()), (True, some))
        same(numpy.array(v).tolist(), some)
        same(numpy.asarray(s.construct(f"{kind}[3]", None, some)).tolist(), some)
    same(numpy.asarray(s["i32"], "f8").tolist(), [-2.0**31, 0.0, 2.0**31 - 1])
    same(int(numpy.asarray(s["u8"]).sum()), 262)
    same(numpy.asarray(s.vector("empty", "i32")).tolist(), [])


def arrays_without_a_copy():
    s = zaluxhoni.create(65536)
    s["v"], s["other"] = list(range(1000)), [1]
    v = s["v"]
    a = numpy.asarray(v)
    a[::2] *= 2
    same((v[:4], v[998]), ([0, 1, 4, 3], 1996))
    v[1] = 100
    s["other"].append(2)
    same((int(a[1]), a.flags.writeable, a.flags.owndata), (100, True, False))
    part = a[10:20].view("u8")
    del a
    raises(zaluxhoni.LentError, v.append, 1)
    part[0] = 7
    del part
    v.append(1)
    same((v[10], len(v)), (7, 1001))
    copied = numpy.array(v)
    v.append(2)
    copied[0] = 9
    same((v[0], numpy.asarray(v, "f8").dtype == numpy.dtype("f8")), (0, True))
    v.append(3)
    reader = zaluxhoni.load(s.image(), "r")
    same(numpy.asarray(reader["v"]).flags.writeable, False)
    # a copy on write is changed by views too, and its file is not
    points = s.records("points", numpy.dtype([("x", "f8"), ("y", "f8")]))
    points.extend([(1, 2), (3, 4)])
    a = numpy.asarray(points)
    a["x"] += 0.5
    same([tuple(map(float, point)) for point in points], [(1.5, 2.0), (3.5, 4.0)])
    raises(zaluxhoni.LentError, points.append, (5, 6))
    del a
    points.append((5, 6))
    raises(zaluxhoni.WrongKindError, numpy.asarray, s.records("points", "<hhi"))
    # the whole of a segment that is closed stays for its arrays
    a = numpy.asarray(v)
    s.close()
    del s, v, points
    same(int(a[10]), 7)


def arrays_that_stay():
    """An array that is in scope at the end of a block, or of a transaction that failed, keeps its numbers."""
    path = os.path.join(tempfile.mkdtemp(), "arrays.seg")
    for named in ({}, {"mapped": True}, {"durable": True}):
        with zaluxhoni.open(path, "c", **named) as s:
            s["v"], s["n"] = [1, 2, 3], 1
            s.records("weights", "d").assign([0.5, 1.5])
            a, weights = numpy.asarray(s["v"]), numpy.asarray(s.records("weights", "d"))
            weights *= 2
        same((a.tolist(), weights.tolist()), ([1, 2, 3], [1.0, 3.0]))
        a[0] = 7
        try:
            with zaluxhoni.open(path, "w", **named) as s:
                a = numpy.asarray(s["v"])
                s["n"] = 2 if named != {"mapped": True} else 1
                raise KeyError("n")
        except KeyError as error:
            same(error.args, ("n",))
        same(a.tolist(), [1, 2, 3])
        with zaluxhoni.open(path, "w", **named) as s:
            same((s["n"], list(s.records("weights", "d"))), (1, [1.0, 3.0]))
            weights = numpy.asarray(s.records("weights", "d"))
            try:
                with s.transaction():
                    s["n"], other = 3, numpy.asarray(s.records("weights", "d"))
                    other[0] = -1
                    raise ValueError("negative")
            except ValueError as error:
                same(error.args, ("negative",))
            same((s["n"], list(s.records("weights", "d")), weights.tolist()), (1, [1.0, 3.0], [-1.0, 3.0]))
            s.records("weights", "d").append(4.0)
            other[1] = 5
        with zaluxhoni.open(path, "r") as s:
            same((s["n"], list(s.records("weights", "d"))), (1, [1.0, 3.0, 4.0]))


def records():
    s = zaluxhoni.create(65536)
    form = numpy.dtype([("x", "<f8"), ("n", "<i2")])
    points = s.records("points", form)
    points.append((1.5, 2))
    points.extend(numpy.array([(2.5, 3), (3.5, 4)], form))
    points[0] = (0.5, 1)
    same((float(points[0]["x"]), int(points[-1]["n"]), len(points), len(s["points"])), (0.5, 4, 3, 30))
    a = numpy.asarray(points)
    same((a.dtype == form, a["x"].tolist(), a["n"].tolist()), (True, [0.5, 2.5, 3.5], [1, 3, 4]))
    doubles = s.records("doubles", numpy.dtype("f8"))
    doubles.assign(numpy.linspace(0, 1, 5))
    same((numpy.asarray(doubles).tolist(), float(doubles[1])), ([0, 0.25, 0.5, 0.75, 1], 0.25))
    same(list(s.records("doubles", "d")), [0, 0.25, 0.5, 0.75, 1])
    same(numpy.asarray(s.records("doubles", "d")).tolist(), [0, 0.25, 0.5, 0.75, 1])
    raises(zaluxhoni.WrongKindError, s.records, "objects", numpy.dtype("O"))
    # they are compared as tuples
    del a
    same((points == [(0.5, 1), (2.5, 3), (3.5, 4)], points == [(0.5, 1)], points != points.copy()),
         (True, False, False))
    same(((2.5, 3) in points, (2.5, 4) in points, points.index((3.5, 4)), points.count((9.0, 9))), (True, False, 2, 0))
    same((points < [(1.0, 0)], points.copy() == points), (True, True))
    raises(zaluxhoni.NoElementError, points.remove, (9.0, 9))
    raises(zaluxhoni.WrongKindError, points.extend, [(1.0, 2, 3)])
    raises(zaluxhoni.WrongKindError, points.append, ("a", "b"))
    points.sort(key=lambda record: -float(record["x"]))
    points.reverse()
    points.remove((2.5, 3))
    same([record.item() for record in points], [(0.5, 1), (3.5, 4)])
    points[::-1] = numpy.array([(7.5, 7), (8.5, 8)], form)
    same([record.item() for record in points], [(8.5, 8), (7.5, 7)])
    # a format that numpy knows nothing of, and one that has other bytes there
    tuples = s.records("tuples", "<ihx")
    tuples.extend(numpy.array([(1, 2), (3, 4)], "i4,i2"))
    same(list(tuples), [(1, 2), (3, 4)])
    same(tuples == numpy.array([(1, 2)], "i4,i2").tolist(), False)
    longs = s.records("longs", "<l")
    longs.extend(numpy.array([1, -2], "<i8"))
    same(list(longs), [1, -2])
    raises(zaluxhoni.WrongKindError, points.append, "x")


for case in (arrays_as_elements, elements_as_arrays, arrays_without_a_copy, arrays_that_stay, records):
    try:
        case()
    except Exception as error:
        wrong += 1
        line = error.__traceback__.tb_next.tb_lineno
        print(f"with_numpy.py: WRONG {case.__name__}: {type(error).__name__}: {error}, line {line}")
print(f"with_numpy.py: {checks} checks, {wrong} wrong")
sys.exit(wrong != 0)
