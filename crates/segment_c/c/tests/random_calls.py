"""random_calls.py FOLDER [SEED [STEPS [plain]]]: makes the same random calls to objects of a segment and to Python's
own list, dict and bytearray, and compares the answers and the classes of errors. It makes about STEPS calls to lists
and records, as many to maps, and as many to the names in a segment and in a group of it. On the way it saves the
segment and opens it again. Then it makes random transactions, of which it undoes some, beside views of a file that is
opened by copy, mapped or durable. With `plain`, the package does without what the library knows of CPython."""
import collections.abc
import os
import random
import sys

import zaluxhoni
from zaluxhoni import _library, _objects

folder, seed = sys.argv[1], int(sys.argv[2]) if len(sys.argv) > 2 else 1
steps = int(sys.argv[3]) if len(sys.argv) > 3 else 5000
chance = random.Random(seed)
if not _library.HAS_PYTHON:
    sys.exit("random_calls.py: WRONG, the library knows nothing of this interpreter")
if sys.argv[4:] == ["plain"]:
    _library.HAS_PYTHON = False
    _objects.Object._start = lambda self: None
path = os.path.join(folder, "python-random.seg")
ranges = {"bool": (False, True), "u8": (0, 255), "i32": (-2**31, 2**31 - 1), "i64": (-2**63, 2**63 - 1),
          "u64": (0, 2**64 - 1)}
wrong = calls = 0


def scalar(kind):
    least, most = ranges[kind]
    if kind == "bool":
        return chance.random() < 0.5
    return chance.choice((least, most, chance.randint(least, most), chance.randint(max(least, -9), 9)))


def text():
    return "".join(chance.choice("aé€🙂\0 ") for _ in range(chance.choice((0, 1, 3, 40, 400))))


def outcome(call, of):
    """The answer of a call, or Python's own class of its error. An error of the package must also be its `Error`."""
    try:
        answer = call(of)
    except (IndexError, KeyError, TypeError, ValueError) as error:
        if not isinstance(of, (list, dict, bytearray)) and not isinstance(error, zaluxhoni.Error):
            return f"a bare {type(error).__name__}: {error}"
        return next(kind for kind in (IndexError, KeyError, TypeError, ValueError) if isinstance(error, kind))
    return "itself" if answer is of else plain(answer)


def plain(answer):
    if isinstance(answer, (zaluxhoni.Object, zaluxhoni.Records)):
        return answer.copy() if hasattr(answer, "copy") else answer
    return answer


def compare(what, call, ours, theirs):
    """Makes the call to both objects, from the same state of `chance`, and compares the outcomes."""
    global wrong, calls
    calls += 1
    state = chance.getstate()
    mine = outcome(call, ours)
    chance.setstate(state)
    wanted = outcome(call, theirs)
    if mine != wanted or type(mine) is not type(wanted):
        wrong += 1
        if wrong < 20:
            print(f"random_calls.py: WRONG {what}, seed {seed}, call {calls}: {mine!r}, not {wanted!r}")


def set_item(of, index, value):
    of[index] = value


def delete_item(of, index):
    del of[index]


def in_place(of, operation):
    """Returns whether an operation in place answers the object itself."""
    return operation(of) is of


def place(of):
    return chance.choice((chance.randint(-len(of) - 2, len(of) + 2), 0, -1, 10**15, -10**15)) if chance.random() < 0.2 \
        else chance.randint(-len(of) - 2, len(of) + 2)


def bound(of):
    return None if chance.random() < 0.2 else place(of)


def any_slice(of):
    return slice(bound(of), bound(of), chance.choice((None, None, 1, 2, 3, -1, -2, -7)))


def walk(of, changes):
    """Goes over a list, and changes the list meanwhile."""
    seen = []
    for value in of:
        seen.append(value)
        if len(seen) > 60:
            break
        if changes:
            changes.pop()(of)
    return seen


def walk_back(of, changes):
    seen = []
    for value in reversed(of):
        seen.append(value)
        if changes:
            changes.pop()(of)
    return seen


def one_of_list(theirs, new):
    """A random call to a list."""
    index, other, value, some = place(theirs), place(theirs), new(), [new() for _ in range(chance.randint(0, 5))]
    known = chance.choice(theirs) if theirs and chance.random() < 0.8 else value
    part, exact = any_slice(theirs), any_slice(theirs)
    fitting = [new() for _ in range(len(theirs[exact]))]
    changes = [chance.choice((lambda of: of.append(known), lambda of: of.pop() if len(of) else None,
                              lambda of: of.insert(1, known),
                              lambda of: set_item(of, 0, known) if len(of) else None, lambda of: None))
               for _ in range(chance.randint(0, 9))]
    return chance.choice((
        lambda of: of.append(value), lambda of: of.append(value), lambda of: of.insert(index, value),
        lambda of: of.pop(),
        lambda of: of.pop(index), lambda of: of[index], lambda of: set_item(of, index, value),
        lambda of: delete_item(of, index), lambda of: of[part], lambda of: set_item(of, part, some),
        lambda of: set_item(of, exact, fitting), lambda of: set_item(of, part, iter(some)),
        lambda of: delete_item(of, part), lambda of: of.extend(some), lambda of: of.extend(iter(some)),
        lambda of: of.extend(tuple(some)), lambda of: of.extend(of) if len(of) < 30 else None,
        lambda of: in_place(of, lambda same: same.__iadd__(some)),
        lambda of: in_place(of, lambda same: same.__imul__(2 if len(of) < 20 else 0)),
         lambda of: known in of, len, lambda of: of.index(known), lambda of: of.index(known, index),
        lambda of: of.index(known, index, other), lambda of: of.count(known), lambda of: of.remove(known),
        lambda of: of.reverse(), lambda of: of.sort(), lambda of: of.sort(reverse=True, key=str), lambda of: of.copy(),
        lambda of: of == some, lambda of: of == list(of), lambda of: list(of) == of, lambda of: of != some,
        lambda of: of < some,
        lambda of: of >= some, lambda of: some < of, lambda of: of + some, lambda of: some + of, lambda of: of * 2,
        lambda of: 2 * of,
        lambda of: list(of), lambda of: list(reversed(of)), lambda of: walk(of, list(changes)),
        lambda of: walk_back(of, list(changes)), lambda of: of["a"], lambda of: of[1.5], lambda of: of[slice("a")],
        lambda of: of[::0], lambda of: of.pop("a"), lambda of: of.insert("a", value), lambda of: of.extend(5),
        lambda of: set_item(of, None, value), lambda of: delete_item(of, "a"), lambda of: set_item(of, slice(0, 1), 5),
        lambda of: of.index(known, "a"), lambda of: of == (1,), lambda of: of == None,  # noqa: E711
        lambda of: of.clear() if chance.random() < 0.3 else None))


def change_list(name, ours, theirs, new):
    compare(name, one_of_list(theirs, new), ours, theirs)
    if chance.random() < 0.05 and name != "records":
        chance.choice((ours.trim, lambda: ours.reserve(len(ours) + 7)))()
    if chance.random() < 0.1:
        compare(name, list, ours, theirs)
    if len(theirs) > 60:
        compare(name, lambda of: delete_item(of, slice(5, None)), ours, theirs)


def ordered(answer):
    return dict(sorted(answer.items())) if isinstance(answer, dict) else answer


def least(of):
    return of.popitem() if not isinstance(of, dict) else (min(of), of.pop(min(of))) if of else of.popitem()


def updated(of, *others):
    of.update(*others)
    return None


def pairs_of(of):
    """The pairs of a map one after another; of a dict the one with the least key above the last, as it is by then."""
    if not isinstance(of, dict):
        yield from of.items()
        return
    left = sorted(of)
    while left:
        yield left[0], of[left[0]]
        left = sorted(key for key in of if key > left[0])


def stepped(of, seed, truths, value):
    """The pairs of a map, while some steps erase the pair, or erase or put another."""
    seen, turns = [], random.Random(seed)
    for pair in pairs_of(of):
        seen.append(pair)
        turn, at = turns.randint(0, 40), turns.random() < 0.5 if truths else turns.randint(0, 99)
        if turn == 0:
            of.pop(pair[0], None)
        elif turn == 1:
            of.pop(at, None)
        elif turn == 2:
            of[at] = value
    return seen


def one_of_map(theirs, kinds):
    """A random call to a map. Keys are few, so that calls meet the same key again."""
    key = scalar(kinds[0]) if kinds[0] == "bool" else chance.randint(0, 99)
    value = scalar(kinds[1])
    more = {scalar(kinds[0]) if kinds[0] == "bool" else chance.randint(0, 99): scalar(kinds[1]) for _ in range(3)}
    strange = chance.choice(("a", None, 2**70, -1.5, (1,), b"x"))
    seed = chance.random()
    return chance.choice((
        lambda of: stepped(of, seed, kinds[0] == "bool", value),
        lambda of: set_item(of, key, value), lambda of: set_item(of, key, value), lambda of: of[key],
        lambda of: delete_item(of, key), lambda of: of.pop(key), lambda of: of.pop(key, None),
        lambda of: of.pop(key, "x"),
        lambda of: key in of, lambda of: of.get(key), lambda of: of.get(key, "x"), len,
        lambda of: of.setdefault(key, value),
        lambda of: updated(of, more), lambda of: updated(of, list(more.items())),
        lambda of: updated(of, iter(more.items())),
        lambda of: updated(of), lambda of: in_place(of, lambda same: same.__ior__(more)), least,
        lambda of: ordered(of | more), lambda of: ordered(more | of), lambda of: sorted(of),
        lambda of: list(sorted(of.items())),
        lambda of: sorted(of.values()), lambda of: sorted(reversed(of)), lambda of: sorted(reversed(of.items())),
        lambda of: of == more,
        lambda of: of == dict(of), lambda of: dict(of) == of, lambda of: of != more,
        lambda of: (key, value) in of.items(),
        lambda of: key in of.keys(), lambda of: value in of.values(), lambda of: sorted(of.keys() & more.keys()),
        lambda of: sorted(of.keys() | set(more)), lambda of: ordered(of.copy()), lambda of: len(of.items()),
        lambda of: sorted(of.keys() - {key}), lambda of: of.keys().isdisjoint(more), lambda of: bool(of),
        lambda of: strange in of, lambda of: of.get(strange), lambda of: of.get(strange, 7), lambda of: of[strange],
        lambda of: delete_item(of, strange), lambda of: of.pop(strange), lambda of: of.pop(strange, 8),
        lambda of: (strange, 1) in of.items(), lambda of: (key,) in of.items(), lambda of: updated(of, 5),
        lambda of: updated(of, [1]), lambda of: updated(of, [(1, 2, 3)]), lambda of: of.update({}, {}),
        lambda of: of == 5,
        lambda of: [set_item(of, each, value) for each in of],
        lambda of: of.clear() if chance.random() < 0.2 else None))


def change_map(name, ours, theirs, kinds):
    compare(name, one_of_map(theirs, kinds), ours, theirs)
    if chance.random() < 0.05:
        compare(name, lambda of: list(of.items()) if not isinstance(of, dict) else sorted(of.items()), ours, theirs)


def change_string(name, ours, theirs):
    """Makes a random call to a string, sometimes appends or assigns, and compares all bytes."""
    index, other, byte, more = place(theirs), place(theirs), chance.randint(0, 255), text().encode()
    call = chance.choice((
        lambda of: of[index], lambda of: set_item(of, index, byte), lambda of: bytes(of[index:other]),
        lambda of: byte in of,
        lambda of: set_item(of, slice(index, other), more), lambda of: more in of, len, list))
    compare(name, call, ours, theirs)
    if chance.random() < 0.5:
        ours.append(more)
        theirs.extend(more)
    if chance.random() < 0.1:
        ours.assign(more)
        theirs[:] = more
    compare(name, bytes, ours, theirs)


def any_value():
    return chance.choice((chance.randint(-9, 2**64 - 1), chance.random() < 0.5, text(), [1, 2, chance.randint(0, 9)],
                          {1: 2, chance.randint(0, 9): 4}, [True], ["a", text()]))


def value_like(known):
    """Another value for an object that has the value `known`."""
    if isinstance(known, bool):
        return not known
    if isinstance(known, int):
        return chance.randint(0, 9) if known < 2**63 else 2**63 + chance.randint(0, 9)
    if isinstance(known, str):
        return text()
    if isinstance(known, dict):
        return {chance.randint(0, 9): 7}
    return [value_like(each) for each in known] * 2


def one_of_names(theirs):
    """A random call to a mapping of names. Names are few, so that calls meet the same name again."""
    name, other = (chance.choice(("a", "b", "é", "p/", "p/x", "p/y", "p/é", "q", "z" * 200)) for _ in range(2))
    value = value_like(theirs[name]) if name in theirs else any_value()
    strange = chance.choice((5, None, "", "n" * 256, 1.5, ("a",)))
    return chance.choice((
        lambda of: set_item(of, name, value), lambda of: set_item(of, name, value), lambda of: of[name],
        lambda of: delete_item(of, name),
        lambda of: of.pop(name), lambda of: of.pop(name, "x"), lambda of: name in of, lambda of: of.get(name),
        lambda of: of.get(name, 7), len,
        lambda of: of.setdefault(name, value), lambda of: updated(of, {name: value}),
        lambda of: updated(of, [(name, value)]),
        lambda of: updated(of, **{}), lambda of: sorted(of), lambda of: sorted(of.keys() | {other}),
        lambda of: sorted(reversed(of)),
        lambda of: other in of.keys(), least, lambda of: strange in of, lambda of: of.get(strange),
        lambda of: of.pop(strange, 6),
        lambda of: of.pop(strange), lambda of: of[strange], lambda of: delete_item(of, strange), lambda of: bool(of),
        lambda of: of == {name: value}, lambda of: of == all_of(of), lambda of: all_of(of) == of, lambda of: of == 5,
        lambda of: updated(of, 5), lambda of: updated(of, [(1, 2, 3)]),
        lambda of: of.clear() if chance.random() < 0.05 else None))


def all_of(mapping):
    return {name: value.copy() if isinstance(value, zaluxhoni.Object) else value for name, value in mapping.items()}


def by_bytes(names):
    return dict(sorted(names.items(), key=lambda pair: pair[0].encode()))


def change_names(name, ours, theirs):
    compare(name, one_of_names(theirs), ours, theirs)
    if chance.random() < 0.05:
        compare(name, lambda of: by_bytes(of) if isinstance(of, dict) else all_of(of), ours, theirs)


own = {"string": bytearray, "vec": list, "map": dict}
list_kinds = ["vec<string>", *(f"vec<{kind}>" for kind in ranges)]
map_kinds = ["map<u8,i64>", "map<i32,bool>", "map<bool,u64>", "map<u64,u8>", "map<i64,i32>", "map<u8,u8>"]
models = {kind: own[kind.split("<")[0]]() for kind in ["string", *list_kinds, *map_kinds]}
names, group, records = {}, {}, []
passes = 5


def contents(of):
    if isinstance(of, dict):
        return {name: bytes(model) if name == "string" else model for name, model in of.items()}
    return {name: bytes(of.object(name)) if name == "string" else of[name].copy() for name in models}


def run(segment):
    """A part of the calls to each object."""
    for _ in range(steps // passes // len(list_kinds)):
        change_list("records", segment.records("records", "<q"), records, lambda: scalar("i64"))
    for name, model in models.items():
        ours = segment.object(name)
        for _ in range(steps // passes // (len(list_kinds) if name.startswith("vec") else len(map_kinds))):
            if name == "string":
                change_string(name, ours, model)
            elif name.startswith("map"):
                change_map(name, ours, model, name[4:-1].split(","))
            else:
                change_list(name, ours, model, text if name == "vec<string>" else lambda: scalar(name[4:-1]))


for name in (path, path + ".names"):
    if os.path.exists(name):
        os.unlink(name)
with zaluxhoni.open(path, "x", size=1024, grow=True) as segment:
    for kind in models:
        segment.construct(kind, kind)
zaluxhoni.open(path + ".names", "x", size=1024).close()
shared = chance.random() < 0.5
for _ in range(passes):
    with zaluxhoni.open(path, "w", grow=True, check_same_thread=not shared) as segment:
        run(segment)
        if chance.random() < 0.5:
            segment.shrink()
        if segment.sanity() is not True:
            wrong += 1
    with zaluxhoni.open(path, "r") as segment:
        compare("all of it", contents, segment, models)
        compare("records", list, segment.records("records", "<q"), records)
    with zaluxhoni.open(path + ".names", "w", grow=True, check_same_thread=shared) as segment:
        segment.clear()
        names.clear()
        for _ in range(steps // passes // 2):
            change_names("names", segment, names)
        segment.clear()
        segment["aa"] = segment["group"] = segment["h"] = 1
        group.clear()
        for _ in range(steps // passes // 2):
            change_names("a group", segment.group("group/"), group)
        segment.group("group/").clear()
        if list(segment) != ["aa", "group", "h"] or segment.sanity() is not True:
            wrong += 1
            print(f"random_calls.py: WRONG names {list(segment)}")


# ---- transactions, of which some are undone, beside views

class Undone(Exception):
    """Leaves a transaction."""


class View:
    """A view of a vector, and what it shows: what the vector has, or what it had when it was left a copy."""

    def __init__(self, segment, name):
        self.name, self.values, self.view = name, None, segment[name].view()
        if not self.view:
            # it shows no memory
            self.name, self.values = None, []

    def shown(self, vectors):
        return vectors[self.name] if self.values is None else self.values


def leave(views, vectors):
    """Notes that views show the segment no more. Two of one vector still show the same memory."""
    left = {name: list(held) for name, held in vectors.items()}
    for each in views:
        if each.values is None:
            each.name, each.values = None, left[each.name]


def same(what, got, wanted):
    global wrong, calls
    calls += 1
    if got != wanted:
        wrong += 1
        print(f"random_calls.py: WRONG {what}: {got!r}"[:300] + f", not {wanted!r}"[:300])


def change_vectors(segment, vectors, views):
    name = chance.choice(list(vectors))
    held, way = vectors[name], chance.choice("sswwaxedvvr")
    try:
        if way == "s" and held:
            place, number = chance.randrange(len(held)), scalar("i64")
            segment[name][place] = held[place] = number
        elif way == "w" and views and (each := chance.choice(views)).shown(vectors):
            shown = each.shown(vectors)
            place, number = chance.randrange(len(shown)), scalar("i64")
            each.view[place] = shown[place] = number
        elif way in "ax":
            more = [scalar("i64") for _ in range(chance.choice((1, 3, 700)))]
            segment[name].extend(more)
            held += more
        elif way == "e" and held:
            del segment[name][-1]
            held.pop()
        elif way == "d":
            other = chance.choice("abcdefgh")
            if other in vectors and len(vectors) > 2:
                del segment[other]
                del vectors[other]
            elif other not in vectors:
                segment[other] = vectors[other] = [7] * chance.choice((1, 5, 600))
        elif way == "v" and len(views) < 8:
            views.append(View(segment, name))
        elif way == "r" and views:
            views.pop(chance.randrange(len(views)))
    except zaluxhoni.LentError:
        same("a refusal", any(each.name for each in views), True)


def step(segment, vectors, views, depth):
    """Makes random calls in a transaction, which may have another one within, and may be undone. Returns whether it was
    kept."""
    before = {name: list(held) for name, held in vectors.items()}
    try:
        with segment.transaction():
            for _ in range(chance.randint(0, 9)):
                change_vectors(segment, vectors, views)
                if depth < 3 and chance.random() < 0.15:
                    step(segment, vectors, views, depth + 1)
            if chance.random() < 0.5:
                raise Undone
        is_kept = True
    except Undone:
        is_kept = False
        leave(views, vectors)
        vectors.clear()
        vectors.update(before)
    look(segment, vectors, views, "a transaction")
    return is_kept


def look(segment, vectors, views, what):
    same(f"the vectors behind {what}", {name: segment[name].copy() for name in segment}, vectors)
    same(f"the views behind {what}", [each.view.tolist() for each in views], [each.shown(vectors) for each in views])
    same("its sanity", segment.sanity(), True)


def beside_views(named):
    """Opens a file again and again, and ends it in each way, while views of it stay."""
    vectors, views = {"a": [1, 2], "b": [3] * 1000}, []
    file = path + ".views"
    for each in (file, f"{file}-log"):
        if os.path.exists(each):
            os.unlink(each)
    with zaluxhoni.open(file, "x", size=chance.choice((65536, 1 << 20))) as segment:
        segment.update(vectors)
    for _ in range(passes):
        kept = {name: list(held) for name, held in vectors.items()}
        segment = zaluxhoni.open(file, "w", check_same_thread=chance.random() < 0.5, **named)
        for _ in range(steps // 300):
            for _ in range(chance.randint(0, 4)):
                change_vectors(segment, vectors, views)
            # the end of a transaction commits a durable file
            is_saved = step(segment, vectors, views, 1) and "durable" in named
            if chance.random() < 0.2:
                segment.flush()
                is_saved = True
            if is_saved:
                kept = {name: list(held) for name, held in vectors.items()}
        ends_well = chance.random() < 0.5
        segment.close() if ends_well else segment.discard()
        leave(views, vectors)
        if not ends_well and "mapped" not in named:
            vectors.clear()
            vectors.update(kept)
        with zaluxhoni.open(file, "r") as segment:
            look(segment, vectors, views, "the end of a file")
        for each in views:
            if each.values:
                each.view[0] = each.values[0] = 9


for way_of_file in ({}, {"mapped": True}, {"durable": True}):
    beside_views(way_of_file)
print(f"random_calls.py: {calls} calls, {wrong} wrong")
sys.exit(wrong != 0)
