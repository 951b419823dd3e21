"""A program of a user that mypy --strict takes: each public name where its type matters. It is checked, and run."""
from __future__ import annotations

import ctypes
from typing import Dict, List, Optional, Tuple, Union

import zaluxhoni


class Point(ctypes.Structure):
    _fields_ = [("x", ctypes.c_double), ("y", ctypes.c_double)]


def total(prices: zaluxhoni.Map) -> int:
    return sum(prices.values())


def texts_of(segment: zaluxhoni.Segment) -> List[str]:
    return [text.upper() for text in segment.strings("texts")]


def wrong_kinds(segment: zaluxhoni.Segment) -> None:
    """What mypy refuses: it says so where one of these comments is not needed."""
    number: int = segment.strings("texts")[0]  # type: ignore[assignment]
    text: str = segment.vector("queue")[0]  # type: ignore[assignment]
    part: int = segment.vector("queue")[:1]  # type: ignore[assignment]
    value: str = segment.map("prices")[7]  # type: ignore[assignment]
    maybe: int = segment.map("prices").get(7)  # type: ignore[assignment]
    made: zaluxhoni.Vector = segment.construct("string", "made")  # type: ignore[assignment]
    found: zaluxhoni.Map = segment.find("vec<i64>", "queue")  # type: ignore[assignment]
    key: int = next(iter(segment.items()))[0]  # type: ignore[assignment]
    pair: Tuple[str, int] = next(segment.map("prices").range(1, 9))  # type: ignore[assignment]
    segment.foo = 1  # type: ignore[attr-defined]
    print(number, text, part, value, maybe, made, found, key, pair)


def right_kinds(segment: zaluxhoni.Segment, kind: str) -> None:
    text: str = segment.strings("texts")[0]
    texts: List[str] = segment.strings("texts")[:1]
    number: int = segment.vector("queue")[0]
    numbers: List[int] = segment.vector("queue")[::2]
    byte: int = segment.string("text")[0]
    part: bytes = segment.string("text")[1:]
    price: int = segment.map("prices", "i32", "i64").get(1, 0)
    word: Union[int, str] = segment.map("prices", "i32", "i64").get(1, "none")
    made: zaluxhoni.Map = segment.construct("map<i32,i64>", "of kinds", {1: 2})
    array: zaluxhoni.Array = segment.construct("i64", None, 5)
    texts_made: zaluxhoni.Strings = segment.find_or_construct("vec<string>", "texts")
    maybe: Optional[zaluxhoni.Vector] = segment.find("vec<i64>", "queue")
    any_kind = segment.construct(kind, None)
    pairs: List[Tuple[int, int]] = list(made.range(1)) + list(made.items())
    keys: List[str] = [name for name, _ in segment.items()]
    with segment.transaction() as same:
        same["n"] = number
    assert (text, texts, number, numbers) == ("ONE", ["ONE"], 1, [1]) and (byte, part) == (116, b"ext")
    assert (price, word, array[0], len(texts_made)) == (0, "none", 5, 1) and maybe is not None and "queue" in keys
    assert (any_kind.kind, pairs, segment.pop("of kinds")) == ("vec<u8>", [(1, 2)] * 2, {1: 2})


def main() -> None:
    segment: zaluxhoni.Segment
    with zaluxhoni.create(4096, grow=True) as segment:
        prices = segment.map("prices", "i32", "i64")
        prices[7] = 250
        prices.update({8: 300})
        pair: Optional[Tuple[int, int]] = prices.first()
        found: Optional[int] = prices.get(9)
        queue: zaluxhoni.Vector = segment.vector("queue", "i64")
        queue.extend([1, 2, 3])
        last: int = queue.pop()
        segment.strings("texts").append("one")
        segment.string("text").assign("text")
        names: List[str] = [name for name in segment]
        group: zaluxhoni.Group = segment.group("more/")
        group["n"] = 5
        kinds: Dict[str, str] = {info.name: info.kind for info in segment.named() if info.name is not None}
        points: zaluxhoni.Records = segment.records("points", Point)
        points.append(Point(1.0, 2.0))
        try:
            with segment.transaction():
                segment["n"] = 1
                segment[zaluxhoni.unique("u64")]
        except zaluxhoni.NotFoundError as error:
            code: Optional[int] = error.code
        assert (pair, found, last, total(prices), texts_of(segment)) == ((7, 250), None, 3, 550, ["ONE"])
        assert names == ["prices", "queue", "text", "texts"] and kinds["more/n"] == "i64" and code == 6
        assert segment.get("n") is None and points[0].y == 2.0
        segment["texts"] = ["ONE"]
        segment["queue"] = [1]
        right_kinds(segment, "vec<u8>")
        image: bytes = segment.image()
    zaluxhoni.check(image)


main()
