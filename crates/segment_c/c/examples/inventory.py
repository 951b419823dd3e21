"""An inventory: articles as records, prices in a map, names as texts, suppliers as a group. Each run sells an apple."""
import ctypes
import sys

import zaluxhoni

FIRST = (
    (1, "apples", 10, 0.25, 250, "north"),
    (2, "pears", 4, 0.5, 320, "south"),
    (3, "figs", 7, 0.125, 1999, "north"),
)


class Article(ctypes.Structure):
    _fields_ = [("number", ctypes.c_int32), ("count", ctypes.c_int32), ("weight", ctypes.c_double)]


def fill(shop: zaluxhoni.Segment) -> None:
    """Puts the first articles in, all or none."""
    with shop.transaction():
        articles, prices = shop.records("articles", Article), shop.map("prices", "i32", "i64")
        for number, name, count, weight, price, supplier in FIRST:
            articles.append((number, count, weight))
            prices[number] = price
            shop[f"names/{number}"] = name
            shop.vector(f"suppliers/{supplier}", "i32").append(number)


def sell(shop: zaluxhoni.Segment, number: int) -> None:
    """Sells one of an article: the count and what was earned change together."""
    with shop.transaction():
        articles = shop.records("articles", Article)
        for place, article in enumerate(articles):
            if article.number == number and article.count > 0:
                article.count -= 1
                articles[place] = article
                shop["earned"] = shop.get("earned", 0) + shop["prices"][number]


def report(shop: zaluxhoni.Segment) -> None:
    """Prints all of it."""
    for article in shop.records("articles", Article):
        name, price = shop[f"names/{article.number}"], shop["prices"][article.number]
        print(f"{article.number} {name}: {article.count} of {article.weight} kg at {price}")
    for supplier, numbers in shop.group("suppliers/").items():
        print(supplier, "sells", *numbers)
    print("earned", shop.get("earned", 0))


with zaluxhoni.open(sys.argv[1] if len(sys.argv) > 1 else "inventory.seg") as shop:
    if "articles" not in shop:
        fill(shop)
    sell(shop, 1)
    report(shop)
