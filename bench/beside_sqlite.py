"""The package for Python beside sqlite3, list and dict, in one run: nanoseconds of the processor for each element, the
least of ROUNDS rounds (7), taken in turn. Run it as PYTHONPATH=FOLDER python3 bench/beside_sqlite.py, where FOLDER is
what crates/segment_c/c/build.sh made."""
import array
import os
import random
import sqlite3
import time

import zaluxhoni

MANY, FEW, NAMES, LOOKS = 100000, 1000, 20000, 10000
rounds = int(os.environ.get("ROUNDS", "7"))
chance = random.Random(1)
keys = chance.sample(range(MANY), LOOKS)
few_keys = [chance.randrange(FEW) for _ in range(LOOKS)]
numbers = [chance.randint(10**6, 10**9) for _ in range(MANY)]
texts = [f"text {number}" for number in range(MANY)]

db = sqlite3.connect(":memory:")
db.execute("create table pairs (key integer primary key, value integer)")
db.executemany("insert into pairs values (?, ?)", ((key, 3 * key) for key in range(MANY)))
db.execute("create table few (key integer primary key, value integer)")
db.executemany("insert into few values (?, ?)", ((key, 3 * key) for key in range(FEW)))
db.execute("create table names (name text primary key, value integer) without rowid")
db.executemany("insert into names values (?, ?)", ((f"name {number:06}", number) for number in range(NAMES)))
db.execute("create table new_names (name text primary key, value integer) without rowid")
db.commit()
shop = zaluxhoni.create(2**26)
shop["pairs"] = {key: 3 * key for key in range(MANY)}
shop["few"] = {key: 3 * key for key in range(FEW)}
shop["numbers"], shop["texts"] = numbers, texts
few = shop["few"]
named = zaluxhoni.create(2**24)
named.reserve_named(NAMES)
fresh = zaluxhoni.create(2**20)
for number in range(NAMES):
    named[f"name {number:06}"] = number
pairs, vector, strings, plain = shop["pairs"], shop["numbers"], shop["texts"], {key: 3 * key for key in range(MANY)}


def each(values):
    for _ in values:
        pass


def looks(of, keys=keys):
    for key in keys:
        of[key]


def puts(of):
    for key in keys:
        of[key] = key


def sql_looks(table="pairs", keys=keys):
    for key in keys:
        db.execute(f"select value from {table} where key = ?", (key,)).fetchone()[0]


def sql_puts():
    for key in keys:
        db.execute("insert or replace into pairs values (?, ?)", (key, key))


def new_names(of):
    of.clear()
    for number in range(FEW):
        of[f"new name {number:06}"] = number


def name_puts(of):
    for key in few_keys:
        of[f"name {key:06}"] = key


def name_looks(of):
    for key in few_keys:
        of[f"name {key:06}"]


def sql_new_names():
    db.execute("delete from new_names")
    for number in range(FEW):
        db.execute("insert into new_names values (?, ?)", (f"new name {number:06}", number))


def sql_name_puts():
    for key in few_keys:
        db.execute("insert or replace into names values (?, ?)", (f"name {key:06}", key))


def sql_name_looks():
    for key in few_keys:
        db.execute("select value from names where name = ?", (f"name {key:06}",)).fetchone()[0]


def appends(of):
    for key in keys:
        of.append(key)


def extends(of, values):
    of.clear()
    of.extend(values)


copy_of_numbers, ours, theirs = array.array("q", numbers), shop.vector("new", "i64"), []
cases = [
    ("m[k] of 1,000", LOOKS, lambda: looks(few, few_keys), "sqlite3", lambda: sql_looks("few", few_keys)),
    ("m[k] of 100,000", LOOKS, lambda: looks(pairs), "sqlite3", sql_looks),
    ("m[k] of 100,000", LOOKS, lambda: looks(pairs), "dict", lambda: looks(plain)),
    ("m[k] = v", LOOKS, lambda: puts(pairs), "sqlite3", sql_puts),
    ("items()", MANY, lambda: each(pairs.items()), "sqlite3", lambda: each(db.execute("select key, value from pairs"))),
    ("items() of names", NAMES, lambda: each(named.items()), "sqlite3",
     lambda: each(db.execute("select name, value from names order by name"))),
    ("s[name] = n of 1,000 new names", FEW, lambda: new_names(fresh), "sqlite3", sql_new_names),
    ("s[name] = n", LOOKS, lambda: name_puts(named), "sqlite3", sql_name_puts),
    ("s[name]", LOOKS, lambda: name_looks(named), "sqlite3", sql_name_looks),
    ("extend by a range", MANY, lambda: extends(ours, range(MANY)), "list", lambda: extends(theirs, range(MANY))),
    ("extend by a list", MANY, lambda: extends(ours, numbers), "list", lambda: extends(theirs, numbers)),
    ("extend by an array", MANY, lambda: extends(ours, copy_of_numbers), "list",
     lambda: extends(theirs, copy_of_numbers)),
    ("append", LOOKS, lambda: appends(ours), "list", lambda: appends(theirs)),
    ("v[i]", LOOKS, lambda: looks(vector), "list", lambda: looks(numbers)),
    ("list(v)", MANY, lambda: list(vector), "list of an array", lambda: list(copy_of_numbers)),
    ("list(strings)", MANY, lambda: list(strings), "list", lambda: list(texts)),
]
print("| Calls | How many | Ours, ns each | Beside | Its ns each | Ratio |\n|---|---|---|---|---|---|")
for name, count, mine, beside, other in cases:
    least = [float("inf")] * 2
    for _ in range(rounds):
        for place, call in enumerate((mine, other)):
            begin = time.thread_time()
            call()
            least[place] = min(least[place], time.thread_time() - begin)
    spent = [seconds / count * 1e9 for seconds in least]
    print(f"| {name} | {count} | {spent[0]:.0f} | {beside} | {spent[1]:.0f} | {spent[0] / spent[1]:.2f} |")
