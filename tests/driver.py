"""driver.py LIBRARY FILE: what driver.c does, by the package for Python in the folder LIBRARY."""
import os
import sys
import warnings

sys.dont_write_bytecode = True
sys.path.insert(0, sys.argv[1])
import zaluxhoni

MODES = {"create": "x", "write": "w", "read": "r"}


def main():
    warnings.simplefilter("ignore")
    segment, path = None, os.fsencode(sys.argv[2])
    for line in sys.stdin:
        verb, *words = line.split()
        try:
            if verb == "open":
                options = {"durable": words[1] == "durable", "mapped": words[1] == "mapped"}
                options |= {"size": int(words[2])} if words[2:] else {}
                segment = zaluxhoni.open(path, MODES[words[0]], **{name: it for name, it in options.items() if it})
            elif verb == "set":
                segment["earned"] = int(words[0])
            elif verb == "get":
                print(segment["earned"], flush=True)
                continue
            else:
                getattr(segment, verb)()
            print("ok", flush=True)
        except (zaluxhoni.Error, OSError, ValueError) as error:
            print(f"refused: {type(error).__name__}: {error}", flush=True)
            break
    if segment is not None and segment.is_open:
        segment.discard()


main()
