"""python -m zaluxhoni FILE..: lists the objects of files, one in each line: its name, its kind and the front of its
value. Objects without a name have the key that finds them."""
from __future__ import annotations

import io
import signal
import sys
from typing import Iterator, List, Union

import zaluxhoni
from zaluxhoni._errors import shown


def lines_of(segment: zaluxhoni.Segment) -> Iterator[str]:
    """Goes over the objects with names, then over those that are the only ones of their kind."""
    keys: List[Union[str, zaluxhoni.ObjectKey]] = [*segment]
    keys += [zaluxhoni.unique(info.kind) for info in segment.unique()]
    for key in keys:
        info, value = segment.info(key), segment[key]
        kind = info.kind if info.count == 1 else f"{info.kind}[{info.count}]"
        front = value._front() if isinstance(value, zaluxhoni.Object) else shown(value)
        yield f"{key}\t{kind}\t{front}"


def main(paths: List[str]) -> int:
    if not paths or paths[0].startswith("-"):
        print("usage: python -m zaluxhoni FILE..", file=sys.stderr)
        return 2
    status = 0
    if isinstance(sys.stdout, io.TextIOWrapper):
        sys.stdout.reconfigure(errors="backslashreplace")
    for path in paths:
        try:
            with zaluxhoni.open(path, "r") as segment:
                for line in lines_of(segment):
                    print(line)
        except zaluxhoni.Error as error:
            print(f"zaluxhoni: {error}", file=sys.stderr)
            status = 1
    return status


if __name__ == "__main__":
    # who reads the list may end before it does
    signal.signal(signal.SIGPIPE, signal.SIG_DFL)
    sys.exit(main(sys.argv[1:]))
