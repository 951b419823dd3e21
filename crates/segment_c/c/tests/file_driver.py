"""file_driver.py FILE..: what file_driver.c does, by the package for Python."""
import os
import signal
import sys
import time
import warnings

import zaluxhoni

MODES = {"create_only": "x", "open_only": "w", "open_or_create": "c", "open_read_only": "r", "open_copy_on_write": "p"}
WORDS = {4: "read_only", 16: "closed", 22: "bad_size", 26: "no_memory", 40: "none", 41: "is_open", 42: "in_use",
         43: "exists", 44: "missing", 45: "dangles", 46: "folder", 47: "device", 48: "pipe", 49: "too_large",
         51: "replaced", 52: "unsynced", 53: "forked"}
SYSTEM = {"BlockingIOError": "in_use", "FileExistsError": "exists", "FileNotFoundError": "missing",
          "IsADirectoryError": "folder"}
files, paths = {}, sys.argv[1:2]


def word_of(error):
    code = getattr(error, "code", None)
    if code in WORDS:
        return WORDS[code]
    if code is not None and code > 100:
        return f"image {code - 100}"
    for kind in type(error).__mro__:
        if kind.__name__ in SYSTEM:
            return SYSTEM[kind.__name__]
    return f"fault {error.errno}" if isinstance(error, OSError) else f"{type(error).__name__}: {error}"


def get(segment):
    return segment["n"] if "n" in segment else 0


def answer(line):
    which, verb, *words = line.split(None, 2)
    rest = words[0] if words else ""
    words = rest.split()
    try:
        if verb == "open":
            at = words[2] if len(words) > 2 else paths[0]
            files[which] = zaluxhoni.open(at, MODES[words[0]], size=int(words[1]))
        elif verb == "get":
            return str(get(files[which]))
        elif verb == "set":
            files[which]["n"] = int(words[0])
        elif verb == "saveas":
            files[which].save_as(words[1])
        elif verb == "fork":
            return answer_in_child(rest)
        elif verb == "sleeper":
            sleeper()
        elif verb == "nobody":
            os.setgroups([])
            os.setgid(65534)
            os.setuid(65534)
        elif which in files:
            getattr(files[which], verb)()
        elif verb != "discard":
            return "closed"
        return "ok"
    except (zaluxhoni.Error, OSError, ValueError, MemoryError) as error:
        return word_of(error)


def sleeper():
    """A child that sleeps; it has started when this is done."""
    ours, theirs = os.pipe()
    if os.fork() == 0:
        for each in (0, 1, 2, ours, theirs):
            os.close(each)
        time.sleep(60)
        os._exit(0)
    os.close(theirs)
    os.read(ours, 1)
    os.close(ours)


def answer_in_child(lines):
    ours, theirs = os.pipe()
    child = os.fork()
    if child == 0:
        os.write(theirs, ", ".join(answer(line) for line in lines.split(",")).encode())
        os._exit(0)
    os.close(theirs)
    with os.fdopen(ours) as said:
        answers = said.read()
    os.waitpid(child, 0)
    return answers


def loop(path, by_one_file, said):
    """Adds 1 for ever; the number is written when it is saved."""
    segment = None
    while True:
        try:
            if segment is None:
                segment = zaluxhoni.open(path, "w")
            number = get(segment) + 1
            segment["n"] = number
            if by_one_file:
                segment.save()
            else:
                segment.close()
                segment = None
        except zaluxhoni.FileInUseError:
            time.sleep(0.0001)
            continue
        except (zaluxhoni.Error, OSError) as error:
            os.write(said, f"WRONG {word_of(error)}\n".encode())
            os._exit(1)
        os.write(said, b"%d\n" % number)


def make(path, said):
    """Creates files for ever, FILE with a number behind; each has that number, which is written when it is closed."""
    number = 0
    while True:
        number += 1
        try:
            with zaluxhoni.open(f"{path}{number}", "x", size=65536) as segment:
                segment["n"] = number
        except (zaluxhoni.Error, OSError) as error:
            os.write(said, f"WRONG {word_of(error)}\n".encode())
        os.write(said, b"%d\n" % number)


def main():
    warnings.simplefilter("ignore", ResourceWarning)
    signal.signal(signal.SIGXFSZ, signal.SIG_IGN)
    if len(sys.argv) > 2:
        loop(paths[0], sys.argv[2] == "loop-one", 1)
    for line in sys.stdin:
        print(answer(line), flush=True)


if __name__ == "__main__":
    main()
