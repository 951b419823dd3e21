"""killed_committers.py FOLDER COUNT C CPP: kills committers of one file at random moments.

A committer is a program in C, C++ or Python, chosen at random. In one transaction it adds 1 to two numbers of a durable
file. It repeats this until it is killed, and prints each number that it committed. The test kills COUNT committers, one
after the other, and checks after each that
- the next opening finds, in both numbers, the last number that was printed or the one after it;
- an opening for reading finds the same;
- the next committer continues from there."""
import os
import random
import select
import signal
import sys
import time

import zaluxhoni


def commit_in_python(path, said):
    while True:
        file = zaluxhoni.open(path, "w", durable=True)
        for _ in range(50):
            with file.transaction():
                file["n"] += 1
                file["m"] += 1
            os.write(said, b"%d\n" % file["n"])
        if random.random() < 0.5:
            file.close()
        else:
            file.discard()


def start(command, path, said):
    if command is not None:
        return os.posix_spawn(command, [command, path], os.environ, file_actions=[(os.POSIX_SPAWN_DUP2, said, 1)])
    child = os.fork()
    if child == 0:
        try:
            commit_in_python(path, said)
        except BaseException as error:
            os.write(said, b"WRONG %s\n" % repr(error).encode())
        finally:
            os._exit(1)
    return child


def numbers(said):
    rest = b""
    while True:
        more = os.read(said, 1 << 16)
        if not more:
            return rest.split(b"\n")[:-1]
        rest += more


def look(path, least):
    """Opens the file for reading, then for writing. Returns its number, `least` or one more, which both must find."""
    with zaluxhoni.open(path, "r") as file:
        read = file["n"], file["m"]
    # whoever looks at a killed process keeps its mapping, and so its lock, a moment longer
    file = zaluxhoni.open(path, "w", durable=True, timeout=600)
    written = file["n"], file["m"]
    file.discard()
    if read != written or read[0] != read[1] or not least <= read[0] <= least + 1:
        raise SystemExit(f"WRONG {least} was said, {read} is read, {written} is found")
    return read[0]


def main():
    folder, count, *commands = sys.argv[1:]
    path, last, kills = os.path.join(folder, "committed.seg"), 0, 0
    with zaluxhoni.open(path, "x", size=40000) as made:
        made["n"] = made["m"] = 0
        made["filling"] = os.urandom(10000).hex()
    random.seed(7)
    while kills < int(count):
        ends = os.pipe()
        pid = start(random.choice([*commands, None]), path, ends[1])
        os.close(ends[1])
        select.select([ends[0]], [], [], 60)
        time.sleep(random.random() * 0.004)
        os.kill(pid, signal.SIGKILL)
        os.waitpid(pid, 0)
        lines = numbers(ends[0])
        os.close(ends[0])
        if any(line.startswith(b"WRONG") for line in lines):
            raise SystemExit(f"WRONG {lines[-1].decode()}")
        for line in lines:
            if int(line) not in (last + 1, last + 2):
                raise SystemExit(f"WRONG {int(line)} is said behind {last}")
            last = int(line)
        last = look(path, last)
        kills += 1
    print(f"{kills} kills, {last} commits")


main()
