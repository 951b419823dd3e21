"""killed_savers.py FOLDER COUNT SECONDS NAME=COMMAND..: kills savers of one file at random moments.

It kills COUNT of them, and stops earlier after so many seconds, if they are not 0. Two savers, of all pairs of the
names, add 1 to the number of one file, for ever; it kills one of them, or both, and starts others in their place. A
name is that of a language, with its file_driver, or `program`. It checks that
- after each kill the file is a segment;
- each file that is created is whole, and nothing is beside it;
- no two saves say the same number, and the file never has a smaller number than was said;
- whoever is not killed goes on;
- nothing else is in the folder after the file was opened for writing once more, mapped or not."""
import ctypes
import os
import random
import select
import shlex
import signal
import subprocess
import sys
import time

import file_driver
import zaluxhoni

# how long whoever is not killed may take to save: other programs may have the machine
WAIT = 600


class Saver:
    """A process that adds 1 to the number of a file, again and again, and says each number that it saved."""

    def __init__(self, name, command, path, word):
        self.name, ends = name, os.pipe()
        self.said, self.rest = ends[0], b""
        if name == "python" and word == "make":
            self.pid = self.forked(lambda: file_driver.make(path, ends[1]))
        elif name == "python":
            self.pid = self.forked(lambda: file_driver.loop(path, word == "loop-one", ends[1]))
        elif name == "program":
            self.pid = self.forked(lambda: run_program(command, path, ends[1]))
        else:
            self.pid = os.posix_spawn(shlex.split(command)[0], [*shlex.split(command), path, word], os.environ,
                                      file_actions=[(os.POSIX_SPAWN_DUP2, ends[1], 1)], setpgroup=0)
        os.close(ends[1])
        os.set_blocking(self.said, False)

    def forked(self, run):
        child = os.fork()
        if child == 0:
            os.setpgid(0, 0)
            # it ends with this script (PR_SET_PDEATHSIG)
            ctypes.CDLL(None).prctl(1, signal.SIGKILL)
            try:
                run()
            except BaseException as error:
                print(f"WRONG {self.name}: {error!r}", flush=True)
            finally:
                os._exit(1)
        try:
            os.setpgid(child, child)
        except OSError:
            pass
        return child

    def numbers(self):
        """What it said since it was asked last."""
        while True:
            try:
                more = os.read(self.said, 65536)
            except BlockingIOError:
                break
            if not more:
                break
            self.rest += more
        *lines, self.rest = self.rest.split(b"\n")
        return lines

    def kill(self):
        if self.pid is not None:
            os.killpg(self.pid, signal.SIGKILL)
            os.waitpid(self.pid, 0)
            self.pid = None

    def end(self):
        os.close(self.said)


def run_program(command, path, said):
    while True:
        run = subprocess.Popen([*shlex.split(command), "run", path, "--replace"], stdin=subprocess.PIPE,
                               stdout=subprocess.PIPE, stderr=subprocess.PIPE)
        try:
            run.stdin.write(b"get n 0\n")
            run.stdin.flush()
            number = run.stdout.readline()
            if number:
                run.stdin.write(b"set n 0 %d\n" % (int(number) + 1))
        except BrokenPipeError:
            number = b""
        _, errors = run.communicate()
        if run.returncode == 0 and number:
            os.write(said, b"%d\n" % (int(number) + 1))
        elif b"file in use" in errors:
            time.sleep(0.0001)
        else:
            os.write(said, b"WRONG " + errors.replace(b"\n", b" ") + b"\n")


class Wrong(Exception):
    pass


class Round:
    """One file, and its savers."""

    def __init__(self, folder, commands):
        self.folder, self.commands, self.path = folder, commands, os.path.join(folder, "file")
        self.most, self.seen, self.savers, self.kills = 0, set(), [], 0
        with zaluxhoni.open(self.path, "x", size=262144) as made:
            made["n"] = 0
            made["filling"] = os.urandom(50000).hex()

    def start(self, name):
        word = "loop-one" if random.random() < 0.3 else "loop"
        self.savers.append(Saver(name, self.commands[name], self.path, word))

    def hear(self, saver):
        for line in saver.numbers():
            if line.startswith(b"WRONG"):
                raise Wrong(f"{saver.name}: {line.decode()}")
            number = int(line)
            if number in self.seen:
                raise Wrong(f"{saver.name}: {number} is saved twice")
            self.seen.add(number)
            self.most = max(self.most, number)

    def look(self, unheard):
        """The file has the greatest number that was said, or one that was saved and not said."""
        for each in self.savers:
            self.hear(each)
        least = self.most
        with zaluxhoni.open(self.path, "r") as opened:
            number = opened["n"]
        if number < least:
            raise Wrong(f"the file has {number}, and {least} was saved")
        if unheard is not None and number > least + unheard:
            raise Wrong(f"the file has {number}, and {least} was said last, {unheard} were killed")
        return number

    def kill(self, chosen):
        for each in chosen:
            each.kill()
            self.kills += 1
        for each in chosen:
            self.hear(each)
            each.end()
            self.savers.remove(each)
        if self.savers:
            self.look(None)
            self.goes_on()
        else:
            # all savers that ever were are killed: each may have saved once more than it said
            number = self.look(len(chosen) + 1)
            self.most = number

    def goes_on(self):
        before, until = self.most, time.monotonic() + WAIT
        while self.most == before:
            select.select([each.said for each in self.savers], [], [], 0.05)
            for each in self.savers:
                self.hear(each)
            if time.monotonic() > until:
                raise Wrong(f"{[each.name for each in self.savers]} do not go on")

    def end(self):
        self.kill(list(self.savers))
        until = time.monotonic() + WAIT
        while True:
            # the program runs as a grandchild: after the kill it can live a moment longer, and leave its new file
            may_wait = "program" in self.commands and time.monotonic() < until
            zaluxhoni.open(self.path, "w", mapped=random.random() < 0.5, timeout=WAIT).close()
            beside = set(os.listdir(self.folder)) - {"file"}
            if not beside:
                break
            if not may_wait:
                raise Wrong(f"there is {beside} beside the file")
            time.sleep(0.001)


def kill_maker(folder, name, command):
    """Kills one that creates files: each file is whole, and those that it said have their number."""
    maker = Saver(name, command, os.path.join(folder, "made"), "make")
    time.sleep(random.random() * 0.03)
    maker.kill()
    said = {int(line) for line in maker.numbers()}
    maker.end()
    for each in os.listdir(folder):
        # what was left beside one of them goes when that is opened for writing
        if each.startswith("made"):
            zaluxhoni.open(os.path.join(folder, each), "w", mapped=random.random() < 0.5).close()
    for each in os.listdir(folder):
        if not each.startswith("made"):
            raise Wrong(f"there is {each} beside the files")
        with zaluxhoni.open(os.path.join(folder, each), "r") as opened:
            number = file_driver.get(opened)
        if number != int(each[4:]) and (number != 0 or int(each[4:]) in said):
            raise Wrong(f"{each} has {number}")
        os.remove(os.path.join(folder, each))


def main():
    folder, count, seconds, *named = sys.argv[1:]
    commands = dict(each.split("=", 1) for each in named)
    pairs = [(one, other) for one in commands for other in commands]
    until = time.monotonic() + float(seconds) if float(seconds) else None
    kills = rounds = 0
    by_pair = {}
    while kills < int(count) and (until is None or time.monotonic() < until):
        pair = pairs[rounds % len(pairs)]
        place = os.path.join(folder, f"round{rounds}")
        os.mkdir(place)
        rounds += 1
        each = Round(place, {name: commands[name] for name in pair})
        try:
            for name in pair:
                each.start(name)
            for _ in range(6):
                time.sleep(random.random() ** 2 * (0.06 if "program" in pair or "python" in pair else 0.02))
                chosen = random.sample(each.savers, 1 if random.random() < 0.75 else len(each.savers))
                names = [saver.name for saver in chosen]
                each.kill(chosen)
                for name in names:
                    each.start(name)
            each.end()
            for name in set(pair) - {"program"}:
                os.mkdir(os.path.join(place, "made"))
                kill_maker(os.path.join(place, "made"), name, commands[name])
                os.rmdir(os.path.join(place, "made"))
                each.kills += 1
        except (Wrong, zaluxhoni.Error, OSError) as error:
            print(f"WRONG {pair[0]} and {pair[1]}, in {place}: {error}")
            for saver in each.savers:
                saver.kill()
            return 1
        kills += each.kills
        by_pair[pair] = by_pair.get(pair, 0) + each.kills
        for name in os.listdir(place):
            os.remove(os.path.join(place, name))
        os.rmdir(place)
    print(f"killed_savers: {kills} kills in {rounds} rounds of {len(by_pair)} pairs, all files whole and nothing lost")
    return 0


if __name__ == "__main__":
    sys.exit(main())
