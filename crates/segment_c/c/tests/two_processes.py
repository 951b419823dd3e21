"""two_processes.py FOLDER NAME=COMMAND..: tries what two processes, or one alone, do with one file.

A name is that of a language, and its command a file_driver; with the name `program` it is the program `segment`, which
takes scripts. All pairs of them run each case of the table, or each of them alone if no B is in it, in a folder of its
own. A line of a case is

    A open MODE SIZE: ANSWER     what a driver answers (file_driver.c has the words); `A2` is its second file
    do WORDS                     what happens meanwhile, by a function do_.. of this script
    left NAME..                  what is in the folder, and nothing else is
"""
import os
import select
import shlex
import shutil
import signal
import socket
import subprocess
import sys
import time

# how long an answer may take: other programs may have the machine
SECONDS = 600

TABLE = """
= a second writer is told, and the lock goes over to the file that is saved
do seed 5
A open open_only 0: ok
B open open_only 0: in_use
B open open_or_create 1024: in_use
B open create_only 1024: exists
A get: 5
A set 6: ok
A save: ok
B open open_only 0: in_use
A set 7: ok
A close: ok
B open open_only 0: ok
B get: 7
B set 8: ok
B close: ok
A open open_only 0: ok
A get: 8
A discard: ok
left file

= a second writer is told, of the program too
do seed 5
A open open_only 0: ok
B open open_only 0: in_use
A set 6: ok
A close: ok
B open open_only 0: ok
B get: 6
A open open_only 0: in_use
B set 7: ok
B close: ok
A open open_read_only 0: ok
A get: 7
A discard: ok
left file

= readers are never refused
do seed 5
A open open_only 0: ok
A set 6: ok
B open open_read_only 0: ok
B get: 5
B set 7: read_only
B discard: ok
B open open_copy_on_write 0: ok
B set 8: ok
B close: ok
A close: ok
B open open_read_only 0: ok
B get: 6
B close: ok
left file

= a new file is owned at once
A open open_or_create 1024: ok
left file
B open open_only 0: in_use
B open open_or_create 1024: in_use
B open create_only 1024: exists
B open open_read_only 0: ok
B get: 0
B discard: ok
A set 5: ok
A save: ok
B open open_or_create 1024: in_use
A discard: ok
B open open_only 0: ok
B get: 5
B discard: ok
left file

= create_only is owned at once, and is gone where it is never saved
A open create_only 1024: ok
B open create_only 1024: exists
B open open_only 0: in_use
A set 5: ok
A discard: ok
left
B open create_only 1024: ok
B set 6: ok
B close: ok
A open create_only 1024: exists
left file

= a new file without changes is kept where it is closed
A open create_only 1024: ok
A close: ok
left file
B open open_only 0: ok
B get: 0
B discard: ok
left file

= whoever is killed loses the file, and what is not saved
do seed 5
A open open_only 0: ok
A set 6: ok
do kill A
B open open_only 0: ok
B get: 5
B discard: ok
left file

= whoever is killed behind a save has saved
do seed 5
A open open_only 0: ok
A set 6: ok
A save: ok
A set 7: ok
do kill A
B open open_only 0: ok
B get: 6
B discard: ok
left file

= whoever is killed before the first save leaves an empty segment
A open open_or_create 1024: ok
A set 5: ok
do kill A
B open open_or_create 1024: ok
B get: 0
B discard: ok
left file

= a child that sleeps has no lock
do seed 5
A open open_only 0: ok
A sleeper: ok
A set 6: ok
A close: ok
B open open_only 0: ok
B get: 6
B close: ok
left file

= a child that sleeps has no lock behind discard, nor behind a kill
do seed 5
A open open_only 0: ok
A sleeper: ok
A discard: ok
B open open_only 0: ok
B discard: ok
A open open_only 0: ok
A sleeper: ok
do kill A
B open open_only 0: ok
B discard: ok
left file

= a child saves nothing
do seed 5
A open open_only 0: ok
A fork 0 get, 0 set 9, 0 save, 0 close, 0 discard: 5, ok, forked, forked, ok
B open open_only 0: in_use
A set 6: ok
A close: ok
B open open_only 0: ok
B get: 6
B discard: ok
left file

= a child of Python changes nothing either
do seed 5
A open open_only 0: ok
A fork 0 get, 0 set 9, 0 save, 0 close, 0 discard: 5, forked, forked, forked, ok
B open open_only 0: in_use
A set 6: ok
A close: ok
B open open_only 0: ok
B get: 6
B discard: ok
left file

= a child opens what its parent has closed
do seed 5
A open open_only 0: ok
A close: ok
A fork 0 open open_only 0, 0 set 7, 0 close: ok, ok, ok
B open open_only 0: ok
B get: 7
B discard: ok
left file

= a link leads to one file
do seed 5
do link file soft
A open open_only 0 soft: ok
B open open_only 0: in_use
A set 6: ok
A save: ok
B open open_only 0: in_use
B open open_only 0 soft: in_use
A close: ok
do is_link soft
B open open_only 0: ok
B get: 6
B discard: ok
left file soft

= another name leads to one file, until it is saved
do seed 5
do other_name file other
A open open_only 0: ok
B open open_only 0 other: in_use
A set 6: ok
A close: ok
B open open_only 0 other: ok
B get: 5
B discard: ok
left file other

= another name gets the image where that is asked for
do seed 5
do other_name file other
A open open_only 0: ok
A set 6: ok
A saveas open_only other: ok
B open open_read_only 0 other: ok
B get: 6
B discard: ok
B open open_only 0: in_use
B open open_read_only 0: ok
B get: 5
B discard: ok
A close: ok
B open open_only 0: ok
B get: 6
B discard: ok
left file other

= a file that was put in the place of the one that was opened is left alone
do seed 5
do seed 50 other
A open open_only 0: ok
A set 6: ok
do rename other file
A save: replaced
A close: replaced
B open open_only 0: ok
B get: 50
B discard: ok
A discard: ok
left file

= a file that was removed is not made again
do seed 5
A open open_only 0: ok
A set 6: ok
do remove file
do stale file
A close: replaced
left .zaluxhoni-aad01178f02a6a23
do remove .zaluxhoni-aad01178f02a6a23
A saveas create_only other: ok
A discard: ok
left other

= a folder that was moved is the same folder
do seed 5 sub/file
A open open_only 0 sub/file: ok
A set 6: ok
do rename sub gone
A close: ok
A open open_only 0 gone/file: ok
A get: 6
A discard: ok
left gone
left_in gone file

= what stands in the place of FILE.new is left alone
do seed 5
do seed 70 victim
do link victim file.new
A open open_only 0: ok
A set 6: ok
A close: ok
do is_link file.new
A open open_read_only 0 victim: ok
A get: 70
A discard: ok
left file file.new victim

= a pipe in the place of FILE.new is left alone
do seed 5
do pipe file.new
A open open_only 0: ok
A set 6: ok
A close: ok
do is_pipe file.new
left file file.new

= rights stay
do seed 5
do rights file 600
A open open_only 0: ok
A set 6: ok
A save: ok
do has_rights file 600
do rights file 640
A set 7: ok
A close: ok
do has_rights file 640
left file

= the owner stays
do seed 5
do owner file 1234 4321
do rights file 664
A open open_only 0: ok
A set 6: ok
A close: ok
do has_owner file 1234 4321
do has_rights file 664
left file

= a folder that may not be read
do seed 5 sub/file
do rights sub 300
A open open_only 0 sub/file: ok
A set 6: ok
A close: ok
do rights sub 700
A open open_only 0 sub/file: ok
A get: 6
A discard: ok
left_in sub file

= a close without changes writes nothing
do seed 5
do note file
A open open_only 0: ok
A get: 5
A set 5: ok
A save: ok
A close: ok
do is_noted file
left file

= one that is open for reading is not saved
do seed 5
A open open_read_only 0: ok
A save: read_only
A close: ok
A open open_copy_on_write 0: ok
A set 6: ok
A save: read_only
A close: ok
A open open_only 0: ok
A get: 5
A discard: ok
left file

= two of one process
do seed 5
A open open_only 0: ok
A2 open open_only 0: in_use
A2 open open_read_only 0: ok
A set 6: ok
A close: ok
A2 get: 5
A2 discard: ok
A2 open open_only 0: ok
A2 get: 6
A2 discard: ok
left file

= two of one process that create one file
A open open_or_create 1024: ok
A2 open open_or_create 1024: in_use
A2 open create_only 1024: exists
A2 open open_read_only 0: ok
A2 get: 0
A2 discard: ok
A set 5: ok
A close: ok
A2 open open_or_create 1024: ok
A2 get: 5
A2 discard: ok
left file

= another file is not written over, and this one is saved by a new name
do seed 5
do seed 50 other
A open open_only 0: ok
A set 6: ok
A saveas create_only new: ok
A2 open open_read_only 0 new: ok
A2 get: 6
A2 discard: ok
A2 open open_read_only 0: ok
A2 get: 5
A2 discard: ok
A close: ok
left file new other

= no file
A open open_only 0: missing
A open open_read_only 0: missing
A open open_copy_on_write 0: missing
A open open_or_create 1024 none/file: missing
A open create_only 1024 none/file: missing
A open create_only 7: bad_size
A open open_or_create 7: bad_size
left

= a folder
do folder file
A open open_only 0: folder
A open open_or_create 1024: folder
A open open_read_only 0: folder
A open create_only 1024: exists
left file

= a device
A open open_only 0 /dev/zero: device
A open open_or_create 1024 /dev/null: device
A open open_read_only 0 /dev/zero: device
A open open_copy_on_write 0 /dev/null: device
left

= a pipe
do pipe file
A open open_only 0: pipe
A open open_or_create 1024: pipe
A open open_read_only 0: pipe
A open create_only 1024: exists
left file

= a socket
do socket file
A open open_only 0: pipe
A open open_read_only 0: pipe
left file

= a link that leads to nothing
do link none file
A open open_only 0: dangles
A open open_or_create 1024: dangles
A open open_read_only 0: dangles
A open create_only 1024: exists
left file

= a link that leads to itself
do link file file
A open open_only 0: fault 40
A open open_read_only 0: fault 40
left file

= a file of 100 GB
do sparse file 100000000000
A open open_only 0: too_large
A open open_read_only 0: too_large
A open open_copy_on_write 0: too_large
left file

= no images
do sparse file 0
A open open_only 0: image 1
A open open_or_create 1024: image 1
A open open_read_only 0: image 1
do sparse file 4096
A open open_only 0: image 2
A open open_read_only 0: image 2
left file

= a file that may not be written
do seed 5
do rights file 444
A open open_only 0: fault 13
A open open_or_create 1024: fault 13
A open open_read_only 0: ok
A get: 5
A discard: ok
do rights file 000
A open open_read_only 0: fault 13
left file

= a folder that may not be written
do seed 5 sub/file
do rights sub 500
A open open_only 0 sub/file: ok
A set 6: ok
A save: fault 13
A close: fault 13
A2 open create_only 1024 sub/new: fault 13
do rights sub 700
A close: ok
A open open_only 0 sub/file: ok
A get: 6
A discard: ok
left_in sub file

= a limit that a save goes past
do seed 5
A open open_only 0: ok
A set 6: ok
do limit A 512
A save: fault 27
A close: fault 27
do limit A -1
A2 open open_read_only 0: ok
A2 get: 5
A2 discard: ok
A close: ok
A open open_only 0: ok
A get: 6
A discard: ok
left file

= a limit that a new file goes past
do limit A 512
A open create_only 1024: fault 27
left
do limit A -1
A open create_only 1024: ok
A discard: ok
left

= a disk that is full
do on_small_disk
do seed 5 small/file
A open open_only 0 small/file: ok
A set 6: ok
do fill small
A save: fault 28
A close: fault 28
A2 open create_only 65536 small/new: fault 28
A2 open open_read_only 0 small/file: ok
A2 get: 5
A2 discard: ok
left_in small file filling
do remove small/filling
A close: ok
A open open_only 0 small/file: ok
A get: 6
A discard: ok
left_in small file
do remove small/file

= what one that was killed left beside is removed
do seed 5
do stale file
A open open_only 0: ok
left file
do stale file
A set 6: ok
A save: ok
left file
A discard: ok

= a new file that was replaced is left alone
do seed 50 other
A open create_only 1024: ok
do rename other file
A discard: ok
A open open_read_only 0: ok
A get: 50
A discard: ok
left file
"""


class Driver:
    """A process that answers commands."""
    verbs = None

    def __init__(self, command, folder):
        self.command, self.folder = shlex.split(command), folder
        self.start()

    def start(self):
        self.process = subprocess.Popen([*self.command, "file"], stdin=subprocess.PIPE, stdout=subprocess.PIPE)

    def ask(self, which, words, folder):
        verb, *rest = words.split(None, 1)
        if verb in ("open", "fork"):
            words = at_place(words, folder)
        if verb == "saveas":
            mode, name = rest[0].split()
            words = f"saveas {mode} {folder}/{name}"
        try:
            self.process.stdin.write(f"{which} {words}\n".encode())
            self.process.stdin.flush()
        except BrokenPipeError:
            self.start()
            return "ended"
        if not select.select([self.process.stdout], [], [], SECONDS)[0]:
            self.kill()
            return "no answer"
        return self.process.stdout.readline().decode().strip() or "ended"

    def kill(self):
        self.process.kill()
        self.process.wait()
        self.start()

    def limit(self, most):
        import resource
        resource.prlimit(self.process.pid, resource.RLIMIT_FSIZE, (most, -1))

    def clear(self, folder):
        for which in (0, 1):
            self.ask(which, "discard", folder)

    def end(self):
        self.process.stdin.close()
        self.process.wait()


class Program(Driver):
    """The program `segment`, of which each run is a process."""
    verbs = {"open", "get", "set", "close", "discard"}
    lines = {"file in use": "in_use", "file exists": "exists", "write fault": "fault", "size refused": "bad_size"}

    def start(self):
        self.process = None

    def ask(self, which, words, folder):
        verb, *rest = words.split()
        if verb == "open":
            return self.opened(*at_place(words, folder).split()[1:])
        if self.process is None:
            return "ok" if verb == "discard" else "closed"
        if verb == "get":
            said = self.said("get n 0")
            return "0" if said == "error 6 not found" else said
        if verb == "set":
            made = self.said(f"find_or_construct i64 n {rest[0]}")
            return "read_only" if made == "error 4 read only" else self.said(f"set n 0 {rest[0]}")
        if verb == "discard":
            self.kill()
            return "ok"
        return self.closed()

    def opened(self, mode, size, path):
        saves = [] if mode in ("open_read_only", "open_copy_on_write") else ["--replace"]
        self.process = subprocess.Popen([*self.command, "run", path, "--mode", mode, "--size", size, *saves],
                                        stdin=subprocess.PIPE, stdout=subprocess.PIPE, stderr=subprocess.PIPE)
        return "ok" if self.said("size").isdigit() else self.closed()

    def said(self, line):
        try:
            self.process.stdin.write(f"{line}\n".encode())
            self.process.stdin.flush()
        except BrokenPipeError:
            return ""
        return self.process.stdout.readline().decode().strip()

    def closed(self):
        process, self.process = self.process, None
        try:
            process.stdin.close()
        except BrokenPipeError:
            pass
        said = process.stderr.read().decode().strip()
        process.stdout.close()
        process.stderr.close()
        if process.wait() == 0:
            return "ok"
        return next((word for line, word in self.lines.items() if said.startswith(f"segment: {line}")), said)

    def kill(self):
        if self.process is not None:
            self.process.kill()
            self.closed()

    def clear(self, folder):
        self.kill()

    end = kill


def at_place(words, folder):
    """The words of an open with a path in the folder."""
    return ", ".join(open_at_place(each, folder) for each in words.split(", "))


def open_at_place(words, folder):
    words = words.split()
    at = words.index("open") if "open" in words else None
    if at is not None:
        name = words[at + 3] if len(words) > at + 3 else "file"
        words[at + 3:] = [os.path.join(folder, name)]
    return " ".join(words)


# ---- what happens beside

class Beside:
    def __init__(self, folder, peers, seeder, is_nobody):
        self.folder, self.peers, self.seeder, self.is_nobody, self.noted = folder, peers, seeder, is_nobody, None

    def give_away(self):
        """Gives all that is there to whom the driver became."""
        if self.is_nobody:
            for folder, _, names in os.walk(self.folder):
                for each in (".", *names):
                    os.lchown(os.path.join(folder, each), 65534, 65534)

    def at(self, name):
        return os.path.join(self.folder, name)

    def do_seed(self, number, name="file"):
        os.makedirs(os.path.dirname(self.at(name)), exist_ok=True)
        for words in (f"open create_only 1024 {name}", f"set {number}", "close"):
            assert self.seeder.ask(5, words, self.folder) == "ok", words

    def do_kill(self, who):
        self.peers[who].kill()

    def do_link(self, target, name):
        os.symlink(target, self.at(name))

    def do_is_link(self, name):
        assert os.path.islink(self.at(name)), f"{name} is no link"

    def do_other_name(self, name, other):
        os.link(self.at(name), self.at(other))

    def do_rename(self, name, other):
        os.rename(self.at(name), self.at(other))

    def do_remove(self, name):
        os.remove(self.at(name))

    def do_folder(self, name):
        os.mkdir(self.at(name))

    def do_pipe(self, name):
        os.mkfifo(self.at(name))

    def do_is_pipe(self, name):
        assert os.path.exists(self.at(name)) and not os.path.isfile(self.at(name)), f"{name} is no pipe"

    def do_socket(self, name):
        with socket.socket(socket.AF_UNIX) as made:
            made.bind(self.at(name))

    def do_sparse(self, name, size):
        with open(self.at(name), "wb") as file:
            file.truncate(int(size))

    def do_rights(self, name, mode):
        os.chmod(self.at(name), int(mode, 8))

    def do_has_rights(self, name, mode):
        has = os.stat(self.at(name)).st_mode & 0o7777
        assert has == int(mode, 8), f"{name} has rights {has:o}"

    def do_owner(self, name, user, group):
        os.chown(self.at(name), int(user), int(group))

    def do_has_owner(self, name, user, group):
        has = os.stat(self.at(name))
        assert (has.st_uid, has.st_gid) == (int(user), int(group)), f"{name} is of {has.st_uid}:{has.st_gid}"

    def do_note(self, name):
        self.noted = os.stat(self.at(name))

    def do_is_noted(self, name):
        now = os.stat(self.at(name))
        assert (now.st_ino, now.st_mtime_ns) == (self.noted.st_ino, self.noted.st_mtime_ns), f"{name} was written"

    def do_limit(self, who, most):
        self.peers[who].limit(int(most))

    def do_on_small_disk(self):
        os.symlink(os.environ["SMALL_DISK"], self.at("small"))

    def do_fill(self, folder):
        with open(self.at(folder) + "/filling", "wb", buffering=0) as file:
            for size in (65536, 4096):
                try:
                    while True:
                        file.write(b"f" * size)
                except OSError:
                    pass

    def do_stale(self, name):
        number = 0xcbf29ce484222325
        for byte in os.fsencode(name):
            number = (number ^ byte) * 0x100000001b3 % 2**64
        with open(self.at(f".zaluxhoni-{number:016x}"), "wb") as file:
            file.write(b"left")
        try:
            os.setxattr(self.at(name), "user.zaluxhoni", b"1")
        except OSError:
            pass

    def left(self, *names):
        return self.left_in(".", *names)

    def left_in(self, folder, *names):
        found = sorted(os.listdir(self.at(folder)))
        assert found == sorted(names), f"{folder} has {found}"


# ---- the cases

def cases():
    for each in TABLE.strip().split("\n\n"):
        name, *lines = each.split("\n")
        yield name.removeprefix("= "), lines


def needs(lines, who):
    """The verbs that a side of a case wants."""
    return {line.split()[1].rstrip(":") for line in lines if line.split()[0].rstrip("2") == who}


def goes(lines, peers):
    if any(line.startswith("A2") for line in lines) and isinstance(peers["A"], Program):
        return False
    if any(line.startswith("do limit") for line in lines) and isinstance(peers["A"], Program):
        return False
    # Python saves to a new name alone, and in a child it refuses a change, where C and C++ change a copy
    is_python = not isinstance(peers["A"], Program) and any("python" in word for word in peers["A"].command)
    if any(line.startswith("A saveas open_only") for line in lines) and is_python:
        return False
    if any("5, ok, forked" in line if is_python else "5, forked, forked, forked" in line for line in lines):
        return False
    # a file that the program makes is there when all of it is written
    makes = "A open open_or_create", "A open create_only"
    if any(line.startswith(makes) and line.endswith("ok") for line in lines) and isinstance(peers["A"], Program):
        return False
    alone = not any(line.startswith("B") for line in lines)
    if alone and isinstance(peers["A"], Program):
        return False
    return all(peer.verbs is None or needs(lines, who) <= peer.verbs for who, peer in peers.items())


def run(lines, beside, peers):
    for line in lines:
        first, _, rest = line.partition(" ")
        if first == "do":
            verb, *words = rest.split()
            getattr(beside, f"do_{verb}")(*words)
            beside.give_away()
        elif first in ("left", "left_in"):
            getattr(beside, first)(*rest.split())
        else:
            words, _, wanted = rest.rpartition(":")
            said = peers[first[0]].ask(1 if first.endswith("2") else 0, words, beside.folder)
            assert said == wanted.strip(), f"{line}, and not {said}"


def main():
    folder, *named = sys.argv[1:]
    commands = dict(each.split("=", 1) for each in named)
    sides = {side: {name: (Program if name == "program" else Driver)(command, folder)
                    for name, command in commands.items()} for side in "AB"}
    seeder = Driver(next(iter(commands.values())), folder)
    count = wrong = 0
    for name, lines in cases():
        if "do owner" in str(lines) and os.geteuid() != 0:
            continue
        if "do on_small_disk" in lines and not os.environ.get("SMALL_DISK"):
            continue
        # root may all, so what the system refuses is tried by another
        is_nobody = os.geteuid() == 0 and any(words in str(lines) for words in (": fault 13", "do rights sub"))
        alone = not any(line.startswith("B") for line in lines)
        for a, b in [(a, b) for a in commands for b in commands]:
            if alone and b != a:
                continue
            peers = {"A": sides["A"][a], "B": sides["B"][b]}
            if not goes(lines, peers):
                continue
            place = os.path.join(folder, str(count))
            os.mkdir(place)
            count += 1
            try:
                run(["A nobody: ok"] * is_nobody + lines, Beside(place, peers, seeder, is_nobody), peers)
            except (AssertionError, OSError) as error:
                wrong += 1
                print(f"WRONG {name}, {a if alone else a + ' and ' + b}: {error}")
            for peer in peers.values():
                peer.kill() if is_nobody else peer.clear(place)
            for each, _, _ in os.walk(place):
                os.chmod(each, 0o700)
            shutil.rmtree(place)
    for side in sides.values():
        for peer in side.values():
            peer.end()
    seeder.end()
    print(f"two_processes: {count} cases, {wrong} wrong")
    return wrong != 0


if __name__ == "__main__":
    sys.exit(main())
