"""What the program asks of the system for a file and its log, call by call: in which order, and what it does where a call
fails, or where another comes between. A program is stopped (ptrace) at each of its calls, and a call may be answered in the
system's place. ZALUXHONI_PROGRAM is the program, or else the one that rt made of crates/segment.
"""
import ctypes
import errno
import fcntl
import os
import platform
import signal
import struct
import subprocess
import sys
import tempfile

import pytest

TOP = os.path.dirname(os.path.dirname(os.path.realpath(__file__)))
PROGRAM = os.path.realpath(os.environ.get("ZALUXHONI_PROGRAM", f"{TOP}/crates/segment/out/segment"))
LOG_OF = f"{TOP}/.ci/log-of"
# of ptrace: its requests, and what tells a stop at a call of the system from one by a signal
TRACE_ME, NEXT_CALL, GET_REGISTERS, SET_REGISTERS, OPTIONS, CALL_INFO = 0, 24, 12, 13, 0x4200, 0x420E
AT_CALL = signal.SIGTRAP | 0x80
CALLS = {
    0: "read", 1: "write", 2: "open", 17: "pread", 18: "pwrite", 73: "flock", 74: "fsync", 75: "fdatasync", 76: "truncate",
    77: "ftruncate", 82: "rename", 86: "link", 87: "unlink", 257: "open", 263: "unlink", 264: "rename", 265: "link",
    316: "rename",
}
PATHS = {2: (0,), 82: (0, 1), 86: (0, 1), 87: (0,), 257: (1,), 263: (1,), 264: (1, 3), 265: (1, 3), 316: (1, 3)}
OF_FILES = {0, 1, 17, 18, 73, 74, 75, 77}
ptrace = ctypes.CDLL(None).ptrace
ptrace.argtypes = [ctypes.c_long, ctypes.c_long, ctypes.c_void_p, ctypes.c_void_p]
pytestmark = pytest.mark.skipif(platform.machine() != "x86_64", reason="the calls of another machine have other numbers")


class Ended(Exception):
    """The program is killed in front of a call."""


class Traced:
    """A run of the program that is stopped in front of each of its calls of the system. `before` is asked with the name
    of the call and the names of its files, their last parts; it may answer with a number of an error, and the call is not
    made and fails so. `with_words` is told the words of the call and the process too. The run keeps the calls that have a
    name in CALLS."""

    def __init__(self, words, before=lambda call, names: None, user=None, with_words=None):
        self.before, self.with_words, self.calls = before, with_words, []
        out, err = tempfile.TemporaryFile(), tempfile.TemporaryFile()

        def first():
            if user is not None:
                os.setgroups([])
                os.setgid(user)
                os.setuid(user)
            ptrace(TRACE_ME, 0, None, None)

        self.process = subprocess.Popen([PROGRAM, *words], stdin=subprocess.DEVNULL, stdout=out, stderr=err, preexec_fn=first)
        self.at = self.process.pid
        state = os.waitpid(self.at, 0)[1]
        ptrace(OPTIONS, self.at, None, 0x100001)
        try:
            while os.WIFSTOPPED(state):
                state = self.stopped(os.WSTOPSIG(state))
            self.status = self.process.returncode = os.waitstatus_to_exitcode(state)
        except Ended:
            os.kill(self.at, signal.SIGKILL)
            while os.WIFSTOPPED(os.waitpid(self.at, 0)[1]):
                pass
            self.status = self.process.returncode = -signal.SIGKILL
        out.seek(0)
        err.seek(0)
        self.out, self.err = out.read().decode(), err.read().decode()

    def go_on(self, sent=0):
        ptrace(NEXT_CALL, self.at, None, sent)
        return os.waitpid(self.at, 0)[1]

    def stopped(self, why):
        if why != AT_CALL:
            return self.go_on(0 if why == signal.SIGTRAP else why)
        info = ctypes.create_string_buffer(96)
        ptrace(CALL_INFO, self.at, len(info), ctypes.addressof(info))
        if info.raw[0] != 1:
            return self.go_on()
        number, *words = struct.unpack_from("7Q", info, 24)
        if number not in CALLS:
            return self.go_on()
        names = self.names(number, words)
        self.calls.append((CALLS[number], *names))
        if self.with_words is not None:
            self.with_words(CALLS[number], names, words, self.at)
        answer = self.before(CALLS[number], names)
        return self.go_on() if answer is None else self.answered(answer)

    def names(self, number, words):
        if number in OF_FILES:
            try:
                return [os.path.basename(os.readlink(f"/proc/{self.at}/fd/{words[0] & 0xFFFFFFFF}"))]
            except OSError:
                return ["?"]
        return [os.path.basename(self.text(words[at])) for at in PATHS.get(number, ())]

    def text(self, at):
        with open(f"/proc/{self.at}/mem", "rb", buffering=0) as memory:
            found = os.pread(memory.fileno(), 4096 - at % 4096, at)
            if b"\0" not in found:
                found += os.pread(memory.fileno(), 4096, at + len(found))
        return os.fsdecode(found.split(b"\0")[0])

    def answered(self, number):
        """The call is made as one that is not there, and its answer is that error, or 0."""
        registers = (ctypes.c_ulonglong * 27)()
        ptrace(GET_REGISTERS, self.at, None, ctypes.addressof(registers))
        registers[15] = 2**64 - 1
        ptrace(SET_REGISTERS, self.at, None, ctypes.addressof(registers))
        state = self.go_on()
        assert os.WIFSTOPPED(state) and os.WSTOPSIG(state) == AT_CALL
        ptrace(GET_REGISTERS, self.at, None, ctypes.addressof(registers))
        registers[10] = (2**64 - number) % 2**64
        ptrace(SET_REGISTERS, self.at, None, ctypes.addressof(registers))
        return self.go_on()


def segment(*words, **more):
    return subprocess.run([PROGRAM, *words], stdin=subprocess.DEVNULL, capture_output=True, text=True, **more)


def number(path="a.seg"):
    """The number n in a file, or what the program says."""
    found = segment("run", path, "-r", "-c", "show n")
    return int(found.stdout.split()[1]) if found.stdout.startswith("i64") else found.stdout + found.stderr


def read(path):
    with open(path, "rb") as file:
        return file.read()


def images(count):
    """The images of one file, whose number n is 1, 2 and so on."""
    assert segment("create", "n.seg", "4096").returncode == 0
    assert segment("run", "n.seg", "-c", "construct i64 n 1").returncode == 0
    found = [read("n.seg")]
    for n in range(2, count + 1):
        assert segment("run", "n.seg", "-c", f"set n 0 {n}").returncode == 0
        found.append(read("n.seg"))
    os.remove("n.seg")
    return found


def log_of(made):
    names = []
    for at, image in enumerate(made):
        names.append(f"image-{at}")
        with open(names[-1], "wb") as file:
            file.write(image)
    found = subprocess.run([LOG_OF, *names], stdout=subprocess.PIPE, check=True).stdout
    for name in names:
        os.remove(name)
    return found


def put(path, found):
    if os.path.lexists(path):
        os.remove(path)
    with open(path, "wb") as file:
        file.write(found)


@pytest.fixture(autouse=True)
def folder(tmp_path, monkeypatch):
    monkeypatch.chdir(tmp_path)


@pytest.fixture
def made():
    """The images with the numbers 1, 2 and 3; the file has the first."""
    found = images(3)
    put("a.seg", found[0])
    return found


def hidden():
    return [name for name in os.listdir(".") if name.startswith(".zaluxhoni-")]


# ---- a log without a record, as a checkpoint leaves it that was killed

CHANGES = ("write", "pwrite", "fsync", "fdatasync", "ftruncate", "rename", "unlink")
SAVERS = [["-c", "size"], ["--replace", "-c", "size"], ["--commit", "-c", "size"], ["--commit", "-c", "set n 0 9"]]


def changes_of(run, name):
    return [call for call, *names in run.calls if name in names and call in CHANGES]


@pytest.mark.parametrize("words", SAVERS, ids=" ".join)
def test_a_shut_log_is_shut_anew_synced_and_removed(made, words):
    """The gate may be shut in the cache alone: who opens the file for writing shuts it, syncs it, and then removes it."""
    log = log_of(made)
    put("a.seg-log", b"\0" + log[1:])
    run = Traced(["run", "a.seg", *words])
    assert run.status == 0, run.err
    assert changes_of(run, "a.seg-log")[:3] == ["pwrite", "fsync", "unlink"]
    assert os.path.exists("a.seg-log") == ("set n 0 9" in words)
    assert number() == (9 if "set n 0 9" in words else 1)


@pytest.mark.parametrize("words", SAVERS, ids=" ".join)
def test_a_log_that_a_killed_checkpoint_left_is_removed(made, words):
    put("a.seg-log", log_of(made))

    def end(call, names):
        if call == "fsync" and names == ["a.seg-log"]:
            raise Ended

    assert Traced(["run", "a.seg", "-c", "size"], end).status == -signal.SIGKILL
    assert read("a.seg-log")[0] == 0
    run = Traced(["run", "a.seg", *words])
    assert run.status == 0, run.err
    assert changes_of(run, "a.seg-log")[:3] == ["pwrite", "fsync", "unlink"]
    assert number() == (9 if "set n 0 9" in words else 3)


def test_a_log_that_is_not_synced_bars_the_file(made):
    """What can't be shut for good may come back open: the file is not written."""
    log = b"\0" + log_of(made)[1:]
    put("a.seg-log", log)
    run = Traced(
        ["run", "a.seg", "--verbose", "-c", "set n 0 9"],
        lambda call, names: errno.EIO if call == "fsync" and names == ["a.seg-log"] else None,
    )
    assert run.status == 3 and "write fault" in run.err
    assert read("a.seg") == made[0] and read("a.seg-log") == log


# ---- a file that is made

MAKERS = [["create", "a.seg", "4096"], ["create", "a.seg", "4096", "--replace"]]


@pytest.mark.parametrize("words", MAKERS, ids=" ".join)
def test_what_takes_the_name_of_a_file_that_is_made_stays(made, words):
    """In front of each call another file takes the name, and has a log: both stay."""
    log = log_of(made)
    at, is_there, taken = 0, True, 0
    while is_there:
        at, is_there, is_taken, calls = at + 1, False, False, 0
        for name in ("a.seg", "a.seg-log"):
            if os.path.lexists(name):
                os.remove(name)

        def before(call, names):
            nonlocal is_there, is_taken, calls
            calls += 1
            if calls == at:
                is_there = True
                if os.path.exists("a.seg"):
                    is_taken = True
                    put("next.seg", made[0])
                    os.rename("next.seg", "a.seg")
                    put("a.seg-log", log)

        Traced(words, before)
        if is_taken:
            taken += 1
            assert read("a.seg") == made[0] and read("a.seg-log") == log, f"behind call {at}"
        assert hidden() == []
    assert taken > 0


@pytest.mark.parametrize("words", MAKERS, ids=" ".join)
def test_a_log_that_comes_before_the_name_is_looked_at_behind_it(made, words):
    """A log with commits comes in front of the call that makes the name: nothing is made, and the log stays."""
    log = log_of(made)
    os.remove("a.seg")

    def before(call, names):
        if call in ("open", "link") and "a.seg" in names:
            put("a.seg-log", log)

    run = Traced([*words, "--verbose"], before)
    assert run.status == 3
    assert "has commits of a file that is gone; remove or rename it" in run.err
    assert os.listdir(".") == ["a.seg-log"] and read("a.seg-log") == log


@pytest.mark.parametrize("words", MAKERS, ids=" ".join)
def test_the_folder_is_synced_behind_the_name(words):
    run = Traced(words)
    assert run.status == 0
    named = max(at for at, call in enumerate(run.calls) if call[0] in ("open", "link") and "a.seg" in call)
    folder = os.path.basename(os.getcwd())
    assert ("fsync", folder) in run.calls[named:]


def test_a_name_without_a_second_one_is_kept_under_a_lock():
    """Where a file has one name alone, an empty file keeps it, which nobody else can lock."""
    seen = []

    def before(call, names):
        if call == "link":
            return errno.EPERM
        if call == "rename":
            with open("a.seg", "rb") as kept, pytest.raises(BlockingIOError):
                fcntl.flock(kept, fcntl.LOCK_EX | fcntl.LOCK_NB)
            seen.append(os.path.getsize("a.seg"))
        return None

    assert Traced(["create", "a.seg", "4096", "--replace"], before).status == 0
    assert seen == [0] and segment("check", "a.seg").returncode == 0


def test_what_takes_a_kept_name_stays(made):
    """Another file takes the name that an empty one keeps, before that is locked."""
    os.remove("a.seg")

    def before(call, names):
        if call == "link":
            return errno.EPERM
        if call == "flock" and names == ["a.seg"]:
            put("next.seg", made[1])
            os.rename("next.seg", "a.seg")
        return None

    assert Traced(["create", "a.seg", "4096", "--replace"], before).status == 3
    assert read("a.seg") == made[1] and hidden() == []


def test_a_kept_name_is_removed_where_the_file_is_gone():
    def before(call, names):
        if call == "link":
            return errno.EPERM
        if call == "rename":
            os.remove(hidden()[0])
        return None

    assert Traced(["create", "a.seg", "4096", "--replace"], before).status == 3
    assert os.listdir(".") == []


@pytest.mark.parametrize("words", [["run", "--replace"], ["create", "--replace"]], ids=" ".join)
def test_a_call_that_names_and_says_that_it_failed(made, words):
    """A file may have its name though the call says that it failed: then it is done."""
    is_made = words[0] == "create"
    if is_made:
        os.remove("a.seg")

    def before(call, names):
        if call == ("link" if is_made else "rename") and "a.seg" in names:
            os.rename(hidden()[0], "a.seg")
            return errno.EIO
        return None

    more = ["4096", "--replace"] if is_made else ["--replace", "-c", "set n 0 2"]
    assert Traced([words[0], "a.seg", *more], before).status == 0
    assert hidden() == [] and (is_made or number() == 2)


# ---- names are looked at before each rename and removal


@pytest.mark.parametrize("words", [["--replace", "-c", "set n 0 9"], ["-c", "size"]], ids=" ".join)
def test_a_file_that_takes_the_name_is_not_replaced(made, words):
    """Another file takes the name while the new one is written."""
    if "--replace" not in words:
        put("a.seg-log", log_of(made))

    def before(call, names):
        if call in ("write", "pwrite") and names[0].startswith(".zaluxhoni-"):
            put("next.seg", made[1])
            os.rename("next.seg", "a.seg")
        return None

    run = Traced(["run", "a.seg", *words], before)
    assert run.status == 3
    assert read("a.seg") == made[1] and hidden() == []


def test_a_log_that_takes_the_name_is_not_replaced(made):
    log, other = log_of(made), log_of(made[:2])
    put("a.seg-log", log)

    def before(call, names):
        if call == "pwrite" and names[0].startswith(".zaluxhoni-"):
            put("other", other)
            os.rename("other", "a.seg-log")
        return None

    run = Traced(["run", "a.seg", "--commit", "-c", "set n 0 9"], before)
    assert run.status == 3
    assert read("a.seg") == made[0] and read("a.seg-log") == other and hidden() == []


@pytest.mark.parametrize("words", SAVERS, ids=" ".join)
def test_a_link_with_the_name_of_a_log_is_not_followed(made, words):
    """In front of each call a link takes the name of the log: what it leads to stays as it is."""
    log = log_of(made)
    at, is_there = 0, True
    while is_there:
        at, is_there, calls = at + 1, False, 0
        put("a.seg", made[0])
        put("a.seg-log", log)
        put("target", log)
        kept = os.stat("target")

        def before(call, names):
            nonlocal is_there, calls
            calls += 1
            if calls == at:
                is_there = True
                os.symlink("target", "link")
                os.rename("link", "a.seg-log")

        Traced(["run", "a.seg", *words], before)
        found = os.stat("target")
        assert (found.st_ino, found.st_mode, read("target")) == (kept.st_ino, kept.st_mode, log), f"behind call {at}"


# ---- what is synced


def test_the_same_again_behind_a_gate_that_was_not_synced(made):
    """A commit whose gate is not synced may be found and lost: the same commit again is written to a new log."""
    syncs = 0

    def before(call, names):
        nonlocal syncs
        # a log that got its name by a link is still known by the hidden one
        if call == "fsync" and names[0].startswith(".zaluxhoni-") and os.path.exists("a.seg-log"):
            syncs += 1
            return errno.EIO if syncs == 2 else None
        return None

    assert Traced(["run", "a.seg", "--commit", "-c", "set n 0 9"], before).status == 3
    assert number() == 9
    left = os.stat("a.seg-log").st_ino
    run = Traced(["run", "a.seg", "--commit", "-c", "set n 0 9"])
    assert run.status == 0 and number() == 9
    assert os.stat("a.seg-log").st_ino != left
    assert any(call[0] == "fsync" and call[1].startswith(".zaluxhoni-") for call in run.calls)


@pytest.mark.parametrize("words", [["-c", "size"], ["--replace", "-c", "size"]], ids=" ".join)
def test_a_file_that_has_the_image_is_synced_with_its_name(made, words):
    """Who wrote the image may have been killed before it was synced."""
    run = Traced(["run", "a.seg", *words])
    assert run.status == 0
    assert ("fsync", "a.seg") in run.calls and ("fsync", os.path.basename(os.getcwd())) in run.calls


def test_a_save_in_place_syncs_the_name(made):
    """Who gave the file its name may have been killed before that was synced."""
    run = Traced(["run", "a.seg", "-c", "set n 0 2"])
    assert run.status == 0
    assert ("fsync", "a.seg") in run.calls and ("fsync", os.path.basename(os.getcwd())) in run.calls


@pytest.mark.skipif(os.getuid() != 0, reason="root alone becomes another user")
@pytest.mark.parametrize(
    "words",
    [["create", "d/b.seg", "4096"], ["create", "d/b.seg", "4096", "--replace"], ["run", "d/a.seg", "--replace", "-c", "set n 0 2"],
     ["run", "d/a.seg", "--commit", "-c", "set n 0 2"]],
    ids=" ".join,
)
def test_a_name_that_can_not_be_synced_is_not_made(made, words):
    os.mkdir("d")
    put("d/a.seg", made[0])
    for name in ("d/a.seg", "d"):
        os.chown(name, 65534, 65534)
    for name in (".", "..", "../.."):
        os.chmod(name, 0o755)
    os.chmod("d", 0o300)
    run = Traced([*words[:2], "--verbose", *words[2:]], user=65534)
    assert run.status == 3 and "its folder can not be read" in run.err, (run.status, run.err)
    assert os.listdir("d") == ["a.seg"] and read("d/a.seg") == made[0]


# ---- locks

NO_LOCKS = [errno.EOPNOTSUPP, errno.ENOSYS, errno.EINVAL]


@pytest.mark.parametrize("number_of_error", [errno.EBADF, errno.ENOLCK, errno.EIO, *NO_LOCKS])
@pytest.mark.parametrize("words", SAVERS[1:], ids=" ".join)
def test_a_file_that_is_not_locked_is_not_written(made, number_of_error, words):
    """Where the system says that it locks no files, a file is written without a lock; each other failure is one."""
    changing = [word if word != "size" else "set n 0 9" for word in words]
    run = Traced(
        ["run", "a.seg", *changing], lambda call, names: number_of_error if call == "flock" and names == ["a.seg"] else None
    )
    if number_of_error in NO_LOCKS:
        assert run.status == 0 and number() == 9
    else:
        assert run.status == 3 and number() == 1 and os.listdir(".") == ["a.seg"]


def test_a_signal_in_a_lock_is_no_answer(made):
    asked = []

    def before(call, names):
        if call == "flock" and names == ["a.seg"]:
            asked.append(call)
            return errno.EINTR if len(asked) == 1 else None
        return None

    assert Traced(["run", "a.seg", "-c", "set n 0 9"], before).status == 0
    assert number() == 9 and len(asked) > 1


def test_a_file_is_open_for_writing_where_it_is_locked(made):
    """Over NFS a file that is open for reading alone can't be locked for writing."""
    modes = []

    def before(call, names, words, at):
        if call == "flock" and names == ["a.seg"]:
            with open(f"/proc/{at}/fdinfo/{words[0]}") as told:
                modes.append(int(told.read().split("flags:")[1].split()[0], 8) & os.O_ACCMODE)

    assert Traced(["run", "a.seg", "-c", "set n 0 9"], with_words=before).status == 0
    assert os.O_RDWR in modes


# ---- a file with several names, and who may put a log beside a file


def test_a_file_with_two_names_gets_no_log(made):
    os.link("a.seg", "b.seg")
    run = segment("run", "a.seg", "--commit", "--verbose", "-c", "set n 0 9")
    assert run.returncode == 3
    assert "has several names, and a log is found by one alone; copy it, or remove the others" in run.stderr
    assert sorted(os.listdir(".")) == ["a.seg", "b.seg"] and number("b.seg") == 1


@pytest.mark.skipif(os.getuid() != 0, reason="root alone gives files to others")
def test_a_log_of_somebody_who_may_only_read_the_file_does_not_count(made):
    log = log_of(made)
    put("a.seg-log", log)
    os.chown("a.seg-log", 65534, 65534)
    os.chmod(".", 0o1777)
    assert number() == 1
    assert segment("run", "a.seg", "-c", "set n 0 9").returncode == 0
    assert number() == 9 and read("a.seg-log") == log
    run = segment("run", "a.seg", "--commit", "--verbose", "-c", "set n 0 8")
    assert run.returncode == 3 and "is not its log; remove or rename it" in run.stderr
    assert number() == 9 and read("a.seg-log") == log


def test_a_new_log_has_the_rights_of_the_file(made):
    """The log was made before the file was closed to others."""
    put("a.seg-log", log_of(made))
    os.chmod("a.seg-log", 0o644)
    os.chmod("a.seg", 0o600)
    assert segment("run", "a.seg", "--commit", "-c", "set n 0 9").returncode == 0
    assert os.stat("a.seg-log").st_mode & 0o777 == 0o600


# ---- readers


def test_a_reader_beside_a_log_that_is_begun_anew(made):
    """An older version empties a log in place: its first record may come again while a reader is in the middle of it. What
    stands behind a shut gate is no commit."""
    one, two, three = made
    log, anew = log_of([one, two, one]), log_of([one, two, three])
    second = len(log_of([one, two])) - 4096
    at, is_there = 0, True
    while is_there:
        at, is_there, calls = at + 1, False, 0
        put("a.seg", one)
        put("a.seg-log", log)

        def before(call, names):
            nonlocal is_there, calls
            if call in ("read", "pread") and names == ["a.seg-log"]:
                calls += 1
                if calls == at:
                    is_there = True
                    with open("a.seg-log", "r+b") as file:
                        file.write(anew[:second] + b"\0" + anew[second + 1 :])

        run = Traced(["run", "a.seg", "-r", "-c", "show n"], before)
        assert run.out in ("i64 1\n", "i64 2\n"), (at, run.out, run.err)
    assert at > 2


def test_a_link_in_a_folder_of_any_name(made):
    """The log is beside the file that a link leads to, also where its whole path is no text, or can't be found."""
    os.mkdir(b"caf\xe9")
    os.chdir(b"caf\xe9")
    put("a.seg", made[0])
    put("a.seg-log", log_of(made))
    os.symlink("b", "link")
    os.symlink("a.seg", "b")
    assert number("link") == 3
    assert segment("run", "link", "-c", "set n 0 9").returncode == 0
    assert number("a.seg") == 9 and os.path.islink("link") and not os.path.exists("a.seg-log")
    assert segment("run", "link", "--commit", "-c", "set n 0 8").returncode == 0
    assert number("link") == 8 and os.path.exists("a.seg-log")


@pytest.mark.parametrize("words", [["create", "b.seg", "4096", "--replace"], ["run", "a.seg", "--replace", "-c", "set n 0 9"]], ids=" ".join)
def test_a_hidden_file_that_can_not_be_locked_is_removed(made, words):
    def before(call, names):
        return errno.ENOLCK if call == "flock" and names[0].startswith(".zaluxhoni-") else None

    assert Traced(words, before).status == 3
    assert hidden() == [] and number() == 1
