"""The table of cases (tests/situations.py), each as a test: a situation is made in a folder of its own, one of the four
programs does one operation there, and what it answers and what it leaves are compared with the table. A case is named
by its situation, its operation and the language: `.ci/check file-cases 'a full disk, save, c'`."""
import os
import re
import resource
import shutil
import stat
import subprocess
import tempfile

import pytest
from situations import ADDS, LANGUAGES, LOGGED, OLD, REASONS, REASONS_IN_RUST, SITUATIONS


class Place:
    """A folder in which a situation is made."""

    def __init__(self, operation, made):
        self.folder, self.operation, self.made, self.mounted = os.fsencode(tempfile.mkdtemp()), operation, made, []
        os.chmod(self.folder, 0o777)
        self.file = self.folder + b"/inventory.seg"

    def copy(self, name, path):
        """Puts a file there that was made before."""
        shutil.copyfile(os.fsencode(self.made[name]), path)
        os.chmod(path, 0o644)

    def mount(self, size="256k"):
        """Mounts a disk in memory as the folder."""
        self.mount_more("-t", "tmpfs", "-o", f"size={size},mode=777", "none", os.fsdecode(self.folder))

    def mount_more(self, *words):
        """Mounts what stands last in the folder."""
        if subprocess.run(["mount", *words], cwd=self.folder, capture_output=True).returncode:
            pytest.skip(f"mount {' '.join(words[:2])}: the system refuses it")
        self.mounted.insert(0, os.path.join(os.fsdecode(self.folder), words[-1]))

    def end(self):
        for it in self.mounted:
            subprocess.run(["umount", "-l", it], check=True)
        shutil.rmtree(self.folder, ignore_errors=True)


@pytest.fixture(scope="session")
def made(drivers, tmp_path_factory):
    """Files that the situations begin with: an inventory; its log, which has one more; and a log without a record."""
    if "c" not in drivers:
        pytest.skip("there is no library for C, which makes the files of the situations")
    room = tmp_path_factory.mktemp("made")
    at = {name: f"{room}/{name}" for name in ("plain", "plain-log", "shut", "shut-log")}
    subprocess.run([f"{os.environ['ZALUXHONI_FOLDER']}/inventory_c", at["plain"]], check=True, stdout=subprocess.DEVNULL)
    shutil.copyfile(at["plain"], at["shut"])
    assert drivers["c"].ask(["open write durable", f"set {LOGGED}", "commit"], at["plain"], None, ends=True).is_done
    drivers["c"].ask(["open write durable", f"set {LOGGED}", "commit", "save", f"set {OLD}", "commit", "save"], at["shut"], None, ends=True)
    assert os.path.getsize(at["plain-log"]) > 4096 and os.path.exists(at["shut-log"])
    return at


def shown(path):
    """What there is at a path, to compare with later."""
    try:
        it = os.lstat(path)
    except FileNotFoundError:
        return None
    told = (stat.S_IFMT(it.st_mode), stat.S_IMODE(it.st_mode), it.st_ino, it.st_uid)
    if stat.S_ISREG(it.st_mode):
        with open(path, "rb") as file:
            return told + (file.read(),)
    if stat.S_ISLNK(it.st_mode):
        return told + (os.readlink(path),)
    return told + (tuple(sorted(os.listdir(path))),) if stat.S_ISDIR(it.st_mode) else told


def cases():
    for situation in SITUATIONS:
        for language, operations in LANGUAGES.items():
            for operation in operations:
                if operation in situation.answers and (language in ("c", "python") or not situation.event):
                    known = situation.known_defect(operation, language)
                    marks = [pytest.mark.xfail(reason=known, strict=True)] if known else []
                    yield pytest.param(situation, operation, language, marks=marks, id=f"{situation.name}, {operation}, {language}")


def options_of(situation):
    """How the process runs: as another user, or with a limit."""
    options = {}
    if situation.user is not None:
        options = {"user": situation.user, "group": situation.user, "extra_groups": []}
    if situation.limit is not None:
        options["preexec_fn"] = lambda: resource.setrlimit(resource.RLIMIT_FSIZE, (situation.limit, situation.limit))
    return options


@pytest.mark.parametrize("situation, operation, language", cases())
def test_case(situation, operation, language, drivers, made):
    if language not in drivers:
        pytest.skip(f"there is no program for {language}")
    if situation.needs and os.geteuid() != 0:
        pytest.skip("only root mounts disks and is other users")
    if situation.needs not in (None, "root") and not shutil.which(situation.needs):
        pytest.skip(f"there is no {situation.needs}")
    at = Place(operation, made)
    try:
        situation.make(at)
        compare(situation, operation, language, drivers, at)
    finally:
        at.end()


def may_read(path, user, group):
    """Returns true if a user of a group may read what is there."""
    words = ["setpriv", f"--reuid={user}", f"--regid={group}", "--clear-groups", "test", "-r", os.fsdecode(path)]
    return subprocess.run(words, check=False).returncode == 0


def number_in(said):
    """Returns the number that a reading printed."""
    found = re.findall(r"^-?\d+$", said.text, re.M)
    return int(found[-1]) if said.is_done and found else None


def compare(situation, operation, language, drivers, at):
    found = situation.found
    number = OLD if operation == "create" else (found or 0) + ADDS.get(operation, 1)
    kept = [at.file + os.fsencode(it) if it.startswith("-") else at.folder + os.fsencode(it) for it in situation.keeps]
    before, had = {it: shown(it) for it in kept}, shown(at.file)
    options = options_of(situation)
    if situation.event:
        number += 1
        options["event"] = lambda: situation.event(at)
    said = drivers[language].answer(operation, os.fsdecode(at.file), number, os.fsdecode(at.folder), **options)
    if situation.outsider:
        assert not may_read(at.file, *situation.outsider), "somebody may read the file who could not"
        log = at.file + b"-log"
        assert operation in ("read", "open") or not may_read(log, *situation.outsider), "somebody may read the log who could not"
    wanted, _, more = situation.answer(operation, language).partition(", ")
    assert {it: shown(it) for it in kept} == before, f"it touched what is not its own, and said: {said.text}"
    if wanted == "done":
        assert said.is_done, said.text
    else:
        assert not said.is_done, f"it was done: {said.text}"
        told = REASONS[wanted] + (f"|{REASONS_IN_RUST}" if language == "rust" else "")
        assert re.search(told, said.text), f"it is not told that this is the reason: {wanted}. It said: {said.text}"
    if operation == "read" and wanted == "done":
        assert number_in(said) == number, said.text
    reader = drivers["program" if situation.answer("read", "program") != "path" else "c"]
    reads = reader.answer("read", os.fsdecode(at.file), 0, os.fsdecode(at.folder))
    if wanted == "done" or more == "committed":
        assert number_in(reads) == number, f"afterwards it is found: {reads.text}"
        assert not any(shown(at.file + os.fsencode(it)) for it in situation.ends), "what should be gone is there"
        assert more != "alone" or os.stat(at.file).st_nlink == 1, "it has another name"
    elif more == "cut":
        assert number_in(reads) is None and shown(at.file) is not None
    elif had is None:
        assert shown(at.file) is None, "a file was made"
    else:
        assert number_in(reads) == found, f"afterwards it is found: {reads.text}"
