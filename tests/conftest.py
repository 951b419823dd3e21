"""What the tests share: the four programs that use the library's files, each asked for the same operations, and the
counts at the end. The program, the library for C (what crates/segment_c/c/build.sh made) and the program of
crates/examples, which stands for Rust, are those of the options; else what rt made; else what .ci/check made."""
import os
import re
import subprocess
import sys
import threading

import pytest

TOP = os.path.dirname(os.path.dirname(os.path.realpath(__file__)))
HERE = f"{TOP}/tests"
BUILT = {
    "program": [f"{TOP}/crates/segment/out/segment", f"{TOP}/out/unproved/segment"],
    "library": [f"{TOP}/crates/segment_c/c/out", f"{TOP}/out/unproved/c"],
    "examples": [f"{TOP}/crates/examples/out/examples", f"{TOP}/out/unproved/examples"],
}
SECONDS = 20


def pytest_addoption(parser):
    for name in BUILT:
        parser.addoption(f"--{name}", help=f"the {name} to test")
    parser.addoption("--case", help="the one test of this name, or with these parameters")
    parser.addoption("--all", action="store_true", help="what is skipped is a failure")


def pytest_configure(config):
    for name, places in BUILT.items():
        given = config.getoption(name) or next((it for it in places if os.path.exists(it)), places[0])
        os.environ[f"ZALUXHONI_{'FOLDER' if name == 'library' else name.upper()}"] = os.path.realpath(given)


def pytest_collection_modifyitems(config, items):
    case = config.getoption("case")
    if case:
        items[:] = [it for it in items if it.name == case or it.name.endswith(f"[{case}]")]


def pytest_terminal_summary(terminalreporter, config):
    """Says in the last line what was tried: `known` are the cases that fail, and of which the table says so."""
    told = {it: len(terminalreporter.stats.get(it, [])) for it in ("passed", "failed", "error", "skipped", "xfailed")}
    reasons = dict.fromkeys(str(it.longrepr[2]) for it in terminalreporter.stats.get("skipped", []))
    for it in reasons:
        terminalreporter.write_line(f"skipped: {it.removeprefix('Skipped: ')}")
    config.told = f"tests: {told['passed']} passed, {told['failed'] + told['error']} failed, {told['skipped']} skipped, {told['xfailed']} known"


def pytest_sessionfinish(session, exitstatus):
    skipped = session.config.pluginmanager.get_plugin("terminalreporter").stats.get("skipped", [])
    if session.config.getoption("all") and skipped and exitstatus == 0:
        session.exitstatus = 1


def pytest_unconfigure(config):
    if hasattr(config, "told"):
        print(config.told)


class Said:
    """What a program answered: what it printed, in lines, and whether it did what it was asked for."""

    def __init__(self, is_done, text):
        self.is_done, self.text = is_done, text


def run(words, given="", cwd=None, **options):
    """Runs a program that is given these lines. One that hangs has answered nothing."""
    try:
        ran = subprocess.run(words, input=given, capture_output=True, encoding="utf-8", errors="replace", timeout=SECONDS, cwd=cwd,
                             **options)
    except subprocess.TimeoutExpired:
        return Said(False, f"no answer in {SECONDS} seconds")
    died = f"\nended by signal {-ran.returncode}" if ran.returncode < 0 else ""
    return Said(ran.returncode == 0, f"{ran.stdout}{ran.stderr}{died}".strip())


class Program:
    """The program `segment`. A command is one run of it."""
    name = "program"

    def __init__(self):
        self.path = os.environ["ZALUXHONI_PROGRAM"]

    def commands(self, operation, path, number):
        sets = ["-c", f"set earned 0 {number}"]
        return {
            "create": [["run", path, "--mode", "create_only", "--size", "65536", "-c", f"construct i64 earned {number}"]],
            "read": [["get", path, "earned"]],
            "open": [["run", path, "-c", "size"]],
            "save": [["run", path, *sets]],
            "replace": [["run", path, "--replace", *sets]],
            "commit": [["run", path, "--commit", *sets]],
            "checkpoint": [["run", path, "--commit", *sets], ["run", path, "-c", "size"]],
        }[operation]

    def answer(self, operation, path, number, cwd, **options):
        said = Said(True, "")
        for words in self.commands(operation, path, number):
            next_said = run([self.path, *words, "--verbose"], cwd=cwd, **options)
            said = Said(said.is_done and next_said.is_done and not re.search(r"^error \d", next_said.text, re.M), next_said.text)
            if not said.is_done:
                break
        return said


class Rust:
    """The program of crates/examples that keeps an inventory, which opens its file or makes it. With a number it commits
    as often, adds 1 each time, and ends by a checkpoint; without one it adds 250, and replaces the file."""
    name = "rust"

    def __init__(self):
        self.path = os.environ["ZALUXHONI_EXAMPLES"]

    def answer(self, operation, path, number, cwd, **options):
        return run([self.path, "inventory", path, *["1"] * (operation in ("commit", "checkpoint"))], cwd=cwd, **options)


class Driver:
    """A program in C or in Python, which reads commands: tests/driver.c, tests/driver.py."""

    def __init__(self, name, words):
        self.name, self.words = name, words

    def commands(self, operation, number):
        return {
            "create": ["open create - 65536", f"set {number}", "close"],
            "read": ["open read -", "get"],
            "open": ["open write -", "discard"],
            "save": ["open write -", f"set {number}", "close"],
            "commit": ["open write durable", f"set {number}", "commit", "discard"],
            "checkpoint": ["open write durable", f"set {number}", "commit", "save", "close"],
            "map": ["open write mapped", f"set {number}", "close"],
        }[operation]

    def answer(self, operation, path, number, cwd, event=None, **options):
        commands = self.commands(operation, number)
        if event:
            commands[1:1] = [f"set {number - 1}", "commit", event]
        return self.ask(commands, path, cwd, **options)

    def ask(self, commands, path, cwd, ends=False, **options):
        """Gives it commands one by one; one that can be called happens between two of them. Where it `ends`, it ends behind
        them as if it were killed."""
        process = subprocess.Popen([*self.words, path], stdin=subprocess.PIPE, stdout=subprocess.PIPE, stderr=subprocess.PIPE,
                                   encoding="utf-8", errors="surrogateescape", cwd=cwd, **options)
        limit = threading.Timer(SECONDS, process.kill)
        limit.start()
        lines = []
        try:
            for command in commands:
                if callable(command):
                    command()
                    continue
                process.stdin.write(f"{command}\n")
                process.stdin.flush()
                lines.append(process.stdout.readline().strip())
                if not re.match(r"ok$|-?\d+$", lines[-1]):
                    break
            if ends:
                process.stdin.write("quit\n")
        except BrokenPipeError:
            pass
        try:
            err = process.communicate()[1]
        except BrokenPipeError:
            err = ""
        limit.cancel()
        if process.returncode < 0:
            lines.append(f"ended by signal {-process.returncode}")
        is_done = process.returncode == 0 and all(re.match(r"ok$|-?\d+$", it) for it in lines)
        return Said(is_done, "\n".join([*lines, err]).strip())


@pytest.fixture(scope="session")
def library():
    """The folder of the library for C."""
    found = os.environ["ZALUXHONI_FOLDER"]
    if not os.path.exists(f"{found}/libzaluxhoni.a"):
        pytest.skip(f"there is no library for C in {found}")
    return found


@pytest.fixture(scope="session")
def drivers(tmp_path_factory):
    """The four programs, by name; None stands for one that is not there."""
    room, found, at = tmp_path_factory.mktemp("drivers"), {}, os.environ["ZALUXHONI_FOLDER"]
    if os.path.exists(os.environ["ZALUXHONI_PROGRAM"]):
        found["program"] = Program()
    if os.path.exists(os.environ["ZALUXHONI_EXAMPLES"]):
        found["rust"] = Rust()
    if os.path.exists(f"{at}/libzaluxhoni.a"):
        subprocess.run(["gcc", "-std=gnu11", "-O1", "-Wall", "-Wextra", "-I", at, "-o", f"{room}/driver", f"{HERE}/driver.c",
                        f"{at}/libzaluxhoni.a", "-pthread"], check=True)
        found["c"] = Driver("c", [f"{room}/driver"])
        found["python"] = Driver("python", ["/usr/bin/python3" if os.path.exists("/usr/bin/python3") else sys.executable, f"{HERE}/driver.py", at])
    # another user runs them, who may not look into root's folders
    for it in (room, *room.parents):
        if str(it).startswith("/tmp/"):
            it.chmod(0o755)
    return found
