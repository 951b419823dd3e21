"""interrupted.py [SECONDS [SEED]]: a timer interrupts a program at any instruction, and its handler raises. However
often that happens, a transaction is whole, no lock is held, and no view is lent that is gone."""
import gc
import io
import os
import random
import signal
import sys
import tempfile
import threading
import time

import zaluxhoni

seconds = float(sys.argv[1]) if len(sys.argv) > 1 else 4.0
chance = random.Random(int(sys.argv[2]) if len(sys.argv) > 2 else 1)
checks = wrong = raised = left = 0


class Interrupt(Exception):
    """What the handler raises."""


# how many interrupts each part wants, and for how many seconds it waits for them: other programs may have the machine
FEW, PATIENCE = 10, 600


def goes_on(until, before):
    """Whether the time is not over, or there were few interrupts since there were so many."""
    return time.monotonic() < until or (raised < before + FEW and time.monotonic() < until + PATIENCE)


def interrupt(*_):
    global raised, left
    # a thread that ends may hand its signal on late, when the call is over
    if left <= 0:
        return
    raised += 1
    left -= 1
    if left > 0:
        signal.setitimer(signal.ITIMER_REAL, chance.uniform(0.00001, 0.0003))
    raise Interrupt


def same(got, wanted, what):
    global checks, wrong
    checks += 1
    if got != wanted:
        wrong += 1
        if wrong < 10:
            print(f"interrupted.py: WRONG {what}: {got!r}, not {wanted!r}, after {raised} interrupts")


def move(s):
    """One of the two numbers is larger, the other smaller, and the lists too."""
    with s.transaction():
        s["a"] += 1
        s["list"].append(s["a"])
        with s.transaction():
            s["b"] -= 1
        s["other"].append(s["b"])


def move_and_fail(s):
    with s.transaction():
        s["a"] += 1
        raise KeyError


def move_beside_a_view(s):
    view = s["list"].view()
    with s.transaction():
        s["a"] += 1
        s["other"].append(7)
        raise KeyError(view[0])


def look(s):
    view = s["list"].view()
    s["other"].view().release()
    return view[0]


def grow(s):
    s["free"].append(1)
    s["map"][len(s["free"])] = 1


def discard(path):
    with zaluxhoni.open(path, "w") as s:
        s["a"] += 1
        raise KeyError


def close(path):
    with zaluxhoni.open(path, "w") as s:
        s["a"] += 1
        s["b"] += 1


def run_files():
    """A block that failed saves nothing, and one that ended all, also where it is interrupted again at its end."""
    path = os.path.join(tempfile.mkdtemp(), "interrupted.seg")
    with zaluxhoni.open(path, "x", size=1024) as s:
        s["a"] = s["b"] = 0
    until, first = time.monotonic() + seconds / 4, raised
    while goes_on(until, first):
        before = sys.stderr
        sys.stderr = io.StringIO()
        call = chance.choice((discard, close))
        interrupted(call, path)
        gc.collect()
        sys.stderr = before
        with zaluxhoni.open(path, "r") as s:
            same(s["a"], s["b"], f"what {call.__name__} left of a file")
        with zaluxhoni.open(path, "w") as s:
            s["n"] = 1


def is_free(lock):
    """Whether another thread can have the lock."""
    answers = []

    def tries():
        if lock.acquire(blocking=False):
            answers.append(True)
            lock.release()

    thread = threading.Thread(target=tries)
    thread.start()
    thread.join()
    return answers == [True]


def interrupted(call, s):
    """Makes the call while the timer runs: it is interrupted up to 8 times. No handler comes behind it."""
    global left
    left = chance.randint(1, 8)
    try:
        try:
            signal.setitimer(signal.ITIMER_REAL, chance.uniform(0.00001, 0.0006))
            call(s)
        except (Interrupt, KeyError):
            pass
        finally:
            left = 0
            stop()
    except Interrupt:
        left = 0
        stop()


def stop():
    """Stops the timer, whenever its last signal comes."""
    for _ in range(3):
        try:
            signal.setitimer(signal.ITIMER_REAL, 0)
        except Interrupt:
            pass


def run(shared):
    s = zaluxhoni.create(16384, check_same_thread=not shared, grow=True)
    s["a"], s["b"], s["list"], s["other"], s["map"], s["free"] = 0, 0, [0], [0], {}, [0]
    until, first = time.monotonic() + seconds / 2, raised
    while goes_on(until, first):
        call = chance.choice((move, move, move_and_fail, move_beside_a_view, look, grow))
        interrupted(call, s)
        gc.collect(0)
        same(is_free(s._lock), True, f"the lock behind {call.__name__}")
        same((s["a"] + s["b"], len(s["list"]), s["list"][-1], s["other"][-1]),
             (0, s["a"] + 1, s["a"], s["b"]), f"what {call.__name__} left")
        same((len(s._steps), s._task, s.sanity()), (0, None, True), "the transactions")
        # nothing is lent: the elements move
        for name in ("list", "other", "free"):
            s[name].reserve(len(s[name]) + 1)
        if len(s["list"]) > 500:
            with s.transaction():
                s["a"], s["b"], s["list"], s["other"], s["free"], s["map"] = 0, 0, [0], [0], [0], {}
            s["list"].trim()
            s["other"].trim()


signal.signal(signal.SIGALRM, interrupt)
run(False)
# before 3.11 handlers run between a lock that `with` took and its block, too
run(sys.version_info >= (3, 11))
run_files()
if raised < 3 * FEW:
    wrong += 1
    print(f"interrupted.py: WRONG, it was interrupted {raised} times")
print(f"interrupted.py: {checks} checks, {raised} interrupts, {wrong} wrong")
sys.exit(wrong != 0)
