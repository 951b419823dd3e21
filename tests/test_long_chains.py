"""Gives the program images whose links are as long as links can be, in a stack of 256 KB: chains and cycles of 1,000,000
nodes as the free tree and as a map, trees of 2^20 - 1 nodes, and a vector of 1,000,000 strings. What must come of each
follows from docs/FORMAT.md: a tree of these nodes is accepted, a chain or a cycle is refused by its class and its offset.
`check --explain` and `run` must both say so; a run of any segment needs some 300 KB of stack for its buffers, so it gets
512. An image takes 100 MB.
"""
import os
import resource
import subprocess
from array import array

import pytest

# what a check gets, and a run
CHECK_STACK, RUN_STACK = 256 * 1024, 512 * 1024
CHAIN = 1_000_000
TREE = 2 ** 20 - 1
NULL = 1
USED, RED = 1, 2
OBJECT, STORAGE, NODE = 0, 8, 12
STRINGS = 262144
MAP_OF_NUMBERS = 196608 + 256 * 5 + 5
WORDS = {
    7: "BadFreeTree",
    10: "SharedBlock",
    11: "BadContainer",
}


def link(at, target):
    """Returns the word of a link at an offset; a target of 0 is none."""
    return (target - at) % 2 ** 64 if target else NULL


def chain_to_the_right(i, n):
    return 0, i + 1 if i < n else 0


def chain_to_the_left(i, n):
    return i - 1, 0


def cycle(i, n):
    return 0, i + 1 if i < n else 1


def cycle_behind_the_root(i, n):
    return 0, i + 1 if i < n else 2


def tree(i, n):
    """The children of the node that stands at place i of n = 2^k - 1, from 1 on, in a tree with all leaves at one depth."""
    half = (i & -i) // 2
    return (i - half, i + half) if half else (0, 0)


def image(tiles, free_root=0):
    """Returns an image of these words from 128 on, of which the last tile has the length that is given."""
    body, last = tiles
    size = 128 + 8 * len(body) + 16
    head = array("Q", [0] * 16)
    head[0] = int.from_bytes(b"MSEGFILE", "little")
    head[1] = 2
    head[2] = size
    head[3] = link(24, free_root)
    head[4] = head[7] = NULL
    return head.tobytes() + body.tobytes() + array("Q", [last, 1]).tobytes()


def gaps(n, shape, root):
    """A segment of n gaps of 32 bytes, each after an object, whose free tree has these links."""
    at = [0] + [128 + 48 + 16 + 80 * i for i in range(n)]
    body = array("Q")
    for i in range(1, n + 1):
        left, right = shape(i, n)
        body.extend([32 if i > 1 else 0, 48 | USED | OBJECT, 2 | 1 << 32, 0, 0, 0, 48, 32])
        body.extend([link(at[i], at[left]), link(at[i] + 8, at[right])])
    return image((body, 32), at[root])


def pairs(n, shape, root):
    """A segment with one map, whose n pairs rise and have these links. The map is at 144."""
    at = [0] + [128 + 64 + 16 + 48 * i for i in range(n)]
    body = array("Q", [0, 64 | USED | OBJECT, MAP_OF_NUMBERS | 1 << 32, 0, link(160, at[root]), n, 0, 0])
    for i in range(1, n + 1):
        left, right = shape(i, n)
        body.extend([48 if i > 1 else 64, 48 | USED | NODE, link(at[i], at[left]), link(at[i] + 8, at[right]), i, 2 * i])
    return image((body, 48))


def strings(n):
    """A segment with a vector of n strings of three letters. The vector is at 144, its array at 208."""
    first = 208 + 16 * n + 16
    body = array("Q", [0, 64 | USED | OBJECT, STRINGS | 1 << 32, 0, link(160, 208), n, n, 0])
    body.extend([64, 16 + 16 * n | USED | STORAGE])
    for i in range(n):
        body.extend([link(208 + 16 * i, first + 32 * i), 3])
    for i in range(n):
        body.extend([32 if i else 16 + 16 * n, 32 | USED | STORAGE, 0x636261, 0])
    return image((body, 32))


def last_pair(n):
    return 128 + 64 + 16 + 48 * (n - 1)


# each with its image, its class or 0, and the offsets that may show it
CASES = [
    ("gaps in a chain to the right", lambda: gaps(CHAIN, chain_to_the_right, 1), 7, {24}),
    ("gaps in a chain to the left", lambda: gaps(CHAIN, chain_to_the_left, CHAIN), 7, {24}),
    ("gaps in a cycle", lambda: gaps(CHAIN, cycle, 1), 7, {24}),
    ("gaps in a cycle behind the root", lambda: gaps(CHAIN, cycle_behind_the_root, 1), 7, {24}),
    ("gaps in a tree", lambda: gaps(TREE, tree, 2 ** 19), 0, set()),
    ("pairs in a chain to the right", lambda: pairs(CHAIN, chain_to_the_right, 1), 11, {144}),
    ("pairs in a chain to the left", lambda: pairs(CHAIN, chain_to_the_left, CHAIN), 11, {144}),
    ("pairs in a cycle", lambda: pairs(CHAIN, cycle, 1), 10, {160, last_pair(CHAIN) + 8}),
    ("pairs in a cycle behind the root", lambda: pairs(CHAIN, cycle_behind_the_root, 1), 10,
     {last_pair(1) + 8, last_pair(CHAIN) + 8}),
    ("pairs in a tree", lambda: pairs(TREE, tree, 2 ** 19), 0, set()),
    ("strings", lambda: strings(CHAIN), 0, set()),
]


def answer(stack, *words):
    """Returns the status of the program, and what it prints on both outputs."""
    done = subprocess.run([os.environ["ZALUXHONI_PROGRAM"], *words], input=b"size\n", capture_output=True, timeout=110,
                          preexec_fn=lambda: resource.setrlimit(resource.RLIMIT_STACK, (stack, stack)))
    return done.returncode, done.stdout.decode(), done.stderr.decode()


@pytest.mark.parametrize("make, refusal, offsets", [it[1:] for it in CASES], ids=[it[0] for it in CASES])
def test_image(make, refusal, offsets, tmp_path):
    file = tmp_path / "it.seg"
    file.write_bytes(make())
    checked, run = answer(CHECK_STACK, "check", "--explain", file), answer(RUN_STACK, "run", file)
    size = file.stat().st_size
    file.unlink()
    if not refusal:
        assert checked == (0, "ok\n", "") and run == (0, f"{size}\n", "")
        return
    line = f"segment: image refused: {refusal} {WORDS[refusal]}\n"
    assert run == (1, "", line)
    assert (checked[0], checked[2]) == (1, line) and checked[1].startswith(tuple(f"at {it}: " for it in offsets))
