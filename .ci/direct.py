"""What scripts beside this one share: the crates of the repository, and the prover's own command for one of them."""
import os
import re
import subprocess
import sys

TOP = os.path.dirname(os.path.dirname(os.path.realpath(__file__)))


def rows():
    """Returns the libraries that each crate names."""
    with open(f"{TOP}/crates.txt") as it:
        return {name: deps.split() for name, deps in re.findall(r"^(\w+)[^:\n]*:(.*)", it.read(), re.M)}


def kit():
    """Returns the folder of the toolchain."""
    return os.path.dirname(subprocess.run(["rt", "doc"], capture_output=True, text=True, check=True).stdout.strip())


def command(verb, name, *words):
    """Returns a command of the prover over the libraries as they stand built in out/, by whatever command of rt, with these
    words; it is to be run in the crate's folder, or in a copy of it. Nothing is kept, and nothing taken from earlier checks."""
    crates, below, at = rows(), [name], kit()
    for it in below:
        below += [dep for dep in crates[it] if dep in crates and dep not in below]
    built = {it: f"{TOP}/crates/{it}/out/rlib" for it in below[1:]}
    for it, folder in built.items():
        if not os.path.isdir(folder):
            sys.exit(f"{os.path.basename(sys.argv[0])}: {it} is not built: run rt check in crates/{name} first")
    said = [f"{at}/bin/rattle", verb, "--crate-name", name, "--links", f"{name}="]
    said += ["--antt-project", f"{at}/rattle/logic/antt-project.json", "--logic-built", f"{at}/logic_built"]
    for it in ["std", *crates[name]]:
        said += ["--extern", f"{it}={built[it]}/{it}.rlib" if it in built else f"{it}={at}/rlibs/{it}.rlib"]
    for it in [f"{at}/rlibs", *built.values()]:
        said += ["-L", f"dependency={it}"]
    root = next(it for it in ("src/lib.rt", "src/main.rt") if os.path.isfile(f"{TOP}/crates/{name}/{it}"))
    return [*said, *words, root]
