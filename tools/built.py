"""What the kit has built of the crates, and whether it is of the files as they are now.

`rt ci` leaves each program in crates/NAME/out/NAME and each library in crates/NAME/out/rlib, made anew in each run. A time before that of
a file that it is made of says that it is of other files."""
import os
import re
import subprocess

ROOT = os.path.normpath(os.path.join(os.path.dirname(os.path.abspath(__file__)), ".."))
# The crate of the exported functions, a static library.
EXPORTS = "pitokaenge_c"


def text(path):
    with open(os.path.join(ROOT, path), encoding="utf-8") as file:
        return file.read()


def listed():
    """The crates of crates.txt, each with the crates that it names and the libraries of the kit."""
    lines = re.findall(r"^(\w+)[^:\n#]*:([^#\n]*)", text("crates.txt"), re.M)
    crates = {name: words.split() for name, words in lines}
    return {name: ([it for it in words if it in crates], [it for it in words if it not in crates]) for name, words in crates.items()}


def below(name, crates):
    """The crates that a crate stands on, each after those that it names itself."""
    found = []
    for other in crates[name][0]:
        found += [it for it in [*below(other, crates), other] if it not in found]
    return found


def programs():
    return [name for name in listed() if os.path.exists(os.path.join(ROOT, "crates", name, "src/main.rt"))]


def changed(name, crates):
    """When a file that a crate is made of last changed."""
    latest = os.path.getmtime(os.path.join(ROOT, "crates.txt"))
    for crate in [name, *below(name, crates)]:
        for part in ("src", "specs", "proofs"):
            for folder, _, files in os.walk(os.path.join(ROOT, "crates", crate, part)):
                latest = max([latest, os.path.getmtime(folder), *(os.path.getmtime(os.path.join(folder, file)) for file in files)])
    return latest


def is_fresh(path, name, crates):
    """Whether what stands there was built of the crate as it is now."""
    path = os.path.join(ROOT, path)
    return os.path.exists(path) and os.path.getmtime(path) > changed(name, crates)


def rlib(name):
    return os.path.join(ROOT, f"crates/{name}/out/rlib/{name}.rlib")


def kit():
    """The kit's folder."""
    said = subprocess.run(["rt", "doc"], capture_output=True, text=True, check=True).stdout
    return os.path.dirname(os.path.realpath(said.strip()))


def libraries():
    """Has the libraries below the exported functions built of the files as they are: by the last rt ci, or else by rt lib."""
    crates = listed()
    if not all(is_fresh(rlib(name), name, crates) for name in below(EXPORTS, crates)):
        by_hand()


def by_hand():
    """`rt lib`, which builds each library anew that has changed, and those that rt ci has built."""
    done = subprocess.run(["rt", "lib"], cwd=os.path.join(ROOT, "crates", EXPORTS), stdout=subprocess.PIPE, stderr=subprocess.STDOUT, text=True)
    if done.returncode:
        raise SystemExit(f"{done.stdout[-4000:]}\nrt lib: {EXPORTS} is not proved")


def words(name, crates, home):
    """rattle's words for a crate over the libraries that are built, as rt has them."""
    direct, of_kit = crates[name]
    root = "main" if os.path.exists(os.path.join(ROOT, "crates", name, "src/main.rt")) else "lib"
    found = ["--crate-name", name, f"src/{root}.rt"]
    for library in ("std", *of_kit):
        found += ["--extern", f"{library}={home}/rlibs/{library}.rlib"]
    found += ["-L", f"dependency={home}/rlibs"]
    for library in direct:
        found += ["--extern", f"{library}={rlib(library)}"]
    for library in below(name, crates):
        found += ["-L", f"dependency={os.path.dirname(rlib(library))}"]
    found += ["--antt-project", f"{home}/rattle/logic/antt-project.json", "--logic-built", f"{home}/logic_built", "--links", f"{name}="]
    return found + ["--crate-type", "staticlib"] * (name == EXPORTS)


def rattle(home, verb, name, more):
    """Runs rattle in a crate's folder; returns its status and what it says."""
    done = subprocess.run([f"{home}/bin/rattle", verb, *words(name, listed(), home), *more], cwd=os.path.join(ROOT, "crates", name),
                          stdin=subprocess.DEVNULL, stdout=subprocess.PIPE, stderr=subprocess.STDOUT, text=True, errors="replace")
    return done.returncode or not re.search(r"^logic=proved ", done.stdout, re.M), done.stdout


def static_library(out, toolchain=None):
    """Proves the exported functions over the libraries that are built, and compiles them, as `rt lib` does, into the archive `out`;
    returns what the check says. `rt ci` proves a static library and builds none."""
    home = kit()
    jobs = str(min(4, len(os.sched_getaffinity(0))))
    # The code runs on every x86-64 processor; the kit's own choice wants a later one.
    more = ["--jobs", jobs, "--cpu", "x86-64", "--toolchain", toolchain or f"{home}/toolchain", "--backend", "llvm", "-o", out]
    libraries()
    failed, said = rattle(home, "build", EXPORTS, more)
    if failed:
        # What stands below may be of several runs that do not fit one another.
        by_hand()
        failed, said = rattle(home, "build", EXPORTS, more)
    if failed:
        raise SystemExit(f"{said[-4000:]}\n{EXPORTS} is not proved, or not built")
    return said
