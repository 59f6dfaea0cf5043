"""What the scripts of tests/ know of the toolchain: where it lies, which crates there are, and the words of a check."""

import functools
import os
import subprocess

ROOT = os.path.dirname(os.path.dirname(os.path.dirname(os.path.realpath(__file__))))


@functools.cache
def kit():
    """The kit's folder, of which `rt doc` prints a page."""
    return os.path.dirname(subprocess.run(["rt", "doc"], capture_output=True, text=True, check=True).stdout.strip())


def text_of(path):
    with open(path, encoding="utf-8") as it:
        return it.read()


@functools.cache
def crates_of(root=ROOT):
    """The repository's crates, each with the libraries that it names, as crates.txt has them."""
    lines = [line.partition("#")[0].partition(":") for line in text_of(f"{root}/crates.txt").splitlines()]
    return {name.split()[0]: uses.split() for name, colon, uses in lines if colon}


@functools.cache
def below(name):
    """The repository's libraries below a crate, each after those that it uses."""
    return list(dict.fromkeys(low for it in crates_of()[name] if it in crates_of() for low in (*below(it), it)))


def root_file(crate_folder):
    """The root file of a crate, as a path inside it."""
    return "src/main.rt" if os.path.isfile(f"{crate_folder}/src/main.rt") else "src/lib.rt"


def check_words(name, libraries=ROOT, links=""):
    """The words of `rattle check` of a crate, to be run in its folder or in a copy of it, over the libraries that are built below the
    folder `libraries`; `links` says what a copy is linked with that declares a foreign function."""
    words = ["--crate-name", name, root_file(f"{ROOT}/crates/{name}"), "-L", f"dependency={kit()}/rlibs"]
    for it in ["std", *crates_of()[name]]:
        words += ["--extern", f"{it}={rlib(it, libraries)}"]
    for it in below(name):
        words += ["-L", f"dependency={os.path.dirname(rlib(it, libraries))}"]
    return [*words, "--antt-project", f"{kit()}/rattle/logic/antt-project.json", "--logic-built", f"{kit()}/logic_built", "--links", f"{name}={links}"]


def rlib(name, libraries=ROOT):
    """Where a library lies: one of the repository as it was built below this folder, or one of the kit."""
    return f"{libraries}/crates/{name}/out/rlib/{name}.rlib" if name in crates_of() else f"{kit()}/rlibs/{name}.rlib"
