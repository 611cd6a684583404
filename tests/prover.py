"""What the test command asks of the prover beside its own `rt ci`: copies of the repository, outside it, in which `rt ci` takes what it has
kept on this machine; and one check of a crate, with changed crates below it passed as source, over the libraries of such a copy. The words
of that check are those that `rt` itself gives to `rattle check`."""

import contextlib
import functools
import os
import resource
import shutil
import subprocess
import tempfile

PARTS = ("src", "specs", "proofs")
# What lies beside a crate's parts and is not copied: what `rt` made, and the edits, of which the caller says which are tried.
LEFT = ("out", "must-fail", "edits")


@functools.cache
def kit():
    guide = subprocess.run(["rt", "doc"], stdout=subprocess.PIPE, text=True, check=True).stdout.strip()
    return os.path.dirname(guide)


@functools.cache
def crates(tree):
    """The crates of crates.txt in their order, each with those that it names."""
    found = {}
    for line in open(f"{tree}/crates.txt", encoding="utf8"):
        name, colon, named = line.split("#")[0].partition(":")
        if colon:
            found[name.strip()] = named.split()
    return found


def reached(tree, name):
    """The crates of the tree on which a crate stands, each after those that it uses."""
    found = {}
    for below in crates(tree)[name]:
        if below in crates(tree):
            found.update(dict.fromkeys([*reached(tree, below), below]))
    return list(found)


@contextlib.contextmanager
def room():
    """A folder outside the repository: `rt ci` reads, and refuses, whatever else lies in one. The test command removes its rooms itself."""
    folder = os.path.realpath(tempfile.mkdtemp(prefix="check-", dir=os.environ.get("TEST_ROOM")))
    try:
        yield folder
    finally:
        shutil.rmtree(folder, ignore_errors=True)


def copy_crates(tree, names, to):
    """A repository of these crates and of those below them, without edits."""
    wanted = [crate for crate in crates(tree) if crate in {other for name in names for other in [name, *reached(tree, name)]}]
    os.makedirs(f"{to}/.git")
    with open(f"{to}/crates.txt", "w", encoding="utf8") as listed:
        listed.writelines(f"{crate}: {' '.join(crates(tree)[crate])}\n" for crate in wanted)
    if os.path.exists(f"{tree}/HANDLES"):
        shutil.copy(f"{tree}/HANDLES", to)

    def left(folder, _):
        return LEFT if os.path.dirname(folder) == f"{tree}/crates" else ()

    for crate in wanted:
        shutil.copytree(f"{tree}/crates/{crate}", f"{to}/crates/{crate}", ignore=left)


def ci(folder, anew=False):
    """`rt ci` over such a copy, which proves only what it has not kept. Gives the exit status and what it said."""
    ended = subprocess.run(["rt", "ci", *(["--anew"] if anew else [])], cwd=folder, stdout=subprocess.PIPE, stderr=subprocess.STDOUT)
    return ended.returncode, ended.stdout.decode("utf8", "replace")


def root_file(folder):
    return next(f"{folder}/src/{file}" for file in ("main.rt", "lib.rt") if os.path.exists(f"{folder}/src/{file}"))


def check(proved, name, sources, kept, jobs=1):
    """Checks the crate `name`. `sources` has the folder of each crate that is passed as source, its own among them; the others are the
    libraries that `rt ci` left in the copy `proved`. What is checked is kept in the folder `kept`, and taken from there where it still
    holds. Gives the exit status and what the prover said."""
    home, named = kit(), crates(proved)
    library = f"{proved}/crates/%s/out/rlib/%s.rlib"
    words = ["--crate-name", name, root_file(sources[name])]
    words += [word for kits in ("core", "std") for word in ("--extern", f"{kits}={home}/rlibs/{kits}.rlib")]
    for below in reached(proved, name):
        if below in sources:
            words += ["--lib", f"{below}:{','.join(['core', 'std', *named[below]])}={root_file(sources[below])}"]
        else:
            if any(below in named[source] for source in sources):
                words += ["--extern", f"{below}={library % (below, below)}"]
            words += ["-L", f"dependency={os.path.dirname(library % (below, below))}"]
    words += ["-L", f"dependency={home}/rlibs", "--antt-project", f"{home}/rattle/logic/antt-project.json"]
    words += ["--logic-built", f"{home}/logic_built", "--incremental", kept, "--jobs", str(jobs)]
    how = {"stdin": subprocess.DEVNULL, "stdout": subprocess.PIPE, "stderr": subprocess.STDOUT}
    ended = subprocess.run([f"{home}/bin/rattle", "check", *words], **how)
    return ended.returncode, ended.stdout.decode("utf8", "replace")


def linked(folder, to):
    """Copies what a check kept, by links where these can be made: the prover replaces such a file and never writes into it."""

    def copy(one, other):
        with contextlib.suppress(OSError):
            if one.endswith(".oantt"):
                return os.link(one, other)
        return shutil.copy2(one, other)

    shutil.copytree(folder, to, copy_function=copy, dirs_exist_ok=True)


def processor_seconds():
    """Of the commands that have ended: a wall clock would count what runs beside."""
    used = resource.getrusage(resource.RUSAGE_CHILDREN)
    return used.ru_utime + used.ru_stime
